/* Each misuse of the library that can be seen, and options and results of other sizes, as other versions of the interface have. The first
   thing that goes wrong ends the run with status 1, and its line. */
#include <mte_tool.h>

#include <stdio.h>
#include <stdlib.h>
#include <string.h>

#define WANT(condition)                              \
    do {                                             \
        if (!(condition)) {                          \
            fprintf(stderr, "line %d\n", __LINE__);  \
            exit(1);                                 \
        }                                            \
    } while (0)

static const char profile[] = "16 1\n";
enum { LENGTH = sizeof profile - 1 };

typedef mte_tool_end command(const mte_tool_options *, const void *, size_t, mte_tool_text *, mte_tool_result *);
typedef mte_tool_end command_on(const mte_tool_options *, const void *, size_t, const void *, size_t, mte_tool_text *, mte_tool_result *);
static command *const commands[] = {mte_tool_tune, mte_tool_fit, mte_tool_profile, mte_tool_run};
static command_on *const commands_on[] = {mte_tool_score, mte_tool_check, mte_tool_footprint, mte_tool_check_fit, mte_tool_peaks, mte_tool_replay};

static void nulls(void) {
    mte_tool_options options = MTE_TOOL_OPTIONS(2);
    mte_tool_text text = MTE_TOOL_TEXT, zeros = {NULL, 0, 0};
    size_t i;
    for (i = 0; i < sizeof commands / sizeof *commands; i++) {
        WANT(commands[i](&options, NULL, 1, &text, NULL) == MTE_TOOL_MISUSE && !*text.bytes);
        WANT(commands[i](&options, profile, LENGTH, NULL, NULL) == MTE_TOOL_MISUSE);
    }
    for (i = 0; i < sizeof commands_on / sizeof *commands_on; i++) {
        WANT(commands_on[i](&options, NULL, 1, profile, LENGTH, &text, NULL) == MTE_TOOL_MISUSE && !*text.bytes);
        WANT(commands_on[i](&options, profile, LENGTH, NULL, 1, &text, NULL) == MTE_TOOL_MISUSE && !*text.bytes);
        WANT(commands_on[i](&options, profile, LENGTH, profile, LENGTH, NULL, NULL) == MTE_TOOL_MISUSE);
        WANT(commands_on[i](&options, NULL, 0, NULL, 0, &text, NULL) == MTE_TOOL_REFUSED);
        mte_tool_text_free(&text);
    }
    WANT(mte_tool_tune(&options, NULL, 0, &text, NULL) == MTE_TOOL_DONE && text.length > 0 && !memcmp(text.bytes, "classes", 7));
    WANT(mte_tool_tune(&options, NULL, 1, &text, NULL) == MTE_TOOL_MISUSE && text.length > 0); /* it stays */
    mte_tool_text_free(&text);
    mte_tool_text_free(&text);
    mte_tool_text_free(NULL);
    WANT(mte_tool_text_append(&text, NULL, 1) == MTE_TOOL_MISUSE && mte_tool_text_append(NULL, profile, LENGTH) == MTE_TOOL_MISUSE);
    WANT(mte_tool_text_append(&text, NULL, 0) == MTE_TOOL_DONE && text.length == 0 && !*text.bytes);
    WANT(mte_tool_text_append(&zeros, NULL, 0) == MTE_TOOL_DONE && zeros.length == 0 && !*zeros.bytes && zeros.room == 0);
    WANT(mte_tool_text_append(&text, profile, LENGTH) == MTE_TOOL_DONE);
    WANT(mte_tool_text_append(&text, profile, (size_t)-1 - LENGTH) == MTE_TOOL_OUT_OF_MEMORY && text.length == LENGTH);
    WANT(!strcmp(text.bytes, profile));
    mte_tool_text_free(&text);
    /* a structure of zeros is the empty text */
    memset(&zeros, 0, sizeof zeros);
    WANT(mte_tool_text_append(&zeros, profile, LENGTH) == MTE_TOOL_DONE && !strcmp(zeros.bytes, profile));
    mte_tool_text_free(&zeros);
    memset(&zeros, 0, sizeof zeros);
    mte_tool_text_free(&zeros);
    WANT(zeros.bytes && !*zeros.bytes);
    memset(&zeros, 0, sizeof zeros);
    /* an empty answer is the empty text */
    WANT(mte_tool_profile(NULL, NULL, 0, &zeros, NULL) == MTE_TOOL_DONE && zeros.bytes && !*zeros.bytes && zeros.length == 0);
    WANT(mte_tool_profile(NULL, NULL, 0, &text, NULL) == MTE_TOOL_DONE && !*text.bytes && text.length == 0 && text.room == 0);
    WANT(!strcmp(mte_tool_version(), MTE_TOOL_VERSION) && mte_tool_version_number() == MTE_TOOL_VERSION_NUMBER);
    WANT(*mte_tool_end_sentence((mte_tool_end)9) && *mte_tool_code_sentence(9) && !*mte_tool_code_name(9));
}

/* what comes after is the beginning of no input, and an answer goes where the next one is put */
static void apart(void) {
    mte_tool_options options = MTE_TOOL_OPTIONS(2);
    mte_tool_text text = MTE_TOOL_TEXT;
    mte_tool_result result = MTE_TOOL_RESULT;
    WANT(mte_tool_text_append(&text, "x\n", 2) == MTE_TOOL_DONE);
    WANT(mte_tool_tune(&options, profile, LENGTH, &text, NULL) == MTE_TOOL_DONE && !strncmp(text.bytes, "classes 2\n", 10));
    /* the verdict on a sheet takes its place */
    WANT(mte_tool_check(NULL, text.bytes, text.length, profile, LENGTH, &text, &result) == MTE_TOOL_DONE);
    WANT(!strcmp(text.bytes, "optimal\n"));
    WANT(mte_tool_tune(&options, "x\n", 2, &text, &result) == MTE_TOOL_REFUSED && !strcmp(text.bytes, "30 BadLine line 1"));
    WANT(result.code == 30 && result.line == 1);
    options.limit = 0;
    WANT(mte_tool_tune(&options, profile, LENGTH, &text, &result) == MTE_TOOL_BAD_OPTION && !*text.bytes && text.length == 0);
    WANT(result.code == 0 && result.line == 0);
    WANT(mte_tool_score(NULL, "classes 2", 9, "32 1\n", 5, &text, &result) == MTE_TOOL_NO && result.at == 32 && result.bytes == 0);
    WANT(mte_tool_score(NULL, "classes 4\n", 10, "32 1\n", 5, &text, &result) == MTE_TOOL_DONE && result.bytes == 16 && result.at == 0);
    mte_tool_text_free(&text);
}

/* the options of an older and of a newer caller */
static void option_sizes(void) {
    struct {
        mte_tool_options known;
        uint64_t new_one, newer_one;
    } newer = {MTE_TOOL_OPTIONS(2), 0, 0};
    static const char table[] = "classes 4\n", trace[] = "malloc 1 16\nload 1 0 1\n";
    enum { LINE = sizeof table - 1, EVENTS = sizeof trace - 1 };
    mte_tool_text plain = MTE_TOOL_TEXT, text = MTE_TOOL_TEXT;
    mte_tool_options *options = &newer.known;
    size_t size;
    WANT(mte_tool_replay(options, table, LINE, trace, EVENTS, &plain, NULL) == MTE_TOOL_DONE);
    WANT(mte_tool_replay(NULL, table, LINE, trace, EVENTS, &text, NULL) == MTE_TOOL_DONE && !strcmp(plain.bytes, text.bytes));
    WANT(mte_tool_tune(NULL, profile, LENGTH, &text, NULL) == MTE_TOOL_BAD_OPTION); /* a limit has no default */
    /* what an older caller lacks has its default: here all that is not within the size is wrong */
    memset((char *)options + sizeof(size_t), 0xee, sizeof *options - sizeof(size_t));
    options->size = sizeof(size_t);
    WANT(mte_tool_replay(options, table, LINE, trace, EVENTS, &text, NULL) == MTE_TOOL_DONE && !strcmp(plain.bytes, text.bytes));
    WANT(mte_tool_tune(options, profile, LENGTH, &text, NULL) == MTE_TOOL_BAD_OPTION);
    options->size = offsetof(mte_tool_options, step);
    options->limit = 2;
    WANT(mte_tool_tune(options, profile, LENGTH, &text, NULL) == MTE_TOOL_DONE && strstr(text.bytes, "limit 2\nwaste"));
    options->size = sizeof *options; /* now the step is read */
    WANT(mte_tool_tune(options, profile, LENGTH, &text, NULL) == MTE_TOOL_BAD_OPTION);
    /* what a newer caller has is let pass if it is 0 */
    newer.known = (mte_tool_options)MTE_TOOL_OPTIONS(2);
    options->size = sizeof newer;
    WANT(mte_tool_tune(options, profile, LENGTH, &text, NULL) == MTE_TOOL_DONE);
    newer.newer_one = (uint64_t)1 << 63;
    WANT(mte_tool_tune(options, profile, LENGTH, &text, NULL) == MTE_TOOL_BAD_OPTION);
    WANT(mte_tool_score(options, "classes 2", 9, profile, LENGTH, &text, NULL) == MTE_TOOL_BAD_OPTION); /* which reads none */
    options->size -= sizeof newer.newer_one;
    WANT(mte_tool_tune(options, profile, LENGTH, &text, NULL) == MTE_TOOL_DONE);
    /* sizes that nobody set */
    for (size = 0; size < 8192; size++)
        if (size < sizeof(size_t) || size % 8 || size > 4096) {
            options->size = size;
            WANT(mte_tool_tune(options, profile, LENGTH, &text, NULL) == MTE_TOOL_MISUSE && text.length > 0);
        }
    mte_tool_text_free(&plain);
    mte_tool_text_free(&text);
}

/* the results of an older and of a newer caller */
static void result_sizes(void) {
    struct {
        mte_tool_result known;
        uint64_t new_one[4];
    } newer;
    mte_tool_text text = MTE_TOOL_TEXT;
    size_t size, i;
    for (size = 0; size <= sizeof newer + 8; size++) {
        int is_good = size >= 8 && size <= sizeof newer && size % 8 == 0;
        mte_tool_end end;
        memset(&newer, 0xee, sizeof newer);
        newer.known.size = size == sizeof newer + 8 ? (size_t)-8 : size;
        end = mte_tool_tune(NULL, "x", 1, &text, &newer.known);
        WANT(end == (is_good ? MTE_TOOL_BAD_OPTION : MTE_TOOL_MISUSE));
        newer.known.size = size == sizeof newer + 8 ? (size_t)-8 : size;
        for (i = sizeof(size_t); i < sizeof newer; i++)
            WANT(((unsigned char *)&newer)[i] == (is_good && i < size ? 0 : 0xee));
    }
    memset(&newer, 0xee, sizeof newer);
    newer.known.size = offsetof(mte_tool_result, line);
    WANT(mte_tool_profile(NULL, "x\n", 2, &text, &newer.known) == MTE_TOOL_REFUSED && newer.known.code == 70);
    WANT(newer.known.line == 0xeeeeeeeeeeeeeeee);
    newer.known.size = sizeof newer;
    WANT(mte_tool_profile(NULL, "x\n", 2, &text, &newer.known) == MTE_TOOL_REFUSED && newer.known.line == 1 && newer.new_one[3] == 0);
    mte_tool_text_free(&text);
}

static mte_tool_end heap_end(mte_tool_heap *heap, uint64_t address, void *room, size_t length) {
    return mte_tool_heap_load(heap, address, room, length, NULL);
}

/* A room may stand right before or after the outcome, and shares no byte with it. */
static void room_beside_outcome(mte_tool_heap *heap, uint64_t address) {
    struct { uint8_t before[8]; mte_tool_outcome outcome; uint8_t after[8]; } all = {{0}, MTE_TOOL_OUTCOME, {0}};
    uint8_t *const first = (uint8_t *)&all, *const outcome = (uint8_t *)&all.outcome, *const after = all.after;
    const size_t size = all.outcome.size;
    WANT(mte_tool_heap_load(heap, address, first, 9, &all.outcome) == MTE_TOOL_MISUSE && all.outcome.size == size);
    WANT(mte_tool_heap_load(heap, address, outcome, 8, &all.outcome) == MTE_TOOL_MISUSE && all.outcome.size == size);
    WANT(mte_tool_heap_load(heap, address, after - 1, 1, &all.outcome) == MTE_TOOL_MISUSE && all.outcome.size == size);
    WANT(mte_tool_heap_load(heap, address, first, 8, &all.outcome) == MTE_TOOL_DONE && all.outcome.size == size);
    WANT(mte_tool_heap_load(heap, address, after, 8, &all.outcome) == MTE_TOOL_DONE && all.outcome.size == size);
    WANT(mte_tool_heap_load(heap, address, outcome, 8, NULL) == MTE_TOOL_DONE);
}

static void heaps(void) {
    static const uint16_t classes[] = {2, 4}, wrong[] = {4, 2};
    mte_tool_options options = MTE_TOOL_OPTIONS(0), bad = MTE_TOOL_OPTIONS(0);
    mte_tool_heap *const other = (mte_tool_heap *)&options; /* what a pointer held before is not looked at */
    mte_tool_heap *heap = other, *second;
    mte_tool_outcome p = MTE_TOOL_OUTCOME, q = MTE_TOOL_OUTCOME, sized = MTE_TOOL_OUTCOME;
    uint8_t bytes[65] = {1, 2, 3};
    const uint64_t no_tag = 0xffffffffffffff;
    WANT(mte_tool_heap_malloc(NULL, 1, &p) == MTE_TOOL_MISUSE && mte_tool_heap_free(NULL, 0, &p) == MTE_TOOL_MISUSE);
    WANT(mte_tool_heap_realloc(NULL, 0, 1, &p) == MTE_TOOL_MISUSE && mte_tool_heap_addg(NULL, 0, 0, 0, &p) == MTE_TOOL_MISUSE);
    WANT(heap_end(NULL, 0, bytes, 1) == MTE_TOOL_MISUSE && mte_tool_heap_store(NULL, 0, bytes, 1, NULL) == MTE_TOOL_MISUSE);
    WANT(mte_tool_heap_new(NULL, &options, classes, 2, NULL) == MTE_TOOL_MISUSE);
    WANT(mte_tool_heap_new(&heap, &options, NULL, 2, NULL) == MTE_TOOL_MISUSE && !heap);
    WANT(mte_tool_heap_calloc(NULL, 1, NULL) == MTE_TOOL_MISUSE);
    bad.seed = 0;
    WANT(mte_tool_heap_new(&heap, &bad, classes, 2, NULL) == MTE_TOOL_BAD_OPTION && !heap);
    heap = other;
    WANT(mte_tool_heap_new(&heap, NULL, wrong, 2, &p) == MTE_TOOL_REFUSED && p.code == MTE_TOOL_CODE_CLASSES_NOT_ASCENDING && !heap);
    heap = other;
    WANT(mte_tool_heap_new(&heap, NULL, classes, 2, &p) == MTE_TOOL_DONE && heap && heap != other && p.code == 0);
    WANT(mte_tool_heap_new(&second, NULL, classes, 2, NULL) == MTE_TOOL_DONE && second && second != heap);
    mte_tool_heap_close(second);
    WANT(mte_tool_heap_malloc(heap, 40, &p) == MTE_TOOL_DONE && p.value >> 56 != 0 && p.code == 0);
    WANT(mte_tool_heap_malloc(heap, 64, &q) == MTE_TOOL_NO && q.code == 61 && q.value == 0);
    WANT(mte_tool_heap_malloc(heap, (size_t)-1, &q) == MTE_TOOL_NO && q.code == 60);
    WANT(heap_end(heap, p.value, bytes, 0) == MTE_TOOL_BAD_OPTION && heap_end(heap, p.value, bytes, 65) == MTE_TOOL_BAD_OPTION);
    WANT(heap_end(heap, p.value, NULL, 1) == MTE_TOOL_MISUSE && heap_end(heap, p.value & no_tag, bytes, 1) == MTE_TOOL_MISUSE);
    WANT(bytes[0] == 1 && mte_tool_heap_store(heap, p.value & no_tag, bytes, 1, NULL) == MTE_TOOL_MISUSE);
    WANT(heap_end(heap, p.value, bytes, SIZE_MAX) == MTE_TOOL_BAD_OPTION);
    WANT(mte_tool_heap_load(heap, 0, bytes, 1, &q) == MTE_TOOL_NO && q.code == 50);
    WANT(mte_tool_heap_load(heap, p.value ^ ((uint64_t)1 << 60), bytes, 1, &q) == MTE_TOOL_NO && q.code == 50);
    WANT(mte_tool_heap_load(heap, p.value + 48, bytes, 1, &q) == MTE_TOOL_NO && q.code == 52 && q.pointer_tag == p.value >> 56);
    WANT(q.memory_tag != q.pointer_tag);
    room_beside_outcome(heap, p.value);
    /* a smaller outcome gets what it has room for, and a wrong one does nothing */
    sized.size = offsetof(mte_tool_outcome, code);
    WANT(mte_tool_heap_load(heap, p.value + 48, bytes, 1, &sized) == MTE_TOOL_NO && sized.code == 0);
    sized.size = 12;
    WANT(mte_tool_heap_free(heap, p.value, &sized) == MTE_TOOL_MISUSE && heap_end(heap, p.value, bytes, 1) == MTE_TOOL_DONE);
    WANT(mte_tool_heap_granule(heap, (p.value & no_tag) / 16 - MTE_TOOL_REGION_START / 16, &q) == MTE_TOOL_DONE && q.granule_kind == 4);
    WANT(q.memory_tag == p.value >> 56 && (q.value & 1) != (q.memory_tag & 1));
    WANT(mte_tool_heap_granule(heap, q.granule, &q) == MTE_TOOL_DONE && q.granule_kind == 1 && q.memory_tag == 0);
    WANT(mte_tool_heap_granule(heap, 65535, &q) == MTE_TOOL_DONE && q.granule_kind == 2 && q.value > 0);
    WANT(mte_tool_heap_granule(heap, 65536, &q) == MTE_TOOL_BAD_OPTION && q.value == 0);
    WANT(mte_tool_heap_granule(heap, (uint64_t)1 << 32, NULL) == MTE_TOOL_BAD_OPTION && mte_tool_heap_granule(NULL, 0, NULL) == MTE_TOOL_MISUSE);
    WANT(mte_tool_heap_addg(heap, p.value, 64, 0, NULL) == MTE_TOOL_BAD_OPTION);
    WANT(mte_tool_heap_addg(heap, p.value, 0, 16, NULL) == MTE_TOOL_BAD_OPTION);
    WANT(mte_tool_heap_addg(heap, p.value, 1, 0, &q) == MTE_TOOL_DONE && q.value == p.value + 16);
    WANT(mte_tool_heap_realloc(heap, p.value, 20, &p) == MTE_TOOL_DONE);
    WANT(mte_tool_heap_free(heap, p.value + 16, &q) == MTE_TOOL_NO && q.code == 63);
    WANT(mte_tool_heap_free(heap, p.value, &q) == MTE_TOOL_DONE && q.code == 0);
    WANT(mte_tool_heap_free(heap, p.value, &q) == MTE_TOOL_NO && q.code == 64);
    WANT(mte_tool_heap_free(heap, 0, NULL) == MTE_TOOL_DONE && mte_tool_heap_realloc(heap, 1, 1, &q) == MTE_TOOL_NO && q.code == 63);
    mte_tool_heap_close(heap);
    mte_tool_heap_close(NULL);
}

/* a number that is above the range of its option is refused, whatever its lowest bits are */
static void wide(void) {
    static const uint16_t classes[] = {2, 4};
    static const uint32_t numbers[] = {16}, one[] = {1};
    static const uint8_t frees[] = {0};
    mte_tool_profile_arrays counted = {numbers, one, 1};
    mte_tool_history_arrays history = {numbers, one, 1, 1};
    mte_tool_timeline_arrays timeline = {numbers, frees, 1};
    mte_tool_text text = MTE_TOOL_TEXT;
    mte_tool_heap *heap;
    mte_tool_options chosen = MTE_TOOL_OPTIONS(264);
    uint16_t room[300];
    int field, bit;
    WANT(mte_tool_tune(&chosen, profile, LENGTH, &text, NULL) == MTE_TOOL_BAD_OPTION && text.length == 0);
    for (field = 0; field < 5; field++)
        for (bit = field < 2 ? 23 : field == 2 ? 16 : 6; bit < 64; bit++) {
            mte_tool_options good = MTE_TOOL_OPTIONS(8), bad = MTE_TOOL_OPTIONS(8);
            uint64_t *fields[] = {&bad.granules, &bad.quarantine, &bad.seed, &bad.limit, &bad.step};
            *fields[field] += (uint64_t)1 << bit;
            if (bit % 16 == 0) WANT(mte_tool_run(&good, NULL, 0, &text, NULL) == MTE_TOOL_DONE);
            WANT(mte_tool_run(&bad, NULL, 0, &text, NULL) == MTE_TOOL_BAD_OPTION && text.length == 0);
            if (field < 3) {
                WANT(mte_tool_replay(&bad, "classes 2", 9, NULL, 0, &text, NULL) == MTE_TOOL_BAD_OPTION);
                WANT(mte_tool_heap_new(&heap, &bad, classes, 2, NULL) == MTE_TOOL_BAD_OPTION && !heap);
            } else {
                WANT(mte_tool_tune(&bad, profile, LENGTH, &text, NULL) == MTE_TOOL_BAD_OPTION);
                WANT(mte_tool_fit(&bad, "snapshots 1\n", 12, &text, NULL) == MTE_TOOL_BAD_OPTION);
                WANT(mte_tool_tune_profile(&bad, &counted, room, 300, NULL, 0, NULL) == MTE_TOOL_BAD_OPTION);
                WANT(mte_tool_fit_history(&bad, &history, room, 300, NULL, 0, NULL) == MTE_TOOL_BAD_OPTION);
                WANT(mte_tool_fit_timeline(&bad, &timeline, room, 300, NULL, 0, NULL, 0, NULL) == MTE_TOOL_BAD_OPTION);
                WANT(mte_tool_check_profile(&bad, classes, 2, 0, NULL, 0, &counted, NULL) == MTE_TOOL_BAD_OPTION);
                WANT(mte_tool_check_fit_history(&bad, classes, 2, 0, NULL, 0, &history, NULL) == MTE_TOOL_BAD_OPTION);
                WANT(mte_tool_check_fit_timeline(&bad, classes, 2, 0, NULL, 0, NULL, 0, &timeline, NULL) == MTE_TOOL_BAD_OPTION);
            }
        }
    WANT(mte_tool_heap_new(&heap, NULL, classes, 2, NULL) == MTE_TOOL_DONE);
    for (bit = 6; bit < 64; bit++) {
        WANT(mte_tool_heap_addg(heap, 0, (uint64_t)1 << bit, 0, NULL) == MTE_TOOL_BAD_OPTION);
        WANT(mte_tool_heap_addg(heap, 0, 0, ((uint64_t)1 << bit) + 1, NULL) == MTE_TOOL_BAD_OPTION);
    }
    mte_tool_heap_close(heap);
    mte_tool_text_free(&text);
}

/* null for arrays with numbers, too little room, and a wrong result */
static void arrays(void) {
    static const uint16_t classes[] = {2, 4};
    static const uint32_t sizes[] = {16, 40}, counts[] = {1, 2, 3, 4};
    static const uint8_t frees[] = {0, 0};
    static const uint64_t rows[3] = {0, 0, 0};
    mte_tool_options options = MTE_TOOL_OPTIONS(2);
    mte_tool_profile_arrays no_sizes = {NULL, counts, 2}, no_counts = {sizes, NULL, 2}, counted = {sizes, counts, 2};
    mte_tool_history_arrays no_history = {sizes, NULL, 2, 2}, history = {sizes, counts, 2, 2}, empty = {NULL, NULL, 0, 2};
    mte_tool_timeline_arrays no_frees = {sizes, NULL, 2}, timeline = {sizes, frees, 2}, no_events = {NULL, NULL, 0};
    mte_tool_result wrong = MTE_TOOL_RESULT, result = MTE_TOOL_RESULT;
    uint16_t room[2];
    wrong.size = 9;
    WANT(mte_tool_score_profile(NULL, NULL, 1, &counted, NULL) == MTE_TOOL_MISUSE);
    WANT(mte_tool_score_profile(NULL, classes, 2, NULL, NULL) == MTE_TOOL_MISUSE);
    WANT(mte_tool_score_profile(NULL, classes, 2, &no_sizes, NULL) == MTE_TOOL_MISUSE);
    WANT(mte_tool_score_profile(NULL, classes, 2, &no_counts, NULL) == MTE_TOOL_MISUSE);
    WANT(mte_tool_score_profile(NULL, classes, 2, &counted, &wrong) == MTE_TOOL_MISUSE);
    WANT(mte_tool_tune_profile(&options, &counted, NULL, 2, NULL, 0, NULL) == MTE_TOOL_MISUSE);
    WANT(mte_tool_tune_profile(&options, &counted, room, 1, NULL, 0, NULL) == MTE_TOOL_MISUSE);
    WANT(mte_tool_tune_profile(&options, &counted, room, 2, NULL, 1, NULL) == MTE_TOOL_MISUSE);
    WANT(mte_tool_check_profile(&options, classes, 2, 0, NULL, 1, &counted, NULL) == MTE_TOOL_MISUSE);
    WANT(mte_tool_check_profile(&options, classes, 2, 0, rows, 3, &counted, NULL) == MTE_TOOL_MISUSE);
    WANT(mte_tool_footprint_history(NULL, NULL, 1, &history, NULL) == MTE_TOOL_MISUSE);
    WANT(mte_tool_footprint_history(NULL, classes, 2, &no_history, NULL) == MTE_TOOL_MISUSE);
    WANT(mte_tool_footprint_history(NULL, classes, 2, NULL, NULL) == MTE_TOOL_MISUSE);
    WANT(mte_tool_footprint_history(NULL, classes, 2, &history, &wrong) == MTE_TOOL_MISUSE);
    WANT(mte_tool_footprint_history(NULL, NULL, 0, &empty, &result) == MTE_TOOL_DONE && result.bytes == 0);
    WANT(mte_tool_footprint_timeline(NULL, classes, 2, &no_frees, NULL) == MTE_TOOL_MISUSE);
    WANT(mte_tool_footprint_timeline(NULL, classes, 2, NULL, NULL) == MTE_TOOL_MISUSE);
    WANT(mte_tool_footprint_timeline(NULL, NULL, 0, &no_events, &result) == MTE_TOOL_DONE && result.bytes == 0);
    WANT(mte_tool_fit_history(&options, &history, NULL, 2, NULL, 0, NULL) == MTE_TOOL_MISUSE);
    WANT(mte_tool_fit_history(&options, &history, room, 1, NULL, 0, NULL) == MTE_TOOL_MISUSE);
    WANT(mte_tool_fit_history(&options, &history, room, 2, NULL, 1, NULL) == MTE_TOOL_MISUSE);
    WANT(mte_tool_fit_history(&options, &history, room, 2, NULL, 0, &wrong) == MTE_TOOL_MISUSE);
    WANT(mte_tool_fit_timeline(&options, &timeline, room, 1, NULL, 0, NULL, 0, NULL) == MTE_TOOL_MISUSE);
    WANT(mte_tool_fit_timeline(&options, &timeline, room, 2, NULL, 0, NULL, 1, NULL) == MTE_TOOL_MISUSE);
    WANT(mte_tool_fit_timeline(&options, &timeline, room, 2, NULL, 0, NULL, 0, &result) == MTE_TOOL_DONE && result.moments > 0);
    WANT(mte_tool_check_fit_history(&options, NULL, 2, 0, NULL, 0, &history, NULL) == MTE_TOOL_MISUSE);
    WANT(mte_tool_check_fit_history(&options, classes, 2, 0, rows, 3, &history, NULL) == MTE_TOOL_MISUSE);
    WANT(mte_tool_check_fit_timeline(&options, classes, 2, 0, NULL, 0, NULL, 1, &timeline, NULL) == MTE_TOOL_MISUSE);
}

/* lengths that no input has: nothing of it is read, here where it has a few bytes */
static void lengths(void) {
    static const size_t wrong[] = {SIZE_MAX, (size_t)1 << 63, SIZE_MAX / 8};
    static const uint16_t classes[] = {2, 4};
    static const uint32_t numbers[] = {16}, ones[] = {1};
    static const uint64_t rows[2] = {0, 0};
    static const uint8_t frees[] = {0};
    mte_tool_options options = MTE_TOOL_OPTIONS(2), bad = MTE_TOOL_OPTIONS(0);
    mte_tool_profile_arrays counted = {numbers, ones, 1}, long_one = counted;
    mte_tool_history_arrays history = {numbers, ones, 1, 1}, long_history = history;
    mte_tool_timeline_arrays timeline = {numbers, frees, 1}, long_timeline = timeline;
    mte_tool_text text = MTE_TOOL_TEXT;
    mte_tool_result result = MTE_TOOL_RESULT;
    mte_tool_heap *heap;
    uint16_t room[2];
    uint64_t row_room[2];
    size_t i, k;
    for (i = 0; i < sizeof wrong / sizeof *wrong; i++) {
        const size_t n = wrong[i];
        for (k = 0; k < sizeof commands / sizeof *commands; k++) {
            WANT(commands[k](&options, profile, n, &text, &result) == MTE_TOOL_REFUSED && result.code == 80);
            WANT(!strcmp(text.bytes, "80 InputTooLong") && result.line == 0);
        }
        for (k = 0; k < sizeof commands_on / sizeof *commands_on; k++) {
            WANT(commands_on[k](&options, profile, n, profile, LENGTH, &text, NULL) == MTE_TOOL_MISUSE);
            WANT(commands_on[k](&options, "x", 1, profile, n, &text, &result) == MTE_TOOL_REFUSED && result.code == 80);
        }
        WANT(mte_tool_tune(&bad, profile, n, &text, &result) == MTE_TOOL_BAD_OPTION && result.code == 0);
        WANT(!*text.bytes);
        long_one.length = long_history.length = long_timeline.length = n;
        WANT(mte_tool_score_profile(NULL, classes, 2, &long_one, NULL) == MTE_TOOL_MISUSE);
        WANT(mte_tool_score_profile(NULL, classes, n, &counted, NULL) == MTE_TOOL_MISUSE);
        WANT(mte_tool_tune_profile(&options, &long_one, room, 2, NULL, 0, NULL) == MTE_TOOL_MISUSE);
        WANT(mte_tool_check_profile(&options, classes, 2, 0, rows, n, &counted, NULL) == MTE_TOOL_MISUSE);
        WANT(mte_tool_footprint_history(NULL, classes, 2, &long_history, NULL) == MTE_TOOL_MISUSE);
        WANT(mte_tool_fit_timeline(&options, &long_timeline, room, 2, NULL, 0, NULL, 0, NULL) == MTE_TOOL_MISUSE);
        WANT(mte_tool_check_fit_history(&options, classes, 2, 0, rows, n, &history, NULL) == MTE_TOOL_MISUSE);
        WANT(mte_tool_check_fit_timeline(&options, classes, 2, 0, NULL, 0, ones, n, &timeline,
             NULL) == MTE_TOOL_MISUSE);
        WANT(mte_tool_heap_new(&heap, NULL, classes, n, NULL) == MTE_TOOL_MISUSE && !heap);
        /* room is not read, and may be said to be endless */
        WANT(mte_tool_tune_profile(&options, &counted, room, n, row_room, n, &result) == MTE_TOOL_DONE);
        WANT(result.places == 1);
    }
    /* longer than any text may be, and shorter than any memory */
    long_history.length = long_timeline.length = (size_t)1 << 40;
    WANT(mte_tool_fit_history(&options, &long_history, room, 2, NULL, 0, &result) == MTE_TOOL_REFUSED);
    WANT(result.code == 80);
    WANT(mte_tool_footprint_timeline(NULL, classes, 2, &long_timeline, &result) == MTE_TOOL_REFUSED);
    WANT(result.code == 80);
    mte_tool_text_free(&text);
}

/* a timeline that is appended to is the text that the arrays are */
static void events(void) {
    static const uint32_t sizes[] = {0, 9, 10, 12345, MTE_TOOL_LARGEST_SIZE + 1, 4000000000, 10,
         MTE_TOOL_LARGEST_SIZE + 1};
    static const uint8_t frees[] = {0, 0, 0, 0, 0, 0, 1, 1};
    enum { EVENTS = sizeof frees };
    static const char wanted[] = "timeline\n0\n9\n10\n12345\nlarge\nlarge\n-10\n-large\n";
    static const uint16_t classes[] = {2, 1024};
    mte_tool_timeline_arrays arrays = {sizes, frees, EVENTS};
    mte_tool_text text = MTE_TOOL_TEXT, answer = MTE_TOOL_TEXT;
    mte_tool_result result = MTE_TOOL_RESULT, of_arrays = MTE_TOOL_RESULT;
    size_t i;
    for (i = 0; i < EVENTS; i++) WANT(mte_tool_timeline_append(&text, sizes[i], frees[i]) == MTE_TOOL_DONE);
    WANT(!strcmp(text.bytes, wanted) && mte_tool_timeline_append(NULL, 1, 0) == MTE_TOOL_MISUSE);
    WANT(mte_tool_footprint(NULL, "classes 2 1024", 14, text.bytes, text.length, &answer, &result) == MTE_TOOL_DONE);
    WANT(mte_tool_footprint_timeline(NULL, classes, 2, &arrays, &of_arrays) == MTE_TOOL_DONE);
    WANT(result.bytes == of_arrays.bytes);
    WANT(mte_tool_timeline_append(&text, MTE_TOOL_LARGEST_SIZE, 0) == MTE_TOOL_DONE);
    WANT(!strstr(text.bytes + sizeof wanted - 1, "large"));
    text.length = sizeof wanted - 1;
    WANT(mte_tool_timeline_append(&text, SIZE_MAX, -1) == MTE_TOOL_DONE);
    WANT(!strcmp(text.bytes + sizeof wanted - 1, "-large\n"));
    mte_tool_text_free(&text);
    mte_tool_text_free(&answer);
}

/* A text that is the input of a call and has its answer: it is read before it gives way. */
static void own_answer(void) {
    mte_tool_options options = MTE_TOOL_OPTIONS(2);
    mte_tool_text text = MTE_TOOL_TEXT;
    WANT(mte_tool_tune(&options, profile, LENGTH, &text, NULL) == MTE_TOOL_DONE);
    WANT(mte_tool_check(NULL, text.bytes, text.length, profile, LENGTH, &text, NULL) == MTE_TOOL_DONE);
    WANT(!strcmp(text.bytes, "optimal\n"));
    WANT(mte_tool_tune(&options, text.bytes, text.length, &text, NULL) == MTE_TOOL_REFUSED);
    mte_tool_text_free(&text);
    mte_tool_text_free(&text);
}

int main(void) {
    nulls();
    own_answer();
    apart();
    option_sizes();
    result_sizes();
    heaps();
    wide();
    arrays();
    lengths();
    events();
    return 0;
}
