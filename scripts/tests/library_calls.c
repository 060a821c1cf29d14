/* Calls of the static library, as scripts/tests/test_library.py has them made.

   library_calls PIECE FOLDER COUNT    makes the calls 0 to COUNT-1 of the folder, with inputs in pieces of PIECE bytes (0: whole)
   library_calls threads FOLDER COUNT  the same in 16 threads at once
   library_calls refuse FOLDER COUNT   each call with each growth of memory refused in turn; then the calls over arrays, a text that is
                                       appended to, and a new heap

   A call N has the files N.call (the command, the options in the order of mte_tool_options, and end, fault and line), N.first, N.input and N.want, the
   text that it has to leave. The first call that goes wrong ends the run with status 1. */
#include <mte_tool.h>

#include <pthread.h>
#include <stdio.h>
#include <stdlib.h>
#include <string.h>

typedef struct {
    mte_tool_end end;
    unsigned code;
    unsigned long line;
} ending;

typedef struct {
    char command[16];
    mte_tool_options options;
    ending want_ending;
    uint8_t *first, *input, *want;
    size_t first_length, length, want_length;
} call;

/* the growth of memory that is refused, and how many blocks live; for one thread */
static long growths, refused_growth, live;
void *__real_malloc(size_t);
void *__real_realloc(void *, size_t);
void __real_free(void *);

void *__wrap_malloc(size_t n) {
    void *at;
    if (refused_growth && ++growths == refused_growth) return NULL;
    at = __real_malloc(n);
    if (refused_growth) live++;
    return at;
}

void *__wrap_realloc(void *at, size_t n) {
    void *now;
    if (refused_growth && ++growths == refused_growth) return NULL;
    now = __real_realloc(at, n);
    if (refused_growth && !at) live++;
    return now;
}

void __wrap_free(void *at) {
    if (refused_growth && at) live--;
    __real_free(at);
}

static void wrong(const char *what, int number, const call *c) {
    printf("call %d, %s: %s\n", number, c->command, what);
    exit(1);
}

static uint8_t *read_file(const char *folder, int number, const char *ending, size_t *length) {
    char path[4096];
    FILE *file;
    uint8_t *bytes;
    snprintf(path, sizeof path, "%s/%d.%s", folder, number, ending);
    if (!(file = fopen(path, "rb"))) { perror(path); exit(2); }
    fseek(file, 0, SEEK_END);
    *length = (size_t)ftell(file);
    rewind(file);
    bytes = __real_malloc(*length + 1);
    if (fread(bytes, 1, *length, file) != *length) { perror(path); exit(2); }
    bytes[*length] = 0;
    fclose(file);
    return bytes;
}

static call read_call(const char *folder, int number) {
    call c;
    int end;
    size_t n, i;
    char *words = (char *)read_file(folder, number, "call", &n), *rest = words + strcspn(words, " ");
    uint64_t options[sizeof c.options / sizeof(uint64_t)] = {sizeof c.options};
    if (sscanf(words, "%15s", c.command) != 1) exit(2);
    for (i = 1; i < sizeof options / sizeof *options; i++) options[i] = strtoull(rest, &rest, 10);
    memcpy(&c.options, options, sizeof options);
    if (sscanf(rest, "%d %u %lu", &end, &c.want_ending.code, &c.want_ending.line) != 3) exit(2);
    c.want_ending.end = (mte_tool_end)end;
    c.first = read_file(folder, number, "first", &c.first_length);
    c.input = read_file(folder, number, "input", &c.length);
    c.want = read_file(folder, number, "want", &c.want_length);
    __real_free(words);
    return c;
}

static ending make(const call *c, const void *input, size_t length, mte_tool_text *output) {
    static const struct {
        const char *name;
        mte_tool_end (*call)(const mte_tool_options *, const void *, size_t, mte_tool_text *, mte_tool_result *);
        mte_tool_end (*call_on)(const mte_tool_options *, const void *, size_t, const void *, size_t, mte_tool_text *, mte_tool_result *);
    } commands[] = {{"score", NULL, mte_tool_score}, {"tune", mte_tool_tune, NULL}, {"check", NULL, mte_tool_check},
                    {"footprint", NULL, mte_tool_footprint}, {"fit", mte_tool_fit, NULL}, {"check-fit", NULL, mte_tool_check_fit},
                    {"peaks", NULL, mte_tool_peaks},
                    {"profile", mte_tool_profile, NULL}, {"replay", NULL, mte_tool_replay}, {"run", mte_tool_run, NULL}};
    mte_tool_result result = MTE_TOOL_RESULT;
    size_t i;
    for (i = 0; i < sizeof commands / sizeof *commands; i++)
        if (!strcmp(c->command, commands[i].name)) {
            mte_tool_end end = commands[i].call ? commands[i].call(&c->options, input, length, output, &result)
                                                : commands[i].call_on(&c->options, c->first, c->first_length, input, length, output, &result);
            return (ending){end, result.code, result.line};
        }
    exit(2);
}

static int has(const mte_tool_text *text, const uint8_t *want, size_t length) {
    if (length == 0) return !*text->bytes && text->length == 0 && text->room == 0;
    return text->length == length && !memcmp(text->bytes, want, length) && !text->bytes[length];
}

static int is_ending(ending a, ending b) {
    return a.end == b.end && a.code == b.code && a.line == b.line;
}

/* makes a call whose input is put together of such pieces */
static void test(const call *c, int number, size_t piece) {
    mte_tool_text input = MTE_TOOL_TEXT, output = MTE_TOOL_TEXT;
    size_t from, n;
    for (from = 0; piece && from < c->length; from += n) {
        n = c->length - from < piece ? c->length - from : piece;
        if (mte_tool_text_append(&input, c->input + from, n) != MTE_TOOL_DONE || input.length != from + n) wrong("append", number, c);
    }
    if (piece && !has(&input, c->input, c->length)) wrong("pieces", number, c);
    if (!is_ending(make(c, piece ? (void *)input.bytes : c->input, c->length, &output), c->want_ending)) wrong("ending", number, c);
    if (!has(&output, c->want, c->want_length)) wrong("text", number, c);
    /* what the output held goes, and it may be the input too */
    if (!is_ending(make(c, c->input, c->length, &output), c->want_ending)) wrong("ending of the second call", number, c);
    if (!has(&output, c->want, c->want_length)) wrong("text of the second call", number, c);
    if (piece && !is_ending(make(c, input.bytes, input.length, &input), c->want_ending)) wrong("in its place", number, c);
    if (piece && !has(&input, c->want, c->want_length)) wrong("text in its place", number, c);
    mte_tool_text_free(&input);
    mte_tool_text_free(&output);
    mte_tool_text_free(&output);
    if (*output.bytes || output.length || output.room) wrong("free", number, c);
}

/* makes a call with each growth refused: it has to report that, or to give its whole answer without it */
static void refuse(const call *c, int number) {
    mte_tool_text output = MTE_TOOL_TEXT;
    long calls_refused = 0, turn;
    ending got;
    for (turn = 1;; turn++) {
        growths = live = 0;
        refused_growth = turn;
        got = make(c, c->input, c->length, &output);
        if (growths < turn) break;
        if (is_ending(got, c->want_ending) && has(&output, c->want, c->want_length)) {
            mte_tool_text_free(&output);
            if (live) wrong("memory is left after a growth less", number, c);
            continue;
        }
        calls_refused++;
        if (!is_ending(got, (ending){MTE_TOOL_OUT_OF_MEMORY, 0, 0})) wrong("out of memory", number, c);
        if (*output.bytes || output.length || live) wrong("left after out of memory", number, c);
    }
    if (!is_ending(got, c->want_ending)) wrong("ending after all", number, c);
    if (!has(&output, c->want, c->want_length)) wrong("text after all", number, c);
    mte_tool_text_free(&output);
    if (live) wrong("memory is left", number, c);
    refused_growth = 0;
    printf("%s %ld\n", c->command, calls_refused);
}

/* Each of these gives its end, and leaves no memory. */

static mte_tool_end tune_and_check(void) {
    static const uint32_t sizes[] = {16, 32, 48}, counts[] = {1, 1, 1};
    mte_tool_profile_arrays profile = {sizes, counts, 3};
    mte_tool_options options = MTE_TOOL_OPTIONS(2);
    mte_tool_result tuned = MTE_TOOL_RESULT;
    uint16_t classes[2];
    uint64_t rows[6];
    mte_tool_end end = mte_tool_tune_profile(&options, &profile, classes, 2, rows, 6, &tuned);
    return end ? end : mte_tool_check_profile(&options, classes, tuned.classes, tuned.bytes, rows, 6, &profile, NULL);
}

static mte_tool_end fit_and_check(void) {
    static const uint32_t sizes[] = {16, 40}, counts[] = {4, 0, 1, 2, 3, 0};
    mte_tool_history_arrays history = {sizes, counts, 2, 3};
    mte_tool_options options = MTE_TOOL_OPTIONS(2);
    mte_tool_result found = MTE_TOOL_RESULT;
    uint16_t classes[2];
    uint64_t rows[4];
    mte_tool_end end = mte_tool_fit_history(&options, &history, classes, 2, rows, 4, &found);
    if (!end) end = mte_tool_footprint_history(NULL, classes, found.classes, &history, NULL);
    return end ? end : mte_tool_check_fit_history(&options, classes, found.classes, found.bytes, rows, 4, &history, NULL);
}

static mte_tool_end fit_timeline_and_check(void) {
    static const uint32_t sizes[] = {16, 40, 16, 40};
    static const uint8_t frees[] = {0, 0, 1, 0};
    mte_tool_timeline_arrays timeline = {sizes, frees, 4};
    mte_tool_options options = MTE_TOOL_OPTIONS(2);
    mte_tool_result found = MTE_TOOL_RESULT;
    uint16_t classes[2];
    uint64_t rows[4];
    uint32_t moments[4];
    mte_tool_end end = mte_tool_fit_timeline(&options, &timeline, classes, 2, rows, 4, moments, 4, &found);
    if (!end) end = mte_tool_footprint_timeline(NULL, classes, found.classes, &timeline, NULL);
    if (end) return end;
    return mte_tool_check_fit_timeline(&options, classes, found.classes, found.bytes, rows, 2 * found.places, moments, found.moments,
                                       &timeline, NULL);
}

static mte_tool_end append(void) {
    mte_tool_text text = MTE_TOOL_TEXT;
    mte_tool_end end = MTE_TOOL_DONE;
    int i;
    for (i = 0; i < 100 && end == MTE_TOOL_DONE; i++) end = mte_tool_text_append(&text, "a text, ", 8);
    if (text.length != (size_t)(end ? i - 1 : i) * 8 || strlen(text.bytes) != text.length) exit(1);
    mte_tool_text_free(&text);
    return end;
}

static mte_tool_end new_heap(void) {
    static const uint16_t classes[] = {2, 4};
    mte_tool_heap *heap;
    mte_tool_end end = mte_tool_heap_new(&heap, NULL, classes, 2, NULL);
    if (!heap != (end != MTE_TOOL_DONE)) exit(1);
    mte_tool_heap_close(heap);
    return end;
}

static void refuse_others(void) {
    static mte_tool_end (*const others[])(void) = {tune_and_check, fit_and_check, fit_timeline_and_check, append, new_heap};
    size_t which;
    for (which = 0; which < sizeof others / sizeof *others; which++)
        for (refused_growth = 1;; refused_growth++) {
            mte_tool_end end;
            growths = live = 0;
            end = others[which]();
            if (live || (end != MTE_TOOL_DONE && (end != MTE_TOOL_OUT_OF_MEMORY || growths < refused_growth))) {
                printf("other %zu: growth %ld refused: end %d, %ld blocks live\n", which, refused_growth, end, live);
                exit(1);
            }
            if (growths < refused_growth) break;
        }
    refused_growth = 0;
}

static call *calls;
static int count;

static void *in_thread(void *given) {
    int i, first = *(int *)given;
    for (i = 0; i < count; i++) test(&calls[(first + i) % count], (first + i) % count, 0);
    return NULL;
}

int main(int argc, char **argv) {
    int i, starts[16];
    pthread_t threads[16];
    if (argc != 4 || !(count = atoi(argv[3]))) return 2;
    calls = __real_malloc(sizeof *calls * (size_t)count);
    for (i = 0; i < count; i++) calls[i] = read_call(argv[2], i);
    if (!strcmp(argv[1], "threads")) {
        for (i = 0; i < 16; i++) {
            starts[i] = i * 7;
            pthread_create(&threads[i], NULL, in_thread, &starts[i]);
        }
        for (i = 0; i < 16; i++) pthread_join(threads[i], NULL);
    } else {
        for (i = 0; i < count; i++)
            if (!strcmp(argv[1], "refuse")) refuse(&calls[i], i);
            else test(&calls[i], i, (size_t)atol(argv[1]));
        if (!strcmp(argv[1], "refuse")) refuse_others();
    }
    for (i = 0; i < count; i++) __real_free(calls[i].first), __real_free(calls[i].input), __real_free(calls[i].want);
    __real_free(calls);
    return 0;
}
