/* The functions of mte_tool.h but for those over histories and timelines: each looks for null pointers, and for numbers that are too large
   for the arguments of the proved function of crates/mte_c, and then calls that. Nothing here is proved. */
#include "layer.h"
#include "sentences.h"

#include <stdlib.h>
#include <string.h>

/* the bytes of an empty text, which is nobody's memory */
static const char no_bytes[1] = "";

const uint64_t layer_no_numbers;

/* ---- structures that begin with their size */

/* more than any version of one will have: a size above is none that was set */
enum { MOST_SIZE = 4096, WORD = sizeof(uint64_t) };

int layer_is_wrong(const void *sized) {
    size_t size;
    if (!sized) return 0;
    memcpy(&size, sized, sizeof size);
    return size < sizeof size || size > MOST_SIZE || size % WORD != 0;
}

int layer_is_later(const void *sized, size_t known) {
    size_t size, i;
    memcpy(&size, sized, sizeof size);
    for (i = known; i < size; i++)
        if (((const char *)sized)[i]) return 1;
    return 0;
}

void layer_put(void *to, const void *found, size_t known) {
    size_t size;
    if (!to) return;
    memcpy(&size, to, sizeof size);
    memcpy((char *)to + WORD, (const char *)found + WORD, (size < known ? size : known) - WORD);
    if (size > known) memset((char *)to + known, 0, size - known);
}

mte_tool_end layer_give(mte_tool_end end, const mte_tool_result *found, mte_tool_result *result) {
    layer_put(result, found, sizeof *found);
    return end;
}

mte_tool_end layer_options(const mte_tool_options *options, narrow_options *narrow) {
    mte_tool_options wide = MTE_TOOL_OPTIONS(0);
    if (layer_is_wrong(options)) return MTE_TOOL_MISUSE;
    if (options) {
        memcpy(&wide, options, options->size < sizeof wide ? options->size : sizeof wide);
        if (layer_is_later(options, sizeof wide)) return MTE_TOOL_BAD_OPTION;
    }
    *narrow = narrowed(&wide);
    return MTE_TOOL_DONE;
}

/* ---- texts */

/* Moves the bytes of a text of the proved functions into an empty one for the caller. */
static mte_tool_end hand_over(held_text *held, mte_tool_text *answer) {
    size_t length = held->length;
    char *bytes = length > 0 ? layer_malloc(length + 1) : NULL;
    if (bytes) {
        answer->bytes = bytes;
        answer->length = mte_c_read(held, 0, (uint8_t *)bytes, length);
        answer->bytes[answer->length] = 0;
        answer->room = length + 1;
    }
    mte_c_free(held);
    return length == 0 || bytes ? MTE_TOOL_DONE : MTE_TOOL_OUT_OF_MEMORY;
}

/* The number after a word that a text begins with; 0 without that word. */
static uint64_t number_after(const mte_tool_text *text, const char *word) {
    size_t n = strlen(word);
    return text->length > n && !memcmp(text->bytes, word, n) ? strtoull(text->bytes + n, NULL, 10) : 0;
}

/* How a call ends over an input that is too long: the proved call over none in its place says whether the options are
   taken. */
static mte_tool_end refuse_length(uint8_t command, narrow_options options, mte_tool_text *answer,
                                  mte_tool_result *found) {
    static const char fault[] = "80 InputTooLong";
    held_text held = {NULL, 0};
    ending ended = mte_c_call(command, options, (const uint8_t *)no_bytes, 0, &held);
    mte_c_free(&held);
    if (ended.end == MTE_TOOL_OUT_OF_MEMORY || ended.end == MTE_TOOL_BAD_OPTION) return (mte_tool_end)ended.end;
    if (mte_tool_text_append(answer, fault, sizeof fault - 1) != MTE_TOOL_DONE) return MTE_TOOL_OUT_OF_MEMORY;
    found->code = MTE_TOOL_CODE_INPUT_TOO_LONG;
    return MTE_TOOL_REFUSED;
}

mte_tool_end layer_call(uint8_t command, narrow_options options, slice first, slice input, mte_tool_text *answer, mte_tool_result *found) {
    held_text held = {NULL, 0}; /* the first text, and then the answer */
    ending ended;
    if (input.length > MTE_TOOL_MOST_INPUT) return refuse_length(command, options, answer, found);
    if (first.length > 0 && mte_c_append(first.at, first.length, &held) != MTE_TOOL_DONE) return MTE_TOOL_OUT_OF_MEMORY;
    ended = mte_c_call(command, options, input.at, input.length, &held);
    if (hand_over(&held, answer) != MTE_TOOL_DONE) return MTE_TOOL_OUT_OF_MEMORY;
    found->code = ended.fault;
    found->line = ended.line;
    if (ended.end == MTE_TOOL_NO) {
        found->code = (uint32_t)number_after(answer, "refused ");
        found->at = number_after(answer, "not serving ");
    } else if (ended.end == MTE_TOOL_DONE && (command == SCORE || command == FOOTPRINT)) {
        found->bytes = number_after(answer, command == SCORE ? "waste " : "footprint ");
    }
    return (mte_tool_end)ended.end;
}

static slice whole(slice it) {
    slice made = {it.at ? it.at : &layer_no_numbers, it.length};
    return made;
}

mte_tool_end layer_command(uint8_t command, uint8_t claim, const mte_tool_options *options, slice first, slice input,
                           mte_tool_text *output, mte_tool_result *result) {
    mte_tool_result found = MTE_TOOL_RESULT;
    mte_tool_text answer = MTE_TOOL_TEXT;
    narrow_options narrow;
    mte_tool_end end = layer_options(options, &narrow);
    if (!output || is_unreadable(first.at, first.length) || is_missing(input.at, input.length) ||
        end == MTE_TOOL_MISUSE || layer_is_wrong(result))
        return MTE_TOOL_MISUSE;
    narrow.claim = claim;
    if (end == MTE_TOOL_DONE) end = layer_call(command, narrow, whole(first), whole(input), &answer, &found);
    mte_tool_text_free(output); /* only now, since the input may be in it */
    *output = answer;
    return layer_give(end, &found, result);
}

#define CALL(command, name)                                                                                                \
    mte_tool_end mte_tool_##name(const mte_tool_options *options, const void *input, size_t length, mte_tool_text *output, \
                                 mte_tool_result *result) {                                                                \
        slice none = {NULL, 0}, text = {input, length};                                                                    \
        return layer_command(command, 0, options, none, text, output, result);                                             \
    }

#define CALL_ON(command, name)                                                                                               \
    mte_tool_end mte_tool_##name(const mte_tool_options *options, const void *first, size_t first_length, const void *input, \
                                 size_t length, mte_tool_text *output, mte_tool_result *result) {                            \
        slice leading = {first, first_length}, rest = {input, length};                                                       \
        return layer_command(command, 0, options, leading, rest, output, result);                                            \
    }

CALL_ON(SCORE, score)
CALL(TUNE, tune)
CALL_ON(CHECK, check)
CALL_ON(FOOTPRINT, footprint)
CALL(FIT, fit)
CALL_ON(CHECK_FIT, check_fit)
CALL(PROFILE, profile)
CALL_ON(REPLAY, replay)
CALL(RUN, run)
CALL_ON(PEAKS, peaks)

mte_tool_end mte_tool_text_append(mte_tool_text *text, const void *piece, size_t length) {
    if (!text || is_missing(piece, length)) return MTE_TOOL_MISUSE;
    if (length >= SIZE_MAX / 2 - text->length) return MTE_TOOL_OUT_OF_MEMORY;
    if (text->length + length >= text->room && length > 0) {
        size_t room = 2 * text->length > text->length + length ? 2 * text->length : text->length + length + 1;
        char *bytes = text->room > 0 ? layer_realloc(text->bytes, room) : layer_malloc(room);
        if (!bytes) return MTE_TOOL_OUT_OF_MEMORY;
        text->bytes = bytes;
        text->room = room;
    }
    if (text->room == 0) {
        mte_tool_text_free(text); /* a structure of zeros gets its bytes */
    } else if (length > 0) {
        memcpy(text->bytes + text->length, piece, length);
        text->length += length;
        text->bytes[text->length] = 0;
    }
    return MTE_TOOL_DONE;
}

void mte_tool_text_free(mte_tool_text *text) {
    if (!text) return;
    if (text->room > 0) layer_free(text->bytes);
    text->bytes = (char *)no_bytes;
    text->length = text->room = 0;
}

const char *mte_tool_version(void) {
    return MTE_TOOL_VERSION;
}

uint32_t mte_tool_version_number(void) {
    return MTE_TOOL_VERSION_NUMBER;
}

const char *mte_tool_end_sentence(mte_tool_end end) {
    return (size_t)end < sizeof ends / sizeof *ends ? ends[end] : "there is no such end";
}

/* the place of a code among all; their number for one that is none */
enum { CODE_COUNT = sizeof codes / sizeof *codes };

static size_t place_of(uint32_t code) {
    size_t i = 0;
    while (i < CODE_COUNT && codes[i].code != code) i++;
    return i;
}

const char *mte_tool_code_sentence(uint32_t code) {
    size_t i = place_of(code);
    return i < CODE_COUNT ? codes[i].words : "there is no such code";
}

const char *mte_tool_code_name(uint32_t code) {
    size_t i = place_of(code);
    return i < CODE_COUNT ? codes[i].name : "";
}

/* ---- profiles */

static const uint32_t *numbers_or_none(const uint32_t *at) {
    return at ? at : (const uint32_t *)&layer_no_numbers;
}

static const uint16_t *classes_or_none(const uint16_t *at) {
    return at ? at : (const uint16_t *)&layer_no_numbers;
}

static int is_whole(const mte_tool_profile_arrays *profile) {
    return profile && !is_unreadable(profile->sizes, profile->length) &&
           !is_unreadable(profile->counts, profile->length);
}

enum { CLASSES_TOO_MANY = MTE_TOOL_MOST_CLASSES + 1 }; /* as good as more of them */

/* the two slices of a profile */
#define SLICES(profile) numbers_or_none((profile)->sizes), (profile)->length, numbers_or_none((profile)->counts), (profile)->length

static mte_tool_end give_numbers(numbers got, mte_tool_result *result) {
    mte_tool_result found = MTE_TOOL_RESULT;
    if (got.end == MTE_TOOL_MISUSE) return MTE_TOOL_MISUSE;
    found.code = got.fault;
    found.classes = got.classes;
    found.at = got.at;
    found.bytes = got.waste;
    found.places = got.places;
    return layer_give((mte_tool_end)got.end, &found, result);
}

/* the end of a call whose options can't be taken */
static mte_tool_end refuse_options(mte_tool_end end, mte_tool_result *result) {
    mte_tool_result found = MTE_TOOL_RESULT;
    return end == MTE_TOOL_MISUSE ? end : layer_give(end, &found, result);
}

mte_tool_end mte_tool_score_profile(const mte_tool_options *options, const uint16_t *classes, size_t class_count,
                                    const mte_tool_profile_arrays *profile, mte_tool_result *result) {
    narrow_options narrow;
    mte_tool_end end = layer_options(options, &narrow);
    if (is_unreadable(classes, class_count) || !is_whole(profile) || layer_is_wrong(result)) return MTE_TOOL_MISUSE;
    if (end != MTE_TOOL_DONE) return refuse_options(end, result);
    class_count = at_most(class_count, CLASSES_TOO_MANY);
    return give_numbers(mte_arrays_score(narrow, classes_or_none(classes), class_count, SLICES(profile)), result);
}

mte_tool_end mte_tool_tune_profile(const mte_tool_options *options, const mte_tool_profile_arrays *profile, uint16_t *classes,
                                   size_t class_room, uint64_t *rows, size_t row_room, mte_tool_result *result) {
    uint64_t no_row;
    narrow_options narrow;
    mte_tool_end end = layer_options(options, &narrow);
    if (!classes || is_missing(rows, row_room) || !is_whole(profile) || layer_is_wrong(result)) return MTE_TOOL_MISUSE;
    if (end != MTE_TOOL_DONE) return refuse_options(end, result);
    if (!rows) rows = &no_row;
    /* always enough, and all that the caller needs to have */
    class_room = at_most(class_room, narrow.limit);
    row_room = at_most(row_room, narrow.limit * (profile->length + narrow.largest_class));
    return give_numbers(mte_arrays_tune(narrow, SLICES(profile), classes, class_room, rows, row_room), result);
}

mte_tool_end mte_tool_check_profile(const mte_tool_options *options, const uint16_t *classes, size_t class_count, uint64_t waste,
                                    const uint64_t *rows, size_t row_count, const mte_tool_profile_arrays *profile,
                                    mte_tool_result *result) {
    narrow_options narrow;
    mte_tool_end end = layer_options(options, &narrow);
    if (is_unreadable(classes, class_count) || is_unreadable(rows, row_count) || !is_whole(profile) ||
        layer_is_wrong(result))
        return MTE_TOOL_MISUSE;
    if (end != MTE_TOOL_DONE) return refuse_options(end, result);
    class_count = at_most(class_count, CLASSES_TOO_MANY);
    return give_numbers(mte_arrays_check(narrow, waste, classes_or_none(classes), class_count, rows ? rows : &layer_no_numbers, row_count,
                                         SLICES(profile)),
                        result);
}

/* ---- classes */

enum { GRANULE_BYTES = 16, SMALLEST_CLASS = 2 };

int mte_tool_class_of(const uint16_t *classes, size_t class_count, size_t size) {
    size_t i;
    if (is_missing(classes, class_count) || class_count > MTE_TOOL_MOST_CLASSES) return -1;
    for (i = 0; i < class_count; i++)
        if (classes[i] >= SMALLEST_CLASS && classes[i] <= MTE_TOOL_LARGEST_CLASS && size <= GRANULE_BYTES * (size_t)(classes[i] - 1))
            return (int)i;
    return -1;
}

/* ---- the heap */

static mte_tool_end give_outcome(heap_outcome got, mte_tool_outcome *outcome) {
    mte_tool_outcome found = MTE_TOOL_OUTCOME;
    if (got.end == MTE_TOOL_MISUSE) return MTE_TOOL_MISUSE;
    found.value = got.value;
    found.code = got.code;
    found.granule = got.granule;
    found.memory_tag = got.memory_tag;
    found.pointer_tag = got.pointer_tag;
    found.granule_kind = got.granule_kind;
    layer_put(outcome, &found, sizeof found);
    return (mte_tool_end)got.end;
}

/* a size for the heap, to which all that is above MTE_TOOL_LARGEST_SIZE is one */
static uint32_t request(size_t size) {
    return size > UINT32_MAX ? UINT32_MAX : (uint32_t)size;
}

static uint8_t one_byte(uint64_t number) {
    return number > UINT8_MAX ? UINT8_MAX : (uint8_t)number; /* out of its range too */
}

/* A heap in memory of its own; null where it is not made. */
static mte_tool_heap *made_heap(heap_settings settings, const uint16_t *classes, size_t class_count, heap_outcome *got) {
    mte_tool_heap *heap = layer_malloc(sizeof *heap);
    if (!heap) {
        got->end = MTE_TOOL_OUT_OF_MEMORY;
        return NULL;
    }
    heap->handle = NULL;
    heap->live = 0;
    *got = mte_heap_new(settings, classes, class_count, heap);
    if (heap->live) return heap;
    layer_free(heap);
    return NULL;
}

mte_tool_end mte_tool_heap_new(mte_tool_heap **heap, const mte_tool_options *options, const uint16_t *classes, size_t class_count,
                               mte_tool_outcome *outcome) {
    narrow_options narrow;
    heap_outcome got = {MTE_TOOL_BAD_OPTION, 0, 0, 0, 0, 0, 0};
    mte_tool_end end = layer_options(options, &narrow);
    if (!heap) return MTE_TOOL_MISUSE;
    *heap = NULL;
    if (is_unreadable(classes, class_count) || end == MTE_TOOL_MISUSE || layer_is_wrong(outcome)) return MTE_TOOL_MISUSE;
    if (end == MTE_TOOL_DONE) {
        heap_settings settings = {narrow.granules, narrow.quarantine, narrow.seed};
        *heap = made_heap(settings, classes_or_none(classes), at_most(class_count, CLASSES_TOO_MANY), &got);
    }
    return give_outcome(got, outcome);
}

/* the call on a heap and for an outcome that are as they have to be */
#define ON_HEAP(made) heap && !layer_is_wrong(outcome) ? give_outcome(made, outcome) : MTE_TOOL_MISUSE

mte_tool_end mte_tool_heap_malloc(mte_tool_heap *heap, size_t size, mte_tool_outcome *outcome) {
    return ON_HEAP(mte_heap_malloc(heap, request(size)));
}

mte_tool_end mte_tool_heap_calloc(mte_tool_heap *heap, size_t size, mte_tool_outcome *outcome) {
    return ON_HEAP(mte_heap_calloc(heap, request(size)));
}

mte_tool_end mte_tool_heap_realloc(mte_tool_heap *heap, uint64_t address, size_t size, mte_tool_outcome *outcome) {
    return ON_HEAP(mte_heap_realloc(heap, address, request(size)));
}

mte_tool_end mte_tool_heap_free(mte_tool_heap *heap, uint64_t address, mte_tool_outcome *outcome) {
    return ON_HEAP(mte_heap_free(heap, address));
}

/* Whether a room and an outcome share a byte: the loaded ones would become the outcome's size. */
static int is_in_outcome(const void *room, size_t length, const mte_tool_outcome *outcome) {
    uintptr_t first = (uintptr_t)room, other = (uintptr_t)outcome;
    if (!outcome || layer_is_wrong(outcome)) return 0;
    return first < other ? other - first < length : first - other < outcome->size;
}

mte_tool_end mte_tool_heap_load(mte_tool_heap *heap, uint64_t address, void *room, size_t length, mte_tool_outcome *outcome) {
    uint8_t none;
    if (is_missing(room, length) || is_in_outcome(room, length, outcome)) return MTE_TOOL_MISUSE;
    return ON_HEAP(mte_heap_load(heap, address, room ? room : &none, length));
}

mte_tool_end mte_tool_heap_store(mte_tool_heap *heap, uint64_t address, const void *bytes, size_t length, mte_tool_outcome *outcome) {
    if (is_missing(bytes, length)) return MTE_TOOL_MISUSE;
    return ON_HEAP(mte_heap_store(heap, address, bytes ? bytes : (const void *)&layer_no_numbers, length));
}

mte_tool_end mte_tool_heap_granule(mte_tool_heap *heap, uint64_t granule, mte_tool_outcome *outcome) {
    return ON_HEAP(mte_heap_granule(heap, granule > UINT32_MAX ? UINT32_MAX : (uint32_t)granule));
}

mte_tool_end mte_tool_heap_addg(mte_tool_heap *heap, uint64_t address, uint64_t granules, uint64_t step, mte_tool_outcome *outcome) {
    return ON_HEAP(mte_heap_addg(heap, address, one_byte(granules), one_byte(step)));
}

void mte_tool_heap_close(mte_tool_heap *heap) {
    if (!heap) return;
    mte_heap_close(heap);
    layer_free(heap);
}
