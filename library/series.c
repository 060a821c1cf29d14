/* The functions of mte_tool.h over histories and timelines in arrays. Each writes its arrays as the texts of docs/FORMATS.md, makes the
   proved call over these, and reads the numbers of the answer. What is in range is decided by the proved reader of that text. Nothing here
   is proved. */
#include "layer.h"

#include <stdlib.h>
#include <string.h>

/* ---- the text of an input */

/* A text that is written. One that is too long has no bytes after its first line. */
typedef struct input {
    mte_tool_text text;
    int is_out_of_memory, is_too_long;
} input;

static const input no_input = {MTE_TOOL_TEXT, 0, 0};

/* Nothing comes after more bytes than an input may have: the reader refuses that anyway. */
static void put(input *to, const char *bytes, size_t length) {
    if (to->is_out_of_memory || to->text.length > MTE_TOOL_MOST_INPUT) return;
    to->is_out_of_memory = mte_tool_text_append(&to->text, bytes, length) != MTE_TOOL_DONE;
}

static void put_word(input *to, const char *word) {
    put(to, word, strlen(word));
}

static void put_number(input *to, uint64_t number) {
    char digits[20];
    size_t at = sizeof digits;
    do digits[--at] = (char)('0' + number % 10);
    while ((number /= 10) > 0);
    put(to, digits + at, sizeof digits - at);
}

static void put_line(input *to, const char *word, uint64_t number) {
    put_word(to, word);
    put_number(to, number);
    put_word(to, "\n");
}

/* One class more than a table may have is as good as all. */
static void put_classes(input *to, const uint16_t *classes, size_t count) {
    size_t i;
    put_word(to, "classes");
    for (i = 0; i < count && i <= MTE_TOOL_MOST_CLASSES; i++) {
        put_word(to, " ");
        put_number(to, classes[i]);
    }
    put_word(to, "\n");
}

enum { MOST_SNAPSHOTS = 1024, SHORTEST_LINE = 2, SHORTEST_COUNT = 2 };

/* Whether so many lines, of which none is shorter, are longer than an input may be. No number of them is read then. */
static int is_too_long(input *to, size_t lines, size_t shortest) {
    to->is_too_long = lines > MTE_TOOL_MOST_INPUT / shortest;
    return to->is_too_long;
}

/* Of too many snapshots no count is read. */
static void put_history(input *to, const mte_tool_history_arrays *history) {
    size_t i, k, snapshots = history->snapshots;
    put_line(to, "snapshots ", snapshots);
    if (snapshots > MOST_SNAPSHOTS) return;
    if (is_too_long(to, history->length, SHORTEST_LINE + SHORTEST_COUNT * snapshots)) return;
    for (i = 0; i < history->length && to->text.length <= MTE_TOOL_MOST_INPUT; i++) {
        put_number(to, history->sizes[i]);
        for (k = 0; k < snapshots; k++) {
            put_word(to, " ");
            put_number(to, history->counts[i * snapshots + k]);
        }
        put_word(to, "\n");
    }
}

static const char timeline_line[] = "timeline\n";

enum { LONGEST_EVENT = sizeof "-large\n" };

/* Writes the line of an event, without a byte 0 after it; its length. */
static size_t write_event(char *line, size_t size, int is_free) {
    static const char large[] = {'l', 'a', 'r', 'g', 'e'};
    size_t at = 0, tens = 1;
    if (is_free) line[at++] = '-';
    if (size > MTE_TOOL_LARGEST_SIZE) {
        memcpy(line + at, large, sizeof large);
        at += sizeof large;
    } else {
        while (size / tens >= 10) tens *= 10;
        for (; tens > 0; tens /= 10) line[at++] = (char)('0' + size / tens % 10);
    }
    line[at++] = '\n';
    return at;
}

static void put_timeline(input *to, const mte_tool_timeline_arrays *timeline) {
    char line[LONGEST_EVENT];
    size_t i;
    put_word(to, timeline_line);
    if (is_too_long(to, timeline->length, SHORTEST_LINE)) return;
    for (i = 0; i < timeline->length && to->text.length <= MTE_TOOL_MOST_INPUT; i++)
        put(to, line, write_event(line, timeline->sizes[i], timeline->frees[i]));
}

mte_tool_end mte_tool_timeline_append(mte_tool_text *timeline, size_t size, int is_free) {
    char line[sizeof timeline_line + LONGEST_EVENT];
    size_t begin = timeline && timeline->length == 0 ? sizeof timeline_line - 1 : 0;
    memcpy(line, timeline_line, begin);
    return mte_tool_text_append(timeline, line, begin + write_event(line + begin, size, is_free));
}

static int is_history(const mte_tool_history_arrays *history) {
    if (!history || is_unreadable(history->sizes, history->length)) return 0;
    return history->snapshots == 0 || !is_unreadable(history->counts, history->length);
}

static int is_timeline(const mte_tool_timeline_arrays *timeline) {
    return timeline && !is_unreadable(timeline->sizes, timeline->length) &&
           !is_unreadable(timeline->frees, timeline->length);
}

/* ---- the calls */

/* Whether a fault of this code is one of an entry, and not of what comes before the entries. */
static int is_of_entry(uint32_t code) {
    return (code >= 30 && code <= 32) || code == 37 || code == 38;
}

/* Of a text that is too long only its length is looked at. */
static slice slice_of(const input *it) {
    slice made = {it->text.bytes ? (const void *)it->text.bytes : &layer_no_numbers, it->text.length};
    if (it->is_too_long) made.length = MTE_TOOL_MOST_INPUT + 1;
    return made;
}

/* Makes a call over a first text, which is empty where the call is over one, and the entries, whose text begins with a line of its own; and
   frees both. The answer is put into an empty text. */
static mte_tool_end call(uint8_t command, narrow_options options, input *first, input *given, mte_tool_text *answer,
                         mte_tool_result *found) {
    mte_tool_end end = MTE_TOOL_OUT_OF_MEMORY;
    if (!first->is_out_of_memory && !given->is_out_of_memory)
        end = layer_call(command, options, slice_of(first), slice_of(given), answer, found);
    if (is_of_entry(found->code)) found->at = found->line - 2;
    found->line = 0;
    mte_tool_text_free(&first->text);
    mte_tool_text_free(&given->text);
    return end;
}

/* The verdict of a call: its answer has no numbers but those that `found` has. */
static mte_tool_end judge(uint8_t command, narrow_options options, input *first, input *given, mte_tool_result *result) {
    mte_tool_result found = MTE_TOOL_RESULT;
    mte_tool_text answer = MTE_TOOL_TEXT;
    mte_tool_end end = call(command, options, first, given, &answer, &found);
    mte_tool_text_free(&answer);
    return layer_give(end, &found, result);
}

/* Reads a fit: how many numbers its rows have together, and the rest in `found`. An array that is not null gets its numbers. */
static uint64_t read_fit(const char *line, mte_tool_result *found, uint16_t *classes, uint64_t *rows, uint32_t *moments) {
    uint64_t row_numbers = 0;
    found->classes = found->moments = 0;
    for (; *line; line = strchr(line, '\n') + 1) {
        const char *at = line + strcspn(line, " \n");
        char *next;
        if (*line == 'n') found->bound = strtoull(strstr(line, "than ") + strlen("than "), NULL, 10); /* not shown least: .. than L */
        if (*line == 'r') found->places = 0;
        for (; *line != 'n' && *at == ' '; at = next) {
            uint64_t number = strtoull(at + 1, &next, 10);
            if (*line == 'c') {
                if (classes) classes[found->classes] = (uint16_t)number;
                found->classes++;
            } else if (*line == 'r') {
                if (rows) rows[row_numbers] = number;
                row_numbers++;
                found->places++;
            } else if (*line == 'm') {
                if (moments) moments[found->moments] = (uint32_t)number;
                found->moments++;
            } else if (*line == 'f') {
                found->bytes = number;
            }
        }
    }
    return row_numbers;
}

/* where a fit is put */
typedef struct rooms {
    uint16_t *classes;
    size_t class_room;
    uint64_t *rows;
    size_t row_room;
    uint32_t *moments;
    size_t moment_room;
} rooms;

static int is_room(const rooms *to) {
    return to->classes && !is_missing(to->rows, to->row_room) && !is_missing(to->moments, to->moment_room);
}

static mte_tool_end fit(narrow_options options, input *given, const rooms *to, mte_tool_result *result) {
    mte_tool_result found = MTE_TOOL_RESULT;
    mte_tool_text answer = MTE_TOOL_TEXT;
    input none = no_input;
    mte_tool_end end = call(FIT, options, &none, given, &answer, &found);
    if (end == MTE_TOOL_DONE || end == MTE_TOOL_NO) {
        uint64_t numbers = read_fit(answer.bytes, &found, NULL, NULL, NULL);
        int has_room = to->moment_room >= found.moments;
        read_fit(answer.bytes, &found, to->classes, to->row_room >= numbers ? to->rows : NULL, has_room ? to->moments : NULL);
    }
    mte_tool_text_free(&answer);
    return layer_give(end, &found, result);
}

static int has_no_class_room(narrow_options options, const rooms *to) {
    return options.limit <= MTE_TOOL_MOST_CLASSES && to->class_room < options.limit;
}

/* a table with its certificate, as a caller claims it */
typedef struct claim {
    const uint16_t *classes;
    size_t class_count;
    uint64_t footprint;
    const uint64_t *rows;
    size_t row_count;
    const uint32_t *moments;
    size_t moment_count;
} claim;

static int is_claim(const claim *it) {
    return !is_unreadable(it->classes, it->class_count) && !is_unreadable(it->rows, it->row_count) &&
           !is_unreadable(it->moments, it->moment_count);
}

static int are_limits(narrow_options options) {
    return options.limit >= 1 && options.limit <= MTE_TOOL_MOST_CLASSES &&
           (options.step == 1 || options.step == 2 || options.step == 4 || options.step == 8) && options.largest_class <= 1;
}

/* The line `moments` is there only if there are some. */
static void put_claim(input *to, narrow_options options, const claim *it) {
    size_t i, places = it->row_count / options.limit;
    unsigned row;
    put_classes(to, it->classes, it->class_count);
    put_line(to, "limit ", options.limit);
    if (options.step > 1) put_line(to, "step ", options.step);
    if (options.largest_class) put_line(to, "forced ", MTE_TOOL_LARGEST_CLASS);
    put_line(to, "footprint ", it->footprint);
    for (row = 0; row < options.limit; row++) {
        put_word(to, "row");
        for (i = 0; i < places; i++) {
            put_word(to, " ");
            put_number(to, it->rows[row * places + i]);
        }
        put_word(to, "\n");
    }
    for (i = 0; i < it->moment_count; i++) {
        put_word(to, i == 0 ? "moments " : " ");
        put_number(to, it->moments[i]);
    }
    if (it->moment_count > 0) put_word(to, "\n");
}

/* How a call over the classes and nothing else ends: the checker only says that they are no line of a fit. */
static mte_tool_end end_of_classes(narrow_options options, const claim *it, mte_tool_result *found) {
    input first = no_input, none = no_input;
    mte_tool_text answer = MTE_TOOL_TEXT;
    mte_tool_end end;
    put_classes(&first, it->classes, it->class_count);
    end = call(SCORE, options, &first, &none, &answer, found);
    mte_tool_text_free(&answer);
    return end;
}

/* MTE_TOOL_DONE if a call can be made with what it is given; else how it ends. */
static mte_tool_end begin(const mte_tool_options *options, narrow_options *narrow, int is_good, mte_tool_result *result) {
    mte_tool_result found = MTE_TOOL_RESULT;
    mte_tool_end end = layer_options(options, narrow);
    if (!is_good || end == MTE_TOOL_MISUSE || layer_is_wrong(result)) return MTE_TOOL_MISUSE;
    return end == MTE_TOOL_DONE ? end : layer_give(end, &found, result);
}

static mte_tool_end begin_check(const mte_tool_options *options, narrow_options *narrow, const claim *it, int is_good,
                                mte_tool_result *result) {
    mte_tool_result found = MTE_TOOL_RESULT;
    mte_tool_end end = begin(options, narrow, is_good && is_claim(it), result);
    if (end != MTE_TOOL_DONE) return end;
    if (!are_limits(*narrow)) return layer_give(MTE_TOOL_BAD_OPTION, &found, result);
    if (it->row_count % narrow->limit) return MTE_TOOL_MISUSE;
    end = end_of_classes(*narrow, it, &found);
    return end == MTE_TOOL_DONE ? end : layer_give(end, &found, result);
}

mte_tool_end mte_tool_footprint_history(const mte_tool_options *options, const uint16_t *classes, size_t class_count,
                                        const mte_tool_history_arrays *history, mte_tool_result *result) {
    narrow_options narrow;
    input first = no_input, given = no_input;
    mte_tool_end end = begin(options, &narrow, !is_missing(classes, class_count) && is_history(history), result);
    if (end != MTE_TOOL_DONE) return end;
    put_classes(&first, classes, class_count);
    put_history(&given, history);
    return judge(FOOTPRINT, narrow, &first, &given, result);
}

mte_tool_end mte_tool_footprint_timeline(const mte_tool_options *options, const uint16_t *classes, size_t class_count,
                                         const mte_tool_timeline_arrays *timeline, mte_tool_result *result) {
    narrow_options narrow;
    input first = no_input, given = no_input;
    mte_tool_end end = begin(options, &narrow, !is_missing(classes, class_count) && is_timeline(timeline), result);
    if (end != MTE_TOOL_DONE) return end;
    put_classes(&first, classes, class_count);
    put_timeline(&given, timeline);
    return judge(FOOTPRINT, narrow, &first, &given, result);
}

mte_tool_end mte_tool_fit_history(const mte_tool_options *options, const mte_tool_history_arrays *history, uint16_t *classes,
                                  size_t class_room, uint64_t *rows, size_t row_room, mte_tool_result *result) {
    narrow_options narrow;
    input given = no_input;
    rooms to = {classes, class_room, rows, row_room, NULL, 0};
    mte_tool_end end = begin(options, &narrow, is_room(&to) && is_history(history), result);
    if (end != MTE_TOOL_DONE) return end;
    if (has_no_class_room(narrow, &to)) return MTE_TOOL_MISUSE;
    put_history(&given, history);
    return fit(narrow, &given, &to, result);
}

mte_tool_end mte_tool_fit_timeline(const mte_tool_options *options, const mte_tool_timeline_arrays *timeline, uint16_t *classes,
                                   size_t class_room, uint64_t *rows, size_t row_room, uint32_t *moments, size_t moment_room,
                                   mte_tool_result *result) {
    narrow_options narrow;
    input given = no_input;
    rooms to = {classes, class_room, rows, row_room, moments, moment_room};
    mte_tool_end end = begin(options, &narrow, is_room(&to) && is_timeline(timeline), result);
    if (end != MTE_TOOL_DONE) return end;
    if (has_no_class_room(narrow, &to)) return MTE_TOOL_MISUSE;
    put_timeline(&given, timeline);
    return fit(narrow, &given, &to, result);
}

mte_tool_end mte_tool_check_fit_history(const mte_tool_options *options, const uint16_t *classes, size_t class_count, uint64_t footprint,
                                        const uint64_t *rows, size_t row_count, const mte_tool_history_arrays *history,
                                        mte_tool_result *result) {
    narrow_options narrow;
    input first = no_input, given = no_input;
    claim it = {classes, class_count, footprint, rows, row_count, NULL, 0};
    mte_tool_end end = begin_check(options, &narrow, &it, is_history(history), result);
    if (end != MTE_TOOL_DONE) return end;
    put_claim(&first, narrow, &it);
    put_history(&given, history);
    return judge(CHECK_FIT, narrow, &first, &given, result);
}

mte_tool_end mte_tool_check_fit_timeline(const mte_tool_options *options, const uint16_t *classes, size_t class_count, uint64_t footprint,
                                         const uint64_t *rows, size_t row_count, const uint32_t *moments, size_t moment_count,
                                         const mte_tool_timeline_arrays *timeline, mte_tool_result *result) {
    narrow_options narrow;
    input first = no_input, given = no_input;
    claim it = {classes, class_count, footprint, rows, row_count, moments, moment_count};
    mte_tool_end end = begin_check(options, &narrow, &it, is_timeline(timeline), result);
    if (end != MTE_TOOL_DONE) return end;
    put_claim(&first, narrow, &it);
    put_timeline(&given, timeline);
    return judge(CHECK_FIT, narrow, &first, &given, result);
}
