/* Tunes each input of standard input, and checks the table that it gets: what scripts/tests/library_trips.py draws and
   compares. The arrays have as much room as mte_tool.h says is enough, and no more. */
#include <inttypes.h>
#include <mte_tool.h>
#include <stdio.h>
#include <stdlib.h>

enum { PROFILE, HISTORY, TIMELINE, MOST_MOMENTS = 1024 };

typedef struct trip {
    unsigned kind;
    mte_tool_options options;
    uint32_t *sizes, *counts;
    uint8_t *frees;
    size_t length, snapshots, row_room;
    uint16_t classes[MTE_TOOL_MOST_CLASSES];
    uint64_t *rows;
    uint32_t moments[MOST_MOMENTS];
    mte_tool_result found;
} trip;

static uint64_t number(void) {
    uint64_t read;
    if (scanf("%" SCNu64, &read) != 1) exit(9);
    return read;
}

static void *room(size_t count, size_t size) {
    void *made = malloc(count * size + (count == 0));
    if (!made) exit(8);
    return made;
}

static void take(trip *it) {
    size_t i, counts;
    it->options.limit = number();
    it->options.step = number();
    it->options.largest_class = number();
    it->snapshots = number();
    it->length = number();
    counts = it->length * (it->kind == HISTORY ? it->snapshots : 1);
    it->sizes = room(it->length, sizeof *it->sizes);
    it->counts = room(counts, sizeof *it->counts);
    it->frees = room(counts, 1);
    it->row_room = it->options.limit * (it->length + it->options.largest_class);
    it->rows = room(it->row_room, sizeof *it->rows);
    for (i = 0; i < it->length; i++) it->sizes[i] = (uint32_t)number();
    for (i = 0; i < counts; i++) it->frees[i] = (uint8_t)(it->counts[i] = (uint32_t)number());
}

static mte_tool_end tune(trip *it) {
    mte_tool_profile_arrays profile = {it->sizes, it->counts, it->length};
    mte_tool_history_arrays history = {it->sizes, it->counts, it->length, it->snapshots};
    mte_tool_timeline_arrays timeline = {it->sizes, it->frees, it->length};
    size_t limit = it->options.limit;
    if (it->kind == PROFILE)
        return mte_tool_tune_profile(&it->options, &profile, it->classes, limit, it->rows, it->row_room, &it->found);
    if (it->kind == HISTORY)
        return mte_tool_fit_history(&it->options, &history, it->classes, limit, it->rows, it->row_room, &it->found);
    return mte_tool_fit_timeline(&it->options, &timeline, it->classes, limit, it->rows, it->row_room, it->moments,
                                 MOST_MOMENTS, &it->found);
}

/* The end and the code of the check of the table, with a cost. */
static void check(const trip *it, uint64_t cost) {
    mte_tool_profile_arrays profile = {it->sizes, it->counts, it->length};
    mte_tool_history_arrays history = {it->sizes, it->counts, it->length, it->snapshots};
    mte_tool_timeline_arrays timeline = {it->sizes, it->frees, it->length};
    size_t classes = it->found.classes, rows = it->options.limit * it->found.places;
    mte_tool_result result = MTE_TOOL_RESULT;
    mte_tool_end end;
    if (it->kind == PROFILE)
        end = mte_tool_check_profile(&it->options, it->classes, classes, cost, it->rows, rows, &profile, &result);
    else if (it->kind == HISTORY)
        end = mte_tool_check_fit_history(&it->options, it->classes, classes, cost, it->rows, rows, &history, &result);
    else
        end = mte_tool_check_fit_timeline(&it->options, it->classes, classes, cost, it->rows, rows, it->moments,
                                          it->found.moments, &timeline, &result);
    printf(" %d %" PRIu32, (int)end, result.code);
}

static void make(trip *it) {
    size_t i;
    mte_tool_end end = tune(it);
    printf("%d %" PRIu64 " %" PRIu64 " classes", (int)end, it->found.bytes, it->found.bound);
    for (i = 0; i < it->found.classes; i++) printf(" %u", it->classes[i]);
    if (end == MTE_TOOL_DONE) {
        printf(" rows");
        for (i = 0; i < it->options.limit * it->found.places; i++) printf(" %" PRIu64, it->rows[i]);
        printf(" moments");
        for (i = 0; i < it->found.moments; i++) printf(" %" PRIu32, it->moments[i]);
        printf(" checks");
        check(it, it->found.bytes);
        check(it, it->found.bytes + 1);
    }
    printf("\n");
}

int main(void) {
    static const trip empty = {.options = MTE_TOOL_OPTIONS(0), .found = MTE_TOOL_RESULT};
    trip it = empty;
    for (; scanf("%u", &it.kind) == 1; it = empty) {
        take(&it);
        make(&it);
        free(it.sizes);
        free(it.counts);
        free(it.frees);
        free(it.rows);
    }
    return 0;
}
