/* Where the library takes its memory: from a caller's functions and from nowhere else, and only if they were set before.

   library_memory       sets them, makes calls of each kind, and gives all back
   library_memory late  sets them once the library has taken memory

   It is linked with --wrap for malloc, realloc and free. The first thing that goes wrong ends the run with status 1, and its line. */
#include <mte_tool.h>

#include <stdio.h>
#include <stdlib.h>
#include <string.h>

#define WANT(condition)                              \
    do {                                             \
        if (!(condition)) {                          \
            fprintf(stderr, "line %d\n", __LINE__);  \
            exit(1);                                 \
        }                                            \
    } while (0)

/* the blocks that the functions gave out, how many of them live, and when there are no more */
typedef struct {
    long taken, live, most;
} pool;

static long others; /* the library's calls of malloc, realloc and free */
void *__real_malloc(size_t);
void *__real_realloc(void *, size_t);
void __real_free(void *);

void *__wrap_malloc(size_t bytes) {
    others++;
    return __real_malloc(bytes);
}

void *__wrap_realloc(void *block, size_t bytes) {
    others++;
    return __real_realloc(block, bytes);
}

void __wrap_free(void *block) {
    others++;
    __real_free(block);
}

static void *take(void *context, size_t bytes) {
    pool *of = context;
    if (of->taken == of->most) return NULL;
    of->taken++;
    of->live++;
    return __real_malloc(bytes);
}

static void *resize(void *context, void *block, size_t bytes) {
    pool *of = context;
    if (of->taken == of->most) return NULL;
    of->taken++;
    if (!block) of->live++;
    return __real_realloc(block, bytes);
}

static void give(void *context, void *block) {
    pool *of = context;
    if (block) of->live--;
    __real_free(block);
}

static const char profile[] = "16 1\n32 1\n48 1\n", trace[] = "malloc 1 16\nload 1 0 1\n", timeline[] = "timeline\n16\n40\n-16\n";

static void texts(void) {
    mte_tool_options options = MTE_TOOL_OPTIONS(2);
    mte_tool_text input = MTE_TOOL_TEXT, answer = MTE_TOOL_TEXT, verdict = MTE_TOOL_TEXT;
    size_t i;
    for (i = 0; i < sizeof profile - 1; i++) WANT(mte_tool_text_append(&input, profile + i, 1) == MTE_TOOL_DONE);
    WANT(mte_tool_tune(&options, input.bytes, input.length, &answer, NULL) == MTE_TOOL_DONE);
    WANT(mte_tool_check(NULL, answer.bytes, answer.length, input.bytes, input.length, &verdict, NULL) == MTE_TOOL_DONE);
    WANT(mte_tool_fit(&options, timeline, sizeof timeline - 1, &answer, NULL) == MTE_TOOL_DONE);
    WANT(mte_tool_run(&options, trace, sizeof trace - 1, &answer, NULL) == MTE_TOOL_DONE);
    WANT(mte_tool_tune(&options, "x", 1, &answer, NULL) == MTE_TOOL_REFUSED);
    mte_tool_text_free(&input);
    mte_tool_text_free(&answer);
    mte_tool_text_free(&verdict);
}

static void arrays(void) {
    static const uint32_t sizes[] = {16, 32, 48}, counts[] = {1, 1, 1};
    static const uint8_t frees[] = {0, 0, 0};
    mte_tool_profile_arrays counted = {sizes, counts, 3};
    mte_tool_timeline_arrays run = {sizes, frees, 3};
    mte_tool_options options = MTE_TOOL_OPTIONS(2);
    uint16_t classes[2];
    uint64_t rows[6];
    WANT(mte_tool_tune_profile(&options, &counted, classes, 2, rows, 6, NULL) == MTE_TOOL_DONE);
    WANT(mte_tool_check_profile(&options, classes, 2, 16, rows, 6, &counted, NULL) == MTE_TOOL_DONE);
    WANT(mte_tool_fit_timeline(&options, &run, classes, 2, NULL, 0, NULL, 0, NULL) == MTE_TOOL_DONE);
}

static void heaps(void) {
    static const uint16_t classes[] = {2, 4};
    mte_tool_outcome outcome = MTE_TOOL_OUTCOME;
    mte_tool_heap *heap;
    WANT(mte_tool_heap_new(&heap, NULL, classes, 2, NULL) == MTE_TOOL_DONE);
    WANT(mte_tool_heap_malloc(heap, 40, &outcome) == MTE_TOOL_DONE);
    WANT(mte_tool_heap_realloc(heap, outcome.value, 20, &outcome) == MTE_TOOL_DONE);
    WANT(mte_tool_heap_free(heap, outcome.value, &outcome) == MTE_TOOL_DONE);
    mte_tool_heap_close(heap);
}

/* A call that is stopped at any of its growths, and at all after it, leaves nothing. */
static void stopped(pool *of) {
    mte_tool_options options = MTE_TOOL_OPTIONS(2);
    mte_tool_text answer = MTE_TOOL_TEXT;
    mte_tool_end end = MTE_TOOL_OUT_OF_MEMORY;
    long more, stops = -1;
    for (more = 0; end == MTE_TOOL_OUT_OF_MEMORY; more++, stops++) {
        of->most = of->taken + more;
        end = mte_tool_run(&options, trace, sizeof trace - 1, &answer, NULL);
        WANT(end == MTE_TOOL_DONE || (of->live == 0 && answer.length == 0 && !*answer.bytes));
    }
    WANT(end == MTE_TOOL_DONE && stops > FEWEST_STOPS);
    mte_tool_text_free(&answer);
    WANT(of->live == 0);
}

static void late(void) {
    pool of = {0, 0, -1};
    mte_tool_allocator own = {sizeof own, take, resize, give, &of};
    mte_tool_text text = MTE_TOOL_TEXT;
    WANT(mte_tool_set_allocator(NULL) == MTE_TOOL_DONE);
    WANT(mte_tool_text_append(&text, "", 0) == MTE_TOOL_DONE && mte_tool_set_allocator(NULL) == MTE_TOOL_DONE);
    WANT(mte_tool_text_append(&text, "x", 1) == MTE_TOOL_DONE && others > 0);
    WANT(mte_tool_set_allocator(&own) == MTE_TOOL_MISUSE && mte_tool_set_allocator(NULL) == MTE_TOOL_MISUSE);
    WANT(mte_tool_text_append(&text, profile, sizeof profile - 1) == MTE_TOOL_DONE && of.taken == 0);
    mte_tool_text_free(&text);
    WANT(mte_tool_set_allocator(&own) == MTE_TOOL_MISUSE);
}

static void early(void) {
    pool unused = {0, 0, -1}, of = {0, 0, -1};
    mte_tool_allocator first = {sizeof first, take, resize, give, &unused}, own = {sizeof own, take, resize, give, &of}, wrong[5];
    struct {
        mte_tool_allocator known;
        uint64_t later;
    } more;
    mte_tool_text text = MTE_TOOL_TEXT;
    mte_tool_heap *heap;
    size_t i;
    for (i = 0; i < 5; i++) wrong[i] = own;
    wrong[0].take = NULL;
    wrong[1].resize = NULL;
    wrong[2].give = NULL;
    wrong[3].size = 0;
    wrong[4].size -= 8;
    more.known = own;
    more.known.size = sizeof more;
    more.later = 0;
    WANT(mte_tool_set_allocator(&first) == MTE_TOOL_DONE && mte_tool_set_allocator(&more.known) == MTE_TOOL_DONE);
    more.later = 1;
    WANT(mte_tool_set_allocator(&more.known) == MTE_TOOL_BAD_OPTION);
    WANT(mte_tool_set_allocator(&first) == MTE_TOOL_DONE && mte_tool_set_allocator(&own) == MTE_TOOL_DONE);
    for (i = 0; i < 5; i++) WANT(mte_tool_set_allocator(&wrong[i]) == MTE_TOOL_MISUSE);
    own.take = NULL; /* it was copied */
    texts();
    arrays();
    heaps();
    WANT(of.taken > 20 && of.live == 0 && unused.taken == 0);
    WANT(mte_tool_set_allocator(NULL) == MTE_TOOL_MISUSE);
    stopped(&of);
    of.most = of.taken;
    WANT(mte_tool_text_append(&text, "x", 1) == MTE_TOOL_OUT_OF_MEMORY && mte_tool_heap_new(&heap, NULL, NULL, 0, NULL) == MTE_TOOL_OUT_OF_MEMORY);
    WANT(!heap && of.live == 0 && others == 0);
}

int main(int count, char **words) {
    if (count == 2 && !strcmp(words[1], "late")) late();
    else early();
    return 0;
}
