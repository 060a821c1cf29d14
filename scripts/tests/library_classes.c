/* The class of each size by mte_tool_class_of is that of the slot that the proved heap gives out for it, over each table of the lines of
   standard input, classes in granules. The first difference ends the run with status 1, and its line; the output is how many were compared. */
#include <mte_tool.h>

#include <stdio.h>
#include <stdlib.h>

static void want(int is_so, const uint16_t *classes, size_t count, size_t size) {
    size_t i;
    if (is_so) return;
    printf("size %zu in the table", size);
    for (i = 0; i < count; i++) printf(" %d", classes[i]);
    printf("\n");
    exit(1);
}

/* The granules of the slot in which a chunk is, which begins with a header. */
static uint32_t granules_of_slot(mte_tool_heap *heap, uint64_t address) {
    uint64_t granule = ((address & 0xffffffffffffff) - MTE_TOOL_REGION_START) / 16;
    mte_tool_outcome chunk = MTE_TOOL_OUTCOME, next = MTE_TOOL_OUTCOME;
    if (mte_tool_heap_granule(heap, granule, &chunk) != MTE_TOOL_DONE || chunk.granule_kind != MTE_TOOL_GRANULE_LIVE) return 0;
    do granule++;
    while (mte_tool_heap_granule(heap, granule, &next) == MTE_TOOL_DONE && next.granule_kind != MTE_TOOL_GRANULE_SLACK &&
           next.granule == chunk.granule);
    return (uint32_t)(granule - chunk.granule);
}

static long compare(const uint16_t *classes, size_t count) {
    mte_tool_options options = MTE_TOOL_OPTIONS(0);
    mte_tool_heap *heap;
    size_t size;
    options.quarantine = 0;
    want(mte_tool_heap_new(&heap, &options, classes, count, NULL) == MTE_TOOL_DONE, classes, count, 0);
    for (size = 0; size <= MTE_TOOL_LARGEST_SIZE + 100; size++) {
        mte_tool_outcome chunk = MTE_TOOL_OUTCOME;
        int number = mte_tool_class_of(classes, count, size);
        mte_tool_end end = mte_tool_heap_malloc(heap, size, &chunk);
        if (number < 0) {
            want(chunk.code == (size > MTE_TOOL_LARGEST_SIZE ? MTE_TOOL_CODE_LARGE : MTE_TOOL_CODE_NO_CLASS), classes, count, size);
        } else {
            want(end == MTE_TOOL_DONE && granules_of_slot(heap, chunk.value) == classes[number], classes, count, size);
            want(mte_tool_heap_free(heap, chunk.value, NULL) == MTE_TOOL_DONE, classes, count, size);
        }
    }
    mte_tool_heap_close(heap);
    return (long)size;
}

/* what is no table */
static void others(void) {
    static const uint16_t wrong[] = {0, 1, 1025, 65535}, good[] = {2, 4};
    uint16_t many[MTE_TOOL_MOST_CLASSES + 1];
    size_t i;
    for (i = 0; i <= MTE_TOOL_MOST_CLASSES; i++) many[i] = 1024;
    want(mte_tool_class_of(wrong, 4, 0) == -1 && mte_tool_class_of(wrong, 4, 100) == -1, wrong, 4, 0);
    want(mte_tool_class_of(NULL, 0, 0) == -1 && mte_tool_class_of(NULL, 2, 0) == -1, NULL, 0, 0);
    want(mte_tool_class_of(many, 33, 0) == -1 && mte_tool_class_of(many, 32, 0) == 0, many, 33, 0);
    want(mte_tool_class_of(good, 2, (size_t)-1) == -1 && mte_tool_class_of(good, 2, (size_t)1 << 32) == -1, good, 2, (size_t)-1);
}

int main(void) {
    uint16_t classes[MTE_TOOL_MOST_CLASSES];
    char line[512];
    long compared = 0;
    others();
    while (fgets(line, sizeof line, stdin)) {
        size_t count = 0;
        char *at = line, *next;
        long class;
        for (; class = strtol(at, &next, 10), next != at && count < MTE_TOOL_MOST_CLASSES; at = next) classes[count++] = (uint16_t)class;
        compared += compare(classes, count);
    }
    printf("%ld\n", compared);
    return 0;
}
