/* Asks the model whether a hardened heap would have caught a use after free: use_after_free SIZE ROUNDS A chunk of SIZE bytes is written to
   and freed; after each further round of malloc and free of the same size its old address is read again. The status is 0 if the machine
   faults each time, 1 if it once reads what another chunk left. */
#include <mte_tool.h>
#include <stdio.h>
#include <stdlib.h>

/* ends the program unless a call did what it should */
static void want(mte_tool_end end, const mte_tool_outcome *outcome) {
    if (end == MTE_TOOL_DONE) return;
    fprintf(stderr, "use_after_free: %s\n", outcome->code ? mte_tool_code_sentence(outcome->code) : mte_tool_end_sentence(end));
    exit(2);
}

int main(int count, char **words) {
    static const uint16_t classes[] = {2, 3, 5, 9, 17, 33};
    mte_tool_options options = MTE_TOOL_OPTIONS(0);
    mte_tool_heap *heap;
    mte_tool_outcome freed = MTE_TOOL_OUTCOME, other = MTE_TOOL_OUTCOME, read = MTE_TOOL_OUTCOME;
    uint8_t byte = 0x5a;
    int round, rounds, missed = 0;
    size_t size;
    if (count != 3) return 2;
    size = strtoul(words[1], NULL, 10);
    rounds = atoi(words[2]);
    options.quarantine = 0; /* a freed slot may be given out at once */
    want(mte_tool_heap_new(&heap, &options, classes, sizeof classes / sizeof *classes, &freed), &freed);
    want(mte_tool_heap_malloc(heap, size, &freed), &freed);
    want(mte_tool_heap_store(heap, freed.value, &byte, 1, &other), &other);
    want(mte_tool_heap_free(heap, freed.value, &other), &other);
    for (round = 0; round < rounds; round++) {
        want(mte_tool_heap_malloc(heap, size, &other), &other);
        if (mte_tool_heap_load(heap, freed.value, &byte, 1, &read) == MTE_TOOL_DONE) missed++;
        else if (round == 0)
            printf("a tag fault: granule %u has tag %u, the pointer tag %u\n", read.granule, read.memory_tag, read.pointer_tag);
        want(mte_tool_heap_free(heap, other.value, &other), &other);
    }
    printf("%d of %d reads after the free were caught\n", rounds - missed, rounds);
    mte_tool_heap_close(heap);
    return missed > 0;
}
