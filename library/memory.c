/* The functions from which the library takes its memory. scripts/library has the proved code's calls of malloc, realloc and free made here.
   Nothing here is proved. */
#include "layer.h"

#include <stdlib.h>

static mte_tool_allocator chosen; /* of the C library if it has no functions */
static int is_in_use;             /* whether memory was taken; read and written in all threads */

int layer_has_others(void) {
    if (!__atomic_load_n(&is_in_use, __ATOMIC_RELAXED)) __atomic_store_n(&is_in_use, 1, __ATOMIC_RELAXED);
    return chosen.take != NULL;
}

void *layer_malloc(size_t bytes) {
    return layer_has_others() ? chosen.take(chosen.context, bytes) : malloc(bytes);
}

void *layer_realloc(void *block, size_t bytes) {
    return layer_has_others() ? chosen.resize(chosen.context, block, bytes) : realloc(block, bytes);
}

void layer_free(void *block) {
    if (chosen.take) chosen.give(chosen.context, block);
    else free(block);
}

mte_tool_end mte_tool_set_allocator(const mte_tool_allocator *allocator) {
    static const mte_tool_allocator none;
    if (__atomic_load_n(&is_in_use, __ATOMIC_RELAXED) || layer_is_wrong(allocator)) return MTE_TOOL_MISUSE;
    if (allocator) {
        if (allocator->size < sizeof *allocator || !allocator->take || !allocator->resize || !allocator->give) return MTE_TOOL_MISUSE;
        if (layer_is_later(allocator, sizeof *allocator)) return MTE_TOOL_BAD_OPTION;
    }
    chosen = allocator ? *allocator : none;
    return MTE_TOOL_DONE;
}
