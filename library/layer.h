/* What the files of this folder share: the proved functions of crates/mte_c, and the way of options and results over the border. Nothing
   here is proved. */
#ifndef MTE_TOOL_LAYER_H
#define MTE_TOOL_LAYER_H

#include "../include/mte_tool.h"
#include "options.h"

/* the other structures of the proved functions */
typedef struct heap_settings {
    uint32_t granules;
    uint32_t quarantine;
    uint16_t seed;
} heap_settings;

typedef struct held_text {
    void *handle;
    size_t length;
} held_text;

typedef struct ending {
    uint32_t end;
    uint32_t fault;
    uint64_t line;
} ending;

typedef struct numbers {
    uint32_t end;
    uint32_t fault;
    uint64_t at;
    uint64_t waste;
    uint32_t classes;
    uint32_t places;
} numbers;

typedef struct heap_outcome {
    uint32_t end;
    uint32_t code;
    uint64_t value;
    uint32_t granule;
    uint8_t memory_tag;
    uint8_t pointer_tag;
    uint8_t granule_kind;
} heap_outcome;

/* what the proved functions make a heap in, which stays where it is: `live` is 1 while there is one */
struct mte_tool_heap {
    void *handle;
    uint32_t live;
};

/* the proved functions; a slice is a pointer, never null, and a length */
ending mte_c_call(uint8_t, narrow_options, const uint8_t *, size_t, held_text *);
uint32_t mte_c_append(const uint8_t *, size_t, held_text *);
size_t mte_c_read(held_text *, size_t, uint8_t *, size_t);
void mte_c_free(held_text *);
numbers mte_arrays_score(narrow_options, const uint16_t *, size_t, const uint32_t *, size_t, const uint32_t *, size_t);
numbers mte_arrays_tune(narrow_options, const uint32_t *, size_t, const uint32_t *, size_t, uint16_t *, size_t, uint64_t *, size_t);
numbers mte_arrays_check(narrow_options, uint64_t, const uint16_t *, size_t, const uint64_t *, size_t, const uint32_t *, size_t,
                         const uint32_t *, size_t);
heap_outcome mte_heap_new(heap_settings, const uint16_t *, size_t, mte_tool_heap *);
heap_outcome mte_heap_malloc(mte_tool_heap *, uint32_t);
heap_outcome mte_heap_calloc(mte_tool_heap *, uint32_t);
heap_outcome mte_heap_realloc(mte_tool_heap *, uint64_t, uint32_t);
heap_outcome mte_heap_free(mte_tool_heap *, uint64_t);
heap_outcome mte_heap_load(mte_tool_heap *, uint64_t, uint8_t *, size_t);
heap_outcome mte_heap_store(mte_tool_heap *, uint64_t, const uint8_t *, size_t);
heap_outcome mte_heap_granule(mte_tool_heap *, uint32_t);
heap_outcome mte_heap_addg(mte_tool_heap *, uint64_t, uint8_t, uint8_t);
void mte_heap_close(mte_tool_heap *);

/* the numbers of the commands */
enum { SCORE, TUNE, CHECK, FOOTPRINT, FIT, CHECK_FIT, PROFILE, REPLAY, RUN, PEAKS };

/* Whether a slice has numbers and no place. */
static inline int is_missing(const void *at, size_t length) {
    return !at && length > 0;
}

/* Whether a slice that is to be read can't be: it has no place, or more numbers of 8 bytes than any memory. */
static inline int is_unreadable(const void *at, size_t length) {
    return is_missing(at, length) || length > PTRDIFF_MAX / sizeof(uint64_t);
}

/* A number, or a larger one that is as good as all that are above it. */
static inline size_t at_most(size_t number, size_t most) {
    return number < most ? number : most;
}

/* Where an array without numbers stands. */
extern const uint64_t layer_no_numbers;

/* Whether a structure that begins with its size has one that can't be. Null has none. */
int layer_is_wrong(const void *sized);

/* Whether a structure that is not wrong has a member set that comes after those of the `known` size. */
int layer_is_later(const void *sized, size_t known);

/* Whether the caller chose functions for memory; from then on it is too late to choose. */
int layer_has_others(void);

/* malloc, realloc and free by the functions that the caller chose. The proved code's calls of these three go here too. */
void *layer_malloc(size_t bytes);
void *layer_realloc(void *block, size_t bytes);
void layer_free(void *block);

/* The options for the proved functions; MTE_TOOL_DONE, MTE_TOOL_MISUSE, or MTE_TOOL_BAD_OPTION where a member that nobody here knows is
   set. */
mte_tool_end layer_options(const mte_tool_options *options, narrow_options *narrow);

/* Copies what the caller's structure has room for of one whose size is `known`. What this library does not know is set
   to 0. Null is let pass. */
void layer_put(void *to, const void *found, size_t known);

/* Puts what a call found into the caller's structure, or nowhere if that is null, and returns the end. */
mte_tool_end layer_give(mte_tool_end end, const mte_tool_result *found, mte_tool_result *result);

/* A slice of bytes. */
typedef struct slice {
    const void *at;
    size_t length;
} slice;

/* Makes a call over a text, or over a first text and another, none of which is null, and puts the answer into an empty
   text. What it found is set. The first text of a call over one is empty. A text that is longer than MTE_TOOL_MOST_INPUT
   is refused, and not read. */
mte_tool_end layer_call(uint8_t command, narrow_options options, slice first, slice input, mte_tool_text *answer, mte_tool_result *found);

/* The same for a caller, whose structures are looked at; a slice may be null. `claim` is 1 for the line of what a check
   showed. */
mte_tool_end layer_command(uint8_t command, uint8_t claim, const mte_tool_options *options, slice first, slice input,
                           mte_tool_text *output, mte_tool_result *result);

#endif
