/* The proved functions of crates/mte_c by their module in WebAssembly, as C of wasm2c: the other side of
   library/layer.h. A text, a heap and a call over arrays have each an instance of their own, so calls in many threads
   are as independent as the native library's. Buffers are copied in and out. Nothing here is proved. */
#include "layer.h"
#include "wasm-rt.h"

#include "library.h"

#include <string.h>

typedef uint64_t place; /* in a module's memory */
enum { OUT = 32, HANDLE = 16, BUFFER = 4096 };

typedef struct engine {
    Z_library_instance_t module;
    place out, handle, buffer; /* of 32, 16 and BUFFER bytes */
} engine;

/* what the module takes as two words, or as one and a half */
typedef char options_are_two_words[sizeof(narrow_options) <= 16 ? 1 : -1];
typedef char settings_are_two_words[sizeof(heap_settings) == 12 ? 1 : -1];
typedef struct words {
    uint64_t first, second;
} words;

static words options_words(narrow_options options) {
    words made = {0, 0};
    memcpy(&made, &options, sizeof options);
    return made;
}

static void *at(engine *of, place where) {
    return of->module.w2c_memory.data + where;
}

static void end(engine *of) {
    if (!of) return;
    Z_library_free(&of->module);
    layer_free(of);
}

/* before all calls, and so in no second thread */
__attribute__((constructor)) static void prepare(void) {
    Z_library_init_module();
}

static engine *begin(void) {
    engine *made = layer_malloc(sizeof *made);
    if (!made) return NULL;
    memset(made, 0, sizeof *made);
    if (!runtime_can_begin()) {
        layer_free(made);
        return NULL;
    }
    Z_library_instantiate(&made->module);
    made->out = Z_libraryZ_web_take(&made->module, OUT + HANDLE + BUFFER);
    made->handle = made->out + OUT;
    made->buffer = made->handle + HANDLE;
    if (made->out) {
        memset(at(made, made->out), 0, OUT + HANDLE);
        return made;
    }
    end(made);
    return NULL;
}

/* A place with so many numbers of this size; 0 where memory ran out. */
static place put(engine *of, const void *numbers, size_t count, size_t size) {
    place made = count > UINT32_MAX / size ? 0 : Z_libraryZ_web_take(&of->module, (uint64_t)count * size);
    if (made && count) memcpy(at(of, made), numbers, count * size);
    return made;
}

static void give(engine *of, place it) {
    Z_libraryZ_web_give(&of->module, it);
}

/* ---- texts */

static engine *of_text(held_text *held) {
    if (!held->handle) held->handle = begin();
    return held->handle;
}

static void see(engine *of, held_text *held) {
    uint64_t length;
    memcpy(&length, (char *)at(of, of->handle) + 8, sizeof length);
    held->length = (size_t)length;
}

uint32_t mte_c_append(const uint8_t *piece, size_t length, held_text *held) {
    engine *of = of_text(held);
    place piece_at = of ? put(of, piece, length, 1) : 0;
    uint32_t status = MTE_TOOL_OUT_OF_MEMORY;
    if (!piece_at) return status;
    status = Z_libraryZ_mte_c_append(&of->module, piece_at, length, of->handle);
    give(of, piece_at);
    see(of, held);
    return status;
}

ending mte_c_call(uint8_t command, narrow_options options, const uint8_t *input, size_t length, held_text *held) {
    ending ended = {MTE_TOOL_OUT_OF_MEMORY, 0, 0};
    engine *of = of_text(held);
    place input_at = of ? put(of, input, length, 1) : 0;
    words o = options_words(options);
    if (!input_at) return ended;
    Z_libraryZ_mte_c_call(&of->module, of->out, command, o.first, o.second, input_at, length, of->handle);
    memcpy(&ended, at(of, of->out), sizeof ended);
    give(of, input_at);
    see(of, held);
    return ended;
}

/* It takes no memory, so that what was answered is read whole. */
size_t mte_c_read(held_text *held, size_t from, uint8_t *to, size_t length) {
    engine *of = held->handle;
    size_t read = 0, more = of ? 1 : 0;
    while (more && read < length) {
        more = length - read < BUFFER ? length - read : BUFFER;
        more = Z_libraryZ_mte_c_read(&of->module, of->handle, from + read, of->buffer, more);
        memcpy(to + read, at(of, of->buffer), more);
        read += more;
    }
    return read;
}

void mte_c_free(held_text *held) {
    end(held->handle);
    held->handle = NULL;
    held->length = 0;
}

/* ---- arrays */

static numbers taken(engine *of) {
    numbers got = {MTE_TOOL_OUT_OF_MEMORY, 0, 0, 0, 0, 0};
    if (of) memcpy(&got, at(of, of->out), sizeof got);
    end(of);
    return got;
}

static numbers none(engine *of) {
    end(of);
    return taken(NULL);
}

numbers mte_arrays_score(narrow_options options, const uint16_t *classes, size_t class_count, const uint32_t *sizes,
                         size_t size_count, const uint32_t *counts, size_t count_count) {
    engine *of = begin();
    words o = options_words(options);
    place c, s, n;
    if (!of || !(c = put(of, classes, class_count, 2)) || !(s = put(of, sizes, size_count, 4)) ||
        !(n = put(of, counts, count_count, 4)))
        return none(of);
    Z_libraryZ_mte_arrays_score(&of->module, of->out, o.first, o.second, c, class_count, s, size_count, n, count_count);
    return taken(of);
}

numbers mte_arrays_tune(narrow_options options, const uint32_t *sizes, size_t size_count, const uint32_t *counts,
                        size_t count_count, uint16_t *classes, size_t class_room, uint64_t *rows, size_t row_room) {
    engine *of = begin();
    words o = options_words(options);
    place s, n, c, r;
    if (!of || !(s = put(of, sizes, size_count, 4)) || !(n = put(of, counts, count_count, 4)) ||
        !(c = put(of, classes, class_room, 2)) || !(r = put(of, rows, row_room, 8)))
        return none(of);
    Z_libraryZ_mte_arrays_tune(&of->module, of->out, o.first, o.second, s, size_count, n, count_count, c, class_room, r,
                               row_room);
    memcpy(classes, at(of, c), 2 * class_room);
    memcpy(rows, at(of, r), 8 * row_room);
    return taken(of);
}

numbers mte_arrays_check(narrow_options options, uint64_t waste, const uint16_t *classes, size_t class_count,
                         const uint64_t *rows, size_t row_count, const uint32_t *sizes, size_t size_count,
                         const uint32_t *counts, size_t count_count) {
    engine *of = begin();
    words o = options_words(options);
    place c, r, s, n;
    if (!of || !(c = put(of, classes, class_count, 2)) || !(r = put(of, rows, row_count, 8)) ||
        !(s = put(of, sizes, size_count, 4)) || !(n = put(of, counts, count_count, 4)))
        return none(of);
    Z_libraryZ_mte_arrays_check(&of->module, of->out, o.first, o.second, waste, c, class_count, r, row_count, s,
                                size_count, n, count_count);
    return taken(of);
}

/* ---- the heap */

static heap_outcome outcome(mte_tool_heap *heap) {
    engine *of = heap->handle;
    heap_outcome got;
    memcpy(&got, at(of, of->out), sizeof got);
    return got;
}

heap_outcome mte_heap_new(heap_settings settings, const uint16_t *classes, size_t class_count, mte_tool_heap *heap) {
    heap_outcome got = {MTE_TOOL_OUT_OF_MEMORY, 0, 0, 0, 0, 0, 0};
    engine *of = heap->handle = begin();
    words s = {0, 0};
    place c = of ? put(of, classes, class_count, 2) : 0;
    memcpy(&s, &settings, sizeof settings);
    if (c) {
        Z_libraryZ_mte_heap_new(&of->module, of->out, s.first, (uint32_t)s.second, c, class_count, of->handle);
        give(of, c);
        got = outcome(heap);
        memcpy(&heap->live, (char *)at(of, of->handle) + 8, sizeof heap->live);
    }
    if (!heap->live) {
        end(of);
        heap->handle = NULL;
    }
    return got;
}

/* the module and the two places that a call on a heap begins with */
#define ON(heap) engine *of = (heap)->handle; Z_library_instance_t *module = &of->module
#define HEAD module, of->out, of->handle

heap_outcome mte_heap_malloc(mte_tool_heap *heap, uint32_t size) {
    ON(heap);
    Z_libraryZ_mte_heap_malloc(HEAD, size);
    return outcome(heap);
}

heap_outcome mte_heap_calloc(mte_tool_heap *heap, uint32_t size) {
    ON(heap);
    Z_libraryZ_mte_heap_calloc(HEAD, size);
    return outcome(heap);
}

heap_outcome mte_heap_realloc(mte_tool_heap *heap, uint64_t address, uint32_t size) {
    ON(heap);
    Z_libraryZ_mte_heap_realloc(HEAD, address, size);
    return outcome(heap);
}

heap_outcome mte_heap_free(mte_tool_heap *heap, uint64_t address) {
    ON(heap);
    Z_libraryZ_mte_heap_free(HEAD, address);
    return outcome(heap);
}

enum { MOST = 65 }; /* one more than an access may have is as good as any */

heap_outcome mte_heap_load(mte_tool_heap *heap, uint64_t address, uint8_t *to, size_t length) {
    ON(heap);
    size_t few = length < MOST ? length : MOST;
    heap_outcome got;
    Z_libraryZ_mte_heap_load(HEAD, address, of->buffer, few);
    got = outcome(heap);
    if (got.end == MTE_TOOL_DONE) memcpy(to, at(of, of->buffer), few);
    return got;
}

heap_outcome mte_heap_store(mte_tool_heap *heap, uint64_t address, const uint8_t *bytes, size_t length) {
    ON(heap);
    size_t few = length < MOST ? length : MOST;
    memcpy(at(of, of->buffer), bytes, few);
    Z_libraryZ_mte_heap_store(HEAD, address, of->buffer, few);
    return outcome(heap);
}

heap_outcome mte_heap_granule(mte_tool_heap *heap, uint32_t granule) {
    ON(heap);
    Z_libraryZ_mte_heap_granule(HEAD, granule);
    return outcome(heap);
}

heap_outcome mte_heap_addg(mte_tool_heap *heap, uint64_t address, uint8_t granules, uint8_t step) {
    ON(heap);
    Z_libraryZ_mte_heap_addg(HEAD, address, granules, step);
    return outcome(heap);
}

void mte_heap_close(mte_tool_heap *heap) {
    end(heap->handle);
    heap->handle = NULL;
    heap->live = 0;
}
