/* The memory of the library's modules: by the functions that mte_tool_set_allocator was given, or the system's pages,
   which cost nothing before they are touched, and of which there are more than the module has yet. What an instance
   leaves is kept for the next one, since pages that were touched once cost a tenth of new ones. Each access is tested.
   Any number of threads have instances of their own. Nothing here is proved. */
#define _DEFAULT_SOURCE /* MAP_ANONYMOUS */
#include "layer.h"
#include "wasm-rt.h"

#include <pthread.h>
#include <string.h>
#include <sys/mman.h>

enum { PAGE = 65536 };
static const size_t FIRST = (size_t)FIRST_PAGES * PAGE, ROOM = (size_t)256 * PAGE;
static __thread uint8_t *taken; /* for the memory of the instance that is made next */

enum { KEPT = 4 };
static const size_t MOST_KEPT = (size_t)128 * PAGE; /* bytes that were touched */
static pthread_mutex_t lock = PTHREAD_MUTEX_INITIALIZER; /* of what follows; nobody waits for it */
static uint8_t *kept[KEPT];                              /* of ROOM bytes each, all 0 */
static int kept_count;

static uint8_t *pages(size_t bytes) {
    void *made = mmap(NULL, bytes, PROT_READ | PROT_WRITE, MAP_PRIVATE | MAP_ANONYMOUS | MAP_NORESERVE, -1, 0);
    return made == MAP_FAILED ? NULL : made;
}

static uint8_t *kept_pages(void) {
    uint8_t *found = NULL;
    if (pthread_mutex_trylock(&lock)) return NULL;
    if (kept_count) found = kept[--kept_count];
    pthread_mutex_unlock(&lock);
    return found;
}

/* Keeps the pages of an instance that touched so many bytes, or gives them back. */
static void keep_pages(uint8_t *made, size_t touched, size_t room) {
    int is_kept = 0;
    if (room == ROOM && touched <= MOST_KEPT && !pthread_mutex_trylock(&lock)) {
        is_kept = kept_count < KEPT;
        if (is_kept) {
            memset(made, 0, touched);
            kept[kept_count++] = made;
        }
        pthread_mutex_unlock(&lock);
    }
    if (!is_kept) munmap(made, room);
}

bool runtime_can_begin(void) {
    if (layer_has_others()) {
        taken = layer_malloc(FIRST);
        if (taken) memset(taken, 0, FIRST);
    } else {
        taken = kept_pages();
        if (!taken) taken = pages(ROOM);
    }
    return taken != NULL;
}

void wasm_rt_allocate_memory(wasm_rt_memory_t *memory, uint32_t count, uint32_t most) {
    if (count != FIRST_PAGES) wasm_rt_trap(WASM_RT_TRAP_OOB);
    memory->data = taken;
    memory->pages = count;
    memory->max_pages = most;
    memory->size = count * PAGE;
    memory->room = ROOM;
}

/* Memory of so many bytes that begins with what there was; null where there is none. */
static uint8_t *larger(wasm_rt_memory_t *memory, size_t size, size_t added) {
    size_t room = added < size ? 2 * size : size + added;
    uint8_t *made;
    if (layer_has_others()) {
        made = layer_realloc(memory->data, size + added);
        if (made) memset(made + size, 0, added);
        return made;
    }
    if (size + added <= memory->room) return memory->data;
    made = pages(room);
    if (!made) return NULL;
    memcpy(made, memory->data, size);
    munmap(memory->data, memory->room);
    memory->room = room;
    return made;
}

uint32_t wasm_rt_grow_memory(wasm_rt_memory_t *memory, uint32_t more) {
    uint32_t before = memory->pages;
    size_t size = (size_t)before * PAGE;
    uint8_t *made;
    if (more >= 65536 - before || before + more > memory->max_pages) return (uint32_t)-1;
    if ((size_t)more > (SIZE_MAX / 2 - size) / PAGE) return (uint32_t)-1; /* of 32 bits */
    made = more ? larger(memory, size, (size_t)more * PAGE) : memory->data;
    if (!made) return (uint32_t)-1;
    memory->data = made;
    memory->pages += more;
    memory->size = memory->pages * PAGE;
    return before;
}

void wasm_rt_free_memory(wasm_rt_memory_t *memory) {
    if (layer_has_others()) layer_free(memory->data);
    else keep_pages(memory->data, memory->size, memory->room);
}
