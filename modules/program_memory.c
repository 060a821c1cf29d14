/* The memory of the program's module: 8 GiB of addresses that cost nothing, of which the module's pages can be touched,
   and the one before them, which has the instance. An access beyond them is the processor's to refuse, and so none is
   tested. Nothing here is proved. */
#include "wasm-rt.h"

#include <sys/mman.h>

#if UINTPTR_MAX < UINT64_MAX
#error "the program as native code wants a processor of 64 bits"
#endif

enum { PAGE = 65536, FIRST = FIRST_PAGES };
/* one page more at each end: an access of 8 bytes begins below 8 GiB */
static const size_t RESERVED = ((size_t)8 << 30) + 2 * PAGE;

void *runtime_place(size_t before) {
    void *made = mmap(NULL, RESERVED, PROT_NONE, MAP_PRIVATE | MAP_ANONYMOUS | MAP_NORESERVE, -1, 0);
    if (made == MAP_FAILED || mprotect(made, (1 + FIRST) * PAGE, PROT_READ | PROT_WRITE)) return NULL;
    return (uint8_t *)made + PAGE - before;
}

void wasm_rt_allocate_memory(wasm_rt_memory_t *memory, uint32_t pages, uint32_t most) {
    if (pages != FIRST) wasm_rt_trap(WASM_RT_TRAP_OOB);
    memory->pages = pages;
    memory->max_pages = most;
    memory->size = pages * PAGE;
}

uint32_t wasm_rt_grow_memory(wasm_rt_memory_t *memory, uint32_t more) {
    uint32_t before = memory->pages;
    uint8_t *end = memory->data + (size_t)before * PAGE;
    if (more >= 65536 - before || before + more > memory->max_pages) return (uint32_t)-1;
    if (mprotect(end, (size_t)more * PAGE, PROT_READ | PROT_WRITE)) return (uint32_t)-1;
    memory->pages += more;
    memory->size = memory->pages * PAGE;
    return before;
}

void wasm_rt_free_memory(wasm_rt_memory_t *memory) {
    munmap(memory->data - PAGE, RESERVED);
}
