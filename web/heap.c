/* The heap of the engines in WebAssembly: rattle_alloc, rattle_realloc and rattle_dealloc over blocks of powers of two, and two exports for
   the page. Nothing is proved of it. All addresses stay below 2^32 - 2^16, so that the module may be lowered to a memory of 32 bits. */

/* the toolchain's clang has no headers */
typedef __SIZE_TYPE__ size_t;
typedef __UINT64_TYPE__ uint64_t;
typedef __UINT32_TYPE__ uint32_t;
typedef __UINTPTR_TYPE__ uintptr_t;

#define PAGE 65536
#define NO_MEMORY 0xffffffffu /* what the lowered memory.grow gives in place of -1 */

typedef struct { uint64_t ok; void *block; } answer;

/* 16 bytes before each block: the power of two that it has with them, and while it is free the next free one */
typedef struct head { uint64_t order; struct head *next; } head;

extern unsigned char __heap_base;
static const uint64_t LIMIT = 0xffff0000u;
static uintptr_t top, end;
static head *freed[33];

/* The first COUNT bytes that were never given out, or null. */
static head *fresh(uint64_t count) {
  if (!top) {
    top = ((uintptr_t)&__heap_base + 15) & ~(uintptr_t)15;
    end = (uint64_t)__builtin_wasm_memory_size(0) * PAGE;
  }
  if (count > LIMIT - top) return 0;
  if (top + count > end) {
    uint64_t pages = (top + count - end + PAGE - 1) / PAGE;
    if ((uint32_t)__builtin_wasm_memory_grow(0, pages) == NO_MEMORY) return 0;
    end += pages * PAGE;
  }
  head *block = (head *)top;
  top += count;
  return block;
}

static void *take(uint64_t count) {
  if (count > LIMIT - 16) return 0;
  unsigned order = 5;
  while (((uint64_t)1 << order) < count + 16) order++;
  head *block = freed[order];
  if (block) freed[order] = block->next;
  else if (!(block = fresh((uint64_t)1 << order))) return 0;
  block->order = order;
  return block + 1;
}

static void give(void *block) {
  head *its = (head *)block - 1;
  its->next = freed[its->order];
  freed[its->order] = its;
}

static answer answered(void *block) {
  static char nothing;
  return (answer){block != 0, block ? block : (void *)&nothing};
}

answer rattle_alloc(size_t count, size_t alignment) { return answered(take(count ? count : alignment)); }

answer rattle_realloc(void *block, size_t kept, size_t count, size_t alignment) {
  uint64_t wanted = count ? count : alignment;
  if (wanted <= ((uint64_t)1 << ((head *)block - 1)->order) - 16) return answered(block);
  void *other = take(wanted);
  if (other) {
    __builtin_memcpy(other, block, kept < wanted ? kept : wanted);
    give(block);
  }
  return answered(other);
}

void rattle_dealloc(void *block) { give(block); }

/* checker.c has exports of its own */
#ifdef CHECKER
#define EXPORT(name)
#else
#define EXPORT(name) __attribute__((export_name(name)))
#endif

EXPORT("web_take") void *web_take(size_t count) { return take(count ? count : 1); }

EXPORT("web_give") void web_give(void *block) {
  if (block) give(block);
}
