// LLVM's Scudo with Android's classes. SCUDO_TAGS=odd-even in the environment turns its odd and even tags on, as an option of mallopt does.
#include "allocator_config.h"
#include "combined.h"
#include <stdlib.h>
#include <string.h>

namespace scudo {
// QEMU is slow to reserve the regions of the classes, so they have 4 MiB in place of 256. No tag hangs on it.
struct Small : AndroidConfig {
  struct Primary : AndroidConfig::Primary {
    static const uptr RegionSizeLog = 22U;
    static const uptr GroupSizeLog = 20U;
  };
};
}

static void after_start() {}
typedef scudo::Allocator<scudo::Small, after_start> Heap;
SCUDO_REQUIRE_CONSTANT_INITIALIZATION static Heap heap;

// what LLVM's C functions (wrappers_c.inc) do
static char *the_malloc(size_t size) { return (char *)heap.allocate(size, scudo::Chunk::Origin::Malloc, 16); }
static char *the_calloc(size_t size) { return (char *)heap.allocate(size, scudo::Chunk::Origin::Malloc, 16, true); }
static char *the_memalign(size_t alignment, size_t size) { return (char *)heap.allocate(size, scudo::Chunk::Origin::Memalign, alignment); }
static void the_free(char *at) { heap.deallocate(at, scudo::Chunk::Origin::Malloc); }

static char *the_realloc(char *at, size_t size) {
  if (!at) return the_malloc(size);
  if (size) return (char *)heap.reallocate(at, size, 16);
  the_free(at);
  return nullptr;
}

static void start() {
  heap.initThreadMaybe();
  const char *tags = getenv("SCUDO_TAGS");
  if (tags && !strcmp(tags, "odd-even")) heap.setOption(scudo::Option::MemtagTuning, M_MEMTAG_TUNING_BUFFER_OVERFLOW);
}

#include "driver.h"

// The draw of a tag, in place of the instruction irg: each that is allowed equally often. real_heaps.py has Scudo's memtag.h call it.
extern "C" scudo::uptr uniform_tag(scudo::uptr at, scudo::uptr without) {
  unsigned char draw;
  do {
    if (getrandom(&draw, 1, 0) != 1) abort();
    draw &= 15;
  } while (without >> draw & 1);
  return (at & ~((scudo::uptr)255 << TAG_BITS)) | (scudo::uptr)draw << TAG_BITS;
}
