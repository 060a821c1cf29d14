// The shadow of the arena (accesses.h). Where nothing was given out yet, or all is forgotten, it is closed and takes no memory: a mebibyte
// of closed bytes is mapped there as often as needed. It reaches 512 MiB beyond the last block. What is farther can't be touched at all.
#include "accesses.h"

#define SHADOW_SIZE ((address)1 << 44)
#define WINDOW ((size_t)1 << 20)
#define AHEAD ((address)512 << 20)

static unsigned char *closed;
static address closed_end = ARENA;

// 0 where the kernel has no further mapping
static int map_closed(address from, address to) {
  unsigned char *shadow = SHADOW(ARENA);
  for (size_t at = (from - ARENA) / 8, end = (to - ARENA) / 8, n; at < end; at += n) {
    n = WINDOW - at % WINDOW < end - at ? WINDOW - at % WINDOW : end - at;
    if (mremap(closed + at % WINDOW, 0, n, MREMAP_MAYMOVE | MREMAP_FIXED, shadow + at) == MAP_FAILED) return 0;
  }
  return 1;
}

static void look_ahead(address from) {
  address to = round_up(from + AHEAD, 8 * WINDOW);
  if (to > ARENA + ARENA_SIZE) to = ARENA + ARENA_SIZE;
  if (to <= closed_end) return;
  syscall(SYS_mprotect, closed_end, to - closed_end, PROT_READ | PROT_WRITE);
  map_closed(from > closed_end ? from : closed_end, to);
  closed_end = to;
}

void begin_shadow(void) {
  reserve(SHADOW_OFFSET, SHADOW_SIZE, PROT_READ | PROT_WRITE, MAP_PRIVATE);
  closed = reserve(0, WINDOW, PROT_READ | PROT_WRITE, MAP_SHARED | MAP_POPULATE);
  fill_bytes(closed, CLOSED, WINDOW);
  look_ahead(ARENA);
}

// From now on these chunks have a shadow of their own. 0 where the kernel has no further mapping.
int begin_chunks(address from, address to) {
  int error = errno, flags = MAP_PRIVATE | MAP_ANONYMOUS | MAP_NORESERVE | MAP_FIXED;
  void *mapped = mmap(SHADOW(from), (to - from) / 8, PROT_READ | PROT_WRITE, flags, -1, 0);
  if (mapped != MAP_FAILED) fill_bytes(mapped, CLOSED, (to - from) / 8);
  look_ahead(to);
  errno = error;
  return mapped != MAP_FAILED;
}

void close_shadow(address from, address to) {
  int error = errno;
  address first = round_up(from, CHUNK), last = to / CHUNK * CHUNK;
  if (first >= last) first = last = to;
  fill_bytes(SHADOW(from), CLOSED, (first - from) / 8);
  if (!map_closed(first, last)) fill_bytes(SHADOW(first), CLOSED, (last - first) / 8);
  fill_bytes(SHADOW(last), CLOSED, (to - last) / 8);
  errno = error;
}

void open_shadow(address from, size_t size) {
  fill_bytes(SHADOW(from), 0, size / 8);
  if (size % 8) *SHADOW(from + size) = size % 8;
}

// the same for a whole block
void open_block(address from, size_t size) {
  fill_table(SHADOW(from), 0, size / 8, CLOSED);
  if (size % 8) *SHADOW(from + size) = size % 8;
}

void close_block(address from, size_t size) { fill_table(SHADOW(from), CLOSED, (size + 7) / 8, CLOSED); }

// whether nothing closed is among these bytes, at least one
int is_open(address from, size_t size) {
  if (!is_in_arena(from) || size > ARENA + ARENA_SIZE - from) return 0;
  const unsigned char *at = SHADOW(from), *last = SHADOW(from + size - 1);
  for (; at + 8 <= last; at += 8)
    if (*(const word *)at) return 0;
  for (; at < last; at++)
    if (*at) return 0;
  return *last < 8 && (!*last || (from + size - 1) % 8 < *last);
}
