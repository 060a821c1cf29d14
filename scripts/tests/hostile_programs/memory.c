// Programs that do all that can be done with memory, and have little of it.
#include "hostile.h"

static char *anonymous(size_t bytes) {
  return mmap(NULL, bytes, PROT_READ | PROT_WRITE, MAP_PRIVATE | MAP_ANONYMOUS, -1, 0);
}

static int space(size_t bytes, size_t one) {
  request(1);
  if (limit(RLIMIT_AS, bytes)) return 1;
  void *volatile block = malloc(one);
  return show(block != NULL), free(block), request(2), 0;
}
PROGRAM(space_256, "256 MB of space") { return space(256 << 20, 100 << 20); }
PROGRAM(space_100, "100 MB of space") { return space(100 << 20, 30 << 20); }
PROGRAM(space_64, "64 MB of space") { return space(64 << 20, 10 << 20); }
PROGRAM(data, "little data") {
  return request(1), limit(RLIMIT_DATA, 4 << 20) || (show(malloc(16 << 20) != NULL), request(3), 0);
}
PROGRAM(space_of_forks, "forks with little space") {
  request(1);
  if (limit(RLIMIT_AS, 300 << 20)) return 1;
  for (int i = 0; i < 5; i++) {
    pid_t child = fork();
    if (!child) request(2), _exit(i);
    show(ended(child));
  }
  return 0;
}

static int locks(int flags) { return request(1), show(mlockall(flags)), request(1000), munlockall(); }
PROGRAM(locks_now, "locks its memory") { return locks(MCL_CURRENT); }
PROGRAM(locks_all, "locks all memory") { return locks(MCL_CURRENT | MCL_FUTURE); }

PROGRAM(low, "unmaps nothing") {
  for (uintptr_t at = 4096; at < 1 << 20; at += 65536) munmap((void *)at, 4096);
  show(munmap((void *)1, 4096)), show(munmap(NULL, 0)), show(munmap((void *)(1UL << 47), 4096));
  return request(3), 0;
}

// What it had is given back twice, the second time by a child: meanwhile others may be in the gap.
PROGRAM(gap, "unmaps a gap again") {
  enum { GAP = 64 << 20 };
  char *all = anonymous(GAP + 8192);
  request(1), munmap(all + 4096, GAP);
  for (int i = 0; i < 3; i++) {
    pid_t child = fork();
    if (!child) request(1), munmap(all + 4096, GAP), request(200), _exit(3);
    show(ended(child));
  }
  return request(1), 0;
}
PROGRAM(holes, "thousands of mappings") {
  char *all = anonymous(4096 * 4096);
  for (int i = 0; i < 4096; i += 2) munmap(all + i * 4096, 4096);
  return request(10), munmap(all, 4096 * 4096);
}
PROGRAM(moves, "remaps") {
  char *block = malloc(1 << 20);
  for (int i = 1; i < 40; i++) block = realloc(block, (1 << 20) + i * (300 << 10));
  return free(block), request(3), 0;
}

PROGRAM(breaks, "moves the break") {
  for (int i = 0; i < 50; i++) request(1), sbrk(i % 2 ? 8192 : 4096), malloc(60000);
  return 0;
}
PROGRAM(trims, "trims and tunes") {
  mallopt(M_MMAP_THRESHOLD, 2048), mallopt(M_TRIM_THRESHOLD, 0), mallopt(M_ARENA_MAX, 1);
  for (int i = 0; i < 100; i++) request(1), malloc_trim(0);
  struct mallinfo2 info = mallinfo2();
  return show(info.hblks), show(info.uordblks > 0), 0;
}
PROGRAM(counts, "what the heap counts") {
  for (int i = 1; i < 500; i++) malloc(i);
  struct mallinfo2 info = mallinfo2();
  return show(info.uordblks), show(info.hblkhd), 0;
}

PROGRAM(all_calls, "all calls") {
  void *block = NULL, *all[12] = {malloc(0),
                                  calloc(0, 7),
                                  calloc(7, 11),
                                  realloc(NULL, 0),
                                  realloc(NULL, 100),
                                  memalign(64, 100),
                                  aligned_alloc(4096, 8192),
                                  valloc(100),
                                  pvalloc(100),
                                  reallocarray(NULL, 10, 10),
                                  strdup("twelve signs"),
                                  strndup("twelve signs", 6)};
  show(posix_memalign(&block, 64, 333)), show(posix_memalign(&all[0], 3, 333)), show(posix_memalign(&block, 0, 1));
  for (int i = 0; i < 12; i++) show(all[i] != NULL);
  all[2] = realloc(all[2], 9000), all[2] = realloc(all[2], 20000), all[2] = realloc(all[2], 5),
  all[3] = realloc(all[3], 0);
  show(all[3] == NULL), all[4] = reallocarray(all[4], 100, 100);
  for (int i = 0; i < 12; i++) free(all[i]);
  return free(NULL), 0;
}
PROGRAM(refused, "requests that are refused") {
  void *volatile none[] = {malloc(PTRDIFF_MAX),
                           malloc(-1),
                           calloc(1UL << 33, 1UL << 33),
                           realloc(NULL, -1),
                           memalign(64, -64UL),
                           aligned_alloc(16, 1UL << 62),
                           reallocarray(NULL, 1UL << 40, 1UL << 40),
                           pvalloc(-1),
                           valloc(-4096UL)};
  for (unsigned i = 0; i < sizeof none / sizeof *none; i++) show(none[i] == NULL);
  void *block = malloc(3333), *volatile moved = realloc(block, 1UL << 62);
  return show(moved == NULL), show(errno), free(block), request(1), 0;
}
PROGRAM(errors, "errors are kept") {
  int lost = 0;
  for (int i = 0; i < 5000; i++) {
    errno = i % 100;
    void *volatile block = malloc(i);
    lost += errno != i % 100, free(block), lost += errno != i % 100;
    block = realloc(malloc(10), i + 1), lost += errno != i % 100, free(block);
  }
  return show(lost), 0;
}
PROGRAM(usable, "usable sizes") {
  long sum = 0;
  for (int i = 0; i < 3000; i += 7) {
    char *block = malloc(i);
    size_t size = malloc_usable_size(block);
    memset(block, 7, size), sum += size, free(block);
  }
  return show(sum), 0;
}
PROGRAM(aligned, "alignments") {
  for (size_t alignment = 1; alignment <= 1 << 16; alignment *= 2) {
    void *one = memalign(alignment, 1000), *volatile other = aligned_alloc(alignment, alignment);
    show(((uintptr_t)one | (uintptr_t)other) & (alignment - 1)), free(one), free(other);
  }
  return 0;
}
PROGRAM(zeroed, "zeroed blocks") {
  long sum = 0;
  for (int i = 0; i < 2000; i++) {
    char *block = malloc(i + 1);
    memset(block, 255, i + 1), free(block), block = calloc(1, i + 1);
    for (int k = 0; k <= i; k++) sum += block[k];
    free(block);
  }
  return show(sum), 0;
}
PROGRAM(larger, "blocks of all sizes") {
  for (size_t size = 16000; size < 17000; size++) free(malloc(size));
  for (size_t size = 1; size <= 1UL << 30; size *= 3) free(malloc(size));
  return 0;
}
