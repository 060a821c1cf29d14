// Counts each request by its size, and each free, in a shared file, by no code of the recorders: a library for
// LD_PRELOAD and glibc. TRUTH=FILE: of all processes; of what the first one ran at last in its own place; and all
// requests of the first one.
#define _GNU_SOURCE
#include <errno.h>
#include <fcntl.h>
#include <stdint.h>
#include <stdlib.h>
#include <string.h>
#include <sys/mman.h>
#include <unistd.h>

enum { LARGE = 16369, COUNTERS };
struct counts {
  uint64_t served[COUNTERS], refused[COUNTERS], frees;
};
static struct truth {
  struct counts all, last;
  uint64_t requests, process;
} before, *truth = &before;
static uint64_t *is_first;  // on a page that forks see empty

extern void *__libc_malloc(size_t), *__libc_calloc(size_t, size_t), *__libc_realloc(void *, size_t),
    *__libc_memalign(size_t, size_t);
extern void *__libc_valloc(size_t), *__libc_pvalloc(size_t), __libc_free(void *);

static void add(uint64_t *to, uint64_t number) { __atomic_fetch_add(to, number, __ATOMIC_RELAXED); }
static int counts_first(void) { return !is_first || *is_first; }
static void *count(void *block, size_t size) {
  size_t at = size < LARGE ? size : LARGE;
  add(block ? &truth->all.served[at] : &truth->all.refused[at], 1);
  if (counts_first()) add(block ? &truth->last.served[at] : &truth->last.refused[at], 1), add(&truth->requests, 1);
  return block;
}
static void count_free(void) {
  add(&truth->all.frees, 1);
  if (counts_first()) add(&truth->last.frees, 1);
}
static void add_counts(struct counts *to, const struct counts *from) {
  uint64_t *into = to->served;
  for (size_t i = 0; i < sizeof *to / 8; i++) add(&into[i], from->served[i]);
}

__attribute__((constructor)) static void start(void) {
  const char *name = getenv("TRUTH");
  int opened = name ? open(name, O_RDWR | O_CLOEXEC) : -1;
  struct truth *shared =
      opened < 0 ? MAP_FAILED : mmap(NULL, sizeof *shared, PROT_READ | PROT_WRITE, MAP_SHARED, opened, 0);
  uint64_t *page = mmap(NULL, 4096, PROT_READ | PROT_WRITE, MAP_PRIVATE | MAP_ANONYMOUS, -1, 0), none = 0;
  if (opened >= 0) close(opened);
  if (shared == MAP_FAILED || page == MAP_FAILED || madvise(page, 4096, MADV_WIPEONFORK)) return;
  __atomic_compare_exchange_n(&shared->process, &none, getpid(), 0, __ATOMIC_RELAXED, __ATOMIC_RELAXED);
  *page = shared->process == (uint64_t)getpid(), is_first = page, truth = shared;
  add_counts(&shared->all, &before.all);
  if (!*page) return;
  memset(&shared->last, 0, sizeof shared->last);
  add_counts(&shared->last, &before.last), add(&shared->requests, before.requests);
}

static size_t product(size_t number, size_t each) {
  size_t size;
  return __builtin_mul_overflow(number, each, &size) ? SIZE_MAX : size;
}
static size_t aligned(size_t alignment, size_t size) {
  size_t all = size;
  return alignment > 16 && __builtin_add_overflow(size, alignment - 16, &all) ? SIZE_MAX : all;
}

void *malloc(size_t size) { return count(__libc_malloc(size), size); }
void *calloc(size_t number, size_t each) { return count(__libc_calloc(number, each), product(number, each)); }
void *memalign(size_t alignment, size_t size) {
  return count(__libc_memalign(alignment, size), aligned(alignment, size));
}
void *aligned_alloc(size_t alignment, size_t size) {
  return count(__libc_memalign(alignment, size), aligned(alignment, size));
}
void *valloc(size_t size) { return count(__libc_valloc(size), aligned(4096, size)); }
void *pvalloc(size_t size) {
  return count(__libc_pvalloc(size), aligned(4096, size > -4096UL ? SIZE_MAX : (size + 4095) & -4096UL));
}
int posix_memalign(void **result, size_t alignment, size_t size) {
  int error = errno;
  if (alignment % 8 || !alignment || alignment & (alignment - 1)) return EINVAL;
  void *block = count(__libc_memalign(alignment, size), aligned(alignment, size));
  errno = error;
  if (block) *result = block;
  return block ? 0 : ENOMEM;
}
void free(void *block) {
  if (block) count_free();
  __libc_free(block);
}
void *realloc(void *block, size_t size) {
  if (block && !size) return count_free(), __libc_realloc(block, 0);
  void *moved = __libc_realloc(block, size);
  if (block && moved) count_free();
  return count(moved, size);
}
