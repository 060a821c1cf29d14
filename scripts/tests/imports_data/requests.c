// Requests blocks of known sizes, each from a place of its own, and from one place ten sizes. The peak is where at_peak is called. `make`
// has the tools record its run.
#define _GNU_SOURCE
#include <dlfcn.h>
#include <malloc.h>
#include <stdio.h>
#include <stdlib.h>
#include <string.h>

enum { SMALL = 100, BRIEF = 50, MIXED = 10, CLEARED = 20, LARGE = 3 };
static void *volatile kept[SMALL + MIXED + CLEARED + LARGE + 2];
static int held;

static void keep(void *block) { kept[held++] = block; }

__attribute__((noinline)) static void brief(void) {
  for (int i = 0; i < BRIEF; i++) free(malloc(40));
}

__attribute__((noinline)) static void small(void) {
  for (int i = 0; i < SMALL; i++) keep(malloc(24));
}

__attribute__((noinline)) static void mixed(void) {
  for (int i = 0; i < MIXED; i++) keep(malloc(100 + 10 * i));
}

__attribute__((noinline)) static void cleared(void) {
  for (int i = 0; i < CLEARED; i++) keep(calloc(10, 33));
}

__attribute__((noinline)) static void grown(void) {
  void *block = malloc(16);
  for (int bytes = 32; bytes <= 1024; bytes *= 2) block = realloc(block, bytes);
  keep(block);
}

__attribute__((noinline)) static void aligned(void) {
  void *block = NULL;
  if (posix_memalign(&block, 64, 200)) abort();
  keep(block);
}

__attribute__((noinline)) static void large(void) {
  for (int i = 0; i < LARGE; i++) keep(malloc(100000));
}

// What the allocator says of itself, by the function of this name.
static void at_peak(const char *name) {
  void *function = dlsym(RTLD_DEFAULT, name);
  if (!function) abort();
  if (!strcmp(name, "mallctl")) {
    const char *file = "jemalloc.heap";
    ((int (*)(const char *, void *, size_t *, void *, size_t))function)("prof.dump", NULL, NULL, &file, sizeof file);
  } else if (!strcmp(name, "HeapProfilerDump")) {
    ((void (*)(const char *))function)("peak");
  } else if (!strcmp(name, "__scudo_print_stats")) {
    ((void (*)(void))function)();
  } else if (!strcmp(name, "malloc_info")) {
    static char buffer[1 << 16];
    setvbuf(stdout, buffer, _IOFBF, sizeof buffer);
    malloc_info(0, stdout);
  }
}

int main(int number, char **words) {
  brief();
  small();
  mixed();
  cleared();
  grown();
  aligned();
  large();
  if (number > 1) at_peak(words[1]);
  while (held > SMALL) free(kept[--held]);
  brief();
  return 0;
}
