// Pieces of a pool that the program poisons: the report has the block, and where a piece was poisoned and unpoisoned.
#include <sanitizer/asan_interface.h>
#include <stdlib.h>

static char *pool;
static void *get(int number) {
  __asan_unpoison_memory_region(pool + 32 * number, 32);
  return pool + 32 * number;
}
static void put(void *piece) { __asan_poison_memory_region(piece, 32); }

int main(void) {
  pool = malloc(4096);
  __asan_poison_memory_region(pool, 4096);
  volatile char *one = get(1), *two = get(2);
  one[0] = two[0] = 1;
  put((void *)two);
  two[5] = 1;
  two[6] = one[0];
  two = get(2);
  two[5] = 1;
  int last = two[32];
  return free(pool), last;
}
