// A pool whose pieces are poisoned and unpoisoned so often that the log is a large one.
#include <sanitizer/asan_interface.h>
#include <stdlib.h>
#include <string.h>
static char *pool;
static char *get(int i) { __asan_unpoison_memory_region(pool + 32 * i, 20); return pool + 32 * i; }
static void put(char *p) { __asan_poison_memory_region(p, 20); }
int main(void) {
  pool = malloc(4096);
  __asan_poison_memory_region(pool, 4096);
  for (int i = 0; i < 150000; i++) { char *p = get(i % 100); p[3] = 1; free(malloc(i % 700)); put(p); }
  volatile char *p = get(5);
  p[19] = 1;
  p[20] = 1;
  put((char *)p);
  p[7] = 1;
  char *q = malloc(30); memcpy(q + 5, q, 10);
  free(q); free(pool);
  return 0;
}
