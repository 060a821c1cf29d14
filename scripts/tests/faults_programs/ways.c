// One wrong store by two ways, of which the second comes more often; and a double free by two.
#include <stdlib.h>

static __attribute__((noinline)) void put(char *to, int at) { to[at] = 1; }
static __attribute__((noinline)) void level1(char *to) { put(to, 20); }
static __attribute__((noinline)) void level2(char *to, int times) {
  for (int i = 0; i < times; i++) put(to, 20);
}
static __attribute__((noinline)) void release(char *block) { free(block); }
static __attribute__((noinline)) void twice(int size) {
  char *block = malloc(size);
  release(block);
  release(block);
}

int main(int words, char **word) {
  char *block = malloc(20);
  level1(block);
  level2(block, 3);
  free(block);
  twice(30);
  if (words < 9) twice(40);
  return 0;
}
