// A program with a malloc of its own, which tells nothing of who asked.
#include <stdlib.h>

char *name;

static __attribute__((noinline)) void *must_allocate(size_t size) {
  void *block = malloc(size);
  if (!block) abort();
  return block;
}

static __attribute__((noinline)) char *new_name(void) {
  return must_allocate(16);
}

int main(void) {
  name = new_name();
  name[16] = 1;
  return 0;
}
