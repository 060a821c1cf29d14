// Structs that are copied by memcpy. What is wrong with a line stands beside it; each is told once.
#include <stdlib.h>
#include <string.h>

struct large { char bytes[300]; };
struct large *volatile kept;
__attribute__((noinline)) static void copy(struct large *to, const struct large *from) {
  *to = *from;  // store of 300 bytes, from 0 bytes into a block of 100 bytes to 200 bytes after it
}
__attribute__((noinline)) static int copy_freed(struct large *to, const struct large *from) {
  *to = *from;  // load of 300 bytes, 0 bytes into a block of 300 bytes that was freed
  return 0;
}

int main(void) {
  struct large *from = calloc(1, sizeof *from), *to = malloc(100), *third = malloc(300);
  kept = to;
  copy(to, from);
  memcpy(kept, from, sizeof *from);  // store of 300 bytes, from 0 bytes into a block of 100 bytes to 200 bytes after it
  memcpy(kept, from, sizeof *from);  // store of 300 bytes, from 0 bytes into a block of 100 bytes to 200 bytes after it
  free(from);
  kept = third;
  return copy_freed(third, from);
}
