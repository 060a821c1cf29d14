// CWE-126, read after a buffer: memcmp of more bytes than one of the blocks has.
// heap: always: load of 32 bytes, from 0 bytes into a block of 16 bytes to 16 bytes after it
#include <stdlib.h>
#include <string.h>

char *left, *right;

int main(void) {
  left = calloc(1, 32);
  right = calloc(1, 16);
  volatile int order = memcmp(left, right, 32);  // WRONG
  return order && 0;
}
