// CWE-787, write out of bounds: malloc(0) gives a pointer, and the heap gives it a granule of its own.
// heap: never: store of 1 byte, 0 bytes after a block of 0 bytes
#include <stdlib.h>

char *name;

int main(void) {
  volatile size_t size = 0;
  name = malloc(size);
  name[0] = 'A';  // WRONG
  return 0;
}
