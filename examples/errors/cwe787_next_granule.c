// CWE-787, write out of bounds: the first byte after a block that fills its granules.
// heap: always: store of 1 byte, 0 bytes after a block of 32 bytes
#include <stdlib.h>

char *name;

int main(void) {
  name = malloc(32);
  name[32] = 0;  // WRONG
  return 0;
}
