// CWE-787, write out of bounds: the first byte after a block that doesn't fill its last granule.
// heap: never: store of 1 byte, 0 bytes after a block of 30 bytes
#include <stdlib.h>

char *name;

int main(void) {
  name = malloc(30);
  name[30] = 0;  // WRONG
  return 0;
}
