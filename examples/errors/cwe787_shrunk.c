// CWE-787, write out of bounds: a realloc made the block smaller.
// heap: always: store of 1 byte, 60 bytes after a block of 40 bytes
#include <stdlib.h>

char *name;

int main(void) {
  name = malloc(4000);
  name = realloc(name, 40);
  name[100] = 'A';  // WRONG
  return 0;
}
