// CWE-124, write before a buffer: the byte before it.
// heap: always: store of 1 byte, 1 byte before a block of 40 bytes
#include <stdlib.h>

char *name;

int main(void) {
  name = malloc(40);
  name[-1] = 'A';  // WRONG
  return 0;
}
