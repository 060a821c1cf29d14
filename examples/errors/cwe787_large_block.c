// CWE-787, write out of bounds: after a block that is larger than the heap serves.
// heap: never: store of 1 byte, 0 bytes after a block of 20000 bytes
#include <stdlib.h>

char *page;

int main(void) {
  page = malloc(20000);
  page[20000] = 1;  // WRONG
  return 0;
}
