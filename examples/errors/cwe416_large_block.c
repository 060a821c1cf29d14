// CWE-416, use after free: the block is larger than the heap serves.
// heap: never: store of 1 byte, 100 bytes into a block of 20000 bytes that was freed
#include <stdlib.h>

char *page;

int main(void) {
  page = malloc(20000);
  free(page);
  page[100] = 1;  // WRONG
  return 0;
}
