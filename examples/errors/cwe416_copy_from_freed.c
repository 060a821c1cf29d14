// CWE-416, use after free: memcpy from a freed block.
// heap: always: load of 100 bytes, 0 bytes into a block of 100 bytes that was freed
#include <stdlib.h>
#include <string.h>

char *from, to[100];

int main(void) {
  from = calloc(1, 100);
  free(from);
  volatile size_t length = sizeof to;
  memcpy(to, from, length);  // WRONG
  return 0;
}
