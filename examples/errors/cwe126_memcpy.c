// CWE-126, read after a buffer: memcpy of as many bytes as its target has.
// heap: always: load of 64 bytes, from 0 bytes into a block of 24 bytes to 40 bytes after it
#include <stdlib.h>
#include <string.h>

char *from, to[64];

int main(void) {
  from = calloc(1, 24);
  volatile size_t length = sizeof to;
  memcpy(to, from, length);  // WRONG
  return 0;
}
