// CWE-122, heap overflow: memcpy of as many bytes as its source has.
// heap: always: store of 100 bytes, from 0 bytes into a block of 60 bytes to 40 bytes after it
#include <stdlib.h>
#include <string.h>

char *from, *to;

int main(void) {
  from = calloc(1, 100);
  to = malloc(60);
  volatile size_t length = 100;
  memcpy(to, from, length);  // WRONG
  return to[0];
}
