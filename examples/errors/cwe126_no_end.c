// CWE-126, read after a buffer: strlen of bytes that have no end.
// heap: always: load of 17 bytes, from 0 bytes into a block of 16 bytes to 1 byte after it
#include <stdlib.h>
#include <string.h>

char *letters;

int main(void) {
  letters = malloc(16);
  memset(letters, 'a', 16);
  volatile size_t length = strlen(letters);  // WRONG
  return length && 0;
}
