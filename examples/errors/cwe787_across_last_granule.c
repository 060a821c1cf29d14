// CWE-787, write out of bounds: a store that begins in the last granule, and ends after it.
// heap: always: store of 8 bytes, from 28 bytes into a block of 30 bytes to 6 bytes after it
#include <stdlib.h>

struct __attribute__((packed)) record { char letters[28]; long number; };
struct record *record;

int main(void) {
  record = malloc(30);
  record->number = 1;  // WRONG
  return 0;
}
