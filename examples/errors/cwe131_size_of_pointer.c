// CWE-131, wrong size of a buffer: the size of a pointer in place of what it points to.
// heap: always: store of 8 bytes, 24 bytes after a block of 8 bytes
#include <stdlib.h>

struct record { long numbers[5]; };

struct record *record;

int main(void) {
  record = malloc(sizeof(record));
  record->numbers[4] = 1;  // WRONG
  return 0;
}
