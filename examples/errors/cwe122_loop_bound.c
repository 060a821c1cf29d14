// CWE-122, heap overflow: a loop that runs three elements too far. Its first wrong store is in the last granule, the next is caught.
// heap: always: store of 4 bytes, 8 bytes after a block of 40 bytes
#include <stdlib.h>

int *numbers;

int main(void) {
  numbers = malloc(10 * sizeof *numbers);
  for (volatile int i = 0; i < 13; i++) numbers[i] = i;  // WRONG
  free(numbers);
  return 0;
}
