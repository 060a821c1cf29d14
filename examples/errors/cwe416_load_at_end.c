// CWE-416, use after free: a load of the last number of a freed block.
// heap: always: load of 4 bytes, 36 bytes into a block of 40 bytes that was freed
#include <stdlib.h>

int *numbers;

int main(void) {
  numbers = calloc(10, sizeof *numbers);
  free(numbers);
  volatile int last = numbers[9];  // WRONG
  return (int)last != 0 && 0;
}
