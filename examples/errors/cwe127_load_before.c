// CWE-127, read before a buffer: the number before it.
// heap: always: load of 8 bytes, 8 bytes before a block of 40 bytes
#include <stdlib.h>

long *numbers;

int main(void) {
  numbers = malloc(40);
  numbers[0] = 5;
  volatile long index = -1, before = numbers[index];  // WRONG
  return before && 0;
}
