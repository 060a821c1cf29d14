// Three million right accesses and 301,000 blocks between two uses of a freed block.
#include <stdlib.h>

char *block;

int main(void) {
  block = malloc(8);
  for (int round = 0; round < 1500; round++) {
    volatile int *numbers = malloc(1000 * sizeof *numbers);
    for (int i = 0; i < 1000; i++) numbers[i] = i;
    for (int i = 0; i < 1000; i++) block[0] += numbers[i];
    free((void *)numbers);
  }
  free(block);
  block[1] = 1;
  for (int i = 0; i < 300000; i++) {
    volatile char *other = malloc(24);
    *other = 1;
    free((void *)other);
  }
  block[2] = 1;
  return 0;
}
