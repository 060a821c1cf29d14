// Five errors of blocks of 8 bytes, and 510,000 blocks of 24 to 87 bytes, which are more events than a trace has.
#include <stdlib.h>

volatile char *one, *other;

int main(void) {
  one = malloc(8), other = malloc(8);
  free((void *)other);
  for (int i = 0; i < 510000; i++) {
    volatile char *block = malloc(24 + i % 64);
    *block = 1;
    free((void *)block);
  }
  one[8] = 1;
  one[16] = 1;
  other[1] = 2;
  free((void *)other);
  free((void *)one);
  one[3] = 1;
  return 0;
}
