// No error: blocks at multiples of larger powers of two.
#include <stdlib.h>
#include <string.h>

int main(void) {
  void *block;
  for (int bits = 4; bits < 13; bits++) {
    if (posix_memalign(&block, 1 << bits, 100) || (unsigned long)block % (1 << bits)) return 9;
    memset(block, 1, 100);
    free(block);
  }
  block = aligned_alloc(64, 640);
  memset(block, 2, 640);
  free(block);
  return 0;
}
