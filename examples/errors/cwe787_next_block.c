// CWE-787, write out of bounds: in the block that stands next to it.
// heap: always: store of 1 byte, 32 bytes after a block of 48 bytes
#include <stdlib.h>

char *blocks[64];

int main(void) {
  for (int i = 0; i < 64; i++) blocks[i] = malloc(48);
  blocks[0][48 + 32] = 1;  // WRONG
  return 0;
}
