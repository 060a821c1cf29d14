// CWE-825, expired pointer: this heap resizes the block in place, so the old pointer is still its own.
// heap: never: store of 1 byte, 1 byte into a block of 40 bytes that was resized
#include <stdlib.h>

char *old, *new;

int main(void) {
  old = malloc(40);
  new = realloc(old, 44);
  new[0] = 'B';
  old[1] = '!';  // WRONG
  free(new);
  return 0;
}
