// CWE-825, expired pointer: realloc moves the block, and the old pointer is used.
// heap: always: store of 1 byte, 1 byte into a block of 40 bytes that was resized
#include <stdlib.h>

char *old, *new;

int main(void) {
  old = malloc(40);
  new = realloc(old, 4000);
  new[0] = 'B';
  old[1] = '!';  // WRONG
  free(new);
  return 0;
}
