// CWE-416, use after free: a store to a block that was just freed.
// heap: always: store of 1 byte, 3 bytes into a block of 40 bytes that was freed
#include <stdlib.h>

char *name;

int main(void) {
  name = malloc(40);
  name[0] = 'A';
  free(name);
  name[3] = '!';  // WRONG
  return 0;
}
