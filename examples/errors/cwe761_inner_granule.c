// CWE-761, free of a pointer that is not at the start: of a whole granule after it.
// heap: always: free of a pointer 16 bytes into a block of 80 bytes
#include <stdlib.h>

char *name;

int main(void) {
  name = malloc(80);
  free(name + 16);  // WRONG
  return 0;
}
