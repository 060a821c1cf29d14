// CWE-415, double free: realloc of a block that was freed.
// heap: always: free of a block of 40 bytes that was freed
#include <stdlib.h>

char *name;

int main(void) {
  name = malloc(40);
  free(name);
  name = realloc(name, 80);  // WRONG
  name[70] = 'A';
  return 0;
}
