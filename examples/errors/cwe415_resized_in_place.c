// CWE-415, double free: of the pointer before a realloc that this heap makes in place.
// heap: never: free of a block of 40 bytes that was resized
#include <stdlib.h>

char *old, *new;

int main(void) {
  old = malloc(40);
  new = realloc(old, 44);
  free(old);  // WRONG
  new[3] = 'B';
  free(new);
  return 0;
}
