// CWE-761, free of a pointer that is not at the start: of a header that a program thinks before its block.
// heap: always: free of a pointer 16 bytes before a block of 80 bytes
#include <stdlib.h>

char *body;

int main(void) {
  body = malloc(80);
  free(body - 16);  // WRONG
  return 0;
}
