// CWE-590, free of memory that is not on the heap: of a variable on the stack.
// heap: always: free of an address that the heap never gave out
#include <stdlib.h>

int main(void) {
  char name[40], *volatile pointer = name;
  free(pointer);  // WRONG
  return 0;
}
