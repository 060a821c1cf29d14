// CWE-590, free of memory that is not on the heap: of a constant text.
// heap: always: free of an address that the heap never gave out
#include <stdlib.h>

char *name;

int main(void) {
  name = "Ada";
  free(name);  // WRONG
  return 0;
}
