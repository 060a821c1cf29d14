// CWE-415, double free: twice in a row.
// heap: always: free of a block of 40 bytes that was freed
#include <stdlib.h>

char *name;

int main(void) {
  name = malloc(40);
  name[0] = 'A';
  free(name);
  free(name);  // WRONG
  return 0;
}
