// CWE-787, write out of bounds: a member of the element after the last.
// heap: always: store of 4 bytes, 8 bytes after a block of 48 bytes
#include <stdlib.h>

struct point { int x, y, z; };

struct point *points;

int main(void) {
  points = calloc(4, sizeof *points);
  points[4].z = 1;  // WRONG
  return 0;
}
