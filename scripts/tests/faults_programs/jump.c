// longjmp leaves some frames; then one error is in the last granule, and one after it.
#include <setjmp.h>
#include <stdlib.h>

static jmp_buf place;
volatile char *block;

static int deep(int n) {
  char bytes[100];
  if (!n) {
    block = malloc(30);
    longjmp(place, 1);
  }
  bytes[n] = 1;
  return deep(n - 1) + bytes[n];
}

int main(void) {
  if (!setjmp(place)) return deep(5);
  block[31] = 1;
  block[32] = 1;
  free((void *)block);
  return 0;
}
