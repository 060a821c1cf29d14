// An object that requests from its own code, and has more code before that with LARGE.
#include <stdlib.h>

#ifdef LARGE
static int volatile used;
#define TEN(x)   \
  used += x;     \
  used ^= x * 3; \
  used -= x / 2; \
  used += x;     \
  used ^= x * 5; \
  used -= x / 3; \
  used += x;     \
  used ^= x * 7;
__attribute__((noinline)) static void before(int x) {
  TEN(x) TEN(x + 1) TEN(x + 2) TEN(x + 3) TEN(x + 4) TEN(x + 5) TEN(x + 6)
}
#endif
void requests_there(void) {
#ifdef LARGE
  char room[20000];
  room[used & 1023] = 1, before(used);
#endif
  void *volatile block = malloc(3333);
  free(block);
}
