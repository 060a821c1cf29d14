// Wrong accesses of variables, one for each number. Beside each: what is told, and what the model of stack tagging says of it.
#include <stdlib.h>
#include <string.h>

static int numbers[10];  // numbers
static char text[30];    // text
static volatile int sum, *left;

static __attribute__((noinline)) void keep(volatile int *pointer) { left = pointer; }

static __attribute__((noinline)) void leave(void) {
  volatile int gone[4] = {1};  // gone
  keep(gone);
}

int main(int n, char **words) {
  char first[20], near[10], whole[32];  // near whole
  volatile char *p = near, *q = whole;
  memset(first, 1, 20), memset(near, 1, 10), memset(whole, 1, 32);
  switch (atoi(words[1])) {
    case 0: p[9 + n] = 1; break;          // store of 1 byte, 1 byte after the variable near of 10 bytes [not caught]
    case 1: q[30 + n] = 1; break;         // store of 1 byte, 0 bytes after the variable whole of 32 bytes [caught, 14/15]
    case 2: sum = p[1 - n]; break;        // load of 1 byte, 1 byte before the variable near of 10 bytes [caught, 14/15]
    case 3: leave(), sum = left[n]; break; // load of 4 bytes, 8 bytes into the variable gone of 16 bytes after its function's return [caught, 14/15]
    case 4: {
      { volatile int inner = n; keep(&inner); }  // inner
      sum = *left; break;  // load of 4 bytes, 0 bytes into the variable inner of 4 bytes after the end of its scope [caught, not caught]
    }
    case 5: strcpy(near, "0123456789ab"); break;  // store of 13 bytes, 0 bytes after the variable near of 10 bytes [not caught, caught, 14/15]
    case 6: numbers[8 + n] = 1; break;    // store of 4 bytes, 0 bytes after the global variable numbers of 40 bytes []
    case 7: text[29 + n] = 1; break;      // store of 1 byte, 1 byte after the global variable text of 30 bytes []
  }
  return 0;
}
