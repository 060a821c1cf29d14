// CWE-416, use after free: the freed block's place has had many users since then.
// heap: sometimes: store of 1 byte, 3 bytes into a block of 40 bytes that was freed
#include <stdlib.h>

char *old;

int main(void) {
  old = malloc(40);
  free(old);
  for (int i = 0; i < 2000; i++) {
    char *volatile user = malloc(40);
    user[0] = 'B';
    if (i < 1999) free(user);
  }
  old[3] = '!';  // WRONG
  return 0;
}
