// CWE-416, use after free: the freed block's place has its next user, who is still there.
// heap: always: store of 1 byte, 3 bytes into a block of 40 bytes that was freed
#include <stdlib.h>

char *old, *next_user;

int main(void) {
  char *others[1500];
  old = malloc(40);
  free(old);
  for (int i = 0; i < 1500; i++) others[i] = malloc(40);
  for (int i = 0; i < 1500; i++) free(others[i]);
  next_user = malloc(40);
  next_user[0] = 'B';
  old[3] = '!';  // WRONG
  return 0;
}
