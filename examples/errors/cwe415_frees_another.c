// CWE-415, double free: the place of the block has its third user, whose block is freed if the tags are the same.
// heap: sometimes: free of a block of 200 bytes that was freed
#include <stdlib.h>

char *old, *others[900];

int main(void) {
  old = malloc(200);
  free(old);
  for (int round = 0; round < 4; round++) {
    for (int i = 0; i < 900 && round; i++) free(others[i]);
    for (int i = 0; i < 900; i++) others[i] = malloc(200);
  }
  free(old);  // WRONG
  for (int i = 0; i < 900; i++) others[i][39] = 1;
  return 0;
}
