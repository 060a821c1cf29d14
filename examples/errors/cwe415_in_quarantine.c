// CWE-415, double free: many blocks came since then, but the quarantine still holds the block back.
// heap: always: free of a block of 40 bytes that was freed
#include <stdlib.h>

char *old, *others[900];

int main(void) {
  old = malloc(40);
  free(old);
  for (int i = 0; i < 900; i++) others[i] = malloc(40);
  free(old);  // WRONG
  for (int i = 0; i < 900; i++) others[i][39] = 1;
  return 0;
}
