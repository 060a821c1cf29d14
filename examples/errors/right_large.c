// No error: small and large blocks, which grow and shrink.
#include <stdlib.h>
#include <string.h>

int main(void) {
  for (int i = 0; i < 50; i++) {
    char *block = malloc(1000 << (i % 12));
    memset(block, 1, 1000 << (i % 12));
    block = realloc(block, 70000);
    block[69999] = 1;
    block = realloc(block, 10);
    block[9] = 1;
    free(block);
  }
  return 0;
}
