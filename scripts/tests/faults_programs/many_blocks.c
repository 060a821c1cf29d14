// 10,000 live blocks, with an error in the last granule of one, one after it, and a use of a freed one.
#include <stdlib.h>

static char *blocks[10000];

int main(void) {
  for (int i = 0; i < 10000; i++) blocks[i] = malloc(40), blocks[i][0] = 1;
  ((volatile char *)blocks[7777])[40] = 1;
  ((volatile char *)blocks[7777])[48] = 1;
  for (int i = 0; i < 10000; i++) free(blocks[i]);
  ((volatile char *)blocks[5000])[1] = 1;
  return 0;
}
