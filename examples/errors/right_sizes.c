// No error: blocks of 0 to 299 bytes, each filled, and every other one resized.
#include <stdlib.h>
#include <string.h>

int main(void) {
  char *blocks[300];
  for (int i = 0; i < 300; i++) blocks[i] = malloc(i), memset(blocks[i], i, i);
  for (int i = 0; i < 300; i += 2) blocks[i] = realloc(blocks[i], 2 * i + 1), blocks[i][2 * i] = 3;
  for (int i = 0; i < 300; i++) free(blocks[i]);
  return 0;
}
