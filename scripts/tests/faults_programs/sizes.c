// Sizes that no object has: each is an error before the access, with the block or both. A copy of so many bytes ends the program.
#include <stdlib.h>
#include <string.h>
#include <wchar.h>

int main(void) {
  volatile size_t size = -2;
  char *block = malloc(20), *other = malloc(30);
  memset(block, 0, 20), memset(other, 1, 30);
  if (memcmp(block + 4, other + 4, size) >= 0) return 2;
  if (strncmp(other, "\1", size) <= 0 || strnlen(block, size) || memchr(block, 0, size) != block) return 3;
  free(other);
  memcpy(block + 4, other + 4, size);
  return 0;
}
