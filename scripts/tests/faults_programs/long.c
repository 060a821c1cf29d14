// A log of 16 MB, or of so many requests and frees, and an error at the end.
#include <stdlib.h>

int main(int words, char **word) {
  for (int i = words > 1 ? atoi(word[1]) : 400000; i; i--) free(malloc(24));
  char *volatile block = malloc(50);
  free(block);
  block[1] = 2;
  return 0;
}
