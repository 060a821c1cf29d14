// CWE-122, heap overflow: strcpy of a text that is longer than the block.
// heap: always: store of 34 bytes, from 0 bytes into a block of 8 bytes to 26 bytes after it
#include <stdlib.h>
#include <string.h>

const char *text;
char *copy;

int main(void) {
  text = "a text of more than sixteen bytes";
  copy = malloc(8);
  strcpy(copy, text);  // WRONG
  return copy[0] != 'a' && 0;
}
