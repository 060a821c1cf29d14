// CWE-193, off by one: no room for the end of a text, and the block fills its granules.
// heap: always: store of 17 bytes, from 0 bytes into a block of 16 bytes to 1 byte after it
#include <stdlib.h>
#include <string.h>

const char *text;
char *copy;

int main(void) {
  text = "0123456789abcdef";
  copy = malloc(strlen(text));
  strcpy(copy, text);  // WRONG
  return copy[0] != '0' && 0;
}
