// CWE-193, off by one: no room for the end of a text, but the last granule has room.
// heap: never: store of 11 bytes, from 0 bytes into a block of 10 bytes to 1 byte after it
#include <stdlib.h>
#include <string.h>

const char *text;
char *copy;

int main(void) {
  text = "0123456789";
  copy = malloc(strlen(text));
  strcpy(copy, text);  // WRONG
  return copy[0] != '0' && 0;
}
