// CWE-124, write before a buffer: a loop that trims the spaces at the end of a text without one other letter.
// heap: always: store of 1 byte, 1 byte before a block of 16 bytes
#include <stdlib.h>
#include <string.h>

char *text;

int main(void) {
  text = malloc(16);
  strcpy(text, "   ");
  long last = 2;
  while (last >= 0 && text[last] == ' ') last--;
  text[last] = 0;  // WRONG
  return 0;
}
