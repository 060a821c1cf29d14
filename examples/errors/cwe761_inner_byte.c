// CWE-761, free of a pointer that is not at the start: a text's first letters were skipped.
// heap: always: free of a pointer 4 bytes into a block of 80 bytes
#include <stdlib.h>
#include <string.h>

char *text;

int main(void) {
  text = malloc(80);
  strcpy(text, "    name");
  while (*text == ' ') text++;
  free(text);  // WRONG
  return 0;
}
