// CWE-122, heap overflow: snprintf is told of more bytes than there are.
// heap: always: store of 30 bytes, from 0 bytes into a block of 4 bytes to 26 bytes after it
#include <stdio.h>
#include <stdlib.h>

const char *text;
char *name;

int main(void) {
  text = "a text that is longer than it";
  name = malloc(4);
  snprintf(name, 40, "%s", text);  // WRONG
  return name[0] != 'a' && 0;
}
