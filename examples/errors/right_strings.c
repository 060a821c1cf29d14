// No error: functions of string.h and stdio.h up to the last byte of a block.
#include <stdio.h>
#include <stdlib.h>
#include <string.h>

int main(void) {
  char *text = malloc(21), *part = strdup("a text");
  strcpy(text, part), strcat(text, part), strncat(text, part, 3);
  snprintf(text + strlen(text), 21 - strlen(text), "%d", 12345);
  if (strlen(text) != 20 || strcmp(text, part) <= 0 || strchr(text, '5') != text + 19 || !strstr(text, "xta")) return 9;
  if (memcmp(text, part, 6) || memchr(text, 'z', 20) || strspn(part, "a ") != 2) return 8;
  free(text), free(part);
  return 0;
}
