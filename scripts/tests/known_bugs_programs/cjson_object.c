// A text without an end, which ends after a comma.
#include "cJSON.h"
#include <stdlib.h>
#include <string.h>

int main(void) {
  static const char whole[] = "{\"a\":1,";
  size_t length = sizeof whole - 1;
  char *text = malloc(length);
  memcpy(text, whole, length);
  cJSON_Delete(cJSON_ParseWithLength(text, length));
  free(text);
  return 0;
}
