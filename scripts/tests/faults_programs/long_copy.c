// A copy that is too long is one error, however the blocks lie; and a header of the program's own, in a folder `bits`.
#include <stdlib.h>
#include <string.h>
#include "bits/put.h"

static volatile size_t more = 600;

int main(void) {
  char *from = calloc(1, 48), *to = calloc(1, 700);
  char *before = calloc(1, 700), *short_one = calloc(1, 48);
  memcpy(to, from, more);
  memcpy(before, short_one, more);
  memcpy(from + 8, from, 9);
  put(short_one + 48 + (more > 700));
  return to[0] + before[0] + from[9];
}
