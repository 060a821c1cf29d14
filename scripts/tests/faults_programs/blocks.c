// N blocks, of which a thousand live at a time, and one store after the end of a block near the end: blocks N
#include <stdlib.h>
#include <string.h>

enum { LIVE = 1000 };
static char *live[LIVE];

int main(int words, char **word) {
  long count = words > 1 ? atol(word[1]) : 1000;
  unsigned state = 1;
  for (long i = 0; i < count; i++) {
    state = state * 1664525 + 1013904223;
    unsigned at = (state >> 8) % LIVE, size = 16 + (state >> 20) % 200;
    free(live[at]);
    live[at] = malloc(size);
    memset(live[at], 1, size);
    if (i == count - 10) live[at][(size + 15) / 16 * 16] = 1;
  }
  return 0;
}
