// Random requests and frees of four sizes, whose places have many users, with accesses and frees by old pointers: reuse SEED OPERATIONS
#include <stdlib.h>

enum { BLOCKS = 40, OLD = 60 };
static unsigned long state;
static char *volatile live[BLOCKS], *volatile old[OLD];

static unsigned below(unsigned n) {
  state = state * 6364136223846793005ul + 1442695040888963407ul;
  return (state >> 33) % n;
}

int main(int words, char **word) {
  static const unsigned sizes[] = {16, 48, 100, 200};
  if (words != 3) return 2;
  state = atol(word[1]) * 77777 + 1;
  for (long left = atol(word[2]); left > 0; left--) {
    unsigned i = below(BLOCKS), j = below(OLD), does = below(100);
    if (does >= 4) {
      if (live[i]) old[j] = live[i], free(live[i]), live[i] = NULL;
      else live[i] = malloc(sizes[below(4)]);
    } else if (does == 0 && live[i]) {
      live[i][200 + below(600)] = 1;
    } else if (old[j]) {
      if (does == 1) free(old[j]);
      else old[j][below(16)] = 1;
    }
  }
  return 0;
}
