// Random requests, frees and accesses, right and wrong: random SEED OPERATIONS WRONG_OF_1000
#include <stdlib.h>
#include <string.h>

enum { BLOCKS = 400 };
static unsigned long state;
static char *volatile live[BLOCKS], *volatile dead[BLOCKS];
static unsigned live_size[BLOCKS], dead_size[BLOCKS];

static unsigned below(unsigned n) {
  state = state * 6364136223846793005ul + 1442695040888963407ul;
  return (state >> 33) % n;
}

static unsigned any_size(void) {
  switch (below(10)) {
    case 0: return below(20000);
    case 1: return 0;
    case 2: return below(2000);
    case 3: return 16 * below(20);
    default: return below(100);
  }
}

static char *request(unsigned size) {
  switch (below(8)) {
    case 0: return aligned_alloc(32u << below(4), size);
    case 1:
    case 2: return calloc(1, size);
    default: return malloc(size);
  }
}

static void bury(unsigned i, unsigned at) { dead[at] = live[i], dead_size[at] = live_size[i]; }

static void do_right(unsigned i, unsigned j) {
  unsigned size = any_size();
  switch (below(6)) {
    case 0:
    case 1:
      if (!live[i]) live_size[i] = size, live[i] = request(size);
      break;
    case 2:
      if (live[i]) bury(i, i), free(live[i]), live[i] = NULL;
      break;
    case 3:
      if (live[i]) bury(i, j), live[i] = realloc(live[i], size + 1), live_size[i] = size + 1;
      break;
    default:
      if (live[i] && live_size[i]) {
        unsigned offset = below(live_size[i]);
        live[i][offset] = 3;
        memset(live[i] + offset, 1, below(live_size[i] - offset + 1));
      }
  }
}

static void do_wrong(unsigned i, unsigned j) {
  int is_live = below(2);
  char *pointer = is_live ? live[i] : dead[j];
  unsigned size = is_live ? live_size[i] : dead_size[j], kind = below(10);
  if (!pointer) return;
  if (kind < 3 && dead[j]) dead[j][dead_size[j] ? below(dead_size[j]) : 0] = 1;
  if (kind == 3) *(volatile char *)(pointer + size + below(60)) = 1;
  if (kind == 4) *(volatile long *)(pointer + size - 8 + below(60)) = 1;
  if (kind == 5) *(volatile char *)(pointer - 1 - below(50)) = 1;
  if (kind == 6 && dead[j]) free(dead[j]);
  if (kind == 7) free(pointer + 1 + below(size + 40));
  if (kind == 8 && dead[j]) free(realloc(dead[j], any_size()));
  if (kind == 9) memset(pointer + below(size + 1), 2, below(size + 60));
}

int main(int words, char **word) {
  if (words != 4) return 2;
  state = atol(word[1]) * 77777 + 1;
  unsigned wrong = atoi(word[3]);
  for (long left = atol(word[2]); left > 0; left--) {
    unsigned i = below(BLOCKS), j = below(BLOCKS);
    if (below(1000) < wrong) do_wrong(i, j);
    else do_right(i, j);
  }
  return 0;
}
