// Keeps 20,000 blocks whose sizes move: in each of 40 phases it replaces half of them, by blocks that are 12% larger than those before.
#include <stdint.h>
#include <stdlib.h>
#include <string.h>

enum { BLOCKS = 20000, PHASES = 40 };

static uint32_t next(uint32_t below) {
  static uint64_t state = 88172645463325252;
  state ^= state << 13, state ^= state >> 7, state ^= state << 17;
  return state % below;
}

int main(void) {
  static void *blocks[BLOCKS];
  double size = 40;
  for (int phase = 0; phase < PHASES; phase++, size *= 1.12)
    for (int i = phase % 2; i < BLOCKS; i += 2) {
      size_t bytes = size + next(1 + size / 8);
      free(blocks[i]);
      if (!(blocks[i] = malloc(bytes))) return 1;
      memset(blocks[i], 1, bytes);
    }
  return 0;
}
