// Keeps blocks of some 600 sizes at random. random_sizes EVENTS [PHASES]: requests and frees together, and in how many phases their number
// grows and falls; in one, which is what there is without PHASES, it stays near 15,000.
#include <stdint.h>
#include <stdlib.h>

enum { SIZES = 700, BLOCKS = 15000, MOST_BLOCKS = 4 * BLOCKS };

static uint32_t next(uint32_t below) {
  static uint64_t state = 88172645463325252;
  state ^= state << 13, state ^= state >> 7, state ^= state << 17;
  return (state >> 32) * below >> 32;
}

int main(int words, char **word) {
  static void *live[MOST_BLOCKS];
  static int sizes[SIZES];
  long events = words > 1 ? atol(word[1]) : 0, phases = words > 2 ? atol(word[2]) : 1;
  uint32_t number = 0;
  if (events < 1 || phases < 1) return 2;
  for (int i = 0; i < SIZES; i++) sizes[i] = 1 + next(next(6) ? 1500 : 16000);
  for (long i = 0; i < events; i++) {
    long phase = i / (events / phases + 1), target = phases == 1 ? BLOCKS : BLOCKS / 8 + phase * 7919 % 97 * BLOCKS / 97;
    if (!number || (number < MOST_BLOCKS && next(100) < (number < target ? 55 : 45))) {
      int size = next(3) ? next(SIZES) : (phase * 31 + next(20)) % SIZES;
      if (!(live[number++] = malloc(sizes[size]))) return 1;
    } else {
      uint32_t k = next(number);
      free(live[k]), live[k] = live[--number];
    }
  }
  return 0;
}
