// Keeps 100,000 records of 32, 64, .. 192 bytes and replaces them at random. Four times it makes 3,000 blocks of 600 to 2,000 bytes for a
// moment. With a number from 2 to 9 as its word it does so many times as much.
#include <stdint.h>
#include <stdlib.h>
#include <string.h>

enum { RECORDS = 100000, TURNS = 1200000, BURSTS = 4, BURST = 3000, MOST = 9 };

static uint32_t next(uint32_t below) {
  static uint64_t state = 88172645463325252;
  state ^= state << 13, state ^= state >> 7, state ^= state << 17;
  return state % below;
}

static void *filled(size_t size) {
  void *block = malloc(size);
  if (!block) exit(1);
  return memset(block, 1, size);
}

static void burst(int times) {
  static void *blocks[MOST * BURST];
  for (int i = 0; i < times * BURST; i++) blocks[i] = filled(600 + next(1401));
  for (int i = 0; i < times * BURST; i++) free(blocks[i]);
}

int main(int words, char **word) {
  static void *records[MOST * RECORDS];
  int times = words > 1 ? *word[1] - '0' : 1, turns = times * TURNS;
  if (times < 1 || times > MOST) return 2;
  for (int i = 0; i < times * RECORDS; i++) records[i] = filled(32 + 32 * next(6));
  for (int turn = 1; turn <= turns; turn++) {
    uint32_t i = next(times * RECORDS);
    free(records[i]);
    records[i] = filled(32 + 32 * next(6));
    if (turn % (turns / BURSTS) == turns / BURSTS / 2) burst(times);
  }
  return 0;
}
