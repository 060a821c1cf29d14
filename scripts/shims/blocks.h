// Puts down the record of blocks of a run, beside its timeline, in memory that is bounded: where it has no room, there is none.
#pragma once
#include "block_kinds.h"
#include "stream.h"

enum { MOST_RECORD = MOST_INPUT, CLOCK_EACH = 1 << 14, LONGEST_CALL = 20, FIRST_ROOM = 1 << 16 };  // bytes, calls, bytes of one

static struct block_record {
  uint8_t *at;
  uint32_t *unused;                // the blocks that are of no request
  uint64_t bytes, room, calls;
  uint32_t free, places, next;
  int is_wanted, is_over;          // it is not, where it had no room
} block_record;

static void put_clock(void);

static void put_number(uint64_t value) {
  struct block_record *to = &block_record;
  for (; value > 127; value >>= 7) to->at[to->bytes++] = value | 128;
  to->at[to->bytes++] = value;
}

static void end_record(void) {
  free(block_record.at), free(block_record.unused);
  block_record = (struct block_record){.is_wanted = block_record.is_wanted, .is_over = 1};
}

static void begin_record(void) { end_record(), block_record.is_over = !block_record.is_wanted; }

// Puts down a call, with a second number for those that have one.
static void put_call(int kind, uint64_t value, uint64_t second) {
  struct block_record *to = &block_record;
  if (to->is_over) return;
  if (to->bytes + LONGEST_CALL > to->room) {
    uint64_t room = to->room ? to->room * 2 : FIRST_ROOM;
    uint8_t *at = room > MOST_RECORD ? NULL : realloc(to->at, room);
    if (!at) { end_record(); return; }
    to->at = at, to->room = room;
  }
  put_number(value << KIND_BITS | kind);
  if (kind == RESIZED || kind == CLOCK) put_number(second);
  if (kind != CLOCK && !(to->calls++ & (CLOCK_EACH - 1))) put_clock();
}

// A block comes, perhaps full of zeros: its number.
static inline uint32_t put_request(uint64_t size, int is_zeroed) {
  if (block_record.is_over) return 0;
  put_call(is_zeroed ? ZEROED : REQUESTED, size, 0);
  return block_record.free ? block_record.unused[--block_record.free] : block_record.next++;
}

static inline void put_free(uint32_t block) {
  struct block_record *to = &block_record;
  if (to->is_over) return;
  put_call(FREED_BLOCK, block, 0);
  if (to->free == to->places) {
    uint32_t places = to->places ? to->places * 2 : FIRST_ROOM;
    uint32_t *unused = to->is_over ? NULL : realloc(to->unused, places * sizeof *unused);
    if (!unused) { end_record(); return; }
    to->unused = unused, to->places = places;
  }
  to->unused[to->free++] = block;
}
