// What the reader of a stream keeps of the process that it follows: its live blocks; and of these the profile at the peak, and snapshots at
// evenly spaced requests, or the record of the run.
//
// The record: its events, two bytes each, as long as a command takes their text. Then, or from the start where that is wanted, it goes on as
// a history, a piece of events at a time (moments.h, windows.h). All counts are by places.
#ifndef KEPT_H
#define KEPT_H
#include <unistd.h>
#include "windows.h"
#include "blocks.h"
#ifdef STACKS
#include "sites.h"
#endif

// ---- the live blocks: a table by address. A block that moves has another key, since its address may be another's before the realloc ends.

// `more`: by how much the program has less; or of a trace, the variable. `number`: in the record of blocks
struct block { uint64_t key, size : 48, more : 16; uint32_t number; WITH_STACKS(uint32_t site, stack;) };
static struct { struct block *at; uint64_t mask, used; } blocks;
static const uint64_t MOVING = 1ULL << 63;

static uint64_t place_from(uint64_t key) { return (key * 0x9E3779B97F4A7C15ULL >> 20) & blocks.mask; }

// its place, or the one that it would have
static struct block *block_of(uint64_t key) {
  uint64_t i = place_from(key);
  while (blocks.at[i].key && blocks.at[i].key != key) i = (i + 1) & blocks.mask;
  return &blocks.at[i];
}

static void begin_blocks(uint64_t places) { blocks.at = some(places * sizeof *blocks.at), blocks.mask = places - 1, blocks.used = 0; }

static struct block *put_block(struct block block) {
  if (blocks.used * 2 > blocks.mask) {
    struct block *old = blocks.at;
    uint64_t places = blocks.mask + 1;
    begin_blocks(places * 2);
    for (uint64_t i = 0; i < places; i++)
      if (old[i].key) *block_of(old[i].key) = old[i], blocks.used++;
    munmap(old, places * sizeof *old);
  }
  struct block *at = block_of(block.key);
  blocks.used += !at->key, *at = block;
  return at;
}

static void remove_block(struct block *at) {
  uint64_t hole = at - blocks.at;
  for (uint64_t next = (hole + 1) & blocks.mask;; next = (next + 1) & blocks.mask) {
    if (!blocks.at[next].key) break;
    if (((next - place_from(blocks.at[next].key)) & blocks.mask) < ((next - hole) & blocks.mask)) continue;
    blocks.at[hole] = blocks.at[next], hole = next;
  }
  blocks.at[hole].key = 0, blocks.used--;
}

// ---- what is kept

#ifndef PIECE
#define PIECE (1 << 20)
#endif
enum { PIECES = 64, MOST_TEXT = MOST_INPUT - (1 << 20) };
enum { RECORDS = 1, REDUCES = 2 };
static struct kept {
  int64_t bytes, most, large, most_large, events, requests;
  int live[COUNTERS];
  struct moment peak;
  int is_open, changes;                  // whether the last event was the peak's; in how many places it differs now
  int is_changed[COUNTERS], changed[COUNTERS + 1];  // these; after the last one there is room to write to
  uint64_t spacing, text;                // of the snapshots; the bytes of the record's text
  int is_reduced, piece;                 // whether the record is a history; of its events, in the pieces
} kept;
static struct moment *snapshots;
static uint16_t *pieces[PIECES];
static int number_of_snapshots, record_of;   // 0, RECORDS or REDUCES
static int as_scudo;

static void follow_peak(void) {
  for (int i; kept.changes; kept.is_changed[i] = 0) i = kept.changed[--kept.changes], kept.peak.live[i] = kept.live[i];
  kept.is_open = 0;
}

// where there is no room for one more snapshot, every second goes, and the spacing doubles
static void take_snapshot(void) {
  for (;;) {
    for (int k = 0; k < number_of_snapshots; k++)
      if (!snapshots[k].at) {
        snapshots[k].at = kept.requests, memcpy(snapshots[k].live, kept.live, sizes.number * sizeof(int));
        return;
      }
    kept.spacing *= 2;
    for (int k = 0; k < number_of_snapshots; k++)
      if (snapshots[k].at % kept.spacing) snapshots[k].at = 0;
    if (kept.requests % kept.spacing || !number_of_snapshots) return;
  }
}

static void reduce_pieces(void) {
  for (int k = 0; k * PIECE < kept.piece; k++) {
    int number = kept.piece - k * PIECE < PIECE ? kept.piece - k * PIECE : PIECE;
    keep_piece(pieces[k], number);
    if (k) munmap(pieces[k], PIECE * sizeof **pieces), pieces[k] = NULL;
  }
  kept.is_reduced = 1, kept.piece = 0, end_record();
}

static void record_event(int place, int is_free) {
  int line = sizes.lines[place] + is_free;
  if (kept.is_reduced ? kept.piece == PIECE : kept.text + line > MOST_TEXT || kept.piece == PIECES * PIECE) reduce_pieces();
  uint16_t **piece = &pieces[kept.piece / PIECE];
  if (!*piece) *piece = some(PIECE * sizeof **piece);
  WITH_STACKS(sites.events[kept.piece] = sites.current << 1 | is_free;)
  (*piece)[kept.piece++ % PIECE] = place | (is_free ? FREED : 0), kept.text += line;
}

// a block comes, or goes
static void event(uint64_t size, int by) {
  int counter = counter_of(size), place = place_of(counter);
  int64_t after = kept.bytes + by * (int64_t)size;
  if (kept.is_open && after <= kept.most) follow_peak();
  kept.live[place] += by, kept.bytes = after, kept.events++, kept.requests += by > 0;
  if (!kept.is_changed[place]) kept.is_changed[place] = 1, kept.changed[kept.changes++] = place;
  if (after > kept.most) kept.most = after, kept.is_open = 1, kept.peak.at = record_of ? kept.events : kept.requests;
  if (counter == LARGE && (kept.large += by * (int64_t)size) > kept.most_large) kept.most_large = kept.large;
  if (number_of_snapshots && by > 0 && !(kept.requests & (kept.spacing - 1))) take_snapshot();
  if (record_of) record_event(place, by < 0);
}

// The same of a size below LARGE, with no branch for its place.
static inline void small_event(unsigned size, int by) {
  int place = place_of(size);
  int64_t after = kept.bytes + by * (int64_t)size;
  if (kept.is_open && after <= kept.most) follow_peak();
  kept.live[place] += by, kept.bytes = after, kept.events++, kept.requests += by > 0;
  kept.changed[kept.changes] = place, kept.changes += !kept.is_changed[place], kept.is_changed[place] = 1;
  if (after > kept.most) kept.most = after, kept.is_open = 1, kept.peak.at = record_of ? kept.events : kept.requests;
  if (number_of_snapshots && by > 0 && !(kept.requests & (kept.spacing - 1))) take_snapshot();
  if (record_of) record_event(place, by < 0);
}

static void begin_kept(void) {
  if (blocks.at) munmap(blocks.at, (blocks.mask + 1) * sizeof *blocks.at);
  begin_blocks(1 << 12);
  memset(&kept, 0, sizeof kept);
  kept.spacing = 1, kept.is_reduced = record_of == REDUCES, kept.text = strlen("timeline\n");
  for (int k = 0; k < number_of_snapshots; k++) snapshots[k].at = 0;
  begin_moments(), begin_windows(), begin_record();
  WITH_STACKS(begin_sites();)
}

// ---- its texts

// Writes a profile: these counts, or that of the peak where there are none.
static void write_profile(FILE *to, const int64_t *counts) {
  for (int i = 0; i < COUNTERS; i++) {
    int place = sizes.places[i] - 1;
    int64_t count = counts ? counts[i] : place < 0 ? 0 : kept.peak.live[place];
    if (count) write_size(to, i), fprintf(to, " %lld\n", (long long)count);
  }
}

// Writes the history of a run without a record, or with IS_UPPER the one over which no table takes less than over the run. What the tables
// need comes first: there may be no more room for the windows.
static void write_moments(FILE *to, int is_upper) {
  join_windows(windows.wanted), number_chosen = 0;
  for (int t = number_of_tables; t-- && !is_upper;) {
    if (t + 1 == number_of_tables - given_tables) choose_all(held.moments, held.number);
    choose_all(tables[t].moments, tables[t].groups);
  }
  if (!is_upper) choose(&kept.peak);
  for (int k = 0; k < windows.number; k++) choose_unlike(is_upper ? windows.all[k].most : windows.all[k].live);
  write_history(to);
}

static void write_timeline(FILE *to) {
  static char lines[COUNTERS][2][16], room[1 << 16];
  for (int place = 0; place < sizes.number; place++) {
    int counter = sizes.counters[place];
    snprintf(lines[place][0], 16, counter < LARGE ? "%d\n" : "large\n", counter);
    snprintf(lines[place][1], 16, counter < LARGE ? "-%d\n" : "-large\n", counter);
  }
  char *end = stpcpy(room, "timeline\n");
  for (int i = 0; i < kept.piece; i++) {
    int code = pieces[i / PIECE][i % PIECE], place = place_in(code), is_free = code >= FREED;
    if (end > room + sizeof room - 8) fwrite(room, 1, end - room, to), end = room;
    memcpy(end, lines[place][is_free], 8), end += sizes.lines[place] + is_free;
  }
  fwrite(room, 1, end - room, to);
}
#endif
