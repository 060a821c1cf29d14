// The windows of a run of any length, in memory that does not grow with it. Of each: the most blocks of each size at any of its moments, and
// the blocks live at that moment of it which has the most bytes. So over a history of the first every table takes at least what it takes over
// the run, and over one of the second at most that.
//
// Where there are twice as many windows as are wanted, neighbours are joined until these are left: those first whose join raises the peaks of
// some tables least, and of these those that differ least. (Two that differ little may still add up the peaks of two sizes.)
#ifndef WINDOWS_H
#define WINDOWS_H
#include "moments.h"

#ifndef IN_WINDOW
#define IN_WINDOW 2048  // events, at least
#endif
enum { USUAL_WINDOWS = 64, MOST_WINDOWS = 512, GROUPS = MOST_CLASSES + 2 };
struct window { int64_t bytes; struct moment *most, *live; };  // of its first moment and of the most bytes, and these
struct cost { int64_t rise, growth; };  // of a join with the next: of the peaks, and of what is joined, in bytes
static struct {
  int wanted, number, left;  // left: events of the last window
  int64_t bytes;             // of the blocks that are live
  struct window *all;
  struct cost costs[2 * MOST_WINDOWS];
} windows;

// ---- how neighbours are joined

// the tables that are weighed beside those that are given, after the finest one, which is not
static const char *const WEIGHED[] = {
  "2 3 4 5 6 7 8 10 12 14 17 20 24 29 35 42 51 61 74 89 107 129 155 187 225 271 326 392 472 600 800 1024",
  "4 6 9 13 19 28 40 58 84 122 177 256 371 537 740 1024", "8 64 256 1024", NULL,
};
static int sums[TABLES][GROUPS], peaks[TABLES][GROUPS];

static void sum_up(const struct window *one, const struct window *other) {
  memset(sums, 0, sizeof sums);
  for (int k = 0; k < sizes.number; k++) {
    int most = one->most->live[k] > other->most->live[k] ? one->most->live[k] : other->most->live[k];
    for (int t = 1; t < number_of_tables; t++) sums[t][tables[t].of[k]] += most;
  }
}

// Raises the peaks to the sums; by how many bytes. Where they are only compared, they stay.
static int64_t raise_peaks(int is_compared) {
  int64_t rise = 0;
  for (int t = 1; t < number_of_tables; t++)
    for (int group = 0; group < tables[t].groups; group++) {
      int more = sums[t][group] - peaks[t][group], class = tables[t].classes[group];
      if (more > 0 && class < CLASSES) rise += 16LL * class * more;
      if (more > 0 && !is_compared) peaks[t][group] += more;
    }
  return rise;
}

static void weigh(int k) {
  const struct window *one = &windows.all[k], *other = one + 1;
  int64_t first = 0, second = 0;
  if (k < 0 || k + 1 >= windows.number) return;
  for (int i = 0; i < sizes.number; i++) {
    int64_t by = 16LL * class_of(sizes.counters[i]) * (one->most->live[i] - other->most->live[i]);
    if (by > 0) first += by; else second -= by;
  }
  sum_up(one, other);
  windows.costs[k] = (struct cost){raise_peaks(1), first < second ? first : second};
}

static void join(int k) {
  struct window *one = &windows.all[k], *other = one + 1, gone = *other;
  for (int i = 0; i < sizes.number; i++)
    if (other->most->live[i] > one->most->live[i]) one->most->live[i] = other->most->live[i];
  if (other->bytes > one->bytes) gone.live = one->live, one->live = other->live, one->bytes = other->bytes;
  windows.number--;
  memmove(other, other + 1, (windows.number - k - 1) * sizeof *other), windows.all[windows.number] = gone;
  memmove(&windows.costs[k], &windows.costs[k + 1], (windows.number - k) * sizeof *windows.costs);
  sum_up(one, one), raise_peaks(0), weigh(k - 1), weigh(k);
}

static void join_windows(int wanted) {
  if (windows.number <= wanted) return;
  memset(peaks, 0, sizeof peaks);
  for (int k = 0; k < windows.number; k++) sum_up(&windows.all[k], &windows.all[k]), raise_peaks(0);
  for (int k = 0; k < windows.number; k++) weigh(k);
  while (windows.number > wanted) {
    int least = 0;
    for (int k = 1; k + 1 < windows.number; k++) {
      struct cost *cost = &windows.costs[k], *of_least = &windows.costs[least];
      if (cost->rise < of_least->rise || (cost->rise == of_least->rise && cost->growth < of_least->growth)) least = k;
    }
    join(least);
  }
}

// ---- what is added

static void begin_windows(void) { windows.number = windows.left = windows.bytes = 0; }

static struct window *next_window(void) {
  int room = 2 * windows.wanted;
  if (!windows.all) {
    struct moment *moments = some(2 * room * sizeof *moments);
    windows.all = some(room * sizeof *windows.all);
    for (int k = 0; k < room; k++) windows.all[k] = (struct window){0, moments + 2 * k, moments + 2 * k + 1};
  }
  if (windows.number == room) join_windows(windows.wanted);
  struct window *next = &windows.all[windows.number++];
  copy_moment(next->most, &before), copy_moment(next->live, &before);
  next->most->at++, next->bytes = windows.bytes;
  windows.left = sizes.number < 256 ? IN_WINDOW : sizes.number * IN_WINDOW / 256;
  return next;
}

// Adds events to a window, and to the run.
static void add_part(struct window *window, uint16_t *events, int number) {
  int top = -1;
  for (int i = 0; i < number; i++) {
    int place = place_in(events[i]), *live = &before.live[place];
    if (!part.has[place]) part.has[place] = 1, part.places[part.number++] = place, part.first[place] = part.most[place] = *live;
    *live += by_of(events[i]), windows.bytes += sizes.blocks[place] * by_of(events[i]);
    if (*live > part.most[place]) part.most[place] = *live;
    if (windows.bytes > window->bytes) window->bytes = windows.bytes, top = i;
  }
  add_events(events, number, top, window->live);
  for (; part.number; part.number--) {
    int place = part.places[part.number - 1];
    if (part.most[place] > window->most->live[place]) window->most->live[place] = part.most[place];
    part.has[place] = 0;
  }
}

// Keeps of a piece of the run what is wanted.
static void keep_piece(uint16_t *piece, int number) {
  static struct moment none;
  struct window unwanted = {INT64_MAX, &none, &none};
  for (int i = 0, many; i < number; i += many) {
    struct window *window = !windows.wanted ? &unwanted : windows.left ? &windows.all[windows.number - 1] : next_window();
    many = number - i < PART ? number - i : PART;
    if (windows.wanted && many > windows.left) many = windows.left;
    windows.left -= many, add_part(window, piece + i, many);
  }
}
#endif
