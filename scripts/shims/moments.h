// What the reader keeps of a run that is too long for a record, a piece of it at a time: the moments at which the classes of tables have more
// blocks than ever before, those that are wanted by their number, and windows.h. The tables are the finest one, in which a class is a granule
// wide, and some others, or those that are given, or all. What one of them takes over the run is exact at any length, since each of its classes
// has a counter.
//
// A size has a place from 0 on, in the order in which they come: so what is kept of a moment is small.
#ifndef MOMENTS_H
#define MOMENTS_H
#include <stdio.h>
#include <stdlib.h>
#include <string.h>
#include <sys/mman.h>
#include "stream.h"

static void give_up(const char *why);

static void *some(size_t bytes) {  // pages of zeros
  void *all = mmap(NULL, bytes, PROT_READ | PROT_WRITE, MAP_PRIVATE | MAP_ANONYMOUS | MAP_NORESERVE, -1, 0);
  if (all == MAP_FAILED) give_up("it has no memory");
  return all;
}

enum { CLASSES = LARGEST_SIZE / 16 + 2, TABLES = 32 };
enum { FREED = 1 << 15, AT_PEAK = 1 << 14 };  // of an event; the other bits are the place of its size
struct moment { uint64_t at; int live[COUNTERS]; };  // by places; the events, or requests, before it; 0 where there is none

static struct {
  int number, places[COUNTERS];  // a place is one more here, and 0 where a size has none yet
  int counters[COUNTERS], blocks[COUNTERS], lines[COUNTERS];  // of a place: its block in bytes, 0 of large ones; the bytes of its line
} sizes;

static int counter_of(uint64_t size) { return size < LARGE ? size : LARGE; }
static int class_of(int counter) { return counter ? (counter + 31) / 16 : 2; }
static int line_of(int counter) { return counter == LARGE ? 6 : counter < 10 ? 2 : 1 + line_of(counter / 10); }
static int by_of(int event) { return event & FREED ? -1 : 1; }
static int place_in(int event) { return event & (AT_PEAK - 1); }

static void copy_moment(struct moment *to, const struct moment *from) {
  to->at = from->at, memcpy(to->live, from->live, sizes.number * sizeof *to->live);
}

// The groups of the sizes that a table's classes serve, and one more of those above, whose class is CLASSES. Large blocks are of none.
static struct table {
  int groups, classes[CLASSES];
  uint16_t of[COUNTERS];                        // by places
  int64_t now[CLASSES + 1], most[CLASSES + 1];  // the live blocks of a group
  struct moment *moments;                       // the last at which it had more of them than ever before
} tables[TABLES];
static int number_of_tables, given_tables;  // those that are given are the last ones
static struct moment before;                // the piece
static struct { int number, next; struct moment *moments; uint64_t at[MOST_SNAPSHOTS]; } held;  // those that are wanted

// Makes the table of these words, granules up to a comma, or the finest one where there are none. What comes after it.
static const char *begin_table(struct table *table, const char *words) {
  char *rest = (char *)words;
  for (table->groups = 0; words ? *rest && *rest != ',' : table->groups < CLASSES - 2; table->groups++)
    table->classes[table->groups] = words ? strtol(rest, &rest, 10) : table->groups + 2;
  table->classes[table->groups++] = CLASSES;
  return rest && *rest ? rest + 1 : NULL;
}

static int new_place(int counter) {
  for (struct table *table = tables; table < tables + number_of_tables; table++) {
    int group = counter == LARGE ? table->groups : 0;
    while (counter != LARGE && table->classes[group] < class_of(counter)) group++;
    table->of[sizes.number] = group;
  }
  sizes.counters[sizes.number] = counter, sizes.blocks[sizes.number] = counter == LARGE ? 0 : 16 * class_of(counter);
  sizes.lines[sizes.number] = line_of(counter), sizes.places[counter] = ++sizes.number;
  return sizes.number - 1;
}
static inline int place_of(int counter) { return sizes.places[counter] ? sizes.places[counter] - 1 : new_place(counter); }

// the bytes that it takes over the run; -1 where it does not serve a size
static int64_t taken_by(const struct table *table) {
  int64_t bytes = 0;
  for (int group = 0; group < table->groups; group++) {
    if (table->classes[group] == CLASSES && table->most[group]) return -1;
    bytes += 16LL * table->classes[group] * table->most[group];
  }
  return bytes;
}

static void begin_moments(void) {
  memset(&before, 0, sizeof before), held.next = 0;
  for (int k = 0; k < held.number; k++) held.moments[k].at = 0;
  for (struct table *table = tables; table < tables + number_of_tables; table++) {
    memset(table->now, 0, sizeof table->now), memset(table->most, 0, sizeof table->most);
    for (int group = 0; table->moments && group < table->groups; group++) table->moments[group].at = 0;
  }
}

// ---- a part of the run

enum { PART = 1 << 12 };  // events, at most
static struct { int number, places[PART], first[COUNTERS], most[COUNTERS]; char has[COUNTERS]; } part;  // its places, with their blocks

// Whether a group may have more blocks in the part than ever before: as many more as its sizes have at most, each by itself. Else adds what the
// part adds.
static int may_peak(struct table *table) {
  static int rise[CLASSES + 1];
  int may = 0;
  for (int k = 0; k < part.number; k++) {
    int place = part.places[k], group = table->of[place];
    rise[group] += part.most[place] - part.first[place];
    may |= table->now[group] + rise[group] > table->most[group];
  }
  for (int k = 0; k < part.number; k++) {
    int place = part.places[k], group = table->of[place];
    rise[group] = 0;
    if (!may) table->now[group] += before.live[place] - part.first[place];
  }
  return may;
}

// Marks the events of the part after which a group has the most blocks, where these are more than before.
static void mark_peaks(struct table *table, int *at, uint16_t *events, int number) {
  if (!table->moments) table->moments = some(table->groups * sizeof *table->moments);
  memset(at, -1, table->groups * sizeof *at);
  for (int i = 0; i < number; i++) {
    int group = table->of[place_in(events[i])];
    table->now[group] += by_of(events[i]);
    if (table->now[group] > table->most[group]) table->most[group] = table->now[group], at[group] = i;
  }
  for (int group = 0; group < table->groups; group++)
    if (at[group] >= 0) events[at[group]] |= AT_PEAK;
}

// Adds events to the run. The moment after event TOP of them goes into TO, if there is such an event; others are kept as they are wanted.
static void add_events(uint16_t *events, int number, int top, struct moment *to) {
  static int at[TABLES][CLASSES + 1];
  int marked[TABLES], number_marked = 0, last = top;
  for (int t = 0; t < number_of_tables; t++)
    if (may_peak(&tables[t])) mark_peaks(&tables[t], at[t], events, number), marked[number_marked++] = t, last = number - 1;
  if (held.next < held.number && held.at[held.next] - before.at <= (uint64_t)number) last = number - 1;
  if (last < 0) before.at += number;
  for (int k = 0; k < part.number && last >= 0; k++) before.live[part.places[k]] = part.first[part.places[k]];
  for (int i = 0; i < number && last >= 0; i++) {
    int place = place_in(events[i]);
    before.live[place] += by_of(events[i]), before.at++;
    if (i == top) copy_moment(to, &before);
    if (held.next < held.number && held.at[held.next] == before.at) copy_moment(&held.moments[held.next++], &before);
    if (!(events[i] & AT_PEAK)) continue;
    for (int k = 0; k < number_marked; k++) {
      int t = marked[k], group = tables[t].of[place];
      if (at[t][group] == i) copy_moment(&tables[t].moments[group], &before);
    }
  }
}

// ---- the text of a history

static struct moment *chosen[MOST_SNAPSHOTS];
static int number_chosen;

// Takes a moment into the history, unless that is full, has it, or the moment has no block.
static void choose(struct moment *moment) {
  int i = 0;
  for (int k = 0; k < number_chosen; k++)
    if (chosen[k]->at == moment->at) return;
  while (i < sizes.number && !moment->live[i]) i++;
  if (moment->at && i < sizes.number && number_chosen < MOST_SNAPSHOTS) chosen[number_chosen++] = moment;
}

// The same, unless a moment of the history has as many blocks of each size: then every table takes the same without it.
static void choose_unlike(struct moment *moment) {
  for (int k = 0, i = 0; k < number_chosen; k++, i = 0) {
    while (i < sizes.number && moment->live[i] <= chosen[k]->live[i]) i++;
    if (i == sizes.number) return;
  }
  choose(moment);
}

static void choose_all(struct moment *moments, int number) {
  for (int k = 0; moments && k < number; k++) choose(&moments[k]);
}

static int is_later(const void *one, const void *other) {
  uint64_t a = (*(struct moment *const *)one)->at, b = (*(struct moment *const *)other)->at;
  return (a > b) - (a < b);
}

static void write_size(FILE *to, int counter) { counter == LARGE ? fputs("large", to) : fprintf(to, "%d", counter); }

// Writes the history of what is chosen, in the order of time.
static void write_history(FILE *to) {
  qsort(chosen, number_chosen, sizeof *chosen, is_later);
  if (number_chosen) fprintf(to, "snapshots %d\n", number_chosen);
  for (int i = 0; i < COUNTERS; i++) {
    int k = 0, place = sizes.places[i] - 1;
    while (k < number_chosen && (place < 0 || !chosen[k]->live[place])) k++;
    if (k == number_chosen) continue;
    write_size(to, i);
    for (k = 0; k < number_chosen; k++) fprintf(to, " %d", chosen[k]->live[place]);
    fputc('\n', to);
  }
}
#endif
