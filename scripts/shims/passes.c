// Reads a timeline, and goes over its events, for mte_scripts/recording/timelines.py. An event is the size of its block, LARGEST_SIZE + 1 of any
// larger one, and 1 << 15 more where it is a free.
#include <stdint.h>
#include "formats.h"
#include "events.h"

// How many events a timeline has; -1 where a line after the first is none.
int read_events(const char *text, long bytes, uint16_t *events) {
  const char *end = text + bytes;
  int number = 0, is_free;
  while (text < end && *text++ != '\n') ;
  while (text < end) {
    int size = read_event(&text, end, &is_free);
    if (size < 0 || (text < end && *text++ != '\n')) return -1;
    events[number++] = size | is_free << 15;
  }
  return number;
}

// Counts each event, beside what was counted.
void count(const uint16_t *events, long number, uint32_t *times) {
  for (long i = 0; i < number; i++) times[events[i]]++;
}

// What a sum comes to at most, to which each event adds its amount, and after how many events first.
void most(const uint16_t *events, long number, const int64_t *amounts, int64_t *found) {
  int64_t sum = 0;
  for (long i = 0; i < number; i++)
    if ((sum += amounts[events[i]]) > found[0]) found[0] = sum, found[1] = i + 1;
}

// Adds events to the live blocks of groups, and raises the most of each; and after how many of these events. An event has the number of its
// group, below 0 where it is a free, and 0 where it has none.
void raise_most(const uint16_t *events, long number, const int16_t *groups, int64_t *live, int64_t *most, int64_t *at) {
  for (long i = 0; i < number; i++) {
    int group = groups[events[i]];
    if (group < 0) live[-group]--;
    else if (group && ++live[group] > most[group]) most[group] = live[group], at[group] = i + 1;
  }
}
