// Reads a timeline of any length on standard input, as if its events came from a stream.
#ifndef TIMELINE_TEXT_H
#define TIMELINE_TEXT_H
#include <signal.h>
#include "kept.h"
#include "events.h"

enum { LONGEST_LINE = 64 };

// The bytes of the next line without its newline, of a longer one the first; below 0 after the last line.
static int next_line(char *line) {
  int length = 0, byte = getc_unlocked(stdin);
  if (byte == EOF) return -1;
  for (; byte != EOF && byte != '\n' && length < LONGEST_LINE; byte = getc_unlocked(stdin)) line[length++] = byte;
  return length;
}

static void read_timeline(const volatile sig_atomic_t *ends) {
  char line[LONGEST_LINE], why[LONGEST_LINE];
  int length;
  for (uint64_t number = 1; !*ends && ((length = next_line(line)) >= 0 || number == 1); number++) {
    int is_free = 0;
    const char *at = line, *end = line + length;
    int counter = number > 1 ? read_event(&at, end, &is_free) : length == 8 && !memcmp(line, "timeline", 8) ? 0 : -1;
    if (number > 1 && at < end) counter = -1;
    if (counter >= 0 && (!is_free || kept.live[place_of(counter)] > 0)) {
      if (number > 1) event(counter, is_free ? -1 : 1);
      continue;
    }
    snprintf(why, sizeof why, "line %lu %s", (unsigned long)number, number == 1 ? "is not `timeline`" : counter < 0 ? "is no event" : "frees no live block");
    give_up(why);
  }
  if (ferror(stdin)) give_up("it can't be read");
}
#endif
