// An event in the text of a timeline, after formats.h.
#ifndef EVENTS_H
#define EVENTS_H
#include <string.h>

// Its size, LARGEST_SIZE + 1 of a large block, and whether it is a free; -1 where there is none. Goes on to what comes after it.
static inline int read_event(const char **text, const char *end, int *is_free) {
  const char *first = *text + (*is_free = *text < end && **text == '-'), *at = first;
  int size = 0;
  while (at < end && *at >= '0' && *at <= '9' && size <= LARGEST_SIZE) size = size * 10 + *at++ - '0';
  int is_large = at == first && end - at >= 5 && !memcmp(at, "large", 5);
  *text = at + (is_large ? 5 : 0);
  if (is_large) return LARGEST_SIZE + 1;
  return at == first || size > LARGEST_SIZE || (*first == '0' && at > first + 1) ? -1 : size;
}
#endif
