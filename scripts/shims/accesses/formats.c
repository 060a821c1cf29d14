// printf and scanf by their formats: the texts that `%s` loads, and what scanf stores.
#include "calls.h"
#include <stdarg.h>
#include <stdio.h>

enum kind { NOTHING, INT, LONG, LONG_LONG, SHORT, CHAR, DOUBLE, LONG_DOUBLE, FLOAT, POINTER, TEXT, WIDE_TEXT, CHARS, COUNT_OF, UNKNOWN };
struct part { enum kind kind; int has_star_width, has_star_precision, is_skipped, is_allocated; long width, precision; };

static long read_digits(const char **at) {
  long n = 0;
  while (**at >= '0' && **at <= '9') n = n < 1 << 24 ? n * 10 + *(*at)++ - '0' : ((*at)++, n);
  return n;
}

static enum kind whole(int longs) { return longs == 1 ? LONG : longs >= 2 ? LONG_LONG : longs == -1 ? SHORT : longs <= -2 ? CHAR : INT; }

// the next part of a format after its %, which is passed over; a form that is not known here ends the reading
static struct part next_part(const char **format, int is_input) {
  struct part part = {NOTHING, 0, 0, 0, 0, -1, -1};
  const char *at = *format;
  int longs = 0;
  for (; *at && strchr(is_input ? "*'m" : "-+ #0'I", *at); at++) part.is_skipped |= is_input && *at == '*', part.is_allocated |= *at == 'm';
  if (!is_input && *at == '*') part.has_star_width = 1, at++;
  else if (*at >= '0' && *at <= '9') part.width = read_digits(&at);
  if (!is_input && *at == '.') {
    at++;
    if (*at == '*') part.has_star_precision = 1, at++;
    else part.precision = read_digits(&at);
  }
  if (is_input && *at == 'm') part.is_allocated = 1, at++;
  for (; *at && strchr("hlLqjzt", *at); at++) longs += *at == 'h' ? -1 : *at == 'L' || *at == 'q' ? 2 : 1;
  int is_wide = longs > 0;
  switch (*at) {
    case 'd': case 'i': case 'o': case 'u': case 'x': case 'X': part.kind = whole(longs); break;
    case 'e': case 'f': case 'g': case 'a': case 'E': case 'F': case 'G': case 'A':
      part.kind = longs >= 2 ? LONG_DOUBLE : longs || !is_input ? DOUBLE : FLOAT; break;
    case 'c': part.kind = is_input ? (is_wide ? UNKNOWN : CHARS) : INT; break;
    case 's': part.kind = is_wide ? WIDE_TEXT : TEXT; break;
    case 'S': part.kind = WIDE_TEXT; break;
    case '[':
      part.kind = is_wide ? WIDE_TEXT : TEXT;
      at += at[1] == '^' ? 2 : 1;
      for (at += *at == ']'; *at && *at != ']'; at++) continue;
      break;
    case 'p': part.kind = POINTER; break;
    case 'n': part.kind = COUNT_OF; break;
    case 'm': case '%': break;
    default: part.kind = UNKNOWN;
  }
  *format = *at ? at + 1 : at;
  return part;
}

// what printf loads besides its format
static NOT_INLINE void see_texts(const char *format, va_list given, struct caller from) {
  va_list values;
  touch(format, length(format, ENDLESS) + 1, 0, from);
  va_copy(values, given);
  while ((format = strchr(format, '%'))) {
    format++;
    struct part part = next_part(&format, 0);
    if (part.has_star_width) va_arg(values, int);
    if (part.has_star_precision) part.precision = va_arg(values, int);
    size_t most = part.precision < 0 ? ENDLESS : (size_t)part.precision;
    const char *text;
    if (part.kind == UNKNOWN) break;
    switch (part.kind) {
      case INT: case SHORT: case CHAR: va_arg(values, int); break;
      case LONG: va_arg(values, long); break;
      case LONG_LONG: va_arg(values, long long); break;
      case DOUBLE: va_arg(values, double); break;
      case LONG_DOUBLE: va_arg(values, long double); break;
      case POINTER: case WIDE_TEXT: case COUNT_OF: va_arg(values, void *); break;
      case TEXT:
        text = va_arg(values, const char *);
        if (text) touch(text, with_end(length(text, most), most), 0, from);
        break;
      default: break;
    }
  }
  va_end(values);
}

// what scanf stored of so many of its parts
static NOT_INLINE void see_stored(const char *format, va_list given, int stored, struct caller from) {
  static const size_t SIZES[] = {[INT] = sizeof(int), [LONG] = sizeof(long), [LONG_LONG] = sizeof(long long), [SHORT] = sizeof(short), [CHAR] = 1,
                                 [FLOAT] = sizeof(float), [DOUBLE] = sizeof(double), [LONG_DOUBLE] = sizeof(long double), [POINTER] = sizeof(void *),
                                 [COUNT_OF] = sizeof(int), [UNKNOWN] = 0};
  va_list values;
  va_copy(values, given);
  while (stored > 0 && (format = strchr(format, '%'))) {
    format++;
    struct part part = next_part(&format, 1);
    if (part.kind == UNKNOWN || part.kind == WIDE_TEXT) break;
    if (part.kind == NOTHING || part.is_skipped) continue;
    void *to = va_arg(values, void *);
    size_t size = part.is_allocated ? sizeof(char *) : part.kind == TEXT ? length(to, ENDLESS) + 1 : part.kind == CHARS ?
                  (part.width < 0 ? 1 : (size_t)part.width) : SIZES[part.kind];
    touch(to, size, 1, from);
    stored -= part.kind != COUNT_OF;
  }
  va_end(values);
}

// the function of a name, and the one of a list of values beside it; the parameters end with the format
#define PRINTS(name, words, after, ...) \
  SHOWN int name(__VA_ARGS__, ...) { \
    REAL(v##name); \
    va_list values; \
    va_start(values, format); \
    see_texts(format, values, CALLER); \
    int n = real words; \
    va_end(values); \
    after; \
    return n; \
  } \
  SHOWN int v##name(__VA_ARGS__, va_list values) { \
    REAL(v##name); \
    see_texts(format, values, CALLER); \
    int n = real words; \
    after; \
    return n; \
  }
PRINTS(printf, (format, values), , const char *format)
PRINTS(fprintf, (file, format, values), , FILE *file, const char *format)
PRINTS(dprintf, (file, format, values), , int file, const char *format)
PRINTS(asprintf, (to, format, values), STORES(to, sizeof *to), char **to, const char *format)
PRINTS(sprintf, (to, format, values), if (n >= 0) STORES(to, (size_t)n + 1), char *to, const char *format)
PRINTS(snprintf, (to, most, format, values), if (n >= 0 && most) STORES(to, with_end(n, most)), char *to, size_t most, const char *format)

// The headers give scanf other names by the standard of C that is asked for.
#define SCANS_AS(own, symbol, list_symbol, base, words, before, ...) \
  SHOWN int own(__VA_ARGS__, ...) __asm__(symbol); \
  int own(__VA_ARGS__, ...) { \
    static __typeof__(&base) real; \
    REAL_OF(real, list_symbol); \
    before; \
    va_list values; \
    va_start(values, format); \
    int n = real words; \
    va_end(values); \
    va_start(values, format); \
    see_stored(format, values, n, CALLER); \
    va_end(values); \
    return n; \
  } \
  SHOWN int own##_list(__VA_ARGS__, va_list values) __asm__(list_symbol); \
  int own##_list(__VA_ARGS__, va_list values) { \
    static __typeof__(&base) real; \
    REAL_OF(real, list_symbol); \
    before; \
    va_list kept; \
    va_copy(kept, values); \
    int n = real words; \
    see_stored(format, kept, n, CALLER); \
    va_end(kept); \
    return n; \
  }
#define SCANS(own, prefix) \
  SCANS_AS(own##_sscanf, prefix "sscanf", prefix "vsscanf", vsscanf, (text, format, values), LOADS_TEXT(text); LOADS_TEXT(format), \
           const char *text, const char *format) \
  SCANS_AS(own##_fscanf, prefix "fscanf", prefix "vfscanf", vfscanf, (file, format, values), LOADS_TEXT(format), FILE *file, const char *format) \
  SCANS_AS(own##_scanf, prefix "scanf", prefix "vscanf", vscanf, (format, values), LOADS_TEXT(format), const char *format)
SCANS(c90, "")
SCANS(c99, "__isoc99_")
SCANS(c23, "__isoc23_")
