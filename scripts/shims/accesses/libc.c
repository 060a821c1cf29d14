// Functions of libc that load and store bytes of the program, written anew: each says which bytes to the hooks. Those that are called as they
// are stand in functions.h.
#include "calls.h"
#include <math.h>
#include <regex.h>
#include <stdio.h>
#include <strings.h>
#include <wchar.h>

// No memory has so many bytes, so the access ends by a signal, as it would in libc. It stores none of them before.
static NOT_INLINE void end_by_size(void) { *(volatile char *)((address)1 << 63) = 0; }

void copy_bytes(void *to, const void *from, size_t size) {
  char *t = to;
  const char *f = from;
  for (; size >= 8; size -= 8, t += 8, f += 8) *(word *)t = *(const word *)f;
  while (size--) *t++ = *f++;
}

static void copy_backwards(void *to, const void *from, size_t size) {
  char *t = (char *)to + size;
  const char *f = (const char *)from + size;
  for (; size >= 8; size -= 8) t -= 8, f -= 8, *(word *)t = *(const word *)f;
  while (size--) *--t = *--f;
}

static void *move_bytes(void *to, const void *from, size_t size) {
  if (size > MOST_BYTES) end_by_size();
  if ((address)to - (address)from >= size) copy_bytes(to, from, size);
  else copy_backwards(to, from, size);
  return to;
}

void fill_bytes(void *to, int byte, size_t size) {
  char *t = to;
  uint64_t eight = (unsigned char)byte * 0x0101010101010101u;
  for (; size >= 8; size -= 8, t += 8) *(word *)t = eight;
  while (size--) *t++ = byte;
}

static int small(int c) { return c >= 'A' && c <= 'Z' ? c + 32 : c; }
static int same(int c) { return c; }

// where both places are the same, as in `*a = *a`, each order does
static inline __attribute__((always_inline)) void *copy_apart(void *to, const void *from, size_t size, struct caller caller) {
  touch(from, size, 0, caller), touch(to, size, 1, caller);
  if (to != from) part(to, from, size, caller);
  return move_bytes(to, from, size);
}
SHOWN void *memcpy(void *to, const void *from, size_t n) { return copy_apart(to, from, n, CALLER); }
SHOWN void *memmove(void *to, const void *from, size_t n) { LOADS(from, n), STORES(to, n); return move_bytes(to, from, n); }
SHOWN void *mempcpy(void *to, const void *from, size_t n) { return (char *)copy_apart(to, from, n, CALLER) + n; }
static void *set_bytes(void *to, int byte, size_t size) {
  if (size > MOST_BYTES) end_by_size();
  return fill_bytes(to, byte, size), to;
}
SHOWN void *memset(void *to, int byte, size_t n) { STORES(to, n); return set_bytes(to, byte, n); }
SHOWN void bzero(void *to, size_t n) { STORES(to, n), set_bytes(to, 0, n); }

// both have so many bytes, wherever they differ
SHOWN int memcmp(const void *left, const void *right, size_t n) {
  const unsigned char *a = left, *b = right;
  size_t i = 0;
  LOADS(left, n), LOADS(right, n);
  while (i < n && a[i] == b[i]) i++;
  return i < n ? a[i] - b[i] : 0;
}
SHOWN int bcmp(const void *, const void *, size_t) __attribute__((alias("memcmp")));

#define COMPARED_TEXTS(most, fold) \
  const unsigned char *a = (const void *)s, *b = (const void *)t; \
  size_t i = 0; \
  while (i < (most) && fold(a[i]) == fold(b[i]) && a[i]) i++; \
  LOADS(a, with_end(i, most)), LOADS(b, with_end(i, most)); \
  return i < (most) ? fold(a[i]) - fold(b[i]) : 0
#define COMPARED_WIDE(most) \
  size_t i = 0; \
  while (i < (most) && s[i] == t[i] && s[i]) i++; \
  LOADS(s, with_end(i, most) * sizeof *s), LOADS(t, with_end(i, most) * sizeof *t); \
  return i < (most) && s[i] != t[i] ? s[i] < t[i] ? -1 : 1 : 0
SHOWN int wcscmp(const wchar_t *s, const wchar_t *t) { COMPARED_WIDE(ENDLESS); }
SHOWN int wcsncmp(const wchar_t *s, const wchar_t *t, size_t n) { COMPARED_WIDE(n); }
SHOWN int strcmp(const char *s, const char *t) { COMPARED_TEXTS(ENDLESS, same); }
SHOWN int strncmp(const char *s, const char *t, size_t n) { COMPARED_TEXTS(n, same); }
SHOWN int strcasecmp(const char *s, const char *t) { COMPARED_TEXTS(ENDLESS, small); }
SHOWN int strncasecmp(const char *s, const char *t, size_t n) { COMPARED_TEXTS(n, small); }

SHOWN void *memchr(const void *in, int byte, size_t n) {
  const unsigned char *s = in;
  size_t i = 0;
  while (i < n && s[i] != (unsigned char)byte) i++;
  LOADS(s, with_end(i, n));
  return i < n ? (void *)(s + i) : NULL;
}

static size_t wide_length(const wchar_t *s, size_t most) {
  size_t n = 0;
  while (n < most && s[n]) n++;
  return n;
}

// The same of narrow and of wide texts. COPY stores one of at most so many characters, with an end, and returns how many it has.
#define TEXTS(type, length, copy, strlen, strnlen, strcpy, strcat, strncat, strncpy, strdup) \
  static inline __attribute__((always_inline)) size_t copy(type *to, const type *from, size_t most, struct caller caller) { \
    size_t n = length(from, most); \
    touch(from, with_end(n, most) * sizeof *from, 0, caller); \
    touch(to, (n + 1) * sizeof *to, 1, caller); \
    part(to, from, with_end(n, most) * sizeof *to, caller); \
    move_bytes(to, from, n * sizeof *to); \
    to[n] = 0; \
    return n; \
  } \
  SHOWN size_t strlen(const type *s) { \
    size_t n = length(s, ENDLESS); \
    LOADS(s, (n + 1) * sizeof *s); \
    return n; \
  } \
  SHOWN size_t strnlen(const type *s, size_t most) { \
    size_t n = length(s, most); \
    LOADS(s, with_end(n, most) * sizeof *s); \
    return n; \
  } \
  SHOWN type *strcpy(type *to, const type *from) { return copy(to, from, ENDLESS, CALLER), to; } \
  static inline __attribute__((always_inline)) type *copy##_after(type *to, const type *from, size_t most, struct caller caller) { \
    size_t n = length(to, ENDLESS); \
    touch(to, (n + 1) * sizeof *to, 0, caller); \
    return copy(to + n, from, most, caller), to; \
  } \
  SHOWN type *strcat(type *to, const type *from) { return copy##_after(to, from, ENDLESS, CALLER); } \
  SHOWN type *strncat(type *to, const type *from, size_t most) { return copy##_after(to, from, most, CALLER); } \
  SHOWN type *strncpy(type *to, const type *from, size_t most) { \
    size_t n = length(from, most); \
    LOADS(from, with_end(n, most) * sizeof *from), STORES(to, product(most, sizeof *to)); \
    part(to, from, with_end(n, most) * sizeof *to, CALLER); \
    move_bytes(to, from, n * sizeof *to), set_bytes(to + n, 0, product(most - n, sizeof *to)); \
    return to; \
  } \
  SHOWN type *strdup(const type *s) { \
    type *to = request('m', (length(s, ENDLESS) + 1) * sizeof *s, 16, CALLER); \
    if (to) copy(to, s, ENDLESS, CALLER); \
    return to; \
  }
TEXTS(char, length, copy_text, strlen, strnlen, strcpy, strcat, strncat, strncpy, strdup)
TEXTS(wchar_t, wide_length, copy_wide, wcslen, wcsnlen, wcscpy, wcscat, wcsncat, wcsncpy, wcsdup)

SHOWN char *stpcpy(char *to, const char *from) { return to + copy_text(to, from, ENDLESS, CALLER); }

SHOWN char *strndup(const char *s, size_t most) {
  char *to = request('m', length(s, most) + 1, 16, CALLER);
  if (to) copy_text(to, s, most, CALLER);
  return to;
}

SHOWN char *strchr(const char *s, int c) {
  size_t i = 0;
  while (s[i] && s[i] != (char)c) i++;
  LOADS(s, i + 1);
  return s[i] == (char)c ? (char *)s + i : NULL;
}
SHOWN char *index(const char *, int) __attribute__((alias("strchr")));

SHOWN char *strrchr(const char *s, int c) {
  size_t n = length(s, ENDLESS), i = n + 1;
  LOADS(s, n + 1);
  while (i--)
    if (s[i] == (char)c) return (char *)s + i;
  return NULL;
}

// how many of the first bytes of s are in the set, or are not
static inline __attribute__((always_inline)) size_t spanned(const char *s, const char *set, int are_in, struct caller caller) {
  size_t i = 0, n = length(set, ENDLESS), k;
  for (;; i++) {
    for (k = 0; k < n && set[k] != s[i]; k++) continue;
    if (!s[i] || (k < n) != are_in) break;
  }
  touch(s, i + 1, 0, caller), touch(set, n + 1, 0, caller);
  return i;
}
SHOWN size_t strspn(const char *s, const char *set) { return spanned(s, set, 1, CALLER); }
SHOWN size_t strcspn(const char *s, const char *set) { return spanned(s, set, 0, CALLER); }

SHOWN char *strpbrk(const char *s, const char *set) {
  size_t n = spanned(s, set, 0, CALLER);
  return s[n] ? (char *)s + n : NULL;
}

SHOWN char *strstr(const char *s, const char *part) {
  size_t n = length(part, ENDLESS), i = 0, k;
  for (;; i++) {
    for (k = 0; k < n && s[i + k] == part[k]; k++) continue;
    if (k == n || !s[i]) break;
  }
  LOADS(part, n + 1), LOADS(s, k == n ? i + n : i + 1);
  return k == n ? (char *)s + i : NULL;
}

// The text that strtok goes on with. It is one for all threads, as libc's is.
static inline __attribute__((always_inline)) char *next_word(char *s, const char *set, char **rest, struct caller caller) {
  if (!s) s = *rest;
  if (!s) return NULL;
  s += spanned(s, set, 1, caller);
  if (!*s) return *rest = NULL, NULL;
  size_t n = spanned(s, set, 0, caller);
  if (!s[n]) return *rest = NULL, s;
  touch(s + n, 1, 1, caller);
  s[n] = 0, *rest = s + n + 1;
  return s;
}
static char *rest_of_text;
SHOWN char *strtok(char *s, const char *set) { return next_word(s, set, &rest_of_text, CALLER); }
SHOWN char *strtok_r(char *s, const char *set, char **rest) { return next_word(s, set, rest, CALLER); }
SHOWN char *__strtok_r(char *, const char *, char **) __attribute__((alias("strtok_r")));

SHOWN char *strsep(char **from, const char *set) {
  char *s = *from;
  if (!s) return NULL;
  size_t n = spanned(s, set, 0, CALLER);
  *from = s[n] ? s + n + 1 : NULL;
  if (s[n]) STORES(s + n, 1), s[n] = 0;
  return s;
}

#define WIDE (sizeof(wchar_t))
SHOWN wchar_t *wmemcpy(wchar_t *to, const wchar_t *from, size_t n) { return copy_apart(to, from, product(n, WIDE), CALLER); }
SHOWN wchar_t *wmemmove(wchar_t *to, const wchar_t *from, size_t n) {
  size_t size = product(n, WIDE);
  LOADS(from, size), STORES(to, size);
  return move_bytes(to, from, size);
}
SHOWN wchar_t *wmemset(wchar_t *to, wchar_t with, size_t n) {
  STORES(to, product(n, WIDE));
  if (product(n, WIDE) > MOST_BYTES) end_by_size();
  for (size_t i = 0; i < n; i++) to[i] = with;
  return to;
}

SHOWN void qsort(void *at, size_t number, size_t each, int (*compare)(const void *, const void *)) {
  REAL(qsort);
  LOADS(at, product(number, each)), STORES(at, product(number, each));
  real(at, number, each, compare);
}
SHOWN void qsort_r(void *at, size_t number, size_t each, int (*compare)(const void *, const void *, void *), void *given) {
  REAL(qsort_r);
  LOADS(at, product(number, each)), STORES(at, product(number, each));
  real(at, number, each, compare, given);
}

// functions of libc that return nothing
#define STORING(name, parameters, words, stores) \
  SHOWN void name parameters { \
    REAL(name); \
    real words; \
    stores; \
  }
STORING(sincos, (double value, double *sine, double *cosine), (value, sine, cosine), (STORES(sine, sizeof *sine), STORES(cosine, sizeof *cosine)))
STORING(sincosl, (long double value, long double *sine, long double *cosine), (value, sine, cosine), (STORES(sine, sizeof *sine), STORES(cosine, sizeof *cosine)))
STORING(sincosf, (float value, float *sine, float *cosine), (value, sine, cosine), (STORES(sine, sizeof *sine), STORES(cosine, sizeof *cosine)))
STORING(regfree, (regex_t *which), (which), LOADS(which, sizeof *which))

// numbers: the text up to the first byte that is none of the number's
#define NUMBERS(type, own, symbol, more, words) \
  SHOWN type own(const char *s, char **end more) __asm__(symbol); \
  type own(const char *s, char **end more) { \
    static type (*real)(const char *, char **end more); \
    REAL_OF(real, symbol); \
    char *last = NULL; \
    type value = real words; \
    if (end) STORES(end, sizeof *end), *end = last; \
    LOADS(s, (size_t)(last - s) + 1); \
    return value; \
  }
#define AND_BASE , int base
#define WHOLE_NUMBERS(own, prefix) \
  NUMBERS(long, own##_long, prefix "strtol", AND_BASE, (s, &last, base)) \
  NUMBERS(long long, own##_long_long, prefix "strtoll", AND_BASE, (s, &last, base)) \
  NUMBERS(unsigned long, own##_unsigned, prefix "strtoul", AND_BASE, (s, &last, base)) \
  NUMBERS(unsigned long long, own##_unsigned_long, prefix "strtoull", AND_BASE, (s, &last, base))
WHOLE_NUMBERS(c90, "")
WHOLE_NUMBERS(c23, "__isoc23_")
NUMBERS(double, to_double, "strtod", , (s, &last))
NUMBERS(float, to_float, "strtof", , (s, &last))

#define NUMBER_IN(type, name, base, words) \
  SHOWN type name(const char *s) { \
    REAL(base); \
    char *last = NULL; \
    type value = real words; \
    LOADS(s, (size_t)(last - s) + 1); \
    return value; \
  }
NUMBER_IN(int, atoi, strtol, (s, &last, 10))
NUMBER_IN(long, atol, strtol, (s, &last, 10))
NUMBER_IN(long long, atoll, strtol, (s, &last, 10))
NUMBER_IN(double, atof, strtod, (s, &last))
