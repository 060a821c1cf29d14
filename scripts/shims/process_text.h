// What the runtimes of find_faults share: how a log has its numbers, and the mappings of the process. Nothing here calls a function of libc that
// the program may replace, or that takes memory.
#pragma once
#include <errno.h>
#include <fcntl.h>
#include <stdint.h>
#include <string.h>
#include <sys/syscall.h>
#include <unistd.h>

enum { MOST_NAME = 1024 };
#ifndef LONGEST_MAPPING
#define LONGEST_MAPPING MOST_NAME  // the bytes of a line, where a stack may be small
#endif

// Writes a number at a place; where it ends.
static inline char *decimal_at(char *at, unsigned long value) {
  static const char pairs[] = "0001020304050607080910111213141516171819202122232425262728293031323334353637383940414243444546474849"
                              "5051525354555657585960616263646566676869707172737475767778798081828384858687888990919293949596979899";
  int digits = 1;
  for (unsigned long power = 10; digits < 20 && value >= power; power *= 10) digits++;
  char *end = at + digits;
  for (at = end; value >= 100; value /= 100) at -= 2, at[0] = pairs[value % 100 * 2], at[1] = pairs[value % 100 * 2 + 1];
  if (value >= 10) at -= 2, at[0] = pairs[value * 2], at[1] = pairs[value * 2 + 1];
  else *--at = '0' + value;
  return end;
}

static inline char *signed_at(char *at, long value) {
  if (value < 0) *at++ = '-';
  return decimal_at(at, value < 0 ? -(unsigned long)value : (unsigned long)value);
}

static inline char *hexadecimal_at(char *at, unsigned long value) {
  int digits = 1;
  for (unsigned long left = value; left >>= 4;) digits++;
  for (int k = digits; k--; value >>= 4) at[k] = "0123456789abcdef"[value & 15];
  return at + digits;
}

static inline int begins(const char *text, const char *with) { return !strncmp(text, with, strlen(with)); }

struct mapping { uintptr_t low, high, offset; const char *mode, *path; };  // the path is null where there is none

static inline char *read_hexadecimal(char *at, uintptr_t *value) {
  for (*value = 0; (*at >= '0' && *at <= '9') || (*at >= 'a' && *at <= 'f'); at++)
    *value = *value * 16 + (*at <= '9' ? *at - '0' : *at - 'a' + 10);
  return at;
}

static inline void read_mapping(char *line, void (*see)(const struct mapping *, void *), void *data) {
  struct mapping new;
  new.mode = read_hexadecimal(read_hexadecimal(line, &new.low) + 1, &new.high) + 1;
  read_hexadecimal((char *)new.mode + 5, &new.offset);
  new.path = strchr(new.mode, '/');
  see(&new, data);
}

// The mappings as the kernel says them, not the loader, whose locks others may hold.
static inline void see_mappings(void (*see)(const struct mapping *, void *), void *data) {
  char piece[2048], line[LONGEST_MAPPING];  // more than one thread may be here
  int error = errno, file = syscall(SYS_openat, AT_FDCWD, "/proc/self/maps", O_RDONLY | O_CLOEXEC);
  long got, n = 0;
  while (file >= 0 && (got = syscall(SYS_read, file, piece, sizeof piece)) > 0)
    for (long i = 0; i < got; i++) {
      if (piece[i] != '\n' && n < LONGEST_MAPPING - 1) line[n++] = piece[i];
      if (piece[i] != '\n') continue;
      line[n] = 0, n = 0;
      read_mapping(line, see, data);
    }
  if (file >= 0) syscall(SYS_close, file);
  errno = error;
}
