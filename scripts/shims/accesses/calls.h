// What the functions that stand in libc's place share: each says which bytes it loads and stores.
#pragma once
#include "accesses.h"
#include <dlfcn.h>

static inline __attribute__((always_inline)) void touch(const void *at, size_t size, int store, struct caller from) {
  if (size && (size > MOST_BYTES || !is_known((address)at, size, store))) touch_slowly((address)at, size, store, from);
}
#define LOADS(at, size) touch(at, size, 0, CALLER)
#define STORES(at, size) touch(at, size, 1, CALLER)
#define ENDLESS ((size_t)-1)

// A copy between two places of a block, or of memory that is not the heap's, that overlap: libc may copy in any order.
static inline __attribute__((always_inline)) void part(const void *to, const void *from, size_t size, struct caller caller) {
  if (size <= MOST_BYTES && ((address)to - (address)from < size || (address)from - (address)to < size)) see_overlap((address)to, (address)from, size, caller);
}

// the bytes of so many things; a product that is too large is a wrong size
static inline size_t product(size_t number, size_t each) {
  size_t size;
  return __builtin_mul_overflow(number, each, &size) ? ENDLESS : size;
}

// the bytes of a text before its end, at most so many; and those that are loaded to see that
static inline size_t length(const char *s, size_t most) {
  size_t n = 0;
  while (n < most && s[n]) n++;
  return n;
}
static inline size_t with_end(size_t length, size_t most) { return length < most ? length + 1 : most; }
#define LOADS_TEXT(s) LOADS(s, length(s, ENDLESS) + 1)
#define STORES_TEXT(s) STORES(s, length(s, ENDLESS) + 1)

// libc's own function
#define REAL_OF(pointer, name) \
  if (!pointer) busy++, pointer = (__typeof__(pointer))dlsym(RTLD_NEXT, name), busy--
#define REAL(name) \
  static __typeof__(&name) real; \
  REAL_OF(real, #name)
