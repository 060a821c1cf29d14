// The bytes that a program poisons, as a pool does with those that it has not given out: AddressSanitizer's functions for it, which programs
// call where the compiler says that it is there. They hold for each byte, in blocks and outside of the heap. A table that is set aside at
// the first call has a bit for each byte of the address space. Where a byte is poisoned, the shadow is closed; elsewhere it is open, so
// that right accesses of a granule that was ever poisoned are not logged.
#include "accesses.h"

#define ADDRESSES ((address)1 << 47)
#define POISONED ((unsigned char *)(ARENA + 8 * ARENA_SIZE))

int has_poison;

static int bits_from(address a) { return 0xFF << a % 8 & 0xFF; }

// the bits of the bytes of eight from `from` up to `to`, which may be in later ones
static int bits_between(address from, address to) { return bits_from(from) & (to / 8 > from / 8 ? 0xFF : ~bits_from(to)); }

address first_poisoned(address from, size_t size) {
  address to = size < ADDRESSES - from ? from + size : ADDRESSES;
  if (!has_poison || from >= ADDRESSES) return 0;
  for (address at = from; at < to; at = at / 8 * 8 + 8) {
    while (at % 8 == 0 && at + 64 <= to && !*(const word *)(POISONED + at / 8)) at += 64;
    int found = at < to ? POISONED[at / 8] & bits_between(at, to) : 0;
    if (found) return at / 8 * 8 + __builtin_ctz(found);
  }
  return 0;
}

static void set(address from, address to, int is_poisoned) {
  address first = round_up(from, 8), last = to / 8 * 8;
  if (first < last) fill_bytes(POISONED + first / 8, is_poisoned ? 0xFF : 0, (last - first) / 8);
  address ends[2][2] = {{from, first < to ? first : to}, {last > first ? last : first, to}};
  for (int i = 0; i < 2; i++) {
    if (ends[i][0] >= ends[i][1]) continue;
    int bits = bits_between(ends[i][0], ends[i][1]);
    if (is_poisoned) POISONED[ends[i][0] / 8] |= bits;
    else POISONED[ends[i][0] / 8] &= ~bits;
  }
}

// what the shadow has of eight bytes, of which those from `end` on are no block's
static int shadow_of(address eight, address end) {
  int bits = POISONED[eight / 8] | (end < eight + 8 ? bits_from(end) : 0), open = bits ? __builtin_ctz(bits) : 0;
  return bits && (!open || bits != bits_from(open)) ? CLOSED : open;
}

static void renew_eight(address eight, address end) { *SHADOW(eight) = shadow_of(eight, end); }

// The shadow of bytes that were all poisoned or all unpoisoned, and of the rest of the eight at both ends.
static void renew_shadow(address from, address to, address end, int is_poisoned) {
  address first = round_up(from, 8), last = to / 8 * 8;
  if (first < last) fill_bytes(SHADOW(first), is_poisoned ? CLOSED : 0, (last - first) / 8);
  if (from % 8) renew_eight(from / 8 * 8, end);
  if (to % 8) renew_eight(last, end);
}

// What hooks.c knows of the granules: all of one without poison, and else nothing. The whole granule has a new shadow.
static void renew_granule(address granule, address end) {
  int bytes = end - granule < 16 ? end - granule : 16, is_poisoned = first_poisoned(granule, bytes) != 0;
  for (int store = 0; store < 2; store++) KNOWN(store)[(granule - ARENA) / 16] = is_poisoned ? 0 : bytes;
  renew_eight(granule, end);
  if (bytes > 8) renew_eight(granule + 8, end);
}

static void renew_block(address from, address to, address end, int is_poisoned) {
  address first = round_up(from, 16), last = to / 16 * 16;
  if (first < last) {
    for (int store = 0; store < 2; store++) fill_bytes(KNOWN(store) + (first - ARENA) / 16, is_poisoned ? 0 : 16, (last - first) / 16);
    renew_shadow(first, last, end, is_poisoned);
  }
  if (from % 16) renew_granule(from / 16 * 16, end);
  if (to % 16 && (last >= first || from % 16 == 0)) renew_granule(last, end);
}

// Bytes of the heap are those of one live block; the others were never to be touched.
static void poison(address from, size_t size, int is_poisoned, struct caller caller) {
  if (!size || size > MOST_BYTES || from + size > ADDRESSES || busy || (!has_poison && !is_poisoned)) return;
  enter();
  tell_guess();
  address to = from + size, end = ADDRESSES;
  struct block *block = owner(from);
  if (is_in_arena(from)) {
    if (block && from < block->start) from = block->start;
    end = block && block->state == LIVE ? block->start + block->size : from;
    if (to > end) to = end;
  }
  if (from < to) {
    if (!has_poison) reserve((address)POISONED, ADDRESSES / 8, PROT_READ | PROT_WRITE, MAP_PRIVATE);
    has_poison = 1;
    set(from, to, is_poisoned);
    if (block) renew_block(from, to, end, is_poisoned);
    else renew_shadow(from, to, end, is_poisoned);
    if (is_logging()) {
      put_record(is_poisoned ? 'p' : 'u', 3, (long)(block ? block - BLOCKS : 0), (long)(block ? from - block->start : from), (long)(to - from));
      struct stack stack = {.count = 0};
      put_stack(caller, &stack);
    }
  }
  leave();
}

// the addresses of freed blocks, which are given out never again
void forget_poison(address from, size_t size) {
  if (has_poison) madvise(POISONED + from / 8, size / 8, MADV_DONTNEED);
}

SHOWN void __asan_poison_memory_region(const volatile void *at, size_t size) { poison((address)at, size, 1, CALLER); }
SHOWN void __asan_unpoison_memory_region(const volatile void *at, size_t size) { poison((address)at, size, 0, CALLER); }

// the first byte that may not be touched; 0 where there is none
static address first_wrong(address from, size_t size) {
  if (!is_in_arena(from)) return first_poisoned(from, size);
  struct block *block = owner(from);
  if (!block || block->state != LIVE || from - block->start >= block->size) return from;
  size_t inside = block->size - (from - block->start);
  address found = first_poisoned(from, size < inside ? size : inside);
  return found ? found : size > inside ? from + inside : 0;
}

SHOWN int __asan_address_is_poisoned(const volatile void *at) { return first_wrong((address)at, 1) != 0; }
SHOWN void *__asan_region_is_poisoned(void *at, size_t size) { return size ? (void *)first_wrong((address)at, size) : NULL; }

// Containers: of their memory the part that has no element is poisoned.
static void change(address from, address to, int is_poisoned, struct caller caller) {
  if (from < to) poison(from, to - from, is_poisoned, caller);
}

SHOWN void __sanitizer_annotate_contiguous_container(const void *begin, const void *end, const void *old_middle, const void *new_middle) {
  struct caller caller = CALLER;
  (void)begin, (void)end;
  change((address)old_middle, (address)new_middle, 0, caller);
  change((address)new_middle, (address)old_middle, 1, caller);
}

SHOWN void __sanitizer_annotate_double_ended_contiguous_container(const void *begin, const void *end, const void *old_begin, const void *old_end,
                                                                  const void *new_begin, const void *new_end) {
  struct caller caller = CALLER;
  (void)end;
  if (new_begin == new_end) new_begin = new_end = begin;
  if (old_begin == old_end) old_begin = old_end = new_begin;
  change((address)new_begin, (address)new_end, 0, caller);
  address first = (address)old_begin, last = (address)old_end;
  change(first, last < (address)new_begin ? last : (address)new_begin, 1, caller);
  change(first > (address)new_end ? first : (address)new_end, last, 1, caller);
}

// the first byte that is poisoned and has an element, or the first that is neither
static const void *first_bad(address begin, address first, address last, address end) {
  for (address at = begin; at < end; at++)
    if ((at < first || at >= last) != (first_wrong(at, 1) != 0)) return (const void *)at;
  return NULL;
}

SHOWN const void *__sanitizer_contiguous_container_find_bad_address(const void *begin, const void *middle, const void *end) {
  return first_bad((address)begin, (address)begin, (address)middle, (address)end);
}
SHOWN int __sanitizer_verify_contiguous_container(const void *begin, const void *middle, const void *end) {
  return !__sanitizer_contiguous_container_find_bad_address(begin, middle, end);
}
SHOWN const void *__sanitizer_double_ended_contiguous_container_find_bad_address(const void *begin, const void *first, const void *last, const void *end) {
  return first_bad((address)begin, (address)first, (address)last, (address)end);
}
SHOWN int __sanitizer_verify_double_ended_contiguous_container(const void *begin, const void *first, const void *last, const void *end) {
  return !__sanitizer_double_ended_contiguous_container_find_bad_address(begin, first, last, end);
}
