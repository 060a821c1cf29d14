// What the compiler's check before each load and store calls where the shadow is closed: gcc __asan_report_, and clang __asan_report_exp_.
// On processors but x86-64 both call the others before each. A right access is logged once for each granule and kind, and a wrong one once
// for each place in the code, block, and part of the block that it touches. While a granule's loads are logged and its stores are not, or
// the other way round, its shadow stays closed. That is slow where the other kind never comes: once a program waited often, no more right
// accesses are logged.
#include "accesses.h"

enum { MOST_RIGHT = 600000, MOST_WAITS = 1 << 22, SEEN = 1 << 16, TRIES = 64, MOST_WAYS = 7 };
enum part { IN_FREED = 1, BEFORE_FREED, AFTER_FREED, BEFORE, IN_LAST_GRANULE, AFTER, TOO_LARGE, POISON, OVERLAP, MISMATCH };
enum { FORGOTTEN, NEVER_GIVEN, NOT_OF_HEAP };  // of an access of no block, in place of an offset

// The first of some bytes has how many other ways led there, each of which has an entry of its own.
static struct seen { address pc, way; uint32_t block, part; long record, times; int is_first, ways; } seen[SEEN];

// the entry of a wrong access, which may still be free; null where there is no room
static struct seen *seen_at(address pc, uint32_t block, uint32_t part, address way) {
  address hash = (pc * 0x9E3779B97F4A7C15u ^ way ^ block * 0xC2B2AE3D27D4EB4Fu ^ part * 0x165667B19E3779F9u) >> 20;
  for (int i = 0; i < TRIES; i++) {
    struct seen *entry = &seen[(hash + i) % SEEN];
    if (!entry->pc || (entry->pc == pc && entry->block == block && entry->part == part && (way ? entry->way == way : entry->is_first))) return entry;
  }
  return NULL;
}

// what stands for the callers of a function
static address way_of(struct caller from) {
  struct stack stack;
  stack.count = 0;
  walk(from, (address)__builtin_frame_address(0), &stack);
  address hash = 1;
  for (int i = 1; i < stack.count; i++) hash = (hash ^ stack.pcs[i]) * 0x9E3779B97F4A7C15u, hash ^= hash >> 29;
  return hash | 1;
}

// The entry of a wrong access by its way, or that of the first way, where there are too many; null where there is no room. One that is still
// free has no address.
static struct seen *way_to(struct caller from, uint32_t block, uint32_t part, address way) {
  struct seen *first = seen_at(from.pc, block, part, 0);
  if (!first || !first->pc || first->way == way) return first;
  struct seen *entry = seen_at(from.pc, block, part, way);
  return !entry || (!entry->pc && first->ways >= MOST_WAYS) ? first : entry;
}

static int is_first(struct caller from, uint32_t block, uint32_t part) {
  address way = way_of(from);
  struct seen *entry = way_to(from, block, part, way), *first = seen_at(from.pc, block, part, 0);
  if (!entry) return not_logged++, 0;
  if (entry->pc) return entry->times++, 0;
  if (entry != first) first->ways++;
  *entry = (struct seen){from.pc, way, block, part, number_of_wrong() + 1, 1, entry == first, 0};
  return 1;
}

void put_times(void) {
  for (int i = 0; i < SEEN && number_of_wrong() && has_room(); i++)
    if (seen[i].times > 1) put_record('+', 2, seen[i].record, seen[i].times), put_end();
}

static enum part part_of(const struct block *block, long offset, long size) {
  long whole = block->size, end = whole ? (long)round_up(whole, 16) : 16;
  if (block->state == FREED) return offset < 0 ? BEFORE_FREED : offset < whole ? IN_FREED : AFTER_FREED;
  return offset < 0 ? BEFORE : offset + size <= end ? IN_LAST_GRANULE : AFTER;
}

static uint32_t number_of(const struct block *block) { return block ? block - BLOCKS : 0; }

// the live block that has all these bytes
static struct block *live_at(address a, size_t size) {
  struct block *block = owner(a);
  int has_all = block && block->state == LIVE && a - block->start < block->size && size <= block->size - (a - block->start);
  return has_all ? block : NULL;
}

// Whether bytes may be touched. What the heap has nothing to do with may, unless the program poisoned it.
int is_right(address a, size_t size) {
  return size <= MOST_BYTES && (!is_in_arena(a) || live_at(a, size)) && !first_poisoned(a, size);
}

// whether a wrong access is only wrong since the program poisoned its bytes
static int is_of_poison(address a, size_t size) { return size <= MOST_BYTES && (!is_in_arena(a) || live_at(a, size)); }

static int place_of(address a) { return !is_in_arena(a) ? NOT_OF_HEAP : was_given_out(a) ? FORGOTTEN : NEVER_GIVEN; }

// which bytes a wrong access means
static uint32_t part_and_kind(const struct block *block, address a, size_t size, int store) {
  int part = size > MOST_BYTES ? TOO_LARGE : is_of_poison(a, size) ? POISON : block ? (int)part_of(block, (long)(a - block->start), size) : place_of(a);
  return 2 * part + store;
}

// The stack of an access that seems to be wrong for the first time, before the lock is held: the unwinder may wait for others. Else it is
// empty.
static void look(address a, size_t size, int store, struct caller from, struct stack *stack) {
  struct block *block = owner(a);
  struct seen *entry = has_log() ? way_to(from, number_of(block), part_and_kind(block, a, size, store), way_of(from)) : NULL;
  if (entry && !entry->pc) unwind(from, stack);
}

static void wrong(struct block *block, address a, size_t size, int store, struct caller from, struct stack *stack, struct wrong *to) {
  int is_poison = is_of_poison(a, size);
  struct wrong found = {.letter = is_poison ? "PQ"[store] : "LS"[store], .number = number_of(block), .offset = is_poison ? (long)a : place_of(a), .size = size, .at = a};
  if (block) found.is_freed = block->state == FREED, found.offset = (long)(a - block->start), found.block_size = (long)block->size;
  int is_logged = has_room();
  if (!has_log() || (is_logged && !is_first(from, found.number, part_and_kind(block, a, size, store)))) return;
  if (!stack->count) walk(from, (address)__builtin_frame_address(0), stack);
  if (!is_logged) not_logged++;
  else put_missing(block), put_record(found.letter, 3, found.number, found.offset, found.size), put_frames(stack);
  found.stack = *stack;
  if (to) *to = found;
  else will_tell(&found);
}

static long logged, waits;
int logs_right(void) { return logged < MOST_RIGHT && waits < MOST_WAITS && is_logging(); }

static void right(struct block *block, size_t offset, size_t size, int store) {
  size_t first = (block->start - ARENA) / 16;
  for (size_t from = offset, to; from < offset + size; from = to) {
    size_t granule = from / 16, bytes = block->size - granule * 16 < 16 ? block->size % 16 : 16;
    unsigned char *known = KNOWN(store) + first + granule, *other = KNOWN(!store) + first + granule;
    to = (granule + 1) * 16 < offset + size ? (granule + 1) * 16 : offset + size;
    if (first_poisoned(block->start + granule * 16, bytes)) continue;
    int is_logged = *known, is_last = !logs_right();
    *known = bytes;
    if (is_last) *other = bytes;
    if (*other) open_shadow(block->start + granule * 16, bytes);
    if (is_logged || is_last) continue;
    logged++;
    put_record(store ? 's' : 'l', 3, (long)(block - BLOCKS), (long)from, (long)(to - from));
    put_end();
  }
}

// Of an access whose size or alignment is not usual, clang looks at the first byte and then at the last one, and calls for each that is
// closed. Only the next call shows which of the two a byte was: the last one comes right after the first. So a wrong byte is believed to be
// the last one if the first one is right then, and is told at the next call. If it was the first one itself, the record is taken back at the
// call for the last one. It is told at a request, a free and the end too.
static __thread struct half {
  address at, *frame;
  size_t size;
  long record;
  int is_guess;
  struct wrong guess;  // what is still to be told of it, if its letter is not 0
} half __attribute__((tls_model("initial-exec")));

void tell_guess(void) {
  if (half.guess.letter) will_tell(&half.guess), half.guess.letter = 0;
}

// whether the access is wrong
static int see(address a, size_t size, int store, struct caller from) {
  if (busy) {  // in a handler of a signal that came in the runtime
    not_logged += !is_right(a, size);
    return 0;
  }
  struct stack stack;
  stack.count = 0;
  if (!is_right(a, size)) look(a, size, store, from, &stack);
  else if (!is_in_arena(a)) return 0;
  enter();
  half.size = 0;
  tell_guess();
  struct block *block = owner(a);
  int is_wrong = !is_right(a, size);
  if (is_wrong) wrong(block, a, size, store, from, &stack, NULL);
  else if (block) right(block, a - block->start, size, store);
  leave();
  return is_wrong;
}

// A copy that overlaps itself. Where bytes of one of the two places may not be touched at all, that is told already, and is all that is wrong:
// two places that are right overlap in one block, while past the end of a block come bytes that only this heap has put there.
void see_overlap(address to, address from, size_t size, struct caller caller) {
  struct stack stack;
  struct block *block = owner(to);
  if (busy || !has_log() || !is_right(to, size) || !is_right(from, size)) return;
  unwind(caller, &stack);
  enter();
  tell_guess();
  struct wrong found = {.letter = 'V', .number = number_of(block), .offset = (long)(block ? to - block->start : to), .size = size, .at = to, .stack = stack};
  if (block) found.block_size = (long)block->size;
  if (has_room() && is_first(caller, found.number, 2 * OVERLAP)) {
    put_missing(block), put_record('V', 3, found.number, found.offset, found.size), put_frames(&stack);
    will_tell(&found);
  }
  leave();
}

// A free, delete or realloc that does not fit what made the block, once for each way to it.
void see_mismatch(const struct block *block, enum maker used, struct caller from, const struct stack *known) {
  struct wrong found = {.letter = 'y', .number = number_of(block), .offset = block->maker, .size = used, .at = block->start,
                        .block_size = (long)block->size, .stack = *known};
  if (!has_log() || !has_room() || !is_first(from, 0, 2 * MISMATCH + 8 * block->maker + 32 * used)) return;
  if (!found.stack.count) walk(from, (address)__builtin_frame_address(0), &found.stack);
  put_missing(BLOCKS + found.number), put_record('y', 3, found.number, found.offset, found.size), put_frames(&found.stack);
  will_tell(&found);
}

// an access that the program says is wrong
void report_access(address a, size_t size, int store, struct caller from) {
  struct stack stack;
  if (busy || !size) return;
  unwind(from, &stack);
  enter();
  tell_guess();
  wrong(owner(a), a, size, store, from, &stack, NULL);
  leave();
}

// gcc looks at the first and at the last byte of a struct, and copies a large one by memcpy: what the look told is not told again.
static __thread struct { address at, *frame; size_t size; } told[2] __attribute__((tls_model("initial-exec")));

void touch_slowly(address a, size_t size, int store, struct caller from) {
  int is_told = told[store].at == a && told[store].size == size && told[store].frame == from.frame;
  told[store].size = 0;
  if (!is_told && (half.size || size > MOST_BYTES || !is_open(a, size))) see(a, size, store, from);
}

void forget_accesses(void) { told[0].at = told[1].at = half.at = half.guess.at = 0; }

static void touch_half(address a, size_t size, int store, struct caller from) {
  if (busy) {
    not_logged += !is_right(a, 1);
    return;
  }
  struct stack stack;
  stack.count = 0;
  int is_guess = is_right(a - size + 1, 1);
  address begin = is_guess ? a - size + 1 : a;
  if (!is_right(a, 1)) look(begin, size, store, from, &stack);
  enter();
  struct half first = half;
  struct block *block = owner(a);
  half.size = 0;
  if (first.size == size && first.at + size - 1 == a && first.frame == from.frame) {
    half.guess.letter = 0;
    if (first.is_guess) take_back(first.record), wrong(owner(first.at), first.at, size, store, from, &first.guess.stack, NULL);
  } else if (is_right(a, 1)) {
    tell_guess();
    if (block) right(block, a - block->start, 1, store);
  } else {
    tell_guess();
    long before = number_of_wrong();
    half.guess.stack.count = 0;
    wrong(owner(begin), begin, size, store, from, &stack, is_guess ? &half.guess : NULL);
    half.at = a, half.frame = from.frame, half.size = size, half.is_guess = is_guess;
    half.record = number_of_wrong() > before ? number_of_wrong() : 0;
  }
  leave();
}

// A hook has no frame of its own, so it is quick; here the frame is still the one of the function that called the hook.
static NOT_INLINE void slowly(address a, size_t size, int store, address pc) {
  struct caller from = {pc, *(address **)__builtin_frame_address(0)};
  int is_wrong = see(a, size, store, from);
  told[store].at = a, told[store].frame = from.frame, told[store].size = is_wrong ? size : 0;
}

static NOT_INLINE void slowly_half(address a, size_t size, int store, address pc) {
  touch_half(a, size, store, (struct caller){pc, *(address **)__builtin_frame_address(0)});
}

static NOT_INLINE int may_wait(void) { return __atomic_add_fetch(&waits, 1, __ATOMIC_RELAXED) <= MOST_WAITS; }

#define PC (address)__builtin_return_address(0)
#define HOOKED(a, size, store) \
  if (size && !__builtin_expect(is_known(a, size, store), 1)) slowly(a, size, store, PC)
#define REPORTED(a, size, store) \
  if (size && !(is_known(a, size, store) && may_wait())) slowly(a, size, store, PC)
#define HALF_REPORTED(a, size, store) \
  if (size && !(is_known(a, 1, store) && may_wait())) slowly_half(a, size, store, PC)
#define HOOKS(kind, size, store) \
  SHOWN void __asan_##kind##size##_noabort(address a) { HOOKED(a, size, store); } \
  SHOWN void __asan_report_##kind##size##_noabort(address a) { REPORTED(a, size, store); } \
  SHOWN void __asan_report_exp_##kind##size##_noabort(address a, uint32_t unused) { (void)unused; REPORTED(a, size, store); }
#define ALL_HOOKS(kind, store) \
  HOOKS(kind, 1, store) HOOKS(kind, 2, store) HOOKS(kind, 4, store) HOOKS(kind, 8, store) HOOKS(kind, 16, store) \
  SHOWN void __asan_##kind##N_noabort(address a, size_t size) { HOOKED(a, size, store); } \
  SHOWN void __asan_report_##kind##_n_noabort(address a, size_t size) { REPORTED(a, size, store); } \
  SHOWN void __asan_report_exp_##kind##_n_noabort(address a, size_t size, uint32_t unused) { (void)unused; HALF_REPORTED(a, size, store); }
ALL_HOOKS(load, 0)
ALL_HOOKS(store, 1)
SHOWN void __asan_handle_no_return(void) {}
SHOWN void __asan_before_dynamic_init(const char *source) { (void)source; }
SHOWN void __asan_after_dynamic_init(void) {}
SHOWN void __asan_register_globals(void *globals, address number) { (void)globals, (void)number; }
SHOWN void __asan_unregister_globals(void *globals, address number) { (void)globals, (void)number; }
