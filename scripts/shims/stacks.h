// The stack of each request, as a number: which functions were called, from the one that requests outwards. A program does not keep frame
// pointers, so each return address is found by the tables that C++'s exceptions have (.eh_frame): what they say of an address is read once,
// and kept. Nothing is called for a stack that was seen before, and no lock is taken.
//
// The stacks are a table beside the rings of the stream, by a hash of 64 bits of their addresses; the number of a stack is its place there.
// A stack ends where no table tells more; on another processor than x86-64, whose registers these are, it is its first caller alone.
#pragma once
#include <pthread.h>
#include <sys/resource.h>
#include "stream.h"

extern void *__libc_stack_end;
#ifdef __x86_64__
enum { IS_KNOWN = 1 };  // the numbers of its registers
#else
enum { IS_KNOWN = 0 };
#endif
enum { NOWHERE, BY_SP, BY_BP, AT_BP };  // where the caller's frame is: at an offset from rsp or rbp, or at what stands at one from rbp
struct rule { int32_t offset; int16_t saved; uint8_t base, keeps; };  // rbp is saved at the caller's frame + saved, unless the function keeps it
static struct stacks *stacks;
static char program_path[480];  // read at the start: later the process may have given up that call
static uint64_t image;      // the number of this program's layout, which its forks have too
static uintptr_t deepest;   // bytes of the first thread's stack
static uintptr_t lowest;    // from there on it is mapped
static struct { uintptr_t low, high; const uint8_t *table; } known[MODULES];
static int number_known;

// ---- .eh_frame, as the Linux Standard Base has it

static uint64_t uleb(const uint8_t **at) {
  uint64_t value = 0;
  for (int shift = 0;; shift += 7) {
    uint8_t byte = *(*at)++;
    if (shift < 64) value |= (uint64_t)(byte & 127) << shift;
    if (byte < 128) return value;
  }
}
static int64_t sleb(const uint8_t **at) {
  int64_t value = 0;
  for (int shift = 0;;) {
    uint8_t byte = *(*at)++;
    if (shift < 64) value |= (int64_t)(byte & 127) << shift;
    shift += 7;
    if (byte < 128) return byte & 64 && shift < 64 ? value | -(1LL << shift) : value;
  }
}
static uint64_t fixed(const uint8_t **at, int bytes) {
  uint64_t value = 0;
  memcpy(&value, *at, bytes), *at += bytes;
  return value;
}
// a pointer of this encoding; its bytes are 0 where that is another one than compilers for Linux take
static int bytes_of(int encoding) { return (encoding & 7) == 0 || (encoding & 7) == 4 ? 8 : (encoding & 7) == 3 ? 4 : (encoding & 7) == 2 ? 2 : 0; }
static uintptr_t pointer(const uint8_t **at, int encoding) {
  uintptr_t from = (uintptr_t)*at;
  int bytes = bytes_of(encoding);
  int64_t value = fixed(at, bytes);
  if (encoding & 8) value = (int64_t)((uint64_t)value << (64 - 8 * bytes)) >> (64 - 8 * bytes);
  return (encoding & 0x70) == 0x10 ? from + value : (uintptr_t)value;
}

struct row { struct rule rule; int is_last; };
enum { BP = 6, SP = 7, RETURN = 16, REMEMBERED = 8 };

static void by_register(struct row *row, uint64_t number, int64_t offset) {
  row->rule.base = number == SP ? BY_SP : number == BP ? BY_BP : NOWHERE, row->rule.offset = offset;
}
static void saved_at(struct row *row, uint64_t number, int64_t offset) {
  if (number == BP) row->rule.saved = offset, row->rule.keeps = offset != (int16_t)offset;
}
static void restore(struct row *row, const struct row *first, uint64_t number) {
  if (number == BP && first) row->rule.saved = first->rule.saved, row->rule.keeps = first->rule.keeps;
}

// Does the instructions up to an address, for what holds there.
static void follow_rows(const uint8_t *at, const uint8_t *end, uintptr_t from, uintptr_t to, uint64_t unit, int64_t factor, int encoding,
                        const struct row *first, struct row *row) {
  struct row remembered[REMEMBERED];
  int number = 0;
  while (at < end && from <= to) {
    uint8_t code = *at++, low = code & 63;
    uint64_t reg = 0, bytes;
    const uint8_t *block;
    switch (code & 192 ? code & 192 : code) {
      case 0x40: from += low * unit; break;
      case 0x80: saved_at(row, low, uleb(&at) * factor); break;
      case 0xc0: restore(row, first, low); break;
      case 0x01: from = pointer(&at, encoding); break;
      case 0x02: from += fixed(&at, 1) * unit; break;
      case 0x03: from += fixed(&at, 2) * unit; break;
      case 0x04: from += fixed(&at, 4) * unit; break;
      case 0x05: reg = uleb(&at), saved_at(row, reg, uleb(&at) * factor); break;
      case 0x06: restore(row, first, uleb(&at)); break;
      case 0x07: row->is_last |= uleb(&at) == RETURN; break;
      case 0x08: if (uleb(&at) == BP) row->rule.keeps = 1; break;
      case 0x09: uleb(&at), uleb(&at); break;
      case 0x0a: if (number < REMEMBERED) remembered[number] = *row; number++; break;
      case 0x0b: if (number && --number < REMEMBERED) *row = remembered[number]; break;
      case 0x0c: reg = uleb(&at), by_register(row, reg, uleb(&at)); break;
      case 0x0d: by_register(row, uleb(&at), row->rule.offset); break;
      case 0x0e: row->rule.offset = uleb(&at); break;
      case 0x0f:  // of a function that aligns its stack: what stands at an offset from rbp
        bytes = uleb(&at), block = at, at += bytes, row->rule.base = NOWHERE;
        if (bytes > 2 && *block++ == 0x70 + BP && (row->rule.offset = sleb(&block), *block == 0x06) && block + 1 == at) row->rule.base = AT_BP;
        break;
      case 0x10: reg = uleb(&at); bytes = uleb(&at); at += bytes; if (reg == BP) row->rule.saved = 0, row->rule.keeps = 0; break;
      case 0x11: reg = uleb(&at), saved_at(row, reg, sleb(&at) * factor); break;
      case 0x12: reg = uleb(&at), by_register(row, reg, sleb(&at) * factor); break;
      case 0x13: row->rule.offset = sleb(&at) * factor; break;
      case 0x14: case 0x15: case 0x16: row->rule.base = NOWHERE; return;  // a value, which no compiler gives rbp
      case 0x2e: uleb(&at); break;
      case 0x00: break;
      default: row->rule.base = NOWHERE; return;
    }
  }
}

// What the frame description at FDE says of an address that it has.
static struct rule read_frame(const uint8_t *fde, uintptr_t address) {
  static const struct rule nothing = {.base = NOWHERE};
  struct row row = {.rule = {.keeps = 1}};
  const uint8_t *at = fde + 4, *end = at + *(const uint32_t *)fde, *common = at - *(const uint32_t *)at;
  const uint8_t *last = common + 4 + *(const uint32_t *)common, *name = common + 9;
  if (end == at || *(const uint32_t *)fde == ~0U || *name != 'z') return nothing;
  int encoding = 0;
  common = name + strlen((const char *)name) + 1;
  uint64_t unit = uleb(&common);
  int64_t factor = sleb(&common);
  uleb(&common);  // the register of the return address
  uint64_t bytes = uleb(&common);
  const uint8_t *more = common;
  common += bytes, at += 4;
  for (name++; *name; name++) {
    if (*name == 'R') encoding = *more++;
    else if (*name == 'L') more++;
    else if (*name == 'P' && bytes_of(*more)) more++, pointer(&more, more[-1]);
    else return nothing;  // of a signal's frame, or unknown
  }
  if (!bytes_of(encoding)) return nothing;
  uintptr_t from = pointer(&at, encoding), size = pointer(&at, encoding & 7);
  if (address - from >= size) return nothing;
  bytes = uleb(&at), at += bytes;
  follow_rows(common, last, 0, 0, unit, factor, encoding, NULL, &row);
  struct row first = row;
  follow_rows(at, end, from, address, unit, factor, encoding, &first, &row);
  return row.is_last ? nothing : row.rule;
}

// The description of an address by the sorted table of its object, which linkers make in this form alone.
static struct rule look_up(const uint8_t *table, uintptr_t address) {
  static const struct rule nothing = {.base = NOWHERE};
  if (table[0] != 1 || table[2] != 3 || table[3] != 0x3b) return nothing;
  const uint8_t *at = table + 4;
  pointer(&at, table[1]);
  uint32_t low = 0, high = fixed(&at, 4);
  const struct { int32_t begin, fde; } *sorted = (const void *)at;
  int64_t offset = address - (uintptr_t)table;
  if (!high || sorted[0].begin > offset) return nothing;
  while (high - low > 1) {
    uint32_t middle = low + (high - low) / 2;
    if (sorted[middle].begin <= offset) low = middle; else high = middle;
  }
  return read_frame(table + sorted[low].fde, address);
}

// ---- the objects that are loaded

static int note_object(struct dl_phdr_info *object, size_t size, void *address) {
  (void)size;
  uintptr_t low = -1, high = 0;
  const uint8_t *table = NULL;
  for (int i = 0; i < object->dlpi_phnum; i++) {
    const ElfW(Phdr) *header = &object->dlpi_phdr[i];
    uintptr_t begin = object->dlpi_addr + header->p_vaddr;
    if (header->p_type == PT_GNU_EH_FRAME) table = (const uint8_t *)begin;
    if (header->p_type != PT_LOAD) continue;
    if (begin < low) low = begin;
    if (begin + header->p_memsz > high) high = begin + header->p_memsz;
  }
  if (*(uintptr_t *)address - low >= high - low) return 0;
  int number = __atomic_fetch_add(&number_known, 1, __ATOMIC_ACQ_REL);
  if (number >= MODULES) return 1;
  known[number].low = low, known[number].table = table;
  __atomic_store_n(&known[number].high, high, __ATOMIC_RELEASE);
  uint64_t k = __atomic_fetch_add(&stacks->modules, 1, __ATOMIC_RELAXED);
  if (k >= MODULES) return 1;
  struct module *module = &stacks->module[k];
  *module = (struct module){.image = image, .low = low, .high = high, .bias = object->dlpi_addr};
  if (*object->dlpi_name) strncpy(module->name, object->dlpi_name, sizeof module->name - 1);
  else strcpy(module->name, program_path);
  return 1;
}

static __attribute__((noinline, cold)) struct rule find_rule(uintptr_t address) {
  for (int tries = 0; tries < 2; tries++) {  // the object is noted on every processor: it has the names
    for (int i = 0; i < MODULES && i < __atomic_load_n(&number_known, __ATOMIC_ACQUIRE); i++)
      if (address < __atomic_load_n(&known[i].high, __ATOMIC_ACQUIRE) && address >= known[i].low)
        return known[i].table && IS_KNOWN ? look_up(known[i].table, address) : (struct rule){.base = NOWHERE};
    if (!tries) dl_iterate_phdr(note_object, &address);
  }
  return (struct rule){.base = NOWHERE};
}

// ---- threads

// The stack of a thread: what it is known by stands at its end, and it begins at LOW or before. Each notes itself at its
// start, at the place of its number.
enum { THREADS = 1 << 12, STARTS = 1 << 8 };
static struct thread { uintptr_t own, low; } threads[THREADS];
static struct start { int is_taken; void *(*function)(void *), *word; size_t size; } starts[STARTS];

static inline struct thread *thread_of(uintptr_t own) { return &threads[own * 0x9E3779B97F4A7C15ULL >> 52]; }

static void *begin_thread(void *given) {
  struct start *taken = given, start = *taken;
  uintptr_t own = (uintptr_t)pthread_self();
  *thread_of(own) = (struct thread){own, own - start.size};
  __atomic_store_n(&taken->is_taken, 0, __ATOMIC_RELEASE);
  return start.function(start.word);
}

// The bytes of a thread's stack, without the guard and what the thread is known by.
static size_t bytes_of_thread(const pthread_attr_t *attributes) {
  pthread_attr_t usual;
  size_t size = 0, guard = 0;
  if (!attributes && !pthread_attr_init(&usual)) attributes = &usual;
  if (!attributes || pthread_attr_getstacksize(attributes, &size) || pthread_attr_getguardsize(attributes, &guard)) return 0;
  return size > guard + 2 * PAGE ? size - guard - 2 * PAGE : 0;
}

// A function that a program calls: what it hands on has to be there until the thread has begun, and no heap may change.
int pthread_create(pthread_t *thread, const pthread_attr_t *attributes, void *(*function)(void *), void *word) {
  static int (*create)(pthread_t *, const pthread_attr_t *, void *(*)(void *), void *);
  struct start *start = starts;
  if (!create) create = (__typeof__(create))dlsym(RTLD_NEXT, "pthread_create");
  if (!create) return EAGAIN;
  while (start < starts + STARTS && __atomic_exchange_n(&start->is_taken, 1, __ATOMIC_ACQUIRE)) start++;
  if (start == starts + STARTS) return create(thread, attributes, function, word);
  start->function = function, start->word = word, start->size = bytes_of_thread(attributes);
  int refused = create(thread, attributes, begin_thread, start);
  if (refused) __atomic_store_n(&start->is_taken, 0, __ATOMIC_RELEASE);
  return refused;
}

// ---- a stack

static inline int is_kept(const struct kept_rule *kept, uint64_t key, uint64_t *word) {
  *word = __atomic_load_n(&kept->rule, __ATOMIC_RELAXED);
  return (__atomic_load_n(&kept->key, __ATOMIC_RELAXED) ^ *word) == key;
}

// The rule of an address stands at one of two places.
static __attribute__((noinline)) uint64_t other_rule(struct kept_rule *kept, uintptr_t address, uint64_t key) {
  struct kept_rule *other = &stacks->rule[(kept - stacks->rule) ^ 1];
  uint64_t word;
  if (is_kept(other, key, &word)) return word;
  struct rule rule = find_rule(address);
  memcpy(&word, &rule, sizeof word);
  if (__atomic_load_n(&kept->key, __ATOMIC_RELAXED)) kept = other;
  __atomic_store_n(&kept->rule, word, __ATOMIC_RELAXED), __atomic_store_n(&kept->key, word ^ key, __ATOMIC_RELAXED);
  return word;
}

static inline struct rule rule_of(uintptr_t address) {
  struct kept_rule *kept = &stacks->rule[(address ^ image << 40) * 0x9E3779B97F4A7C15ULL >> 48];
  uint64_t word, key = address ^ image << 48;
  struct rule rule;
  if (__builtin_expect(!is_kept(kept, key, &word), 0)) word = other_rule(kept, address, key);
  memcpy(&rule, &word, sizeof rule);
  return rule;
}

// Whether the first thread's stack goes on down to a page: a program may have another stack below it, with nothing between.
static __attribute__((noinline, cold)) int goes_down_to(uintptr_t page) {
  static unsigned char pages[(1 << 27) / PAGE];
  int error = errno, is_whole = !sealed && !mincore((void *)page, lowest - page, pages);
  if (is_whole) lowest = page;
  return errno = error, is_whole;
}

// Up to where the stack may be read that has a word at AT: the first thread's to its begin, that of another thread to what
// the thread is known by. A program may change to stacks of its own, with anything beside them: of these no more than the
// page is sure.
static inline uintptr_t end_of(uintptr_t at) {
  uintptr_t last = (uintptr_t)__libc_stack_end, own = (uintptr_t)pthread_self();
  const struct thread *thread = thread_of(own);
  if (last - at <= deepest && (at >= lowest || goes_down_to(at & -PAGE))) return last;
  if (thread->own == own && at - thread->low < own - thread->low) return own;
  return at | (PAGE - 1);
}

// A call: its address, where the stack ended before it, the caller's rbp; where that and the end come from, if from memory; whether a call
// outwards of it is found by that rbp, and whether the caller's own caller has the same.
struct call { uintptr_t address, sp, bp; const uintptr_t *saved, *base; uint64_t hash; int uses, keeps; };

// Goes on to what a call was made from. Whether that is known.
static inline __attribute__((always_inline)) int go_up(struct call *call, struct call *outer, uintptr_t end) {
  struct rule rule = rule_of(call->address);
  call->uses = rule.base >= BY_BP, call->keeps = rule.keeps;
  uintptr_t sp = call->sp, bp = call->bp, caller = (rule.base == BY_SP ? sp : bp) + rule.offset, saved = bp;
  const uintptr_t *base = NULL, *from = NULL;
  if (rule.base == AT_BP) {
    if (caller < sp || caller > end || caller & 7) return 0;
    base = (const uintptr_t *)caller, caller = *base;
    if ((uintptr_t)base >= caller) return 0;
  } else {
    saved = caller + rule.saved;
  }
  if (rule.base == NOWHERE || caller < sp + 8 || caller > end || caller & 7) return 0;
  if (!rule.keeps) {
    if (saved < sp || saved >= caller || saved & 7) return 0;
    from = (const uintptr_t *)saved, bp = *from;
  }
  uintptr_t address = ((uintptr_t *)caller)[-1] - 1;
  outer->address = address, outer->sp = caller, outer->bp = bp, outer->saved = from, outer->base = base;
  return address >= PAGE;
}

static inline uint64_t mixed(uint64_t hash, uintptr_t address) {
  hash = (hash ^ address) * 0x9E3779B97F4A7C15ULL;
  return hash ^ hash >> 29;
}

// The first words of the stacks, as many as this process has mapped: an address space may be small.
static struct words { uint64_t *at, number; } words;

// The same with at least so many, where the process may; where it was mapped before it stays, for other threads.
static int reach_words(uint64_t number) {
  struct words more = {words.at, words.number};
  while (more.number < number) more.number *= 2;
  if (more.number == words.number) return 1;
  int error = errno;
  more.at = sealed ? MAP_FAILED : mremap(words.at, 0, more.number * 8, MREMAP_MAYMOVE);
  errno = error;
  if (more.at == MAP_FAILED) return 0;
  __atomic_store_n(&words.at, more.at, __ATOMIC_RELEASE);
  __atomic_store_n(&words.number, more.number, __ATOMIC_RELEASE);
  return 1;
}

// Keeps a stack of these addresses, or of these calls, which are the other way round.
static __attribute__((noinline, cold)) void keep_stack(struct kept_stack *place, const uintptr_t *addresses, const struct call *calls, int number) {
  uint64_t at = __atomic_fetch_add(&stacks->used, number + 1, __ATOMIC_RELAXED);
  if (at + number + 1 > STACK_WORDS || !reach_words(at + number + 1)) return;
  uint64_t *to = __atomic_load_n(&words.at, __ATOMIC_ACQUIRE) + at;
  *to = image << 32 | number;
  for (int i = 0; i < number; i++) to[1 + i] = addresses ? addresses[i] : calls[number - 1 - i].address;
  __atomic_store_n(&place->at, at + 1, __ATOMIC_RELEASE);
}

static uint64_t number_of(uint64_t hash, const uintptr_t *addresses, const struct call *calls, int number) {
  hash |= 1;
  for (uint64_t at = hash >> 44, tries = 0; tries < 64; tries++, at = (at + 1) & (STACKS_MOST - 1)) {
    struct kept_stack *place = &stacks->place[at];
    uint64_t there = __atomic_load_n(&place->hash, __ATOMIC_RELAXED);
    if (!there && __atomic_compare_exchange_n(&place->hash, &there, hash, 0, __ATOMIC_RELAXED, __ATOMIC_RELAXED))
      return keep_stack(place, addresses, calls, number), at + 1;
    if (there == hash) return at + 1;
  }
  return 0;
}

// A stack as it is, its outermost calls left out where it is too deep.
static __attribute__((noinline)) uint64_t stack_alone(struct call call, uintptr_t end) {
  uintptr_t addresses[DEEP];
  uint64_t hash = image;
  int number = 0;
  do addresses[number++] = call.address; while (number < DEEP && go_up(&call, &call, end));
  for (int i = number; i--;) hash = mixed(hash, addresses[i]);
  return number_of(hash, addresses, NULL, number);
}

// What a thread had, and others that have its place; what is held, by one of them or by what a signal interrupted, is not taken.
//
// The calls of a stack, the outermost first. Most of them are those of the next stack: from a call that is the same, with the same end of the
// stack, and the same rbp where one is found by that, all others are, if each word that they came from is.
//
// And stacks that were seen, each by its first call: it is the same if each of these words is. After one there comes mostly the one that
// came after it before; else it is searched among those with the same place.
enum { LASTS = 64, PLACES = 32, WAYS = 8, WORDS = 56 };
struct word { const uintptr_t *at; uintptr_t is; };
struct seen { uintptr_t address, sp, bp, high; uint64_t found; int uses, number; struct seen *next; struct word words[WORDS]; } __attribute__((aligned(64)));  // an odd number of lines of a cache
static struct last {
  int is_held, turn, number;
  struct seen *seen, places[PLACES][WAYS];
  struct call calls[DEEP], fresh[DEEP + 1];
} lasts[LASTS];

static inline int was_held(struct last *last) {
  volatile int *is_held = &last->is_held;
  if (!__libc_single_threaded) return __atomic_exchange_n(is_held, 1, __ATOMIC_ACQUIRE);
  return *is_held || !(*is_held = 1);
}

static inline int is_as_it_was(const struct call *call) {
  if (((const uintptr_t *)call->sp)[-1] != call->address + 1) return 0;
  return !((call->uses && call->saved && *call->saved != call->bp) || (call->base && *call->base != call->sp));
}

// Keeps a call as the next one inwards of others. (By words: what was just stored as such is not there yet for a larger load.)
static inline void keep_call(volatile struct call *to, const volatile struct call *from, int has_outer) {
  const volatile struct call *outer = to - has_outer;
  to->address = from->address, to->sp = from->sp, to->bp = from->bp, to->saved = from->saved, to->base = from->base;
  to->hash = mixed(has_outer ? outer->hash : image, from->address);
  to->uses = from->uses || (from->keeps && has_outer && outer->uses);
}

// Whether a call is one of the last stack's, with all outwards of it, up to the end; leaves none that are inwards of it.
static inline int is_kept_call(struct last *last, const struct call *call, uintptr_t end) {
  while (last->number && last->calls[last->number - 1].sp < call->sp) last->number--;
  struct call *other = &last->calls[last->number - 1];
  if (!last->number || last->calls->sp > end || other->sp != call->sp || other->address != call->address || (other->uses && other->bp != call->bp)) return 0;
  while (other > last->calls)
    if (!is_as_it_was(--other)) return 0;
  other = &last->calls[last->number - 1];
  other->bp = call->bp, other->saved = call->saved, other->base = call->base;
  return 1;
}

// Walks a stack from its first call on, up to what is known: how many calls it has then, its outermost left out where it is too deep.
static __attribute__((noinline)) int walk(struct last *last, uintptr_t end) {
  int number = 0, is_known;
  struct call *fresh = last->fresh;
  while (!(is_known = is_kept_call(last, &fresh[number], end)) && ++number < DEEP && go_up(&fresh[number - 1], &fresh[number], end)) ;
  if (!is_known) last->number = 0;
  else if (last->number + number > DEEP)
    for (last->number = 0; number < DEEP && go_up(&fresh[number - 1], &fresh[number], end);) number++;
  for (; number; last->number++) keep_call(&last->calls[last->number], &fresh[--number], last->number > 0);
  number = last->number;
  if (number == DEEP) last->number = 0;
  return number;
}

static inline int is_seen(const struct seen *seen, const struct call *first, uintptr_t end) {
  if (seen->address != first->address || seen->sp != first->sp || seen->high > end || (seen->uses && seen->bp != first->bp)) return 0;
  for (const struct word *word = seen->words; word < seen->words + seen->number; word++)
    if (*word->at != word->is) return 0;
  return 1;
}

// Notes what a stack rests on.
static inline void see(struct seen *seen, const struct call *calls, int number) {
  const struct call *first = &calls[number - 1];
  struct word *word = seen->words;
  seen->address = 0, seen->high = -1;
  for (const struct call *call = first; call >= calls; call--) {
    if (word > seen->words + WORDS - 3) return;
    if (call < first) *word++ = (struct word){(const uintptr_t *)call->sp - 1, call->address + 1};
    if (call->uses && call->saved) *word++ = (struct word){call->saved, call->bp};
    if (call->base) *word++ = (struct word){call->base, call->sp};
  }
  seen->sp = first->sp, seen->bp = first->bp, seen->high = number > 1 ? calls->sp : 1;
  seen->uses = first->uses, seen->number = word - seen->words;
  if (number < DEEP) seen->address = first->address;
}

static __attribute__((noinline)) struct seen *search(struct last *last, const struct call *first, uintptr_t end) {
  struct seen *place = last->places[(first->address ^ first->sp << 3) * 0x9E3779B97F4A7C15ULL >> 59];
  for (struct seen *seen = place; seen < place + WAYS; seen++)
    if (is_seen(seen, first, end)) return seen;
  struct seen *seen = &place[last->turn++ & (WAYS - 1)];
  // the reader knows by this what the program takes itself
  uint64_t more = (seen->high ? 0 : sizeof *seen) + (last->seen ? 0 : sizeof last->calls + sizeof last->fresh);
  if (more) __atomic_fetch_add(&stacks->own, more, __ATOMIC_RELAXED);
  last->fresh[0] = *first;
  int number = walk(last, end);
  see(seen, last->calls, number);
  seen->found = number_of(last->calls[number - 1].hash, NULL, last->calls, number);
  return seen;
}

// The number of the stack above a function whose frame pointer this is; 0 where there is none, or no room for it.
static __attribute__((noinline)) uint64_t stack_of(const uintptr_t *frame) {
  if (!stacks || frame[1] <= PAGE) return 0;
  struct call first = {.address = frame[1] - 1, .sp = (uintptr_t)(frame + 2), .bp = frame[0]};
  uintptr_t end = end_of((uintptr_t)&frame[1]) - 8;
  struct last *last = &lasts[(uintptr_t)pthread_self() * 0x9E3779B97F4A7C15ULL >> 58];
  if (__builtin_expect(was_held(last), 0)) return stack_alone(first, end);
  struct seen **next = last->seen ? &last->seen->next : &last->seen, *seen = *next;
  if (!seen || !is_seen(seen, &first, end)) seen = *next = search(last, &first, end);
  last->seen = seen;
  uint64_t found = seen->found;
  __atomic_store_n(&last->is_held, 0, __ATOMIC_RELEASE);
  return found;
}

static void begin_stacks(int opened, uint64_t offset) {
  enum { FIRST_WORDS = 1 << 19 };
  struct rlimit limit;
  deepest = 1 << 27;
  if (!getrlimit(RLIMIT_STACK, &limit) && limit.rlim_cur < deepest) deepest = limit.rlim_cur;
  if (stacks || !offset) return;
  size_t bytes = offsetof(struct stacks, words), more = FIRST_WORDS * 8;
  void *all = mmap(NULL, bytes, PROT_READ | PROT_WRITE, MAP_SHARED | MAP_NORESERVE, opened, offset);
  void *first = mmap(NULL, more, PROT_READ | PROT_WRITE, MAP_SHARED | MAP_NORESERVE, opened, offset + bytes);
  if (first == MAP_FAILED || all == MAP_FAILED) {
    if (all != MAP_FAILED) munmap(all, bytes);
    return;
  }
  madvise(all, bytes, MADV_DONTDUMP), madvise(first, more, MADV_DONTDUMP);
  words.at = first, words.number = FIRST_WORDS, lowest = (uintptr_t)__builtin_frame_address(0) & -PAGE;
  if (readlink("/proc/self/exe", program_path, sizeof program_path - 1) < 0) *program_path = 0;
  image = __atomic_add_fetch(&((struct stacks *)all)->images, 1, __ATOMIC_RELAXED) & 0xFFFFFFFF, stacks = all;
}
