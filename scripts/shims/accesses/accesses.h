// The runtime of the programs that scripts/traced_cc builds. It gives out blocks, sees loads and stores, and logs both. scripts/find_faults
// reads the log.
//
//   blocks.c   the allocator: no address is given out again for long, so it has one owner: a block, live or freed, or its gap
//   shadow.c   what the compiler's own check before each load and store reads
//   hooks.c    what this check calls where it doesn't know the access
//   poison.c   the bytes that a program poisons by AddressSanitizer's interface
//   interface.c  the rest of that interface
//   unfreed.c  the blocks that are lost at the end
//   libc.c     functions of libc that load and store, and call no hook; functions.h and functions.c those that are called as they are
//   log.c      the log; the start, the end and the forks of a process
//   stacks.c   stacks of return addresses, and the modules that they lie in
//   crash.c    the signals that end a program
//   tell.c     the line on standard error for what is wrong, as soon as it comes
//
// ACCESSES=FILE       the log; %p in it stands for the number of the process. Without it nothing is logged.
// ACCESSES_ONLY=NAME  only a process whose program has this name makes a log.
// ACCESSES_HALT=1     a process that makes a log ends at its first error.
#pragma once
#ifndef _GNU_SOURCE
#define _GNU_SOURCE
#endif
#ifndef __NO_INLINE__
#define __NO_INLINE__ 1  // else the headers define some of the functions that libc.c has
#endif
#include "../process_text.h"
#include <pthread.h>
#include <stddef.h>
#include <stdlib.h>
#include <sys/mman.h>

typedef uintptr_t address;
typedef uint64_t __attribute__((may_alias, aligned(1))) word;
#define SHOWN __attribute__((visibility("default")))
#define NOT_INLINE __attribute__((noinline))

// A terabyte of addresses is set aside, with tables that have an entry for each granule of 16 bytes.
#define ARENA ((address)1 << 45)  // a multiple of its size
#define ARENA_SIZE ((address)1 << 40)
#define OWNERS ((uint32_t *)(ARENA + 2 * ARENA_SIZE))
#define KNOWN(store) ((unsigned char *)(ARENA + (3 + (store)) * ARENA_SIZE))  // see is_known
#define BLOCKS ((struct block *)(ARENA + 5 * ARENA_SIZE))
#define MOST_BLOCKS ((address)1 << 28)
#define CHUNK ((address)1 << 20)  // memory is taken and goes back by chunks

// The shadow: each eight bytes of the address space have a byte. The compiler's check goes on where it is 0, or greater than the place of
// the access's last byte in the eight; else it calls a hook. The shadow is 0 outside the arena. In the arena it is closed, but for the
// granules of live blocks of which the log has a load and a store, or wants none. traced_cc tells the compiler where it is.
#define SHADOW_OFFSET ((address)0x7fff8000)
#define SHADOW(a) ((unsigned char *)((a) / 8 + SHADOW_OFFSET))
enum { CLOSED = 0xFF };

// A block is dropped once the log has nothing of it any more. Then its number is unused, until it is another block's.
enum state { UNUSED, LIVE, FREED, DROPPED };
// What made a block, which the same kind of function has to free; realloc is one of MALLOC's.
enum maker { MALLOC, NEW, NEW_ARRAY, REALLOC };
struct block {
  address start;
  size_t size;  // of an unused number: the next one
  uint8_t state, maker, has_error : 1, has_request : 1, has_end : 1;  // the last two are records
  uint32_t chunk;
};

struct stack;
// where the program calls: the address that the call returns to, and the frame of the function that calls
struct caller { address pc, *frame; };
#define CALLER ((struct caller){(address)__builtin_return_address(0), *(address **)__builtin_frame_address(0)})

extern pthread_mutex_t accesses_lock;
extern __thread int busy __attribute__((tls_model("initial-exec")));  // above 0 where the thread is in the runtime

static inline void enter(void) {
  busy++;
  pthread_mutex_lock(&accesses_lock);
}

// what is wrong is told once the lock is free
extern __thread int has_to_tell __attribute__((tls_model("initial-exec")));
void tell(void);
static inline void leave(void) {
  pthread_mutex_unlock(&accesses_lock);
  busy--;
  if (__builtin_expect(has_to_tell, 0)) tell();
}

static inline int is_in_arena(address a) { return a / ARENA_SIZE == ARENA / ARENA_SIZE; }
static inline address round_up(address a, address to) { return (a + to - 1) & -to; }

// blocks.c
void begin(void);
void *reserve(address at, size_t size, int mode, int how);
uint32_t number_of_blocks(void);  // the highest number
extern unsigned long requests;   // of the program
extern int has_unrecorded;       // whether some have no record
int drop_block(uint32_t number);  // whether no error can name it any more, nor has
void end_drop(int is_done);       // all that were dropped are unused, or were not dropped
int is_asked(void);  // whether the program's requests come to this malloc
struct block *owner(address);
int was_given_out(address);
void *request(char kind, size_t size, size_t alignment, struct caller);

// shadow.c: of whole chunks, or of any multiple of 8 bytes
void begin_shadow(void);
int begin_chunks(address from, address to);
void close_shadow(address from, address to);
void open_shadow(address from, size_t size);
void open_block(address from, size_t size);
void close_block(address from, size_t size);
int is_open(address from, size_t size);

// poison.c
extern int has_poison;  // whether the program ever poisoned bytes
address first_poisoned(address from, size_t size);  // of these bytes; 0 where none is
void forget_poison(address from, size_t size);

// hooks.c
int logs_right(void);
int is_right(address, size_t);
void touch_slowly(address, size_t, int store, struct caller);
void forget_accesses(void);  // what the thread remembers of its last ones, which are addresses of blocks
void see_overlap(address to, address from, size_t, struct caller);
void see_mismatch(const struct block *, enum maker used, struct caller, const struct stack *);
void report_access(address, size_t, int store, struct caller);

#define MOST_BYTES ((size_t)PTRDIFF_MAX)  // no object has more: a greater size is a wrong one

// Most accesses are outside the arena, or inside a granule of a live block of which the log has such an access already, or wants none: the
// table for loads or stores has the number of bytes of the granule that are the block's then, else 0.
static inline __attribute__((always_inline)) int is_known(address a, size_t size, int store) {
  if (!is_in_arena(a)) return !has_poison;
  return size <= 16 && a % 16 + size <= *(KNOWN(store) - ARENA / 16 + a / 16);
}

// libc.c: gcc and clang would make a loop over bytes a call of memcpy and memset, which are the program's
void copy_bytes(void *to, const void *from, size_t);
void fill_bytes(void *to, int byte, size_t);

// The same for the bytes that tables have of a block. What is after them, in the gap after the block, becomes `after`, at most eight bytes.
static inline void fill_table(unsigned char *to, int byte, size_t size, int after) {
  const uint64_t ones = 0x0101010101010101u;
  for (; size >= 8; size -= 8, to += 8) *(word *)to = byte * ones;
  uint64_t mask = ((uint64_t)1 << 8 * size) - 1;
  *(word *)to = (byte * ones & mask) | (after * ones & ~mask);
}

// log.c: all but the last of a record's parts is followed by more. Of a record's numbers there are at most three.
int has_log(void);     // racy where the lock is not held
int is_logging(void);  // wants the lock, as all below
int has_room(void);    // for what is wrong: some of it has room where the log can't grow
void put_missing(struct block *);  // after the end of the log: what it lacks of a block that an error names
void put_numbers(char kind, int count, const long *numbers);
#define put_record(kind, count, ...) put_numbers(kind, count, (const long[]){__VA_ARGS__})
void put_text(const char *);
void put_number(unsigned long value, unsigned base);
void put_end(void);
void drop_begun(void);
long number_of_wrong(void);
void take_back(long number);
enum { NO_STATUS = -1, CRASHED = -2, HALTS = -3 };
extern int is_halting;  // the first error ends the program
void halt(void);
void end_without_room(void);
void end_log(int status);  // of the program, or one of these
extern long not_logged;

// hooks.c: how often the wrong accesses came; and what waited for the next access
void put_times(void);
void tell_guess(void);

// stacks.c
enum { FRAMES = 16 };
struct stack { int count; address pcs[FRAMES]; };  // the innermost first
struct module { address low, high, offset; const char *path; };
void walk(struct caller, address below, struct stack *);
void unwind(struct caller, struct stack *);
void put_frames(const struct stack *);
void put_stack(struct caller, struct stack *);  // by the frames where it is still empty
void unwind_request(struct caller, struct stack *);
const struct module *module_of(address pc);
void learn_modules(void);

// unfreed.c
void put_lost(address stack);

// crash.c
void watch_for_crashes(void);
void watch_thread(void);

// interface.c
extern __thread int is_unwatched __attribute__((tls_model("initial-exec")));  // above 0 where leaks are passed over

// tell.c: what is wrong, by the letter of its record. It is told at the next `leave`
struct wrong { char letter; int is_freed; long number, offset, size, block_size, signal; address at; struct stack stack; };
void will_tell(const struct wrong *);
extern pthread_mutex_t tell_lock;
extern struct wrong last_told;
extern void (*report_callback)(const char *);
void tell_line(const char *);
void describe(address);
void print_stack(struct caller);
