// The stream of a run: what the preloaded library appends, and follow.c follows from outside the program.
//
// The file: a table of rings, and then their records. A process takes a ring at its start, and a forked child one of its own at its first
// call; a record is 8 bytes. The reader makes records 0 behind itself, and gives the ring of a process that has ended to the next.
#ifndef STREAM_H
#define STREAM_H
#include <limits.h>
#include <linux/futex.h>
#include <stdint.h>
#include <stdlib.h>
#include <sys/syscall.h>
#include <unistd.h>
#include "formats.h"

enum { RINGS = 1024, LARGE = LARGEST_SIZE + 1, COUNTERS = LARGE + 1, SIZE_BITS = 14, ADDRESS = 18, NAME = 1024 };
// Of a record: 4 bits of kind, 14 of size (LARGE: a record SIZE follows), and the address by 8. A request without an address failed.
// A realloc is MOVES with the old address before it, and after it REALLOC with the new one, and OLD.
// With stacks, STACK with the number of the stack comes last of a request and of MOVES.
enum { MALLOC = 1, CALLOC, ALIGNED, FREE, MOVES, REALLOC, OLD, SIZE, STACK, NOTHING };
#ifdef STACKS
#define WITH_STACKS(...) __VA_ARGS__
enum { HAS_STACKS = 1 };
#else
#define WITH_STACKS(...)
enum { HAS_STACKS = 0 };
#endif
// A ring has lanes: each thread that finds one has one of its own, in which its calls stand in their order, and all
// others share the last. Of each STRIDE records the words after the ring have the turn in which the first came.
enum { OWN_LANES = 8, LANES, LANE = 1 << (HAS_STACKS ? 16 : 14), STRIDE = 32, RING = LANES * LANE };
enum { WHOLE_PAGES = 1 << 13, WORDS_OF_RING = (RING + RING / STRIDE + WHOLE_PAGES - 1) & -WHOLE_PAGES };  // of the largest pages
struct lane {
  uint64_t next __attribute__((aligned(64)));  // the next index: one addition for each event
  uint64_t owner;                              // the thread, 0 where there is none
  uint64_t room;                               // up to where there was room when the thread last looked
  uint64_t turn;                               // of its last stride
  uint64_t read __attribute__((aligned(64)));  // what is before it was read, and is 0 again
  uint64_t waits;                              // whether a thread sleeps until the reader goes on
};
// Where requests are but counted, a ring has no records but areas, with a counter for each size and the thread that
// adds there; the last is for all that find none. `areas` has a bit for each area that is used.
enum { AREA = 1 << SIZE_BITS, AREAS = 32, OWNER = AREA - 1, COUNTING_RING = AREAS * AREA };
// why a process has no ring
enum { NO_RING, NO_MEMORY, NO_FILE, SEALED, NO_ROOM, REASONS };

struct ring {
  uint64_t turns __attribute__((aligned(64)));  // how often a thread began a stride of its lane
  struct lane lanes[LANES];
  uint64_t start, process;                     // 0 or its turn; the process, 0 where the ring is free
  uint64_t areas;                              // where requests are but counted
  uint64_t overrun;                            // whether the reader was too slow: nothing follows
  uint64_t executed;                           // 0, or where the process began to run another program in its own place: 1, and what
                                               // note_unfollowed says of one that is not followed
  uint64_t marked;                             // and 0, or 1 more than its progress where this holds only if that is as it was
  char name[24];                               // of the program
};
// A program that is not followed, with the reason of loadable.h, and how often it was run.
enum { UNFOLLOWED = 16 };
struct unfollowed { uint64_t key, why, number; char name[40]; };
struct stream {
  uint64_t form, reader, found; // the reader's process, and its descriptor of what it found
  uint64_t space;               // the reader's namespace of processes
  uint64_t number, turn;        // how many rings there are, and how many were taken
  uint64_t closed;              // whether nobody reads on
  struct robust_list life;      // by which the kernel marks the next word when the reader ends, whatever ends it
  uint32_t alive;               // the reader's process
  uint64_t refused[REASONS];    // how many processes have no ring
  uint64_t untouched;           // how many processes have an allocator that can't be followed
  uint64_t foreign;             // how many have another one than glibc's that is followed
  char allocator[NAME];         // the file that has the allocator of the last process that has another one
  uint64_t filters;             // of system calls that the reader is under
  uint64_t more_unfollowed;     // programs that are not followed, and have no place here
  struct unfollowed unfollowed[UNFOLLOWED];
  uint64_t stacks;              // where the stacks are in the file, 0 where none are wanted
  struct ring rings[RINGS];
};

// The stacks of all processes, after the rings: addresses of calls, the innermost first, and the objects that these are in. The images tell
// apart the layouts of different programs.
enum { PAGE = 4096, LARGEST_PAGE = 65536 };
enum { STACKS_MOST = 1 << 20, STACK_WORDS = 1 << 25, MODULES = 1024, DEEP = 128 };
// A key is the image and the address, exclusive-or the rule, so that no half of one is taken.
struct kept_rule { uint64_t key, rule; };
struct kept_stack { uint64_t hash, at; };  // the place of its first word, from 1, of which 0 means that there was no room
struct module { uint64_t image, low, high, bias; char name[480]; };
struct stacks {
  uint64_t used, images, modules, own;  // how many words, layouts and objects; the bytes that processes have of their own for it
  struct module module[MODULES];
  struct kept_rule rule[1 << 16];  // of addresses: where the caller's frame is
  struct kept_stack place[STACKS_MOST];
  uint64_t words[STACK_WORDS] __attribute__((aligned(LARGEST_PAGE)));  // of a stack: the image and how many addresses, and these
};
static inline int is_reader_gone(const struct stream *stream) {
  uint32_t word = __atomic_load_n(&stream->alive, __ATOMIC_ACQUIRE);
  return !(word & FUTEX_TID_MASK) || word & FUTEX_OWNER_DIED;
}

// What has another value once a ring went on: how many records it had, or what its counters add up to.
static inline uint64_t progress_of(const struct ring *ring, const uint64_t *counters) {
  uint64_t sum = 0;
  for (uint64_t i = 0; counters && i < COUNTING_RING; i++) sum += ring->areas >> i / AREA & 1 ? counters[i] : 0;
  for (int l = 0; !counters && l < LANES; l++) sum += ring->lanes[l].next;
  return sum;
}

// the lower half of a lane's `read`, at which threads sleep
static inline uint32_t *low_word(uint64_t *word) { return (uint32_t *)word + (__BYTE_ORDER__ == __ORDER_BIG_ENDIAN__); }

// the namespace of this process, 0 where it can't be seen
static inline uint64_t own_space(void) {
  char text[64] = "";
  return readlink("/proc/self/ns/pid", text, sizeof text - 1) > 5 ? strtoull(text + 5, NULL, 10) : 0;
}

static const uint64_t FORM = 0x334D4145525453;
enum { HEAD = (sizeof(struct stream) + LARGEST_PAGE - 1) & -LARGEST_PAGE };
#endif
