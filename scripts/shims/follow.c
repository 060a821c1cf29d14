// Follows the stream of a program (stream.c), and writes what is wanted of it. scripts/profile_program and trace_program build and run it.
//
//   follow FOUND LIBRARIES WANTED ONLY TABLES STREAM PATH WORD..
//
// FOUND is a descriptor: a page of notes, and then the texts that they give the lengths of. LIBRARIES are those of the program's
// LD_PRELOAD, stream.c's first. WANTED is `all`: all requests of all processes; `counts`: the same, of counts.c; or of the first process, with
// what it runs in its own place: `live`, the blocks live at the peak; `history N`, these and N snapshots; `timeline`, the record of the run,
// and `timeline blocks`, with that of blocks.h; `windows N AT..`, its moments, N windows and those after AT events, a history of the windows'
// most after that, and AT of each moment; `classes`, its moments for the classes of TABLES alone, class lines with a comma between them;
// `trace N`, at most N events. With `-` before it a realloc leaves a block where Scudo does. `none`: nothing is followed, and only the most
// resident memory is noted. ONLY: processes whose program has this name. PATH is the program's file, the words its own.
// Without a program the stream is the file STREAM, of processes that something else starts; or for `-` it is the timeline, of any length, on
// standard input.
//
// The texts are written when the program ends, or at SIGTERM where there is none; and meanwhile at SIGUSR1. Where nothing can be recorded
// the program runs on, and the notes say why.
#define _GNU_SOURCE
#include <dirent.h>
#include <stddef.h>
#include <signal.h>
#include <sys/resource.h>
#include <sys/wait.h>
#include <time.h>
#include "kept.h"
#include "loadable.h"
#include "timeline_text.h"
#include "traced.h"

enum { PATIENCE = 2000, WHILE_FULL = 500, ABOUT_TO_END = 200, SECOND = 1000 };  // milliseconds
enum { SAMPLES = 20, LOOKS = 10, LEFT = 32, NAMED = 16, LOOKED_AT = 8 };       // milliseconds, samples, processes
enum { PROFILE, WANTED, MOMENTS, UPPER, SITES, BLOCKS, TEXTS };  // the texts: of MOMENTS are the numbers; sites.h has SITES, blocks.h BLOCKS
// mte_scripts/recording/notes.py reads it
static struct notes {
  uint64_t version;                            // how often the texts were written; 0 while there are none
  uint64_t bytes[TEXTS];
  uint64_t status, error;                      // the program's, as a shell has it; why it could not be run
  uint64_t started, executed;                  // whether there is a process that is followed; how many ran another program at last, unseen
  uint64_t requests, live;                     // of all that are counted; the bytes that are live
  uint64_t large, resident;                    // the most bytes live above LARGEST_SIZE; the most resident memory, less the stream's
  uint64_t others, other_requests;             // processes that are not followed, and their requests
  uint64_t untouched, foreign, refused[REASONS];
  uint64_t lost, wrong, spoiled, gaps;         // calls without a record; frees of no block; whether the stream was overwritten, has gaps
  uint64_t events, snapshots, is_cut;          // of a timeline, and whether it became a history; of a trace, and whether it is cut
  uint64_t variables, shared;                  // of a trace: blocks with a variable of their own and without
  uint64_t left, processes[LEFT];              // those that run on; as many of them as there is room for
  int64_t taken[TABLES];                       // the bytes that each table of TABLES takes over the run
  char why[128];                               // why nothing is followed
  char allocator[NAME] __attribute__((aligned(NAME)));
  struct named { char name[24]; uint64_t processes, requests, resident; } named[NAMED];  // the programs of the processes
  char followed[24];                           // that of the process that is followed
  struct unfollowed unfollowed[UNFOLLOWED];    // the programs that are not
  uint64_t more_unfollowed, instead;           // others; the one that the first process ran at last, by its place from 1 on, or 0
} *notes;
_Static_assert(sizeof(struct notes) <= PAGE, "the notes are one page");

static struct stream *stream;
WITH_STACKS(static struct stacks *stacks;)
static uint64_t number_of_rings, words_of_ring = WORDS_OF_RING;
static int found, opened = -1;
static struct reading {
  uint64_t *records, start, requests;
  // up to where a lane was read, given back, and written; since when a record is not there; whether it waits for others
  struct place { uint64_t read, freed, whole, since; int waits; } lanes[LANES];
  int is_named, is_main, is_counted, is_over, is_forced;
} readings[RINGS];
static int64_t all[COUNTERS];
static const char *only, *wanted;
static int is_all, is_counting;    // whether all processes count; whether they do so themselves (counts.c)
static pid_t child, main_process;  // the program; the process that is followed, 0 where there is none yet, and -1 where it has ended
static int has_ended, looks;       // whether it has; samples since processes were looked for that nobody waits for
static volatile sig_atomic_t asked, ends;

static void wait_for_program(int how);

static void give_up(const char *why) {
  if (stream) stream->closed = 1;
  snprintf(notes->why, sizeof notes->why, "%s", why);
  while (child > 0 && !has_ended) wait_for_program(0);
  exit(3);
}

static uint64_t now(void) {  // milliseconds
  struct timespec time;
  clock_gettime(CLOCK_MONOTONIC, &time);
  return time.tv_sec * 1000ULL + time.tv_nsec / 1000000;
}

// ---- the records

static uint32_t stack;  // of the request that is taken

// Whether a realloc leaves a block as it is: one to more bytes than there can be; and with Scudo one that fits in the block, and makes it
// larger, or smaller by less than a page. (Scudo also leaves it where a larger size has the same class, which does not show.)
static int stays(const struct block *block, uint64_t size) {
  int fits = size <= block->size && block->size - size < 1 << SIZE_BITS;
  if (size >> 46) return 1;
  return as_scudo && fits && (size + block->more >= block->size || block->size - block->more - size < PAGE);
}

static void go(uint64_t address) {
  struct block *block = block_of(address);
  if (!block->key) {
    notes->wrong++;
    if (most_traced) trace_wrong(address, NULL);
    return;
  }
  if (most_traced) trace_free(address, block->more);
  WITH_STACKS(sites.current = block->site;)
  event(block->size, -1);
  put_free(block->number);
  remove_block(block);
}

static void come(int kind, uint64_t address, uint64_t size) {
  if (address && block_of(address)->key) go(address), notes->lost++;  // the record of its free is missing
  int variable = most_traced ? trace_block(kind == CALLOC ? "calloc" : "malloc", address, size) : 0;
  if (!address) return;
  WITH_STACKS(sites.current = site_of(stack, counter_of(size));)
  put_block((struct block){address, size, variable, put_request(size, kind == CALLOC) WITH_STACKS(, sites.current, stack)});
  event(size, 1);
}

// a block begins to move
static void move(uint64_t address, uint64_t size) {
  struct block block = *block_of(address);
  if (!block.key) {
    notes->wrong++;
    if (most_traced) trace_wrong(address, &size);
    return;
  }
  WITH_STACKS(sites.current = block.site, block.stack = stack;)
  if (!stays(&block, size)) event(block.size, -1);
  remove_block(block_of(address));
  block.key |= MOVING;
  put_block(block);
}

// it is there, or where it was if it has no address
static void moved(uint64_t address, uint64_t old, uint64_t size) {
  struct block block = *block_of(old | MOVING);
  if (!block.key) {
    if (address) come(MALLOC, address, size);
    return;
  }
  remove_block(block_of(old | MOVING));
  int as_it_was = stays(&block, size) || !address;
  WITH_STACKS(if (!as_it_was) block.site = site_of(block.stack, counter_of(size));)
  WITH_STACKS(sites.current = block.site;)
  if (!as_it_was || !stays(&block, size)) event(as_it_was ? block.size : size, 1);
  if (most_traced) block.more = trace_moved(block.more, old, address, size);
  else if (address) block.more = as_it_was ? block.size - size : 0;
  if (address) put_call(RESIZED, block.number, size);
  put_block((struct block){address ? address : old, as_it_was ? block.size : size, block.more, block.number WITH_STACKS(, block.site, block.stack)});
}

// Whether a call comes after one of another thread that is not read yet: a block comes where one is live, or goes where
// none is.
static int is_early(int kind, uint64_t address) {
  int comes = (kind < FREE || kind == REALLOC) && address, goes = kind == FREE || kind == MOVES;
  int is_live = (comes || goes) && block_of(address)->key;
  return comes ? is_live : goes && !is_live;
}

// How many records the call at an index has, 0 where it is not whole yet, TOO_EARLY where it has to wait; does it.
enum { TOO_EARLY = -1 };
static int take(struct reading *reading, const uint64_t *records, uint64_t i, uint64_t end) {
#define AT(k) __atomic_load_n(&records[(k) & (LANE - 1)], __ATOMIC_ACQUIRE)
  uint64_t one = AT(i), address = one >> ADDRESS << 3, size = one >> 4 & ((1 << SIZE_BITS) - 1);
  int kind = one & 15, is_request = kind < FREE || kind == MOVES, has_size = kind < OLD && kind != FREE, is_large = size == LARGE && has_size;
  int has_stack = HAS_STACKS && is_request, number = 1 + (kind == REALLOC) + is_large + has_stack;
  if (!one || end - i < (uint64_t)number) return 0;
  if (kind == NOTHING) return 1;
  uint64_t last = AT(i + number - 1 - has_stack), whose = AT(i + number - 1);
  int is_whole = kind >= MALLOC && kind <= (HAS_STACKS ? STACK : SIZE);
  if (kind < SIZE) is_whole &= size <= (has_size ? LARGE : 0);
  if (is_large) is_whole &= (last & 15) == SIZE && last >> 4 >= LARGE;
  if (kind == REALLOC) is_whole &= (AT(i + 1) & 15) == OLD;
  if (has_stack) is_whole &= (whose & 15) == STACK && whose >> 4 <= STACKS_MOST, stack = whose >> 4;
  if (!is_whole) return notes->spoiled = 1, number;
  if (reading->is_main && !reading->is_forced && is_early(kind, address)) return TOO_EARLY;
  if (is_large) size = last >> 4;
  if (is_request) {
    reading->requests++;
    if (reading->is_counted) all[counter_of(size)]++, notes->requests++;
  }
  if (!has_size && kind != FREE) notes->lost++;  // the first record of a call that was left
  if (!reading->is_main) return number;
  if (kind < FREE) come(kind, address, size);
  else if (kind == FREE) go(address);
  else if (kind == MOVES) move(address, size);
  else if (kind == REALLOC) moved(address, AT(i + 1) >> ADDRESS << 3, size);
  return number;
}

// Does the record at an index, where it is of a small block that comes or goes and all of it is there, as of most: whether it did.
static inline int take_small(struct reading *reading, const uint64_t *records, uint64_t i) {
  uint64_t one = AT(i), address = one >> ADDRESS << 3, size = one >> 4 & ((1 << SIZE_BITS) - 1);
  int kind = one & 15, is_request = kind >= MALLOC && kind <= ALIGNED && address && size < LARGE;
  if (HAS_STACKS || (!is_request && (kind != FREE || size))) return 0;
  if (!reading->is_main) {
    reading->requests += is_request;
    if (is_request && reading->is_counted) all[size]++, notes->requests++;
    return 1;
  }
  struct block *block = block_of(address);
  if (most_traced || (is_request ? block->key || blocks.used * 2 > blocks.mask : !block->key || block->size >= LARGE)) return 0;
  if (is_request) {
    *block = (struct block){address, size, 0, put_request(size, kind == CALLOC)}, blocks.used++, reading->requests++;
    small_event(size, 1);
  } else {
    small_event(block->size, -1);
    put_free(block->number);
    remove_block(block);
  }
  return 1;
}

// ---- the rings

// What is noted of the programs with a name; nothing where there are too many.
static struct named *named_as(const char *name) {
  static struct named nowhere;
  for (struct named *each = notes->named; each < notes->named + NAMED; each++) {
    if (!*each->name) memcpy(each->name, name, sizeof each->name);
    if (!strncmp(each->name, name, sizeof each->name)) return each;
  }
  return &nowhere;
}

static void begin_ring(int k, uint64_t start) {
  struct ring *ring = &stream->rings[k];
  struct reading *reading = &readings[k];
  uint64_t *records = reading->records;
  if (!records) records = mmap(NULL, words_of_ring * 8, PROT_READ | PROT_WRITE, MAP_SHARED, opened, HEAD + k * words_of_ring * 8);
  if (records == MAP_FAILED) give_up("it has no memory");
  int is_named = !only || !strncmp(only, ring->name, sizeof ring->name - 1);
  *reading = (struct reading){.records = records, .start = start, .is_named = is_named, .is_counted = is_named && is_all};
  if (is_named) notes->started = 1;
  if (!is_all) named_as(ring->name)->processes++;
  if (!is_all && is_named && (!main_process || ring->process == (uint64_t)main_process)) {
    main_process = ring->process, reading->is_main = 1, notes->executed = 0, memcpy(notes->followed, ring->name, sizeof notes->followed);  // the ring before it was read to its end
    begin_kept(), trace.length = trace.events = trace.variables = trace.shared = trace.wrong = trace.has_ended = 0;
    memset(trace.addresses, 0, sizeof trace.addresses), memset(trace.freed, 0, sizeof trace.freed);
    notes->lost = notes->wrong = 0;
  }
}

// Gives back what was read of a lane; whoever waits goes on once most of it is free.
static void free_lane(struct ring *ring, struct reading *reading, int l) {
  struct lane *lane = &ring->lanes[l];
  struct place *place = &reading->lanes[l];
  uint64_t *records = reading->records + l * LANE, read = place->read;
  for (uint64_t j = place->freed; j < read;) {  // 0 again
    uint64_t at = j & (LANE - 1), many = read - j < LANE - at ? read - j : LANE - at;
    memset(records + at, 0, many * 8), j += many;
  }
  place->freed = read;
  __atomic_store_n(&lane->read, read, __ATOMIC_SEQ_CST);
  if (__atomic_load_n(&lane->next, __ATOMIC_SEQ_CST) - read > LANE / 4) return;
  if (!__atomic_exchange_n(&lane->waits, 0, __ATOMIC_SEQ_CST)) return;
  syscall(SYS_futex, low_word(&lane->read), FUTEX_WAKE, INT_MAX, NULL, NULL, 0);
}

// Reads a lane up to the next turn in it; how many records.
static uint64_t read_stride(struct reading *reading, int l) {
  struct place *place = &reading->lanes[l];
  const uint64_t *records = reading->records + l * LANE;
  uint64_t from = place->read, i = from, end = (from / STRIDE + 1) * STRIDE;
  if (end > place->whole) end = place->whole;
  for (uint64_t ahead = i + STRIDE; reading->is_main && ahead < i + 2 * STRIDE && ahead < place->whole; ahead++)
    __builtin_prefetch(&blocks.at[place_from(records[ahead & (LANE - 1)] >> ADDRESS << 3)]);
  while (i < end && !notes->spoiled) {
    int number = take_small(reading, records, i) ? 1 : take(reading, records, i, place->whole);
    if (number == TOO_EARLY) place->since = 0;
    if (number == TOO_EARLY) break;
    if (!number) {  // not there yet: the thread waits, or was ended, or jumped out of a handler
      uint64_t patience = place->whole - from > LANE / 2 ? WHILE_FULL : PATIENCE;
      if (!place->since) place->since = now();
      if (i > from || (now() - place->since < patience && !reading->is_over)) break;
      notes->lost += reading->is_main || reading->is_counted, number = 1;
    }
    i += number, place->since = 0, reading->is_forced = reading->is_forced > 1;
  }
  place->waits = i == from, place->read = i;
  return i - from;
}

// The turn of the next record of a lane; where it is not there yet, that of the one before. (A record comes after its turn.)
static uint64_t turn_of(const struct reading *reading, int l) {
  uint64_t at = reading->lanes[l].read;
  uint64_t is_there = __atomic_load_n(&reading->records[l * LANE + (at & (LANE - 1))], __ATOMIC_ACQUIRE);
  if (!is_there && !at--) return 0;
  return reading->records[RING + l * (LANE / STRIDE) + (at & (LANE - 1)) / STRIDE];
}

// The lane to read next, whose turn is the first; none where each is read, waits for another, or is later than this.
static int next_lane(const struct reading *reading, uint64_t latest) {
  int first = -1;
  for (int l = 0; l < LANES; l++) {
    const struct place *place = &reading->lanes[l];
    uint64_t turn = place->waits || place->read >= place->whole ? UINT64_MAX : turn_of(reading, l);
    if (turn <= latest && turn < UINT64_MAX) first = l, latest = turn;
  }
  return first;
}

// Looks how far each lane was written; how many are.
static int look_at_lanes(const struct ring *ring, struct reading *reading) {
  int used = 0;
  for (int l = 0; l < LANES; l++) {
    struct place *place = &reading->lanes[l];
    place->whole = __atomic_load_n(&ring->lanes[l].next, __ATOMIC_ACQUIRE), place->waits = 0, used += place->whole > 0;
    if (ring->lanes[l].read != place->freed || place->whole - place->read > 2 * LANE) notes->spoiled = 1;
  }
  return used;
}

// Reads what was there at a turn, in the order of the turns; how many records.
static uint64_t read_lanes(struct ring *ring, struct reading *reading) {
  uint64_t latest = __atomic_load_n(&ring->turns, __ATOMIC_ACQUIRE), more = 0;
  int used = look_at_lanes(ring, reading), l;
  if (used < 2) latest = UINT64_MAX;
  reading->is_forced = used < 2 ? 2 : 0;  // of one thread nothing has to wait
  while (more < 1 << 15 && !notes->spoiled && (l = next_lane(reading, latest)) >= 0) {
    uint64_t turn = turn_of(reading, l), number = read_stride(reading, l);
    more += number;
    if (reading->lanes[l].since && turn < latest) latest = turn;  // what is behind the missing record may be next
    for (int other = 0; number && used > 1 && other < LANES; other++) reading->lanes[other].waits = 0;
    if (reading->lanes[l].read - reading->lanes[l].freed >= LANE / 8) free_lane(ring, reading, l);
  }
  return more;
}

// What waits for a call that was not recorded, as one that was left, or of a block from elsewhere, goes on without it,
// where no thread is about to store a record; how many records.
static uint64_t read_forced(struct reading *reading) {
  for (int l = 0; l < LANES; l++) {
    if (reading->lanes[l].since) return 0;
    reading->lanes[l].waits = 0;
  }
  int l = next_lane(reading, UINT64_MAX);
  reading->is_forced = 1;
  return l < 0 ? 0 : read_stride(reading, l);
}

static uint64_t read_ring(int k) {
  struct ring *ring = &stream->rings[k];
  struct reading *reading = &readings[k];
  uint64_t start = __atomic_load_n(&ring->start, __ATOMIC_ACQUIRE), more;
  if (!start) return notes->spoiled = 1, 0;  // only the reader takes it away
  if (reading->start != start) begin_ring(k, start);
  if (is_counting || ring->overrun) return 0;
  more = read_lanes(ring, reading);
  if (!more) more = read_lanes(ring, reading);  // each lane was looked at since what waits was there
  if (!more && !notes->spoiled) more = read_forced(reading);
  for (int l = 0; l < LANES && !notes->spoiled; l++)
    if (reading->lanes[l].read != reading->lanes[l].freed) free_lane(ring, reading, l);
  return more;
}

static int is_read(int k) {
  for (int l = 0; l < LANES; l++)
    if (readings[k].lanes[l].read != stream->rings[k].lanes[l].next) return 0;
  return 1;
}

static uint64_t counted;  // the requests of the processes that have ended

// Takes what the threads of a process have counted; how many requests these are.
static uint64_t take_counts(int k, int64_t *counts) {
  const struct ring *ring = &stream->rings[k];
  const uint64_t *words = readings[k].records;
  uint64_t requests = 0, areas = __atomic_load_n(&ring->areas, __ATOMIC_RELAXED);
  if (areas >> AREAS) notes->spoiled = 1;
  for (int l = 0; l < LANES; l++) notes->spoiled |= (ring->lanes[l].next | ring->lanes[l].read) != 0;
  for (uint64_t a = 0; words && a < AREAS && !notes->spoiled; a++, words += AREA) {
    if (!(areas >> a & 1)) continue;
    if (a < AREAS - 1 && !words[OWNER]) notes->spoiled = 1;
    for (int i = 0; i < OWNER; i++) {
      uint64_t number = __atomic_load_n(&words[i], __ATOMIC_RELAXED);
      if (number >> 56 || (number && i >= COUNTERS)) notes->spoiled = 1;
      else if (number && counts) counts[i] += number;
      requests += number;
    }
  }
  return requests;
}

// Empties a ring for its next process.
static void clear_ring(int k) {
  struct ring *ring = &stream->rings[k];
  if (is_counting) fallocate(opened, FALLOC_FL_PUNCH_HOLE | FALLOC_FL_KEEP_SIZE, HEAD + k * words_of_ring * 8, words_of_ring * 8);
  else if (readings[k].records && (ring->overrun || !is_read(k))) memset(readings[k].records, 0, RING * 8);
}

// What /proc tells of a process after its name, in which there may be anything; null where it is gone.
static const char *after_name(const char *process, char *text, size_t bytes) {
  char path[64];
  snprintf(path, sizeof path, "/proc/%.20s/stat", process);
  FILE *file = fopen(path, "re");
  text[file ? fread(text, 1, bytes - 1, file) : 0] = 0;
  if (file) fclose(file);
  const char *end = strrchr(text, ')');
  return end ? end + 1 : NULL;
}

static int is_zombie(pid_t process) {  // it has ended, and nobody waits for it
  char number[24], text[1024] = "", state = 0;
  snprintf(number, sizeof number, "%d", process);
  const char *after = after_name(number, text, sizeof text);
  return after && sscanf(after, " %c", &state) == 1 && state == 'Z';
}

static int is_there(pid_t process) {
  if (process == child) return !has_ended;
  return (!kill(process, 0) || errno != ESRCH) && !(looks == LOOKS - 1 && is_zombie(process));
}

// Whether the process of a ring is gone, or runs another program that has a later ring.
static int is_over(int k, int last) {
  struct ring *ring = &stream->rings[k];
  if (!is_there(ring->process)) return 1;
  for (int j = 0; j < last; j++)
    if (stream->rings[j].process == ring->process && stream->rings[j].start > ring->start) return 1;
  return 0;
}

static void end_ring(int k) {
  struct ring *ring = &stream->rings[k];
  struct reading *reading = &readings[k];
  if (is_counting) reading->requests = take_counts(k, reading->is_counted ? all : NULL);
  if (is_counting && reading->is_counted) counted += reading->requests;
  if (reading->is_main || reading->is_counted) notes->gaps |= ring->overrun;
  else if (reading->is_named && reading->requests) notes->others++, notes->other_requests += reading->requests;
  int has_next = 0;
  for (uint64_t j = 0; j < number_of_rings && !has_next; j++)
    has_next = stream->rings[j].process == ring->process && stream->rings[j].start > ring->start;
  if (!is_all && !(reading->is_main && has_next)) named_as(ring->name)->requests += reading->requests;  // not what ran before in its place
  int went_on = ring->marked && ring->marked != progress_of(ring, is_counting ? reading->records : NULL) + 1;
  uint64_t executed = went_on ? 0 : ring->executed;
  if (executed && !has_next) {
    notes->executed += reading->is_main || reading->is_counted;
    if (ring->process == (uint64_t)child) notes->instead = executed - 1;
  }
  if (reading->is_main && !has_next) main_process = -1;  // another one may get its number
  clear_ring(k);
  memset(ring->lanes, 0, sizeof ring->lanes);
  ring->start = ring->turns = ring->areas = ring->overrun = ring->executed = ring->marked = 0;
  memset(ring->name, 0, sizeof ring->name);
  *reading = (struct reading){.records = reading->records};
  __atomic_store_n(&ring->process, 0, __ATOMIC_RELEASE);
}

// Reads what is there, by the turns of the rings: one of the same process comes before the next. How many records; and 1 for each ring that
// is over.
static uint64_t read_all(void) {
  static int order[RINGS];
  uint64_t more = 0, turn = __atomic_load_n(&stream->turn, __ATOMIC_RELAXED);  // once: the program can change it
  int number = 0, last = turn < number_of_rings ? turn : number_of_rings;
  if (stream->form != FORM || stream->number != number_of_rings) notes->spoiled = 1;
  for (int k = 0; k < last && !notes->spoiled; k++) {
    if (!stream->rings[k].start) continue;
    int at = number++;
    for (; at && stream->rings[order[at - 1]].start > stream->rings[k].start; at--) order[at] = order[at - 1];
    order[at] = k;
  }
  for (int a = 0; a < number && !notes->spoiled; a++) {
    int k = order[a];
    struct ring *ring = &stream->rings[k];
    int was_over = is_over(k, last);  // before it is read to its end
    uint64_t number = 1;
    for (int n = 0; n < 64 && number; n++) more += number = read_ring(k);
    if (notes->spoiled) break;
    more += was_over;
    if (!was_over) continue;
    if (is_counting || is_read(k) || ring->overrun) end_ring(k);
    else if ((readings[k].is_over = 1) && readings[k].is_main) break;  // its next program waits
  }
  return more;
}

// ---- what is found

// KiB, as a line of a process's status has them after these words; 0 where it is gone
static uint64_t kibibytes_of(pid_t process, const char *words) {
  char path[64], line[256];
  snprintf(path, sizeof path, "/proc/%d/status", process);
  FILE *file = process > 0 ? fopen(path, "re") : NULL;
  unsigned long kibibytes = 0;
  size_t length = strlen(words);
  while (file && fgets(line, sizeof line, file))
    if (!strncmp(line, words, length)) { kibibytes = strtoul(line + length, NULL, 10); break; }
  if (file) fclose(file);
  return kibibytes;
}
static uint64_t resident_of(pid_t process) { return kibibytes_of(process, "VmHWM:"); }

// Milliseconds for which a process was ready to run and had no processor; 0 where Linux does not count it.
static uint64_t waited_of(pid_t process) {
  char path[64];
  unsigned long long nanoseconds = 0;
  snprintf(path, sizeof path, "/proc/%d/schedstat", process);
  FILE *file = process > 0 ? fopen(path, "re") : NULL;
  if (file && fscanf(file, "%*u %llu", &nanoseconds) != 1) nanoseconds = 0;
  if (file) fclose(file);
  return nanoseconds / 1000000;
}

// Puts the time since the record's begin into it, less that for which other programs had the processor, and what is resident of files; where
// the process is gone, what was last.
static void put_clock(void) {
  static uint64_t begin, last, files;
  uint64_t waited = waited_of(main_process), time = now(), found = kibibytes_of(main_process, "RssFile:");
  if (block_record.calls == 1) begin = time - waited, last = files = 0;
  if (found) files = found;
  if (found && time > begin + waited + last) last = time - begin - waited;
  put_call(CLOCK, last, files);
}

// of a few processes that are not followed, what they take at most
static void sample_others(void) {
  int looked = 0;
  for (uint64_t k = 0; k < number_of_rings && k < stream->turn && looked < LOOKED_AT; k++) {
    if (!stream->rings[k].start || !readings[k].records || readings[k].is_main) continue;
    struct named *named = named_as(stream->rings[k].name);
    uint64_t bytes = resident_of(stream->rings[k].process) * 1024;
    if (bytes > named->resident) named->resident = bytes;
    looked++;
  }
}

// the bytes that the stacks take, which are the program's too
static uint64_t bytes_of_stacks(void) {
  uint64_t bytes = 0;
#ifdef STACKS
  if (stacks) bytes = stacks->own;
  for (off_t at = stream->stacks, end; (at = lseek(opened, at, SEEK_DATA)) >= 0 && (end = lseek(opened, at, SEEK_HOLE)) > at; at = end) bytes += end - at;
#endif
  return bytes;
}

static void note_resident(uint64_t kibibytes) {
  uint64_t bytes = kibibytes * 1024, less = bytes_of_stacks();
  for (uint64_t k = 0; k < number_of_rings; k++)
    for (int l = 0; l < LANES && readings[k].is_main && stream->rings[k].process; l++) {
      uint64_t next = stream->rings[k].lanes[l].next;
      less += (next < LANE ? next : LANE) * 8;
    }
  if (bytes > less && bytes - less > notes->resident) notes->resident = bytes - less;
}

// Notes how many requests there are, of processes that count them, which takes some time.
static void note_counts(void) {
  static uint64_t noted;
  if (now() - noted < SECOND) return;
  noted = now(), notes->requests = counted;
  for (uint64_t k = 0; k < number_of_rings; k++)
    if (readings[k].is_counted && stream->rings[k].start) notes->requests += take_counts(k, NULL);
}

static void sample_resident(void) {
  note_resident(resident_of(main_process));
  if (is_counting) note_counts();
  if (!is_all) sample_others();
}

static void note(void) {
  if (!is_all) notes->requests = kept.requests, notes->live = kept.bytes;
  notes->large = kept.most_large;
  if (!stream) return;
  notes->untouched = stream->untouched, notes->foreign = stream->foreign;
  memcpy(notes->refused, stream->refused, sizeof notes->refused), memcpy(notes->allocator, stream->allocator, NAME);
  memcpy(notes->unfollowed, stream->unfollowed, sizeof notes->unfollowed), notes->more_unfollowed = stream->more_unfollowed;
}

static long written;  // bytes of the texts, with the notes

static void end_text(FILE *to, int text) {
  long before = written;
  written = ftell(to), notes->bytes[text] = written - before;
}

static void write_wanted(FILE *to) {
  if (most_traced) {
    fwrite(trace.text, 1, trace.length, to);
    notes->events = trace.events, notes->variables = trace.variables, notes->shared = trace.shared;
    notes->is_cut = trace.has_ended, notes->wrong = trace.wrong;
  } else if (record_of && kept.is_reduced) {
    reduce_pieces(), write_moments(to, 0);
    for (int t = 0; t < given_tables; t++) notes->taken[t] = taken_by(&tables[number_of_tables - given_tables + t]);
  } else if (record_of) {
    if (kept.events) write_timeline(to);
  } else if (*wanted == 'h') {
    number_chosen = 0, choose_all(snapshots, number_of_snapshots), choose(&kept.peak), write_history(to);
  }
}

static void write_texts(void) {
  if (kept.is_open) follow_peak();
  if (ftruncate(found, PAGE) || lseek(found, PAGE, SEEK_SET) < 0) give_up("there is no room for what is recorded");
  FILE *to = fdopen(fcntl(found, F_DUPFD_CLOEXEC, 0), "w");
  if (!to) give_up("it has no memory");
  setvbuf(to, NULL, _IOFBF, 1 << 20);
  written = PAGE, number_chosen = 0, notes->events = kept.events, notes->is_cut = kept.is_reduced && record_of == RECORDS;
  write_profile(to, is_all ? all : NULL), end_text(to, PROFILE);
  write_wanted(to), end_text(to, WANTED), notes->snapshots = number_chosen;
  for (int k = 0; record_of && k < number_chosen; k++) fprintf(to, "%lu\n", (unsigned long)chosen[k]->at);
  end_text(to, MOMENTS);
  if (windows.wanted && kept.is_reduced) write_moments(to, 1);
  end_text(to, UPPER);
  WITH_STACKS(if (record_of && !kept.is_reduced) write_sites(to, kept.piece, stacks);)
  end_text(to, SITES);
  if (block_record.bytes) fwrite(block_record.at, 1, block_record.bytes, to);
  end_text(to, BLOCKS);
  if (fclose(to)) give_up("there is no room for what is recorded");
  note();
  __atomic_fetch_add(&notes->version, 1, __ATOMIC_RELEASE);
}

// ---- the run

static void on_signal(int number) {
  if (number == SIGUSR1) asked = 1;
  else if (child > 0 && (number == SIGTERM || number == SIGHUP)) kill(child, number);
  else if (child <= 0 && number != SIGXFSZ) ends = number;
}

static void handle(int number) {  // a program that is started does not inherit the handler
  struct sigaction action = {.sa_handler = on_signal, .sa_flags = SA_RESTART}, before;
  if (!sigaction(number, NULL, &before) && before.sa_handler != SIG_IGN) sigaction(number, &action, NULL);
}

// Runs the program, with the first of the libraries only where it can be followed.
static void run_program(const char *libraries, int is_followed, const char *path, char **words) {
  char place[64];
  snprintf(place, sizeof place, "/proc/%d/fd/%d", getppid(), opened);
  if (!is_followed) libraries += strcspn(libraries, ":"), libraries += *libraries == ':';
  if (*libraries) setenv("LD_PRELOAD", libraries, 1);
  if (stream && is_followed) setenv("MTE_STREAM", place, 1);
  execv(path, words);
  notes->error = errno;
  _exit(127);
}

// Whether a program can be followed, where there is a stream; notes one that can't.
static int is_followed(const char *path) {
  int why = stream ? why_not(AT_FDCWD, path, 0) : LOADABLE;
  if (why) notes->instead = note_unfollowed(stream, why, path);
  return !why;
}

// Has the kernel mark the stream when this process ends.
static void show_life(void) {
  static struct robust_list_head head;
  head.list.next = &stream->life, head.futex_offset = offsetof(struct stream, alive) - offsetof(struct stream, life);
  stream->life.next = &head.list, stream->alive = getpid();
  syscall(SYS_set_robust_list, &head, sizeof head);
}

// Makes the stream, as a file that has its name once it is whole where there is one. Null, or why that can't be.
static const char *make_stream(const char *file) {
  struct rlimit limit;
  char made[PATH_MAX];
  snprintf(made, sizeof made, "%s.new", file);
  number_of_rings = RINGS;
  if (!getrlimit(RLIMIT_FSIZE, &limit) && limit.rlim_cur < HEAD + RINGS * words_of_ring * 8)
    number_of_rings = limit.rlim_cur < HEAD ? 0 : (limit.rlim_cur - HEAD) / (words_of_ring * 8);
  if (!number_of_rings) return "there is no room for a stream: files may not be so large (ulimit -f)";
  opened = *file ? open(made, O_RDWR | O_CREAT | O_EXCL | O_NOFOLLOW | O_CLOEXEC, 0600) : memfd_create("mte_stream", MFD_CLOEXEC);
  if (opened < 0) return strerror(errno);
  const char *why = NULL;
  uint64_t bytes = HEAD + number_of_rings * words_of_ring * 8;
  if (ftruncate(opened, bytes WITH_STACKS(+ sizeof *stacks)) || (*file && fallocate(opened, 0, 0, HEAD + words_of_ring * 8))) {
    why = "there is no room for a stream";
  } else if ((stream = mmap(NULL, HEAD, PROT_READ | PROT_WRITE, MAP_SHARED, opened, 0)) == MAP_FAILED) {
    stream = NULL, why = "it has no memory";
  } else {
    struct own own;
    show_life();
    stream->number = number_of_rings, stream->reader = getpid(), stream->found = found;
    stream->filters = read_own(&own) ? own.filters : 0;
    stream->space = own_space(), stream->form = FORM;
    WITH_STACKS(stacks = mmap(NULL, sizeof *stacks, PROT_READ | PROT_WRITE, MAP_SHARED | MAP_NORESERVE, opened, bytes);)
    WITH_STACKS(stream->stacks = stacks == MAP_FAILED ? 0 : bytes; if (!stream->stacks) why = "it has no memory";)
    if (*file && renameat2(AT_FDCWD, made, AT_FDCWD, file, RENAME_NOREPLACE)) why = strerror(errno);
  }
  if (why && *file) unlink(made);
  return why;
}

static void wait_for_program(int how) {
  struct rusage used;
  int status;
  if (child < 0 || has_ended || wait4(child, &status, how, &used) != child) return;
  has_ended = 1, notes->status = WIFEXITED(status) ? WEXITSTATUS(status) : 128 + WTERMSIG(status);
  if (main_process == child || !main_process) note_resident(used.ru_maxrss);
}

static void begin_wanted(const char *words) {
  char *more;
  long number = strtol(wanted + strcspn(wanted, " "), &more, 10);
  if (*wanted == 'h') snapshots = some((number_of_snapshots = number - 1) * sizeof *snapshots + 1);
  if (*wanted == 'w' || !strcmp(wanted, "classes")) record_of = REDUCES;
  if (!strncmp(wanted, "timeline", 8)) record_of = RECORDS, block_record.is_wanted = wanted[8] != 0;
  if (*wanted == 'w' || record_of == RECORDS) {
    windows.wanted = number ? number : USUAL_WINDOWS, begin_table(&tables[number_of_tables++], NULL);
    for (int k = 0; WEIGHED[k]; k++) begin_table(&tables[number_of_tables++], WEIGHED[k]);
    for (uint64_t last = 0; held.number < MOST_SNAPSHOTS && (held.at[held.number] = strtoul(more, &more, 10)) > last; held.number++)
      last = held.at[held.number];
    held.moments = some(held.number * sizeof *held.moments + 1);
  }
  if (!strncmp(wanted, "trace", 5)) most_traced = number;
  while (words && *words && number_of_tables < TABLES) words = begin_table(&tables[number_of_tables++], words), given_tables++;
  begin_kept();
}

// ---- processes that are left

// When a process began, in ticks since the system did; 0 where it is gone.
static uint64_t began(const char *process) {
  char text[1024];
  uint64_t start = 0;
  const char *after = after_name(process, text, sizeof text);
  enum { BEFORE = 19 };  // fields between the name and the start
  for (int k = 0; after && k < BEFORE; k++) after = strchr(after + 1, ' ');
  if (after) start = strtoull(after, NULL, 10);
  return start;
}

// Whether a file of a process in /proc has a line, or a word that ends so, with both texts.
static int tells(const char *process, const char *name, int end, const char *text, const char *key) {
  char path[64], *line = NULL;
  size_t room = 0;
  int has = 0;
  snprintf(path, sizeof path, "/proc/%.20s/%s", process, name);
  FILE *file = fopen(path, "re");
  while (file && !has && getdelim(&line, &room, end, file) > 0) has = strstr(line, text) && strstr(line, key);
  if (file) fclose(file);
  free(line);
  return has;
}

static void note_left(pid_t process) {
  uint64_t left = __atomic_load_n(&notes->left, __ATOMIC_RELAXED);  // loaded once: a program may overwrite it
  if (left >= LEFT) return;
  for (uint64_t k = 0; k < left; k++)
    if (notes->processes[k] == (uint64_t)process) return;
  notes->processes[left] = process, notes->left = left + 1;
}

// Notes the younger processes that have the stream, or are to open it: a fork that has made no call yet has no ring.
static void note_holders(void) {
  char inode[64], place[64];
  struct stat status = {0};
  uint64_t own = began("self");
  DIR *all = fstat(opened, &status) ? NULL : opendir("/proc");
  snprintf(inode, sizeof inode, " %lu ", (unsigned long)status.st_ino), snprintf(place, sizeof place, "/proc/%d/fd/%d", getpid(), opened);
  for (struct dirent *entry; all && (entry = readdir(all));) {
    pid_t process = atoi(entry->d_name);
    if (process <= 0 || process == getpid() || began(entry->d_name) < own) continue;
    if (tells(entry->d_name, "maps", '\n', "/memfd:mte_stream", inode) || tells(entry->d_name, "environ", 0, "MTE_STREAM=", place))
      note_left(process);
  }
  if (all) closedir(all);
}

// until the program has ended, or one that has no end is told to; then those that are about to end
static void follow(void) {
  uint64_t ended = 0, sampled = 0;
  int has_looked = 0;
  for (int idle = 0;;) {
    wait_for_program(WNOHANG), looks %= LOOKS;
    int is_last = ended && now() - ended > ABOUT_TO_END;
    uint64_t more = read_all();
    if (notes->spoiled) stream->closed = 1;  // nobody waits
    if (notes->spoiled && (child < 0 ? ends != 0 : has_ended)) break;
    if (asked) asked = 0, write_texts();
    if (now() - sampled >= SAMPLES) sampled = now(), looks++, sample_resident(), note();
    if (!ended && (child < 0 ? ends != 0 : has_ended)) ended = now();
    int rings = 0;
    for (uint64_t k = 0; k < number_of_rings && !rings; k++) rings = stream->rings[k].process != 0;
    if (has_ended && !more && !rings && !has_looked) has_looked = 1, note_holders();
    if (ended && (is_last || (!more && !rings && !notes->left))) break;
    idle = more ? 0 : idle + 1;
    // some way behind the writers, so that they do not share a line of the cache with the reader; but not far
    if (more < (ended ? 1 : LANE / 2)) usleep(more ? 1000 : idle < 20 ? 200 : 5000);
  }
}

int main(int argc, char **argv) {
  if (argc < 7) return 2;
  static struct notes nowhere;
  found = atoi(argv[1]), only = *argv[4] ? argv[4] : NULL, as_scudo = *argv[3] == '-', wanted = argv[3] + as_scudo;
  is_counting = !strcmp(wanted, "counts"), is_all = is_counting || !strcmp(wanted, "all");
  if (is_counting) words_of_ring = COUNTING_RING;
  fcntl(found, F_SETFD, FD_CLOEXEC);
  handle(SIGINT), handle(SIGTERM), handle(SIGHUP), handle(SIGUSR1), handle(SIGXFSZ);
  int has_notes = !ftruncate(found, PAGE) && (notes = mmap(NULL, PAGE, PROT_READ | PROT_WRITE, MAP_SHARED, found, 0)) != MAP_FAILED;
  if (!has_notes) notes = &nowhere;
  memset(notes, 0, sizeof *notes);
  int is_text = !strcmp(argv[6], "-"), follows = strcmp(wanted, "none");
  const char *why = !has_notes ? "there is no room for what is recorded" : follows && !is_text ? make_stream(argv[6]) : NULL;
  int follows_it = argc > 7 && is_followed(argv[7]);
  child = argc > 7 ? fork() : -1;
  if (!child) run_program(argv[2], follows_it, argv[7], argv + 8);
  if (child < 0 && argc > 7) why = strerror(errno);
  if (child > 0 && ends) kill(child, ends);  // one that came before
  if (why) give_up(why);
  if (!follows) return wait_for_program(0), 0;
  begin_wanted(argv[5]);
  if (is_text) return read_timeline(&ends), write_texts(), 0;
  follow();
  if (notes->left) notes->left = 0, note_holders();
  for (uint64_t k = 0; k < number_of_rings; k++) {
    pid_t process = stream->rings[k].process;
    if (!stream->rings[k].start || notes->spoiled) continue;
    if (is_there(process)) note_left(process);
    end_ring(k);
  }
  stream->closed = 1;
  if (is_counting) notes->requests = counted;
  if (*argv[6]) unlink(argv[6]);
  write_texts();
}
