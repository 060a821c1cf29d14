// Asks the proved heap of the library about each error of a log that a program of traced_cc wrote:
//
//   heap_answers LOG LENGTH PROFILE SHEET SMALL TRACE LIMIT GRANULES QUARANTINE SEED..
//
// Each seed has a heap. Every request, free, realloc and right access of the log is performed on it, and each wrong one is asked of it, by the
// address that the program's pointer has there; the heap stays as it is. LENGTH is that of the text that is read. Four files get the profile,
// the sheet of its best table, a small log, and the trace of all this if one has room. Standard output has the CRC-32 of the text, and then
// for each error the line
//
//   EVENT FIRST SLOT GENERATION KIND[:SLOT:GENERATION]..
//
// and one for each seed as `replay` reports it, or an empty one if nothing was refused. EVENT is what asks, by its number in the trace, or 0.
// FIRST is the first granule that is met. The slot is that of its block, and the generation how often it was given out by then, or 0 where the
// block has no slot. Then come the granules that are met, as the heap has them; of a chunk with its slot and generation. The last line counts what was refused and should not
// have been, all events, and the blocks that got no slot since their class was exhausted.
//
// The small log has the errors with all that is told of their blocks, and the blocks that reallocs made of them or made them of. Of the other
// blocks it has a request and a free before the first request that comes after a free, and a request where one came after an error's block
// was freed. The exit status is 3 where there is no memory or a file can't be written, and 4 where the text is not the lines of a program.
#include "../checksum.h"
#include "../formats.h"
#include "../log_head.h"
#include <fcntl.h>
#include <mte_tool.h>
#include <stdio.h>
#include <stdlib.h>
#include <string.h>
#include <sys/mman.h>
#include <sys/stat.h>

enum { GRANULE = 16, WINDOW = 64, MOST_BLOCKS = 1 << 28, MOST_STACKS = 1 << 20, MOST_SEEDS = 1024, MOST_UNRECORDED = 1 << 20, PIECE = 1 << 18, SEEN = 64 << 20 };
enum { FARTHEST_FREE = GRANULE * FARTHEST_MOVE * 2000, LONGEST_RIGHT = 16, LARGE_FILLER = 20000 };
enum { SLACK, HEADER, TAIL, DEAD, OTHER, OUTSIDE };  // of granules, as the library has them
static const uint64_t PLACE = (1ull << 56) - 1, TAG = 1ull << 56;  // docs/MACHINE.md
static const long MOST_SIZE = 1l << 47;
static const char *const KINDS[] = {"slack", "header", "tail", "dead", "other", "outside"};

static _Noreturn void give_up(int status, const char *why) {
  fprintf(stderr, "%s\n", why);
  exit(status);
}

static _Noreturn void fail(const char *why) { give_up(3, why); }

static inline void check(int is_right, const char *why) {
  if (!is_right) give_up(4, why);
}

// an array with more places, which are zero
static void *larger(void *array, size_t old, size_t new, size_t each) {
  if (!(array = realloc(array, new * each))) fail("there is no memory for it");
  memset((char *)array + old * each, 0, (new - old) * each);
  return array;
}

static FILE *opened(const char *path) {
  FILE *file = fopen(path, "wb");
  if (!file) fail("a file can't be written");
  return file;
}

static void written(FILE *file) {
  if (fclose(file)) fail("a file can't be written");
}

// ---- the records

// A record: its letter, its numbers, its stack, and its line. Numbers that are greater than a long are those of a size_t.
struct record { char letter; int count; long numbers[3]; const char *begin, *stack, *end; };

static const char *text, *text_end;
static struct { const char *at; int length, is_written; } *stacks;  // of those that a small log can have

// A line has an end, so a number has one.
static inline const char *read_number(const char *at, long *value) {
  int is_negative = *at == '-';
  const char *begin = at += is_negative;
  uint64_t found = 0;
  for (unsigned digit; (digit = (unsigned char)*at - '0') < 10; at++) found = found * 10 + digit;
  *value = is_negative ? -found : found;
  return at > begin && at < begin + 20 ? at : NULL;
}

// the frames of a stack up to the end of a line
static int are_frames(const char *at, const char *end) {
  int digits = 0, frames = 1;
  for (; at < end; at++) {
    if (*at == ',' && digits) digits = 0, frames++;
    else if (((*at >= '0' && *at <= '9') || (*at >= 'a' && *at <= 'f')) && digits < 16) digits++;
    else return 0;
  }
  return digits && frames <= 16;
}

static void learn_stack(const struct record *record) {
  long number;
  const char *at = read_number(record->stack, &number);
  check(at && number >= 0 && number < MOST_STACKS, "a stack is wrong");
  if (*at == ':') check(are_frames(at + 1, record->end), "a frame is wrong");
  else check(at == record->end && (!number || stacks[number].at), "a stack is not known");
  if (*at == ':' && number) stacks[number].at = at, stacks[number].length = record->end - at;
}

static const char *last_word(const struct record *record) {
  const char *at = record->end;
  while (at > record->begin && at[-1] != ' ') at--;
  return at;
}

// Reads the record from a place on, which is moved to its end. The first reading checks it and learns its stack.
static inline __attribute__((always_inline)) struct record read_record(const char **from, int is_first) {
  const char *at = *from, *end = memchr(at, '\n', text_end - at);
  check(end && end > at, "a line is wrong");
  struct record record = {.letter = *at, .begin = at, .end = end};
  *from = end + 1;
  int numbers = 0, has_stack = 1;
  switch (*at) {
    case 'l': case 's': numbers = 3, has_stack = 0; break;
    case '-': case 'g': case 'i': case 'k': case 'q': case 'd': numbers = 1, has_stack = 0; break;
    case '+': case 'a': case 'z': numbers = 2, has_stack = 0; break;
    case 'h': has_stack = 0; break;
    case 'L': case 'S': case 'P': case 'Q': case 'V': case 'y': case 'p': case 'u': case 'r': numbers = 3; break;
    case 'm': case 'c': case 'x': numbers = 2; break;
    case 'f': numbers = 1; break;
    case 'o': case 'n': case 't': break;
    case 'C': record.stack = last_word(&record); break;
    case 'M': case 'e': case 'v': return record;
    default: check(0, "a letter is wrong");
  }
  for (at++; record.count < numbers; record.count++) {
    check(*at == ' ', "a line is short");
    at = read_number(at + 1, &record.numbers[record.count]);
    check(at != NULL, "a number is wrong");
  }
  if (!has_stack) check(at == end, "a line is long");
  else if (!record.stack) check(*at == ' ', "there is no stack"), record.stack = at + 1;
  if (is_first && record.stack) learn_stack(&record);
  return record;
}

static int is_inside(char letter) { return letter == 'P' || letter == 'Q' || letter == 'V'; }  // an error of which the heap knows nothing
static int is_load(char letter) { return letter == 'l' || letter == 'L' || letter == 'P'; }

// ---- the first reading: how often each size was requested, and which blocks have errors

enum { WANTED = 1, ENDED_ONCE = 2, IN_USE = 4, RECORDED = 8 };  // of a block: in the small log, freed or resized, in the trace
static unsigned char *marks, *is_taken_back;
static uint32_t *sizes, *made_of;  // of a block: its size, as far as the number can say it, and the block that a realloc made it of
static long known = 1, unrecorded, counts[LARGEST_SIZE + 2], error_count;
static long left_out;               // blocks that the log has nothing of any more
static int has_gaps, is_unrecorded;  // records are missing; blocks that were requested never had one

static inline void know(long block) {
  static long room;
  check(block > 0 && block < MOST_BLOCKS && block <= known + MOST_UNRECORDED + left_out - unrecorded, "a block is wrong");
  if (block >= room) {
    long more = block + block / 4 + 1024;
    marks = larger(marks, room, more, 1), sizes = larger(sizes, room, more, sizeof *sizes), made_of = larger(made_of, room, more, sizeof *made_of);
    room = more;
  }
  if (block >= known) unrecorded += block + 1 - known, known = block + 1;
}

static inline void request_of(long block, long size) {
  know(block);
  check(!(marks[block] & (RECORDED | ENDED_ONCE)) && size >= 0 && size < MOST_SIZE, "a request is wrong");
  unrecorded--;
  marks[block] |= RECORDED, sizes[block] = size < UINT32_MAX ? size : UINT32_MAX;
  counts[size <= LARGEST_SIZE ? size : LARGEST_SIZE + 1]++;
}

static inline void end_of(long block) {
  know(block);
  check(!(marks[block] & ENDED_ONCE), "a block ends twice");
  marks[block] |= ENDED_ONCE | IN_USE;
}

static void learn_right(long block, long offset, long length) {
  know(block);
  if (!(marks[block] & RECORDED)) return;
  check(!(marks[block] & ENDED_ONCE) && offset >= 0 && length > 0 && length <= LONGEST_RIGHT && offset < MOST_SIZE, "a right access is wrong");
  check(sizes[block] == UINT32_MAX || offset + length <= sizes[block], "a right access is beyond its block");
  marks[block] |= IN_USE;
}

static void learn_error(const struct record *record) {
  static long room;
  const long *number = record->numbers;
  char letter = record->letter;
  if (error_count == room) is_taken_back = larger(is_taken_back, room, 2 * room + 1024, 1), room = 2 * room + 1024;
  error_count++;
  if (!record->count) return;
  check(number[1] > -MOST_SIZE && number[1] < MOST_SIZE && (letter == 'x' || letter == 'y' || number[2]), "an error is wrong");
  if (number[0]) know(number[0]);
  else check(is_inside(letter) || letter == 'x' || (number[1] >= 0 && number[1] <= 2), "an error of no block is wrong");
  for (uint32_t block = number[0]; block && !(marks[block] & WANTED); block = made_of[block]) marks[block] |= WANTED | IN_USE;
}

static void learn(const struct record *record) {
  const long *number = record->numbers;
  switch (record->letter) {
    case 'm': case 'c': return request_of(number[0], number[1]);
    case 'f': return end_of(number[0]);
    case 'r':
      end_of(number[0]), request_of(number[1], number[2]);
      made_of[number[1]] = number[0];
      return;
    case 'l': case 's': return learn_right(number[0], number[1], number[2]);
    case 'a': return check(number[0] > 0 && number[0] < known && number[1] > 0 && number[1] < MOST_SIZE, "an alignment is wrong");
    case 'p': case 'u':
      check(number[1] >= 0 && number[1] < MOST_SIZE && number[2] > 0 && number[2] <= MOST_SIZE, "a mark is wrong");
      // fall through
    case 'i': case 'k': case 'q':
      if (number[0] || record->letter == 'i') know(number[0]);
      return;
    case 'd':
      check(number[0] >= 0 && number[0] < MOST_SIZE && left_out < MOST_SIZE, "a gap is wrong");
      left_out += number[0], has_gaps = 1;
      return;
    case 'z':
      check(number[0] >= 0 && number[0] <= LARGEST_SIZE + 1 && number[1] > 0 && number[1] < MOST_SIZE, "a count is wrong");
      counts[number[0]] += number[1];
      check(counts[number[0]] < MOST_SIZE, "a count is wrong");
      return;
    case 'h': is_unrecorded = 1; return;
    case '-': case '+': case 'g':
      check(number[0] > 0 && number[0] <= error_count && (record->letter != '+' || number[1] > 0), "an error is not there");
      if (record->letter == '-') is_taken_back[number[0] - 1] = 1;
      return;
    case 'L': case 'S': case 'P': case 'Q': case 'V': case 'x': case 'y': case 'o': case 'n': return learn_error(record);
  }
}

// The records in their order, for the second reading: most need no look at the text.
enum { MALLOC, CALLOC, FREE, OF_TEXT, BLOCK_BITS = 28 };
static struct step { uint32_t what, at; } *steps;  // the kind and the block, and where the record begins
static size_t step_count;

static inline void add_step(int kind, uint32_t block, const char *begin) {
  static size_t room;
  if (step_count == room && !(steps = realloc(steps, (room = 2 * room + 1024) * sizeof *steps))) fail("there is no memory for it");
  steps[step_count++] = (struct step){(uint32_t)kind << BLOCK_BITS | block, begin - text};
}

// The most frequent lines, a request or a free with a stack that is known: the place after one, or null for another line.
static inline const char *learn_plain(const char *begin) {
  const char *at = begin + 1;
  long number[3], *stack = number;
  if (*begin != 'm' && *begin != 'f') return NULL;
  for (int count = *begin == 'm' ? 3 : 2; count; count--, stack++)
    if (*at != ' ' || !(at = read_number(at + 1, stack))) return NULL;
  stack--;
  if (*at != '\n' || *stack < 0 || *stack >= MOST_STACKS || (*stack && !stacks[*stack].at)) return NULL;
  if (*begin == 'm') request_of(number[0], number[1]);
  else end_of(number[0]);
  add_step(*begin == 'm' ? MALLOC : FREE, number[0], begin);
  return at + 1;
}

static const char *learn_line(const char *begin) {
  const char *at = begin;
  struct record record = read_record(&at, 1);
  learn(&record);
  int kind = record.letter == 'm' ? MALLOC : record.letter == 'c' ? CALLOC : record.letter == 'f' ? FREE : OF_TEXT;
  add_step(kind, kind == OF_TEXT ? 0 : record.numbers[0], begin);
  return at;
}

// Reads all, and returns the sum of the text, which is taken piece by piece ahead of the lines.
static uint32_t scan(void) {
  uint32_t sum = 0;
  const char *summed = text;
  for (const char *at = text, *seen = text, *next; at < text_end; at = next) {
    if (at >= summed) {
      size_t length = text_end - summed < PIECE ? text_end - summed : PIECE;
      sum = crc(sum, summed, length), summed += length;
      if (at - seen > SEEN) madvise((void *)((uintptr_t)seen & -4096ul), SEEN, MADV_DONTNEED), seen += SEEN;
    }
    if (!(next = learn_plain(at))) next = learn_line(at);
  }
  return summed < text_end ? crc(sum, summed, text_end - summed) : sum;
}

// ---- the heaps, and the blocks whose pointers are still asked for

static mte_tool_heap *heaps[MOST_SEEDS];
static int seed_count;
static uint32_t *held_as;  // of a block: its place among those that are held, which live or have an error to come
static struct held {
  long size, requests, small_requests, gaps;  // of the log and of the small log at its end
  uint32_t number, generation, next;  // in the small log, of its slot, of those that are free
  enum { LIVE, FREED, RESIZED } state;
} *held;
static uint64_t *pointers;  // of those that are held: one for each heap
static uint32_t held_count, free_held;
static size_t held_room;
static uint32_t *generations;  // how often a chunk was given out, by its first granule
static long granules, conflicts, events, exhausted;
static FILE *trace;

// An event of the trace, which ends where it has no room. Variables are the places of blocks that are held; 0 is for blocks that nothing needs
// any more, and for pointers that are moved.
#define EVENT(...) (events++, trace && (events > MOST_EVENTS || held_count > LAST_VARIABLE ? fclose(trace), trace = NULL, 0 : fprintf(trace, __VA_ARGS__)))

static uint64_t *pointers_of(uint32_t block) { return &pointers[(size_t)held_as[block] * seed_count]; }
static struct held *held_of(uint32_t block) { return &held[held_as[block]]; }
static int has_pointer(uint32_t block) { return held_as[block] && *pointers_of(block); }

static inline struct held *hold(uint32_t block) {
  if (held_as[block]) return held_of(block);
  uint32_t at = free_held ? free_held : ++held_count;
  if (at >= held_room) {
    size_t room = 2 * held_room + 1024;
    held = larger(held, held_room, room, sizeof *held), pointers = larger(pointers, held_room * seed_count, room * seed_count, sizeof *pointers);
    held_room = room;
  }
  if (free_held) free_held = held[at].next;
  held[at] = (struct held){0};
  memset(&pointers[(size_t)at * seed_count], 0, seed_count * sizeof *pointers);
  held_as[block] = at;
  return &held[at];
}

static void let_go(uint32_t block) {
  if (!held_as[block] || marks[block] & WANTED) return;
  held_of(block)->next = free_held, free_held = held_as[block], held_as[block] = 0;
}

static void write_profile(const char *path, mte_tool_text *profile) {
  char line[64];
  for (int size = 0; size <= LARGEST_SIZE + 1; size++) {
    long count = counts[size] < 1000000000 ? counts[size] : 1000000000;
    int length = size <= LARGEST_SIZE ? sprintf(line, "%d %ld\n", size, count) : sprintf(line, "large %ld\n", count);
    if (count && mte_tool_text_append(profile, line, length)) fail("there is no memory for it");
  }
  FILE *file = opened(path);
  fwrite(profile->bytes, 1, profile->length, file), written(file);
}

static void make_heaps(mte_tool_options options, const char *to_profile, const char *to_sheet, char **seeds) {
  mte_tool_text profile = MTE_TOOL_TEXT, sheet = MTE_TOOL_TEXT;
  uint16_t classes[MTE_TOOL_MOST_CLASSES];
  int count = 0;
  write_profile(to_profile, &profile);
  if (mte_tool_tune(&options, profile.bytes, profile.length, &sheet, NULL)) fail("the profile can't be tuned");
  FILE *file = opened(to_sheet);
  fwrite(sheet.bytes, 1, sheet.length, file), written(file);
  for (char *at = sheet.bytes + strlen("classes"); *at == ' ' && count < MTE_TOOL_MOST_CLASSES;) classes[count++] = strtol(at, &at, 10);
  for (int k = 0; k < seed_count; k++) {
    options.seed = atol(seeds[k]);
    if (mte_tool_heap_new(&heaps[k], &options, classes, count, NULL)) fail("the heap can't be made");
  }
}

// ---- the small log

static FILE *small;
static uint32_t new_blocks;
static long request_count, small_requests, gap_count;
static int has_freed;

static void write_text(const char *from, const char *to) { fwrite(from, 1, to - from, small); }

static void write_stack(const struct record *record) {
  long number;
  const char *at = read_number(record->stack, &number);
  fprintf(small, " %ld", number);
  if (!number) write_text(at, record->end);
  else if (!stacks[number].is_written++) write_text(stacks[number].at, stacks[number].at + stacks[number].length);
  putc('\n', small);
}

// a record with another block's number
static void write_record(const struct record *record, uint32_t block) {
  putc(record->letter, small);
  if (record->count) fprintf(small, " %u", block);
  for (int i = 1; i < record->count; i++) fprintf(small, " %ld", record->numbers[i]);
  if (record->stack) write_stack(record);
  else putc('\n', small);
}

static void write_filler(void) { fprintf(small, "m %u %d 0\n", ++new_blocks, LARGE_FILLER), small_requests++; }

static struct record record_at(const struct step *step) {
  const char *at = text + step->at;
  return read_record(&at, 0);
}

static void write_request(const struct step *step, uint32_t block) {
  struct record record = record_at(step);
  hold(block)->number = ++new_blocks, small_requests++;
  write_record(&record, new_blocks);
}

// The number of a block in the small log, or 0. One that has no record gets its number where it is first named.
static uint32_t number_of(uint32_t block) {
  if ((marks[block] & (WANTED | RECORDED)) == WANTED && !hold(block)->number) held_of(block)->number = ++new_blocks;
  return held_as[block] ? held_of(block)->number : 0;
}

// the new block's number; 0 where the old block has none
static uint32_t write_resize(const struct record *record, uint32_t old) {
  uint32_t number = number_of(old);
  if (!number) return 0;
  fprintf(small, "r %u %u %ld", number, ++new_blocks, record->numbers[2]), write_stack(record);
  small_requests++;
  return new_blocks;
}

static void begin_frees(void) {
  if (!has_freed) write_filler(), fprintf(small, "f %u 0\n", new_blocks);
  has_freed = 1;
}

static void note_end(uint32_t block, int state) {
  if (held_as[block]) held_of(block)->state = state, held_of(block)->requests = request_count, held_of(block)->small_requests = small_requests, held_of(block)->gaps = gap_count;
}

// ---- the program's calls, on each heap

static uint64_t moved(uint64_t pointer, long offset) { return (pointer & ~PLACE) | ((pointer + offset) & PLACE); }

// the byte of the region that a pointer leads to
static long byte_at(uint64_t pointer) { return (pointer & PLACE) - MTE_TOOL_REGION_START; }

static uint32_t variable_of(uint32_t block) { return marks[block] & IN_USE ? held_as[block] : 0; }
static uint32_t asked_size(uint32_t size) { return size <= LARGEST_REQUEST ? size : LARGEST_REQUEST; }

// Gives a block the pointer of a heap. The first heap's say where it is, which no seed changes.
static void give_out(uint32_t block, mte_tool_end end, const mte_tool_outcome *outcome, int k, int is_in_place) {
  uint64_t value = end ? 0 : outcome->value;
  pointers_of(block)[k] = value;
  if (k) conflicts += (value & PLACE) != (*pointers_of(block) & PLACE);
  else if (value) held_of(block)->generation = generations[byte_at(value) / GRANULE] += !is_in_place;
  else exhausted += outcome->code == MTE_TOOL_CODE_EXHAUSTED;
}

static void request(int kind, uint32_t block) {
  mte_tool_outcome outcome = MTE_TOOL_OUTCOME;
  uint32_t size = sizes[block];
  hold(block)->size = size;
  request_count++;
  EVENT("%s %u %u\n", kind == CALLOC ? "calloc" : "malloc", variable_of(block), asked_size(size));
  for (int k = 0; k < seed_count; k++) {
    mte_tool_end end = kind == CALLOC ? mte_tool_heap_calloc(heaps[k], size, &outcome) : mte_tool_heap_malloc(heaps[k], size, &outcome);
    give_out(block, end, &outcome, k, 0);
  }
  if (!(marks[block] & IN_USE) || !(*pointers_of(block) || held_of(block)->number)) let_go(block);
}

static void free_block(const struct step *step, uint32_t block) {
  begin_frees();
  uint32_t number = number_of(block);
  if (number) {
    struct record record = record_at(step);
    write_record(&record, number);
  }
  int has_slot = has_pointer(block);
  if (has_slot) EVENT("free %u\n", held_as[block]);
  for (int k = 0; has_slot && k < seed_count; k++) conflicts += mte_tool_heap_free(heaps[k], pointers_of(block)[k], NULL) != MTE_TOOL_DONE;
  note_end(block, FREED);
  let_go(block);
}

// A block that nothing asks for any more hands its place to the one that a realloc made of it.
static void hand_over(uint32_t old, uint32_t block) {
  held_as[block] = held_as[old], held_as[old] = 0;
}

// Resizes a block by the pointers of the old one. What the heap does not give in another size it keeps, and the program does not.
static void resize_on_heaps(uint32_t block, uint32_t size) {
  mte_tool_outcome outcome = MTE_TOOL_OUTCOME;
  for (int k = 0; k < seed_count; k++) {
    uint64_t old = pointers_of(block)[k];
    mte_tool_end end = mte_tool_heap_realloc(heaps[k], old, size, &outcome);
    if (end) conflicts += outcome.code > MTE_TOOL_CODE_EXHAUSTED || mte_tool_heap_free(heaps[k], old, NULL) != MTE_TOOL_DONE;
    give_out(block, end, &outcome, k, outcome.value == old);
  }
}

static void resize(const struct record *record) {
  uint32_t old = record->numbers[0], block = record->numbers[1];
  uint32_t size = sizes[block];
  begin_frees();
  uint32_t number = write_resize(record, old);
  if (!has_pointer(old)) {
    if (number) hold(block)->number = number;
    request(MALLOC, block);
    note_end(old, RESIZED);
    return let_go(old);
  }
  request_count++;
  note_end(old, RESIZED);
  if (!(marks[old] & WANTED)) hand_over(old, block);
  else {
    hold(block);
    EVENT("addg %u %u 0 0\n", held_as[block], held_as[old]);  // so the old pointer stays
    memcpy(pointers_of(block), pointers_of(old), seed_count * sizeof *pointers);
  }
  *held_of(block) = (struct held){.size = size, .number = number};
  EVENT("realloc %u %u\n", held_as[block], asked_size(size));
  resize_on_heaps(block, size);
  if (!has_pointer(block)) EVENT("free %u\n", held_as[block]);
  let_go(old);
  if (!has_pointer(block) && !number) let_go(block);
}

static mte_tool_end access_heap(int k, char letter, uint64_t address, long length, mte_tool_outcome *outcome) {
  static char room[WINDOW];
  memset(room, 0xa5, sizeof room);
  return is_load(letter) ? mte_tool_heap_load(heaps[k], address, room, length, outcome)
                         : mte_tool_heap_store(heaps[k], address, room, length, outcome);
}

static void event_of_access(char letter, uint32_t variable, long offset, long length) {
  EVENT("%s %u %ld %ld%s\n", is_load(letter) ? "load" : "store", variable, offset, length, is_load(letter) ? "" : " a5");
}

static void do_right(const struct record *record) {
  uint32_t block = record->numbers[0];
  if (!has_pointer(block)) return;
  event_of_access(record->letter, held_as[block], record->numbers[1], record->numbers[2]);
  for (int k = 0; k < seed_count; k++)
    conflicts += access_heap(k, record->letter, moved(pointers_of(block)[k], record->numbers[1]), record->numbers[2], NULL) != MTE_TOOL_DONE;
}

// ---- the program's errors

// What the first heap says of a granule.
static int granule_at(long granule, mte_tool_outcome *told) {
  if (granule < 0 || granule >= granules) return OUTSIDE;
  if (mte_tool_heap_granule(heaps[0], granule, told) != MTE_TOOL_DONE) fail("the heap does not tell a granule");
  return told->granule_kind;
}

static void print_granule(long granule) {
  mte_tool_outcome told = MTE_TOOL_OUTCOME;
  int kind = granule_at(granule, &told);
  printf(" %s", KINDS[kind]);
  if (kind == DEAD || kind == OTHER) printf(":%lu:%u", (unsigned long)told.value, generations[told.granule + 1]);
}

static void print_outcome(const mte_tool_outcome *outcome) {
  switch (outcome->code) {
    case MTE_TOOL_CODE_UNMAPPED: printf("fault unmapped"); break;
    case MTE_TOOL_CODE_TAG_CHECK:
      printf("fault tag granule %u memory %u pointer %u in %s", outcome->granule, outcome->memory_tag, outcome->pointer_tag, KINDS[outcome->granule_kind]);
      break;
    case MTE_TOOL_CODE_MISPLACED: printf("refused misplaced"); break;
    case MTE_TOOL_CODE_CHUNK_NOT_LIVE: printf("refused not-live"); break;
  }
  putchar('\n');
}

// Whether the heap would free an address, which it does not do. It is asked by a load of the byte there, which is refused exactly if a free of
// a live chunk is; and by a free with a tag that is surely another, if the load was done.
static void ask_free(int k, uint64_t address, mte_tool_outcome *outcome) {
  mte_tool_outcome load = MTE_TOOL_OUTCOME;
  int is_right = access_heap(k, 'L', address, 1, &load) == MTE_TOOL_DONE;
  if (mte_tool_heap_free(heaps[k], is_right ? address ^ 2 * TAG : address, outcome) == MTE_TOOL_DONE) fail("the heap accepted a wrong free");
  if (outcome->code == MTE_TOOL_CODE_WRONG_TAG) *outcome = load;
}

static void event_of_free(uint32_t variable, long moves, int is_refused) {
  for (long left = labs(moves); left > 0; left -= FARTHEST_MOVE, variable = 0)
    EVENT("%s 0 %u %ld 0\n", moves > 0 ? "addg" : "subg", variable, left < FARTHEST_MOVE ? left : FARTHEST_MOVE);
  if (is_refused) EVENT("free %u\n", variable);
  else EVENT("load %u 0 1\n", variable);
}

// the bytes from the first wrong one on that are asked
static void window_of(const struct record *record, const struct held *own, long *begin, long *length) {
  long size = record->numbers[2];
  *begin = record->numbers[1];
  if (own->state == LIVE && *begin >= 0 && *begin < own->size && !is_inside(record->letter)) *begin = own->size;
  *length = size < 0 || size > MOST_SIZE ? WINDOW : record->numbers[1] + size - *begin;
  if (*length > WINDOW) *length = WINDOW;
  if (*length < 1) *length = 1;
}

// Asks a heap, whose outcome has the code 0 if nothing is refused.
static void ask(const struct record *record, uint64_t pointer, long begin, long length, int k, mte_tool_outcome *outcome) {
  outcome->code = 0;
  if (record->letter == 'x') ask_free(k, moved(pointer, begin), outcome);
  else access_heap(k, record->letter, moved(pointer, begin), length, outcome);
}

static void print_error(const struct record *record, uint32_t block) {
  static const mte_tool_outcome none = MTE_TOOL_OUTCOME;
  mte_tool_outcome outcome = none, its = none;
  struct held *own = held_of(block);
  int is_free = record->letter == 'x';
  long begin = record->numbers[1], length = 1, asked = events, at = byte_at(*pointers_of(block));
  granule_at(at / GRANULE, &its);
  if (!is_free) window_of(record, own, &begin, &length);
  ask(record, *pointers_of(block), begin, length, 0, &outcome);
  if (is_free && begin % GRANULE == 0 && labs(begin) <= FARTHEST_FREE)
    event_of_free(held_as[block], begin / GRANULE, outcome.code == MTE_TOOL_CODE_MISPLACED || outcome.code == MTE_TOOL_CODE_CHUNK_NOT_LIVE);
  else if (!is_free && labs(begin) <= FARTHEST_ACCESS) event_of_access(record->letter, held_as[block], begin, length);
  at += begin;
  long first = (at + (at < 0 ? 1 - GRANULE : 0)) / GRANULE, last = first + (at - first * GRANULE + length - 1) / GRANULE;
  first -= is_free;  // there would be the header
  printf("%ld %ld %lu %u", events > asked ? events : 0, first, (unsigned long)its.value, own->generation);
  for (long granule = first; granule <= last; granule++) print_granule(granule);
  putchar('\n');
  print_outcome(&outcome);
  for (int k = 1; k < seed_count; k++) outcome = none, ask(record, pointers_of(block)[k], begin, length, k, &outcome), print_outcome(&outcome);
}

static void do_error(const struct record *record, long number) {
  uint32_t block = record->count ? record->numbers[0] : 0;
  uint32_t own_number = block ? number_of(block) : 0;
  struct held *own = block ? held_of(block) : NULL;
  if (own && own->state != LIVE && own->requests < request_count && own->small_requests == small_requests) write_filler();
  write_record(record, own_number);
  int is_unknown = own && own->state != LIVE && own->gaps < gap_count;  // who had its slot since
  int is_asked = record->letter != 'y' && !is_taken_back[number] && !is_unknown;  // the heap has one free for all
  if (own && *pointers_of(block) && is_asked) return print_error(record, block);
  puts(is_unknown ? "-1 0 0 0" : "0 0 0 0");
  for (int k = 0; k < seed_count; k++) putchar('\n');
}

static void do_text(const struct record *record, const char *end, long *error) {
  uint32_t block = record->count && record->letter != 'd' && record->letter != 'z' ? record->numbers[0] : 0;
  switch (record->letter) {
    case 'r': return resize(record);
    case 'l': case 's': return do_right(record);
    case 'a': case 'p': case 'u':
      if (!block || number_of(block)) write_record(record, block ? number_of(block) : 0);
      return;
    case 'C': write_text(record->begin, record->stack - 1), write_stack(record); return;
    case 'M': case '-': case 'g': case 'v': case '+': case 'e': return write_text(record->begin, end);
    case 'd': begin_frees(), request_count += record->numbers[0] + 1, gap_count++; return;
    case 'i': case 'k': case 'q': case 'z': case 't': case 'h': return;
  }
  do_error(record, (*error)++);
}

static void perform(void) {
  long error = 0;
  held_as = larger(NULL, 0, known, sizeof *held_as), generations = larger(NULL, 0, granules + 1, sizeof *generations);
  new_blocks = has_gaps ? is_unrecorded : unrecorded > 0;  // the small log lacks a record, too
  for (const struct step *step = steps; step < steps + step_count; step++) {
    uint32_t kind = step->what >> BLOCK_BITS, block = step->what & (MOST_BLOCKS - 1);
    if (kind == OF_TEXT) {
      const char *at = text + step->at;
      struct record record = read_record(&at, 0);
      do_text(&record, at, &error);
    } else if (kind == FREE) free_block(step, block);
    else {
      if (marks[block] & WANTED) write_request(step, block);
      request(kind, block);
    }
  }
}

static void write_log(const char *path, const char *from, size_t length) {
  struct head head = {.marks = {{length, crc(0, from, length), 0, ENDED, 0}}};
  head.marks[0].check = folded(&head.marks[0].length, 4);
  memcpy(head.form, FORM, sizeof FORM);
  FILE *file = opened(path);
  fwrite(&head, HEAD, 1, file), fwrite(from, 1, length, file), written(file);
}

// Whether the trace may have room: each request is an event of it.
static int has_room(void) {
  long requests = 0;
  for (int size = 0; size <= LARGEST_SIZE + 1; size++) requests += counts[size];
  return requests <= MOST_EVENTS;
}

// the text of a log, up to a length
static void open_log(const char *path, long length) {
  struct stat status;
  int file = open(path, O_RDONLY | O_NONBLOCK | O_CLOEXEC);
  check(file >= 0 && !fstat(file, &status) && S_ISREG(status.st_mode) && length >= 0 && length <= status.st_size - HEAD, "no log");
  check(length <= UINT32_MAX, "it is too long");
  const char *mapped = mmap(NULL, length + HEAD, PROT_READ, MAP_PRIVATE, file, 0);
  check(mapped != MAP_FAILED, "no log");
  text = mapped + HEAD, text_end = text + length;
  check(!length || text_end[-1] == '\n', "its last line has no end");
}

enum { LOG = 1, LENGTH, PROFILE, SHEET, SMALL, TRACE, LIMIT, GRANULES, QUARANTINE, SEEDS };  // the words

int main(int words, char **word) {
  static char buffer[1 << 16], *small_text;
  size_t small_length;
  setvbuf(stdout, buffer, _IOFBF, sizeof buffer);
  if (words <= SEEDS || words > SEEDS + MOST_SEEDS) return 2;
  open_log(word[LOG], atol(word[LENGTH]));
  stacks = larger(NULL, 0, MOST_STACKS, sizeof *stacks);
  printf("%u\n", scan());
  mte_tool_options options = MTE_TOOL_OPTIONS(strtoul(word[LIMIT], NULL, 10));
  options.granules = granules = atol(word[GRANULES]), options.quarantine = atol(word[QUARANTINE]);
  seed_count = words - SEEDS;
  make_heaps(options, word[PROFILE], word[SHEET], word + SEEDS);
  if (has_room()) trace = opened(word[TRACE]);
  if (!(small = open_memstream(&small_text, &small_length))) fail("there is no memory for it");
  perform();
  if (ferror(small) || fclose(small)) fail("there is no memory for it");
  write_log(word[SMALL], small_text, small_length);
  if (!trace) trace = opened(word[TRACE]);  // empty where it has no room
  written(trace);
  printf("%ld %ld %ld %ld\n", conflicts, events, exhausted, left_out);
  return fflush(stdout) ? 3 : 0;
}
