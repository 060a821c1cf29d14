// The log: a head, and a text with a record in each line. Numbers are decimal, addresses of the program hexadecimal:
//
//   m BLOCK SIZE STACK         a malloc; c a calloc; blocks are numbered from 1
//   a BLOCK ALIGNMENT          it was requested with this alignment, which is larger than malloc's
//   r OLD NEW SIZE STACK       a realloc; f BLOCK STACK a free
//   l BLOCK OFFSET SIZE        a right load; s a right store
//   L BLOCK OFFSET SIZE STACK  a wrong load; S a wrong store; block 0 stands for a freed one that is forgotten, or with the offset 1 for
//                              an address that was never given out, or with 2 for memory that is not the heap's; a size that no object
//                              can have is a negative number
//   P BLOCK OFFSET SIZE STACK  a load of bytes that the program poisoned; Q a store
//   p BLOCK OFFSET SIZE STACK  the program poisons bytes; u it unpoisons them; as in P and Q, block 0 stands for memory that is not the heap's,
//                              and the offset is the address then
//   k BLOCK                    a block that is lost at the end; the block 0 says that all such are told
//   q BLOCK                    a block to which the stack alone has a pointer at the end, which may be an old one
//   V BLOCK OFFSET SIZE STACK  a copy whose two places overlap, by where it stores
//   i BLOCK                    the program asks to pass over the block where what it left unfreed is told
//   - NUMBER                   the wrong access or free of this number, counted from 1, is taken back
//   y BLOCK MADE USED STACK    a free that does not fit what made the block: 0 malloc or free, 1 new or delete, 2 new[] or delete[], and
//                              used also 3 realloc. The free follows
//   x BLOCK OFFSET STACK       a wrong free of an address of a block; o STACK of a forgotten one, n STACK of one that was never given out
//   + NUMBER TIMES             the wrong access of this number came so often, where that is more than once
//   C SIGNAL CODE ADDRESS STACK  the signal that ends the program, the kernel's code of it, and the address that was not to be had
//   e STATUS                   the exit status
//   M LOW HIGH OFFSET PATH     a file that is mapped with code
//   g NUMBER                   where the wrong access of this number begins, or of which block it is, is a guess
//   v NUMBER TEXT              of which variable the wrong access of this number is, as AddressSanitizer's report has it
//   h                          handlers of signals requested blocks that have no record
//   d COUNT                    here stood so many requests, and their frees, of blocks that were dropped
//   z SIZE COUNT               so many blocks of this size were dropped in all; a size above LARGEST_SIZE stands for all of these
//   t STACK                    a stack that was of a dropped record first
//
// A log that has grown to MOST_LOG is written anew without the blocks that no error can name any more: the addresses of a freed block have no
// owner once all blocks of its mebibyte are freed, and 64 MiB more were. Their numbers are used again. A fork's log goes on from its parent's: its head
// has the name of that, and how much of the text is its own log's too. So this part is never written anew.
//
// A stack is NUMBER:PC,PC,.. at its first time, the innermost of at most 16 return addresses first, and later NUMBER.
// The file is mapped, so that a killed program leaves its log. The head has the length of the text, its checksum, and whether the program came
// to its end. So what a wild store, a cut or an end in the middle of a record did to the log is seen. It is written after each record of what
// is wrong, and after some hundred bytes of others, so of a killed program the last requests may be missing.
#include "accesses.h"
#include "../checksum.h"
#include "../formats.h"
#include "../log_head.h"
#include "../private_folder.h"
#include <sys/resource.h>

enum { MARGIN = 8192, LEAST_ROOM = 2048, MOST_UNMARKED = 512 };
#define PIECE ((size_t)8 << 20)
#define FIRST_PIECE ((size_t)12 << 10)
#define LOG_SIZE ((size_t)1 << 30)
#ifndef MOST_LOG
#define MOST_LOG ((size_t)128 << 20)
#endif

long not_logged;
static char *log_start, *log_end;  // up to its end the file has memory
static char *text;                 // where the next byte goes; null while nothing is logged
static char *ended;                // where the last whole record ends
static char *marked;               // where the text that the head speaks of ends
static uint32_t sum;
static enum end state = RUNNING;
static int is_full;                // it can't grow
static unsigned long logged;       // requests of the program by then
static pid_t process;
static const char *pattern;
static char log_name[MOST_NAME];
static struct { dev_t device; ino_t number; } log_file;
static unsigned long all_dropped;       // blocks
static struct origin origin;            // of a fork's log,
static uint32_t origin_sum;             // and the sum of its text
static size_t fixed = HEAD;             // where what forks have too ends
static size_t next_writing = MOST_LOG;  // how long the log is when it is written anew

void put_text(const char *from) {
  while (*from) *text++ = *from++;
}

void put_number(unsigned long value, unsigned base) {
  text = base == 10 ? decimal_at(text, value) : hexadecimal_at(text, value);
}

static void write_mark(void) {
  struct head *head = (struct head *)log_start;
  static int turn;
  sum = crc(sum, marked, ended - marked);
  marked = ended;
  struct mark mark = {origin.length + (marked - log_start - HEAD), sum, not_logged, state, 0};
  mark.check = folded(&mark.length, 4);
  copy_bytes(head->form, FORM, sizeof FORM);
  head->dropped = all_dropped, head->origin = origin;
  head->marks[turn = !turn] = mark;
  __atomic_store_n(&head->turn, turn, __ATOMIC_RELEASE);
}

static long wrong_records;
static int has_to_mark;
long number_of_wrong(void) { return wrong_records; }

void put_end(void) {
  *text++ = '\n';
  ended = text;
  if (has_to_mark || ended - marked >= MOST_UNMARKED) write_mark();
}

// A record that a crash broke off is forgotten.
void drop_begun(void) {
  if (text) text = ended;
}

// a record of a wrong access, by its number
void take_back(long number) {
  if (number && has_room()) put_record('-', 1, number), put_end();
}

// The log again, by its name, since the program may have closed each file that it did not open; -1 where another file has that name now.
static int open_again(void) {
  const char *wrong;
  struct stat status;
  int file = open_private(log_name, 0, &wrong);
  if (file < 0 || (!status_of(file, &status) && status.st_dev == log_file.device && status.st_ino == log_file.number)) return file;
  syscall(SYS_close, file);
  return -1;
}

static void write_anew(void);

static int grow(void) {
  if ((size_t)(log_end - log_start) >= next_writing) {
    write_anew();
    if (text + MARGIN <= log_end) return 1;
  }
  int error = errno, file = -1;
  struct rlimit limit;
  size_t size = log_end - log_start, piece = size < FIRST_PIECE || state == ENDED ? FIRST_PIECE : size < PIECE ? size : PIECE;
  if (size + piece <= LOG_SIZE && !getrlimit(RLIMIT_FSIZE, &limit) && limit.rlim_cur >= size + piece)
    file = open_again();
  if (file >= 0) {
    long failed = syscall(SYS_fallocate, file, 0, size, piece);
    if (failed && (errno == EOPNOTSUPP || errno == ENOSYS)) failed = syscall(SYS_ftruncate, file, size + piece);
    if (!failed) log_end += piece;
    syscall(SYS_close, file);
  }
  if ((size_t)(log_end - log_start) == size) {
    state = CUT, is_full = 1, logged = requests;
    if (size) write_mark();
    else text = NULL;
  }
  errno = error;
  return !is_full;
}

int has_log(void) { return text != NULL; }
int is_logging(void) { return text && !is_full && (text + MARGIN <= log_end || grow()); }
int has_room(void) { return is_logging() || (text && text + LEAST_ROOM <= log_end); }

void put_missing(struct block *block) {
  if (!is_full) return;
  long number = block ? block - BLOCKS : 0;
  if (block && !block->has_request) put_record('m', 3, number, (long)block->size, 0l), put_end(), block->has_request = 1;
  if (block && block->state == FREED && !block->has_end) put_record('f', 2, number, 0l), put_end(), block->has_end = 1;
  put_record('d', 1, (long)(requests - logged)), put_end();
  logged = requests;
}

void put_numbers(char kind, int count, const long *numbers) {
  static const uint8_t WRONG['z' + 1] = {['L'] = 1, ['S'] = 1, ['P'] = 1, ['Q'] = 1, ['V'] = 1, ['x'] = 1, ['y'] = 1, ['o'] = 1, ['n'] = 1};
  int is_wrong = WRONG[(int)kind];
  wrong_records += is_wrong;
  if (is_wrong && count) BLOCKS[numbers[0]].has_error = 1;
  has_to_mark = is_wrong || kind == 'C' || kind == '-';
  char *at = text;
  *at++ = kind;
  for (int i = 0; i < count; i++) *at++ = ' ', at = signed_at(at, numbers[i]);
  text = at;
}

// The name of the log of this process. Whether it has %p, where each process has a log of its own; -1 where it is too long.
static int name_log(char **end) {
  int is_one_of_many = 0;
  char *to = log_name;
  for (const char *from = pattern; *from; from++) {
    if (to >= log_name + MOST_NAME - 32) return -1;
    if (from[0] != '%' || from[1] != 'p') {
      *to++ = *from;
      continue;
    }
    to = decimal_at(to, syscall(SYS_getpid));
    from++;
    is_one_of_many = 1;
  }
  *to = 0, *end = to;
  return is_one_of_many;
}

// A new file of this process alone; -1 where there is none.
static int make_log(void) {
  char *end = log_name;
  const char *wrong = NULL;
  int is_one_of_many = name_log(&end), file = is_one_of_many < 0 ? -1 : open_private(log_name, O_CREAT | O_EXCL, &wrong);
  for (char again = '2'; file < 0 && !wrong && is_one_of_many > 0 && again <= '9'; again++) {  // the process has run another program before
    end[0] = '.', end[1] = again, end[2] = 0;
    file = open_private(log_name, O_CREAT | O_EXCL, &wrong);
  }
  static const char begin[] = "traced_cc: ACCESSES: ", rest[] = "; nothing is logged\n";
  if (wrong && syscall(SYS_write, 2, begin, sizeof begin - 1) > 0 && syscall(SYS_write, 2, wrong, strlen(wrong)) > 0)
    syscall(SYS_write, 2, rest, sizeof rest - 1);
  return file;
}

// The file is the log, which is empty then. Whether it is.
static int map_log(int file) {
  struct stat status;
  char *mapped = file < 0 ? MAP_FAILED : mmap(NULL, LOG_SIZE, PROT_READ | PROT_WRITE, MAP_SHARED, file, 0);
  if (file >= 0 && !status_of(file, &status)) log_file.device = status.st_dev, log_file.number = status.st_ino;
  if (file >= 0) syscall(SYS_close, file);
  if (mapped == MAP_FAILED) return 0;
  log_start = log_end = mapped, text = ended = marked = log_start + HEAD;
  return is_logging();
}

static unsigned long drop_counts[2][LARGEST_SIZE + 2];  // blocks of each size: in all, and by the writing that goes on
static unsigned long gap;                           // blocks that were dropped since the line before

static void keep_text(const char *from, const char *to) { copy_bytes(text, from, to - from), ended = text += to - from; }

static int drop(long number, size_t size) {
  if (!drop_block(number)) return 0;
  drop_counts[1][size <= LARGEST_SIZE ? size : LARGEST_SIZE + 1]++, gap++;
  return 1;
}

// how many of the numbers of a line are looked at: all that are before its stack
static int count_of(char letter) {
  switch (letter) {
    case 'r': case 'p': case 'u': return 3;
    case 'm': case 'c': return 2;
    case 'f': case 'a': case 'i': case 'l': case 's': case 'd': return 1;
  }
  return 0;
}

// Writes what is left of a line that ends at `to`.
static void keep_line(const char *from, const char *to) {
  char letter = *from;
  int count = count_of(letter);
  long number[3] = {0};
  const char *at = from + 1;
  for (int i = 0; i < count; i++)
    for (at++; *at >= '0' && *at <= '9'; at++) number[i] = number[i] * 10 + *at - '0';
  if (letter == 'd') gap += number[0];
  if (letter == 'd' || letter == 'z') return;
  int is_dropped = BLOCKS[number[0]].state == DROPPED, is_moved = letter == 'r' && is_dropped;
  if (letter == 'm' || letter == 'c') is_dropped = drop(number[0], number[1]);
  if (is_moved) is_dropped = drop(number[1], number[2]);
  if (is_dropped) {
    const char *stack = at + 1;
    while (at < to && *at != ':') at++;
    if (at < to && *stack != '0') put_text("t "), keep_text(stack, to + 1);
    return;
  }
  if (gap && letter != 'M' && letter != 't') put_record('d', 1, (long)gap), put_end(), gap = 0;
  if (is_moved) put_record('m', 2, number[1], number[2]), keep_text(at, to + 1);
  else keep_text(from, to + 1);
}

// Writes the new text of an old one. Whether there was room.
static int keep_lines(const char *from, const char *to) {
  const char *at = from + fixed;
  while (!is_full && text + fixed + MARGIN > log_end) grow();
  if (!is_full) keep_text(from + HEAD, at);
  for (const char *end = at; at < to && is_logging(); at = ++end) {
    while (*end != '\n') end++;
    keep_line(at, end);
  }
  if (gap && is_logging()) put_record('d', 1, (long)gap), put_end();
  for (long size = 0; size < LARGEST_SIZE + 2 && is_logging(); size++) {
    unsigned long count = drop_counts[0][size] + drop_counts[1][size];
    if (count) put_record('z', 2, size, (long)count), put_end();
  }
  return is_logging();
}

// Nothing that stands in the fixed part is counted again.
static void forget_dropped(void) { fill_bytes(drop_counts[0], 0, sizeof drop_counts[0]); }

static void write_anew(void) {
  char *start = log_start, *end = log_end, *old = text, *old_mark = marked, name[MOST_NAME];
  uint32_t old_sum = sum;
  const char *wrong;
  __typeof__(log_file) old_file = log_file;
  size_t length = strlen(log_name);
  int error = errno;
  copy_bytes(name, log_name, length + 1), copy_bytes(log_name + length, "~", 2);
  next_writing = LOG_SIZE, gap = 0, sum = origin_sum;
  int file = open_private(log_name, O_CREAT | O_EXCL, &wrong), is_done = map_log(file) && keep_lines(start, old);
  if (is_done) write_mark(), is_done = !syscall(SYS_renameat, AT_FDCWD, log_name, AT_FDCWD, name);
  if (is_done) munmap(start, LOG_SIZE);
  else {
    if (file >= 0) syscall(SYS_unlinkat, AT_FDCWD, log_name, 0);
    if (log_start != start) munmap(log_start, LOG_SIZE);
    log_start = start, log_end = end, text = ended = old, marked = old_mark, sum = old_sum, log_file = old_file;
    state = RUNNING, is_full = 0;
  }
  for (int size = 0; size < LARGEST_SIZE + 2; size++) {
    unsigned long more = is_done ? drop_counts[1][size] : 0;
    drop_counts[0][size] += more, all_dropped += more, drop_counts[1][size] = 0;
  }
  end_drop(is_done), write_mark();
  copy_bytes(log_name, name, length + 1);
  size_t next = 2 * (text - log_start);
  next_writing = next > MOST_LOG ? next : MOST_LOG;
  errno = error;
}

// Where there is a log already, as in a fork, the new one goes on from it.
static void open_log(void) {
  char *old = log_end ? log_start : NULL;
  if (old && ended > old + HEAD) {
    const char *name = strrchr(log_name, '/') + 1;
    origin.length += ended - old - HEAD;
    copy_bytes(origin.name, name, strlen(name) + 1);
    origin_sum = sum = crc(sum, marked, ended - marked);
  }
  text = NULL, fixed = HEAD, next_writing = MOST_LOG, forget_dropped();
  if (map_log(make_log())) process = syscall(SYS_getpid), write_mark();
  if (old) munmap(old, LOG_SIZE);
}

static int has_forks_logs(void) {
  const char *name = strrchr(log_name, '/');
  return text && strstr(pattern, "%p") && name && strlen(name) <= sizeof origin.name;
}

static void before_fork(void) { pthread_mutex_lock(&accesses_lock); }

static void in_parent(void) {
  if (has_forks_logs()) fixed = ended - log_start, forget_dropped();
  pthread_mutex_unlock(&accesses_lock);
}

// a child has a log of its own, or none
static void in_child(void) {
  pthread_mutex_init(&accesses_lock, NULL);
  pthread_mutex_init(&tell_lock, NULL);
  if (!text) return;
  if (has_forks_logs() && !is_full) open_log();
  else munmap(log_start, LOG_SIZE), text = NULL;
}

// The program may go to another folder before its log grows.
static void make_absolute(void) {
  static char absolute[MOST_NAME];
  char here[MOST_NAME];
  if (*pattern == '/' || syscall(SYS_getcwd, here, sizeof here) < 0) return;
  if (strlen(here) + strlen(pattern) + 2 <= sizeof absolute && join(absolute, here, strlen(here), pattern)) pattern = absolute;
}

// The file has no more memory than its text.
static void end_file(void) {
  size_t size = round_up(text - log_start, 4096);
  int file = size < (size_t)(log_end - log_start) ? open_again() : -1;
  if (file < 0) return;
  if (!syscall(SYS_ftruncate, file, size)) log_end = log_start + size;
  syscall(SYS_close, file);
}

// The program came to its end, which may also be in a handler of a signal that came in the runtime, or in a child that has the memory of
// its parent until it runs another program. What other threads do from now on is still logged.
void end_log(int status) {
  if (!text || process != syscall(SYS_getpid)) return;
  int is_held = busy++ ? !pthread_mutex_trylock(&accesses_lock) : !pthread_mutex_lock(&accesses_lock);
  if (is_held && state == RUNNING && status >= NO_STATUS && is_logging()) put_lost((address)__builtin_frame_address(0));
  if (is_held && state != ENDED && has_room()) put_times();
  if (is_held && state != ENDED && has_unrecorded && has_room()) put_record('h', 0, 0l), put_end();
  if (is_held && status >= 0 && has_room()) put_record('e', 1, (long)status & 255), put_end();
  if (state == RUNNING) state = status == HALTS ? HALTED : ENDED;
  if (text) write_mark(), end_file();
  if (is_held) pthread_mutex_unlock(&accesses_lock);
  busy--;
  if (!busy) tell_guess();
  if (has_to_tell && !busy) tell();
}

// As AddressSanitizer does at its first error: nothing of the program runs any more, and its options say the exit status.
int is_halting;
void halt(void) {
  const char *options = getenv("ASAN_OPTIONS"), *status = options ? strstr(options, "exitcode=") : NULL;
  end_log(HALTS);
  for (;;) syscall(SYS_exit_group, status ? atoi(status + strlen("exitcode=")) : 1);
}

static __attribute__((destructor)) void stop(void) { end_log(NO_STATUS); }
static void stop_with(int status, void *unused) { (void)unused, end_log(status); }

// Whether this process is to be logged.
static int is_to_log(void) {
  const char *only = getenv("ACCESSES_ONLY");
  pattern = getenv("ACCESSES");
  return pattern && (!only || !strcmp(only, program_invocation_short_name));
}

// A log of the program's name alone.
static void write_small_log(void) {
  static struct { struct head head; char text[MOST_NAME + 16]; } small;
  make_absolute();
  int file = make_log();
  log_start = (char *)&small, text = ended = marked = small.text;
  put_text("M 0 0 0 ");
  long length = syscall(SYS_readlink, "/proc/self/exe", text, MOST_NAME);
  if (length > 0 && !memchr(text, '\n', length)) text += length, put_end();
  write_mark();
  if (file >= 0 && syscall(SYS_write, file, &small, ended - log_start) > 0) syscall(SYS_close, file);
}

// Without room for the runtime's tables the program ends, mostly at its start. A log says so, since the program's own output may be lost.
void end_without_room(void) {
  state = NO_ROOM;
  if (text) write_mark();
  else if (!log_start && is_to_log()) write_small_log();
  text = NULL;
}

// Requests of constructors that ran before are logged now.
static __attribute__((constructor(101))) void start(void) {
  static const char unasked[] = "traced_cc: the program's requests go to another malloc, so no error is seen and nothing is logged; where "
                                "only a library that it loads is traced, find_faults --preload sees them\n";
  begin();
  if (!is_to_log()) return;
  if (!is_asked()) {
    syscall(SYS_write, 2, unasked, sizeof unasked - 1);
    return;
  }
  is_halting = getenv("ACCESSES_HALT") != NULL;
  enter();
  make_absolute();
  open_log();
  if (is_logging()) learn_modules();
  for (uint32_t number = 1; number <= number_of_blocks() && is_logging(); number++) {
    if (BLOCKS[number].state == UNUSED) continue;
    put_record('m', 3, (long)number, (long)BLOCKS[number].size, 0l), put_end();
    if (BLOCKS[number].state == FREED) put_record('f', 2, (long)number, 0l), put_end();
    BLOCKS[number].has_request = 1, BLOCKS[number].has_end = BLOCKS[number].state == FREED;
  }
  int is_begun = is_logging();
  leave();
  pthread_atfork(before_fork, in_parent, in_child);
  at_quick_exit(stop);
  on_exit(stop_with, NULL);
  if (is_begun) watch_for_crashes();
}

SHOWN void _exit(int status) {
  end_log(status);
  for (;;) syscall(SYS_exit_group, status);
}
SHOWN void _Exit(int status) { _exit(status); }
