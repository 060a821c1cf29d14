// Plays events on a real allocator with memory tags, each time in a fresh process, and asks which wrong accesses and frees it catches.
// It is for AArch64 with the Memory Tagging Extension, by qemu-aarch64 on other machines. scudo.cpp and glibc.c name the allocator.
//
// driver RUNS [anew] reads these lines from standard input. V and W are numbers of blocks, all else is in bytes.
//
//   m V SIZE        V = malloc(SIZE); c by calloc
//   a V SIZE ALIGNMENT  by memalign
//   r V W SIZE      W = realloc(V, SIZE)
//   f V             free(V)
//   p V W SIZE DISTANCE MOST  W = malloc(SIZE), again and again until it lies so far after V, at most so often
//   = V W DISTANCE  the run counts only if W lies so far after V
//   / V W           the run counts only if W does not lie where V does
//   L V OFFSET SIZE a wrong load, which is asked; S a wrong store
//   x V OFFSET      a wrong free of V + OFFSET, which is asked in a child; R V OFFSET SIZE a wrong realloc
//   n               a wrong free of an address on the stack, which is asked in a child
//
// It prints a line for each run: `-` for each question that is not caught, t for a tag fault, g for a fault of a page, and o where the
// allocator ends the program; or `elsewhere` where the run does not count, or `broken` where it failed. What is asked changes nothing. With
// `anew` the register of the instruction irg has another value before each request and free, so that QEMU's draws do not hang together.
#include <setjmp.h>
#include <signal.h>
#include <stdint.h>
#include <stdio.h>
#include <stdlib.h>
#include <string.h>
#include <sys/mman.h>
#include <sys/prctl.h>
#include <sys/random.h>
#include <sys/wait.h>
#include <unistd.h>

enum { MOST_EVENTS = 200000, MOST_QUESTIONS = 4096, GRANULE = 16, TAG_BITS = 56, ASYNC_CODE = 8, SYNC_CODE = 9, LINE = 256 };

typedef struct { char letter; long numbers[5]; } Event;
static Event *events;
static char **pointers;
static int event_count, question_count, draws_anew;
static sigjmp_buf back;
static volatile int is_tag_fault;

static int is_tag_code(int number, const siginfo_t *info) { return number == SIGSEGV && (info->si_code == ASYNC_CODE || info->si_code == SYNC_CODE); }

static void on_fault(int number, siginfo_t *info, void *context) {
  (void)context;
  is_tag_fault = is_tag_code(number, info);
  siglongjmp(back, 1);
}

static void on_fault_in_child(int number, siginfo_t *info, void *context) {
  (void)context;
  _exit(is_tag_code(number, info) ? 't' : 'g');
}

static void handle_faults(void (*handler)(int, siginfo_t *, void *)) {
  struct sigaction action;
  memset(&action, 0, sizeof action);
  action.sa_sigaction = handler;
  action.sa_flags = SA_SIGINFO | SA_NODEFER;
  sigaction(SIGSEGV, &action, 0);
  sigaction(SIGBUS, &action, 0);
}

static uintptr_t place_of(const char *at) { return (uintptr_t)at & ~((uintptr_t)255 << TAG_BITS); }

// A store writes what stands there, which is read with the checks of tags off.
static void touch(volatile char *byte, int is_store) {
  char value;
  if (!is_store) {
    (void)*byte;
    return;
  }
  __asm__ volatile(".arch_extension memtag\n msr tco, #1\n ldrb %w0, [%1]\n msr tco, #0" : "=r"(value) : "r"(byte) : "memory");
  *byte = value;
}

// One byte of each granule, as a processor meets them.
static char ask_access(char *at, long size, int is_store) {
  handle_faults(on_fault);
  if (sigsetjmp(back, 1)) {
    __asm__ volatile(".arch_extension memtag\n msr tco, #0" ::: "memory");
    return is_tag_fault ? 't' : 'g';
  }
  for (long done = 0; done < size; done += GRANULE - (long)((uintptr_t)(at + done) % GRANULE)) touch(at + done, is_store);
  return '-';
}

static char ask_free(char *at, int is_realloc, long size) {
  pid_t child = fork();
  if (!child) {
    if (!freopen("/dev/null", "w", stderr)) _exit('?');
    handle_faults(on_fault_in_child);
    if (is_realloc) the_realloc(at, size);
    else the_free(at);
    _exit('-');
  }
  int status = 0;
  waitpid(child, &status, 0);
  return WIFSIGNALED(status) ? 'o' : WEXITSTATUS(status);
}

// The instruction irg steps a register of QEMU's, which a child has from its parent.
static void draw_anew(unsigned most) {
  uint16_t many = 0;
  if (getrandom(&many, sizeof many, 0) != sizeof many) abort();
  for (unsigned i = 0; i < (many & most); i++) {
    uintptr_t tagged;
    __asm__ volatile(".arch_extension memtag\n irg %0, %1, xzr" : "=r"(tagged) : "r"(&many));
  }
}

static int search(const Event *event) {
  const long *n = event->numbers;
  for (long tries = 0; tries < n[4]; tries++) {
    pointers[n[1]] = the_malloc(n[2]);
    if (place_of(pointers[n[1]]) == place_of(pointers[n[0]]) + n[3]) return 1;
  }
  return 0;
}

static char ask(const Event *event) {
  const long *n = event->numbers;
  static char on_stack_for_ever[64];
  char on_stack[64] __attribute__((aligned(16)));
  memcpy(on_stack, on_stack_for_ever, sizeof on_stack);
  switch (event->letter) {
    case 'L': return ask_access(pointers[n[0]] + n[1], n[2], 0);
    case 'S': return ask_access(pointers[n[0]] + n[1], n[2], 1);
    case 'x': return ask_free(pointers[n[0]] + n[1], 0, 0);
    case 'R': return ask_free(pointers[n[0]] + n[1], 1, n[2]);
    default: return ask_free(on_stack + 32, 0, 0);
  }
}

static int is_question(char letter) { return letter == 'L' || letter == 'S' || letter == 'x' || letter == 'R' || letter == 'n'; }

// Whether the run counts.
static int play_one(const Event *event) {
  const long *n = event->numbers;
  switch (event->letter) {
    case 'm': pointers[n[0]] = the_malloc(n[1]); break;
    case 'c': pointers[n[0]] = the_calloc(n[1]); break;
    case 'a': pointers[n[0]] = the_memalign(n[2], n[1]); break;
    case 'r': pointers[n[1]] = the_realloc(pointers[n[0]], n[2]); break;
    case 'f': the_free(pointers[n[0]]); break;
    case 'p': return search(event);
    case '=': return place_of(pointers[n[1]]) == place_of(pointers[n[0]]) + n[2];
    case '/': return place_of(pointers[n[1]]) != place_of(pointers[n[0]]);
  }
  return 1;
}

static int play(char *answers) {
  for (const Event *event = events; event < events + event_count; event++) {
    if (draws_anew) draw_anew(255);
    if (is_question(event->letter)) *answers++ = ask(event);
    else if (!play_one(event)) return 0;
  }
  return 1;
}

static void refuse(const char *why) {
  fprintf(stderr, "driver: %s\n", why);
  exit(2);
}

// the letters, and how many numbers follow each
static const char letters[] = "mcarfp=/LSxRn", needed[] = {2, 2, 3, 3, 1, 5, 3, 2, 3, 3, 2, 3, 0};

// The larger of the numbers that name blocks.
static long read_event(const char *line, Event *event) {
  long *n = event->numbers;
  const char *known = strchr(letters, line[0]);
  int count = sscanf(line + 1, "%ld %ld %ld %ld %ld", n, n + 1, n + 2, n + 3, n + 4);
  if (!known || !*known || (count < 0 ? 0 : count) < needed[known - letters]) refuse("a line is wrong");
  event->letter = line[0];
  long other = strchr("rp=/", line[0]) ? n[1] : 0;
  if (n[0] < 0 || n[0] > MOST_EVENTS || other < 0 || other > MOST_EVENTS) refuse("a block is wrong");
  return n[0] > other ? n[0] : other;
}

static void read_events(void) {
  char line[LINE];
  long most = 0;
  events = (Event *)calloc(MOST_EVENTS, sizeof *events);
  while (fgets(line, sizeof line, stdin)) {
    if (event_count == MOST_EVENTS) refuse("there are too many events");
    long largest = read_event(line, &events[event_count++]);
    if (largest > most) most = largest;
    question_count += is_question(line[0]);
  }
  if (question_count > MOST_QUESTIONS) refuse("there are too many questions");
  pointers = (char **)calloc(most + 1, sizeof *pointers);
}

static void one_run(char *answers) {
  memset(answers, 0, MOST_QUESTIONS + 2);
  pid_t child = fork();
  if (!child) {
    draw_anew(65535);
    start();
    if (!play(answers + 1)) answers[0] = 'e';
    else answers[0] = 'd';
    _exit(0);
  }
  int status = 0;
  waitpid(child, &status, 0);
  puts(answers[0] == 'd' ? answers + 1 : answers[0] == 'e' ? "elsewhere" : "broken");
}

int main(int count, char **words) {
  long runs = count > 1 ? atol(words[1]) : 1;
  draws_anew = count > 2 && !strcmp(words[2], "anew");
  // PR_SET_TAGGED_ADDR_CTRL: tagged addresses, synchronous faults, all tags but 0
  if (prctl(55, 1ul | 1ul << 1 | 0xfffeul << 3, 0, 0, 0)) refuse("there is no Memory Tagging Extension");
  read_events();
  char *answers = (char *)mmap(0, MOST_QUESTIONS + 2, PROT_READ | PROT_WRITE, MAP_SHARED | MAP_ANONYMOUS, -1, 0);
  if (answers == MAP_FAILED) refuse("there is no memory");
  setvbuf(stdout, 0, _IOLBF, 0);
  for (long run = 0; run < runs; run++) one_run(answers);
  return 0;
}
