// Writes what AddressSanitizer sees as the lines of a log (accesses/log.c), to the file that SANITIZED names. It is loaded
// before a program that gcc or clang built with -fsanitize=address. Two lines are for what makes the log of it alone
// (scripts/mte_scripts/faults/sanitized_runs.py):
//
//   w BLOCK MADE ENDED   the stacks where the block of the error that follows was requested and freed
//   D                    AddressSanitizer ends the program, at an error after which it can't go on
//
// Neither forks nor other processes write.
#define _GNU_SOURCE
#define LONGEST_MAPPING 4400
#include "formats.h"
#include "process_text.h"
#include <dlfcn.h>
#include <link.h>
#include <pthread.h>
#include <stdarg.h>
#include <stdio.h>
#include <stdlib.h>
#include <sys/mman.h>
#include <unwind.h>

typedef uintptr_t word;
enum { FRAMES = 16, WALKED = 64, ROOM = 1 << 16, MARGIN = 1 << 13, MOST_TIMES = 16, KEPT_REGISTERS = 6, GRANULE = 16 };
enum { MOST_LINES = 4, LINE = 700 };  // of a report on a variable
static const size_t MOST_LENGTH = (size_t)1 << 30;

// of the runtime, in the program or a library of it
#define WEAK __attribute__((weak))
typedef void (*on_request)(const volatile void *, size_t);
WEAK int __sanitizer_install_malloc_and_free_hooks(on_request, void (*)(const volatile void *));
WEAK void __sanitizer_set_death_callback(void (*)(void));
WEAK void __asan_set_error_report_callback(void (*)(const char *));
WEAK void __asan_unpoison_memory_region(const volatile void *, size_t);
WEAK void *__asan_get_report_address(void);
WEAK void *__asan_get_report_pc(void);
WEAK size_t __asan_get_report_access_size(void);
WEAK int __asan_get_report_access_type(void);
WEAK const char *__asan_locate_address(void *, char *, size_t, void **, size_t *);
WEAK size_t __asan_get_alloc_stack(void *, void **, size_t, int *);
WEAK size_t __asan_get_free_stack(void *, void **, size_t, int *);

static pthread_mutex_t lock = PTHREAD_MUTEX_INITIALIZER;
static __thread int busy;
static char text[ROOM];
static size_t used, length;
static int file = -1, has_crashed;
static long blocks, written_blocks, errors;

// ---- lines

static void flush(void) {
  for (long at = 0, got; at < (long)used && (got = syscall(SYS_write, file, text + at, used - at)) > 0;) at += got;
  length += used, used = 0;
}

static void put_text(const char *format, ...) {
  va_list rest;
  va_start(rest, format);
  used += vsprintf(text + used, format, rest);
  va_end(rest);
}

static void put(char letter, int count, ...) {
  va_list numbers;
  if (used + MARGIN > ROOM) flush();
  char *at = text + used;
  *at++ = letter;
  va_start(numbers, count);
  while (count--) *at++ = ' ', at = signed_at(at, va_arg(numbers, long));
  va_end(numbers);
  used = at - text;
}

static void put_end(void) { text[used++] = '\n'; }

// the runtime tells the byte before the address that a call returns to
static void put_stack(const word *pcs, int count, int before) {
  put_text(" 0");
  for (int i = 0; i < count && i < FRAMES && pcs[i]; i++) put_text("%c%lx", i ? ',' : ':', pcs[i] + before);
}

// ---- blocks by their addresses; a freed one has its own until that is given out again

static struct entry { word at; uint32_t block; uint8_t is_live, has_request, has_end; } *table;
static size_t room, filled;

static struct entry *slot_of(word at) {
  size_t i = (at >> 4) * 0x9E3779B97F4A7C15u >> 20 & (room - 1);
  while (table[i].at && table[i].at != at) i = (i + 1) & (room - 1);
  return &table[i];
}

static struct entry *entry_of(word at) {
  if (2 * filled >= room) {
    struct entry *old = table;
    size_t before = room;
    room = room ? 2 * room : 1 << 16;
    table = mmap(NULL, room * sizeof *table, PROT_READ | PROT_WRITE, MAP_PRIVATE | MAP_ANONYMOUS, -1, 0);
    for (size_t i = 0; i < before; i++)
      if (old[i].at) *slot_of(old[i].at) = old[i];
    if (old) munmap(old, before * sizeof *old);
  }
  struct entry *found = slot_of(at);
  if (!found->at) found->at = at, filled++;
  return found;
}

static int enter(void) {
  if (file < 0 || busy++) return busy -= file >= 0, 0;
  pthread_mutex_lock(&lock);
  return 1;
}

static void leave(void) { pthread_mutex_unlock(&lock), busy--; }
static int is_logging(void) { return length < MOST_LENGTH; }

// A realloc comes as a request and a free. It is known by the function that the request's stack begins with, while its
// call has not returned.
static word of_realloc[2];
static __thread struct { word at, caller; size_t size; } resized;

static long give_out(word at) {
  struct entry *entry = entry_of(at);
  *entry = (struct entry){at, ++blocks, 1, is_logging(), 0};
  if (entry->has_request) written_blocks = blocks;
  return blocks;
}

static void put_request(word at, size_t size) {
  long block = give_out(at);
  if (is_logging()) put('m', 3, block, (long)size, 0l), put_end();
}

static void put_resized(void) {
  if (resized.at) put_request(resized.at, resized.size);
  resized.at = 0;
}

static void on_malloc(const volatile void *at, size_t size) {
  word pcs[2] = {0};
  int thread;
  if (!at || !enter()) return;
  put_resized();
  __asan_get_alloc_stack((void *)at, (void **)pcs, 2, &thread);
  if (pcs[0] != of_realloc[0] && pcs[0] != of_realloc[1]) put_request((word)at, size);
  else resized.at = (word)at, resized.size = size, resized.caller = pcs[1];
  leave();
}

// the frames of a stack, with what the functions keep in registers
static const int KEPT[KEPT_REGISTERS] = {3, 6, 12, 13, 14, 15};  // rbx, rbp, r12 to r15 of x86-64
static struct walk { int count; word pcs[WALKED], frames[WALKED], registers[WALKED][KEPT_REGISTERS]; } walk;

static _Unwind_Reason_Code see_frame(struct _Unwind_Context *context, void *unused) {
  (void)unused;
  walk.pcs[walk.count] = _Unwind_GetIP(context), walk.frames[walk.count] = _Unwind_GetCFA(context);
#ifdef __x86_64__
  for (int i = 0; i < KEPT_REGISTERS; i++) walk.registers[walk.count][i] = _Unwind_GetGR(context, KEPT[i]);
#endif
  return ++walk.count < WALKED ? _URC_NO_REASON : _URC_END_OF_STACK;
}

static int is_in_realloc(void) {
  walk.count = 0, _Unwind_Backtrace(see_frame, NULL);
  for (int i = 0; i < walk.count; i++)
    if (walk.pcs[i] == resized.caller + 1) return 1;
  return 0;
}

static void on_free(const volatile void *at) {  // before the runtime looks whether it may be freed
  if (!at || !enter()) return;
  int is_resize = resized.at && resized.at != (word)at && is_in_realloc();
  if (!is_resize) put_resized();
  struct entry *entry = slot_of((word)at);
  if (entry->at && entry->is_live) {
    long old = entry->block;
    entry->is_live = 0, entry->has_end = is_logging();
    if (is_resize && is_logging()) {
      put('r', 4, old, give_out(resized.at), (long)resized.size, 0l), put_end();
      resized.at = 0;
    } else if (is_logging()) put('f', 2, old, 0l), put_end();
  }
  put_resized();
  leave();
}

// ---- errors

static int count_added(struct dl_phdr_info *info, size_t size, void *added) {
  (void)size;
  *(long *)added = info->dlpi_adds;
  return 1;
}

static void put_module(const struct mapping *module, void *unused) {
  (void)unused;
  if (!module->path || module->mode[2] != 'x') return;
  put('M', 0), put_text(" %lx %lx %lx %s", module->low, module->high, module->offset, module->path), put_end();
}

static void put_modules(void) {
  static long known = -1;
  long added;
  dl_iterate_phdr(count_added, &added);
  if (added != known) known = added, see_mappings(put_module, NULL);
}

// Whether a frame is of the runtime, which may be in the program itself.
static int is_of_runtime(word pc) {
  static const char *const BEGINS[] = {"__interceptor_", "___interceptor_", "__asan_", "__sanitizer_", "_Zdl", "_Zda", NULL};
  Dl_info info;
  if (!dladdr((void *)(pc - 1), &info)) return 0;
  if (info.dli_fname && (strstr(info.dli_fname, "/libasan.") || strstr(info.dli_fname, "/libclang_rt."))) return 1;
  for (int i = 0; info.dli_sname && BEGINS[i]; i++)
    if (begins(info.dli_sname, BEGINS[i])) return 1;
  void *libc = info.dli_sname ? dlopen("libc.so.6", RTLD_LAZY | RTLD_NOLOAD) : NULL;
  return libc && dlsym(libc, info.dli_sname) && strcmp(info.dli_sname, "main");
}

// Finds the program's innermost frame in the walk. Whether it called a function of the runtime that made the access.
static int find_frame(word pc, int *frame) {
  int at = 0;
  walk.count = 0, _Unwind_Backtrace(see_frame, NULL);
  while (at < walk.count && walk.pcs[at] != pc) at++;
  int is_call = at == walk.count;
  if (is_call) {
    for (at = 0; at < walk.count && !is_of_runtime(walk.pcs[at]);) at++;
    while (at < walk.count && is_of_runtime(walk.pcs[at])) at++;
  }
  if (at == walk.count) walk.pcs[--at] = pc;
  *frame = at;
  return is_call;
}

// Where a call of libc begins. The runtime tells its first wrong byte, and goes on with its words: where it begins is in a
// register or the frame of the function that stands in. This is a guess: the first place that fits.
static word guess_begin(word region, word wrong, size_t size, int frame) {
  word found = wrong;
#define FITS(WORD) ((WORD) >= region && (WORD) < found && (WORD) + size > wrong)
  for (int i = 0; i < frame; i++)
    for (int k = 0; k < KEPT_REGISTERS; k++)
      if (FITS(walk.registers[i][k])) found = walk.registers[i][k];
  if (found == wrong && frame > 1)
    for (word *at = (word *)walk.frames[frame - 2]; at < (word *)walk.frames[frame - 1]; at++)
      if (FITS(*at)) found = *at;
  return found;
}

// The stacks of an error's block; and after the end of the log the records that it lacks.
static void put_block(struct entry *entry, word region, size_t size) {
  word made[FRAMES], ended[FRAMES];
  long block = entry->block;
  int thread;
  size_t n = __asan_get_alloc_stack((void *)region, (void **)made, FRAMES, &thread);
  size_t m = __asan_get_free_stack((void *)region, (void **)ended, FRAMES, &thread);
  if (!entry->has_request) put('m', 3, block, (long)size, 0l), put_end();
  if (!entry->is_live && !entry->has_end) put('f', 2, block, 0l), put_end();
  entry->has_request = 1, entry->has_end |= !entry->is_live;
  if (!is_logging()) put('d', 1, blocks - written_blocks), put_end(), written_blocks = blocks;
  put('w', 1, block), put_stack(made, n, 1), put_stack(ended, m, 1), put_end();
}

// A report takes a millisecond, so what one place does again and again in a block is told some times.
static int is_often(word pc, long block) {
  static struct { word pc; long block, times; } seen[1024];
  unsigned at = (pc * 31 + block) % 1024;
  if (seen[at].pc != pc || seen[at].block != block) seen[at].pc = pc, seen[at].block = block, seen[at].times = 0;
  return ++seen[at].times > MOST_TIMES;
}

static int put_crash(const char *what, int frame) {
  static const struct { const char *name; long number; } SIGNALS[] = {
      {"SEGV", 11}, {"BUS", 7}, {"ABRT", 6}, {"FPE", 8}, {"ILL", 4}, {"stack-overflow", 11}};
  for (size_t i = 0; i < sizeof SIGNALS / sizeof *SIGNALS; i++)
    if (begins(what, SIGNALS[i].name)) {
      const char *at = strstr(what, "0x");
      put('C', 2, SIGNALS[i].number, 1l), put_text(" %lx", at ? strtoul(at, NULL, 16) : 0);
      put_stack(walk.pcs + frame, walk.count - frame, 0), put_end();
      return has_crashed = 1;
    }
  return 0;
}

// What the report says in its text alone: the address of a wrong free, and the bytes of an overlapping copy.
static word address_in(const char *what, int is_free, int is_overlap, word at, size_t *size) {
  const char *given = is_free ? strstr(what, " 0x") : is_overlap ? strstr(what, "[0x") : strstr(what, "\n0x");
  char *rest;
  if (!given || (at && !is_free && !is_overlap)) return at;
  at = strtoul(given + 1, &rest, 16);
  if (is_overlap) *size = strtoul(rest + 1, NULL, 16) - at;
  return at;
}

// The lines of a report that tell of a variable, of which the first has the word of the error, and whether a call of libc made the access.
static void put_variable(const char *what, const char *report, int is_call) {
  static const char *const TELLING[] = {" is located ", "#0 0x", "This frame has ", "<== Memory access", NULL};
  const char *at = strstr(report, " is located "), *end;
  if (!at || !(strstr(at, "stack of thread") || strstr(at, "global variable"))) return;
  put('v', 1, errors), put_text(" %.*s%s", (int)strcspn(what, " "), what, is_call ? " call" : "");
  for (int left = MOST_LINES; left && (end = strchr(at, '\n')); at = end + 1) {
    int i = 0;
    while (TELLING[i] && !memmem(at, end - at, TELLING[i], strlen(TELLING[i]))) i++;
    if (TELLING[i]) put_text("\t%.*s", (int)(end - at < LINE ? end - at : LINE), at), left--;
  }
  put_end();
}

// the numbers of the functions that a report names: of malloc and free, of new and delete, or with brackets
static void put_mismatch(const char *what, long block) {
  const char *used_by = strstr(what, " vs ");
  long kinds[2] = {0};
  for (int i = 0; i < 2 && used_by; i++) {
    const char *name = i ? used_by + 4 : strchr(what, '(') + 1, *brackets = name + strcspn(name, "[)");
    if (begins(name, "operator ")) kinds[i] = *brackets == '[' && (i || brackets < used_by) ? 2 : 1;
  }
  put('y', 3, block, kinds[0], kinds[1]);
}

// the record's letter by the words of the report; x stands for each wrong free but those that do not fit
static char letter_of(const char *what) {
  int is_store = __asan_get_report_access_type();
  if (begins(what, "alloc-dealloc-mismatch")) return 'y';
  if (strstr(what, "double-free") || begins(what, "attempting") || begins(what, "bad-free")) return 'x';
  if (strstr(what, "param-overlap")) return 'V';
  return strstr(what, "use-after-poison") || strstr(what, "container-overflow") ? "PQ"[is_store] : "LS"[is_store];
}

static void put_access(const char *what, char letter, word at, size_t bytes, int is_call, int frame) {
  word region = 0, begin = at;
  size_t size = 0;
  char where[8];
  const char *kind = __asan_locate_address((void *)at, where, sizeof where, (void **)&region, &size);
  struct entry *entry = begins(kind, "heap") ? slot_of(region) : NULL;
  long block = entry && entry->at ? entry->block : 0;
  int is_free = letter == 'x' || letter == 'y';
  int is_open = block && is_call && !is_free && entry->is_live && at > region;
  if (block) put_block(entry, region, size);
  if (is_open) begin = guess_begin(region, at, bytes, frame);
  if (letter == 'y' && !block) return;
  if (letter == 'y') put_mismatch(what, block);
  else if (letter == 'x') put(block ? 'x' : 'n', block ? 2 : 0, block, (long)(at - region));
  else put(letter, 3, block, block ? (long)(begin - region) : letter == 'L' || letter == 'S' ? 2 : (long)at, (long)bytes);
  put_stack(walk.pcs + frame, walk.count - frame, 0), put_end(), errors++;
  int is_far = block && (at > region + size || at + bytes < region);  // the runtime names the nearest block
  if (is_far || (is_open && at < region + (size + GRANULE - 1) / GRANULE * GRANULE)) put('g', 1, errors), put_end();
  if (!is_free && bytes < ROOM && is_often(walk.pcs[frame], block)) __asan_unpoison_memory_region((void *)at, bytes);
}

static void put_error(const char *what, const char *report) {
  word pc = (word)__asan_get_report_pc();
  size_t bytes = __asan_get_report_access_size();
  char letter = letter_of(what);
  int frame;
  const char *first = strstr(report, "#0 0x"), *negative = begins(what, "negative-size") ? strstr(what, "(size=") : NULL;
  if (first) pc = strtoul(first + 3, NULL, 16) + 1;  // the interface does not say it in each kind of error
  int is_call = find_frame(pc, &frame);
  int is_free = letter == 'x' || letter == 'y';
  if (!is_free) put_resized();
  put_modules();
  if (put_crash(what, frame)) return;
  if (negative) bytes = strtol(negative + 6, NULL, 10);
  word at = address_in(what, is_free, letter == 'V', (word)__asan_get_report_address(), &bytes);
  if (!bytes && !is_free) return;  // it tells of no access
  long before = errors;
  put_access(what, letter, at, bytes, is_call, frame);
  if (errors > before && !is_free) put_variable(what, report, is_call);
}

static void on_error(const char *report) {
  const char *what = strstr(report, "AddressSanitizer: ");
  if (!what || !enter()) return;
  put_error(what + strlen("AddressSanitizer: "), report);
  put_resized(), flush(), leave();
}

// ---- the process

static void on_death(void) {
  if (!enter()) return;
  put_resized();
  if (!has_crashed) put('D', 0), put_end();
  flush(), leave();
}

static void end(int status, void *unused) {
  (void)unused;
  if (!enter()) return;
  put_resized(), put_modules(), put('e', 1, (long)status & 255), put_end(), flush(), leave();
}

static void before_fork(void) { pthread_mutex_lock(&lock), flush(); }
static void in_parent(void) { pthread_mutex_unlock(&lock); }
static void in_child(void) { close(file), file = -1, pthread_mutex_init(&lock, NULL); }

static __attribute__((constructor(101))) void begin(void) {
  const char *path = getenv("SANITIZED");
  if (!path || !__sanitizer_install_malloc_and_free_hooks || !__asan_locate_address) return;
  for (int i = 0; i < 2; i++) {
    void *volatile block = malloc(8);
    int thread;
    block = i ? reallocarray(block, 1, 99) : realloc(block, 99);
    __asan_get_alloc_stack(block, (void **)&of_realloc[i], 1, &thread), free(block);
  }
  entry_of(1);
  file = open(path, O_WRONLY | O_CREAT | O_EXCL | O_APPEND | O_CLOEXEC, 0600);
  if (file < 0) return;
  busy++, put_modules(), busy--;
  __sanitizer_install_malloc_and_free_hooks(on_malloc, on_free);
  __asan_set_error_report_callback(on_error);
  __sanitizer_set_death_callback(on_death);
  pthread_atfork(before_fork, in_parent, in_child);
  on_exit(end, NULL);
}
