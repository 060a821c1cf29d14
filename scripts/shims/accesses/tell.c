// Tells on standard error what is wrong as soon as it comes: a line for each place in the code, and kind. addr2line of binutils names the
// source lines. It is run as a child of which the program gets no signal, and for which it can't wait.
#include "accesses.h"
#include <poll.h>
#include <sched.h>
#include <signal.h>
#include <elf.h>
#include <sys/wait.h>

enum { MOST_TOLD = 64, MOST_ASKED = 6, MOST_ANSWER = 16384, MOST_VARIABLES = 1000, WAIT = 10 /* seconds */ };
__thread int has_to_tell __attribute__((tls_model("initial-exec")));
static __thread struct wrong pending[2] __attribute__((tls_model("initial-exec")));  // the second where a guess was told first
pthread_mutex_t tell_lock = PTHREAD_MUTEX_INITIALIZER;
struct wrong last_told;
void (*report_callback)(const char *);

void will_tell(const struct wrong *wrong) {
  if (has_to_tell < 2) pending[has_to_tell++] = *wrong;
}

struct line { size_t length; char text[2048]; };

static void add(struct line *line, const char *text) {
  for (; *text && line->length < sizeof line->text - 2; text++) line->text[line->length++] = *text >= ' ' && *text != 127 ? *text : '?';
}

static void add_number(struct line *line, unsigned long value, unsigned base) {
  char digits[24], *at = digits + sizeof digits - 1;
  *at = 0;
  do *--at = "0123456789abcdef"[value % base];
  while (value /= base);
  add(line, at);
}

static void add_count(struct line *line, long number, const char *word) {
  add_number(line, number, 10), add(line, " "), add(line, word);
  if (number != 1) add(line, "s");
}

// the bytes of a file from an offset on
static long read_at(int file, void *to, size_t size, long offset) { return syscall(SYS_pread64, file, to, size, offset); }

// the address in a module's file that addr2line knows; 0 where there is none
static address address_in_file(const struct module *module, address pc) {
  Elf64_Ehdr head;
  Elf64_Phdr part;
  address offset = pc - module->low + module->offset, found = 0;
  int file = syscall(SYS_openat, AT_FDCWD, module->path, O_RDONLY | O_CLOEXEC | O_NONBLOCK);
  if (file < 0) return 0;
  if (read_at(file, &head, sizeof head, 0) == sizeof head && !memcmp(head.e_ident, ELFMAG, SELFMAG) && head.e_ident[EI_CLASS] == ELFCLASS64)
    for (int i = 0; i < head.e_phnum; i++)
      if (read_at(file, &part, sizeof part, head.e_phoff + (long)i * head.e_phentsize) == sizeof part && part.p_type == PT_LOAD &&
          part.p_offset <= offset && offset < part.p_offset + part.p_filesz)
        found = offset - part.p_offset + part.p_vaddr;
  syscall(SYS_close, file);
  return found;
}

struct question { char *words[8], **variables; int answer; };

// the child has the memory of the program until it is another program
static int become_addr2line(void *data) {
  struct question *question = data;
  char path[1024];
  int none = syscall(SYS_openat, AT_FDCWD, "/dev/null", O_RDWR);
  syscall(SYS_dup3, none, 0, 0), syscall(SYS_dup3, none, 2, 0), syscall(SYS_dup3, question->answer, 1, 0);
  const char *folder = getenv("PATH");
  if (!folder) folder = "/usr/bin";
  while (*folder) {
    size_t length = strcspn(folder, ":");
    if (length && length < sizeof path - 16) {
      memcpy(path, folder, length), memcpy(path + length, "/addr2line", 11);
      syscall(SYS_execve, path, question->words, question->variables);
    }
    folder += length + (folder[length] == ':');
  }
  return syscall(SYS_exit, 127);
}

// what addr2line says of a place: a line with a function and one with a source, for each frame that was inlined there
static size_t ask(const struct module *module, address in_file, char *answer, size_t room) {
  static _Alignas(16) char stack[1 << 15];
  static char *variables[MOST_VARIABLES + 1];  // without the runtime, which --preload would put before addr2line too
  int count = 0;
  for (char **at = environ; *at && count < MOST_VARIABLES; at++)
    if (!begins(*at, "LD_PRELOAD=") && !begins(*at, "ACCESSES")) variables[count++] = *at;
  struct line number = {0};
  int ends[2];
  size_t length = 0;
  add(&number, "0x"), add_number(&number, in_file, 16), number.text[number.length] = 0;
  if (syscall(SYS_pipe2, ends, O_CLOEXEC)) return 0;
  for (int i = 0; i < 2; i++) {  // the program may have closed the first three
    int high = syscall(SYS_fcntl, ends[i], F_DUPFD_CLOEXEC, 3);
    syscall(SYS_close, ends[i]), ends[i] = high;
  }
  struct question question = {{"addr2line", "-f", "-C", "-i", "-e", (char *)module->path, number.text, NULL}, variables, ends[1]};
  pid_t child = ends[1] < 0 ? -1 : clone(become_addr2line, stack + sizeof stack, CLONE_VM | CLONE_VFORK, &question);
  syscall(SYS_close, ends[1]);
  struct pollfd wait = {ends[0], POLLIN, 0};
  struct timespec most = {WAIT, 0};
  while (child > 0 && length < room - 1 && syscall(SYS_ppoll, &wait, 1, &most, NULL, 0) > 0) {
    long got = syscall(SYS_read, ends[0], answer + length, room - 1 - length);
    if (got <= 0) break;
    length += got;
  }
  syscall(SYS_close, ends[0]);
  if (child > 0) syscall(SYS_kill, child, SIGKILL), syscall(SYS_wait4, child, NULL, __WALL, NULL);
  answer[length] = 0;
  return length;
}

// the next part of a path, its length in *LENGTH; empty parts and `.` are passed over
static const char *next_name(const char *at, size_t *length) {
  do at += strspn(at, "/"), *length = strcspn(at, "/");
  while (*length == 1 && *at == '.' && (at += 1));
  return at;
}

// Whether a file is the program's, and not the system's: one of a system's folders, by whatever way, or a header of a C++ library.
// scripts/mte_scripts/faults/fault_places.py has the same rule.
static int is_own(const char *path) {
  static const char *const SYSTEM[] = {"usr/lib", "usr/lib64", "lib", "lib64", "usr/include"};
  char whole[MOST_NAME];
  size_t length, end = 0;
  if (*path == '?') return 0;
  if (*path != '/' || strlen(path) >= sizeof whole) return !strstr(path, "/include/c++/");
  for (const char *at = next_name(path, &length); length; at = next_name(at + length, &length)) {
    if (length == 2 && !memcmp(at, "..", 2)) {
      while (end && whole[--end] != '/') {}
      continue;
    }
    if (end) whole[end++] = '/';
    memcpy(whole + end, at, length), end += length;
  }
  whole[end] = 0;
  for (size_t i = 0; i < sizeof SYSTEM / sizeof *SYSTEM; i++) {
    size_t folder = strlen(SYSTEM[i]);
    if (!strncmp(whole, SYSTEM[i], folder) && whole[folder] == '/') return 0;
  }
  return !strstr(whole, "/include/c++/");
}

// where a function's parameters begin: those of lambdas' names and of templates' values are before
static char *parameters(char *at) {
  int inside = 0;
  for (; *at && (*at != '(' || inside > 0 || begins(at, "(anonymous namespace)")); at++)
    if (begins(at, "operator()")) at += strlen("operator()") - 1;
    else if (begins(at, "operator")) for (at += strlen("operator") - 1; at[1] && strchr("-<>=!", at[1]);) at++;
    else inside += (*at == '<' || *at == '{' || *at == '(') - (*at == '>' || *at == '}' || *at == ')');
  return at;
}

static void add_source(struct line *line, char *source, char *function) {
  static char here[MOST_NAME];
  char *note = strstr(source, " ("), *slash = strrchr(source, '/');
  if (note) *note = 0;
  long length = syscall(SYS_getcwd, here, sizeof here) - 1;
  if (length > 0 && begins(source, here) && source[length] == '/') source += length + 1;
  else if (slash) source = slash + 1;
  while (begins(source, "./")) source += 2;
  *parameters(function) = 0;
  add(line, source), add(line, " in "), add(line, function);
}

// the innermost place in the program's own sources
static void add_place(struct line *line, const struct stack *stack) {
  static char answer[MOST_ANSWER];
  int asked = 0;
  const char *name = NULL;
  address offset = 0;
  for (int i = 0; i < stack->count && asked < MOST_ASKED; i++) {
    const struct module *module = module_of(stack->pcs[i] - 1);
    if (!module || !module->path || strstr(module->path, "/libmte_accesses.so")) continue;
    if (!name) name = strrchr(module->path, '/') + 1, offset = stack->pcs[i] - module->low + module->offset;
    address in_file = is_own(module->path) ? address_in_file(module, stack->pcs[i]) : 0;
    if (!in_file) continue;
    asked++;
    ask(module, in_file - 1, answer, sizeof answer);
    for (char *function = answer, *source, *end; (source = strchr(function, '\n')) && (end = strchr(source + 1, '\n')); function = end + 1) {
      *source++ = 0, *end = 0;
      if (is_own(source)) return add_source(line, source, function);
    }
  }
  if (!name) return add(line, "an unknown place");
  add(line, name), add(line, "+0x"), add_number(line, offset, 16);
}

static void add_block(struct line *line, const struct wrong *wrong) {
  add(line, " a block of "), add_count(line, wrong->block_size, "byte");
  if (wrong->is_freed) add(line, " that was freed");
}

// what the program did; scripts/mte_scripts/faults/fault_report.py has the same words
static void add_sentence(struct line *line, const struct wrong *wrong) {
  long offset = wrong->offset, size = wrong->block_size;
  if (wrong->letter == 'C') {
    add(line, wrong->signal == SIGSEGV ? "SIGSEGV" : wrong->signal == SIGBUS ? "SIGBUS" : wrong->signal == SIGABRT ? "SIGABRT" :
              wrong->signal == SIGFPE ? "SIGFPE" : "SIGILL");
    if (offset) add(line, " at the address 0x"), add_number(line, wrong->at, 16);
    return;
  }
  if (wrong->letter == 'n') return add(line, "free of an address that the heap never gave out");
  if (wrong->letter == 'o') return add(line, "free of a block that was freed long ago");
  if (wrong->letter == 'y') {
    static const char *const MADE[] = {"malloc", "new", "new[]"}, *const USED[] = {"free", "delete", "delete[]", "realloc"};
    add(line, USED[wrong->size]), add(line, " of"), add_block(line, wrong);
    return add(line, " that "), add(line, MADE[offset]), add(line, " made");
  }
  if (wrong->letter == 'x') {
    add(line, "free of");
    if (offset) add(line, " a pointer "), add_count(line, offset < 0 ? -offset : offset, "byte"), add(line, offset < 0 ? " before" : " into");
    return add_block(line, wrong);
  }
  if (wrong->letter == 'V') {
    add(line, "overlapping copy of "), add_count(line, wrong->size, "byte");
    if (!wrong->number) return add(line, ", at the address 0x"), add_number(line, wrong->at, 16);
    return add(line, ", "), add_count(line, offset, "byte"), add(line, " into"), add_block(line, wrong);
  }
  static const char *const PLACES[] = {" of a block that was freed long ago", " of an address that the heap never gave out", " of memory that is not the heap's"};
  int is_too_large = (size_t)wrong->size > MOST_BYTES, is_poison = wrong->letter == 'P' || wrong->letter == 'Q';
  add(line, wrong->letter == 'L' || wrong->letter == 'P' ? "load of " : "store of "), add_count(line, wrong->size, "byte");
  if (is_poison) add(line, wrong->letter == 'P' ? " of poisoned memory" : " to poisoned memory");
  if (is_poison && !wrong->number) return add(line, ", at the address 0x"), add_number(line, wrong->at, 16);
  if (is_too_large) add(line, ", more than an object can have");
  if (!wrong->number) return add(line, is_too_large ? "," : ""), add(line, PLACES[offset]);
  int begins_inside = offset >= 0 && offset < size, leaves = begins_inside && !wrong->is_freed && !is_too_large && !is_poison;
  add(line, leaves ? ", from " : ", ");
  add_count(line, offset < 0 ? -offset : begins_inside ? offset : offset - size, "byte");
  add(line, offset < 0 ? " before" : begins_inside ? " into" : " after");
  add_block(line, wrong);
  if (leaves) add(line, " to "), add_count(line, offset + wrong->size - size, "byte"), add(line, " after it");
}

// whether nothing of this place and kind was told
static int is_new(const struct wrong *wrong) {
  static struct { address pc; long kind; } told[MOST_TOLD];
  static int number;
  long kind = wrong->letter << 1 | wrong->is_freed;
  if ((size_t)wrong->size > MOST_BYTES) kind |= wrong->number << 8;  // each of the two blocks
  if (wrong->letter == 'y') kind |= wrong->offset << 8 | wrong->size << 12;
  for (int i = 0; i < number; i++)
    if (told[i].pc == wrong->stack.pcs[0] && told[i].kind == kind) return 0;
  if (number == MOST_TOLD) return wrong->letter == 'C';
  told[number].pc = wrong->stack.pcs[0], told[number++].kind = kind;
  return 1;
}

static void begin_line(struct line *line) { line->length = 0, add(line, "traced_cc: "); }

static void write_line(struct line *line) {
  int error = errno;
  line->text[line->length++] = '\n', line->text[line->length] = 0;
  if (syscall(SYS_write, 2, line->text, line->length) < 0) errno = error;
}

static void tell_one(const struct wrong *wrong) {
  static struct line line;
  if (!is_new(wrong)) return;
  begin_line(&line);
  add_place(&line, &wrong->stack), add(&line, ": "), add_sentence(&line, wrong);
  write_line(&line);
  last_told = *wrong;
  if (report_callback) report_callback(line.text);
}

void tell_line(const char *text) {
  struct line line;
  begin_line(&line), add(&line, text), write_line(&line);
}

void describe(address at) {
  struct line line;
  struct block *block = owner(at);
  begin_line(&line), add(&line, "0x"), add_number(&line, at, 16);
  if (!block) add(&line, is_in_arena(at) ? " is of no block" : " is not of the heap");
  else {
    long offset = (long)(at - block->start), size = (long)block->size;
    struct wrong place = {.block_size = size, .is_freed = block->state == FREED};
    add(&line, " is "), add_count(&line, offset < 0 ? -offset : offset < size ? offset : offset - size, "byte");
    add(&line, offset < 0 ? " before" : offset < size ? " into" : " after"), add_block(&line, &place);
  }
  if (first_poisoned(at, 1)) add(&line, ", and the program poisoned it");
  write_line(&line);
}

void print_stack(struct caller from) {
  struct line line;
  struct stack stack;
  unwind(from, &stack);
  enter();
  for (int i = 0; i < stack.count; i++) {
    const struct module *module = module_of(stack.pcs[i]);
    begin_line(&line), add(&line, "#"), add_number(&line, i, 10), add(&line, " ");
    if (module && module->path) add(&line, strrchr(module->path, '/') + 1), add(&line, "+");
    add(&line, "0x"), add_number(&line, module ? stack.pcs[i] - module->low + module->offset : stack.pcs[i], 16);
    write_line(&line);
  }
  leave();
}

void tell(void) {
  uint64_t all = ~(uint64_t)0, before;  // as the kernel has signals: libc's functions for them are the program's
  int error = errno, number = has_to_tell, halts = 0;
  has_to_tell = 0;
  syscall(SYS_rt_sigprocmask, SIG_SETMASK, &all, &before, sizeof all);
  busy++;
  pthread_mutex_lock(&tell_lock);
  for (int i = 0; i < number; i++) halts |= is_halting && pending[i].letter != 'C', tell_one(&pending[i]);
  pthread_mutex_unlock(&tell_lock);
  busy--;
  if (halts) halt();
  syscall(SYS_rt_sigprocmask, SIG_SETMASK, &before, NULL, sizeof before);
  errno = error;
}
