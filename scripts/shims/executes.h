// The calls that run another program, in the place of a process or beside it: before each it is asked whether the
// program can be followed (loadable.h). One that can't is run without the library, and the stream has its name. A child
// of vfork shares the memory of its parent: what is made here stands on the stack.
#ifndef EXECUTES_H
#define EXECUTES_H
static char own_name[PATH_MAX];  // the library's, as LD_PRELOAD has it

// How a program is named; the flags are those of execveat.
enum { BY_PATH, BY_NAME, BY_DESCRIPTOR, BY_FOLDER };
struct program { int how, folder; const char *path; int flags; };

// ---- the variables

static const char *preloaded(const char *variable) {
  return strncmp(variable, "LD_PRELOAD=", 11) ? NULL : variable + 11;
}

static size_t number_of_variables(char *const *variables) {
  size_t number = 0;
  while (variables && variables[number]) number++;
  return number;
}

// the bytes of all lists of libraries, with their names
static size_t bytes_of_lists(char *const *variables) {
  size_t bytes = 0;
  for (; variables && *variables; variables++) bytes += preloaded(*variables) ? strlen(*variables) + 1 : 0;
  return bytes;
}

// Writes a list of libraries without this one; its end.
static char *leave_out_own(char *to, const char *list) {
  size_t length, own = strlen(own_name);
  for (char *first = to; *list; list += length + (list[length] != 0)) {
    length = strcspn(list, ": ");
    if (!length || (length == own && !memcmp(list, own_name, own))) continue;
    if (to > first) *to++ = ':';
    to = mempcpy(to, list, length);
  }
  return *to = 0, to;
}

// The variables without the stream and without the library. KEPT and TEXT have room for all.
static void leave_out(char *const *variables, char **kept, char *text) {
  for (; variables && *variables; variables++) {
    const char *list = preloaded(*variables);
    if (!list && strncmp(*variables, "MTE_STREAM=", 11)) *kept++ = *variables;
    if (!list) continue;
    char *from = stpcpy(text, "LD_PRELOAD="), *end = leave_out_own(from, list);
    if (end > from) *kept++ = text, text = end + 1;
  }
  *kept = NULL;
}

// ---- what is asked before

// Finds a program as execvp does; the name itself where it is nowhere.
static const char *found_in_path(const char *name, char *place) {
  const char *folders = getenv("PATH");
  if (strchr(name, '/')) return name;
  for (folders = folders ? folders : "/bin:/usr/bin";; folders++) {
    int length = strcspn(folders, ":");
    int bytes = snprintf(place, PATH_MAX, "%.*s%s%s", length, folders, length ? "/" : "", name);
    if (bytes < PATH_MAX && !access(place, X_OK)) return place;
    if (!*(folders += length)) return name;
  }
}

// In a process that gave up system calls nothing is asked: what it runs is not followed.
static int why_not_now(const struct program *program, const struct own *own) {
  char place[PATH_MAX];
  if (sealed || is_under_seccomp(own)) return UNDER_SECCOMP;
  const char *path = program->how == BY_NAME ? found_in_path(program->path, place) : program->path;
  return why_not(program->folder, path, program->how == BY_DESCRIPTOR ? AT_EMPTY_PATH : program->flags);
}

// Notes that this process is about to run another program in its own place: one that is followed takes a ring of its
// own. Whether it did. Of one that may make no call it is not known whether it is a child of vfork, and the reader
// looks whether its ring goes on.
static int note_program(const struct own *own, int place) {
  struct ring *ring = here->ring;
  if (here->state != WRITES) return 0;
  if (!sealed && (own->process ? (uint64_t)own->process != ring->process : here->process != getpid())) return 0;
  ring->marked = sealed ? progress_of(ring, COUNTS ? here->records : NULL) + 1 : 0, ring->executed = 1 + place;
  return 1;
}

// ---- the calls

// It was not run.
static void forget_unfollowed(int place) {
  uint64_t *number = place > UNFOLLOWED ? &stream->more_unfollowed : &stream->unfollowed[place - 1].number;
  __atomic_fetch_sub(number, 1, __ATOMIC_RELAXED);
}
static int hand_on(const struct program *program, char *const words[], char *const variables[]) {
  switch (program->how) {
    case BY_NAME: return TO(execvpe)(program->path, words, variables);
    case BY_DESCRIPTOR: return TO(fexecve)(program->folder, words, variables);
    case BY_FOLDER:
      return plain_syscall(SYS_execveat, program->folder, program->path, words, variables, program->flags);
    default: return TO(execve)(program->path, words, variables);
  }
}

static const char *name_of(const struct program *program, char *const words[]) {
  return program->how == BY_DESCRIPTOR || !*program->path ? words && words[0] ? words[0] : "" : program->path;
}

static int execute(struct program program, char *const words[], char *const variables[]) {
  struct own own = {0, 0};
  if (!program.path && program.how != BY_DESCRIPTOR) return hand_on(&program, words, variables);
  if (!sealed) read_own(&own);
  int why = why_not_now(&program, &own);
  int place = why && stream ? note_unfollowed(stream, why, name_of(&program, words)) : 0;
  char *kept[why ? number_of_variables(variables) + 1 : 1], text[why ? bytes_of_lists(variables) + 1 : 1];
  if (why) leave_out(variables, kept, text);
  int noted = note_program(&own, place), status = hand_on(&program, words, why ? kept : variables);
  if (noted) here->ring->executed = 0;
  if (place) forget_unfollowed(place);
  return status;
}

int execve(const char *path, char *const words[], char *const variables[]) {
  return execute((struct program){BY_PATH, AT_FDCWD, path, 0}, words, variables);
}
int execvpe(const char *name, char *const words[], char *const variables[]) {
  return execute((struct program){BY_NAME, AT_FDCWD, name, 0}, words, variables);
}
int fexecve(int opened, char *const words[], char *const variables[]) {
  return execute((struct program){BY_DESCRIPTOR, opened, "", 0}, words, variables);
}
int execveat(int folder, const char *path, char *const words[], char *const variables[], int flags) {
  return execute((struct program){BY_FOLDER, folder, path, flags}, words, variables);
}
int execv(const char *path, char *const words[]) { return execve(path, words, environ); }
int execvp(const char *name, char *const words[]) { return execvpe(name, words, environ); }

#define WORDS \
  va_list more; \
  size_t number = 1; \
  va_start(more, word); \
  while (va_arg(more, char *)) number++; \
  va_end(more); \
  char *words[number + 1]; \
  words[0] = (char *)word; \
  va_start(more, word); \
  for (size_t i = 1; i <= number; i++) words[i] = va_arg(more, char *);

int execl(const char *path, const char *word, ...) { WORDS return va_end(more), execv(path, words); }
int execlp(const char *name, const char *word, ...) { WORDS return va_end(more), execvp(name, words); }

int execle(const char *path, const char *word, ...) {
  WORDS
  char *const *variables = va_arg(more, char *const *);
  return va_end(more), execve(path, words, variables);
}

// beside the process
static int spawn(spawns next_one, int how, pid_t *process, const char *path, const posix_spawn_file_actions_t *actions,
                 const posix_spawnattr_t *attributes, char *const words[], char *const variables[]) {
  struct own own = {0, 0};
  struct program program = {how, AT_FDCWD, path, 0};
  int error = errno;
  if (!sealed) read_own(&own);
  int why = why_not_now(&program, &own), place = why && stream ? note_unfollowed(stream, why, path) : 0;
  char *kept[why ? number_of_variables(variables) + 1 : 1], text[why ? bytes_of_lists(variables) + 1 : 1];
  if (why) leave_out(variables, kept, text);
  errno = error;
  int refused = next_one(process, path, actions, attributes, words, why ? kept : variables);
  if (refused && place) forget_unfollowed(place);
  return refused;
}

#define SPAWNS(name, how) \
  int name(pid_t *process, const char *path, const posix_spawn_file_actions_t *actions, \
           const posix_spawnattr_t *attributes, char *const words[], char *const variables[]) { \
    return spawn(TO(name), how, process, path, actions, attributes, words, variables); \
  }
SPAWNS(posix_spawn, BY_PATH)
SPAWNS(posix_spawnp, BY_NAME)

// `syscall` of a number that runs a program comes here, with its words.
__attribute__((used)) static long execute_by_number(long number, long one, long two, long three, long four, long five) {
  if (number == SYS_execve) return execve((const char *)one, (char *const *)two, (char *const *)three);
  return execveat(one, (const char *)two, (char *const *)three, (char *const *)four, five);
}
#endif
