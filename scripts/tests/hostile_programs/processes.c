// Programs that fork, run others, and end in all ways.
#include "hostile.h"

static int wait_for_all(void) {
  while (wait(NULL) > 0)
    ;
  return 0;
}

static void fork_to(int depth, int times) {
  for (int i = 0; i < times && depth; i++)
    if (!fork()) request(2), fork_to(depth - 1, times), _exit(0);
  wait_for_all();
}
PROGRAM(tree, "deep tree of forks") { return fork_to(7, 2), request(1), 0; }

PROGRAM(storm, "storm of silent forks") {
  for (int i = 0; i < 500; i++) {
    if (!fork()) _exit(0);
    if (i % 10 == 9) wait_for_all();
  }
  return request(1), 0;
}

static volatile int over;
static void *churn(void *unused) {
  while (!over) free(malloc(48));
  return unused;
}
PROGRAM(among_threads, "forks among threads") {
  pthread_t threads[2];
  for (int i = 0; i < 2; i++) pthread_create(&threads[i], NULL, churn, NULL);
  for (int i = 0; i < 40; i++) {
    pid_t child = fork();
    if (!child) request(3), _exit(5);
    if (ended(child) != 5) return 1;
  }
  over = 1;
  for (int i = 0; i < 2; i++) pthread_join(threads[i], NULL);
  return 0;
}

PROGRAM(raw_fork, "forks without the library") {
  for (int i = 0; i < 10; i++) {
    pid_t child = syscall(SYS_clone, SIGCHLD, 0, 0, 0, 0);
    if (!child) request(4), syscall(SYS_exit_group, 6);
    show(ended(child)), request(1);
  }
  return 0;
}

#ifdef __x86_64__
PROGRAM(raw_vfork, "vfork without the library") {
  for (int i = 0; i < 10; i++) {
    pid_t child = syscall(SYS_clone, SIGCHLD | CLONE_VM | CLONE_VFORK, 0, 0, 0, 0);
    if (!child) syscall(SYS_exit, 7);
    show(ended(child)), request(1);
  }
  return 0;
}
#endif

PROGRAM(vfork_requests, "vfork that requests") {
  for (int i = 0; i < 10; i++) {
    pid_t child = vfork();
    if (!child) request(2), _exit(3);
    if (ended(child) != 3) return 1;
  }
  return 0;
}

PROGRAM(vfork_fails, "vfork that can't run") {
  for (int i = 0; i < 10; i++) {
    pid_t child = vfork();
    if (!child) execl("/nowhere", "nowhere", NULL), _exit(errno);
    show(ended(child));
  }
  return request(2), 0;
}

// So many programs in the place of one another, as a variable counts.
PROGRAM(chain, "chain of programs") {
  const char *left = getenv("LEFT");
  char next[16];
  int number = left ? atoi(left) : 40;
  request(1);
  if (!number) return 0;
  snprintf(next, sizeof next, "%d", number - 1), setenv("LEFT", next, 1);
  return become("chain of programs");
}

PROGRAM(chain_of_forks, "chain of forks and programs") {
  const char *left = getenv("LEFT");
  char next[16];
  int number = left ? atoi(left) : 12;
  request(1);
  if (!number) return 0;
  snprintf(next, sizeof next, "%d", number - 1), setenv("LEFT", next, 1);
  pid_t child = fork();
  if (!child) return request(1), become("chain of forks and programs");
  return ended(child);
}

PROGRAM(bare, "without variables") {
  char *words[] = {"hostile", "plain", NULL}, *none[] = {NULL};
  return request(2), execve(self, words, none), 1;
}

PROGRAM(unset, "unsets its variables") {
  return request(2), unsetenv("LD_PRELOAD"), unsetenv("MTE_STREAM"), become("plain");
}

PROGRAM(clears, "clears its variables") {
  request(2), clearenv();
  int status = system(":");
  show(WIFEXITED(status) ? WEXITSTATUS(status) : 255);
  return 0;
}

PROGRAM(many_variables, "many variables") {
  char name[16];
  for (int i = 0; i < 300; i++) snprintf(name, sizeof name, "V%d", i), setenv(name, "a value", 1);
  return request(2), become("plain");
}

PROGRAM(spawn_all, "spawned beside") {
  char *words[] = {"hostile", "plain", NULL};
  pid_t children[30];
  for (int i = 0; i < 30; i++)
    if (posix_spawn(&children[i], self, NULL, NULL, words, environ)) return 1;
  for (int i = 0; i < 30; i++)
    if (ended(children[i])) return 1;
  return 0;
}

PROGRAM(spawn_closed, "spawned with all closed") {
  char *words[] = {"hostile", "plain", NULL};
  posix_spawn_file_actions_t actions;
  pid_t child;
  posix_spawn_file_actions_init(&actions);
  for (int i = 3; i < 200; i++) posix_spawn_file_actions_addclose(&actions, i);
  if (posix_spawn(&child, self, &actions, NULL, words, environ)) return 1;
  return posix_spawn_file_actions_destroy(&actions), ended(child);
}

PROGRAM(fails, "what can't be run") {
  char *words[] = {"x", NULL}, *none[] = {NULL};
  int errors[] = {execv("/nowhere", words) ? errno : 0,      execv("/", words) ? errno : 0,
                  execv("/etc/passwd", words) ? errno : 0,   execvp("no such program", words) ? errno : 0,
                  execve("", words, none) ? errno : 0,       fexecve(-1, words, environ) ? errno : 0,
                  execve((char *)8, words, none) ? errno : 0};
  for (unsigned i = 0; i < sizeof errors / sizeof *errors; i++) show(errors[i]);
  return request(2), 0;
}

PROGRAM(no_words, "without words") {
  request(2);
  pid_t child = fork();
  if (!child) execve(self, (char *[]){NULL}, environ), _exit(1);
  return show(ended(child)), 0;
}

PROGRAM(no_variables, "no list of variables") {
  request(2), environ = NULL;
  pid_t child = fork();
  if (!child) execlp("true", "true", NULL), _exit(1);
  return show(ended(child)), 0;
}

static int name_and_leave(char *name) {
  pid_t child = fork();
  if (!child) {
    char *words[] = {name, "plain", NULL};
    prctl(PR_SET_NAME, name), request(2), execv(self, words), _exit(1);
  }
  return ended(child);
}
PROGRAM(names, "names of all kinds") {
  char *of[] = {"a) R 1 (b", "x\n9 99999999 7 who", "(((((((((((((((", ") S\n\n) Z",
                "",          "\033[31mred",         "\xff\xfe",        "%s%n%d"};
  for (unsigned i = 0; i < sizeof of / sizeof *of; i++)
    if (name_and_leave(of[i])) return 1;
  return 0;
}

static void at_end(void) { request(3); }
PROGRAM(at_exit, "requests at the exit") { return atexit(at_end) || atexit(at_end); }
PROGRAM(quick, "a quick exit") {
  return at_quick_exit(at_end), atexit(at_end), request(1), write(1, "done\n", 5), quick_exit(0), 0;
}
PROGRAM(exits, "_exit with much left") { return atexit(at_end), request(30000), write(1, "done\n", 5), _exit(0), 0; }
PROGRAM(aborts, "aborts") { return request(2), abort(), 0; }
PROGRAM(crashes, "crashes") { return request(2), *(volatile int *)8; }
static void on_crash(int number) { (void)number, request(5), _exit(0); }
PROGRAM(handled, "crashes in its own way") { return signal(SIGSEGV, on_crash), request(2), *(volatile int *)8; }

static void *goes_on(void *unused) { return usleep(30000), request(50), write(1, "done\n", 5), unused; }
PROGRAM(main_ends, "the first thread ends") {
  pthread_t thread;
  if (pthread_create(&thread, NULL, goes_on, NULL)) return 1;
  return request(1), pthread_exit(NULL), 0;
}

PROGRAM(killed, "children that are killed") {
  for (int i = 0; i < 10; i++) {
    pid_t child = fork();
    if (!child) {
      request(2), raise(SIGSTOP);
      for (;;) pause();
    }
    waitpid(child, NULL, WUNTRACED), kill(child, SIGKILL), show(ended(child));
  }
  return 0;
}

PROGRAM(stopped, "children that are stopped") {
  pid_t child = fork();
  if (!child) {
    for (int i = 0; i < 5; i++) request(2000), raise(SIGSTOP);
    _exit(4);
  }
  for (int status; waitpid(child, &status, WUNTRACED) == child && WIFSTOPPED(status);) kill(child, SIGCONT), request(1);
  return 0;
}

// Its own child's child goes on after that, and is waited for by a pipe.
PROGRAM(daemon_waits, "a daemon that is waited for") {
  int ends[2];
  if (pipe(ends)) return 1;
  pid_t child = fork();
  if (!child) {
    setsid(), close(ends[0]), request(1);
    if (fork()) _exit(0);
    request(3), usleep(50000), request(4), _exit(0);
  }
  close(ends[1]);
  char none;
  return ended(child) || read(ends[0], &none, 1) != 0 || (usleep(50000), 0);
}

PROGRAM(traced, "a child that is traced") {
  pid_t child = fork();
  if (!child) {
    char *words[] = {"hostile", "plain", NULL};
    syscall(SYS_ptrace, 0, 0, 0, 0), request(1), execv(self, words), _exit(1);
  }
  int status, stops = 0;
  while (waitpid(child, &status, 0) == child && WIFSTOPPED(status))
    stops++, syscall(SYS_ptrace, 7, child, 0, WSTOPSIG(status) == SIGTRAP ? 0 : WSTOPSIG(status));
  return show(stops), 0;
}

PROGRAM(shells, "shells and pipes") {
  char line[64] = "";
  FILE *from = popen("exec printf '%s' words", "r");
  if (!from || !fgets(line, sizeof line, from)) return 1;
  show(strlen(line)), show(pclose(from)), show(WEXITSTATUS(system("exit 5")));
  return request(2), 0;
}

PROGRAM(numbers, "system calls by number") {
  request(1);
  char *page = (char *)syscall(SYS_mmap, NULL, 8192UL, PROT_READ | PROT_WRITE, MAP_PRIVATE | MAP_ANONYMOUS, -1, 0UL);
  show(page != MAP_FAILED && !page[8191]), show(syscall(SYS_munmap, page, 8192UL));
  show(syscall(SYS_close, -1)), show(errno), show(syscall(SYS_getppid) == getppid()),
      show(syscall(SYS_write, 1, "x\n", 2UL));
  pid_t child = syscall(SYS_fork);
  if (!child) request(2), syscall(SYS_exit_group, 9);
  return show(ended(child)), 0;
}

PROGRAM(undumpable, "a process that can't be read") {
  prctl(PR_SET_DUMPABLE, 0), request(2);
  pid_t child = fork();
  if (!child) request(3), _exit(2);
  return show(ended(child)), 0;
}
