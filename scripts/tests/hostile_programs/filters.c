// Programs that give up system calls. Most of the counts are of requests after that.
#include "hostile.h"

#define SOME(...) (const int[]){__VA_ARGS__}, sizeof((const int[]){__VA_ARGS__}) / sizeof(int)
enum { KILL = SECCOMP_RET_KILL_PROCESS, ALLOW = SECCOMP_RET_ALLOW, REFUSE = SECCOMP_RET_ERRNO | EPERM };

PROGRAM(plain, "plain") { return request(1), 0; }

PROGRAM(strict_first, "strict before any request") {
  char *volatile word = strdup("by the C library");
  if (prctl(PR_SET_SECCOMP, SECCOMP_MODE_STRICT)) return 1;
  free(word), request(2000), write(1, "done\n", 5);
  return syscall(SYS_exit, 0);
}

PROGRAM(strict_child, "strict child") {
  request(3);
  pid_t child = fork();
  if (!child) {
    if (prctl(PR_SET_SECCOMP, SECCOMP_MODE_STRICT)) _exit(1);
    request(200000), syscall(SYS_exit, 0);
  }
  show(ended(child)), request(4);
  return 0;
}

PROGRAM(refuses, "all refused") {
  request(1);
  if (filter_calls(SOME(SYS_write, SYS_exit_group, SYS_brk, SYS_munmap), ALLOW, REFUSE, 0)) return 1;
  request(300000);
  return 0;
}

PROGRAM(no_sleep, "no futex") {
  request(1);
  if (filter_calls(SOME(SYS_futex, SYS_nanosleep, SYS_clock_nanosleep, SYS_sched_yield), KILL, ALLOW, 0)) return 1;
  request(400000);
  return 0;
}

PROGRAM(no_sleep_by_hand, "no futex by hand") {
  request(1);
  if (filter_calls(SOME(SYS_clone3, SYS_nanosleep, SYS_clock_nanosleep, SYS_openat), KILL, ALLOW, 1)) return 1;
  request(400000);
  return 0;
}

PROGRAM(no_mappings, "no more mappings") {
  request(1);
  if (filter_calls(SOME(SYS_mmap, SYS_mremap), SECCOMP_RET_ERRNO | ENOMEM, ALLOW, 0)) return 1;
  int refused = 0;
  for (int i = 0; i < 20; i++) refused += !malloc(300000);
  show(refused), request(2000);
  return 0;
}

static void on_trap(int number) { (void)number, request(1); }
PROGRAM(traps, "trapped calls") {
  signal(SIGSYS, on_trap);
  if (filter_calls(SOME(SYS_getppid, SYS_openat, SYS_readlink), SECCOMP_RET_TRAP, ALLOW, 0)) return 1;
  for (int i = 0; i < 100; i++) syscall(SYS_getppid), request(1);
  return 0;
}

static void *give_up(void *unused) {
  request(5);
  return filter_calls(SOME(SYS_openat, SYS_execve), KILL, ALLOW, 0) ? unused : (request(50000), NULL);
}
PROGRAM(in_thread, "filtered thread") {
  pthread_t thread;
  if (pthread_create(&thread, NULL, give_up, NULL)) return 1;
  pthread_join(thread, NULL), request(7);
  pid_t child = fork();
  if (!child) request(2), _exit(3);
  show(ended(child));
  return 0;
}

PROGRAM(twice, "filtered twice") {
  for (int i = 0; i < 2; i++)
    if (filter_calls(SOME(SYS_openat, SYS_madvise), KILL, ALLOW, i)) return 1;
  request(20000);
  return 0;
}

PROGRAM(becomes, "filtered and becomes") {
  request(2);
  return filter_calls(SOME(SYS_ptrace), KILL, ALLOW, 0) || become("plain");
}

PROGRAM(becomes_by_hand, "filtered by hand and becomes") {
  request(2);
  return filter_calls(SOME(SYS_ptrace), KILL, ALLOW, 1) || become("plain");
}

PROGRAM(spawns, "filtered and spawns") {
  request(2);
  if (filter_calls(SOME(SYS_ptrace), KILL, ALLOW, 0)) return 1;
  char *words[] = {"hostile", "plain", NULL};
  pid_t child;
  for (int i = 0; i < 3; i++) {
    if (posix_spawn(&child, self, NULL, NULL, words, environ)) return 1;
    show(ended(child));
  }
  return 0;
}

PROGRAM(storm, "filtered storm") {
  request(1);
  if (filter_calls(SOME(SYS_openat, SYS_mmap, SYS_madvise, SYS_getpid, SYS_readlink, SYS_readlinkat), KILL, ALLOW, 0))
    return 1;
  for (int i = 0; i < 100; i++) {
    pid_t child = fork();
    if (!child) request(3), _exit(0);
    if (ended(child)) return 1;
  }
  return 0;
}

PROGRAM(late, "filtered late") {
  request(100000);
  if (filter_calls(SOME(SYS_futex, SYS_openat, SYS_getpid, SYS_clock_gettime), KILL, ALLOW, 0)) return 1;
  request(100000);
  return 0;
}

PROGRAM(in_parent, "child of a filter") {
  request(1);
  pid_t child = fork();
  if (!child) {
    request(2);
    if (filter_calls(SOME(SYS_openat), KILL, ALLOW, 0)) _exit(1);
    pid_t grandchild = fork();
    if (!grandchild) request(5), _exit(4);
    _exit(ended(grandchild));
  }
  show(ended(child));
  return 0;
}
