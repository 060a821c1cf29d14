// Programs with few descriptors, small limits, and nothing where they are.
#include "hostile.h"

static int forks(int times) {
  for (int i = 0; i < times; i++) {
    pid_t child = fork();
    if (!child) request(1), _exit(i);
    show(ended(child));
  }
  return 0;
}

PROGRAM(next, "the next descriptor") {
  request(1), show(open("/dev/null", O_RDONLY)), show(dup(0)), forks(2);
  return show(open("/dev/null", O_RDONLY)), 0;
}
PROGRAM(closes, "closes all") {
  request(1), syscall(SYS_close_range, 3U, ~0U, 0);
  return request(2), forks(2), become("plain");
}
PROGRAM(closes_three, "closes its streams") {
  request(1);
  int kept = dup(1);
  close(0), close(1), close(2), request(2);
  pid_t child = fork();
  if (!child) request(1), _exit(0);
  return ended(child) || dup2(kept, 1) != 1;
}
PROGRAM(takes_over, "takes all descriptors") {
  request(1);
  for (int i = 3; i < 200; i++) dup2(0, i);
  request(2), forks(2);
  for (int i = 3; i < 200; i++) close(i);
  return request(2), 0;
}
PROGRAM(few, "no more descriptors") { return request(1), limit(RLIMIT_NOFILE, 3) || forks(3); }
PROGRAM(small_stack, "a small limit of the stack") {
  return request(1), limit(RLIMIT_STACK, 128 << 10) || become("plain");
}
PROGRAM(any_stack, "no limit of the stack") { return request(1), limit(RLIMIT_STACK, RLIM_INFINITY), become("plain"); }
PROGRAM(small_files, "no files") { return request(1), limit(RLIMIT_FSIZE, 0) || forks(3); }
PROGRAM(little_time, "little time") {
  request(1000);
  if (limit(RLIMIT_CPU, 1)) return 1;
  return request(1000), 0;
}
PROGRAM(nowhere, "a folder that is gone") {
  char folder[] = "hostile_XXXXXX";
  if (!mkdtemp(folder) || chdir(folder) || rmdir("../hostile_none") == 0) return 1;
  char path[64];
  snprintf(path, sizeof path, "../%s", folder), rmdir(path), request(1);
  return forks(2), become("plain");
}
PROGRAM(umasked, "no rights for anybody") { return umask(0777), request(1), forks(2), become("plain"); }
PROGRAM(rooted, "another root") { return request(2), chroot("/usr") || chdir("/") || forks(3); }
PROGRAM(another_user, "another user") { return request(2), setresuid(64998, 64998, 64998) || forks(3); }
PROGRAM(another_group, "another group") { return request(2), setresgid(64998, 64998, 64998) || forks(3); }
PROGRAM(new_mounts, "mounts of its own") { return request(2), unshare(CLONE_NEWNS) || forks(2); }
PROGRAM(new_processes, "processes of its own") {
  return request(2), unshare(CLONE_NEWPID) || forks(1) || (request(1), 0);
}
PROGRAM(parts, "nothing shared") { return request(2), unshare(CLONE_FILES | CLONE_FS | CLONE_SYSVSEM) || forks(2); }
PROGRAM(broken_pipe, "a broken pipe") {
  int ends[2];
  signal(SIGPIPE, SIG_IGN);
  if (pipe(ends) || close(ends[0])) return 1;
  return request(2), show(write(ends[1], "x", 1)), show(errno), 0;
}
PROGRAM(ignores, "ignores all signals") {
  for (int i = 1; i < 32; i++) signal(i, SIG_IGN);
  request(2), signal(SIGCHLD, SIG_DFL);
  return forks(2), become("plain");
}
PROGRAM(blocks, "blocks all signals") {
  sigset_t all;
  sigfillset(&all), sigprocmask(SIG_BLOCK, &all, NULL);
  return request(2000), forks(2), become("plain");
}
PROGRAM(priority, "no priority") { return request(1), nice(19), forks(2); }

#ifdef EARLY  // before the constructors of libraries, in those of its own, and after all
static void very_early(void) { request(1); }
static void (*const before_all[])(void) __attribute__((section(".preinit_array"), used)) = {very_early};
__attribute__((constructor(101))) static void early(void) { request(1); }
__attribute__((destructor(101))) static void late(void) { request(1); }
#endif
PROGRAM(nothing, "nothing at all") { return 0; }
