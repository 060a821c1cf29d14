// Programs that a recorder could break, or that could break its counts; each word is one. What counts are requests of 3,333 bytes.
#define _GNU_SOURCE
#include <linux/filter.h>
#include <linux/seccomp.h>
#include <malloc.h>
#include <pthread.h>
#include <sched.h>
#include <setjmp.h>
#include <signal.h>
#include <stddef.h>
#include <stdio.h>
#include <stdlib.h>
#include <string.h>
#include <sys/prctl.h>
#include <sys/resource.h>
#include <sys/syscall.h>
#include <sys/time.h>
#include <sys/wait.h>
#include <unistd.h>

static const char *self;
static sigjmp_buf back;
static volatile int jumps;

static void request(int times) {
  for (int i = 0; i < times; i++) {
    void *volatile block = malloc(3333);
    free(block);
  }
}

static void after(int microseconds, void (*handler)(int)) {
  signal(SIGALRM, handler);
  struct itimerval timer = {{0, 0}, {0, microseconds}};
  setitimer(ITIMER_REAL, &timer, NULL);
}

static void churn(void) {
  for (;;) free(malloc(100));
}

static void on_exit_signal(int number) { (void)number, exit(7); }
static void on_jump(int number) { (void)number, siglongjmp(back, 1); }
static void on_request(int number) { (void)number, request(1); }

static void *in_thread(void *unused) { return request(50), unused; }
static void *executes(void *unused) { return execl(self, self, "plain", NULL), unused; }

static void forks(int times, int depth) {
  for (int i = 0; i < times; i++) {
    if (!fork()) {
      request(1);
      if (depth > 1) forks(times, depth - 1);
      _exit(0);
    }
    if (depth > 1 || i % 20 == 19) while (wait(NULL) > 0) ;
  }
  while (wait(NULL) > 0) ;
}

static int without_open(void) {
  struct sock_filter code[] = {
      BPF_STMT(BPF_LD | BPF_W | BPF_ABS, offsetof(struct seccomp_data, nr)), BPF_JUMP(BPF_JMP | BPF_JEQ | BPF_K, SYS_openat, 0, 1),
      BPF_STMT(BPF_RET | BPF_K, SECCOMP_RET_KILL_PROCESS), BPF_STMT(BPF_RET | BPF_K, SECCOMP_RET_ALLOW)};
  struct sock_fprog program = {4, code};
  return prctl(PR_SET_NO_NEW_PRIVS, 1, 0, 0, 0) || syscall(SYS_seccomp, SECCOMP_SET_MODE_FILTER, 0, &program);
}

static int limit(int which, rlim_t most) { return setrlimit(which, &(struct rlimit){most, most}); }

int main(int words, char **word) {
  const char *what = words > 1 ? word[1] : "";
  self = word[0];
#define IS(name) (!strcmp(what, name))
  if (IS("exits")) after(2000 + getpid() % 997, on_exit_signal), churn();
  if (IS("jumps")) {
    if (!sigsetjmp(back, 1)) after(3000, on_jump), churn();
    request(100000);
  }
  if (IS("strict")) {
    request(1);
    if (prctl(PR_SET_SECCOMP, SECCOMP_MODE_STRICT)) return 1;
    request(300000);
    syscall(SYS_exit, 0);
  }
  if (IS("filter")) {
    if (without_open()) return 1;
    request(300000);
  }
  if (IS("filtered forks")) {
    if (without_open()) return 1;
    request(2), forks(5, 1);
  }
  if (IS("overruns")) {
    for (int i = 0; i < 1000; i++) {
      char *block = malloc(16);
      strcpy(block, "sixteen letters!");
      free(block);
    }
    request(3);
  }
  if (IS("usable")) {
    for (int i = 1; i < 3000; i += 7) printf("%zu ", malloc_usable_size(malloc(i)));
    request(1);
  }
  if (IS("little memory")) {
    if (limit(RLIMIT_AS, 64 << 20)) return 1;
    printf("%d", malloc(20 << 20) != NULL);
    request(4);
  }
  if (IS("no memory")) {
    request(2);
    if (limit(RLIMIT_AS, 0)) return 1;
    forks(5, 1);
  }
  if (IS("small files")) return limit(RLIMIT_FSIZE, 10) || (request(5), forks(2, 1), 0);
  if (IS("storm")) forks(1000, 1);
  if (IS("tree")) forks(6, 3);
  if (IS("vfork")) {
    for (int i = 0; i < 20; i++) {
      if (!vfork()) execl(self, self, "plain", NULL), _exit(1);
      wait(NULL);
    }
  }
  if (IS("threads")) {
    pthread_t all[200];
    for (int i = 0; i < 200; i++) if (pthread_create(&all[i], NULL, in_thread, NULL)) return 1;
    for (int i = 0; i < 200; i++) pthread_join(all[i], NULL);
  }
  if (IS("thread executes")) {
    pthread_t one;
    request(1), pthread_create(&one, NULL, executes, NULL), pthread_join(one, NULL);
    return 1;
  }
  if (IS("handlers")) {
    signal(SIGUSR1, on_request);
    for (int i = 0; i < 1000; i++) raise(SIGUSR1);
  }
  if (IS("closes")) {
    fflush(NULL);
    for (int i = 3; i < 4096; i++) close(i);
    request(6), forks(2, 1), execl(self, self, "plain", NULL);
  }
  if (IS("chroot")) {
    if (chroot("/tmp") || chdir("/")) return 1;
    request(2), forks(3, 1);
  }
  if (IS("setuid")) {
    if (setuid(64998)) return 1;
    request(2), forks(3, 1);
  }
  if (IS("setuid executes")) {
    if (setuid(64998)) return 1;
    request(2), execl(self, self, "plain", NULL);
  }
  if (IS("namespace")) {
    if (unshare(CLONE_NEWPID)) return 1;
    forks(1, 1), forks(1, 1), request(1);
  }
  if (IS("kill")) request(200000), fflush(NULL), kill(getpid(), SIGKILL);
  if (IS("plain")) request(1);
  puts(what);
  return 0;
}
