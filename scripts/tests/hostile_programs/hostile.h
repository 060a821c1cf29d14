// Programs that a recorder could break, or that could break its counts. Each file has some of one kind; `hostile NAME`
// runs one of them. What they request themselves is of 3,333 bytes mostly.
#define _GNU_SOURCE
#include <errno.h>
#include <fcntl.h>
#include <linux/filter.h>
#include <linux/seccomp.h>
#include <malloc.h>
#include <pthread.h>
#include <sched.h>
#include <setjmp.h>
#include <signal.h>
#include <spawn.h>
#include <stddef.h>
#include <stdint.h>
#include <stdio.h>
#include <stdlib.h>
#include <string.h>
#include <sys/mman.h>
#include <sys/prctl.h>
#include <sys/resource.h>
#include <sys/stat.h>
#include <sys/syscall.h>
#include <sys/time.h>
#include <sys/wait.h>
#include <unistd.h>

// A program returns whether it fails; what it prints by itself it has written before.
struct program {
  const char *name;
  int (*run)(void);
};
#define PROGRAM(function, name)                                                   \
  static int function(void);                                                      \
  static const struct program function##_program                                  \
      __attribute__((section("programs"), used, aligned(16))) = {name, function}; \
  static int function(void)

static const char self[] = "/proc/self/exe";
extern char **environ;

static inline void request(int times) {
  for (int i = 0; i < times; i++) {
    void *volatile block = malloc(3333);
    free(block);
  }
}

// Prints a number without a buffer, which would be a request.
static inline void show(long number) {
  char line[32];
  if (write(1, line, snprintf(line, sizeof line, "%ld\n", number)) < 0) _exit(9);
}

static inline int limit(int which, rlim_t most) { return setrlimit(which, &(struct rlimit){most, most}); }

static inline int ended(pid_t process) {
  int status = 0;
  if (waitpid(process, &status, 0) != process) return 255;
  return WIFEXITED(status) ? WEXITSTATUS(status) : 128 + WTERMSIG(status);
}

// Runs another of these programs in the place of this one.
static inline int become(char *name) {
  char *words[] = {"hostile", name, NULL};
  return execv(self, words), 1;
}

// A filter of system calls: what these get is not what all others get.
static inline int filter_calls(const int *calls, int number, unsigned these, unsigned others, int by_hand) {
  struct sock_filter code[40] = {BPF_STMT(BPF_LD | BPF_W | BPF_ABS, offsetof(struct seccomp_data, nr))};
  for (int i = 0; i < number; i++)
    code[i + 1] = (struct sock_filter)BPF_JUMP(BPF_JMP | BPF_JEQ | BPF_K, calls[i], number - i, 0);
  code[number + 1] = (struct sock_filter)BPF_STMT(BPF_RET | BPF_K, others);
  code[number + 2] = (struct sock_filter)BPF_STMT(BPF_RET | BPF_K, these);
  struct sock_fprog program = {number + 3, code};
  if (prctl(PR_SET_NO_NEW_PRIVS, 1, 0, 0, 0)) return 1;
#ifdef __x86_64__
  if (by_hand) {
    long result = SYS_seccomp;
    __asm__ volatile("syscall"
                     : "+a"(result)
                     : "D"(SECCOMP_SET_MODE_FILTER), "S"(0), "d"(&program)
                     : "rcx", "r11", "memory");
    return result != 0;
  }
#endif
  return prctl(PR_SET_SECCOMP, SECCOMP_MODE_FILTER, &program) != 0;
}
