// Programs that run others, or are under filters of system calls. What counts are requests of 3,333 bytes.
//
// plain                  10 of them, and how many variables of the recorder it sees
// by WAY PATH WORD..     runs another program: `execve` to `syscallat` in its own place, the others beside it
// allows PATH WORD..     the same under a filter that ends a process for every call that `plain` does not make alone
// any PATH WORD..        the same under a filter that allows all
// forks                  gives up, by no function of the C library, calls that no loader makes; and forks
#define _GNU_SOURCE
#include <fcntl.h>
#include <linux/filter.h>
#include <linux/seccomp.h>
#include <spawn.h>
#include <stddef.h>
#include <stdio.h>
#include <stdlib.h>
#include <string.h>
#include <sys/prctl.h>
#include <sys/syscall.h>
#include <sys/wait.h>
#include <unistd.h>

extern char **environ;

static void request(int times) {
  for (int i = 0; i < times; i++) {
    void *volatile block = malloc(3333);
    free(block);
  }
}

static int ended(pid_t process) {
  int status;
  waitpid(process, &status, 0);
  return WIFEXITED(status) ? WEXITSTATUS(status) : 128 + WTERMSIG(status);
}

static int run_by(const char *way, char **words) {
  pid_t process = 0;
  int opened = strstr(way, "fexecve") || strstr(way, "at") ? open(words[0], O_RDONLY | O_CLOEXEC) : -1;
#define IS(name) (!strcmp(way, name))
  if (IS("execve")) execve(words[0], words, environ);
  if (IS("execv")) execv(words[0], words);
  if (IS("execvp")) execvp(words[0], words);
  if (IS("execvpe")) execvpe(words[0], words, environ);
  if (IS("execl")) execl(words[0], words[0], words[1], NULL);
  if (IS("execle")) execle(words[0], words[0], words[1], NULL, environ);
  if (IS("fexecve")) fexecve(opened, words, environ);
  if (IS("execveat")) execveat(AT_FDCWD, words[0], words, environ, 0);
  if (IS("syscall")) syscall(SYS_execve, words[0], words, environ);
  if (IS("syscallat")) syscall(SYS_execveat, opened, "", words, environ, AT_EMPTY_PATH);
  if (IS("posix_spawn") && !posix_spawn(&process, words[0], NULL, NULL, words, environ)) return ended(process);
  if (IS("posix_spawnp") && !posix_spawnp(&process, words[0], NULL, NULL, words, environ)) return ended(process);
  if (IS("vfork") && !(process = vfork())) execv(words[0], words), _exit(9);
  if (IS("vfork")) return ended(process);
  return 9;
}

#define ALLOW BPF_STMT(BPF_RET | BPF_K, SECCOMP_RET_ALLOW)
#define KILL BPF_STMT(BPF_RET | BPF_K, SECCOMP_RET_KILL_PROCESS)

// what `strace ./plain` shows, and what a loader may call for another object
static const int made[] = {
  SYS_execve, SYS_brk, SYS_mmap, SYS_openat, SYS_newfstatat, SYS_fstat, SYS_close, SYS_read, SYS_pread64,
  SYS_set_tid_address, SYS_set_robust_list, SYS_rseq, SYS_mprotect, SYS_prlimit64, SYS_munmap, SYS_getrandom, SYS_write,
  SYS_exit_group, SYS_faccessat,
#ifdef __x86_64__
  SYS_access, SYS_arch_prctl,
#endif
};
static const int given_up[] = {
  SYS_madvise, SYS_readlinkat, SYS_getpid, SYS_fallocate, SYS_geteuid, SYS_getuid, SYS_prlimit64,
#ifdef __x86_64__
  SYS_readlink,
#endif
};

static int set_filter(struct sock_filter *code, int number, int by_hand) {
  struct sock_fprog program = {number, code};
  if (prctl(PR_SET_NO_NEW_PRIVS, 1, 0, 0, 0)) return 1;
#ifdef __x86_64__
  if (by_hand) {
    long result = SYS_seccomp;
    __asm__ volatile("syscall" : "+a"(result) : "D"(SECCOMP_SET_MODE_FILTER), "S"(0), "d"(&program)
                     : "rcx", "r11", "memory");
    return result != 0;
  }
#endif
  return prctl(PR_SET_SECCOMP, SECCOMP_MODE_FILTER, &program) != 0;
}

// Allows only these calls, or all but these.
static int set_calls(const int *calls, int number, int are_allowed, int by_hand) {
  struct sock_filter code[64] = {BPF_STMT(BPF_LD | BPF_W | BPF_ABS, offsetof(struct seccomp_data, nr))};
  struct sock_filter allow = ALLOW, kill = KILL;
  for (int i = 0; i < number; i++)
    code[i + 1] = (struct sock_filter)BPF_JUMP(BPF_JMP | BPF_JEQ | BPF_K, calls[i], number - i, 0);
  code[number + 1] = are_allowed ? kill : allow, code[number + 2] = are_allowed ? allow : kill;
  return set_filter(code, number + 3, by_hand);
}

int main(int words, char **word) {
  if (words > 3 && !strcmp(word[1], "by")) return request(3), run_by(word[2], word + 3);
  if (words > 2 && !strcmp(word[1], "allows"))
    return set_calls(made, sizeof made / sizeof *made, 1, 0) || (execve(word[2], word + 2, environ), 8);
  if (words > 2 && !strcmp(word[1], "any")) return set_calls(NULL, 0, 0, 0) || (execvp(word[2], word + 2), 8);
  if (words > 1 && !strcmp(word[1], "forks")) {
    request(3);
    if (set_calls(given_up, sizeof given_up / sizeof *given_up, 0, 1)) return 7;
    pid_t process = fork();
    if (!process) request(5), _exit(0);
    return ended(process);
  }
  request(10);
  char line[40];
  int number = (getenv("MTE_STREAM") != NULL) + (getenv("LD_PRELOAD") != NULL);
  int length = snprintf(line, sizeof line, "sees %d\n", number);
  return write(1, line, length) != length;
}
