// Programs that request on stacks of their own, with nothing that may be read below or above them; each word is one.
// Requests of 3,333 bytes are made 40 calls deep.
#define _GNU_SOURCE
#include <pthread.h>
#include <sched.h>
#include <signal.h>
#include <stdint.h>
#include <stdio.h>
#include <stdlib.h>
#include <string.h>
#include <sys/mman.h>
#include <sys/wait.h>
#include <ucontext.h>
#include <unistd.h>

enum { FIBRES = 8, TURNS = 30, BYTES = 1 << 16, GUARD = 1 << 16 };
static ucontext_t back, contexts[FIBRES];
static int now, has_ended[FIBRES];

__attribute__((noinline)) static int deep(int more, size_t size) {
  volatile char room[300];
  room[0] = more;
  if (more) return deep(more - 1, size) + room[0];
  void *volatile block = malloc(size);
  free(block);
  return room[0];
}

// the end of a new stack
static char *new_stack(void) {
  char *all = mmap(NULL, BYTES + 2 * GUARD, PROT_NONE, MAP_PRIVATE | MAP_ANONYMOUS, -1, 0);
  if (all == MAP_FAILED || mprotect(all + GUARD, BYTES, PROT_READ | PROT_WRITE)) exit(2);
  return all + GUARD + BYTES;
}

// ---- ucontext

static void fibre(void) {
  for (int i = 0; i < TURNS; i++) deep(i % 2 ? 39 : 0, i % 2 ? 3333 : 100), swapcontext(&contexts[now], &back);
  has_ended[now] = 1;
}

static void *ucontexts(void *unused) {
  memset(has_ended, 0, sizeof has_ended);
  for (int i = 0; i < FIBRES; i++) {
    getcontext(&contexts[i]);
    contexts[i].uc_stack.ss_sp = new_stack() - BYTES, contexts[i].uc_stack.ss_size = BYTES, contexts[i].uc_link = &back;
    makecontext(&contexts[i], fibre, 0);
  }
  for (int k = 0; k <= TURNS; k++)
    for (now = 0; now < FIBRES; now++)
      if (!has_ended[now]) swapcontext(&back, &contexts[now]);
  return unused;
}

// ---- a switch by hand

#ifdef __x86_64__
static void *tops[FIBRES], *main_top;
__attribute__((naked, noinline)) static void change(void **from, void *to) {
  __asm__("push %rbp;push %rbx;push %r12;push %r13;push %r14;push %r15;mov %rsp,(%rdi);mov %rsi,%rsp;"
          "pop %r15;pop %r14;pop %r13;pop %r12;pop %rbx;pop %rbp;ret");
}

// the first word of its stack is the last one that may be read
__attribute__((noinline, force_align_arg_pointer)) static void by_hand(void) {
  for (int i = 0; i < TURNS; i++) deep(i % 2 ? 39 : 0, i % 2 ? 3333 : 100), change(&tops[now], main_top);
  has_ended[now] = 1, change(&tops[now], main_top);
}

static void *switches(void *unused) {
  memset(has_ended, 0, sizeof has_ended);
  for (int i = 0; i < FIBRES; i++) {
    uint64_t *top = (uint64_t *)new_stack();
    *--top = (uint64_t)by_hand, top -= 6, memset(top, 0, 48), tops[i] = top;
  }
  for (int k = 0; k <= TURNS; k++)
    for (now = 0; now < FIBRES; now++)
      if (!has_ended[now]) change(&main_top, tops[now]);
  return unused;
}
#else
static void *switches(void *unused) { return ucontexts(unused); }
#endif

// ---- signals, clone, threads

static void on_signal(int number) { deep(39, 3333), (void)number; }

static void *signals(void *unused) {
  stack_t stack = {.ss_sp = new_stack() - BYTES, .ss_size = BYTES};
  struct sigaction action = {.sa_handler = on_signal, .sa_flags = SA_ONSTACK};
  if (sigaltstack(&stack, NULL) || sigaction(SIGUSR1, &action, NULL)) exit(3);
  for (int i = 0; i < TURNS; i++) raise(SIGUSR1);
  stack.ss_flags = SS_DISABLE, sigaltstack(&stack, NULL);
  return unused;
}

static int cloned(void *unused) {
  for (int i = 0; i < TURNS; i++) deep(39, 3333);
  return unused != NULL;
}

static void *clones(void *unused) {
  int status;
  pid_t process = clone(cloned, new_stack(), CLONE_VM | CLONE_VFORK | SIGCHLD, NULL);
  if (process < 0 || waitpid(process, &status, 0) != process || status) exit(4);
  return unused;
}

static void *recursion(void *unused) { return cloned(NULL) ? unused : NULL; }

static void in_thread(void *(*function)(void *), size_t bytes) {
  pthread_t thread;
  pthread_attr_t attributes;
  pthread_attr_init(&attributes);
  if (bytes && pthread_attr_setstacksize(&attributes, bytes)) exit(5);
  if (pthread_create(&thread, bytes ? &attributes : NULL, function, NULL)) exit(6);
  pthread_join(thread, NULL);
}

// A stack is unmapped from its middle on, and what is below is one by itself.
static void *shorter(void *unused) {
  char *top = new_stack();
  for (int i = 0; i < 2; i++, mprotect(top, BYTES, PROT_NONE)) {
    getcontext(&contexts[0]), now = 0, has_ended[0] = 0;
    contexts[0].uc_stack.ss_sp = top - BYTES, contexts[0].uc_stack.ss_size = BYTES, contexts[0].uc_link = &back;
    makecontext(&contexts[0], fibre, 0);
    while (!has_ended[0]) swapcontext(&back, &contexts[0]);
    top -= BYTES / 2;
    mprotect(top - BYTES, BYTES, PROT_READ | PROT_WRITE);
  }
  return unused;
}

int main(int words, char **word) {
  static const struct { const char *name; void *(*function)(void *); } all[] = {
      {"ucontext", ucontexts}, {"switch", switches}, {"signals", signals}, {"clone", clones}, {"shorter", shorter}};
  for (int i = 0; words > 1 && i < (int)(sizeof all / sizeof *all); i++) {
    if (strcmp(word[1], all[i].name)) continue;
    for (int k = 0; k < 3; k++) all[i].function(NULL), in_thread(all[i].function, 0), in_thread(all[i].function, 1 << 17);
  }
  if (words > 1 && !strcmp(word[1], "threads")) in_thread(recursion, 0), in_thread(recursion, 1 << 17);
  puts("ok");
  return 0;
}
