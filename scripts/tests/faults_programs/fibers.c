// Fibers: a thread goes from stack to stack, and requests, frees and errs on each.
#include <stdio.h>
#include <stdlib.h>
#include <string.h>
#include <sys/mman.h>
#include <ucontext.h>

enum { FIBERS = 8, SIZE = 65536 };
static ucontext_t home, fibers[FIBERS];
static char *volatile block;
static int wrong;

static __attribute__((noinline)) void work(int number) {
  char *own = malloc(10 + number);
  memset(own, number, 10 + number);
  if (wrong == 1) own[10 + number] = 1;
  free(own);
}

static void run(int number) {
  for (;;) {
    work(number);
    swapcontext(&fibers[number], &home);
  }
}

int main(int words, char **word) {
  int rounds = words > 1 ? atoi(word[1]) : 2;
  char *stacks[FIBERS];
  for (int i = 0; i < FIBERS; i++) {
    getcontext(&fibers[i]);
    stacks[i] = i % 2 ? malloc(SIZE) : mmap(NULL, SIZE, PROT_READ | PROT_WRITE, MAP_PRIVATE | MAP_ANONYMOUS, -1, 0);
    fibers[i].uc_stack.ss_sp = stacks[i], fibers[i].uc_stack.ss_size = SIZE;
    makecontext(&fibers[i], (void (*)(void))run, 1, i);
  }
  for (int i = 0; i < rounds; i++) swapcontext(&home, &fibers[i % FIBERS]);
  wrong = 1;
  swapcontext(&home, &fibers[3]);
  for (int i = 0; i < FIBERS; i += 2) munmap(stacks[i], SIZE);
  mmap(stacks[0], SIZE / 2, PROT_READ | PROT_WRITE, MAP_PRIVATE | MAP_ANONYMOUS | MAP_FIXED, -1, 0);
  return 0;
}
