// A crash of the kind that the word says, or an end with a status.
#include <assert.h>
#include <pthread.h>
#include <signal.h>
#include <stdio.h>
#include <stdlib.h>
#include <string.h>

static int *volatile null;
static void (*volatile nothing)(void);
static int deep(int n) {
  volatile char bytes[1000];
  bytes[0] = n;
  return n ? deep(n + 1) + bytes[0] : 0;
}
static int compare(const void *left, const void *right) { return *(char *)left - *(int *)((char *)null + (right ? 16 : 0)); }  // QSORT
static void *in_thread(void *unused) {
  free(malloc(10));
  return unused ? NULL : (void *)(long)deep(1);
}

static void crash(const char *kind, int zero) {
  char letters[3] = {3, 1, 2};
  pthread_t thread;
  if (!strcmp(kind, "null")) *null = 1;  // NULL
  if (!strcmp(kind, "strlen")) printf("%zu", strlen((char *)null));  // STRLEN
  if (!strcmp(kind, "assert")) assert(zero);  // ASSERT
  if (!strcmp(kind, "divide")) printf("%d", 7 / *(volatile int *)&zero);  // DIVIDE
  if (!strcmp(kind, "call")) nothing();  // CALL
  if (!strcmp(kind, "deep")) deep(1);
  if (!strcmp(kind, "thread") && !pthread_create(&thread, NULL, in_thread, NULL)) pthread_join(thread, NULL);
  if (!strcmp(kind, "qsort")) qsort(letters, 3, 1, compare);
  if (!strcmp(kind, "raise")) raise(SIGBUS);  // RAISE
  if (!strcmp(kind, "trap")) __builtin_trap();  // TRAP
  if (!strcmp(kind, "own")) signal(SIGSEGV, exit), *null = 1;
  if (!strcmp(kind, "status")) exit(7);
}

int main(int words, char **word) {
  char *block = malloc(100);
  crash(words > 1 ? word[1] : "", words > 9);
  free(block);
  return words > 1 && !strcmp(word[1], "return") ? 9 : 0;
}
