// Requests whose places scripts/tests/test_who.py knows by the comments at their ends: a function that hands requests on, a deep recursion, a function
// that aligns its stack, another thread, a realloc, a child, and two calls of one function in turn.
#include <pthread.h>
#include <stdint.h>
#include <stdio.h>
#include <stdlib.h>
#include <string.h>
#include <sys/wait.h>
#include <unistd.h>

#define APART __attribute__((noinline, noipa))
static void *kept[4096];
static int number;

APART static void keep(void *block) { kept[number++] = block; }
APART static void *xmalloc(size_t size) {
  void *block = malloc(size);
  if (!block) abort();
  return block;
}
APART static void nodes(int many) {
  for (int i = 0; i < many; i++) keep(xmalloc(1064));  // nodes
}
APART static void edges(int many) {
  for (int i = 0; i < many; i++) keep(calloc(3, 24));  // edges
}
APART static int deep(int calls) {
  volatile char room[calls % 7 * 8 + 8];
  room[0] = 1;
  if (!calls) keep(malloc(2000));  // deep
  return calls ? deep(calls - 1) + room[0] : 0;
}
APART static void aligned(int many) {
  _Alignas(64) volatile char room[128];
  memset((char *)room, many, sizeof room);
  char *more = __builtin_alloca(many);
  memset(more, 1, many);
  keep(malloc(3000 + more[0] * room[1]));  // aligned
}
APART static void leaf(size_t size) { keep(malloc(size)); }
APART static void in_turn(int many) {
  for (int i = 0; i < many; i++) {
    leaf(304);  // odd
    leaf(304);  // even
  }
}
APART static void *other(void *of) {
  keep(malloc((uintptr_t)of));  // other
  return NULL;
}
APART static void grow(void) {
  void *block = malloc(100);
  for (size_t size = 200; size <= 6400; size *= 2) block = realloc(block, size);  // grow
  keep(block);
}

int main(int words, char **word) {
  pthread_t thread;
  int many = words > 1 ? atoi(word[1]) : 100;
  nodes(many), edges(4 * many), deep(90), aligned(100), grow(), in_turn(10);
  if (pthread_create(&thread, NULL, other, (void *)9000) || pthread_join(thread, NULL)) return 1;
  if (!fork()) {
    nodes(1000);
    _exit(0);
  }
  wait(NULL);
  while (number > 1) free(kept[--number]);
  for (int i = 0; i < 10; i++) keep(malloc(1025));  // last
  return 0;
}
