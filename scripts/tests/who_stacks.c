// Requests of 1,000 bytes and more by drawn calls, at most 300 deep, some of them of functions that keep a frame pointer or align their stack.
// Each stack goes to the file that is named, as glibc's own backtrace has it: how many return addresses, and these, the innermost first.
#include <execinfo.h>
#include <stdio.h>
#include <stdlib.h>
#include <string.h>

#define APART __attribute__((noinline, noipa))
enum { MOST = 400 };
static unsigned seed = 7;
static FILE *file;

static unsigned draw(unsigned below) {
  seed = seed * 1103515245 + 12345;
  return seed / 65536 % below;
}

APART static void *leaf(int n) {
  void *block = malloc(1000 + n % 5 * 24), *stack[MOST];
  long number = backtrace(stack, MOST);
  fwrite(&number, sizeof number, 1, file), fwrite(stack, sizeof *stack, number, file);
  return block;
}
APART static void *sized(int n) {
  char text[n % 300 + 1];
  memset(text, n, sizeof text);
  return leaf(n + text[0]) ?: text;
}
APART static void *aligned(int n) {
  char __attribute__((aligned(64))) text[64];
  memset(text, n, sizeof text);
  return n & 1 ? sized(n + text[0]) : leaf(n + text[0]) ?: text;
}
APART static void deep(int depth, int n) {
  static void *(*const calls[])(int) = {leaf, sized, aligned};
  unsigned drawn = draw(4);
  void *block = drawn < 3 ? calls[drawn](n) : NULL;
  char text[draw(60) + 8];
  if (depth) deep(depth - 1, n + (memset(text, n, sizeof text) == text));
  free(block);
}

int main(int number, char **words) {
  void *stack[1];
  backtrace(stack, 1);  // what it requests itself
  if (number < 2 || !(file = fopen(words[1], "wb"))) return 1;
  for (int n = 0; n < 600; n++) deep(draw(8) ? draw(40) : draw(300), n);
  return fclose(file);
}
