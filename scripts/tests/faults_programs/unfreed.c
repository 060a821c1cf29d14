// What is left at the end: blocks to which no pointer is left, others that are still reachable, and some that the program wants passed over.
#define _GNU_SOURCE
#include <malloc.h>
#include <sanitizer/lsan_interface.h>
#include <stdint.h>
#include <stdio.h>
#include <stdlib.h>
#include <string.h>

struct item { struct item *next; char text[20]; };
static struct item *volatile items;
static char *volatile kept;
static int number;

static __attribute__((noinline)) char *make(int size) { return memset(malloc(size), 1, size); }  // LOST
static __attribute__((noinline)) void lose_one(void) { number += *make(100); }
static __attribute__((noinline)) void lose_more(void) { number += *make(10) + *make(10); }

static __attribute__((noinline)) void right(void) {
  char *page = valloc(5), *pages = pvalloc(5000), *none = pvalloc(0);
  if ((uintptr_t)page % 4096 || (uintptr_t)pages % 4096 || malloc_usable_size(pages) != 8192) exit(9);
  memset(page, 1, 5), memset(pages, 1, 8192);
  free(page), free(pages), free(none);
  __lsan_disable();
  number += *make(7);
  __lsan_enable();
  char *ignored = make(8);
  __lsan_ignore_object(ignored);
  number += *ignored;
}

// else old pointers are left on the stack
static __attribute__((noinline)) void clear_stack(void) {
  volatile char bytes[8192];
  for (size_t i = 0; i < sizeof bytes; i++) bytes[i] = 0;
}

int main(void) {
  right();
  kept = make(33);  // KEPT
  for (int i = 0; i < 5; i++) {
    struct item *item = malloc(sizeof *item);  // ITEMS
    item->next = items, items = item;
  }
  lose_one(), lose_more();
  {
    char *volatile stale = make(25);  // its word of the stack outlives it
    number += *stale;
  }
  clear_stack();
  printf("%d\n", number > 0);
  exit(0);
}
