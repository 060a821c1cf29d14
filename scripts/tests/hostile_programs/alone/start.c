// A program that begins by itself, and calls the C library from there.
#include <stdlib.h>
#include <unistd.h>

__attribute__((force_align_arg_pointer)) void _start(void) {
  for (int i = 0; i < 100; i++) {
    void *volatile block = malloc(3333);
    free(block);
  }
  write(1, "done\n", 5), _exit(0);
}
