// Coroutines of the Portable Coroutine Library, on stacks that the program has of its own.
#include <pcl.h>
#include <stdlib.h>
#include <unistd.h>

static char stacks[8][1 << 16] __attribute__((aligned(4096)));
static void work(void *word) {
  (void)word;
  for (int i = 0; i < 50; i++) {
    void *volatile block = malloc(3333);
    free(block), co_resume();
  }
}
int main(void) {
  coroutine_t all[8];
  if (co_thread_init()) return 1;
  for (int i = 0; i < 8; i++)
    if (!(all[i] = co_create(work, NULL, stacks[i], sizeof stacks[i]))) return 1;
  for (int k = 0; k < 50; k++)
    for (int i = 0; i < 8; i++) co_call(all[i]);
  return co_thread_cleanup(), write(1, "done\n", 5) != 5;
}
