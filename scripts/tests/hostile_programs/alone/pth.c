// Threads of GNU Pth, which are fibres on stacks from the heap.
#include <pth.h>
#include <stdlib.h>
#include <unistd.h>

static void *work(void *word) {
  for (int i = 0; i < 50; i++) {
    void *volatile block = malloc(3333);
    free(block), pth_yield(NULL);
  }
  return word;
}
int main(void) {
  pth_t all[20];
  if (!pth_init()) return 1;
  for (int i = 0; i < 20; i++) all[i] = pth_spawn(PTH_ATTR_DEFAULT, work, NULL);
  for (int i = 0; i < 20; i++) pth_join(all[i], NULL);
  return pth_kill() != TRUE || write(1, "done\n", 5) != 5;
}
