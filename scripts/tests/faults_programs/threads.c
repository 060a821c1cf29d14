// Four threads with 20,000 blocks, and one error at the end.
#include <pthread.h>
#include <stdlib.h>
#include <string.h>

static void *work(void *sum) {
  for (int i = 0; i < 5000; i++) {
    char *block = malloc(16 + i % 500);
    memset(block, i, 16 + i % 500);
    block = realloc(block, 600);
    block[599] = 1;
    free(block);
  }
  return sum;
}

char *block;

int main(void) {
  pthread_t threads[4];
  for (int i = 0; i < 4; i++) pthread_create(&threads[i], NULL, work, NULL);
  for (int i = 0; i < 4; i++) pthread_join(threads[i], NULL);
  block = malloc(50);
  free(block);
  block[1] = 2;
  return 0;
}
