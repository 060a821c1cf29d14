// An error, and then an end without an exit.
#include <signal.h>
#include <stdlib.h>

char *block;

int main(void) {
  block = malloc(50);
  free(block);
  block[1] = 2;
  for (int i = 0; i < 1000; i++) *(volatile char *)malloc(20) = 1;
  raise(SIGKILL);
  return 0;
}
