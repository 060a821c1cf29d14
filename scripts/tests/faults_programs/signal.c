// A handler of a signal that comes 500 times writes to a block; there is no error.
#include <signal.h>
#include <stdlib.h>
#include <string.h>
#include <sys/time.h>

static char *volatile block;
static volatile int signals;

static void handle(int signal) {
  signals++;
  block[signals % 100] = signal;
  memset(block, signals, 64);
}

int main(void) {
  struct itimerval often = {{0, 100}, {0, 100}};
  block = malloc(100);
  signal(SIGALRM, handle);
  setitimer(ITIMER_REAL, &often, NULL);
  while (signals < 500) {
    char *other = malloc(100);
    memset(other, 1, 100);
    other = realloc(other, 300);
    other[299] = 1;
    free(other);
  }
  return 0;
}
