// The error is the parent's alone; the child, its child, and what that runs have errors of their own.
#include <stdlib.h>
#include <sys/wait.h>
#include <unistd.h>

char *block;

int main(int words, char **word) {
  block = malloc(50);
  free(block);
  if (words > 1) return block[2];
  if (!fork()) {
    block[1] = 2;
    if (!fork()) {
      block[3] = 1;
      execl(word[0], word[0], "again", (char *)NULL);
    }
    wait(NULL);
    _exit(0);
  }
  wait(NULL);
  block[0] = 1;
  return 0;
}
