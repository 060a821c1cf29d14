// Runs a function, which was main of variables.c, in so many processes on a stack with tags, and prints how many a fault ended.
#include <stdio.h>
#include <stdlib.h>
#include <string.h>
#include <sys/mman.h>
#include <sys/prctl.h>
#include <sys/wait.h>
#include <unistd.h>

enum { TAGGED = 0x20 /* PROT_MTE */, SET_TAGGED = 55 /* PR_SET_TAGGED_ADDR_CTRL */, SYNCHRONOUS = 3, NOT_ZERO = 0xfffe << 3 };
int tagged_main(int n, char **words);

int main(int n, char **words) {
  char line[300];
  unsigned long low = 0, high = 0;
  FILE *maps = fopen("/proc/self/maps", "r");
  while (fgets(line, sizeof line, maps))
    if (strstr(line, "[stack]")) sscanf(line, "%lx-%lx", &low, &high);
  if (mprotect((void *)low, high - low, PROT_READ | PROT_WRITE | TAGGED)) return 1;
  if (prctl(SET_TAGGED, SYNCHRONOUS | NOT_ZERO, 0, 0, 0)) return 1;
  int caught = 0, status;
  for (int left = atoi(words[2]); left; left--) {
    void *drawn;
    __asm__ volatile("irg %0, %1" : "=r"(drawn) : "r"(line));  // so that no two processes draw the same
    if (!fork()) _exit(tagged_main(2, words));
    wait(&status), caught += WIFSIGNALED(status);
  }
  printf("%d\n", caught);
  return 0;
}
