// Stores of another kind than the heap's: to the mapping of its own log, at the byte that the word says. There is no error to tell.
#include <stdio.h>
#include <stdlib.h>
#include <string.h>

int main(int words, char **word) {
  char line[1000], *at = NULL;
  for (int i = 0; i < 100; i++) free(malloc(i));
  FILE *maps = fopen("/proc/self/maps", "r");
  while (fgets(line, sizeof line, maps))
    if (strstr(line, getenv("ACCESSES"))) sscanf(line, "%p", (void **)&at);
  fclose(maps);
  if (!at || words < 2) return 1;
  if (strcmp(word[1], "head")) at[atoi(word[1])] ^= 1;
  else memset(at, 0, 128);
  return 0;
}
