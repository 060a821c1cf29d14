// One memory error each, by its number: its kind, its offset in the block, and all that may become of it by the laws.
#include <stdlib.h>
#include <string.h>

static char source[100] = "abcdefghij";

static void store(char *p, int at) { *(volatile char *)(p + at) = 1; }

int main(int count, char **words) {
  char *p = malloc(40), stacked[16];
  switch (count > 1 ? atoi(words[1]) : 0) {
    case 0: store(p, 40); break;                          // overflow 40: not caught
    case 1: store(malloc(48), 48); break;                 // overflow 48: caught
    case 2: store(p, -1); break;                          // underflow -1: caught
    case 3: memcpy(p + 8, source, 50); break;             // overflow 40: caught
    case 4: strcpy(malloc(10), source); break;            // overflow 10: caught, not caught
    case 5: free(p); store(p, 3); break;                  // use after free 3: by chance, caught
    case 6: free(realloc(p, 41)); store(p, 3); break;     // use after realloc 3: by chance, caught, not caught
    case 7: free(p); free(p); break;                      // double free 0: by chance, caught
    case 8: free(p + 16); break;                          // invalid free 16: caught
    case 9: free(stacked); break;                         // invalid free 2: caught
    case 10: store(stacked, 16 + count); break;           // overflow of a variable 2: not replayed
    case 11: memcpy(p, p + 8, 20 + count); break;         // overlapping copy 0: not caught
    case 12: memcpy(p, source, -1 - count); break;        // impossible size 2: caught, not replayed
    case 13: p = realloc(p, 41); store(p, 20000); break;  // access of no block 1: not replayed
    case 14: store(p, 44); break;                         // overflow 44: by chance, caught, not caught
  }
  return 0;
}
