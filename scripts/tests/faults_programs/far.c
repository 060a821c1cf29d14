// Accesses far after blocks, of addresses that no block has; and of a block that is forgotten, since much was freed after it.
#include <stdlib.h>

char *volatile other;  // else the compiler deletes its malloc
int main(void) {
  volatile char *block = malloc(6), *large;
  block[100] = 1;
  block[100000] = 1;
  large = malloc(600000);
  block[200000] = 1;
  large[700000] = 1;
  large[4000000] = 1;
  free((void *)(block + 5000000));
  for (int i = 0; i < 90; i++) other = malloc(1 << 20), free(other);
  free((void *)large);
  for (int i = 0; i < 90; i++) other = malloc(1 << 20), free(other);
  large[1] = 1;
  free((void *)large);
  return 0;
}
