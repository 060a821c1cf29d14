#include <stdlib.h>

void clear(volatile char *to, int number);

int main(void) {
  clear(malloc(16), 17);
  return 0;
}
