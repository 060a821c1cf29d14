// A function of a library that interpreters load and call: one byte too many. Node calls it by the other name, with two handles.
#include <stdlib.h>

void run(void) {
  volatile char *block = malloc(16);
  for (int i = 0; i < 17; i++)
    block[i] = 0;
  free((void *)block);
}

void *napi_register_module_v1(void *environment, void *exports) { return run(), exports; }
