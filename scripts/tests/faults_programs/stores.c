// A loop of byte stores, and a few loads: the access that costs least, so that the runtime's check costs most.
#include <stdio.h>
#include <stdlib.h>

int main(int count, char **words) {
  size_t size = 100000, sum = 0, rounds = count > 1 ? strtoul(words[1], NULL, 10) : 1;
  unsigned char *bytes = malloc(size);
  for (size_t round = 0; round < rounds; round++) {
    for (size_t i = 0; i < size; i++) bytes[i] = (unsigned char)(i * round);
    sum += bytes[round % size];
  }
  printf("%zu\n", sum);
  free(bytes);
  return 0;
}
