// Numbers at any place: the compiler's check looks at their first and at their last byte. What is wrong with a line stands beside it.
#include <stdlib.h>
#include <string.h>

struct __attribute__((packed)) number { long value; };
#define NUMBER(at) ((volatile struct number *)(at))->value

int main(void) {
  char *block = malloc(40), *other = malloc(48), *third = malloc(64), *freed = malloc(40);
  long sum = 0;
  memset(block, 1, 40), memset(other, 1, 48), memset(third, 1, 64);
  for (int i = 0; i < 33; i++) sum += NUMBER(block + i);
  for (int i = 0; i < 33; i++) NUMBER(block + i) = sum;
  for (int i = 0; i < 41; i++) sum += NUMBER(other + i);
  NUMBER(block + 33) = sum;  // store of 8 bytes, from 33 bytes into a block of 40 bytes to 1 byte after it
  NUMBER(block + 40) = sum;  // store of 8 bytes, 0 bytes after a block of 40 bytes
  NUMBER(block + 41) = sum;  // store of 8 bytes, 1 byte after a block of 40 bytes
  NUMBER(other - 3) = sum;  // store of 8 bytes, 3 bytes before a block of 48 bytes
  sum += NUMBER(other - 8);  // load of 8 bytes, 8 bytes before a block of 48 bytes
  sum += NUMBER(other + 43);  // load of 8 bytes, from 43 bytes into a block of 48 bytes to 3 bytes after it
  sum += NUMBER(other + 48);  // load of 8 bytes, 0 bytes after a block of 48 bytes
  NUMBER(third + 57) = sum;  // store of 8 bytes, from 57 bytes into a block of 64 bytes to 1 byte after it
  NUMBER(third - 7) = sum;  // store of 8 bytes, 7 bytes before a block of 64 bytes
  free(freed);
  sum += NUMBER(freed + 3);  // load of 8 bytes, 3 bytes into a block of 40 bytes that was freed
  NUMBER(freed + 36) = sum;  // store of 8 bytes, 36 bytes into a block of 40 bytes that was freed
  NUMBER(freed - 3) = sum;  // store of 8 bytes, 3 bytes before a block of 40 bytes that was freed
  for (int i = 0; i < 8; i++)
    NUMBER(third + 50 + i) = sum;  // store of 8 bytes, from 57 bytes into a block of 64 bytes to 1 byte after it
  free(block), free(other), free(third);
  return 0;
}
