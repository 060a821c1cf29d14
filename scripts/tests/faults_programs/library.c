// A function of a library, which uses_library.c calls with one byte too many.
void clear(volatile char *to, int number) {
  for (int i = 0; i < number; i++)
    to[i] = 0;
}
