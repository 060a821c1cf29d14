// A program without a C library, which a recorder brings with it.
static long call(long number, long one, long two, long three) {
  long result;
  __asm__ volatile("syscall" : "=a"(result) : "a"(number), "D"(one), "S"(two), "d"(three) : "rcx", "r11", "memory");
  return result;
}
void _start(void) { call(1, 1, (long)"done\n", 5), call(231, 0, 0, 0), __builtin_unreachable(); }
