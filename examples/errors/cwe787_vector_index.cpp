// CWE-787, write out of bounds: the element after the last of a vector.
// heap: always: store of 8 bytes, 0 bytes after a block of 64 bytes
#include <vector>

std::vector<long> numbers(8);

int main() {
  volatile unsigned long after_last = numbers.size();
  long *elements = numbers.data();
  elements[after_last] = 7;  // WRONG
  return 0;
}
