// CWE-825, expired pointer: to an element of a vector that has grown since then.
// heap: always: store of 4 bytes, 0 bytes into a block of 12 bytes that was freed
#include <vector>

int *first;

int main() {
  std::vector<int> numbers{1, 2, 3};
  first = &numbers[0];
  for (int i = 0; i < 100; i++) numbers.push_back(i);
  *first = 7;  // WRONG
  return 0;
}
