// CWE-825, expired pointer: get() of a unique_ptr that was reset since then.
// heap: always: store of 4 bytes, 4 bytes into a block of 8 bytes that was freed
#include <memory>

struct pair { int left, right; };

pair *borrowed;

int main() {
  std::unique_ptr<pair> owner(new pair{1, 2});
  borrowed = owner.get();
  owner.reset();
  borrowed->right = 3;  // WRONG
  return 0;
}
