// CWE-825, expired pointer: c_str() of a string that has grown since then.
// heap: always: load of 1 byte, 5 bytes into a block of 101 bytes that was freed
#include <string>

const char *letters;

int main() {
  std::string text(100, 'a');
  letters = text.c_str();
  text += std::string(1000, 'b');
  volatile char letter = letters[5];  // WRONG
  return letter != 'a' && 0;
}
