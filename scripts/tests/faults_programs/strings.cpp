// Strings that libstdc++ itself requests and frees: the stacks name the program's lines. With a number it makes so many of them.
#include <cstdlib>
#include <string>

static std::string made(const char *text) { return std::string(text) + " and more than fits in the string itself"; }

int main(int words, char **word) {
  long most = words > 1 ? atol(word[1]) : 1;
  volatile long sum = 0;
  for (long i = 0; i < most; i++) {
    std::string text;
    text.append("a text that is longer than what fits in the string itself");
    sum += text.size();
  }
  std::string *text = new std::string(made("one"));
  volatile char *end = &(*text)[0];
  end[text->capacity() + 1] = 'x';
  text->append(100, 'y');
  end[3] = 'z';
  delete text;
  return 0;
}
