// No error: vectors, strings and shared pointers.
#include <memory>
#include <string>
#include <vector>

int main() {
  std::vector<std::string> texts;
  for (int i = 0; i < 2000; i++) texts.push_back(std::string(i % 70, 'x'));
  std::shared_ptr<std::vector<int>> numbers = std::make_shared<std::vector<int>>(1000, 3);
  for (auto &text : texts) text += "y";
  return texts.back().size() != 40 || numbers->size() != 1000;
}
