// A file for a C++ compiler: many headers and some templates.
#include <algorithm>
#include <functional>
#include <iostream>
#include <map>
#include <random>
#include <regex>
#include <string>
#include <unordered_map>
#include <vector>

int main() {
  std::map<std::string, std::vector<int>> kept;
  std::unordered_map<int, std::function<int(int)>> calls;
  std::mt19937 draw(7);
  for (int n = 0; n < 1000; n++) {
    kept[std::to_string(draw() % 100)].push_back(n);
    calls[n] = [n](int m) { return n + m; };
  }
  std::regex digits("[0-9]+");
  for (auto &[name, numbers] : kept) {
    std::sort(numbers.begin(), numbers.end());
    if (std::regex_match(name, digits)) std::cout << name << ' ' << calls[numbers[0]](1) << '\n';
  }
}
