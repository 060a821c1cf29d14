// Errors in two lambdas of one function, in a header, and in a thread, which a function of libstdc++ starts that has no name.
#include <functional>
#include <thread>

#include "lambdas.h"

static int next(int x) { return x + 1; }

int main(int words, char **) {
  int *volatile at = new int[10], *volatile other = new int[20];
  std::function<int()> first = [&] { return words < 2 ? at[11] : 0; };
  std::function<int()> second = [&] { return words > 1 ? at[11] : 0; };
  int sum = first() + second();
  delete[] at;
  Later<int (*)(int)> later{next, at};
  if (words == 1) sum += later.run();
  delete[] other;
  std::thread([&] { sum += words < 3 ? other[5] : 0; }).join();
  return sum & 0;
}
