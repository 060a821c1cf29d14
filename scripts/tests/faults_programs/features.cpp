// What compilers instrument in other ways: arrays of variable length, alloca, exceptions, objects at the start, variables of threads.
#include <alloca.h>
#include <cstring>
#include <functional>
#include <stdexcept>
#include <string>
#include <thread>

static std::string names[3] = {"a", "b", "c"};
thread_local std::string mine = "thread";

static int deep(int n) {
  char bytes[n + 1], *more = (char *)alloca(n + 3);
  memset(bytes, 1, n + 1);
  memset(more, 2, n + 3);
  int numbers[5] = {n};
  std::function<int()> sum = [&] { return numbers[0] + bytes[0] + more[2]; };
  if (n > 3) throw std::runtime_error("deep");
  return sum() + deep(n + 1);
}

int main() {
  try {
    deep(0);
  } catch (std::runtime_error &error) {
    names[0] += error.what();
  }
  std::thread thread([] { mine += "x"; });
  thread.join();
  return names[0].size() != 5;
}
