// Fibres of boost.context, on stacks with a guard, from the heap, and by threads.
#include <boost/context/fiber.hpp>
#include <boost/context/fixedsize_stack.hpp>
#include <boost/context/protected_fixedsize_stack.hpp>
#include <cstdlib>
#include <thread>
#include <vector>
#include <unistd.h>

namespace ctx = boost::context;
template <class Stack>
static void turn(int number) {
  std::vector<ctx::fiber> all;
  for (int i = 0; i < number; i++)
    all.emplace_back(std::allocator_arg, Stack(65536), [](ctx::fiber &&to) {
      for (int k = 0; k < 20; k++) {
        free(malloc(3333));
        to = std::move(to).resume();
      }
      return std::move(to);
    });
  for (bool goes_on = true; goes_on;) {
    goes_on = false;
    for (auto &each : all)
      if (each) each = std::move(each).resume(), goes_on = true;
  }
}
int main() {
  turn<ctx::fixedsize_stack>(20), turn<ctx::protected_fixedsize_stack>(20);
  std::thread one(turn<ctx::fixedsize_stack>, 10), other(turn<ctx::protected_fixedsize_stack>, 10);
  one.join(), other.join();
  return write(1, "done\n", 5) != 5;
}
