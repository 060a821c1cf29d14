// A program with functions of its own for new and delete, of which some lead to malloc, and exceptions through all of
// it.
#include <cstdio>
#include <cstdlib>
#include <new>
#include <stdexcept>
#include <string>
#include <thread>
#include <vector>
#include <unistd.h>

static char own[1 << 16];
static size_t used;
void *operator new(size_t size) {
  if (size < 64 && used + 64 <= sizeof own) return own + (used += 64) - 64;
  if (void *block = malloc(size)) return block;
  throw std::bad_alloc();
}
static bool is_own(void *block) { return block >= own && block < own + sizeof own; }
void operator delete(void *block) noexcept {
  if (!is_own(block)) free(block);
}
void operator delete(void *block, size_t) noexcept {
  if (!is_own(block)) free(block);
}

static int thrown;
static void deep(int number) {
  std::string text(3333 - 1, 'x');
  if (!number) throw std::runtime_error(text);
  deep(number - 1);
}
int main() {
  std::vector<std::string> all;
  for (int i = 0; i < 200; i++) all.push_back(std::string(i * 10, 'a'));
  for (int i = 0; i < 20; i++) try {
      deep(i);
    } catch (const std::exception &) {
      thrown++;
    }
  try {
    operator delete(operator new(1UL << 60));
  } catch (const std::bad_alloc &) {
    thrown++;
  }
  std::thread([] {
    try {
      deep(5);
    } catch (...) {
      thrown++;
    }
  }).join();
  return thrown != 22 || write(1, "done\n", 5) != 5;
}
