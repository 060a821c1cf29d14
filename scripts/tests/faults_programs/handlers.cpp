// What new does where there is no memory: it calls the program's handler until that frees some, throws, or is taken off.
#include <cstdlib>
#include <new>

static const size_t TOO_MUCH = (size_t)1 << 40;
static int calls;
static void *volatile kept;  // else clang takes what new gives for a pointer to something
static bool is_none(void *pointer) { return !(kept = pointer); }
static void end_at_third() { if (++calls == 3) std::set_new_handler(nullptr); }
static void give_up() { calls++; throw std::bad_alloc(); }

static int ask(std::new_handler handler, size_t size) {
  calls = 0, std::set_new_handler(handler);
  try {
    delete[] new char[size];
  } catch (std::bad_alloc &) {
    return -calls;
  }
  return calls;
}

int main() {
  int is_right = ask(end_at_third, TOO_MUCH) == -3 && ask(give_up, TOO_MUCH) == -1;
  is_right &= ask(nullptr, TOO_MUCH) == 0 && ask(give_up, 10) == 0;
  calls = 0, std::set_new_handler(end_at_third);
  is_right &= is_none(new (std::nothrow) char[TOO_MUCH]) && calls == 3 && is_none(new (std::nothrow) char[TOO_MUCH]);
  calls = 0, std::set_new_handler(give_up);
  is_right &= is_none(new (std::nothrow) char[TOO_MUCH]) && is_none(::operator new(TOO_MUCH, std::nothrow)) && calls == 2;
  return !is_right;
}
