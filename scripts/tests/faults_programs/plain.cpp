// The same for C++: plain KIND.
#include <cstdio>
#include <cstring>
#include <vector>

struct Pair {
  int first, second;
  ~Pair() { first = 0; }
};

static int store_after_delete(int n) {
  int *number = new int(n);
  delete number;
  *number = 3;
  return 0;
}
static int store_after_array(int n) {
  int *numbers = new int[n];
  numbers[n] = 3;
  delete[] numbers;
  return 0;
}
static int member_after_delete(int n) {
  Pair *pair = new Pair;
  pair->second = n;
  delete pair;
  pair->second = 4;
  return 0;
}
static int load_after_delete(int n) {
  Pair *pair = new Pair;
  pair->second = n;
  delete pair;
  return pair->second;
}
static int vector_too_far(int n) {
  std::vector<int> numbers(n);
  numbers[n] = 1;
  return 0;
}
static int store_before_array(int n) {
  int *numbers = new int[n];
  numbers[-1] = 2;
  delete[] numbers;
  return 0;
}
static int clear_too_far(int n) {
  char *text = new char[n];
  memset(text, 0, n + 1);
  delete[] text;
  return 0;
}
static int double_delete(int) {
  Pair *pair = new Pair;
  delete pair;
  delete pair;
  return 0;
}

#define KIND(name) {#name, name}
static const struct {
  const char *name;
  int (*run)(int);
} KINDS[] = {KIND(store_after_delete), KIND(store_after_array),  KIND(member_after_delete), KIND(load_after_delete),
             KIND(vector_too_far),     KIND(store_before_array), KIND(clear_too_far),       KIND(double_delete)};

int main(int words, char **word) {
  for (auto &kind : KINDS)
    if (words < 2) puts(kind.name);
    else if (!strcmp(word[1], kind.name)) printf("%d\n", kind.run(14 + words));
}
