// Errors in loops that compilers make of whole vectors, and by types that have no usual access: vectors KIND. `right` does the same right.
#include <stdio.h>
#include <stdlib.h>
#include <string.h>

#define APART static __attribute__((noinline))
typedef int vector __attribute__((vector_size(32), aligned(4)));
struct many { char bytes[200]; };
struct pair { long first, second; };
struct bits { unsigned few : 3, more : 9; };
static volatile long sum;
static void *volatile kept;  // so that no compiler knows a size

APART void add(int *a, int n) { long s = 0; for (int i = 0; i < n; i++) s += a[i]; sum = s; }
APART void add_some(int *a, char *is, int n) { long s = 0; for (int i = 0; i < n; i++) if (is[i]) s += a[i]; sum = s; }
APART void set_some(int *a, char *is, int n) { for (int i = 0; i < n; i++) if (is[i]) a[i] = i; }
APART void gather(int *a, int *at, int n) { long s = 0; for (int i = 0; i < n; i++) s += a[at[i]]; sum = s; }
APART void scatter(int *a, int *at, int n) { for (int i = 0; i < n; i++) a[at[i]] = i; }
APART void copy(char *a, const char *b, int n) { for (int i = 0; i < n; i++) a[i] = b[i] + 1; }
APART void stride(int *a, int n) { for (int i = 0; i < n; i++) a[2 * i] = i; }
APART void reverse(int *a, int n) { for (int i = n - 1; i >= 0; i--) a[i] = i; }
APART void search(const char *a, int n) { for (int i = 0; i < n; i++) if (a[i] == 99) sum = i; }
APART void whole(struct many *a, struct many *b) { *a = *b; }
APART void swap(struct pair *a, struct pair *b) { struct pair c = *a; *a = *b, *b = c; }
APART void load(vector *a) { vector b = *a + 1; sum = b[3]; }
APART void store(vector *a) { *a = (vector){sum}; }
APART void count(int *a) { __atomic_fetch_add(a, 1, __ATOMIC_SEQ_CST); }
APART void set_bits(struct bits *a) { a->more = 5; }
APART void widen(long double *a) { sum = *a; }
APART void twice(__int128 *a) { *a *= 2; }

static void *block(size_t size) { return kept = calloc(1, size); }

// of so many things more than there are; a kind of no name is that of all right ones
#define KINDS(KIND) \
  KIND(add, add(ints, n + more)) KIND(add_some, add_some(ints, is, n + more)) KIND(set_some, set_some(ints, is, n + more)) \
  KIND(gather, gather(ints, at, n)) KIND(scatter, scatter(ints, at, n)) KIND(copy, copy(block(n), is, n + more)) \
  KIND(stride, stride(ints, n / 2 + more)) KIND(reverse, reverse(ints - more, n)) KIND(search, search(block(n), n + more)) \
  KIND(whole, whole(block(200), block(200 - more))) KIND(swap, swap(block(16 - more), block(16))) KIND(load, load(block(32 - more))) \
  KIND(store, store(block(32 - more))) KIND(count, count(block(4 - more))) KIND(set_bits, set_bits(block(4 - 3 * more))) \
  KIND(widen, widen(block(16 - 7 * more))) KIND(twice, twice(block(16 - more)))

int main(int words, char **word) {
  int n = 20 + words % 2 * 2, is_right = words > 1 && !strcmp(word[1], "right"), more = !is_right;
  int *ints = calloc(n, sizeof *ints), *at = calloc(n, sizeof *at);
  char *is = calloc(n + 9, 1);
  for (int i = 0; i < n; i++) at[i] = i < n - 1 ? i : i + more, is[i] = 1;
  if (more) is[n] = 1;
#define NAME(name, call) puts(#name);
#define RUN(name, call) if (is_right || !strcmp(word[1], #name)) call;
  if (words < 2) { KINDS(NAME) } else { KINDS(RUN) }
  if (is_right) add_some(ints, is, n + 9), set_some(ints, is, n + 9);  // what is masked out is not touched
  return 0;
}
