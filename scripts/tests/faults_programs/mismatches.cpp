// Each line ends a block by a function that does not fit how it was made, and then one that fits. It goes on: the block is freed.
#include <cstdlib>
#include <new>

static void *volatile kept;  // so that no compiler sees where a pointer comes from
static void *pass(void *pointer) { return kept = pointer; }

int main(int n, char **) {
  delete (int *)pass(malloc(39 + n));      // delete of a block of 40 bytes that malloc made
  delete (int *)pass(new int[9 + n]);      // delete of a block of 40 bytes that new[] made
  free(pass(new int));                     // free of a block of 4 bytes that new made
  free(pass(new char[30]));                // free of a block of 30 bytes that new[] made
  delete[] (int *)pass(new int);           // delete[] of a block of 4 bytes that new made
  delete[] (char *)pass(calloc(n, 20));    // delete[] of a block of 20 bytes that malloc made
  free(realloc(pass(new char[50]), 60));   // realloc of a block of 50 bytes that new[] made
  free(realloc(pass(malloc(50)), 60));
  delete (int *)pass(new (std::nothrow) int);
  delete[] (char *)pass(new (std::nothrow) char[5]);
#ifdef __cpp_aligned_new
  ::operator delete(pass(::operator new(64, std::align_val_t(64))), std::align_val_t(64));
#endif
}
