// A pool and other memory that the program poisons by AddressSanitizer's interface, and wrong uses of it: poison NAME. `right` uses it as it
// has to be.
#include <sanitizer/asan_interface.h>
#include <stdio.h>
#include <stdlib.h>
#include <string.h>
#include <sys/mman.h>

enum { POOL = 4096, ROUNDS = 2000 };
static char *pool, outside[256], *piece, *freed;
static size_t used;
static volatile int at, thirteen = 13;
static volatile long kept;

static void pool_begin(void) {
  pool = malloc(POOL), used = 0;
  ASAN_POISON_MEMORY_REGION(pool, POOL);
}
static void *pool_get(size_t size) {
  char *given = pool + used;
  used += (size + 7) / 8 * 8 + 8;
  ASAN_UNPOISON_MEMORY_REGION(given, size);
  return given;
}
static void pool_put(void *given, size_t size) { ASAN_POISON_MEMORY_REGION(given, size); }

static long store_outside(int offset) {
  ASAN_POISON_MEMORY_REGION(outside + 16, 30);
  char *to = outside + at;
  return to[offset] = 1;
}
static long store_mapped(int is_wrong) {
  char *mapped = mmap(NULL, 1 << 20, PROT_READ | PROT_WRITE, MAP_PRIVATE | MAP_ANONYMOUS, -1, 0);
  ASAN_POISON_MEMORY_REGION(mapped + 8, (1 << 20) - 8);
  mapped[at] = 1;
  if (is_wrong) mapped[at + 70000] = 1;
  ASAN_UNPOISON_MEMORY_REGION(mapped, 1 << 20);
  mapped[at + 70000] = 1;
  return munmap(mapped, 1 << 20);
}
void __sanitizer_annotate_contiguous_container(const void *, const void *, const void *, const void *);
static long container(int index) {
  char *array = malloc(64);
  __sanitizer_annotate_contiguous_container(array, array + 64, array + 64, array + 20);
  array[19] = 1, array[index] = 1;
  __sanitizer_annotate_contiguous_container(array, array + 64, array + 20, array + 64);
  array[63] = 1;
  return free(array), 0;
}
struct odd { char bytes[11]; };
static long copy_struct(struct odd *to) {
  struct odd odd = {{0}};
  return *to = odd, 0;
}

#define USES(USE) \
  USE(store_after_put, freed[3] = 1) USE(load_after_put, freed[5]) USE(store_past, piece[thirteen] = 1) USE(store_between, piece[-1] = 1) \
  USE(store_unused, pool[POOL - 1] = 1) USE(word_past, *(int *)(piece + 12) = 1) USE(memset_past, (memset(piece, 0, thirteen + 1), 0)) \
  USE(memcpy_from, (memcpy(outside + 100, freed, 8), 0)) USE(strlen_past, strlen(memset(piece, 'a', 13))) USE(struct_past, copy_struct((struct odd *)(piece + 8))) \
  USE(outside, store_outside(45)) USE(mapped, store_mapped(1)) USE(container, container(20)) USE(grown, container(63))

#define NAME(name, use) puts(#name);
#define TRY(name, use) \
  if (!strcmp(kind, #name)) return kept = (long)(use), 0;

static int right(void) {
  if (store_outside(15) != 1 || store_outside(46) != 1 || store_mapped(0) || container(19)) return 1;
  if (!__asan_address_is_poisoned(freed) || __asan_address_is_poisoned(piece) || __asan_region_is_poisoned(piece, 14) != piece + 13) return 2;
  if (__asan_region_is_poisoned(piece, 13) || !__asan_address_is_poisoned(pool + POOL) || __asan_address_is_poisoned(outside)) return 3;
  for (int i = 0; i < ROUNDS; i++) {
    if (used > POOL - 64) ASAN_POISON_MEMORY_REGION(pool, POOL), used = 0;
    int size = 1 + i * 7 % 40;
    char *one = pool_get(size);
    for (int k = 0; k < size; k++) one[k] = k;
    memset(one, 1, size);
    if (i % 3) pool_put(one, size);
  }
  free(pool), pool_begin();
  char *whole = realloc(pool, 2 * POOL);  // its bytes are new ones
  memset(whole, 0, 2 * POOL);
  ASAN_POISON_MEMORY_REGION(whole + POOL, 0);
  ASAN_UNPOISON_MEMORY_REGION(outside, sizeof outside);
  memset(outside, 0, sizeof outside);
  return free(whole), 0;
}

int main(int words, char **word) {
  const char *kind = words > 1 ? word[1] : "";
  if (!*kind) {
    USES(NAME)
    return 0;
  }
  pool_begin();
  freed = pool_get(16), piece = pool_get(13);
  memset(freed, 1, 16), memset(piece, 1, 13);
  pool_put(freed, 16);
  if (!strcmp(kind, "right")) return right();
  USES(TRY)
  return 4;
}
