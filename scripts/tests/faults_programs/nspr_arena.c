// A piece of a pool of NSPR, which poisons what it has not given out: with a word more it is stored to after its release.
#include <plarena.h>
#include <string.h>
int main(int words, char **word) {
  PLArenaPool pool;
  void *first, *second;
  PL_InitArenaPool(&pool, "pool", 1024, 8);
  PL_ARENA_ALLOCATE(first, &pool, 40);
  PL_ARENA_ALLOCATE(second, &pool, 24);
  memset(first, 1, 40), memset(second, 2, 24);
  PL_ARENA_RELEASE(&pool, second);
  if (words > 1) ((char *)second)[3] = 1;  // WRONG
  PL_ARENA_ALLOCATE(second, &pool, 24);
  memset(second, 3, 24);
  PL_FinishArenaPool(&pool);
  return 0;
}
