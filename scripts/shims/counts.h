// Counts of requests, and nothing else: one addition for each, in an area of the thread's own, which the reader takes
// when the process has ended. A free is not seen. (A variable of each thread would do as well, but a thread's start
// would then request more.)
#ifndef COUNTS_H
#define COUNTS_H
enum { LOOKS = 4 };  // areas that a thread looks for

// One instruction, so that a handler's addition comes before or after; only this thread adds here.
static inline void add_own(uint64_t *counter) {
#ifdef __x86_64__
  __asm__ volatile("addq $1, %0" : "+m"(*counter) : : "memory");
#else
  __atomic_fetch_add(counter, 1, __ATOMIC_RELAXED);
#endif
}

static void note_area(struct ring *ring, uint64_t area) {
  if (!(ring->areas >> area & 1)) __atomic_fetch_or(&ring->areas, 1ULL << area, __ATOMIC_RELAXED);
}

// The area of this thread, which it takes where it has none; null where those that it looks for are taken.
static uint64_t *take_area(const struct place *place, uint64_t thread) {
  for (uint64_t n = 0, k = (mixed_thread(thread) >> 40) % (AREAS - 1); n < LOOKS; n++, k = (k + 1) % (AREAS - 1)) {
    uint64_t *area = place->records + k * AREA, owner = __atomic_load_n(&area[OWNER], __ATOMIC_RELAXED);
    if (owner == thread) return area;
    if (!owner) __atomic_compare_exchange_n(&area[OWNER], &owner, thread, 0, __ATOMIC_RELAXED, __ATOMIC_RELAXED);
    if (!owner) return note_area(place->ring, k), area;
  }
  return NULL;
}

static void add_shared(const struct place *place, uint64_t counter, uint64_t number) {
  note_area(place->ring, AREAS - 1);
  __atomic_fetch_add(&place->records[RING_WORDS - AREA + counter], number, __ATOMIC_RELAXED);
}

// A request of a thread whose area is not the first that it looks for, and those that come before the file is mapped.
static __attribute__((noinline, cold)) void count_late(uint64_t counter) {
  reached = 1;
  if (here->state == UNSTARTED) begin();
  if (here == &at_first && here->state == STARTING) __atomic_fetch_add(&early[counter], 1, __ATOMIC_RELAXED);
  if (here->state != WRITES) return;
  uint64_t *area = take_area(here, own_thread());
  if (area) add_own(&area[counter]); else add_shared(here, counter, 1);
}

static inline void *request(int kind, void *block, size_t size, const void *frame) {
  const struct place *place = here;
  uint64_t thread = own_thread(), counter = size <= LARGEST_SIZE ? size : LARGE;
  uint64_t *area = place->records + (mixed_thread(thread) >> 40) % (AREAS - 1) * AREA;
  (void)kind, (void)frame;
  if (__builtin_expect(place->state == WRITES && area[OWNER] == thread, 1)) add_own(&area[counter]);
  else count_late(counter);
  return block;
}

static void put_early(void) {
  for (uint64_t counter = 0; counter < COUNTERS; counter++)
    if (early[counter]) add_shared(here, counter, early[counter]);
}

// One to 0 bytes is a free, and a request if there is a block again.
void *realloc(void *block, size_t size) {
  int inner = IS_INNER, is_free = block && !size;
  if (!inner && !is_free) request(MALLOC, NULL, size, NULL);
  void *moved = TO(realloc)(block, size);
  return inner || !is_free || !moved ? moved : request(MALLOC, moved, size, NULL);
}
#endif
