// A record for each call, in the thread's lane of this process's ring; a thread that is a lane ahead waits for the reader.
#ifndef RECORDS_H
#define RECORDS_H
static uint64_t early_next;
enum { TICKS = 1000, SPINS = 2, PATIENCE = 1 << 23 };  // turns of so many ticks: before a thread sleeps, or at most
enum { MOST_TURNS = 16 };                                 // of others, until a thread takes a new one
enum { LAPSE = 20, MOST_LAPSE = 10000 };                  // milliseconds of a sleep, and of all while the reader stands

// Sleeps until the reader goes on from there, some milliseconds at most.
static void sleep_at(struct lane *lane, uint64_t read) {
  static const struct timespec lapse = {0, LAPSE * 1000000};
  int error = errno;
  __atomic_store_n(&lane->waits, 1, __ATOMIC_SEQ_CST);
  plain_syscall(SYS_futex, low_word(&lane->read), FUTEX_WAIT, (uint32_t)read, &lapse, NULL, 0);
  errno = error;
}

static uint64_t milliseconds(void) {
  struct timespec time;
  clock_gettime(CLOCK_MONOTONIC_COARSE, &time);
  return time.tv_sec * 1000ULL + time.tv_nsec / 1000000;
}

// Some time, without a call, a clock or a store.
static void spin(void) {
#ifdef __x86_64__
  __builtin_ia32_pause();
#endif
  for (int k = 0; k < TICKS; k++) __asm__ volatile("" : : : "memory");
}

// The reader is a lane behind: waits as long as it goes on, and at most some seconds for each step. Else the stream of this
// process ends; at once where the reader has. Signals may end many a sleep, so these are not counted but timed.
static __attribute__((noinline, cold)) int wait_for(struct ring *ring, struct lane *lane, uint64_t last) {
  uint64_t read = __atomic_load_n(&lane->read, __ATOMIC_ACQUIRE), since = 0;
  for (long turns = 0; last - read > LANE; turns++) {
    int sleeps = may_sleep && !sealed && turns >= SPINS;
    if (sleeps && !since) since = milliseconds();
    if (sleeps) sleep_at(lane, read); else spin();
    uint64_t now = __atomic_load_n(&lane->read, __ATOMIC_ACQUIRE);
    if (now != read) read = now, turns = since = 0;
    int is_over = !stream || stream->closed || ring->overrun || is_reader_gone(stream);
    if (is_over || (since ? milliseconds() - since > MOST_LAPSE : turns > PATIENCE)) {
      if (stream) here->state = OFF;
      return ring->overrun = 1, 0;
    }
  }
  return 1;
}

// One instruction either way, so that a handler's records come before or after; the bus is locked only where other
// threads add there.
static inline uint64_t add(uint64_t *to, uint64_t number, int is_shared) {
#ifdef __x86_64__
  if (!is_shared) {
    __asm__ volatile("xaddq %0, %1" : "+r"(number), "+m"(*to) : : "memory");
    return number;
  }
#endif
  return __atomic_fetch_add(to, number, __ATOMIC_RELAXED);
}

// from the last: where the first one is there, all are
#define RECORDS uint64_t one, uint64_t two, uint64_t three
static inline __attribute__((always_inline)) void store(const struct place *place, int lane, uint64_t i, int number,
                                                        RECORDS) {
  uint64_t *records = place->records + lane * LANE, mask = LANE - 1, stride = (i + number - 1) & -STRIDE;
  if (stride >= i) {
    uint64_t turn = __atomic_add_fetch(&place->ring->turns, 1, __ATOMIC_ACQ_REL);
    place->ring->lanes[lane].turn = turn;
    __atomic_store_n(&place->records[RING + lane * (LANE / STRIDE) + (stride & mask) / STRIDE], turn, __ATOMIC_RELAXED);
  }
  if (number > 2) __atomic_store_n(&records[(i + 2) & mask], three, __ATOMIC_RELEASE);
  if (number > 1) __atomic_store_n(&records[(i + 1) & mask], two, __ATOMIC_RELEASE);
  __atomic_store_n(&records[i & mask], one, __ATOMIC_RELEASE);
}

static __attribute__((noinline, cold)) void put_late(const struct place *place, int lane, uint64_t i, int number,
                                                     RECORDS) {
  struct lane *of = &place->ring->lanes[lane];
  if (!wait_for(place->ring, of, i + number)) return;
  of->room = __atomic_load_n(&of->read, __ATOMIC_ACQUIRE) + LANE;
  store(place, lane, i, number, one, two, three);
}

static inline int first_lane(uint64_t thread) { return mixed_thread(thread) / (UINT64_MAX / OWN_LANES + 1); }

// The lane of this thread, which it takes where it has none; the last where all others are taken.
static int take_lane(struct ring *ring, uint64_t thread) {
  for (uint64_t n = 0, first = first_lane(thread); n < OWN_LANES; n++) {
    uint64_t k = first ^ n, *of = &ring->lanes[k].owner, owner = __atomic_load_n(of, __ATOMIC_RELAXED);
    if (!owner && __atomic_compare_exchange_n(of, &owner, thread, 0, __ATOMIC_RELAXED, __ATOMIC_RELAXED)) return k;
    if (owner == thread) return k;  // a handler may have taken it
  }
  return OWN_LANES;
}

// Where a thread goes on after others made many calls: goes on to its next stride, which has a new turn.
static __attribute__((noinline, cold)) void skip_stride(const struct place *place, int k) {
  struct lane *lane = &place->ring->lanes[k];
  uint64_t i = add(&lane->next, STRIDE, k == OWN_LANES);
  if (i + STRIDE > lane->room && !wait_for(place->ring, lane, i + STRIDE)) return;
  store(place, k, i, STRIDE, NOTHING, NOTHING, NOTHING);
  for (uint64_t j = i + 3; j < i + STRIDE; j++) __atomic_store_n(&place->records[k * LANE + (j & (LANE - 1))], NOTHING, __ATOMIC_RELEASE);
}

static inline __attribute__((always_inline)) void put_in(const struct place *place, int k, int number, RECORDS) {
  struct lane *lane = &place->ring->lanes[k];
  if (__builtin_expect(place->ring->turns - lane->turn > MOST_TURNS, 0)) skip_stride(place, k);
  uint64_t i = add(&lane->next, number, k == OWN_LANES);
  if (__builtin_expect(i + number > lane->room, 0)) {
    put_late(place, k, i, number, one, two, three);
    return;
  }
  __builtin_prefetch(&place->records[k * LANE + ((i + 64) & (LANE - 1))], 1);
  store(place, k, i, number, one, two, three);
}

static __attribute__((noinline)) void put_elsewhere(int number, RECORDS) {
  put_in(here, take_lane(here->ring, own_thread()), number, one, two, three);
}

static __attribute__((noinline, cold)) void put_first(int number, RECORDS) {
  uint64_t all[] = {one, two, three};
  reached = 1;
  if (here->state == UNSTARTED) begin();
  if (here == &at_first && here->state == STARTING)
    for (uint64_t k = 0, i = add(&early_next, number, 1); k < (uint64_t)number; k++) {
      if (i + k < EARLY) early[i + k] = all[k]; else early_ring.overrun = 1;
    }
  if (here->state == WRITES) put_elsewhere(number, one, two, three);
}

static inline __attribute__((always_inline)) void put(int number, RECORDS) {
  const struct place *place = here;
  if (__builtin_expect(place->state != WRITES, 0)) {
    put_first(number, one, two, three);
    return;
  }
  uint64_t thread = own_thread();
  int k = first_lane(thread);
  if (__builtin_expect(place->ring->lanes[k].owner == thread, 1)) put_in(place, k, number, one, two, three);
  else put_elsewhere(number, one, two, three);
}

static void put_early(void) {
  for (uint64_t i = 0; i < early_next && i < EARLY; i++) put(1, early[i], 0, 0);
}

static inline uint64_t record(int kind, void *block, size_t size) {
  return kind | (size <= LARGEST_SIZE ? size : LARGE) << 4 | (uintptr_t)block >> 3 << ADDRESS;
}
static inline uint64_t whole(size_t size) { return SIZE | (size >> 60 ? ~0ULL : size) << 4; }

// a request, or the begin of a move, from the function with this frame, which is there no more where this is called last
static inline __attribute__((always_inline)) void *request(int kind, void *block, size_t size, const void *frame) {
  uint64_t stack = HAS_STACKS ? STACK | stack_of(frame) << 4 : 0;
  if (__builtin_expect(size <= LARGEST_SIZE, 1)) put(1 + HAS_STACKS, record(kind, block, size), stack, 0);
  else put(2 + HAS_STACKS, record(kind, block, size), whole(size), stack);
  return block;
}

void free(void *block) {
  if (block && !IS_INNER) put(1, record(FREE, block, 0), 0, 0);
  TO(free)(block);
}

// Of a realloc the reader sees before it that the block may move, and after it where it is. One to 0 bytes is a free.
void *realloc(void *block, size_t size) {
  if (IS_INNER) return TO(realloc)(block, size);
  if (!block) return request(MALLOC, TO(realloc)(block, size), size, FRAME);
  if (!size) {
    put(1, record(FREE, block, 0), 0, 0);
    void *other = TO(realloc)(block, size);
    return other ? request(MALLOC, other, size, FRAME) : other;
  }
  request(MOVES, block, size, FRAME);
  void *moved = TO(realloc)(block, size);
  if (size <= LARGEST_SIZE) put(2, record(REALLOC, moved, size), record(OLD, block, 0), 0);
  else put(3, record(REALLOC, moved, size), record(OLD, block, 0), whole(size));
  return moved;
}
#endif
