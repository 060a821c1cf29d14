// The allocator. Blocks stand apart, and no address is given out again before AGAIN bytes of others were: 64 bytes are before a block, and 208 to 2,112 after it, as many as
// it has and 64 more where that lies between. So a copy of 256 bytes never reaches from block to block; that matters since gcc looks only
// at the first and the last byte of a struct. And an address names its block also after the block's free; the rest of a mebibyte is its
// last block's. The memory of freed blocks goes to new ones or back to the system a mebibyte at a time, once another 64 MiB were freed; then
// their addresses are owned by nobody.
#include "../formats.h"
#include "calls.h"
#include <errno.h>
#include <link.h>

#ifndef DELAY
#define DELAY ((address)64 << 20)
#endif
#ifndef AGAIN
#define AGAIN ((address)64 << 30)
#endif
#define SPARE ((address)16 << 20)  // freed bytes in which new blocks may take the memory
#define FORGOTTEN UINT32_MAX       // live blocks of a chunk whose addresses nobody owns any more
enum { SWEEP = 1 << 22 /* blocks */, SPARED = 16 /* chunks */, POPULATE_WRITE = 23 /* MADV_POPULATE_WRITE of Linux 5.14 and newer */ };
enum { DONT_UNMAP = 4 /* MREMAP_DONTUNMAP of Linux 5.7 and newer */, MOST_MOVES = 8000 /* each may take four of the 65,530 mappings */ };
enum { BEFORE = 64, AFTER = 64, LEAST_MORE = 144, MOST_MORE = 2048 };

pthread_mutex_t accesses_lock = PTHREAD_MUTEX_INITIALIZER;
__thread int busy __attribute__((tls_model("initial-exec")));
static address next = ARENA + CHUNK, top = ARENA + CHUNK, freed_bytes;  // where the next block goes, and where all end
static uint32_t last_block, most_block, unused;  // the newest, the highest number, and an unused one
unsigned long requests;
int has_unrecorded;

// chunks without a live block, in the order in which they lost their last
struct empty { uint32_t first, count; address freed_bytes; };
static uint32_t *live_in_chunk;
static struct empty *empties;
#define EMPTY(n) (&empties[(n) % (ARENA_SIZE / CHUNK)])
static size_t oldest_empty, next_empty;
static int moves;       // how often a chunk took the memory of another one
static int is_used;     // whether the chunk of `next` has such memory, which is not zero

void *reserve(address at, size_t size, int mode, int how) {
  void *mapped = mmap((void *)at, size, mode, how | MAP_ANONYMOUS | MAP_NORESERVE | (at ? MAP_FIXED_NOREPLACE : 0), -1, 0);
  if (mapped == MAP_FAILED || (at && mapped != (void *)at)) {
    static const char text[] = "traced_cc: no room for 18 terabytes of addresses: "
                               "raise `ulimit -v`, and don't set vm.overcommit_memory to 2\n";
    end_without_room();
    if (syscall(SYS_write, 2, text, sizeof text - 1)) _exit(3);
    _exit(3);
  }
  madvise(mapped, size, MADV_DONTDUMP);
  madvise(mapped, size, MADV_NOHUGEPAGE);
  return mapped;
}

static void *reserve_table(address at, size_t size) { return reserve(at, size, PROT_READ | PROT_WRITE, MAP_PRIVATE); }

void begin(void) {
  if (live_in_chunk) return;
  reserve(ARENA, ARENA_SIZE, PROT_NONE, MAP_PRIVATE);
  reserve_table((address)OWNERS, ARENA_SIZE / 16 * sizeof *OWNERS);
  for (int store = 0; store < 2; store++) reserve_table((address)KNOWN(store), ARENA_SIZE / 16);
  reserve_table((address)BLOCKS, MOST_BLOCKS * sizeof *BLOCKS);
  empties = reserve_table(0, ARENA_SIZE / CHUNK * sizeof *empties);
  begin_shadow();
  live_in_chunk = reserve_table(0, ARENA_SIZE / CHUNK * sizeof *live_in_chunk);
}

uint32_t number_of_blocks(void) { return most_block; }

int drop_block(uint32_t number) {
  struct block *block = &BLOCKS[number];
  if (block->state != FREED || block->has_error) return 0;
  if (live_in_chunk[block->chunk] != FORGOTTEN && owner(block->start) == block) return 0;
  block->state = DROPPED;
  return 1;
}

void end_drop(int is_done) {
  for (uint32_t number = most_block; number; number--) {
    struct block *block = &BLOCKS[number];
    if (block->state == DROPPED && !is_done) block->state = FREED;
    else if (block->state == DROPPED) block->state = UNUSED, block->size = unused, unused = number;
  }
}

// Without a log the numbers of old blocks are taken again all the same.
static uint32_t new_number(void) {
  static uint32_t next_sweep = SWEEP;
  if (!unused && most_block >= next_sweep && !has_log()) {
    for (uint32_t number = 1; number <= most_block; number++) drop_block(number);
    end_drop(1);
    next_sweep = most_block + SWEEP;
  }
  if (!unused) return ++most_block;
  uint32_t number = unused;
  unused = BLOCKS[number].size;
  return number;
}

static uint32_t chunk_of(address a) { return (a - ARENA) / CHUNK; }

struct block *owner(address a) {
  if (!is_in_arena(a) || a >= top) return NULL;
  uint32_t number = next % CHUNK && a >= next && chunk_of(a) == chunk_of(next) ? last_block : OWNERS[(a - ARENA) / 16];
  return number ? &BLOCKS[number] : NULL;
}

int was_given_out(address a) { return ARENA + CHUNK <= a && a < top; }

static void own(address from, address to, uint32_t number) {
  uint32_t *at = OWNERS + (from - ARENA) / 16, *end = OWNERS + (to - ARENA) / 16;
  for (; at + 2 <= end; at += 2) *(word *)at = (uint64_t)number << 32 | number;
  if (at < end) *at = number;
}

static size_t gap_after(size_t size) {
  return round_up(AFTER + (size < LEAST_MORE ? LEAST_MORE : size < MOST_MORE ? size : MOST_MORE), 16);
}

static void is_empty(uint32_t chunk, address end) {
  *EMPTY(next_empty++) = (struct empty){chunk, (end - 1 - ARENA) / CHUNK - chunk + 1, freed_bytes};
}

static int waited(const struct empty *empty, address most) { return freed_bytes - empty->freed_bytes >= most; }

static void forget(const struct empty *old) {
  address at = old->first * CHUNK, size = old->count * CHUNK;
  madvise((void *)(ARENA + at), size, MADV_DONTNEED);
  for (int store = 0; store < 2; store++) madvise(KNOWN(store) + at / 16, size / 16, MADV_DONTNEED);
  madvise(OWNERS + at / 16, size / 16 * sizeof *OWNERS, MADV_DONTNEED);
  for (uint32_t i = 0; i < old->count; i++) live_in_chunk[old->first + i] = FORGOTTEN;
  forget_poison(ARENA + at, size);
  close_shadow(ARENA + at, ARENA + at + size);
}

static void return_memory(void) {
  int error = errno;
  while (oldest_empty < next_empty && waited(EMPTY(oldest_empty), moves < MOST_MOVES && EMPTY(oldest_empty)->count == 1 ? DELAY + SPARE : DELAY))
    forget(EMPTY(oldest_empty++));
  errno = error;
}

static int moved(void *from, void *to, size_t size) { return mremap(from, size, size, MREMAP_MAYMOVE | MREMAP_FIXED | DONT_UNMAP, to) != MAP_FAILED; }

// Gives a new chunk the memory of an old one and of its tables, which is cheaper than new memory. What the tables know of the old one's
// accesses is all zero, and who owns an address is written again.
static int take_memory(address chunk) {
  struct empty *old = EMPTY(oldest_empty);
  if (moves == MOST_MOVES || oldest_empty == next_empty || old->count > 1 || !waited(old, DELAY)) return 0;
  int error = errno;
  size_t from = old->first * CHUNK / 16, to = (chunk - ARENA) / 16;
  int is_moved = moved((void *)(ARENA + old->first * CHUNK), (void *)chunk, CHUNK) && moved(OWNERS + from, OWNERS + to, CHUNK / 16 * sizeof *OWNERS) &&
                 moved(KNOWN(0) + from, KNOWN(0) + to, CHUNK / 16) && moved(KNOWN(1) + from, KNOWN(1) + to, CHUNK / 16);
  moves = is_moved ? moves + 1 : MOST_MOVES;
  forget(old);
  oldest_empty++;
  errno = error;
  return 1;
}

// the rest of a chunk is its last block's
static void end_chunk(void) {
  if (next % CHUNK == 0) return;
  own(next, round_up(next, CHUNK), last_block);
  if (!live_in_chunk[chunk_of(next)]) is_empty(chunk_of(next), next);
  next = round_up(next, CHUNK);
}

// Where a block goes that begins a chunk: after all others, or once there are many, to chunks whose addresses nobody owns any more.
static address next_place(uint32_t chunks) {
  static uint32_t at = 1;
  uint32_t end = chunk_of(top), count = 0;
  for (uint32_t tried = 0; top - ARENA >= AGAIN && tried < end; tried++) {
    if (at >= end) at = 1, count = 0;
    count = live_in_chunk[at++] == FORGOTTEN ? count + 1 : 0;
    if (count == chunks) return ARENA + (at - chunks) * CHUNK;
  }
  return top;
}

// no access of the block is logged
static void know_all(const struct block *block) {
  for (int store = 0; store < 2; store++) {
    unsigned char *known = KNOWN(store) + (block->start - ARENA) / 16;
    fill_table(known, 16, block->size / 16, 0);
    if (block->size % 16) known[block->size / 16] = block->size % 16;
  }
  open_block(block->start, block->size);
}

// Takes the memory of a chunk at once, which is cheaper than page by page. A small program is spared it.
static void populate(address chunk) {
  int error = errno;
  if (chunk_of(chunk) < SPARED) return;
  size_t at = (chunk - ARENA) / 16;
  if (chunk % (8 * CHUNK) == 0) madvise((void *)chunk, 8 * CHUNK, MADV_HUGEPAGE), madvise(OWNERS + at, 8 * CHUNK / 16 * sizeof *OWNERS, MADV_HUGEPAGE);
  madvise((void *)chunk, CHUNK, POPULATE_WRITE);
  madvise(OWNERS + at, CHUNK / 16 * sizeof *OWNERS, POPULATE_WRITE);
  for (int store = 0; store < 2; store++) madvise(KNOWN(store) + at, CHUNK / 16, POPULATE_WRITE);
  errno = error;
}

static struct block *new_block(size_t size, size_t alignment) {
  begin();
  if (size > ARENA_SIZE / 16 || alignment > ARENA_SIZE / 16 || (!unused && most_block + 1 >= MOST_BLOCKS)) return NULL;
  if (alignment < 16) alignment = 16;
  address most = BEFORE + alignment + round_up(size, 16) + gap_after(size);
  int is_large = most > CHUNK / 2;
  // a small block stands in one chunk, a large one has its own
  if (is_large || chunk_of(next + most) != chunk_of(next)) end_chunk();
  if (next % CHUNK == 0) next = next_place(round_up(most, CHUNK) / CHUNK);
  if (next + most + CHUNK > ARENA + ARENA_SIZE) return NULL;
  address start = round_up(next + BEFORE, alignment), end = start + round_up(size, 16) + gap_after(size);
  if (next % CHUNK == 0 && !begin_chunks(next, round_up(end, CHUNK))) return NULL;
  if (next % CHUNK == 0) {
    for (address at = next; at < end; at += CHUNK) live_in_chunk[chunk_of(at)] = 0;
    if (end > top) top = round_up(end, CHUNK);
    is_used = !is_large && take_memory(next);
    if (!is_large && !is_used) populate(next);
  }

  struct block *block = &BLOCKS[last_block = new_number()];
  *block = (struct block){.start = start, .size = size, .state = LIVE, .chunk = chunk_of(next)};
  requests++;
  live_in_chunk[block->chunk]++;
  address rest = is_large ? round_up(end, CHUNK) : end;
  own(next, rest, last_block);
  if (size > LARGEST_SIZE || !logs_right()) know_all(block);
  next = rest;
  return block;
}

static void end_block(struct block *block) {
  for (int store = 0; store < 2; store++) fill_table(KNOWN(store) + (block->start - ARENA) / 16, 0, (block->size + 15) / 16, 0);
  if (block->size < CHUNK / 2) close_block(block->start, block->size);
  else close_shadow(block->start, round_up(block->start + block->size, 8));
  block->state = FREED;
  freed_bytes += BEFORE + block->size + AFTER;
  if (!--live_in_chunk[block->chunk] && (next % CHUNK == 0 || block->chunk != chunk_of(next)))
    is_empty(block->chunk, block->start + round_up(block->size, 16) + gap_after(block->size));
  return_memory();
}

// A request from inside the runtime is libdl's or a handler's of a signal. It is served, and not logged.
void *request(char kind, size_t size, size_t alignment, struct caller from) {
  struct stack stack;
  unwind_request(from, &stack);
  int is_nested = busy, is_held = !is_nested || !pthread_mutex_trylock(&accesses_lock);
  if (!is_nested) watch_thread(), enter(), tell_guess();
  struct block *block = new_block(size, alignment);
  if (block && kind == 'c' && is_used) fill_bytes((void *)block->start, 0, size);
  if (block && !is_nested && is_logging()) {
    block->has_request = 1;
    put_record(kind, 2, (long)(block - BLOCKS), (long)size);
    put_stack(from, &stack);
    if (is_unwatched) put_record('i', 1, (long)(block - BLOCKS)), put_end();
    if (alignment > 16) put_record('a', 2, (long)(block - BLOCKS), (long)alignment), put_end();
  }
  if (block && is_nested) has_unrecorded = 1;
  if (!is_nested) leave();
  else if (is_held) pthread_mutex_unlock(&accesses_lock);
  if (!block) errno = ENOMEM;
  return block ? (void *)block->start : NULL;
}

static struct block *live_block_at(address a) {
  struct block *block = owner(a);
  return block && block->start == a && block->state == LIVE ? block : NULL;
}

// Takes the lock. The live block that begins at the address; where there is none, the wrong free is logged.
static struct block *enter_at(address a, struct caller from) {
  struct stack stack;
  stack.count = 0;
  if (has_log() && !live_block_at(a)) unwind(from, &stack);  // before the lock is held: the unwinder may wait for others
  enter();
  tell_guess();
  struct block *live = live_block_at(a), *block = owner(a);
  if (live || !has_room()) return live;
  struct wrong found = {.letter = was_given_out(a) ? 'o' : 'n', .at = a};
  if (block) found = (struct wrong){.letter = 'x', .is_freed = block->state == FREED, .number = block - BLOCKS, .offset = (long)(a - block->start),
                                      .block_size = (long)block->size};
  put_missing(block);
  put_record(found.letter, block ? 2 : 0, found.number, found.offset);
  if (!stack.count) walk(from, (address)__builtin_frame_address(0), &stack);
  put_frames(&stack);
  found.stack = stack;
  will_tell(&found);
  return NULL;
}

static void give_back(void *pointer, enum maker maker, struct caller from) {
  struct stack stack;
  if (!pointer || busy) return;
  unwind_request(from, &stack);
  struct block *block = enter_at((address)pointer, from);
  if (block) {
    if (block->maker != maker) see_mismatch(block, maker, from, &stack);
    if (is_logging()) {
      block->has_end = 1;
      put_record('f', 1, (long)(block - BLOCKS));
      put_stack(from, &stack);
    }
    end_block(block);
  }
  leave();
}

// Each realloc moves the block, so that a stale pointer is seen. One of a wrong pointer is a wrong free and a request.
static void *resize(void *pointer, size_t size, struct caller from) {
  if (!pointer) return request('m', size, 16, from);
  if (!size) return give_back(pointer, MALLOC, from), NULL;
  struct stack stack;
  unwind_request(from, &stack);
  struct block *block = enter_at((address)pointer, from), *new = new_block(size, 16), *old = owner((address)pointer);
  if (block && block->maker != MALLOC) see_mismatch(block, REALLOC, from, &stack);
  if (new) {
    if (is_logging()) {
      new->has_request = 1;
      if (block) block->has_end = 1, put_record('r', 3, (long)(block - BLOCKS), (long)(new - BLOCKS), (long)size);
      else put_record('m', 2, (long)(new - BLOCKS), (long)size);
      put_stack(from, &stack);
    }
    if (old) copy_bytes((void *)new->start, (void *)old->start, old->size < size ? old->size : size);
    if (block) end_block(block);
  }
  leave();
  if (!new) errno = ENOMEM;
  return new ? (void *)new->start : NULL;
}

SHOWN void *malloc(size_t size) { return request('m', size, 16, CALLER); }

// They do not where a program that was linked without the runtime loads a library that has it, or has a malloc of its
// own. In a program at a fixed address the name may be that of an entry of its linkage table, which is followed.
int is_asked(void) {
  Dl_info own, first;
  ElfW(Sym) *symbol = NULL;
  busy++;
  void *(*asked)(size_t) = (void *(*)(size_t))dlsym(RTLD_DEFAULT, "malloc"), *made = NULL;
  int is_found = asked && dladdr1((void *)asked, &first, (void **)&symbol, RTLD_DL_SYMENT) && dladdr(&accesses_lock, &own);
  int is_own = is_found && first.dli_fbase == own.dli_fbase;
  if (is_found && !is_own && symbol && symbol->st_shndx == SHN_UNDEF) made = asked(1);
  if (made && owner((address)made)) is_own = 1;
  else if (made) ((void (*)(void *))dlsym(RTLD_DEFAULT, "free"))(made);
  busy--;
  return is_own;
}

SHOWN void *calloc(size_t number, size_t each) {
  size_t size;
  if (__builtin_mul_overflow(number, each, &size)) return errno = ENOMEM, NULL;
  return request('c', size, 16, CALLER);
}

SHOWN void free(void *pointer) { give_back(pointer, MALLOC, CALLER); }
SHOWN void *realloc(void *pointer, size_t size) { return resize(pointer, size, CALLER); }

SHOWN void *reallocarray(void *pointer, size_t number, size_t each) {
  size_t size;
  if (__builtin_mul_overflow(number, each, &size)) return errno = ENOMEM, NULL;
  return resize(pointer, size, CALLER);
}

SHOWN void *memalign(size_t alignment, size_t size) { return request('m', size, alignment, CALLER); }
SHOWN void *aligned_alloc(size_t alignment, size_t size) { return request('m', size, alignment, CALLER); }
SHOWN void *valloc(size_t size) { return request('m', size, getpagesize(), CALLER); }
SHOWN void *pvalloc(size_t size) {
  size_t page = getpagesize();
  if (size > ARENA_SIZE) return errno = ENOMEM, NULL;
  return request('m', size ? round_up(size, page) : page, page, CALLER);
}

SHOWN int posix_memalign(void **result, size_t alignment, size_t size) {
  if (alignment % sizeof(void *) || !alignment || alignment & (alignment - 1)) return EINVAL;
  int error = errno;
  void *pointer = request('m', size, alignment, CALLER);
  errno = error;
  if (!pointer) return ENOMEM;
  *result = pointer;
  return 0;
}

SHOWN size_t malloc_usable_size(void *pointer) {
  struct block *block = live_block_at((address)pointer);
  return block ? block->size : 0;
}

// C++: new and delete, by the names that its ABI gives them
extern void throw_bad_alloc(void) __asm__("_ZSt17__throw_bad_allocv") __attribute__((weak));
extern void (*new_handler(void))(void) __asm__("_ZSt15get_new_handlerv") __attribute__((weak));

static void *note_maker(void *pointer, enum maker maker) {
  if (pointer) owner((address)pointer)->maker = maker;
  return pointer;
}

// Where there is no memory, the program's handler is called until it has freed some, throws, or is none any more.
static void *new_or_throw(size_t size, size_t alignment, enum maker maker, struct caller from) {
  void *pointer, (*handler)(void);
  while (!(pointer = request('m', size, alignment, from)) && new_handler && (handler = new_handler())) handler();
  if (!pointer && throw_bad_alloc) throw_bad_alloc();
  if (!pointer) abort();
  return note_maker(pointer, maker);
}

// What a handler throws, the library's own function catches, which calls the one that throws.
#define OPERATORS(new, delete, maker) \
  SHOWN void *_Zn##new##m(size_t size) { return new_or_throw(size, 16, maker, CALLER); } \
  SHOWN void *_Zn##new##mSt11align_val_t(size_t size, size_t alignment) { return new_or_throw(size, alignment, maker, CALLER); } \
  SHOWN void *_Zn##new##mRKSt9nothrow_t(size_t size, void *nothrow) { \
    void *pointer = request('m', size, 16, CALLER); \
    REAL(_Zn##new##mRKSt9nothrow_t); \
    return !pointer && real && new_handler && new_handler() ? real(size, nothrow) : note_maker(pointer, maker); \
  } \
  SHOWN void _Zd##delete##Pv(void *pointer) { give_back(pointer, maker, CALLER); } \
  SHOWN void _Zd##delete##Pvm(void *pointer, size_t size) { (void)size, give_back(pointer, maker, CALLER); } \
  SHOWN void _Zd##delete##PvSt11align_val_t(void *pointer, size_t alignment) { (void)alignment, give_back(pointer, maker, CALLER); } \
  SHOWN void _Zd##delete##PvRKSt9nothrow_t(void *pointer, void *nothrow) { (void)nothrow, give_back(pointer, maker, CALLER); } \
  SHOWN void _Zd##delete##PvmSt11align_val_t(void *pointer, size_t size, size_t alignment) { \
    (void)size, (void)alignment, give_back(pointer, maker, CALLER); \
  }
OPERATORS(w, l, NEW)
OPERATORS(a, a, NEW_ARRAY)
