// Which blocks are lost at the end of the program: live ones to which no pointer is left. Pointers are looked for in all memory that the
// program may write to, and in the blocks that these lead to, as sanitizers of leaks do. The stack is looked at last: what only a word of it
// leads to may be lost, as the word may be left of a function that has returned. Only find_faults --unfreed asks for it.
#include "accesses.h"

enum { PIECE = 1 << 14 };
enum { LOST, REACHED, BY_STACK };
static unsigned char *how_reached, reaches_now;  // of each block; and what is reached from here on
static uint32_t *to_read, reached;

static void reach(address word) {
  struct block *block = is_in_arena(word) ? owner(word) : NULL;
  if (!block || block->state != LIVE || word - block->start >= (block->size ? block->size : 1) || how_reached[block - BLOCKS]) return;
  how_reached[block - BLOCKS] = reaches_now;
  to_read[reached++] = block - BLOCKS;
}

// What other threads unmap meanwhile, and what a file lacks, can't be read.
static void reach_from(int memory, address from, address to) {
  static word piece[PIECE / sizeof(word)];
  for (from = round_up(from, sizeof(word)); from + sizeof(word) <= to; from += PIECE) {
    size_t size = to - from < PIECE ? to - from : PIECE;
    long got = syscall(SYS_pread64, memory, piece, size, from);
    for (long i = 0; i < got / (long)sizeof *piece; i++) reach(piece[i]);
  }
}

static void reach_from_blocks(void) {
  static uint32_t at;
  for (; at < reached; at++) {
    address start = BLOCKS[to_read[at]].start;
    for (address a = start; a + sizeof(word) <= start + BLOCKS[to_read[at]].size; a += sizeof(word)) reach(*(word *)a);
  }
}

struct search { int memory; address stack, high; };  // the part of the stack that is in use

// The tables of the runtime are no roots.
static void see_mapping(const struct mapping *mapping, void *data) {
  struct search *search = data;
  address low = mapping->low, high = mapping->high;
  int is_own = low >= ARENA && low < ARENA + ARENA_SIZE * 26, is_shadow = low >= SHADOW_OFFSET && low < SHADOW_OFFSET + ARENA_SIZE * 16;
  if (is_own || is_shadow || memcmp(mapping->mode, "rw-p", 4)) return;
  if (low <= search->stack && search->stack < high) search->high = high;
  else reach_from(search->memory, low, high);
}

void put_lost(address stack) {
  if (!getenv("ACCESSES_UNFREED")) return;
  size_t count = number_of_blocks() + 1;
  int how = MAP_PRIVATE | MAP_ANONYMOUS | MAP_NORESERVE, memory = syscall(SYS_openat, AT_FDCWD, "/proc/self/mem", O_RDONLY | O_CLOEXEC);
  how_reached = mmap(NULL, count, PROT_READ | PROT_WRITE, how, -1, 0);
  to_read = mmap(NULL, count * sizeof *to_read, PROT_READ | PROT_WRITE, how, -1, 0);
  if (memory < 0 || how_reached == MAP_FAILED || to_read == MAP_FAILED) return;
  struct search search = {memory, stack, stack};
  forget_accesses();
  reaches_now = REACHED, see_mappings(see_mapping, &search), reach_from_blocks();
  reaches_now = BY_STACK, reach_from(memory, search.stack, search.high), reach_from_blocks();
  syscall(SYS_close, memory);
  for (size_t number = 1; number < count && is_logging(); number++)
    if (BLOCKS[number].state == LIVE && how_reached[number] != REACHED)
      put_record(how_reached[number] == LOST ? 'k' : 'q', 1, (long)number), put_end();
  if (is_logging()) put_record('k', 1, 0l), put_end();
}
