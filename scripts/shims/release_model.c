// What LLVM 19's Scudo is predicted to have resident at most with a table of classes, page by page, by its rules of release (scudo_release.h).
// A model of one thread: nothing of it is proved. mte_scripts/tables/release_model.py builds and runs it.
//
//   release_model MS WRITTEN,.. HINT:LOG:GRANULES,.. .. [last|first|random].. < RECORD
//
// MS: release_to_os_interval_ms. WRITTEN: how many 64ths of each request are written, but at least a byte, what calloc writes and what a realloc
// copies; up to four numbers, the greatest first. Then maps. HINT and LOG: how many blocks a thread keeps at most, and of how many bytes, as a
// power of 2. GRANULES: all classes of the map, headers included, ascending. RECORD: that of blocks (block_kinds.h); or a timeline, which does
// not say which block of a size is freed, and then the last words do. Prints for each of these, and for each map, a line with the most KiB that
// the heap, with the files of the record, has resident: a number for each WRITTEN. The status is 2 where the words or the record are faulty, and
// 3 without memory.
//
// A number of WRITTEN is a lane. Which block a call takes or gives back is the same in each of them: so they are simulated together, and a page
// has a bit for each lane in which it is resident.
#include <signal.h>
#include <stdint.h>
#include <stdio.h>
#include <stdlib.h>
#include <string.h>
#include <sys/mman.h>
#include <sys/prctl.h>
#include <sys/wait.h>
#include <unistd.h>
#include "block_kinds.h"
#include "formats.h"
#include "events.h"
#include "scudo_release.h"

enum { CLASSES = 256, LARGEST_GRANULES = 1 << 14, MOST_HINT = 64, SHARES = 64, GROUPS = 1 << 11, WORDS = GROUPS / 64, LARGE = LARGEST_SIZE + 1 };
enum { LANES = 4, PAGES = GROUP / PAGE, FREED = 1 << 15 };
static const uint64_t MOST_SIZE = 1ULL << 46;

static _Noreturn void refuse(int status, const char *why) { fprintf(stderr, "release_model: %s\n", why), exit(status); }

static void *more(void *at, uint64_t bytes) {
  void *new = realloc(at, bytes);
  if (!new) refuse(3, "it has no memory");
  return new;
}

// Room for NUMBER entries and more, those that are new all 0.
static void grow(void **at, uint64_t *room, uint64_t number, uint64_t bytes) {
  uint64_t before = *room;
  *room = before * 2 > number ? before * 2 : number;
  *at = more(*at, *room * bytes), memset((char *)*at + before * bytes, 0, (*room - before) * bytes);
}
#define GROW(list, number) \
  ((number) <= (list).room ? (void)0 : grow((void **)&(list).at, &(list).room, number, sizeof *(list).at))

// ---- the memory

static int64_t interval, batches, most_batches, files;  // in milliseconds, batches and pages
static int64_t resident[LANES], most[LANES];            // pages
static int64_t clock_ms;
static uint64_t delta, share_written[LANES];
static int lanes;
static unsigned all;  // the set of all lanes

static void note_most(void) {
  if (batches > most_batches) most_batches = batches;
  int64_t others = files + (most_batches * BATCH_BYTES + PAGE - 1) / PAGE;
  for (int lane = 0; lane < lanes; lane++)
    if (resident[lane] + others > most[lane]) most[lane] = resident[lane] + others;
}

// The bytes of a request that are written in a lane, of which COPIED are by a realloc; or these, of zeros.
static uint64_t written_of(int lane, uint64_t size, uint64_t copied, uint64_t zeros) {
  uint64_t share = size * share_written[lane] / SHARES, some = share > copied ? share : copied;
  if (!some) some = 1;
  return zeros ? zeros : some < size ? some : size;
}

// A number for each lane of a set: 1. Up to 16 bits of each are in one word.
static uint64_t ones_of(unsigned set) { return set * 0x200040008001ULL & 0x1000100010001ULL; }
static unsigned number_in_lane(uint64_t word, int lane) { return word >> 16 * lane & 0xffff; }

// ---- the blocks of a class

// A group's list: batches of free blocks, each of which has so many.
struct group {
  struct { uint32_t *at; uint64_t room; } blocks;
  struct { uint8_t *at; uint64_t room; } filled;
  uint64_t free, batches, checkpoint[LANES];
  uint64_t idle;  // resident pages that no block uses, of each lane
};
struct pages { uint8_t *at; uint64_t room; };  // a number for each
// What a class's releases go by, the same in all these lanes.
struct watch {
  uint64_t checkpoint, threshold;
  int64_t last;  // when its pages were looked at
  unsigned lanes;
};
static struct class {
  uint64_t size, used, mapped, popped, pushed;
  uint32_t keep, kept;      // of the thread: at most twice so many, and how many
  uint32_t cache[2 * MOST_HINT + 2];
  struct { struct group *at; uint64_t room; } groups;
  struct pages users, resident;  // blocks that are not in the list; and a set of lanes
  uint64_t has_free[WORDS]; // of the groups
  struct watch watches[LANES];
  int number_of_watches;
} classes[CLASSES];
static uint32_t number_of_classes, hint;
static uint8_t class_of[LARGEST_GRANULES + 1];  // by granules; 0 above the classes

static uint64_t group_of(const struct class *class, uint64_t block) { return block * class->size / GROUP; }

// A block leaves the list, or comes to it.
static void use(struct class *class, uint64_t block, int by) {
  uint64_t from = block * class->size / PAGE, to = ((block + 1) * class->size - 1) / PAGE;
  for (uint64_t p = from; p <= to; p++)
    if ((class->users.at[p] += by) == (by > 0)) class->groups.at[p / PAGES].idle -= by * ones_of(class->resident.at[p]);
}

static void list(struct class *class, uint32_t block) {
  uint64_t at = group_of(class, block);
  struct group *group = &class->groups.at[at];
  if (!group->batches) {  // one more batch describes the group
    memset(group->checkpoint, 0, sizeof group->checkpoint);
    batches++, class->has_free[at / 64] |= 1ULL << at % 64;
  }
  if (!group->batches || group->filled.at[group->batches - 1] == hint) {
    GROW(group->filled, group->batches + 1);
    group->filled.at[group->batches++] = 0, batches++;
  }
  GROW(group->blocks, group->free + 1);
  group->blocks.at[group->free++] = block, group->filled.at[group->batches - 1]++;
}

static struct group *first_group(struct class *class) {
  for (int k = 0; k < WORDS; k++)
    if (class->has_free[k]) return &class->groups.at[64 * k + __builtin_ctzll(class->has_free[k])];
  return NULL;
}

// The thread takes blocks of the last batch of the first group: how many.
static uint32_t pop(struct class *class) {
  struct group *group = first_group(class);
  if (!group) return 0;
  uint8_t *filled = &group->filled.at[group->batches - 1];
  uint32_t number = *filled < class->keep ? *filled : class->keep;
  group->free -= number, memcpy(class->cache, group->blocks.at + group->free, number * sizeof *class->cache);
  if (!(*filled -= number)) group->batches--, batches--;
  uint64_t at = group - class->groups.at;
  if (!group->batches) batches--, class->has_free[at / 64] &= ~(1ULL << at % 64);
  for (uint32_t k = 0; k < number; k++) use(class, class->cache[k], 1);
  class->popped += number;
  return number;
}

static uint64_t seed = 88172645463325252ULL;
static uint64_t below(uint64_t number) {
  seed ^= seed << 13, seed ^= seed >> 7, seed ^= seed << 17;
  return (seed >> 32) * number >> 32;
}

// Lists blocks that have not been, those of a group in any order.
static void list_shuffled(struct class *class, uint32_t first, uint32_t number) {
  uint32_t some[SETS * MOST_HINT];
  for (uint32_t k = 0; k < number; k++) some[k] = first + k;
  for (uint32_t k = number - 1; k > 0; k--) {
    uint32_t other = below(k + 1), block = some[k];
    some[k] = some[other], some[other] = block;
  }
  for (uint32_t k = 0; k < number; k++) list(class, some[k]);
}

// Cuts more blocks: whether there is room.
static int cut(struct class *class) {
  uint64_t wanted = class->used + class->keep * class->size, first = class->used / class->size;
  if (wanted > class->mapped) {
    uint64_t mapped = class->mapped + (wanted - class->mapped + MAPPED - 1) / MAPPED * MAPPED;
    if (mapped > REGION) return 0;
    class->mapped = mapped;
    uint64_t groups = (mapped + GROUP - 1) / GROUP + 1;
    GROW(class->groups, groups), GROW(class->users, groups * PAGES), GROW(class->resident, groups * PAGES);
  }
  uint64_t number = (class->mapped - class->used) / class->size, end;
  if (number > SETS * class->keep) number = SETS * class->keep;
  for (uint64_t at = first; at < first + number; at = end) {
    for (end = at + 1; end < first + number && group_of(class, end) == group_of(class, at);) end++;
    list_shuffled(class, at, end - at);
  }
  class->used += number * class->size;
  return 1;
}

// ---- what is released

static int is_in(const uint64_t *set, uint64_t k) { return set[k / 64] >> k % 64 & 1; }

// Whether the blocks that begin on or reach a page are all of groups that are looked at.
static int is_looked_at(const struct class *class, const uint64_t *chosen, uint64_t page) {
  uint64_t last = ((page + 1) * PAGE - 1) / class->size, blocks = class->used / class->size;
  return is_in(chosen, group_of(class, page * PAGE / class->size)) && (last >= blocks || is_in(chosen, group_of(class, last)));
}

// Whether one of eight pages has no user.
static int have_unused(const uint8_t *pages) {
  uint64_t eight;
  memcpy(&eight, pages, sizeof eight);
  return ((eight - 0x101010101010101) & ~eight & 0x8080808080808080) != 0;
}

// The lanes in which a page is released, of these.
static unsigned release_group(struct class *class, const uint64_t *chosen, uint64_t at, unsigned of) {
  uint64_t begin = at * PAGES, *idle = &class->groups.at[at].idle, released = 0, wanted = 0xffff * ones_of(of);
  for (uint64_t p = begin; *idle & wanted && p < begin + PAGES; p++) {
    if (p % 8 == 0 && !have_unused(class->users.at + p)) { p += 7; continue; }
    unsigned gone = class->resident.at[p] & of;
    if (!gone || class->users.at[p] || !is_looked_at(class, chosen, p)) continue;
    class->resident.at[p] &= ~gone, *idle -= ones_of(gone), released += ones_of(gone);
  }
  unsigned found = 0;
  for (int lane = 0; lane < lanes; lane++)
    resident[lane] -= number_in_lane(released, lane), found |= !!number_in_lane(released, lane) << lane;
  return found;
}

// Which groups are looked at: how many. Of small blocks it sets the next threshold.
static int choose(struct class *class, int at, uint64_t *chosen) {
  uint64_t nearest = GROUP, number = 0;
  for (uint64_t k = 0; k * GROUP < class->used; k++) {
    struct group *group = &class->groups.at[k];
    uint64_t free = group->free * class->size, begin = k * GROUP, there = class->used - begin < GROUP ? class->used - begin : GROUP;
    uint64_t *checkpoint = &group->checkpoint[at];
    if (!free) continue;
    if (free <= *checkpoint) { *checkpoint = free; continue; }
    if (!group_goes(class->size, there, free, free - *checkpoint, delta, &nearest)) continue;
    *checkpoint = free, chosen[k / 64] |= 1ULL << k % 64, number++;
  }
  if (is_small(class->size)) class->watches[at].threshold = nearest == GROUP ? delta : nearest;
  return number > 0;
}

// The lanes in which a page was released go by another checkpoint from now on.
static void split(struct class *class, int at, unsigned of) {
  int new = class->number_of_watches++;
  class->watches[new] = class->watches[at], class->watches[new].lanes = of, class->watches[at].lanes &= ~of;
  for (uint64_t k = 0; k < class->groups.room; k++) class->groups.at[k].checkpoint[new] = class->groups.at[k].checkpoint[at];
}

static void look(struct class *class, int at, uint64_t listed) {
  struct watch *watch = &class->watches[at];
  if (listed < watch->checkpoint) watch->checkpoint = listed;
  if (!may_release(class->size, listed - watch->checkpoint, watch->threshold, interval, watch->last, clock_ms)) return;
  uint64_t chosen[WORDS + 1] = {0};
  unsigned found = 0;
  if (!choose(class, at, chosen)) return;
  for (uint64_t k = 0; k * GROUP < class->used; k++)  // a chosen group's blocks may reach the next one
    if (is_in(chosen, k) || (k && is_in(chosen, k - 1))) found |= release_group(class, chosen, k, watch->lanes);
  watch->last = clock_ms;
  if (found && found != watch->lanes) split(class, at, found), watch = &class->watches[class->number_of_watches - 1];
  if (found) watch->checkpoint = listed;
}

static void release(struct class *class) {
  uint64_t listed = class->used - (class->popped - class->pushed) * class->size;
  for (int at = class->number_of_watches; listed && at-- > 0;) look(class, at, listed);
}

// ---- what a thread does

// Gives half of what the thread keeps back to the list, in the order of the groups.
static void drain(struct class *class) {
  uint32_t *cache = class->cache, number = class->keep;
  for (uint32_t i = 1; i < number; i++)
    for (uint32_t j = i; j && group_of(class, cache[j]) < group_of(class, cache[j - 1]); j--) {
      uint32_t block = cache[j];
      cache[j] = cache[j - 1], cache[j - 1] = block;
    }
  for (uint32_t k = 0; k < number; k++) use(class, cache[k], -1), list(class, cache[k]);
  class->pushed += number, class->kept -= number, memmove(cache, cache + number, class->kept * sizeof *cache);
  if (batches > most_batches) note_most();
}

static void give(struct class *class, uint32_t block) {
  int drains = class->kept == 2 * class->keep;
  if (drains) drain(class);
  class->cache[class->kept++] = block;
  if (drains) release(class);
}

// A block of the class, below 0 where it has no more room.
static int64_t take(struct class *class) {
  if (!class->kept && !(class->kept = pop(class))) {
    if (!cut(class)) return -1;
    class->kept = pop(class);
  }
  return class->cache[--class->kept];
}

// A block of a size begins on a page, and reaches others in the lanes that write so much of it.
static void touch(struct class *class, uint64_t block, uint64_t size, uint64_t copied, uint64_t zeros) {
  uint64_t begin = block * class->size + HEADER - 1, p = block * class->size / PAGE;
  int reach = lanes, rose = batches > most_batches;
  if (class->resident.at[p] == all && !rose && ((block + 1) * class->size - 1) / PAGE == p) return;
  for (; reach; p++) {
    unsigned new = ((1U << reach) - 1) & ~class->resident.at[p];
    for (int lane = 0; new >> lane; lane++) resident[lane] += new >> lane & 1;
    class->resident.at[p] |= new, rose |= new;
    if ((begin + written_of(0, size, copied, zeros)) / PAGE == p) break;
    while (reach && (begin + written_of(reach - 1, size, copied, zeros)) / PAGE == p) reach--;
  }
  if (rose) note_most();
}

// ---- larger blocks

struct large { uint64_t room, pages[LANES]; };  // what is mapped and resident
static struct kept { struct large block; int64_t since; int is_there; } kept[KEPT_BLOCKS];
static int times_full;

static void drop(struct kept *one) {
  for (int lane = 0; lane < lanes; lane++) resident[lane] -= one->block.pages[lane];
  *one = (struct kept){0};
}

static uint64_t need_of(uint64_t size) { return size + HEADER + LARGE_HEADER; }
static uint64_t pages_of(uint64_t bytes) { return (bytes + PAGE - 1) / PAGE; }

static struct kept *kept_for(uint64_t need) {
  struct kept *best = NULL;
  for (struct kept *each = kept; each < kept + KEPT_BLOCKS; each++) {
    if (!each->is_there || !fits_kept(each->block.room, need)) continue;
    if (is_close(each->block.room, need)) return each;
    if (!best || each->block.room <= best->block.room) best = each;
  }
  return best;
}

// So many bytes of a block are written in each lane, and perhaps more zeros.
static void write_large(struct large *block, uint64_t size, uint64_t copied, int is_zeroed) {
  for (int lane = 0; lane < lanes; lane++) {
    uint64_t before = block->pages[lane], zeros = is_zeroed && before ? size : 0;  // what was just mapped is zero
    uint64_t pages = pages_of(need_of(written_of(lane, size, copied, zeros)));
    if (pages > before) resident[lane] += pages - before, block->pages[lane] = pages;
  }
  note_most();
}

static struct large map_large(uint64_t size, uint64_t copied, int is_zeroed) {
  struct kept *one = kept_for(need_of(size));
  struct large block = one ? one->block : (struct large){pages_of(need_of(size)) * PAGE, {0}};
  if (one) *one = (struct kept){0};
  write_large(&block, size, copied, is_zeroed);
  return block;
}

static void release_kept(void) {
  for (struct kept *each = kept; each < kept + KEPT_BLOCKS; each++)
    for (int lane = 0; each->is_there && each->since <= clock_ms - interval && lane < lanes; lane++)
      resident[lane] -= each->block.pages[lane], each->block.pages[lane] = 0;
}

static void unmap_large(struct large block) {
  int place = 0, is_kept = block.room <= MOST_KEPT, empties = 0;
  while (place < KEPT_BLOCKS && kept[place].is_there) place++;
  if (is_kept && place == KEPT_BLOCKS) is_kept = 0, empties = ++times_full == FULL;
  for (int lane = 0; (!is_kept || !interval) && lane < lanes; lane++) resident[lane] -= block.pages[lane], block.pages[lane] = 0;
  if (is_kept) kept[place] = kept[0], kept[0] = (struct kept){block, clock_ms, 1};
  if (empties) times_full = 0;
  for (int k = 0; empties && k < KEPT_BLOCKS; k++) drop(&kept[k]);
  if (interval > 0 && block.room <= MOST_KEPT) release_kept();
}

// ---- the calls

// Numbers from 0 on, of which the one that was given back last is taken first.
struct numbers { uint32_t *at; uint64_t room, unused, next; };
static uint32_t take_number(struct numbers *of) { return of->unused ? of->at[--of->unused] : of->next++; }
static void give_number(struct numbers *of, uint32_t number) { GROW(*of, of->unused + 1), of->at[of->unused++] = number; }

struct place { uint32_t class, at; };  // the class of a larger block is 0
enum { GONE = CLASSES };               // that of a block that is of no request
static struct { struct { struct place place; uint64_t size; } *at; uint64_t room; } blocks;
static struct { struct large *at; uint64_t room; } larges;
static struct numbers of_blocks, of_larges;

static uint64_t granules_of(uint64_t size) { return (size ? (size + 15) / 16 : 1) + 1; }

static struct place allocate(uint64_t size, uint64_t copied, int is_zeroed) {
  if (size > MOST_SIZE) refuse(2, "the record has a request that there can't be");
  uint64_t granules = granules_of(size);
  uint32_t of = granules <= LARGEST_GRANULES ? class_of[granules] : 0;
  int64_t at = of ? take(&classes[of]) : -1;
  if (at >= 0) {
    touch(&classes[of], at, size, copied, is_zeroed ? classes[of].size - HEADER : 0);
    return (struct place){of, at};
  }
  uint32_t number = take_number(&of_larges);
  GROW(larges, number + 1ULL), larges.at[number] = map_large(size, copied, is_zeroed);
  return (struct place){0, number};
}

static void deallocate(struct place place) {
  if (place.class) { give(&classes[place.class], place.at); return; }
  unmap_large(larges.at[place.at]), give_number(&of_larges, place.at);
}

static void request(uint64_t size, int is_zeroed) {
  struct place place = allocate(size, 0, is_zeroed);
  uint32_t number = take_number(&of_blocks);
  GROW(blocks, number + 1ULL), blocks.at[number].place = place, blocks.at[number].size = size;
}

static void refuse_gone(uint64_t number) {
  if (number >= of_blocks.next || blocks.at[number].place.class == GONE) refuse(2, "the record has a call for no live block");
}

static void free_block(uint64_t number) {
  refuse_gone(number), deallocate(blocks.at[number].place);
  blocks.at[number].place.class = GONE, give_number(&of_blocks, number);
}

static void resize(uint64_t number, uint64_t size) {
  refuse_gone(number);
  struct place old = blocks.at[number].place;
  uint64_t before = blocks.at[number].size;
  if (size > MOST_SIZE) refuse(2, "the record has a request that there can't be");
  int fits = old.class ? HEADER + size <= classes[old.class].size : need_of(size) <= larges.at[old.at].room;
  blocks.at[number].size = size;
  if (!fits || (size <= before && before - size >= PAGE))
    blocks.at[number].place = allocate(size, size < before ? size : before, 0), deallocate(old);
  else if (old.class) touch(&classes[old.class], old.at, size, 0, 0);
  else write_large(&larges.at[old.at], size, 0, 0);
}

// ---- the record

static const uint8_t *next, *end;

static uint64_t read_number(void) {
  uint64_t value = 0;
  for (int shift = 0; shift < 63 && next < end; shift += 7) {
    uint8_t byte = *next++;
    value |= (uint64_t)(byte & 127) << shift;
    if (byte < 128) return value;
  }
  refuse(2, "the record ends within a number, or has too large a one");
}

static void replay_blocks(void) {
  while (next < end) {
    uint64_t number = read_number(), value = number >> KIND_BITS;
    switch (number & ((1 << KIND_BITS) - 1)) {
    case REQUESTED: request(value, 0); break;
    case ZEROED: request(value, 1); break;
    case FREED_BLOCK: free_block(value); break;
    case RESIZED: resize(value, read_number()); break;
    case CLOCK: {
      uint64_t kibibytes = read_number();
      if (value > MOST_SIZE || kibibytes > MOST_SIZE) refuse(2, "the record has a time or a size that there can't be");
      clock_ms = value, files = kibibytes * 1024 / PAGE, note_most();
      break;
    }
    default: refuse(2, "the record has a call that there can't be");
    }
  }
}

// The live blocks of each size, in the order of their requests.
static struct pool { struct place *at; uint64_t room, first, last; } pools[LARGE];

static struct place chosen_of(struct pool *pool, char order) {
  if (pool->first == pool->last) refuse(2, "the timeline frees no live block");
  if (order == 'f') return pool->at[pool->first++];
  if (order == 'r') {
    uint64_t at = pool->first + below(pool->last - pool->first);
    struct place block = pool->at[at];
    pool->at[at] = pool->at[--pool->last];
    return block;
  }
  return pool->at[--pool->last];
}

static void add(struct pool *pool, struct place block) {
  if (pool->first && pool->first > pool->last / 2) {
    memmove(pool->at, pool->at + pool->first, (pool->last - pool->first) * sizeof *pool->at);
    pool->last -= pool->first, pool->first = 0;
  }
  GROW(*pool, pool->last + 1), pool->at[pool->last++] = block;
}

static struct { uint16_t *at; uint64_t room, number; } events;

static void replay_timeline(char order) {
  for (const uint16_t *each = events.at; each < events.at + events.number; each++) {
    int size = *each & ~FREED;
    if (*each & FREED) deallocate(chosen_of(&pools[size], order));
    else add(&pools[size], allocate(size, 0, 0));
  }
}

// The events of a timeline, those of large blocks left out, which are of unknown size.
static void read_events(void) {
  static const char TIMELINE[] = "timeline\n";
  const char *at = (const char *)next, *last = (const char *)end;
  if (last - at < (long)strlen(TIMELINE) || memcmp(at, TIMELINE, strlen(TIMELINE))) refuse(2, "this is no timeline");
  for (at += strlen(TIMELINE); at < last; at++) {
    int is_free, size = read_event(&at, last, &is_free);
    if (size < 0 || (at < last && *at != '\n')) refuse(2, "a line of the timeline is no event");
    GROW(events, events.number + 1);
    if (size < LARGE) events.at[events.number++] = size | (is_free ? FREED : 0);
  }
}

static void read_all(void) {
  uint64_t room = 1 << 20, bytes = 0, many;
  uint8_t *all = more(NULL, room);
  while ((many = fread(all + bytes, 1, room - bytes, stdin)) > 0)
    if ((bytes += many) == room) all = more(all, room *= 2);
    else if (bytes > MOST_INPUT) refuse(2, "the record is too long");
  if (ferror(stdin)) refuse(3, "the record can't be read");
  next = all, end = all + bytes;
}

// ---- the words

static long number_in(const char *text, long least, long greatest, char **rest) {
  long value = strtol(text, rest, 10);
  if (*rest == text || value < least || value > greatest) refuse(2, "a word is no number, or out of range");
  return value;
}

static void begin_class(uint64_t size, int log) {
  uint64_t kept_at_once = (1ULL << log) / size;
  struct class *class = &classes[++number_of_classes];
  class->size = size, class->keep = kept_at_once < 1 ? 1 : kept_at_once > hint ? hint : kept_at_once;
  class->watches[0] = (struct watch){0, is_small(size) ? delta : PAGE, INT64_MIN / 2, all}, class->number_of_watches = 1;
}

static void read_map(char *rest) {
  long before = 1, granules;
  hint = number_in(rest, 1, MOST_HINT, &rest);
  if (*rest++ != ':') refuse(2, "a map is not HINT:LOG:GRANULES,..");
  int log = number_in(rest, 4, 20, &rest);
  if (*rest++ != ':') refuse(2, "a map is not HINT:LOG:GRANULES,..");
  for (; *rest; rest += *rest == ',') {
    granules = number_in(rest, before + 1, LARGEST_GRANULES, &rest);
    if ((*rest && *rest != ',') || number_of_classes + 2 == CLASSES) refuse(2, "the classes are no numbers that ascend, or too many");
    if (!number_of_classes) delta = delta_of(16 * granules);
    begin_class(16 * granules, log);
    for (long at = before + 1; at <= granules; at++) class_of[at] = number_of_classes;
    before = granules;
  }
}

static void read_shares(char *rest) {
  for (long before = SHARES; *rest; rest += *rest == ',') {
    if (lanes == LANES) refuse(2, "there are more than four shares");
    share_written[lanes++] = before = number_in(rest, 0, before, &rest);
    if (*rest && *rest != ',') refuse(2, "the shares are no numbers that descend");
  }
  all = (1U << lanes) - 1;
}

// Simulates one map in a process of its own, which ends with this one.
static void begin_run(char *map, char order, int64_t *found) {
  pid_t child = fork();
  if (child < 0) refuse(3, "it can't begin a process");
  if (child) return;
  prctl(PR_SET_PDEATHSIG, SIGKILL);
  read_map(map);
  if (order) replay_timeline(order);
  else replay_blocks();
  memcpy(found, most, sizeof most);
  exit(0);
}

static int is_order(const char *word) { return !strcmp(word, "last") || !strcmp(word, "first") || !strcmp(word, "random"); }

int main(int argc, char **argv) {
  char *rest;
  int maps = 0, status, worst = 0, orders;
  if (argc == 1) return 2;  // it is tried whether it runs
  while (3 + maps < argc && !is_order(argv[3 + maps])) maps++;
  if (!maps) refuse(2, "it wants MS, WRITTEN, maps, and perhaps which block is freed");
  interval = number_in(argv[1], -1, INT32_MAX, &rest), read_shares(argv[2]), orders = argc - 3 - maps;
  int runs = maps * (orders ? orders : 1);
  int64_t *found = mmap(NULL, runs * sizeof most, PROT_READ | PROT_WRITE, MAP_SHARED | MAP_ANONYMOUS, -1, 0);
  if (found == MAP_FAILED) refuse(3, "it has no memory");
  read_all();
  if (orders) read_events();
  for (int run = 0; run < runs; run++) begin_run(argv[3 + run % maps], orders ? *argv[3 + maps + run / maps] : 0, found + run * LANES);
  while (wait(&status) > 0)
    if (status) worst = WIFEXITED(status) ? WEXITSTATUS(status) : 3;
  for (int run = 0; !worst && run < runs; run++)
    for (int lane = 0; lane < lanes; lane++)
      printf("%lld%c", (long long)found[run * LANES + lane] * (PAGE / 1024), lane + 1 < lanes ? ' ' : '\n');
  return worst;
}
