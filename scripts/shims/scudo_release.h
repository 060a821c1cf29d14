// When LLVM 19's Scudo gives memory back: its rules of release, which shims/release_model.c goes by. Our own words and code, after the
// public source in compiler-rt/lib/scudo/standalone:
//
// - primary64.h, for the blocks of classes: hasChanceToReleasePages (may_release), collectGroupsToRelease (group_goes), and how many blocks
//   are cut at once; local_cache.h, how many a thread keeps; size_class_map.h, the hints.
// - secondary.h, for larger blocks: store and retrieve of MapAllocatorCache (fits_kept, is_close), with the numbers of allocator_config.h.
//
// combined.h: calloc writes zeros to all of a block of a class.
//
// A class is looked at when a thread gives blocks of it back, and at no other time. Its first release is at once, since its last one is noted
// as at the start of the clock; and a class of blocks above a page ignores the interval.
#pragma once
#include <stdint.h>

enum {
  PAGE = 4096,
  GROUP = 1 << 21,          // bytes of a class that are released together: GroupSizeLog
  MAPPED = 1 << 18,         // bytes that are mapped at once: MapSizeIncrement
  HEADER = 16,              // of a block
  LARGE_HEADER = 64,        // of a block above the classes, beside that
  SETS = 8,                 // MaxNumBatches: so many batches of blocks are cut at once
  BATCH_BYTES = 128,        // of what lists some free blocks
  KEPT_BLOCKS = 32,         // of the cache of larger blocks: DefaultMaxEntriesCount
  MOST_KEPT = 1 << 19,      // the bytes of one: DefaultMaxEntrySize
  UNUSED_PAGES = 4,         // and what it may have before a block: MaxUnusedCachePages
  FULL = 5,                 // the cache is emptied when it is full for so many times
  BYPASS = 8 * PAGE,        // bytes that are freed of a class of blocks above a page: then it does not wait
};
static const uint64_t REGION = 1ULL << 32;  // bytes of a class: RegionSizeLog

static inline int is_small(uint64_t block) { return block < PAGE / 16; }

// The bytes that have to be freed of small blocks before their pages are looked at: by the least block of the map.
static inline uint64_t delta_of(uint64_t least_block) { return PAGE * (GROUP / PAGE * (1 + least_block / 16) / 100); }

// Whether the pages of a class are looked at: GROWN bytes more than at its last look are in its list.
static inline int may_release(uint64_t block, uint64_t grown, uint64_t threshold, int64_t interval, int64_t last, int64_t now) {
  if (grown < PAGE || (is_small(block) && grown < threshold) || interval < 0) return 0;
  return (block > PAGE && grown > BYPASS) || last + interval <= now;
}

// Whether a group of a class is looked at: of the bytes THERE in it so many are FREE, of these PUSHED since its last look. Lowers the class's
// NEAREST threshold.
static inline int group_goes(uint64_t block, uint64_t there, uint64_t free, uint64_t pushed, uint64_t delta, uint64_t *nearest) {
  if (!is_small(block)) return 1;
  uint64_t dense = there * (99 - block / 16) / 100, next = free >= dense ? delta : dense - free + pushed;
  if (next < *nearest) *nearest = next;
  return free >= dense && (free / block >= GROUP / block || pushed >= delta);
}

// Whether a kept block of ROOM bytes serves one that needs so many, and whether so well that no other one is looked for.
static inline int fits_kept(uint64_t room, uint64_t need) { return room >= need && room - need + LARGE_HEADER + HEADER <= UNUSED_PAGES * PAGE; }
static inline int is_close(uint64_t room, uint64_t need) { return (room - need) * 10 <= need; }
