"""What LLVM 19's Scudo takes of memory for a class table while it gives nothing back: a model, read off its source. Nothing of it is proved.

The blocks of a class lie side by side from the start of a page on. They are cut in sets, whose blocks are given out in any order, and a set
is cut only once all blocks before it are live. A list has the free blocks, in batches that are blocks of a class of their own; each group
of 2 MiB that has a free block begins a batch, and has one more that describes the group."""

import math

PAGE = 4096  # of the machine
# in primary64.h: MaxNumBatches of the batches that a thread keeps make a set
SETS = 8
# in allocator_config.h: MapSizeIncrement and GroupSizeLog
MAPPED, GROUP = 1 << 18, 1 << 21
# in size_class_map.h, DefaultSizeClassConfig: MaxNumCachedHint and MaxBytesCachedLog
MOST_CACHED, BYTES_CACHED = 14, 1 << 10
# in allocator_common.h: a TransferBatch has two words and a word for each block
BATCH = 8 * (2 + MOST_CACHED)
FOLLOWED = 1 << 20  # blocks of a class whose sets are followed one by one


def cached_blocks(block: int) -> int:
    """How many blocks of so many bytes a thread takes at once."""
    return max(1, min(MOST_CACHED, BYTES_CACHED // block))


def cut(block: int, blocks: int) -> tuple[int, int]:
    """How many blocks are cut before the last set where so many were live at once, and how many in it. More memory is mapped where less than
    the blocks that a thread takes at once are left of it; else a set may be smaller. Of very many, those that fill whole pieces of what is
    mapped are left out of this, so that the sets may be others."""
    filling = MAPPED // math.gcd(MAPPED, block)
    begin, at_once = max(0, blocks - FOLLOWED) // filling * filling, cached_blocks(block)
    before = last = mapped = 0
    while begin + before + last < blocks:
        before += last
        needed = (before + at_once) * block
        if needed > mapped:
            mapped += -(-(needed - mapped) // MAPPED) * MAPPED
        left, most = mapped // block - before, SETS * at_once
        before += most * max(min(left // most, -(-(blocks - begin - before) // most)) - 1, 0)  # sets of that size
        last = min(most, mapped // block - before)
    return begin + before, last


def pages(block: int, blocks: int) -> float:
    """How many pages have had a block in use: all up to the last set, and in it as many as are to be expected of blocks drawn at random."""
    before, last = cut(block, blocks)
    drawn = blocks - before
    found = float(-(-before * block // PAGE))
    for page in range(int(found), -(-(before + last) * block // PAGE)):
        first, end = max(page * PAGE // block, before), min(-(-(page + 1) * PAGE // block), before + last)
        found += 1 - math.comb(last - (end - first), drawn) / math.comb(last, drawn)
    return found


def bytes_taken(classes: list[int], most: list[int], freed: int) -> int:
    """The bytes for a table, of granules of 16 bytes, whose classes had so many live blocks at most, and of all of which together so many
    blocks were freed and not yet given out again at most."""
    of = [(16 * granules, blocks) for granules, blocks in zip(classes, most) if blocks]
    groups = sum(-(-sum(cut(*each)) * each[0] // GROUP) for each in of)
    batches = -(-freed // MOST_CACHED) + 2 * groups
    return round(PAGE * sum(pages(*each) for each in [*of, (BATCH, batches)]))
