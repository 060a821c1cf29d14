"""How probable it is that Scudo and glibc catch an error, wherever its blocks are. scripts/tests/test_real_heaps.py compares each rule with what
they do: LLVM 19's Scudo with Android's classes and pages of 4,096 bytes, with and without its odd and even tags, and glibc 2.36 with
mem.tagging=3."""

from mte_scripts.faults.fault_log import Error
from mte_scripts.faults.histories import GRANULE, PAGE, BlockPast, Slot, round_to_granule
from mte_scripts.faults.shares import ALWAYS, NEVER, UNKNOWN, Share, at_least

EVEN, ALL = 7, 15  # tags that Scudo draws from with its odd and even tags, or more; and that glibc draws from
FAR = 64 << 20  # bytes after a block: a class of Scudo has 256 MiB, and a heap of glibc 64 MiB or all up to the next mapping
GLIBC_HEAP = 131_040  # bytes of the largest request that it surely serves from its heap
GLIBC_BEFORE = 640  # bytes before its first block, of its own
GLIBC_SPARE = 32  # bytes that a block with an alignment may have more

HEADER = ALWAYS.since("a header has tag 0")
MARK = ALWAYS.since("the granule after a block has tag 0")
REDRAWN = ALWAYS.since("its free drew another tag")
GUARD = ALWAYS.since("a large block ends before a page that nobody may access")
UNMAPPED = ALWAYS.since("nobody may access a large block that was freed")
LAST_GRANULE = NEVER.since("it is inside the last granule")
IN_PLACE = NEVER.since("the realloc was in place, and kept the pointer")
CUT_OFF = NEVER.since("what a realloc in place cuts off keeps its tag")
LARGE = NEVER.since("the pages of a large block have no tags, or tag 0")
# another slot's draw is as good as any of 7 tags or more; a slot's own second draw is not the first, so its third may be one of 6
ELSEWHERE = at_least(EVEN - 1, EVEN).since("another place has a draw of its own")
REUSED = at_least(EVEN - 2, EVEN - 1).since("a later draw may be the same again")
FAR_AWAY = UNKNOWN.since("it is far away, and what is there is not known")
NO_BLOCK = UNKNOWN.since("it has no block")
LOST = UNKNOWN.since("it is not known whether a realloc moved the block")
LARGER_BEFORE = UNKNOWN.since("a larger block may have had the place, and the same tag")
GIVEN_BACK = UNKNOWN.since("the place may have been given back to the system")
TAKEN = UNKNOWN.since("the place may have another user")
CHECKSUM = at_least((1 << 16) - 1, 1 << 16).since("a header has a checksum of 16 bits")
COMPARED = UNKNOWN.since("whether it compares the two is a setting")
NO_RULE = UNKNOWN.since("what it would take for a header is not known")

OTHER_OF_GLIBC = at_least(ALL - 1, ALL).since("each request draws one of 15 tags")
FREE = ALWAYS.since("what is free has tag 0")
PADDED = Share(ALWAYS.least * 0, False, "always, unless its block is 16 bytes larger than it has to be")
SPARE = UNKNOWN.since("a block with an alignment may be larger than it has to be")
SAME_POINTER = UNKNOWN.since("some versions keep the pointer where a realloc changes no granule")
NOT_ON_HEAP = UNKNOWN.since("a block so large may be outside its heap")


def span(error: Error, size: int) -> tuple[int, int]:
    """Where the wrong part of an access begins and ends, in bytes from its block of this size on."""
    return error.window(size)[0], error.offset + error.size


def meets(begin: int, end: int, granule: int) -> bool:
    return begin < granule + GRANULE and end > granule


def on_scudo(error: Error, size: int, past: BlockPast) -> Share:
    """`size`: of the block that the error names."""
    if error.letter == "y":
        return COMPARED
    if not error.block:
        return CHECKSUM if error.letter == "n" else NO_BLOCK
    if error.is_free():
        return free_on_scudo(error, past)
    if past.slot.is_lost:
        return LOST
    begin, end = span(error, size)
    if past.slot.is_large:
        return on_large(past.slot, past, begin, end)
    if share := around_slot(past.slot, past, begin, end):
        return share
    is_sure = past.slot.is_live or past.since == 0
    return on_sure(error, past, begin, end) if is_sure else on_reused_slot(past.slot, begin, end)


def free_on_scudo(error: Error, past: BlockPast) -> Share:
    """No free asks the pointer's tag: it reads the header before the address, by tag 0."""
    slot = past.slot
    if error.offset % GRANULE:
        return ALWAYS.since("no block begins there")
    if slot.is_lost:
        return LOST
    is_sure = slot.is_live or past.since == 0
    if error.offset == 0 and slot.is_live:
        return IN_PLACE
    if error.offset == 0:
        return ALWAYS.since("its header says that it is free") if is_sure else TAKEN
    if is_sure and not slot.is_large and GRANULE <= error.offset <= round_to_granule(slot.size):
        return ALWAYS.since("what it takes for a header has another tag than 0")
    # no block begins where a slot does
    return CHECKSUM if error.offset == -GRANULE and slot.is_plain and not slot.is_large else NO_RULE


def on_large(slot: Slot, past: BlockPast, begin: int, end: int) -> Share:
    """A large block has no tag, and ends where a page does, if it was requested with no alignment."""
    if not slot.is_plain:
        return FAR_AWAY
    if slot.is_live and meets(begin, end, -GRANULE):
        return ALWAYS.since("its header has tag 2")
    if slot.is_live:
        is_inside = 0 <= begin and end <= slot.room
        return LARGE if is_inside else GUARD if 0 <= begin < slot.room + PAGE else FAR_AWAY
    return UNMAPPED if past.since == 0 and -GRANULE <= begin < slot.room else TAKEN


def around_slot(slot: Slot, past: BlockPast, begin: int, end: int) -> "Share | None":
    """What holds whoever had the slot, and outside it."""
    if meets(begin, end, -GRANULE):
        return HEADER if slot.is_plain or slot.is_live or past.since == 0 else REUSED
    if not -PAGE <= begin <= FAR:
        return FAR_AWAY
    if begin < 0:
        return ELSEWHERE
    if slot.is_plain and meets(begin, end, slot.room):
        return HEADER
    return ELSEWHERE if slot.is_plain and begin > slot.room else None


def on_sure(error: Error, past: BlockPast, begin: int, end: int) -> Share:
    """In a slot that had no other user since: the block's own draw, or that of its free, and granules with tag 0."""
    slot = past.slot
    if not slot.is_live and begin < round_to_granule(slot.size):
        return REDRAWN
    if any(meets(begin, end, mark) for mark in slot.marks):
        return MARK
    if end <= round_to_granule(slot.size):
        return IN_PLACE if error.state == "resized" else LAST_GRANULE
    if end <= slot.drawn:
        return CUT_OFF if slot.is_live or not past.frees else GIVEN_BACK
    return LARGER_BEFORE if round_to_granule(end) <= max(slot.drawn, slot.doubtful) else REUSED


def on_reused_slot(slot: Slot, begin: int, end: int) -> Share:
    """In a slot that may have had other users since the free."""
    is_beyond = begin >= round_to_granule(slot.size) + GRANULE
    return TAKEN if is_beyond and round_to_granule(end) <= max(slot.drawn, slot.doubtful) else REUSED


def on_glibc(error: Error, size: int, past: BlockPast) -> Share:
    """`size`: of the block that the error names."""
    if error.letter == "y":
        return NEVER
    if not error.block or size > GLIBC_HEAP:
        return NOT_ON_HEAP if error.block else NO_BLOCK
    if error.state == "resized" and (not past.later or max(past.later) > GLIBC_HEAP):
        return NOT_ON_HEAP
    if error.state == "resized" and all(round_to_granule(later) == round_to_granule(size) for later in past.later):
        return SAME_POINTER
    if error.is_free():
        if error.offset or error.state == "live":
            return NO_RULE
        return FREE if error.state == "freed" and past.since == 0 else OTHER_OF_GLIBC
    begin, end = span(error, size)
    if meets(begin, end, -GRANULE) and (error.state == "live" or past.since == 0):
        return HEADER
    if not -GLIBC_BEFORE <= begin <= FAR:
        return FAR_AWAY
    chunk = max(GRANULE, round_to_granule(size))
    if error.state == "freed" and past.since == 0 and 0 <= begin < chunk + GRANULE:
        return FREE
    return live_on_glibc(past, begin, end, chunk) if error.state == "live" else OTHER_OF_GLIBC


def live_on_glibc(past: BlockPast, begin: int, end: int, chunk: int) -> Share:
    if 0 <= begin and end <= chunk:
        return LAST_GRANULE
    if past.is_aligned and 0 <= begin < chunk + GLIBC_SPARE:
        return SPARE if end <= chunk + GLIBC_SPARE else OTHER_OF_GLIBC
    if meets(begin, end, chunk):
        return PADDED if past.is_cut and end <= chunk + GRANULE else HEADER
    return FREE if chunk < begin < round_to_granule(past.cut_from) else OTHER_OF_GLIBC
