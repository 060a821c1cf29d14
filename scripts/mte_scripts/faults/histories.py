"""What the log tells of a block when an error comes, as far as the heaps of Scudo and glibc hang on it: they have places of their own, so
nothing here rests on where a block is."""

from bisect import bisect_left
from dataclasses import dataclass, field, replace
from typing import Optional

GRANULE, PAGE = 16, 4096
# Of Android's Scudo (size_class_map.h, AndroidSizeClassConfig): the bytes of each class that are left beside a header.
SCUDO_ROOMS = tuple(GRANULE * granules for granules in (
    1, 2, 3, 4, 5, 6, 8, 10, 11, 13, 17, 21, 27, 36, 49, 68, 102, 130, 160, 194, 256, 288, 444, 544, 728, 888, 1024, 1152, 1440, 1840, 2080, 4096))
UNBOUNDED = 1 << 60


def round_to_granule(size: int) -> int:
    return -(-size // GRANULE) * GRANULE


@dataclass
class Slot:
    """What Scudo gives to a request, and to all blocks that reallocs make of it in place: they have one pointer, and one draw of a tag.

    All is in bytes from the block on. `room` is what it can grow to in place. From 0 to `drawn` all granules surely got the draw, but for
    those of `marks`, which got tag 0 since; from there to `doubtful` they may have it, from a larger block that had the slot before."""

    size: int
    room: int
    doubtful: int
    is_large: bool = False  # it has pages of its own, and no class
    is_plain: bool = True  # it was requested with no alignment, so its header is where the slot begins
    is_lost: bool = False  # it is not known whether a realloc moved it
    is_live: bool = True
    drawn: int = 0
    marks: "set[int]" = field(default_factory=set)

    def takes(self, size: int) -> bool:
        """Whether a realloc to a size is made in place."""
        return size <= self.room and self.size - size < PAGE

    def resize(self, size: int) -> None:
        """Sets the tags as a realloc in place does: of what the block grows by, and of the granule after it."""
        self.marks = {mark for mark in self.marks if mark >= round_to_granule(size)} | {round_to_granule(size)}
        self.size, self.drawn = size, max(self.drawn, round_to_granule(size))


@dataclass(frozen=True)
class BlockPast:
    """Of the block of an error, when it comes."""

    slot: Slot  # of Scudo
    since: Optional[int]  # requests since the block was freed or moved; None if it is live, or where that is not known
    frees: int  # that came since then
    is_cut: bool  # it may be cut from a block that was freed
    is_aligned: bool  # it was requested with an alignment
    cut_from: int  # the size before, of a block that a realloc made, if no request came since; else 0
    later: "tuple[int, ...]"  # the sizes of the blocks that reallocs made of it since


class Histories:
    """Follows the requests, frees and reallocs of a log. `wanted`: the blocks of which Past is asked, or None for all. A small log in place
    of a large one lacks other blocks."""

    def __init__(self, wanted: "set[int] | None" = None, is_small: bool = False) -> None:
        self.wanted, self.is_small = wanted, is_small
        self.requests, self.frees, self.has_freed = 0, 0, False
        self.freed: dict[int, int] = {}  # of a room: the size of the largest block of a slot with it that was freed
        self.rooms: dict[int, int] = {}  # of a block, where it is not the one of its size
        self.slots: dict[int, Slot] = {}
        self.ended: dict[int, tuple[int, int]] = {}
        self.made: dict[int, tuple[int, int]] = {}  # of a block by realloc: the size before, and the requests then
        self.next: dict[int, int] = {}
        self.cut: set[int] = set()
        self.aligned: set[int] = set()
        self.sizes: dict[int, int] = {}

    def request(self, block: int, size: int, alignment: int = GRANULE) -> None:
        self.requests += 1
        if self.has_freed and self._is_wanted(block):
            self.cut.add(block)
        self._take(block, size, alignment)

    def leave_out(self, number: int) -> None:
        """So many requests and frees came of which nothing is known."""
        self.requests, self.frees, self.has_freed = self.requests + number + 1, self.frees + number + 1, True

    def free(self, block: int, size: int) -> None:
        self.frees, self.has_freed = self.frees + 1, True
        self._give_back(block, size)

    def resize(self, old: int, new: int, old_size: int, size: int, is_known: bool = True) -> None:
        """`is_known`: the old block was recorded."""
        self.requests, self.has_freed = self.requests + 1, True
        slot = self.slots.get(old)
        is_sure = is_known and not (slot and slot.is_lost) and old not in self.aligned
        room = self._room(old, old_size)
        if self._is_wanted(old) or self._is_wanted(new):
            self.next[old], self.made[new], self.sizes[new] = new, (old_size, self.requests), size
            self.cut.add(new)
        if not is_sure:
            self._lose(old, new, old_size, size, slot)
        elif size <= room and old_size - size < PAGE:
            if room != self._room(new, size):
                self.rooms[new] = room
            if slot:
                slot.resize(size)
                self.slots[new] = slot
        else:
            self._give_back(old, old_size)
            self._take(new, size, GRANULE)
        if self._is_wanted(old):
            self.ended[old] = self.requests, self.frees

    def past(self, block: int, is_known: bool = True) -> BlockPast:
        """`is_known`: no block is without a record."""
        requests, frees = self.ended.get(block, (None, self.frees))
        before, at = self.made.get(block, (0, -1))
        later, this = [], block
        while this in self.next:
            this = self.next[this]
            later.append(self.sizes[this])
        slot = self.slots.get(block) or Slot(0, 0, 0, is_lost=True)
        since = self.requests - requests if requests is not None and is_known else None
        # a small log lacks other blocks' requests and frees
        cut_from = before if at == self.requests and not self.is_small else 0
        copy, more_frees = replace(slot, marks=set(slot.marks)), 1 if self.is_small else self.frees - frees
        return BlockPast(copy, since, more_frees, block in self.cut, block in self.aligned, cut_from, tuple(later))

    def _is_wanted(self, block: int) -> bool:
        return self.wanted is None or block in self.wanted

    def _room(self, block: int, size: int) -> int:
        return self.rooms.get(block) or room_of(size)

    def _take(self, block: int, size: int, alignment: int) -> None:
        room = room_of(round_to_granule(size) + alignment - GRANULE) if alignment > GRANULE else room_of(size)
        if alignment > GRANULE:
            self.rooms[block] = room
            self.aligned.add(block)
        if self._is_wanted(block):
            doubtful = UNBOUNDED if self.is_small and self.has_freed else max(self.freed.get(room, 0), self.freed.get(0, 0))
            slot = Slot(size, room, min(doubtful, room), room > SCUDO_ROOMS[-1], alignment <= GRANULE)
            slot.resize(size)
            self.slots[block] = slot

    def _give_back(self, block: int, size: int) -> None:
        room = self._room(block, size)
        self.freed[room] = max(self.freed.get(room, 0), round_to_granule(size))
        if self._is_wanted(block):
            self.ended[block] = self.requests, self.frees
        if block in self.slots:
            self.slots[block].is_live = False

    def _lose(self, old: int, new: int, old_size: int, size: int, slot: "Slot | None") -> None:
        """Where it is not known whether a realloc moved a block, its slot may have any class."""
        self.freed[0] = max(self.freed.get(0, 0), round_to_granule(old_size), round_to_granule(size))
        lost = slot or Slot(size, 0, 0)
        lost.is_lost = True
        self.slots[old] = self.slots[new] = lost


def room_of(size: int) -> int:
    """The bytes that Scudo gives to a request: those of its class; to one that has pages of its own the whole granules."""
    at = bisect_left(SCUDO_ROOMS, round_to_granule(size))
    return SCUDO_ROOMS[at] if at < len(SCUDO_ROOMS) else round_to_granule(size)
