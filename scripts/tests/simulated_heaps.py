"""Scudo's and glibc's tags by their rules alone, with random places, and random programs on them: scripts/tests/test_odds.py counts what they catch.

A granule has a tag and, times TAGS, the number of the draw that gave it, or 0."""

import itertools

from mte_scripts.faults import histories, other_heaps
from mte_scripts.faults.fault_log import Error

GRANULE, TAGS = 16, 16


class Block:
    """A block of a program on a simulated heap: its pointer's tag, its size, and what became of it."""

    def __init__(self, number, size, place, tag):
        self.number, self.size, self.place, self.tag, self.state = number, size, place, tag, "live"


class Scudo:
    """One region of blocks of one class, which take any free block. A granule of a header, then the chunk."""

    GRANULES, BLOCKS = 6, 24

    def __init__(self, chance):
        self.chance, self.tags, self.draws = chance, [0] * self.GRANULES * self.BLOCKS, itertools.count(1)
        self.sizes = [None] * self.BLOCKS  # of the last chunk of each block; None where its header is 0
        self.free_blocks = list(range(self.BLOCKS))

    def largest(self):
        return (self.GRANULES - 1) * GRANULE

    def draw(self, at, *excluded):
        allowed = [tag for tag in range(1, TAGS) if tag % 2 != at % 2 and tag not in excluded]
        return self.chance.choice(allowed) + TAGS * next(self.draws)

    def end(self, at, size):
        return at * self.GRANULES + 1 + -(-size // GRANULE)

    def mark(self, at, size):
        if self.end(at, size) < (at + 1) * self.GRANULES:
            self.tags[self.end(at, size)] = 0

    def give(self, size):
        """(where the chunk begins, its tag), or None."""
        if not self.free_blocks:
            return None
        at = self.free_blocks.pop(self.chance.randrange(len(self.free_blocks)))
        start, before = at * self.GRANULES + 1, self.sizes[at]
        tag = self.tags[start]
        if before is None or not tag:
            tag, before = self.draw(at), 0
        for granule in range(self.end(at, before), self.end(at, size)):
            self.tags[granule] = tag
        self.mark(at, size)
        self.sizes[at] = size
        return start, tag

    def take_back(self, block):
        at = block.place // self.GRANULES
        tag = self.draw(at, block.tag % TAGS)
        for granule in range(block.place, self.end(at, block.size)):
            self.tags[granule] = tag
        if self.free_blocks and self.chance.random() < 0.1:  # the page of another free block goes back to the system
            other = self.chance.choice(self.free_blocks)
            self.tags[other * self.GRANULES : (other + 1) * self.GRANULES] = [0] * self.GRANULES
            self.sizes[other] = None
        self.free_blocks.append(at)

    def resize(self, block, size):
        """The tag of the block that takes its place, or None where it moves."""
        at = block.place // self.GRANULES
        for granule in range(self.end(at, block.size), self.end(at, size)):
            self.tags[granule] = block.tag
        self.mark(at, size)
        self.sizes[at] = size
        return block.tag

    def share(self, error, block, past):
        return other_heaps.on_scudo(error, block.size, past)


class Glibc:
    """Chunks side by side: a granule of a header, then the block. A free one is cut, unless what is left is too small for a chunk."""

    GRANULES = 400

    def __init__(self, chance):
        self.chance, self.tags, self.draws = chance, [0] * self.GRANULES, itertools.count(1)
        self.chunks = {0: (self.GRANULES, True)}  # of where each begins: (granules, whether it is free)

    def largest(self):
        return 200

    def granules(self, size):
        return 1 + max(1, -(-size // GRANULE))

    def give(self, size):
        wanted = self.granules(size)
        fits = [start for start, (granules, is_free) in self.chunks.items() if is_free and granules >= wanted]
        if not fits:
            return None
        start = self.chance.choice(fits)
        return start + 1, self.cut(start, wanted)

    def cut(self, start, wanted):
        granules = self.chunks[start][0]
        if granules - wanted >= 2:
            self.chunks[start + wanted] = (granules - wanted, True)
            self.colour(start + wanted, granules - wanted, 0)
            granules = wanted
        self.chunks[start] = (granules, False)
        tag = self.chance.randrange(1, TAGS) + TAGS * next(self.draws)
        self.colour(start + 1, granules - 1, tag)
        self.tags[start] = 0
        return tag

    def colour(self, start, granules, tag):
        self.tags[start : start + granules] = [tag] * granules

    def take_back(self, block):
        start = block.place - 1
        granules, _ = self.chunks[start]
        self.colour(start, granules, 0)
        self.chunks[start] = (granules, True)
        merged = {}
        for begin in sorted(self.chunks):
            last = next(reversed(merged), None)
            if last is not None and merged[last][1] and self.chunks[begin][1]:
                merged[last] = (merged[last][0] + self.chunks[begin][0], True)
            else:
                merged[begin] = self.chunks[begin]
        self.chunks = merged

    def resize(self, block, size):
        if self.chunks[block.place - 1][0] < self.granules(size):
            return None
        return self.cut(block.place - 1, self.granules(size))

    def share(self, error, block, past):
        return other_heaps.on_glibc(error, block.size, past)


def simulate(heap, chance, steps, found):
    """A random program. Counts in `found`, for each share, state of the block and case: the wrong accesses and those that are caught."""
    live, dead, seen = [], [], histories.Histories()
    for number in range(1, steps):
        does = chance.random()
        if does < 0.3:
            size = chance.choice([0, 1, 16, 48, chance.randint(0, heap.largest())])
            given = heap.give(size) if size <= heap.largest() else None
            if given:
                seen.request(number, size)
                live.append(Block(number, size, *given))
        elif does < 0.5 and live:
            block = live.pop(chance.randrange(len(live)))
            heap.take_back(block)
            seen.free(block.number, block.size)
            block.state = "freed"
            dead.append(block)
        elif does < 0.6 and live:
            block = live.pop(chance.randrange(len(live)))
            size = chance.randint(1, heap.largest() if chance.random() < 0.3 else max(block.size, 1))
            tag = heap.resize(block, size)
            if tag is None:
                live.append(block)
                continue
            seen.resize(block.number, number, block.size, size)
            live.append(Block(number, size, block.place, tag))
            block.state = "resized"
            dead.append(block)
        for block in [chance.choice(each) for each in (live, dead[-30:]) if each]:
            access(heap, chance, block, seen, found)


def access(heap, chance, block, seen, found):
    places = [-16, -1, 0, block.size, block.size + 16, block.size + 32, chance.randint(-200, 300)]
    offset, length = chance.choice(places), chance.choice([1, 4, 16, 40])
    if block.state == "live" and 0 <= offset and offset + length <= block.size:
        return
    error = Error("L", block.number, offset, length, 0, block.state)
    begin, length = error.window(block.size)
    granules = range(block.place + begin // GRANULE, block.place + (begin + length - 1) // GRANULE + 1)
    if granules[0] < 0 or granules[-1] >= len(heap.tags):
        return
    met = [heap.tags[granule] for granule in granules]
    case = "no tag" if 0 in met else "its own draw" if set(met) == {block.tag} else "other draws"
    found[heap.share(error, block, seen.past(block.number)), block.state, case, any((tag - block.tag) % TAGS for tag in met)] += 1
