"""What an importer makes of a file: counts by size, or the events of a run."""

from array import array
from collections import Counter
from typing import Optional

from mte_scripts.claims import count_text as number
from mte_scripts.recording import timelines

ALL, LIVE, TIMELINE, HISTORY = "all", "live", "timeline", "history"
FREED, LARGE = timelines.FREED, timelines.LARGE


class ImportResult:
    """Counts by size, of all requests or of live blocks, or events; and sentences on what the file tells of sizes and what not."""

    def __init__(self, kind: str, counts: Counter, told: list, events: Optional[array] = None, peak_at: int = 0) -> None:
        self.kind, self.counts, self.told, self.events, self.peak_at = kind, counts, told, events, peak_at


MANY = 100  # a share of one in so many is worth a warning
MISSED = "a size that the sample missed is not there, so a table tuned for it may lose more than the default: sample more often"


def counter_of(size: int) -> int:
    """A size as a key of the counts: all large ones are one."""
    return size if size < LARGE else LARGE


class Buckets:
    """Blocks of which only the number and the bytes of several together are known: those of one stack. Each counts at their average, or at
    the next size above it, so that the sum stays."""

    def __init__(self) -> None:
        self.counts: Counter = Counter()
        self.blocks = self.bytes = self.stacks = self.mixed = self.empty = 0

    def add(self, blocks: int, total: int, share: float = 1.0) -> None:
        """BLOCKS of TOTAL bytes, which were SHARE of what they stand for."""
        if not blocks:
            self.empty += total
            return
        size, above = divmod(total, blocks)
        weight = blocks if share == 1.0 else max(round(blocks / share), 1)
        rest = above if share == 1.0 else round(weight * above / blocks)
        self.take(size, weight - rest)
        self.take(size + 1, rest)
        self.stacks += 1
        self.blocks += weight
        self.bytes += size * weight + rest
        if above:
            self.mixed += weight

    def take(self, size: int, blocks: int) -> None:
        if blocks:
            self.counts[counter_of(size)] += blocks

    def told(self, what: str) -> list:
        """What is known of the sizes."""
        blocks = f"{number(self.blocks, 'block')} of {number(self.bytes, 'byte')} at {number(self.stacks, 'stack')}"
        lines = [f"{what}: {blocks}. Each block counts at the average of its stack: exact where all blocks of a stack have one size"]
        if self.mixed:
            of = "are not exact: their stacks have blocks of several sizes. A table tuned for the averages may save little"
            mark = "! " if self.mixed * MANY > self.blocks else ""
            lines.append(f"{mark}at least {number(self.mixed, 'block')}, {100 * self.mixed / self.blocks:.1f}%, {of}")
        if self.empty:
            lines.append(f"! {number(self.empty, 'byte')} are at stacks without a number of blocks, and are left out")
        return lines
