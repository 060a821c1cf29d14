"""The records of heaptrack: each request with its exact size, and each free, in their order."""

import re
from array import array
from collections import Counter

from mte_scripts import text_layout
from mte_scripts.recording import timelines
from mte_scripts.recording.imports import import_result
from mte_scripts.recording.imports.import_result import FREED, LARGE, ImportResult, counter_of, number
from mte_scripts.recording.imports.source import Source, Wrong

NAME = "heaptrack"
WHAT = "a record of heaptrack, packed or not, raw or not"
KINDS = (import_result.ALL, import_result.LIVE, import_result.TIMELINE, import_result.HISTORY)

BEGIN = re.compile(rb"\Av( [0-9a-f]+){1,2}(\n|\Z)")
MOST_EVENTS = 1 << 27
MOST_ALLOCATIONS = MOST_LIVE = 1 << 24  # sizes with a stack; blocks that are live at once, of a raw record
MOST_KNOWN = 1 << 20  # lines
MOST_SIZE = 1 << 60


class Run:
    """The events so far, and what is live."""

    def __init__(self) -> None:
        self.sizes = array("Q")  # of the allocations, by their numbers
        self.known: dict = {}  # the event and the bytes that a line adds, of lines that say the same each time
        self.addresses: dict = {}  # the sizes of live blocks, of a raw record, whose lines name them by their addresses
        self.events = array("H")
        self.live = [0] * (LARGE + 1)
        self.bytes = self.peak = self.peak_at = self.unknown = 0
        self.is_attached = self.has_end = False

    def add(self, code: int, amount: int) -> None:
        if code & FREED:
            self.live[code & ~FREED] -= 1
            if self.live[code & ~FREED] < 0:
                raise ValueError
        else:
            self.live[code] += 1
        self.events.append(code)
        self.bytes += amount
        if self.bytes > self.peak:
            self.peak, self.peak_at = self.bytes, len(self.events)

    def take(self, line: bytes) -> None:
        """Takes a line that is not known."""
        mark = line[:1]
        if mark == b"A":
            self.is_attached = True
        elif mark == b"#":
            self.has_end = self.has_end or line.startswith(b"# strings: ")
        elif mark in (b"a", b"+", b"-"):
            words = [int(word, 16) for word in line[2:].split(b" ")]
            if mark == b"a":
                self.add_allocation(words[0])
            elif self.sizes:
                (place,) = words
                made = event(self.sizes[place], mark == b"-")
                if len(self.known) < MOST_KNOWN:
                    self.known[line] = made
                self.add(*made)
            else:
                self.take_raw(words, mark == b"-")

    def add_allocation(self, size: int) -> None:
        if len(self.sizes) == MOST_ALLOCATIONS:
            raise Wrong(f"it has more than {MOST_ALLOCATIONS:,} sizes with a stack")
        self.sizes.append(check_size(size))

    def take_raw(self, words: list, is_free: bool) -> None:
        if not is_free:
            size, _, address = words
            if len(self.addresses) == MOST_LIVE:
                raise Wrong(f"more than {MOST_LIVE:,} of its blocks are live at once")
            self.addresses[address] = check_size(size)
            self.add(*event(size, False))
        elif words[0] in self.addresses:
            self.add(*event(self.addresses.pop(words[0]), True))
        else:
            self.unknown += 1


def check_size(size: int) -> int:
    if size > MOST_SIZE:
        raise ValueError
    return size


def event(size: int, is_free: bool) -> tuple:
    """An event as timelines.py has it, and the bytes that it adds."""
    code = counter_of(size)
    return (code | FREED, -size) if is_free else (code, size)


def read(source: Source, kind: str) -> ImportResult:
    run, at = Run(), 0
    for lines in source.lines():
        for line in lines:
            at += 1
            try:
                if line in run.known:
                    run.add(*run.known[line])
                else:
                    run.take(line)
            except (ValueError, IndexError):
                raise Wrong(
                    f"line {at} is no event of heaptrack, or frees what is not live: {text_layout.shorten_line(line)}"
                ) from None
        if len(run.events) > MOST_EVENTS:
            raise Wrong(f"it has more than {MOST_EVENTS:,} requests and frees")
    if source.ends_in_line:
        raise Wrong("it ends inside a line: it was cut off")
    if not run.events:
        raise Wrong("it has no request: nothing was recorded, or the file was cut off")
    return count_run(run, kind)


def count_run(run: Run, kind: str) -> ImportResult:
    codes = timelines.count(run.events)
    counts = (
        timelines.live_at(run.events, codes, [run.peak_at])[run.peak_at]
        if kind == import_result.LIVE
        else timelines.requests(codes)
    )
    events = f"{len(run.events):,} requests and frees"
    told = [f"heaptrack: {events}. Each size is exact; that of an aligned block is without its alignment"]
    if run.is_attached:
        told.append("! it was attached to a process that ran already: the blocks from before are not in it")
    if run.sizes and not run.has_end:
        told.append("! it has not the last lines of heaptrack's records: if it was cut off, events are missing")
    if run.unknown:
        told.append(f"! {number(run.unknown, 'free')} of blocks that are not in it are left out")
    return ImportResult(kind, Counter(counts), told, run.events, run.peak_at)
