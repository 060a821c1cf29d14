"""Runs for scripts/pools: the timelines and histories that its pools have to serve, and what `mte_tool` is given of them.

A block of a pool is so many units of UNIT bytes, and OVERHEAD bytes of it hold no request. So a request of S bytes takes `units(S)`. In the
text for `mte_tool` each request stands with the size whose need is its units in granules, or twice as many where a request takes one unit,
since no class is below two granules. So each class of a table there is a pool, and the footprint F of a table is that of its pools times
16 * scale / UNIT: over every moment, since no event is added to a run or left out.

Several runs are one text: each but the last is ended by the frees of its live blocks. So at each moment the blocks of one run are live, and
the most of a class over all is the most in any run."""

import functools
from bisect import bisect_left
from collections import Counter
from collections.abc import Callable, Iterable, Iterator
from typing import NamedTuple, Union

from mte_scripts import count_texts, text_files, text_layout
from mte_scripts.entry_point import Refusal, printable
from mte_scripts.formats import GRANULE_BYTES, LARGEST_CLASS, LARGEST_SIZE, MOST_COUNT, MOST_INPUT, MOST_SNAPSHOTS
from mte_scripts.tables import figures

UNITS = (4, 8, 16, 32)
MOST_OVERHEAD = 4096


class Block(NamedTuple):
    """What a pool's block is made of, in bytes."""

    unit: int
    overhead: int

    def units(self, size: int) -> int:
        """The units of the smallest block that holds a request of so many bytes."""
        return max(1, -(-(size + self.overhead) // self.unit))

    def holds(self, units: int) -> int:
        """The largest request that a block of so many units holds."""
        return units * self.unit - self.overhead


def events_of(text: bytes) -> Iterator[list[bytes]]:
    """The events of a timeline, as lines without their newline, in pieces."""
    begin, piece = text.find(b"\n") + 1, 1 << 22
    while 0 < begin < len(text):
        end = text.find(b"\n", min(begin + piece, len(text) - 1))
        end = len(text) if end < 0 else end
        yield text[begin:end].split(b"\n")
        begin = end + 1


class Timeline:
    """A run with each of its requests and frees."""

    is_sampled = False

    def __init__(self, name: str, data: bytes) -> None:
        self.name, self.data = name, data
        self.events = set().union(*events_of(self.data))
        self.sizes = {int(event) for event in self.events if event.isdigit()}
        self.has_large = b"large" in self.events

    def text(self) -> bytes:
        """All of it, to put runs in an order that does not depend on how they are given."""
        return self.data

    def sampled_words(self) -> str:
        """What is not known of it."""
        return ""

    def most(self, holds: list[int]) -> list[int]:
        """The most blocks live at once of each pool, whose largest requests ascend; the last number is of what no pool
        holds."""
        return self.count_peaks(tuple(holds))

    @functools.lru_cache(maxsize=None)
    def count_peaks(self, holds: tuple[int, ...]) -> list[int]:
        """The same, counted."""
        places = {}
        for event in self.events:
            word = event.removeprefix(b"-")
            place = len(holds) if word == b"large" else bisect_left(holds, int(word))
            places[event] = place if event == word else ~place
        live = [0] * (len(holds) + 1)
        most = live[:]
        for piece in events_of(self.data):
            for place in map(places.__getitem__, piece):
                if place < 0:
                    live[~place] -= 1
                else:
                    live[place] += 1
                    if live[place] > most[place]:
                        most[place] = live[place]
        return most

    def map_sizes(self, given: dict[int, int], is_last: bool) -> bytes:
        """The events with each size as it is given to the program; one that IS_LAST keeps what is live at its end."""
        words = {b"large": b"large", **{b"%d" % size: b"%d" % other for size, other in given.items()}}
        words |= {b"-" + word: b"-" + other for word, other in words.items()}
        made = [b"\n".join(map(words.__getitem__, piece)) + b"\n" for piece in events_of(self.data)]
        live = Counter() if is_last else self.count_live()
        return b"".join([*made, *((b"-" + words[event] + b"\n") * count for event, count in live.items())])

    def count_live(self) -> Counter[bytes]:
        """How many blocks of each size are live at the end."""
        live: Counter[bytes] = Counter()
        for piece in events_of(self.data):
            live.update(piece)
        for event in [event for event in live if event.startswith(b"-")]:
            live[event[1:]] -= live.pop(event)
        return live


class History:
    """A run of which some moments are known."""

    is_sampled = True

    def __init__(self, name: str, history: count_texts.History) -> None:
        self.name, self.snapshots = name, history.snapshots
        self.has_large = "large" in history.counts
        self.counts = {size: counts for size, counts in history.counts.items() if size != "large"}
        self.sizes = set(self.counts)

    def text(self) -> bytes:
        return count_texts.history_text(count_texts.History(self.snapshots, self.counts)).encode()

    def sampled_words(self) -> str:
        return f" at its {self.snapshots} snapshots; what was live between them is not known"

    def most(self, holds: list[int]) -> list[int]:
        sums = self.add_up(lambda size: bisect_left(holds, size), range(len(holds) + 1))
        return [max(counts) for counts in sums.values()]

    def add_up(self, key: Callable[[int], int], keys: Iterable = ()) -> dict[int, list[int]]:
        """The counts of all sizes of one key, added up."""
        sums: dict[int, list[int]] = {each: [0] * self.snapshots for each in keys}
        for size, counts in self.counts.items():
            count_texts.add_row(sums, key(size), counts)
        return sums


Run = Union[Timeline, History]


class ToolInput(NamedTuple):
    """The text for the program: how many granules a unit stands for there, and which sizes its requests have."""

    text: bytes
    scale: int

    def bytes_of(self, footprint: int, block: Block) -> int:
        """The bytes of pools whose table has this footprint. Each footprint is a multiple; a bound is rounded up to one."""
        return -(-footprint // (GRANULE_BYTES * self.scale)) * block.unit


def read_runs(paths: list[str]) -> list[Run]:
    """The runs in these files: timelines alone, or histories alone."""
    runs = [read_run(path) for path in paths]
    names = {run.is_sampled: run.name for run in reversed(runs)}
    if len(names) > 1:
        kinds = f"{names[False]} is a timeline, and {names[True]} a history"
        raise Refusal(2, f"{kinds}: give timelines alone, or histories alone")
    if not any(run.sizes for run in runs):
        every = " and ".join(run.name for run in runs)
        raise Refusal(3, f"there is no request of at most {LARGEST_SIZE:,} bytes in {every}")
    return runs


def read_run(path: str) -> Run:
    data, name = text_files.read_some(path), printable(text_files.input_name(path))
    first = data.split(b"\n", 1)[0]
    if first == b"timeline":
        figures.refuse_timeline(data, name)
        return Timeline(name, data)
    if count_texts.is_history(data):
        return History(name, count_texts.parse_history(data, name))
    if wrong := count_texts.encoding(first):
        raise Refusal(2, f"{name}: {wrong}")
    kind = "a profile, which has no moments" if count_texts.parse_count_line(first) else "no timeline and no history"
    wanted = "`timeline` or `snapshots T` has to stand there"
    raise Refusal(2, f"{name}: line 1 is of {kind}: {wanted}, and not {text_layout.shorten_line(first)}")


def order_runs(runs: list[Run]) -> list[Run]:
    """The runs in the order in which a certificate has them: by what they are, and not by how they are given."""
    return sorted(runs, key=lambda run: run.text())


def join_runs(runs: list[Run], block: Block) -> ToolInput:
    """The text of all runs for the program, one after the other."""
    sizes = sorted(set().union(*(run.sizes for run in runs)))
    scale = 2 if block.units(sizes[0]) == 1 else 1
    if block.units(sizes[-1]) > LARGEST_CLASS // scale:
        raise Refusal(2, describe_range(sizes[0], sizes[-1], scale, block))
    given = {size: GRANULE_BYTES * scale * block.units(size) - GRANULE_BYTES for size in sizes}
    timelines = (run.map_sizes(given, run is runs[-1]) for run in runs if isinstance(run, Timeline))
    text = join_histories(runs, given) if runs[0].is_sampled else b"timeline\n" + b"".join(timelines)
    if len(text) > MOST_INPUT:
        size = f"{len(text):,} bytes, and mte_tool reads {MOST_INPUT:,}"
        raise Refusal(2, f"all runs together have {size}: leave a run out")
    return ToolInput(text, scale)


def describe_range(least: int, most: int, scale: int, block: Block) -> str:
    """Why the program has no class for the largest request, and what helps."""
    units, limit = block.units(most), LARGEST_CLASS // scale
    text = f"a request of {most:,} bytes takes {units:,} units of {block.unit} bytes, and the limit is {limit:,} units"
    if scale == 2:
        text += f" where a request takes one unit, as one of {least:,} bytes does"
    for unit in UNITS:
        if unit > block.unit and Block(unit, block.overhead).units(most) <= LARGEST_CLASS // 2:
            return f"{text}: take --unit {unit}"
    return f"{text}: leave such requests out of the timeline, and give them memory of their own"


def join_histories(runs: list, given: dict[int, int]) -> bytes:
    """The snapshots of all side by side, as if one run came after the other."""
    snapshots = sum(run.snapshots for run in runs)
    if snapshots > MOST_SNAPSHOTS:
        merge = "merge them by `merge_profiles` first"
        raise Refusal(2, f"the histories have {snapshots:,} snapshots, and mte_tool reads {MOST_SNAPSHOTS:,}: {merge}")
    sums = [(run.add_up(given.__getitem__), [0] * run.snapshots) for run in runs]
    sizes = sorted(set().union(*(own for own, _ in sums)))
    rows = {size: [count for own, none in sums for count in own.get(size, none)] for size in sizes}
    for counts in rows.values():
        if max(counts) > MOST_COUNT:
            blocks = f"{max(counts):,} blocks of one size in units"
            raise Refusal(2, f"{blocks} are more than {MOST_COUNT:,}, the most of a history")
    return count_texts.history_text(count_texts.History(snapshots, rows)).encode()
