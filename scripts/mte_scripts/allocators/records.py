"""What a program requested of its allocator: a timeline, a history or a profile, and what its live blocks come to."""

import hashlib
import io
import itertools
from collections.abc import Iterator

from mte_scripts import count_texts, text_files
from mte_scripts.entry_point import Refusal, printable
from mte_scripts.formats import LARGEST_SIZE, MOST_COUNT
from mte_scripts.tables import figures


class Record:
    """A record of this name: of a timeline the DATA, else the counts of each size at some moments, of a profile at one.
    SIZES were requested, but for large ones."""

    def __init__(self, kind: str, name: str, data: bytes, counts: "dict[int, list[int]]") -> None:
        self.kind, self.name, self.data, self.counts = kind, name, data, counts
        self.lines = set().union(*self.events()) if kind == "timeline" else {b"%d" % size for size in counts}
        self.sizes = sorted(int(line) for line in self.lines if line.isdigit())

    @property
    def digest(self) -> str:
        return hashlib.sha256(self.data).hexdigest()

    def has_one_moment(self) -> bool:
        """Whether it has no order of time, as a profile has none."""
        return self.kind != "timeline" and all(len(counts) == 1 for counts in self.counts.values())

    def events(self) -> "Iterator[list[bytes]]":
        """The events of a timeline, in pieces."""
        for piece in count_texts.whole_lines(io.BytesIO(self.data[self.data.find(b"\n") + 1 :]), self.name, b""):
            yield piece[:-1].split(b"\n")

    def most(self, amount: "dict[int, int]") -> int:
        """The most of all live blocks together at a moment, each with the amount of its size, the others with 0."""
        if self.kind != "timeline":
            rows = [[amount.get(size, 0) * count for count in counts] for size, counts in self.counts.items()]
            return max(map(sum, zip(*rows)), default=0)
        weights = dict.fromkeys(self.lines, 0)
        for size, each in amount.items():
            weights |= {b"%d" % size: each, b"-%d" % size: -each}
        most = live = 0
        for events in self.events():
            sums = list(itertools.accumulate(map(weights.__getitem__, events), initial=live))
            most, live = max(most, max(sums)), sums[-1]
        return most

    def replace_sizes(self, size_of: "dict[int, int]", more: "dict[int, int]") -> bytes:
        """The same with other sizes, without those that have none; and with more blocks of sizes, live all the time."""
        if self.kind == "timeline":
            words = dict.fromkeys(self.lines, b"")
            for size, other in size_of.items():
                words |= {b"%d" % size: b"%d\n" % other, b"-%d" % size: b"-%d\n" % other}
            first = b"".join(b"%d\n" % size * count for size, count in more.items())
            pieces = (b"".join(map(words.__getitem__, events)) for events in self.events())
            return b"".join([b"timeline\n", first, *pieces])
        snapshots = len(next(iter(self.counts.values())))
        rows: "dict[int, list[int]]" = {size: [count] * snapshots for size, count in more.items()}
        for size in size_of.keys() & self.counts.keys():
            count_texts.add_row(rows, size_of[size], self.counts[size])
        return count_texts.history_text(count_texts.History(snapshots, rows)).encode()


def read_record(path: str, name: str) -> Record:
    """The record in a file, which is called NAME."""
    data = text_files.read_some(path, if_empty=3)
    if count_texts.is_timeline(data):
        figures.refuse_timeline(data, printable(name))
        record = Record("timeline", name, data, {})
    elif count_texts.is_history(data):
        counts = count_texts.parse_history(data, name).counts
        record = Record("history", name, data, {size: each for size, each in counts.items() if size != "large"})
    else:
        counts = count_texts.parse_profile(data, name)
        sized = {size: [count] for size, count in counts.items() if count and size != "large"}
        record = Record("profile", name, data, sized)
    if any(count > MOST_COUNT for counts in record.counts.values() for count in counts):
        raise Refusal(2, f"{printable(name)}: a count is above {MOST_COUNT:,}, the most that a text may have")
    if not record.sizes:
        none = f"no request of at most {LARGEST_SIZE:,} bytes: there is nothing to tune"
        raise Refusal(3, f"{printable(name)} has {none}")
    return record
