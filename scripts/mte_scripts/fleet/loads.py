"""What a table has to serve: the profile, the history or the timeline of a file, or what the machines of a program counted on a day.
And what a table takes there, in bytes of blocks: by a profile all requests with their headers and what rounding loses, else the
footprint, over several machines the sum of each one's by itself, times its weight."""

import bisect
import copy
import operator
import os
import struct
import sys
from collections.abc import Iterable
from typing import Any, Optional

from mte_scripts import claim_words, count_texts, text_files
from mte_scripts.entry_point import Refusal, printable
from mte_scripts.fleet import caps, row_reader, rows
from mte_scripts.formats import LARGEST_SIZE
from mte_scripts.recording import timelines
from mte_scripts.tables import figures

GRANULE = figures.GRANULE
WORD = 8  # bytes of a number that struct reads
SPARSE = 16  # times the sizes of a machine: so many in a load are packed anew each time


class Places:
    """Where each size of a load has its field in a number that holds the blocks of all sizes, so that one sum adds them
    up. No field overflows, as no sum is above MOST."""

    def __init__(self, sizes: "list[int]", most: int) -> None:
        self.wide = max(most.bit_length() // 8 + 1, WORD)
        self.length = self.wide * len(sizes)
        self.begins = dict(zip(sizes, range(0, self.length, self.wide)))

    def pack(self, counts: "dict[int, int]") -> int:
        data = bytearray(self.length)
        for size, count in counts.items():
            begin = self.begins[size]
            data[begin : begin + self.wide] = count.to_bytes(self.wide, "little")
        return int.from_bytes(data, "little")

    def unpack(self, number: int) -> "dict[int, int]":
        """The counts that are not 0."""
        data = number.to_bytes(self.length, "little")
        if self.wide == WORD:
            words = struct.unpack(f"<{len(self.begins)}Q", data)
            return {size: count for size, count in zip(self.begins, words) if count}
        fields = ((size, data[begin : begin + self.wide]) for size, begin in self.begins.items())
        return {size: int.from_bytes(field, "little") for size, field in fields if any(field)}


class Member:
    """A machine's history, or a timeline of which some moments are known; and for how many machines it stands."""

    def __init__(self, weight: int, history: count_texts.History, timeline: Optional[bytes] = None) -> None:
        self.weight, self.timeline = weight, timeline
        self.set_history(history)

    def set_history(self, history: count_texts.History) -> None:
        """These moments, with sums from which the blocks of a span of needs follow."""
        self.history = history
        self.counts = {size: counts for size, counts in history.counts.items() if size != "large"}
        by_need: dict[int, list] = {}
        for size, counts in self.counts.items():
            count_texts.add_row(by_need, timelines.need_of(size), counts)
        self.needs = sorted(by_need)
        self.sums = [[0] * history.snapshots]
        for need in self.needs:
            self.sums.append(list(map(operator.add, self.sums[-1], by_need[need])))
        self.most: int = max((max(counts) for counts in history.counts.values()), default=0)
        self.known_peaks: "dict[tuple[int, int], tuple[int, int]]" = {}
        self.packed: "dict[int, int]" = {}

    def multiply(self, number: int) -> "Member":
        """The same, standing for so many times as many machines."""
        found = copy.copy(self)
        found.weight *= number
        return found

    def sizes(self) -> set:
        """The sizes of which it has blocks, at whatever moment."""
        counts = self.counts if self.timeline is None else timelines.requests_of(self.timeline)
        return counts.keys() - {"large"}

    def peaks(self, classes: list) -> "list[tuple[int, int]]":
        """For each class of a table the most of its blocks at a moment, and the first moment of so many."""
        ends = [bisect.bisect_right(self.needs, each) for each in classes]
        return [self.peak(begin, end) if end > begin else (0, 0) for begin, end in zip([0, *ends], ends)]

    def peak(self, begin: int, end: int) -> "tuple[int, int]":
        """The same of a class that serves the needs from one place up to another; as many are kept as there are
        counts."""
        if (begin, end) not in self.known_peaks:
            if len(self.known_peaks) >= len(self.needs) * self.history.snapshots:
                self.known_peaks.clear()
            counts = list(map(operator.sub, self.sums[end], self.sums[begin]))
            self.known_peaks[begin, end] = max(counts), counts.index(max(counts))
        return self.known_peaks[begin, end]

    def footprint(self, classes: list) -> int:
        """Of a table that serves it: at each class the block times the most of its blocks at a moment."""
        if self.timeline is not None:
            return figures.footprint(classes, self.timeline)
        return self.known_footprint(classes)

    def known_footprint(self, classes: list) -> int:
        """The same, at the moments that are known."""
        return sum(GRANULE * each * most for each, (most, _) in zip(classes, self.peaks(classes)))

    def add_moments(self, classes: list) -> None:
        """Of a timeline: also the moments at which the classes of this table have the most blocks."""
        if self.timeline is None or self.known_footprint(classes) == self.footprint(classes):
            return
        more = timelines.history_at(self.timeline, figures.peaks(classes, self.timeline).moments_of_peaks())
        both = [(each.counts, [0] * each.snapshots) for each in (self.history, more)]
        sizes = {**self.history.counts, **more.counts}
        counts = {size: [count for own, none in both for count in own.get(size, none)] for size in sizes}
        self.set_history(count_texts.History(self.history.snapshots + more.snapshots, counts))

    def count_bound(self) -> int:
        """No size has more blocks at any moment."""
        return self.most if self.timeline is None else self.timeline.count(b"\n")

    def pack_moment(self, moment: int, places: Places) -> int:
        """The live blocks at a moment, as they are packed for its load; that is kept where the load has not many more
        sizes."""
        if moment in self.packed:
            return self.packed[moment]
        live = places.pack({size: row[moment] for size, row in self.counts.items() if row[moment]})
        if len(places.begins) <= SPARSE * len(self.history.counts):
            self.packed[moment] = live
        return live


class Load:
    """A profile, or the members of which each has a history or a timeline."""

    def __init__(self, name: str, kind: str, counts: Optional[dict] = None, members: Iterable[Member] = (), text: bytes = b"",
                 program: str = "", day: str = "", places: Optional[Places] = None) -> None:
        self.name, self.kind, self.program, self.day = name, kind, program, day or name
        self.text = text  # what a certificate can be of as it stands, where it is not empty
        self.members = list(members)
        served = {size: count for size, count in (counts or {}).items() if size != "large" and count}
        self.counts = dict(sorted(served.items()))
        self.sizes = sorted(set(self.counts).union(*(member.sizes() for member in self.members)))
        if not any(self.sizes):
            raise Refusal(3, f"{name}: {figures.NOTHING}")
        # of a profile, what every table takes: headers and requests
        self.fixed = sum((GRANULE + size) * count for size, count in self.counts.items())
        self.machines = sum(member.weight for member in self.members)
        self.known_columns: dict[tuple, list] = {}
        # also of its machines drawn anew, of which one may be there as often as there are machines
        self.places = places or Places(self.sizes, self.count_bound() * len(self.members))
        self.hosts: list = []  # of rows, what each machine counted
        self.capped, self.cap = 0, 0  # how many machines are cut, and at how many times the median

    def replace_machines(self, counts: Optional[dict] = None, members: Iterable[Member] = ()) -> "Load":
        """The same of machines that are drawn anew of its own."""
        return Load(self.name, self.kind, counts, members, b"", self.program, self.day, self.places)

    def cap_words(self) -> str:
        """How its counts came of the rows, for a claim."""
        return claim_words.capped_words(self.capped, self.cap)

    def unserved_size(self, classes: list) -> Optional[int]:
        """The least size here that a table does not serve, None where it serves all."""
        above = bisect.bisect_right(self.sizes, GRANULE * classes[-1] - GRANULE if classes else -1)
        return self.sizes[above] if above < len(self.sizes) else None

    def cost(self, classes: list) -> Optional[int]:
        """What a table takes, in bytes; None where it does not serve all sizes."""
        if self.unserved_size(classes) is not None:
            return None
        if self.kind != "profile":
            return sum(member.weight * member.footprint(classes) for member in self.members)
        return sum(figures.block_of(classes, size) * count for size, count in self.counts.items())

    def peak_columns(self, classes: list) -> list:
        """For each class of a table, by size, the blocks of all members, each at its own moment of the most blocks of
        the class, times its weight; none where it has no block. So over these columns this table takes what it takes
        over the members, and no table takes more."""
        key = tuple(classes)
        if key not in self.known_columns:
            sums = [0] * len(classes)
            for member in self.members:
                member.add_moments(classes)
                for at, (most, moment) in enumerate(member.peaks(classes)):
                    if most:
                        sums[at] += member.weight * member.pack_moment(moment, self.places)
            self.known_columns[key] = [*map(self.places.unpack, sums)]
        return self.known_columns[key]

    def count_bound(self) -> int:
        """A count that none of these columns, or of the profile, is above."""
        return max([*self.counts.values(), sum(member.weight * member.count_bound() for member in self.members)])


def read_loads(paths: Iterable[str], cap: int = caps.MOST) -> list[Load]:
    """The loads of files: of rows one for each program and day, and of such a file's profiles and histories each, with
    each machine capped."""
    found: list[Load] = []
    store = row_reader.Store()
    for path in paths:
        with text_files.open_input(path) as file:
            begin = text_files.next_piece(file, path)
            if rows.is_rows(begin):
                store.read_rows(file, path, begin)
                continue
            data = begin + text_files.next_piece(file, path, None)
        if not data:
            raise Refusal(3, f"{text_files.input_name(path)} is empty: did the command that writes it fail?")
        found.append(load_of_text(data, path))
    capped = caps.cap_machines(store.items(), cap)
    for (program, day), records in rows.group_records(capped.found, ("program", "day")):
        for load in loads_of_records(program, day, records):
            load.capped, load.cap = capped.count_over(caps.Group(program, day, load.kind != "profile")), cap
            found.append(load)
    capped.note_machines(caps.cut_words(cap), store.suspicions)
    store.suspicions.say_all(sys.argv[0])
    if not found:
        nothing = Refusal(2, "name a profile, a history, a timeline or rows; --help says more")
        raise store.suspicions.refuse_all("row", nothing)
    return found


def load_of_text(data: bytes, path: str) -> Load:
    """Of a file that is no text of rows. Its folder is the program, where it lies in one, and its name the day."""
    of: "dict[str, Any]" = {"program": os.path.basename(os.path.dirname(path))}
    of["day"] = figures.without_ending(path, ".profile", ".history", ".timeline")
    shown = printable(text_files.input_name(path))
    if count_texts.is_timeline(data):
        figures.refuse_timeline(data, shown)
        return Load(shown, "timeline", members=[Member(1, count_texts.History(0, {}), data)], text=data, **of)
    if count_texts.is_history(data):
        history = count_texts.parse_history(data, shown)
        if not history.counts.keys() - {"large"}:
            raise Refusal(3, f"{shown} counts no block of at most {LARGEST_SIZE:,} bytes")
        return Load(shown, "history", members=[Member(1, history)], text=text_of(history), **of)
    profile = count_texts.parse_profile(data, path)
    return Load(shown, "profile", profile, text=text_of(profile), **of)


def text_of(found: "dict | count_texts.History") -> bytes:
    """The text of a profile or a history in its one form; empty where a text can't have its counts."""
    if count_texts.divisor_of(found) > 1:
        return b""
    return (count_texts.history_text(found) if isinstance(found, count_texts.History) else count_texts.profile_text(found)).encode()


def loads_of_records(program: str, day: str, records: list) -> list[Load]:
    """What the machines of a program counted on a day: their profiles together, and their histories."""
    name, found = printable(f"{program} {day}"), []
    of: "dict[str, Any]" = {"program": program, "day": day}
    profile = rows.sum_profiles(each.unpack() for each in records)
    if any(size != "large" for size in profile):
        found.append(Load(name, "profile", profile, **of))
    if members := [Member(*each) for each in rows.histories_of(each.unpack() for each in records)]:
        found.append(Load(f"{name} over time" if found else name, "histories", members=members, **of))
    for load in found:
        load.hosts = list(records)
    return found
