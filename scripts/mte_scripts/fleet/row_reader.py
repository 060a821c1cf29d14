"""Reads the rows of a fleet piece by piece, and keeps of each key the load that counts, packed: 2 million rows take some 40 MB.

Loads with one key differ by their number. The greatest counts, whatever came first. Rows with one number are of one load, however often
it came and however much was cut of it: of equal rows the one with the greatest count is whole. Of different weights the greatest counts.

Rows without a number, or with 0, are as earlier releases wrote them. Where they stand in the order of moment and size, as they were
written, a load that comes again shows by a row that isn't above the one before. The last one counts, unless it is a cut copy of an
earlier one. Rows in another order count by themselves: the last of those that are equal but for their counts."""

import array
import functools
import itertools
import re
from collections import Counter
from collections.abc import Iterable, Iterator
from typing import BinaryIO, NamedTuple, Optional

from mte_scripts import count_texts, text_files
from mte_scripts.entry_point import Refusal
from mte_scripts.fleet import rows, suspicions
from mte_scripts.fleet.rows import LARGE, Key
from mte_scripts.fleet.suspicions import Suspicion, Suspicions
from mte_scripts.text_files import PIECE

PAIR = rb"(?:[0-9]{1,5}|large)\t[1-9][0-9]{0,17}"
# rows whose first fields are the same, up to the moment
RUN = re.compile(
    rb"((?:[^\t\n]{1,800}\t){3}[0-9-]{10}\t(?:[0-9]{1,18}\t)?[0-9]{1,10}\t[0-9]{1,4}\t)(%(p)s)\n((?:\1%(p)s\n)*)" % {b"p": PAIR}
)
KNOWN = 1 << 12  # heads of rows, and 16 times the columns of sizes, that are read once
LONG_LINE = 5_000  # bytes of a line: no row has so many


class Part(NamedTuple):
    """Rows of a load at one moment in the order of their sizes: the sizes as numbers of two bytes, and the counts as words."""

    moment: int
    sizes: bytes
    counts: bytes

    def pairs(self) -> "Iterator[tuple[int, int]]":
        return zip(unpack_sizes(self.sizes), map(int, self.counts.split()))


class PackedLoad(NamedTuple):
    """Rows of one load in the order of moment and size."""

    number: int
    weight: int
    parts: "list[Part]"

    def unpack(self) -> "tuple[int, dict[int, dict]]":
        """Its weight, and at each moment the count of each size."""
        moments: "dict[int, dict]" = {}
        for part in self.parts:
            counts = moments.setdefault(part.moment, {})
            counts.update(part.pairs())
            if LARGE in counts:
                counts["large"] = counts.pop(LARGE)
        return self.weight, moments

    def cells(self) -> "dict[tuple[int, int], int]":
        return {(part.moment, size): count for part in self.parts for size, count in part.pairs()}

    def is_before(self, moment: int, size: int) -> bool:
        """Whether this may be its next row, by the order."""
        last = self.parts[-1]
        return (last.moment, unpack_sizes(last.sizes[-2:])[0]) < (moment, size)


def pack_sizes(sizes: "Iterable[int]") -> bytes:
    return array.array("H", sizes).tobytes()


def unpack_sizes(sizes: bytes) -> "array.array[int]":
    found = array.array("H")
    found.frombytes(sizes)
    return found


def pack_load(number: int, weight: int, cells: dict) -> PackedLoad:
    """A load of these cells."""
    parts = []
    for moment, found in itertools.groupby(sorted(cells.items()), lambda each: each[0][0]):
        sizes, counts = zip(*((size, b"%d" % count) for (_, size), count in found))
        parts.append(Part(moment, pack_sizes(sizes), b" ".join(counts)))
    return PackedLoad(number, weight, parts)


@functools.lru_cache(KNOWN)
def read_head(text: bytes) -> "Optional[tuple[bytes, int, int, int]]":
    """The key as bytes, load, weight and moment of the first fields of rows; None if something is wrong with them."""
    try:
        if text.startswith(rows.BOM) or count_texts.binary(text):
            return None
        key, load, weight, moment = rows.parse_head([*text.decode().split("\t")[:-1], "0", "0"])
    except (Suspicion, UnicodeDecodeError):
        return None
    return "\t".join(key).encode(), load, weight, moment


@functools.lru_cache(1 << 17)  # more than there are words of at most five digits
def size_of(word: bytes) -> int:
    return LARGE if word == b"large" else int(word)


@functools.lru_cache(KNOWN // 16)
def pack_column(words: tuple) -> "Optional[list[tuple[int, int, bytes]]]":
    """Sizes in pieces that are in order, with their begin and end, as they are packed; None if not all are in range."""
    sizes = [*map(size_of, words)]
    if max(sizes) > LARGE:
        return None
    ends = [*(at for at in range(1, len(sizes)) if sizes[at] <= sizes[at - 1]), len(sizes)]
    return [(first, last, pack_sizes(sizes[first:last])) for first, last in zip([0, *ends], ends)]


class Store:
    """The loads of all files that it has read, and their suspicions."""

    def __init__(self, found: "Optional[Suspicions]" = None) -> None:
        self.suspicions = found or Suspicions()
        self.loads: "dict[bytes, list[PackedLoad]]" = {}  # of a key; more than one only of one number
        self.older: "set[tuple[bytes, int]]" = set()
        self.waiting: "dict[bytes, bytearray]" = {}  # by the first fields of their rows
        self.is_resolved = False

    def read_files(self, paths: "Iterable[str]") -> None:
        """The rows of these files, `-` for standard input."""
        for path in paths:
            with text_files.open_input(path) as file:
                self.read_rows(file, path)

    def read_rows(self, file: BinaryIO, path: str, begin: bytes = b"") -> None:
        """The rows of an open file; what was read of it already is BEGIN."""
        rest, at = begin, 1
        while piece := text_files.next_piece(file, path):
            data = rest + piece
            end = data.rfind(b"\n") + 1
            at += self.add_lines(data, end, path, at)
            rest = data[end:] if len(data) - end < PIECE else data[end : end + LONG_LINE]
        end = rest.rfind(b"\n") + 1
        at += self.add_lines(rest, end, path, at)
        if rest[end:]:
            self.suspicions.add_row(Suspicion("a line without its end: the file is cut there"), path, at, rest[end:])

    def add_lines(self, data: bytes, end: int, path: str, at: int) -> int:
        """The lines up to END, of which the first is AT; how many there are."""
        first, place = at, 0
        while place < end:
            match = RUN.match(data, place, end)
            stop = match.end() if match else data.index(b"\n", place) + 1
            number = self.add_run(match) if match else 0
            if not number:  # something is wrong, or in no order
                lines = data[place : stop - 1].split(b"\n")
                number = len(lines)
                given = ((each, line, (line, each)) for each, line in enumerate(lines, at))
                for key, load, weight, moment, size, count in self.suspicions.keep_good(path, given, rows.parse_row):
                    sizes, counts = pack_sizes([size]), b"%d" % count
                    self.add_part("\t".join(key).encode(), load, weight, moment, sizes, counts)
            at, place = at + number, stop
        return at - first

    def add_run(self, match: re.Match) -> int:
        """Rows with the same first fields; how many, or 0 where they have to be read one by one."""
        begin = match[1]
        pairs = match[2] + b"\n" + match[3].replace(begin, b"")
        if (begin in self.waiting or not match[3]) and self.keep_waiting(begin, pairs):
            return pairs.count(b"\n")
        return self.add_pairs(begin, pairs.split())

    def add_pairs(self, begin: bytes, words: "list[bytes]") -> int:
        """The same of rows with these first fields, and these sizes and counts."""
        fields, pieces, counts = read_head(begin), pack_column(tuple(words[::2])), words[1::2]
        if fields is None or pieces is None:
            return 0
        for first, last, sizes in pieces:
            self.add_part(*fields, sizes, b" ".join(counts[first:last]))
        return len(counts)

    def keep_waiting(self, begin: bytes, pairs: bytes) -> bool:
        """Keeps a row that comes by itself until all are there, as where rows are in no order; not one that is wrong, nor
        of a load without a number, of which the order counts. Whether it is kept."""
        if max(map(size_of, pairs.split()[::2])) > LARGE:
            return False
        if begin not in self.waiting:
            fields = read_head(begin)
            if fields is None or not fields[1]:
                return False
            self.loads.setdefault(fields[0], [])
            self.waiting[begin] = bytearray()
        self.waiting[begin] += pairs
        return True

    def add_waiting(self) -> None:
        """The rows that are kept, those of each load in the order of their sizes, and of equal ones as they came."""
        for begin in [*self.waiting]:
            words = bytes(self.waiting.pop(begin)).split()
            order = sorted(range(0, len(words), 2), key=lambda at: size_of(words[at]))
            self.add_pairs(begin, [word for at in order for word in words[at : at + 2]])

    def add_part(self, key: bytes, number: int, weight: int, moment: int, sizes: bytes, counts: bytes) -> None:
        """Rows of one load in the order of their sizes."""
        loads, part = self.loads.setdefault(key, []), Part(moment, sizes, counts)
        last = loads[-1] if loads else PackedLoad(-1, 0, [])
        if number < last.number:
            self.older.add((key, number))
        elif (number, weight) == last[:2] and last.is_before(moment, unpack_sizes(sizes[:2])[0]):
            last.parts.append(part)
        else:
            if loads and number > last.number:
                self.older.add((key, last.number))
                loads.clear()
            loads.append(PackedLoad(number, weight, [part]))

    def items(self) -> "list[tuple[Key, PackedLoad]]":
        """Each key with the load that counts."""
        if not self.is_resolved:
            self.is_resolved = True
            self.add_waiting()
            self.suspicions.repeats[suspicions.AGAIN] += len(self.older)
            for loads in self.loads.values():
                if len(loads) > 1:
                    loads[:] = [merge_loads(loads, self.suspicions)]
        return [(Key(*key.decode().split("\t")), loads[0]) for key, loads in self.loads.items()]


def merge_loads(loads: "list[PackedLoad]", found: Suspicions) -> PackedLoad:
    """The load of runs of rows, each in order, that have one key and one number."""
    last = loads[-1]
    if last.number:
        return merge_parts(loads, found)
    cells = [each.cells() for each in loads]
    often = max(Counter(itertools.chain(*cells)).values())
    if often == len(loads):
        found.repeats[suspicions.AGAIN] += often - 1
        whole = [at for at, each in enumerate(cells) if loads[at].weight == last.weight and cells[-1].items() <= each.items()]
        return loads[max(whole, key=lambda at: (len(cells[at]), at))]
    found.loads[suspicions.MIXED] += often > 1 or any(each.weight != last.weight for each in loads)
    merged: dict = {}
    for each, own in zip(loads, cells):
        if each.weight == last.weight:
            merged.update(own)
    return pack_load(0, last.weight, merged)


def merge_parts(loads: "list[PackedLoad]", found: Suspicions) -> PackedLoad:
    """The rows of one load, that came in several parts or several times: of each moment and size the greatest count, of the greatest
    weight, whatever came first."""
    weight = max(each.weight for each in loads)
    merged: dict = {}
    for each in loads:
        own = each.cells()
        if each.weight != weight:
            found.loads[suspicions.UNLIKE] += len(own)
            continue
        for cell, count in own.items():
            found.loads[suspicions.UNLIKE] += merged.get(cell, count) != count
            merged[cell] = max(merged.get(cell, 0), count)
    return pack_load(loads[0].number, weight, merged)


def read_rows(paths: "Iterable[str]", found: "Optional[Suspicions]" = None) -> Store:
    """The loads in files of rows; there is one."""
    store = Store(found)
    store.read_files(paths)
    if not store.loads:
        raise store.suspicions.refuse_all("row", Refusal(3, "there is no row: did the query that prints them fail?"))
    return store
