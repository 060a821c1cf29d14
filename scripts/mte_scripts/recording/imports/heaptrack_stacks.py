"""The records of heaptrack with the code that made each request, as recording/sites.py has a run: each of heaptrack's allocations is a size with
a stack."""

from array import array
from collections.abc import Iterable, Iterator, Mapping
from typing import NamedTuple

from mte_scripts.entry_point import Refusal
from mte_scripts.recording.calls import Frame, plain
from mte_scripts.recording.imports import heaptrack
from mte_scripts.recording.imports.import_result import counter_of
from mte_scripts.recording.imports.source import Source, Wrong

DEEP = 128  # calls of a stack that are kept, as the recorder keeps; the outermost are left out
MOST_NAME = 1 << 12  # characters of a name that are kept
MOST_TEXT, MOST_FRAMES = 1 << 28, 1 << 22  # characters of all names; calls of all places


class Record(NamedTuple):
    """As Sites; a stack is the number of its trace, and the frames of a trace are made of the lists."""

    events: array
    sizes: array
    traces: array
    parents: "tuple[array, array]"  # of a trace: its place, and the trace that it was called from
    places: list[tuple[Frame, ...]]

    def frames(self, site: int) -> tuple[Frame, ...]:
        """The calls of a site, the innermost first."""
        found: list[Frame] = []
        trace, (places, callers) = self.traces[site], self.parents
        while trace and len(found) < DEEP:
            found += self.places[places[trace]]
            trace = callers[trace]
        return tuple(found[:DEEP])

    def stacks(self, sites: Iterable[int]) -> "Stacks":
        return Stacks(self, list(sites))


class Stacks(Mapping):
    """The calls of sites, which are made anew each time: all at once take a hundred times what the record takes."""

    def __init__(self, record: Record, sites: list[int]) -> None:
        self.record, self.sites = record, sites

    def __getitem__(self, site: int) -> tuple[Frame, ...]:
        return self.record.frames(site)

    def __iter__(self) -> Iterator[int]:
        return iter(self.sites)

    def __len__(self) -> int:
        return len(self.sites)


class Lines(dict):
    """The event of each line that has one, twice its allocation and 1 for a free; else -1, and what the line says is kept."""

    def __init__(self, has_lengths: bool) -> None:
        super().__init__()
        self.has_lengths = has_lengths
        self.sizes, self.traces = array("I"), array("I")
        self.texts, self.names, self.parents = [""], dict[int, str](), (array("I", [0]), array("I", [0]))
        self.places: list[tuple[Frame, ...]] = [()]
        self.characters = self.number_of_frames = 0

    def __missing__(self, line: bytes) -> int:
        mark, rest = line[:1], line[2:]
        if mark in b"+-ati" and b"-" in rest:
            raise ValueError("a number has a sign")
        if mark in (b"+", b"-"):
            event = int(rest, 16) << 1 | (mark == b"-")
            if len(self) < heaptrack.MOST_KNOWN:
                self[line] = event
            return event
        if mark == b"a":
            size, trace = (int(word, 16) for word in rest.split(b" "))
            self.sizes.append(counter_of(size))
            self.traces.append(trace)
        elif mark == b"t":
            place, parent = (int(word, 16) for word in rest.split(b" "))
            self.parents[0].append(place)
            self.parents[1].append(parent)
        elif mark == b"i":
            self.places.append(self.frames_at([int(word, 16) for word in rest.split(b" ")]))
            self.number_of_frames += len(self.places[-1])
        elif mark == b"s":
            self.texts.append((rest.split(b" ", 1)[1] if self.has_lengths else rest)[:MOST_NAME].decode(errors="replace"))
            self.characters += len(self.texts[-1])
        return -1

    def refuse_many(self) -> None:
        """Refuses a record that describes more than is kept."""
        most = heaptrack.MOST_ALLOCATIONS
        if max(len(self.sizes), len(self.parents[0]), len(self.places), len(self.texts)) > most:
            raise Wrong(f"it has more than {most:,} sizes with a stack, calls or names")
        if self.characters > MOST_TEXT or self.number_of_frames > MOST_FRAMES:
            raise Wrong(f"its names have more than {MOST_TEXT:,} characters, or its places more than {MOST_FRAMES:,} calls")

    def name(self, at: int) -> str:
        """The name of a function without its parameters."""
        if at not in self.names:
            self.names[at] = plain(self.texts[at])
        return self.names[at]

    def frames_at(self, words: list[int]) -> tuple[Frame, ...]:
        """The frames of an address, the innermost inlined one first."""
        module = self.texts[words[1]].rsplit("/", 1)[-1] if len(words) > 1 and words[1] else "an unknown object"
        if len(words) < 3:
            return (Frame(f"0x{words[0]:x} in {module}", "", 0),)
        if len(words) == 3:
            return (Frame(f"{self.name(words[2])} in {module}", "", 0),)
        inner = range(2, min(len(words) - 2, 2 + 3 * DEEP), 3)
        return tuple(Frame(self.name(words[at]), self.texts[words[at + 1]], words[at + 2]) for at in inner)


def read(path: str) -> Record:
    """The record of a file; refused where it is none, is damaged, or has no names."""
    with Source(path) as source:
        head = source.begin(1 << 10)
        if not heaptrack.BEGIN.search(head):
            raise Refusal(2, f"{source.name} is no record of heaptrack, of which --who takes one")
        version = head.split(b"\n", 1)[0].split()
        known, found = Lines(len(version) > 2 and int(version[2], 16) >= 3), array("I")
        try:
            for lines in source.lines():
                found.extend(event for event in map(known.__getitem__, lines) if event >= 0)
                known.refuse_many()
                if len(found) > heaptrack.MOST_EVENTS:
                    raise Wrong(f"it has more than {heaptrack.MOST_EVENTS:,} requests and frees")
        except (ValueError, IndexError, OverflowError):
            raise Refusal(
                2,
                f"{source.name} has a line that is none of heaptrack's, or is raw: `heaptrack_interpret` makes one "
                "with names",
            ) from None
        except Wrong as wrong:
            raise Refusal(2, f"{source.name}: {wrong}") from None
    if source.ends_in_line:
        raise Refusal(2, f"{source.name} ends inside a line: it was cut off")
    if len(known.texts) < 2 or not known.sizes or not found:
        raise Refusal(
            2, f"{source.name} has no stacks with names: is it raw? `heaptrack_interpret` makes one that has"
        )
    if max(found) >> 1 >= len(known.sizes) or max(known.traces) >= len(known.parents[0]):
        raise Refusal(2, f"{source.name} has a request that it does not describe: is it damaged?")
    if any(place >= len(known.places) or parent >= at for at, (place, parent) in enumerate(zip(*known.parents)) if at):
        raise Refusal(2, f"{source.name} has a stack that it does not describe: is it damaged?")
    return Record(found, known.sizes, known.traces, known.parents, known.places)

