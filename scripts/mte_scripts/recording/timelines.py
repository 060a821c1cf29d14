"""What a timeline's text says of moments. shims/passes.c reads it, and goes over its events."""

import bisect
import functools
import itertools
from array import array
from collections.abc import Callable, Iterable, Iterator
from typing import Any

from mte_scripts import count_texts, private_folder
from mte_scripts.formats import LARGEST_CLASS, LARGEST_SIZE, MOST_INPUT

FREED, SIZE = 1 << 15, (1 << 14) - 1  # the parts of an event
CODES = 1 << 16  # more than each event's number
PIECE = 1 << 20  # events
LARGE = LARGEST_SIZE + 1
MOST_TEXT = MOST_INPUT - (1 << 20)  # in bytes: a command takes a table or a fit beside it


def counts_by_size(by_counter: dict) -> dict:
    """What counters have, by size, with `large` as the word."""
    return {"large" if size == LARGE else size: found for size, found in by_counter.items() if found}


@functools.lru_cache(maxsize=None)
def event_lines() -> list[bytes]:
    """The line of each event, by its number."""
    sizes = [b"%d\n" % size for size in range(LARGE)] + [b"large\n"]
    requests = sizes + [b""] * (FREED - len(sizes))
    return requests + [b"-" + line for line in sizes]


def text_of(events: array) -> Iterator[bytes]:
    """The timeline of these events, in pieces."""
    yield b"timeline\n"
    for at in range(0, len(events), PIECE):
        yield b"".join(map(event_lines().__getitem__, events[at : at + PIECE]))


def need_of(size: int) -> int:
    """The least class that serves a size, in granules."""
    return max(-(-size // 16), 1) + 1


# ---- over the events of a run


@functools.lru_cache(maxsize=None)
def passes() -> Any:
    """The functions of shims/passes.c."""
    import ctypes  # these two are for a run alone

    from mte_scripts.recording import recording

    with private_folder.temporary_folder() as work:
        return ctypes.CDLL(recording.make("passes", work)), ctypes


def pass_over(name: str, events: array, begin: int, end: int, *others: array) -> None:
    """Has a function go over a part of the events, with these arrays."""
    functions, ctypes = passes()
    at = [events.buffer_info()[0] + begin * events.itemsize, *(each.buffer_info()[0] for each in others)]
    first, *rest = map(ctypes.c_void_p, at)
    getattr(functions, name)(first, ctypes.c_long(end - begin), *rest)


def zeros(kind: str, number: int) -> array:
    return array(kind, [0]) * number


def count(events: array) -> dict[int, int]:
    """How often each event comes."""
    times = zeros("I", CODES)
    pass_over("count", events, 0, len(events), times)
    return {code: times[code] for code in itertools.compress(range(CODES), times)}


def requests(codes: dict[int, int]) -> dict[int, int]:
    """How often each size is requested."""
    return {code: times for code, times in codes.items() if code < FREED}


def live_at(events: array, codes: Iterable[int], moments: Iterable[int]) -> dict[int, dict[int, int]]:
    """The live blocks at these ascending moments, each the number of events before it. All events have one of these numbers."""
    sizes, times, begin, found = {code & SIZE for code in codes}, zeros("I", CODES), 0, {}
    for moment in moments:
        pass_over("count", events, begin, moment, times)
        live = {size: times[size] - times[size | FREED] for size in sizes}
        begin, found[moment] = moment, {size: blocks for size, blocks in live.items() if blocks}
    return found


def by_code(kind: str, of_size: Callable[[int], int], codes: Iterable[int]) -> array:
    """How much each of these events adds to an amount. Large blocks have none."""
    amounts = zeros(kind, CODES)
    for size in {code & SIZE for code in codes} - {LARGE}:
        amounts[size], amounts[size | FREED] = of_size(size), -of_size(size)
    return amounts


def peaks(events: array, codes: Iterable[int]) -> list[int]:
    """The moments at which a class of 16 bytes has more blocks than at any before, in the order of time."""
    live, most, at = (zeros("q", LARGEST_CLASS + 1) for _ in range(3))
    pass_over("raise_most", events, 0, len(events), by_code("h", need_of, codes), live, most, at)
    return sorted(filter(None, at))


def history_of(moments: dict) -> count_texts.History:
    """The moments in the order of time, but for those that have no block."""
    live = [counts_by_size(moments[at]) for at in sorted(moments) if moments[at]]
    sizes = set().union(*live)
    return count_texts.History(len(live), {size: [each.get(size, 0) for each in live] for size in sizes})


# ---- a timeline as a text that `mte_tool` takes


class Read:
    """A timeline's events."""

    def __init__(self, text: bytes, events: array) -> None:
        self.text, self.events = text, events

    @functools.cached_property
    def codes(self) -> dict[int, int]:
        """How often each event comes."""
        return count(self.events)


# the last one, since more than one thing is asked of it
last = Read(b"", array("H"))


def read(text: bytes) -> Read:
    global last
    if last.text != text:
        events, (functions, ctypes) = zeros("H", text.count(b"\n") + 1), passes()
        number = functions.read_events(ctypes.c_char_p(text), ctypes.c_long(len(text)), ctypes.c_void_p(events.buffer_info()[0]))
        if number < 0:
            raise ValueError("a line of the timeline is no event")
        del events[number:]
        last = Read(text, events)
    return last


def parse_events(text: bytes) -> array:
    """The events of a timeline."""
    return read(text).events


def history_at(text: bytes, moments: list) -> count_texts.History:
    """The blocks that are live at these ascending moments, each the number of events before it."""
    run = read(text)
    return history_of(live_at(run.events, run.codes, moments))


def requests_of(text: bytes) -> dict:
    """The profile of all requests."""
    return counts_by_size(requests(read(text).codes))


def place_in(classes: list) -> Callable[[int], int]:
    """The class of a table that serves a size, by its place from 1; where none does, the place after them."""
    return lambda size: bisect.bisect_left(classes, need_of(size)) + 1


def peak_of(text: bytes, amount: Callable[[int], int] = int) -> tuple[int, int]:
    """The most of all live blocks, each with an amount of its size, and the first moment of so many. Large blocks have none."""
    run, found = read(text), zeros("q", 2)
    pass_over("most", run.events, 0, len(run.events), by_code("q", amount, run.codes), found)
    return found[0], found[1]


def heights(text: bytes, classes: list, parts: int) -> list[list[int]]:
    """The most live blocks of each class of a table in each of so many equal parts of a timeline, or of fewer where it has fewer events.
    What the table does not serve is left out."""
    run, rows = read(text), []
    groups, number = by_code("h", place_in(classes), run.codes), len(run.events)
    live, at = zeros("q", len(classes) + 2), zeros("q", len(classes) + 2)
    ends = [number * part // min(parts, number) for part in range(min(parts, number) + 1)]
    for begin, end in zip(ends, ends[1:]):
        most = array("q", live)
        pass_over("raise_most", run.events, begin, end, groups, live, most, at)
        rows.append(list(most[1:-1]))
    return rows
