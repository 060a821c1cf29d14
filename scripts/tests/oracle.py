"""A second opinion on the commands over counts, written from docs/FORMATS.md alone: by plain search, for small inputs.

    answer("check", text)                  (status, standard output, standard error), as the program has to give them
    answer("tune", text, limit=8, step=2)

`fit` over a timeline and `check-fit` of one are judged by `least` and `cost_of`, since their moments are the fitter's own. Traces are read, and
not replayed."""

import re
from typing import NamedTuple, Optional

from mte_scripts.formats import LARGEST_SIZE as LARGEST

MOST, MOST_COUNT = 1024, 10**9
NUMBER = re.compile(rb"0|[1-9][0-9]*")
NAMES = {23: "BadLine", 20: "TooMany", 21: "OutOfRange", 22: "NotAscending", 30: "BadLine", 31: "NotAscending", 32: "CountOutOfRange",
         34: "BadSnapshots", 35: "WrongLength", 37: "BadTimeline", 38: "NotLive", 48: "BadSheet", 36: "BadFit", 39: "OffStep", 40: "OverLimit",
         41: "NotServing", 42: "WasteWrong", 43: "Shape", 44: "LastClass", 45: "StageDrop", 46: "Edge", 47: "NotTight", 49: "FootprintWrong",
         53: "NotMoments", 70: "BadWord", 71: "BadNumber", 72: "OutOfRange", 73: "LineTooLong"}


class Fault(Exception):
    def __init__(self, code: int, line: int) -> None:
        super().__init__(f"error {code} {NAMES[code]} line {line}\n")


class Counts(NamedTuple):
    """Sizes, and of each its numbers: one of a profile, or the live blocks at each moment."""

    sizes: "list[int]"
    numbers: "list[list[int]]"
    is_profile: bool
    events: int = -1  # of a timeline


class Sheet(NamedTuple):
    classes: "list[int]"
    limit: int
    step: int
    is_forced: bool
    cost: int
    rows: "list[list[int]]"
    lines: int


def lines_of(text: bytes) -> "list[bytes]":
    rows = text.split(b"\n")
    return rows if rows[-1] else rows[:-1]


def number(word: bytes) -> "Optional[int]":
    return int(word) if NUMBER.fullmatch(word) else None


# ---- reading

def class_line(rows: "list[bytes]") -> "list[int]":
    words = rows[0].split(b" ") if rows else [b""]
    found = [number(word) for word in words[1:]]
    if words[0] != b"classes" or None in found:
        raise Fault(23, 1)
    if len(found) > 32:
        raise Fault(20, 1)
    for at, each in enumerate(found):
        if not 2 <= each <= MOST:
            raise Fault(21, 1)
        if at and each <= found[at - 1]:
            raise Fault(22, 1)
    return found


def count_rows(rows: "list[bytes]", first: int, places: "Optional[int]") -> "tuple[list[int], list[list[int]]]":
    """The lines of a profile, or of a history of so many snapshots."""
    sizes: "list[int]" = []
    numbers: "list[list[int]]" = []
    is_over, last = False, -1
    for line, row in enumerate(rows, first):
        word, *rest = row.split(b" ")
        size, found = number(word), [number(each) for each in rest]
        is_large = word == b"large"
        if is_over or not is_large and (size is None or size > LARGEST) or None in found or places is None and len(found) != 1:
            raise Fault(30, line)
        if places is not None and len(found) != places:
            raise Fault(35, line)
        if not is_large and size <= last:
            raise Fault(31, line)
        if max(found) > MOST_COUNT or not any(found):
            raise Fault(32, line)
        if is_large:
            is_over = True
        else:
            last = size
            sizes.append(size), numbers.append(found)
    return sizes, numbers


def profile(rows: "list[bytes]", first: int) -> Counts:
    return Counts(*count_rows(rows, first, None), True)


def history(rows: "list[bytes]", first: int) -> Counts:
    words = rows[0].split(b" ") if rows else [b""]
    places = number(words[1]) if len(words) == 2 else None
    if words[0] != b"snapshots" or places is None or not 1 <= places <= 1024:
        raise Fault(34, first)
    return Counts(*count_rows(rows[1:], first + 1, places), False)


def timeline(rows: "list[bytes]", first: int) -> Counts:
    live: "dict[int, int]" = {}
    moments: "list[dict[int, int]]" = [{}]
    for line, row in enumerate(rows[1:], first + 1):
        is_free, word = row.startswith(b"-"), row.removeprefix(b"-")
        size = LARGEST + 1 if word == b"large" else number(word)
        if size is None or size > LARGEST and word != b"large":
            raise Fault(37, line)
        if is_free and not live.get(size):
            raise Fault(38, line)
        live[size] = live.get(size, 0) + (-1 if is_free else 1)
        moments.append(dict(live))
    sizes = sorted(size for size in live if size <= LARGEST)
    return Counts(sizes, [[moment.get(size, 0) for moment in moments] for size in sizes], False, len(moments) - 1)


def over_time(rows: "list[bytes]", first: int) -> Counts:
    return timeline(rows, first) if rows and rows[0] == b"timeline" else history(rows, first)


def sheet(rows: "list[bytes]", word: str) -> Sheet:
    code = 48 if word == "waste" else 36
    at = 0

    def value(name: str) -> "Optional[int]":
        words = rows[at].split(b" ") if at < len(rows) else []
        return number(words[1]) if len(words) == 2 and words[0] == name.encode() else None

    try:
        classes = class_line(rows)
    except Fault:
        raise Fault(code, 1) from None
    at = 1
    limit = value("limit")
    if limit is None or not 1 <= limit <= 32:
        raise Fault(code, 2)
    at, step, is_forced = 2, value_of(rows, 2, b"step"), False
    if step is not None:
        if step not in (b"2", b"4", b"8"):
            raise Fault(code, 3)
        at = 3
    if at < len(rows) and rows[at] == b"forced 1024":
        at, is_forced = at + 1, True
    cost = value(word)
    if cost is None or cost >= 2**64:
        raise Fault(code, at + 1)
    at += 1
    found: "list[list[int]]" = []
    while at < len(rows) and rows[at].split(b" ")[0] == b"row":
        row = [number(each) for each in rows[at].split(b" ")[1:]]
        if len(found) == 32 or None in row or len(row) > 1023 or any(each >= 2**64 for each in row):
            raise Fault(code, at + 1)
        found.append(row)
        at += 1
    return Sheet(classes, limit, int(step or 1), is_forced, cost, found, at)


def value_of(rows: "list[bytes]", at: int, name: bytes) -> "Optional[bytes]":
    """The second word of a line of two whose first is this; any other line that begins with it has no value that is right."""
    words = rows[at].split(b" ") if at < len(rows) else []
    return None if not words or words[0] != name else words[1] if len(words) == 2 else b""


# ---- what a table costs

def need_of(size: int, step: int) -> int:
    granules = max(2, -(-size // 16) + 1)
    return -(-granules // step) * step


def class_of(size: int, classes: "list[int]") -> "Optional[int]":
    return next((each for each in classes if 16 * each - 16 >= size), None)


def cost_of(counts: Counts, classes: "list[int]") -> "tuple[Optional[int], int]":
    """The waste or the footprint of a table, and 0; or None and the least size that it does not serve."""
    blocks: "dict[int, list[int]]" = {}
    waste = 0
    for size, numbers in zip(counts.sizes, counts.numbers):
        found = class_of(size, classes)
        if found is None:
            return None, size
        waste += numbers[0] * (16 * found - 16 - size)
        blocks[found] = [sum(both) for both in zip(blocks.get(found, [0] * len(numbers)), numbers)]
    return (waste if counts.is_profile else sum(16 * each * max(numbers) for each, numbers in blocks.items())), 0


class Needs:
    """The distinct needs of what is counted, and what one class costs on a run of them."""

    def __init__(self, counts: Counts, step: int, is_forced: bool) -> None:
        self.counts, self.step = counts, step
        sizes = [*counts.sizes, *[LARGEST] * is_forced]
        self.needs = sorted({need_of(size, step) for size in sizes})
        self.known: "dict[tuple[int, int], int]" = {}

    def one_class(self, begin: int, end: int) -> int:
        """What a class costs on the requests whose need has a place from begin on, and before end."""
        if (begin, end) not in self.known:
            of = set(self.needs[begin:end])
            chosen = [at for at, size in enumerate(self.counts.sizes) if need_of(size, self.step) in of]
            part = self.counts._replace(sizes=[self.counts.sizes[at] for at in chosen], numbers=[self.counts.numbers[at] for at in chosen])
            self.known[begin, end] = cost_of(part, [self.needs[end - 1]])[0] or 0
        return self.known[begin, end]

    def best(self, limit: int) -> "list[list[tuple[int, tuple[int, ...]]]]":
        """Of each number of classes, from 1 on, and each place: the least cost on what comes from there on, and the first of its tables."""
        last = len(self.needs)
        rows: "list[list]" = []
        for k in range(limit):
            row: "list" = [(0, ())] * (last + 1)
            for at in range(last):
                ends = range(at + 1, last + 1) if k else [last]
                tries = []
                for end in ends:
                    cost, table = rows[k - 1][end] if k else (0, ())
                    tries.append((self.one_class(at, end) + cost, (self.needs[end - 1], *table)))
                row[at] = min(tries)
            rows.append(row)
        return rows


def least(counts: Counts, limit: int, step: int = 1, is_forced: bool = False) -> int:
    rows = Needs(counts, step, is_forced).best(limit)
    return rows[-1][0][0]


# ---- the commands

def broken_condition(found: Sheet, counts: Counts) -> int:
    """The first condition that a sheet or a fit breaks, or 0."""
    needs = Needs(counts, found.step, found.is_forced)
    places = len(needs.needs)
    cost, _ = cost_of(counts, found.classes)
    if any(each % found.step for each in found.classes):
        return 39
    if len(found.classes) > found.limit:
        return 40
    if cost is None or found.is_forced and class_of(LARGEST, found.classes) is None:
        return 41
    if cost != found.cost:
        return 42 if counts.is_profile else 49
    if len(found.rows) != found.limit or any(len(row) != places for row in found.rows):
        return 43
    if any(each > needs.one_class(at, places) for at, each in enumerate(found.rows[0])):
        return 44
    pairs = list(zip(found.rows, found.rows[1:]))
    if any(each > above for before, row in pairs for each, above in zip(row, before)):
        return 45
    for before, row in pairs:
        for at, each in enumerate(row):
            if any(each > needs.one_class(at, end) + (before[end] if end < places else 0) for end in range(at + 1, places + 1)):
                return 46
    return 47 if places and found.rows[-1][0] != found.cost else 0


def check_text(text: bytes, word: str) -> "tuple[int, str, str]":
    rows = lines_of(text)
    found = sheet(rows, word)
    read = profile if word == "waste" else history
    code = broken_condition(found, read(rows[found.lines :], found.lines + 1))
    return (1, f"refused {code} {NAMES[code]}\n", "") if code else (0, "optimal\n", "")


def tune_answer(counts: Counts, limit: int, step: int, is_forced: bool) -> "tuple[int, str, str]":
    needs = Needs(counts, step, is_forced)
    best = needs.best(limit)
    cost, table = best[-1][0]
    head = [" ".join(map(str, ("classes", *table))), f"limit {limit}", *[f"step {step}"] * (step > 1), *["forced 1024"] * is_forced]
    rows = [" ".join(map(str, ("row", *(each for each, _ in row[:-1])))) for row in best]
    return 0, "\n".join([*head, f"{'waste' if counts.is_profile else 'footprint'} {cost}", *rows, ""]), ""


def cost_answer(text: bytes, word: str) -> "tuple[int, str, str]":
    rows = lines_of(text)
    classes = class_line(rows)
    counts = (profile if word == "waste" else over_time)(rows[1:], 2)
    cost, size = cost_of(counts, classes)
    return (0, f"{word} {cost}\n", "") if cost is not None else (1, f"not serving {size}\n", "")


def peaks_answer(text: bytes) -> "tuple[int, str, str]":
    rows = lines_of(text)
    classes = class_line(rows)
    if rows[1:2] != [b"timeline"]:
        raise Fault(37, 2)
    counts = timeline(rows[1:], 2)
    if cost_of(counts, classes)[0] is None:
        return 1, f"not serving {cost_of(counts, classes)[1]}\n", ""
    blocks = {each: [0] * (counts.events + 1) for each in classes}
    for size, numbers in zip(counts.sizes, counts.numbers):
        found = class_of(size, classes)
        blocks[found] = [sum(both) for both in zip(blocks[found], numbers)]
    most = [max(blocks[each]) for each in classes]
    firsts = [blocks[each].index(peak) for each, peak in zip(classes, most)]
    live = max(sum(16 * each * blocks[each][at] for each in classes) for at in range(counts.events + 1))
    freed = max(sum(max(blocks[each][: at + 1]) - blocks[each][at] for each in classes) for at in range(counts.events + 1))
    return 0, "".join(" ".join(map(str, row)) + "\n" for row in (("peaks", *most), ("moments", *firsts), ("live", live), ("freed", freed))), ""


EVENTS = {b"malloc": "VN", b"calloc": "VN", b"realloc": "VN", b"free": "V", b"load": "VOL", b"store": "VOLH", b"addg": "VVGT", b"subg": "VVGT"}
RANGES = {"V": (0, 1023), "N": (0, 2**31 - 1), "O": (-(2**20), 2**20), "L": (1, 64), "G": (0, 63), "T": (0, 15), "H": (0, 255)}


def event(row: bytes, line: int) -> "tuple[bytes, list[int]]":
    if len(row) > 80:
        raise Fault(73, line)
    name, *words = row.split(b" ")
    if name not in EVENTS or len(words) != len(EVENTS[name]) or b"" in words:
        raise Fault(70, line)
    values = []
    for kind, word in zip(EVENTS[name], words):
        if kind == "H":
            value = int(word, 16) if re.fullmatch(rb"[0-9a-f]{2}", word) else None
        elif kind == "O" and word.startswith(b"-"):
            value = number(word[1:])
            value = -value if value else None
        else:
            value = number(word)
        if value is None:
            raise Fault(71, line)
        low, high = RANGES[kind]
        if not low <= value <= high:
            raise Fault(72, line)
        values.append(value)
    return name, values


def profile_answer(text: bytes) -> "tuple[int, str, str]":
    found: "dict[int, int]" = {}
    for line, row in enumerate(lines_of(text), 1):
        name, values = event(row, line)
        if EVENTS[name] == "VN":
            size = min(values[1], LARGEST + 1)
            found[size] = found.get(size, 0) + 1
    return 0, "".join(f"{'large' if size > LARGEST else size} {count}\n" for size, count in sorted(found.items())), ""


def answer(command: str, text: bytes, limit: int = 1, step: int = 1, largest_class: int = 0) -> "tuple[int, str, str]":
    try:
        if command in ("score", "footprint"):
            return cost_answer(text, "waste" if command == "score" else "footprint")
        if command in ("check", "check-fit"):
            return check_text(text, "waste" if command == "check" else "footprint")
        if command in ("profile", "peaks"):
            return profile_answer(text) if command == "profile" else peaks_answer(text)
        return tune_answer((profile if command == "tune" else history)(lines_of(text), 1), limit, step, bool(largest_class))
    except Fault as fault:
        return 2, "", str(fault)
