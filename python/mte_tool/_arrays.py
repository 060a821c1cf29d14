"""The same over numbers. Sizes are in bytes, 0 to 16,368; classes in granules of 16 bytes, 2 to 1,024, ascending. Of an entry that is
refused Error.at is the index, in the order of the sizes. Numbers come from any sequence; those of a buffer, as of array.array or numpy, are
taken without a Python object that stays for each."""

import array
import ctypes
from ctypes import c_uint8, c_uint16, c_uint32, c_uint64
from typing import Any, Iterable, List, Mapping, NamedTuple, Optional, Sequence

from mte_tool import _c, _calls
from mte_tool._calls import Cost, Verdict
from mte_tool._codes import Code, End

MOST_CLASSES, MOST_NEEDS, MOST_MOMENTS = 32, 1023, 1024
STEPS = (1, 2, 4, 8)
LETTERS = {c_uint8: "B", c_uint16: "H", c_uint32: "I", c_uint64: "Q"}
FLAGS = "?"  # a buffer of what is true or not


class Table(NamedTuple):
    """A table with its certificate."""

    #: in granules of 16 bytes, ascending
    classes: List[int]
    #: what it wastes, or takes of memory, in bytes
    bytes: int
    #: its certificate, as many rows as the limit
    rows: List[List[int]]
    #: of a timeline the moments that the certificate names, each by the events before it
    moments: List[int]
    #: False only of a timeline, and then there is no certificate
    is_least: bool
    #: if it is not shown to be least: no table takes less than these bytes
    bound: int


def buffer_of(numbers: Any) -> "memoryview | None":
    """What a buffer holds; None of what is no buffer."""
    try:
        view = memoryview(numbers)
    except TypeError:
        return None
    if view.ndim != 1:
        raise ValueError(f"the numbers have {view.ndim} dimensions, and not one")
    return view


def numbers_of(kind: Any, numbers: Iterable[int]) -> Any:
    """An array of C. A number that it can't hold is its largest, which the library refuses: not for rows."""
    letter, view = LETTERS[kind], buffer_of(numbers)
    if view and view.contiguous and view.format in (letter, FLAGS if letter == "B" else letter):
        made = array.array(letter, view.tobytes())
    else:
        taken = list(numbers) if view is None else view.tolist()
        try:
            made = array.array(letter, taken)
        except OverflowError:
            most = 2 ** (8 * ctypes.sizeof(kind)) - 1
            made = array.array(letter, [number if 0 <= number <= most else most for number in taken])
    return (kind * len(made)).from_buffer(made) if made else (kind * 0)()


def flags_of(flags: Sequence[bool]) -> Any:
    """An array of C that is not 0 for what is true."""
    view = buffer_of(flags)
    if view and view.format in (FLAGS, LETTERS[c_uint8]):
        return numbers_of(c_uint8, view)
    return numbers_of(c_uint8, map(bool, flags if view is None else view.tolist()))


def profile_of(profile: Mapping[int, int]) -> _c.Profile:
    sizes = sorted(profile)
    return _c.Profile(numbers_of(c_uint32, sizes), numbers_of(c_uint32, [profile[size] for size in sizes]), len(sizes))


def history_of(history: Mapping[int, Sequence[int]], snapshots: int) -> _c.History:
    sizes = sorted(history)
    for size in sizes:
        if len(history[size]) != snapshots:
            raise ValueError(f"size {size} has {len(history[size])} counts, and not one for each of {snapshots} snapshots")
    counts = numbers_of(c_uint32, [count for size in sizes for count in history[size]])
    return _c.History(numbers_of(c_uint32, sizes), counts, len(sizes), _calls.whole(snapshots, "the number of snapshots"))


def timeline_of(sizes: Sequence[int], frees: Sequence[bool]) -> _c.Timeline:
    if len(sizes) != len(frees):
        raise ValueError(f"there are {len(sizes)} sizes, and of {len(frees)} it is said whether they are freed")
    return _c.Timeline(numbers_of(c_uint32, sizes), flags_of(frees), len(sizes))


def cost_of(name: str, classes: Sequence[int], data: ctypes.Structure) -> Cost:
    table = numbers_of(c_uint16, classes)
    function = getattr(_c.library, f"mte_tool_{name}")
    yes, result = _calls.call_for_result(lambda to: function(None, table, len(table), ctypes.byref(data), to))
    return Cost(yes, result.bytes, result.at)


def table_of(name: str, data: Any, limit: int, step: int, largest_class: int, most_moments: int = 0) -> Table:
    options = _calls.options(limit=limit, step=step, largest_class=largest_class)
    places = min(data.length + bool(largest_class), MOST_NEEDS)
    classes = (c_uint16 * MOST_CLASSES)()
    rows = (c_uint64 * (places * min(max(limit, 0), MOST_CLASSES)))()
    moments = (c_uint32 * most_moments)()
    room = [classes, len(classes), rows, len(rows), *([moments, len(moments)] if most_moments else [])]
    function = getattr(_c.library, f"mte_tool_{name}")
    yes, result = _calls.call_for_result(lambda to: function(ctypes.byref(options), ctypes.byref(data), *room, to))
    places = result.places
    certificate = [rows[row * places : (row + 1) * places] for row in range(limit)] if yes else []
    return Table(classes[: result.classes], result.bytes, certificate, moments[: result.moments] if yes else [], yes, result.bound)


def verdict_of(
    name: str, table: Table, data: Any, limit: int, step: int, largest_class: int, has_moments: bool = False
) -> Verdict:
    options = _calls.options(limit=limit, step=step, largest_class=largest_class)
    are_options = 1 <= limit <= MOST_CLASSES and step in STEPS and largest_class in (0, 1)
    if table.rows and are_options and (len(table.rows) != limit or len(set(map(len, table.rows))) > 1):
        raise _calls.Error(f"the certificate has to have {limit} rows of one length", End.MISUSE)
    numbers = [_calls.whole(number, "a number of a row") for row in table.rows for number in row]
    classes, rows, moments = numbers_of(c_uint16, table.classes), numbers_of(c_uint64, numbers), numbers_of(c_uint32, table.moments)
    claim = [classes, len(classes), _calls.whole(table.bytes, "a cost"), rows, len(rows), *([moments, len(moments)] if has_moments else [])]
    function = getattr(_c.library, f"mte_tool_{name}")
    yes, result = _calls.call_for_result(lambda to: function(ctypes.byref(options), *claim, ctypes.byref(data), to))
    return Verdict(yes, Code(result.code))


def class_of(classes: Sequence[int], size: int) -> Optional[int]:
    """The number of the class that serves a request of so many bytes: its place in the table, from 0 on. None if no class serves it.

    >>> class_of([2, 4, 9], 40)
    1
    """
    table = numbers_of(c_uint16, classes)
    number = _c.library.mte_tool_class_of(table, len(table), size if 0 <= size <= _calls.MOST else _calls.MOST)
    return None if number < 0 else int(number)


def score_profile(classes: Sequence[int], profile: Mapping[int, int]) -> Cost:
    """What a table wastes on a profile: each size with how often it is requested, 1 to 1,000,000,000 times."""
    return cost_of("score_profile", classes, profile_of(profile))


def footprint_history(classes: Sequence[int], history: Mapping[int, Sequence[int]], snapshots: int) -> Cost:
    """What a table takes of memory over a history: each size with how many of its blocks were live at each of 1 to 1,024 snapshots."""
    return cost_of("footprint_history", classes, history_of(history, snapshots))


def footprint_timeline(classes: Sequence[int], sizes: Sequence[int], frees: Sequence[bool]) -> Cost:
    """What a table takes of memory over a timeline: the size of each event's block, and whether the event frees it. Blocks of more than
    16,368 bytes count for nothing."""
    return cost_of("footprint_timeline", classes, timeline_of(sizes, frees))


def tune_profile(profile: Mapping[int, int], limit: int, step: int = 1, largest_class: int = 0) -> Table:
    """The table of least waste on a profile, of at most LIMIT classes (1 to 32), each a multiple of STEP granules (1,
    2, 4 or 8); where LARGEST_CLASS is 1, of those with class 1024."""
    return table_of("tune_profile", profile_of(profile), limit, step, largest_class)


def fit_history(
    history: Mapping[int, Sequence[int]], snapshots: int, limit: int, step: int = 1, largest_class: int = 0
) -> Table:
    """The table of least footprint over a history."""
    return table_of("fit_history", history_of(history, snapshots), limit, step, largest_class)


def fit_timeline(
    sizes: Sequence[int], frees: Sequence[bool], limit: int, step: int = 1, largest_class: int = 0
) -> Table:
    """The table of least footprint over a timeline; `is_least` says whether that is shown."""
    return table_of("fit_timeline", timeline_of(sizes, frees), limit, step, largest_class, MOST_MOMENTS)


def check_profile(
    table: Table, profile: Mapping[int, int], limit: int, step: int = 1, largest_class: int = 0
) -> Verdict:
    """Whether a table's rows show that no table within the limit and step, and with class 1024 if it is forced, wastes less on a profile."""
    return verdict_of("check_profile", table, profile_of(profile), limit, step, largest_class)


def check_fit_history(
    table: Table, history: Mapping[int, Sequence[int]], snapshots: int, limit: int, step: int = 1, largest_class: int = 0
) -> Verdict:
    """The same of a footprint over a history."""
    return verdict_of("check_fit_history", table, history_of(history, snapshots), limit, step, largest_class)


def check_fit_timeline(
    table: Table, sizes: Sequence[int], frees: Sequence[bool], limit: int, step: int = 1, largest_class: int = 0
) -> Verdict:
    """The same over a timeline, by the moments that the table names."""
    timeline = timeline_of(sizes, frees)
    return verdict_of("check_fit_timeline", table, timeline, limit, step, largest_class, has_moments=True)
