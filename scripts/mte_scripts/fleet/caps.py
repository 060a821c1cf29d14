"""How much a machine may count beside the others of its program and day: else one absurd count owns the sum, and the
table. A machine with more bytes than so many times the median counts at each size at most so many times the median
there. With a cap of the sum alone all of it could be at one size, which would get a class of its own."""

import itertools
import statistics
from collections import Counter, defaultdict
from collections.abc import Iterable
from typing import NamedTuple

from mte_scripts.entry_point import printable
from mte_scripts.fleet.row_reader import PackedLoad, pack_load
from mte_scripts.fleet.rows import Key
from mte_scripts.fleet.suspicions import Suspicions
from mte_scripts.tables.figures import GRANULE

MOST = 20  # times the median, where no other number is given
FEWEST = 3  # machines, of which there is a median
NAMED = 5  # machines of a group, each by a line
HELP = f"""\
  --cap N            a machine with over N times the bytes of the median of its program and day counts at each size at most
                     N times the median there; {MOST} where it is left out"""


def cut_words(most: int) -> str:
    return f"its counts are cut at {most:,} times the median"


class Group(NamedTuple):
    """What machines are compared in: the profiles of a program and day, or its histories."""

    program: str
    day: str
    is_over_time: bool


class Large(NamedTuple):
    """A machine that is far above the median of its group, or most of its sum."""

    group: Group
    machine: str
    times: int
    share: float
    number: int

    def text(self) -> str:
        name = printable(f"{self.group.program} {self.group.day}: {self.machine}")
        times = f"has {self.times:,} times the bytes of the median of {self.number:,} machines"
        return f"{name} {times}, {self.share:.1%} of the sum"


class CapResult(NamedTuple):
    """The loads, cut where their machine is above the cap; these machines; and those that are most of a sum within it."""

    found: "list[tuple[Key, PackedLoad]]"
    over: "list[Large]"
    within: "list[Large]"

    def count_over(self, group: Group) -> int:
        return sum(each.group == group for each in self.over)

    def note_machines(self, what: str, found: Suspicions, day: str = "") -> None:
        """Names the machines, of one day or of all: WHAT says what becomes of those above the cap."""
        for group, large in itertools.groupby(self.over, lambda each: each.group):
            if day in ("", group.day):
                own = [f"{each.text()}; {what}" for each in large]
                more = f"{printable(f'{group.program} {group.day}')}: {len(own) - NAMED:,} more such machines"
                found.notes += own if len(own) <= NAMED else [*own[:NAMED], more]
        found.remarks += [each.text() for each in self.within if day in ("", each.group.day)]


def cap_machines(found: "list[tuple[Key, PackedLoad]]", most: int) -> CapResult:
    """The loads with each machine capped at MOST times the median."""
    groups: "dict[Group, Counter[str]]" = defaultdict(Counter)
    for key, load in found:
        for is_over_time, count in bytes_of(load).items():
            groups[Group(key.program, key.day, is_over_time)][key.machine] += load.weight * count
    compared = [(group, machines) for group, machines in sorted(groups.items()) if len(machines) >= FEWEST]
    large = [each for group, machines in compared for each in large_machines(group, machines, most)]
    over, within = [each for each in large if each.times > most], [each for each in large if each.times <= most]
    if over:
        limits = limits_of(found, {each.group for each in over}, most)
        left = {(each.group, each.machine): dict(limits[each.group]) for each in over}
        found = [(key, cut_load(key, load, left)) for key, load in found]
    return CapResult(found, over, within)


def bytes_of(load: PackedLoad) -> "dict[bool, int]":
    """The bytes of the blocks of its profile, and of its history at the moment of the most."""
    most: "dict[bool, int]" = {}
    for moment, parts in itertools.groupby(load.parts, lambda part: part.moment):
        own = sum((size + GRANULE) * count for part in parts for size, count in part.pairs())
        most[moment > 0] = max(own, most.get(moment > 0, 0))
    return most


def large_machines(group: Group, machines: "Counter[str]", most: int) -> "Iterable[Large]":
    """The machines that have over MOST times the median, or over half of the sum."""
    median, whole = max(statistics.median_low(machines.values()), 1), sum(machines.values())
    for machine, own in machines.most_common():
        if own <= most * median and 2 * own <= whole:
            return
        yield Large(group, machine, -(-own // median), own / whole, len(machines))


def limits_of(found: "list[tuple[Key, PackedLoad]]", groups: "set[Group]", most: int) -> "dict[Group, dict[int, int]]":
    """Of each size MOST times the median of the machines, of histories by the moment of the most blocks of the size."""
    cells: "dict[Group, dict[str, Counter[int]]]" = {group: defaultdict(Counter) for group in groups}
    for key, load in found:
        for (group, size), count in peaks_of(key, load).items():
            if group in groups:
                cells[group][key.machine][size] += count
    median = lambda machines, size: statistics.median_low(own[size] for own in machines.values())
    return {
        group: {size: most * median(machines, size) for size in set().union(*machines.values())}
        for group, machines in cells.items()
    }


def peaks_of(key: Key, load: PackedLoad) -> "dict[tuple[Group, int], int]":
    """Of each size the count times the weight, of a history at the moment of the most."""
    peaks: "dict[tuple[Group, int], int]" = {}
    for (moment, size), count in load.cells().items():
        cell = Group(key.program, key.day, moment > 0), size
        peaks[cell] = max(count * load.weight, peaks.get(cell, 0))
    return peaks


def cut_load(key: Key, load: PackedLoad, left: "dict[tuple[Group, str], dict[int, int]]") -> PackedLoad:
    """The load, cut where its machine is above the cap at what of that is LEFT, which gets less. At least 1 of each size
    stays, so that it is served."""
    limits = [left.get((Group(key.program, key.day, is_over_time), key.machine), {}) for is_over_time in (False, True)]
    if not any(limits):
        return load
    cells = {cell: count * load.weight for cell, count in load.cells().items()}
    for (moment, size), count in cells.items():
        if own := limits[moment > 0]:
            cells[moment, size] = min(count, max(own[size], 1))
    made = pack_load(load.number, 1, cells)
    for (group, size), count in peaks_of(key, made).items():
        if own := limits[group.is_over_time]:
            own[size] -= count
    return made
