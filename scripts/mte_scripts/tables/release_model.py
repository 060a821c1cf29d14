"""What a table saves in LLVM 19's Scudo, which gives memory back after some time: simulated by shims/release_model.c,
page by page, over the record of a run. A model of one thread, read off Scudo's source; nothing of it is proved. Its
times are those of the recorded run, which is slower than another one: that counts where a run is longer than the
interval.

The record of blocks says which block each free gives back, and not how much of a block the program writes: a page that
it does not write is not resident. So what is simulated is a range: all of each block is written, all but its end, half
of it, or its first byte; and what calloc writes, and a realloc copies. A timeline has only sizes: then moreover the last,
the first or any block of the size goes. What is predicted is wider at both ends, by how far the model may be off."""

import os
import re
from collections.abc import Iterable
from typing import NamedTuple, Optional

from mte_scripts import count_texts, private_folder, program_runs
from mte_scripts.entry_point import Refusal
from mte_scripts.formats import LARGEST_CLASS
from mte_scripts.recording import recording
from mte_scripts.tables import scudo_map

USUAL_INTERVAL = 5000  # milliseconds: release_to_os_interval_ms in Scudo's flags.inc
ORDERS = ("last", "first", "random")  # of what is freed of a size
SHARES = (64, 63, 32, 0)  # 64ths of a block that are written
WIDE, NARROW = 0.1, 256 << 10  # a range is wide above this share of its greater end, and above so many bytes
# How far a saving may be from the simulated one: this share of that, and at least so many bytes. A margin of the model: of the ten savings in
# docs/MEASUREMENTS.md that were simulated with all of each block written, nine were within 204 KiB, and the tenth within 4.5%; and of each
# of two peaks Linux may count 128 KiB late (verdict.COUNTED).
MARGIN, LEAST_MARGIN = 0.05, 256 << 10
INTERVAL = re.compile(r"(?:^|[:, ])release_to_os_interval_ms=(-?[0-9]{1,9})(?![0-9])")
ANDROID_LARGER = [1025, 1153, 1441, 1841, 2081, 4097]  # AndroidSizeClassConfig in size_class_map.h


class Map(NamedTuple):
    """All classes of a map in granules, headers included; how many blocks a thread keeps at most, and of how many
    bytes, as a power of 2."""

    classes: list[int]
    most_kept: int
    bytes_log: int


class Saving(NamedTuple):
    """By how many bytes the peak falls against Scudo's default: the lower and the upper end of what was simulated; both
    of Android's table, where there is a record of blocks; and the interval in milliseconds. What is said of it is the
    range with its margins."""

    low: int
    high: int
    android: "Optional[tuple[int, int]]"
    interval: int

    def ends(self) -> "tuple[int, int]":
        """What is predicted: what was simulated, and beyond each end how far the model may be off there."""
        below, above = (max(round(MARGIN * abs(each)), LEAST_MARGIN) for each in (self.low, self.high))
        return self.low - below, self.high + above

    def sizes(self) -> "list[int]":
        """Both ends without their signs, the lesser first."""
        return sorted(abs(each) for each in self.ends())

    def is_mixed(self) -> bool:
        """Whether it may be less and more."""
        low, high = self.ends()
        return low < 0 < high

    def is_unsure(self) -> bool:
        """Whether it has to be measured: it may be less and more, or what was simulated is wide."""
        is_wide = self.high - self.low > max(WIDE * max(abs(self.low), abs(self.high)), NARROW)
        return is_wide or self.is_mixed()


def default_map(classes: Iterable[int]) -> Map:
    """Scudo's own, of whose table these are the classes up to 16 KiB."""
    return Map([*classes, *scudo_map.SCUDO_LARGER], 14, 10)


def tuned_map(classes: list[int]) -> Map:
    """The map that scudo_map prints of a table."""
    return Map([*scudo_map.in_map(classes)[:-1], *scudo_map.LARGER], 14, 10)


def android_map(classes: Iterable[int]) -> Map:
    return Map([*(each for each in classes if each < LARGEST_CLASS), *ANDROID_LARGER], 13, 13)


def interval_asked_for() -> int:
    """The interval of SCUDO_OPTIONS, or the usual one."""
    given = INTERVAL.findall(os.environ.get("SCUDO_OPTIONS", ""))
    return max(int(given[-1]), -1) if given else USUAL_INTERVAL


def simulate(program: str, record: bytes, maps: "list[Map]", interval: int, orders: "tuple[str, ...]" = (),
             shares: "tuple[int, ...]" = SHARES) -> "list[list[int]]":
    """The bytes that Scudo has resident at most: for each of these ORDERS, if there are any, and for each map a number for
    each share of the blocks that is written. By a record of blocks, or by a timeline, of which the order says what is freed."""
    tables = [f"{each.most_kept}:{each.bytes_log}:{','.join(map(str, each.classes))}" for each in maps]
    words = [program, str(interval), ",".join(map(str, shares)), *tables, *orders]
    done = program_runs.run_over(words, program, record)
    if done.returncode:
        why = done.stderr.decode(errors="replace").split("\n")[0] or "it was ended"
        raise Refusal(3, f"Scudo could not be simulated: {why}")
    return [[1024 * int(word) for word in line.split()] for line in done.stdout.splitlines()]


def saving(record: bytes, tables: "tuple[list[int], list[int], list[int]]", interval: int) -> Saving:
    """What a table saves by a record of blocks or a timeline. TABLES are Scudo's default, that of the map, and
    Android's."""
    is_timeline, maps = count_texts.is_timeline(record), [default_map(tables[0]), tuned_map(tables[1])]
    maps += [] if is_timeline else [android_map(tables[2])]
    with private_folder.temporary_folder() as work:
        found = simulate(recording.make("release_model", work), record, maps, interval, ORDERS if is_timeline else ())
    ends = []
    for table in range(1, len(maps)):
        pairs = zip(found[:: len(maps)], found[table :: len(maps)])
        saved = [one - other for default, its in pairs for one, other in zip(default, its)]
        ends.append((min(saved), max(saved)))
    return Saving(*ends[0], None if is_timeline else ends[1], interval)
