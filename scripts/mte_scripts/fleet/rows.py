"""The rows of a fleet's database, as a text with tabs: what each machine counted on a day, and for how many machines or requests it
stands."""

import datetime
import re
import time
from collections.abc import Iterable
from typing import Any, NamedTuple

from mte_scripts import count_texts
from mte_scripts.entry_point import Refusal
from mte_scripts.fleet.suspicions import Suspicion
from mte_scripts.formats import LARGEST_SIZE, MOST_COUNT, MOST_SNAPSHOTS

COLUMNS = "program build machine day weight moment size count".split()
NUMBERED = "program build machine day load weight moment size count".split()
FORM = ", ".join(NUMBERED)
MOST_SUM = 10**18  # of a count, as databases have it
MOST_LOAD = 10**18 - 1  # the number of a load
LONGEST_NAME = 200
DAY = re.compile("[0-9]{4}-[0-9]{2}-[0-9]{2}")
FIRST_DAY = "2000-01-01"  # a clock that was never set has one before
EARLY = 2  # days by which a day may be ahead of the reader's clock: of another time zone
LARGE = LARGEST_SIZE + 1
BOM = b"\xef\xbb\xbf"
EPOCH = datetime.date(1970, 1, 1).toordinal()
RANGES = {"load": (0, MOST_LOAD), "weight": (1, MOST_COUNT), "moment": (0, MOST_SNAPSHOTS)}
RANGES |= {"size": (0, LARGE), "count": (1, MOST_SUM)}


class Key(NamedTuple):
    """What a load is of: a machine, a build of a program and a day. Of all loads with one key one counts."""

    program: str
    build: str
    machine: str
    day: str


def host_of(machine: str) -> str:
    """The machine, without the container that its name may have after a slash."""
    return machine.partition("/")[0] or machine


def is_rows(data: bytes) -> bool:
    """Whether a text that begins with these bytes has such rows: one of its first lines has as many fields."""
    return any(line.count(b"\t") + 1 in (len(COLUMNS), len(NUMBERED)) for line in data.split(b"\n", 9)[:9])


def day_refusal(day: str) -> str:
    """What is wrong with a day; empty if nothing is."""
    try:
        if not DAY.fullmatch(day):
            raise ValueError
        number = datetime.date.fromisoformat(day).toordinal() - EPOCH
    except ValueError:
        return "a day that does not exist"
    if day < FIRST_DAY:
        return f"a day before {FIRST_DAY}: a clock that is not set"
    return "a day that is not yet: a clock that is ahead" if number > time.time() // 86400 + EARLY else ""


def check_day(day: str) -> None:
    """Suspects a wrong day."""
    if wrong := day_refusal(day):
        raise Suspicion(wrong, day)


def parse_head(words: list) -> tuple:
    """The key, load, weight and moment of the fields of a row."""
    for column, word in zip(COLUMNS[:3], words):
        if not word.strip() or len(word) > LONGEST_NAME:
            raise Suspicion(f"no {column} of 1 to {LONGEST_NAME} characters", word)
    check_day(words[3])
    load = parse_number(words[4], "load") if len(words) == len(NUMBERED) else 0
    if load > (time.time() + 86400 * EARLY) * 1000:
        raise Suspicion("a load that is not yet: a clock that is ahead", words[4])
    return Key(*words[:4]), load, parse_number(words[-4], "weight"), parse_number(words[-3], "moment")


def parse_number(word: str, column: str) -> int:
    """The number in a column."""
    least, most = RANGES[column]
    if not re.fullmatch("[0-9]{1,19}", word) or not least <= int(word) <= most:
        raise Suspicion(f"a {column} that is no number from {least:,} to {most:,}", word)
    return int(word)


def split_fields(line: bytes, at: int) -> "list[str]":
    """The fields of line AT of a file. A byte order mark comes also where files that have one are joined."""
    if line.startswith(BOM):
        raise Suspicion(r"a line that begins with a byte order mark (BOM): remove it by `sed 's/^\xef\xbb\xbf//'`")
    if wrong := count_texts.encoding(line, at):
        raise Suspicion(wrong.replace(f"line {at} ", "a line that "))
    return line.decode().split("\t")


def parse_row(line: bytes, at: int) -> tuple:
    """The key, load, weight, moment, size and count of a row, which is line AT of its file. Large sizes are one above the largest."""
    words = split_fields(line, at)
    if len(words) not in (len(COLUMNS), len(NUMBERED)):
        raise Suspicion(f"not the {len(NUMBERED)} fields of a row, with tabs between: {FORM}", f"{len(words)} fields")
    head = parse_head(words)
    size = LARGE if words[-2] == "large" else parse_number(words[-2], "size")
    return *head, size, parse_number(words[-1], "count")


def text_of(key: Key, load: int, weight: int, moments: dict) -> str:
    """The rows of a load, in the order of moments and sizes: at each moment the count of each size. Moment 0 is a
    profile, those from 1 on are the moments of a history."""
    begin = "\t".join([*key, str(load), str(weight)])
    lines = []
    for moment, by_size in sorted(moments.items()):
        counts = sorted((LARGE if size == "large" else size, count) for size, count in by_size.items() if count)
        lines += [f"{begin}\t{moment}\t{size}\t{count}\n" for size, count in counts]
    return "".join(lines)


def group_pairs(pairs: Iterable[tuple]) -> "dict[Any, list]":
    """The values of each key."""
    groups: "dict[Any, list]" = {}
    for key, value in pairs:
        groups.setdefault(key, []).append(value)
    return groups


def group_records(found: Iterable[tuple], by: Iterable[str]) -> "list[tuple]":
    """Of keys with their records: the records by the values of these columns, in the order of the values."""
    return sorted(group_pairs((tuple(getattr(key, column) for column in by), record) for key, record in found).items())


def sum_profiles(records: "Iterable[tuple[int, dict]]") -> dict:
    """The profile of all machines, by their weights and moments, each count times its weight: what the machines for
    which they stand have counted, where the sample is unbiased."""
    sums: dict = {}
    for weight, moments in records:
        count_texts.add_counts(sums, moments.get(0, {}), weight)
    return sums


def histories_of(records: "Iterable[tuple[int, dict]]") -> list:
    """The weight and the history of each machine that has one."""
    return [(weight, history_of(moments)) for weight, moments in records if any(moments)]


def history_of(moments: dict) -> count_texts.History:
    """The moments from 1 to the last; one of which there is no row has no block."""
    last = max(moments)
    sizes = set().union(*(counts for moment, counts in moments.items() if moment))
    counts = {size: [moments.get(moment, {}).get(size, 0) for moment in range(1, last + 1)] for size in sizes}
    return count_texts.History(last, counts)


def add_histories(histories: list) -> count_texts.History:
    """The histories added moment by moment, each count times its weight; the machines took them at the same stages."""
    longest = max(history.snapshots for _, history in histories)
    if any(history.snapshots != longest for _, history in histories):
        why = f"the machines have different numbers of moments, up to {longest}"
        raise Refusal(2, f"{why}: they can't be added moment by moment")
    sums: dict = {}
    for weight, history in histories:
        for size, counts in history.counts.items():
            count_texts.add_row(sums, size, counts, weight)
    return count_texts.History(longest, sums)
