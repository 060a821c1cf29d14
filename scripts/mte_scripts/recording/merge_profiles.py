"""Makes one profile of many, or one history of many. `merge_profiles --help` says all."""

import argparse
import functools
import heapq
import os
from collections.abc import Iterator

from mte_scripts import count_texts, text_files
from mte_scripts.entry_point import Refusal, say
from mte_scripts.formats import LARGEST_SIZE, MOST_COUNT, MOST_SNAPSHOTS

from mte_scripts.words import Words, number_between

HELP = f"""\
Make one profile of many: the counts of each size are added up. Or make one history of many.

Usage: merge_profiles [--snapshots T] [--] FILE..   (standard input for `-`, or where there is no FILE)
       merge_profiles [--snapshots T] --files-from LIST

  --snapshots T       keeps at most T snapshots of histories, 1 to {MOST_SNAPSHOTS}; {MOST_SNAPSHOTS} where it is left out

  --files-from LIST   reads the names of the files from LIST (standard input for `-`), one on a line; or each ended by a zero
                      byte, as `find -print0` writes them. A command line holds some tens of thousands of names, a list any number

A line is a size and a count, or `large` and a count, in any order and however often. A size above {LARGEST_SIZE:,} is large. Where a sum
is above {MOST_COUNT:,}, the most that a profile may have, all sums are divided by the same number and rounded up, which is said.

Histories are merged with histories alone. The snapshots of all of them stand beside each other, as if one process did the runs one
after the other. So a class counts with the most blocks that it has in any run, and the footprint is what suffices for each run, not
what all runs take at once. Of more than T snapshots, those go first that are nowhere above another one, which changes no
footprint. If more than T are left, those T stay that have the most blocks in classes of several widths. This may lower one.

Exit status:
  0  the profile, or the history, is printed
  2  a file can't be read, or a line is not `SIZE COUNT`, or not one of a history; nothing is printed
  3  a file is empty, or there is no request in any file, or standard output can't be written

Examples:
  merge_profiles monday.profile tuesday.profile > both.profile
  find fleet -name '*.profile' | merge_profiles --files-from - > fleet.profile
  merge_profiles monday.history tuesday.history > both.history
"""


def files_of(options: argparse.Namespace) -> list[str]:
    if options.files_from is not None and options.files:
        raise Refusal(2, "--files-from takes a list of names, or `-`, and no other file beside it")
    files = options.files if options.files_from is None else read_file_list(options.files_from)
    for file in files:
        if os.path.isfile(file) and os.path.getsize(file) == 0:
            raise Refusal(3, f"{file} is empty: did the command that writes it fail?")
    return files or ["-"]


def read_file_list(path: str) -> list[str]:
    """The names in a list of files."""
    text = text_files.read(path)
    end = b"\0" if b"\0" in text else b"\n"
    names = [os.fsdecode(name) for name in text.removesuffix(end).split(end)] if text else []
    if not names:
        raise Refusal(3, f"{text_files.input_name(path)} names no file: did the command that writes it fail?")
    for at, name in enumerate(names, 1):
        if name in ("", "-"):
            wrong = "standard input, which a list can't name" if name else "empty"
            raise Refusal(2, f"{text_files.input_name(path)}: name {at} is {wrong}")
    return names


def merge_histories(histories: list[count_texts.History], most: int) -> count_texts.History:
    """The history with the snapshots of all, or with so many of them."""
    for choose in (undominated_snapshots, lambda found: greatest(found, most)):
        if sum(each.snapshots for each in histories) > most:
            histories = choose_snapshots(histories, choose(histories))
    counts = {}
    for size in set().union(*(each.counts for each in histories)):
        found = [count for each in histories for count in each.counts.get(size, [0] * each.snapshots)]
        if any(found):
            counts[size] = found
    if not counts:
        raise Refusal(3, "there is no block to count")
    return count_texts.History(sum(each.snapshots for each in histories), counts)


def choose_snapshots(histories: list[count_texts.History], kept: set[int]) -> list[count_texts.History]:
    """The histories with these snapshots alone. They are numbered from 0 over all histories."""
    found = []
    for history, numbers in zip(histories, snapshot_numbers(histories)):
        places = [place for place, number in enumerate(numbers) if number in kept]
        if places:
            rows = {size: [counts[place] for place in places] for size, counts in history.counts.items()}
            found.append(count_texts.History(len(places), rows))
    return found


def snapshot_numbers(histories: list[count_texts.History]) -> Iterator[range]:
    """For each history, the numbers of its snapshots."""
    first = 0
    for each in histories:
        yield range(first, first + each.snapshots)
        first += each.snapshots


def drop_large_blocks(history: count_texts.History) -> dict[int, list[int]]:
    """Without large blocks, which count for nothing in a footprint."""
    return {size: counts for size, counts in history.counts.items() if size != "large"}


def undominated_snapshots(histories: list[count_texts.History]) -> set[int]:
    """The snapshots but those that have in no size more blocks than another one. Of equal ones, the first."""
    blocks = [total for each in histories
              for total in map(sum, zip([0] * each.snapshots, *drop_large_blocks(each).values()))]
    order = sorted(range(len(blocks)), key=lambda number: -blocks[number])
    ranks = [0] * len(order)
    for rank, number in enumerate(order):
        ranks[number] = rank
    rows: dict[int, list] = {}
    for history, numbers in zip(histories, snapshot_numbers(histories)):
        for size, counts in drop_large_blocks(history).items():
            rows.setdefault(size, []).append((ranks[numbers.start : numbers.stop], counts))
    # A set of ranks is a number with a bit for each. Only a snapshot of a lower rank can dominate, since it has as many blocks or more:
    # `above` has those that have no fewer in any of the sizes so far. The rarest sizes leave the fewest.
    above = [(1 << rank) - 1 for rank in range(len(order))]
    waiting = set(range(1, len(order)))
    for row in sorted(rows.values(), key=len):
        if all(waiting.isdisjoint(at) for at, _ in row):
            continue
        as_many = 0
        for _, rank in sorted((-count, rank) for at, counts in row for count, rank in zip(counts, at) if count):
            above[rank] &= as_many
            if not above[rank]:
                waiting.discard(rank)
            as_many |= 1 << rank
    return {number for rank, number in enumerate(order) if rank not in waiting}


def greatest(histories: list[count_texts.History], wanted: int) -> set[int]:
    """So many snapshots. One after the other is taken by how much more it has than those before it, in bytes of
    blocks, in the classes of eleven tables: of all classes, of each second one, of each fourth one, .., of one class. Of equal ones, the
    first."""
    places: dict[tuple[int, int], int] = {}
    left: list = []
    waiting: list[tuple[int, int]] = []
    for history in histories:
        found = dict(in_classes(history))
        here = [places.setdefault(class_, len(places)) for class_ in found]
        for column in zip(*found.values()):
            waiting.append((-sum(column), len(left)))
            left.append(zip(here, column))
    most, kept = [0] * len(places), set[int]()
    # what a snapshot has more only falls while others are taken: the first whose own is still the most is the one
    heapq.heapify(waiting)
    while len(kept) < wanted:
        _, number = heapq.heappop(waiting)
        left[number] = [(place, has) for place, has in left[number] if has > most[place]]
        now = (sum([most[place] - has for place, has in left[number]]), number)
        if waiting and now > waiting[0]:
            heapq.heappush(waiting, now)
            continue
        kept.add(number)
        for place, has in left[number]:
            most[place] = has
    return kept


def in_classes(history: count_texts.History) -> Iterator[tuple[tuple[int, int], list[int]]]:
    """The blocks in the classes of the eleven tables, in bytes: ((end, table), bytes at each snapshot)."""
    ends: dict[int, list[int]] = {}
    for size, counts in drop_large_blocks(history).items():
        count_texts.add_row(ends, (size + 31) // 16, counts)
    for table in range(11):
        wider: dict[int, list[int]] = {}
        for end, counts in ends.items():
            yield (end << table, table), [count * (end << table) for count in counts]
            count_texts.add_row(wider, (end + 1) // 2, counts)
        ends = wider


def merge(words: list[str]) -> int:
    options = Words(HELP, "files", {"snapshots": MOST_SNAPSHOTS},
                    snapshots=number_between(1, MOST_SNAPSHOTS)).take(words)
    files = files_of(options)
    if not words:
        text_files.say_reading("merge_profiles")
    sums: dict = {}
    histories: list = []
    for at, file in enumerate(files):
        found = count_texts.read_either(file)
        if isinstance(found, count_texts.History):
            histories.append(found)
        else:
            count_texts.add_counts(sums, found)
        if histories and len(histories) <= at:
            raise Refusal(2, f"{text_files.input_name(files[0])} and {text_files.input_name(file)} are a profile and a "
                             "history: merge one kind alone")
    if histories:
        return text_files.write(count_texts.fitting_text(merge_histories(histories, options.snapshots),
                                                         functools.partial(say, "merge_profiles")))
    if not any(sums.values()):
        raise Refusal(3, "there is no request to count")
    return text_files.write(count_texts.fitting_text(sums, functools.partial(say, "merge_profiles")))
