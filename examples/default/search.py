"""The table of the least sum over several programs, of each its footprint by that with Scudo's default: by dynamic
programming over all tables whose classes are at most a ratio above the default's for the same size. Costs are whole
numbers, so nothing is rounded on the way.

A history here has the live blocks of each need (the least class that serves a size, in granules of 16 bytes) at some
moments."""

import bisect
from operator import add, sub
from typing import NamedTuple, Optional

LARGEST, GRANULE = 1024, 16
SCALE = 1 << 56  # of a program's weight
ABOVE = (5, 4)  # no class is more than 5/4 of the default's for the same size
NEVER = 1 << 90


class History(NamedTuple):
    """The needs that a program has, ascending, and for each the blocks at each moment."""

    needs: "list[int]"
    counts: "list[list[int]]"

    def sums(self) -> "list[list[int]]":
        """The blocks of the first needs, none to all, at each moment."""
        found = [[0] * len(self.counts[0])]
        for row in self.counts:
            found.append(list(map(add, found[-1], row)))
        return found


def footprint(history: History, classes: "list[int]") -> int:
    """The bytes of all classes, of each the most blocks that are live at once."""
    sums, begin, found = history.sums(), 0, 0
    for each in classes:
        end = bisect.bisect_right(history.needs, each)
        found += GRANULE * each * max(map(sub, sums[end], sums[begin]))
        begin = end
    return found


def class_of(classes: "list[int]", need: int) -> int:
    return classes[bisect.bisect_left(classes, need)]


class Costs:
    """What each class costs a set of programs, by the class before it: row j has the cost of class j after each class
    from LOW[j] on, below which the ratio to the default does not let it reach."""

    def __init__(self, low: "list[int]", rows: "list[list[int]]") -> None:
        self.low, self.rows = low, rows

    def plus(self, other: "Costs", sign: int = 1) -> "Costs":
        join = add if sign > 0 else sub
        return Costs(self.low, [list(map(join, one, more)) for one, more in zip(self.rows, other.rows)])


def lowest(default: "list[int]", above: "Optional[tuple[int, int]]") -> "list[int]":
    """For each class the least class that may be the one before it."""
    if not above:
        return [0] * (LARGEST + 1)
    most = [2 if need < 3 else class_of(default, need) * above[0] // above[1] for need in range(1, LARGEST + 1)]
    return [0, *(next(i for i in range(j) if most[i] >= j) if j > 2 else 0 for j in range(1, LARGEST + 1))]


def costs_of(history: History, weight: int, low: "list[int]") -> Costs:
    """One program's, times its weight."""
    sums, count = history.sums(), len(history.needs)
    # the most blocks from need a to need b, of each pair
    most = [[max(map(sub, sums[b], sums[a])) for a in range(b + 1)] for b in range(count + 1)]
    place = [bisect.bisect_right(history.needs, each) for each in range(LARGEST + 1)]
    rows = []
    for j in range(LARGEST + 1):
        by, factor = most[place[j]], GRANULE * j * weight
        scaled = [factor * each for each in by]
        rows.append([scaled[at] for at in place[low[j] : j]])
    return Costs(low, rows)


def no_costs(low: "list[int]") -> Costs:
    return Costs(low, [[0] * (j - low[j]) for j in range(LARGEST + 1)])


def least(costs: Costs, limit: int) -> "tuple[list[int], int]":
    """The table of at most so many classes that costs least, with class 1024, and the cost. Of several the first is
    taken."""
    best = [[0] + [NEVER] * LARGEST]
    for _ in range(limit):
        before, now = best[-1], [0]
        for j in range(1, LARGEST + 1):
            reached = min(map(add, before[costs.low[j] : j], costs.rows[j]), default=NEVER)
            now.append(min(reached, before[j]))
        best.append(now)
    classes, j = [], LARGEST
    for step in range(limit, 0, -1):
        if j and best[step][j] != best[step - 1][j]:
            classes.append(j)
            reached = list(map(add, best[step - 1][costs.low[j] : j], costs.rows[j]))
            j = costs.low[j] + reached.index(best[step][j])
    return classes[::-1], best[limit][LARGEST]


def weight_of(history: History, default: "list[int]") -> int:
    """So that a footprint times this is the ratio to the default's, times SCALE."""
    return SCALE // footprint(history, default)
