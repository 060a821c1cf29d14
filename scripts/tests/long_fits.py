"""Timelines of which a fit for three classes takes about a thousand rounds, so that their moments become too many.

A table has a low class, a high class and the largest, and takes about the same whichever the two are. Each pair has a
moment of its own, at which a little more blocks are between its classes than at the moments of all narrower pairs: until
a round has it, the pair's table looks better than those that were tried. So each round has one moment more.

The last moment of a timeline is in place of one pair's own, and shows most of the other pairs too. That pair is the one
of the round after which the moments are dropped: with its moment, which is left, a hundred rounds more show a best table.
"""

from typing import NamedTuple

LOW, HIGH, LARGEST = 100, 800, 1024  # the need before the low sizes, that of the size between, and the largest
STEP = 2  # blocks that a pair has more than a narrower one


class Shape(NamedTuple):
    """How many low and high sizes there are; how many blocks of the first low size are always live, and of the size
    between in each pair's moment; and how many more of the first low size make its tables take more."""

    lows: int
    highs: int
    always: int
    between: int
    more: int


def pair_blocks(shape: Shape, low: int, high: int) -> int:
    """The blocks between a low and a high class at their own moment."""
    return STEP * (shape.lows - low + high) + STEP * (shape.lows + shape.highs) + 2 + STEP + shape.between


def low_blocks(shape: Shape) -> "dict[int, int]":
    """Of each low size the blocks that make the tables take about the same."""
    fewest, middle = STEP * shape.lows + 1, shape.highs // 2
    wanted = (LOW + 1) * (shape.always + fewest) + (HIGH + middle) * pair_blocks(shape, 1, middle)
    rounded = {low: round((wanted - (HIGH + middle) * pair_blocks(shape, low, middle)) / (LOW + low)) for low in range(1, shape.lows + 1)}
    return {low: max(fewest, blocks - shape.always) + shape.more * (low == 1) for low, blocks in rounded.items()}


def high_blocks(shape: Shape) -> "dict[int, int]":
    """The same of the sizes after each high one, and after the size between."""
    fewest, middle = STEP * shape.highs + 1, shape.lows // 2
    wanted = (HIGH + shape.highs) * pair_blocks(shape, middle, shape.highs) + LARGEST * fewest
    rounded = {high: round((wanted - (HIGH + high) * pair_blocks(shape, middle, high)) / LARGEST) for high in range(shape.highs)}
    return {high: max(fewest, blocks) for high, blocks in rounded.items()}


def pair_moment(shape: Shape, low: int, high: int) -> "dict[int, int]":
    """The blocks of each need at a pair's own moment: some of the next low size, some of the high one, and the others between."""
    live = {}
    if low < shape.lows:
        live[LOW + low + 1] = STEP * shape.lows + 1
    if high:
        live[HIGH + high] = STEP * shape.highs + 1
    return {**live, HIGH: pair_blocks(shape, low, high) - sum(live.values())}


def guiding_moment(shape: Shape, low: int, high: int) -> "dict[int, int]":
    """Blocks that show all pairs but those of the first low or the last high class. Those between the two classes come last."""
    highs = {HIGH + each: STEP for each in (*range(high + 1, shape.highs), *range(1, high + 1))}
    lows = {LOW + each: STEP for each in range(1, shape.lows + 1) if each != 2}
    outer = {need: STEP for need in highs if need > HIGH + high}
    return {**outer, **lows, **highs, HIGH: pair_blocks(shape, shape.lows, 0)}


def timeline(shape: Shape, guided: "tuple[int, int] | None" = None) -> bytes:
    """The timeline of a shape, and of the pair that the guiding moment is of."""
    moments = [{LARGEST: STEP * shape.highs + 1}]
    moments += [{LOW + low: blocks} for low, blocks in low_blocks(shape).items()]
    moments += [{HIGH + high + 1: blocks} for high, blocks in high_blocks(shape).items()]
    pairs = [(low, high) for low in range(shape.lows + 1) for high in range(shape.highs + 1)]
    moments += [pair_moment(shape, *pair) for pair in pairs if pair != guided]
    if guided:
        moments.append(guiding_moment(shape, *guided))
    lines, before = ["timeline"], dict[int, int]()
    for moment in moments:
        live = {**moment, LOW + 1: moment.get(LOW + 1, 0) + shape.always}
        lines += [f"-{16 * need - 16}" for need, blocks in before.items() for _ in range(blocks - live.get(need, 0))]
        lines += [f"{16 * need - 16}" for need, blocks in live.items() for _ in range(blocks - before.get(need, 0))]
        before = live
    return ("\n".join(lines) + "\n").encode()


def least_footprint(shape: Shape) -> int:
    """What the best table takes: each of its classes at the moment with most of its blocks."""
    lows, highs = low_blocks(shape), {**high_blocks(shape), shape.highs: STEP * shape.highs + 1}
    return 16 * min(
        (LOW + low) * (shape.always + max(lows[it] for it in range(1, low + 1)))
        + (HIGH + high) * pair_blocks(shape, low, high)
        + LARGEST * max(highs[it] for it in range(high, shape.highs + 1))
        for low in lows for high in highs
    )


WORDS = "fit --limit 3"
# of which a fit makes 1,024; in the second one two tables take least, and in the third one the last round bounds less than others
TIMELINES = {
    "1,024 rounds": (Shape(34, 31, 40, 300, 15), (33, 22)),
    "1,025 rounds": (Shape(34, 31, 31, 293, 13), (29, 25)),
    "many more rounds": (Shape(34, 31, 40, 300, 15), None),
}
