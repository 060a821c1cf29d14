"""How the cost of a command grows with its input and with its options: what `bench --growth` measures."""

import random
from collections import namedtuple
from collections.abc import Callable

from mte_scripts import program_runs

# mixed events that are the same in each series, but for the series of events
EVENTS = 100_000

# One row: what grows, what its cost is counted by, the values, and for each value a trial.
Series = namedtuple("Series", "title unit values trials")

# The words of a command, its input, what it is compared with (the same without what is counted), and how much is counted.
Trial = namedtuple("Trial", "words given without count")

# eight classes that serve most of a million mixed events
TABLE = "classes 2 4 6 8 12 18 32 65\n"


def all_series(events: "list[str]", seed: int) -> "list[Series]":
    """The series, over the lines of a trace of a million mixed events."""
    counts, wide, two = [10_000, 100_000, 1_000_000], ["--granules", "262144"], "classes 2 65\n"
    over, mixed = prepend_table(TABLE, "".join(events[:EVENTS])), "".join(events[:EVENTS])

    def first(count: int) -> str:
        return "".join(events[:count])

    def over_classes(count: int) -> Trial:
        table = f"classes {' '.join(str(2 + 63 * place // count) for place in range(1, count + 1))}\n"
        return Trial(["replay", *wide], prepend_table(table, mixed), table, EVENTS)

    def over_live_blocks(count: int) -> Trial:
        # the last variable is written over, so that its blocks stay; two classes have room for all of them
        before = "malloc 1023 16\n" * count
        return Trial(["replay", *wide], prepend_table(two, before + mixed), prepend_table(two, before), EVENTS)

    rows: "list[tuple[str, str, list[int], Callable[[int], Trial]]]" = [
        ("`profile`, events", "event", counts, lambda n: Trial(["profile"], first(n), "", n)),
        ("`replay`, events", "event", counts, lambda n: Trial(["replay"], prepend_table(TABLE, first(n)), TABLE, n)),
        ("`run --limit 8`, events", "event", counts, lambda n: Trial(["run", "--limit", "8"], first(n), "", n)),
        ("`replay`, granules", "event", [64, 1024, 16_384, 262_144],
         lambda n: Trial(["replay", "--granules", str(n)], over, TABLE, EVENTS)),
        ("`replay`, bytes of quarantine", "event", [0, 16_384, 262_144, 4_194_304],
         lambda n: Trial(["replay", "--quarantine", str(n), *wide], over, TABLE, EVENTS)),
        ("`replay`, classes", "event", [1, 2, 8, 32], over_classes),
        ("`replay`, live blocks besides", "event", [0, 1_000, 10_000, 60_000], over_live_blocks),
        ("`tune --limit 8`, sizes that need other granules", "size", [16, 128, 1023],
         lambda n: Trial(["tune", "--limit", "8"], profile_of(n, seed), "", n)),
        ("`tune` of 1,023 such sizes, classes", "class", [1, 4, 16, 32],
         lambda n: Trial(["tune", "--limit", str(n)], profile_of(1023, seed), "", n)),
    ]  # fmt: skip
    return [Series(title, unit, values, [trial(value) for value in values]) for title, unit, values, trial in rows]


def prepend_table(table: str, events: str) -> str:
    """Events after a class line."""
    return program_runs.join_texts(table, events).decode()


def profile_of(needs: int, seed: int) -> str:
    chance = random.Random(seed)
    return "".join(f"{16 * need - 16} {chance.randint(1, 10**9)}\n" for need in range(2, needs + 2))
