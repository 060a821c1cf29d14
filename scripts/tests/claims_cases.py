"""What the tests of sentences share (`claims`, `fleet_claims`, `pools`): how a sentence is read back, small inputs that are drawn, and what each of
all tables costs, by the definitions of waste and footprint."""

import itertools
import os
import re
import subprocess

import checks
import pytest
from checks import expect
from mte_scripts.formats import LARGEST_SIZE

CLAIM = re.compile(
    r"of the tables of at most (\d+) class(?:es, all multiples|, a multiple) of ([\d,]+) bytes, that serve "
    r"(\"[^\"]*\" \(SHA-256 [0-9a-f]{16}(?:, [^()]*)?\))"
    r"(?: and have class (\d+))?, none (wastes|takes) less "
    r"(?:on its ([\d,]+) requests? of ([\d,]+) sizes?, ([\d,]+) bytes? in all(?: without [\d,]+ large ones?)?,|over its ([\d,]+) snapshots?|over all moments of its ([\d,]+) events?) "
    r"than ([\d,]+) bytes?\."
)
COST = 11  # the number of the cost's group
BOUND = re.compile(r"Tested, and not proved: .*?; so (?:on|over) .*? none of these (?:wastes|takes) less than ([\d,]+) bytes?\.")
CASES = [(limit, step, with_forced) for limit in (1, 2, 3) for step in (1, 2, 4, 8) for with_forced in (False, True)]


# ---- what tables are

def waste(table, profile):
    """By the definition; None where a size has no class."""
    total = 0
    for size, times in profile.items():
        serving = [16 * each - 16 for each in table if 16 * each - 16 >= size]
        if not serving:
            return None
        total += (min(serving) - size) * times
    return total


def footprint(table, history):
    """By the definition: the bytes of a class's block, times the most of its blocks at one moment; None where a size has no class."""
    blocks = {}
    for size, counts in history.items():
        serving = [each for each in table if 16 * each - 16 >= size]
        if not serving:
            return None
        blocks[min(serving)] = [one + other for one, other in zip(blocks.get(min(serving), [0] * len(counts)), counts)]
    return sum(16 * each * max(counts) for each, counts in blocks.items())


def all_tables(limit, step):
    """All tables of at most so many classes. Where those are too many, the classes from 25 to 1,015 granules are left out: no size of a small
    case needs one of these."""
    classes = [each for each in range(2, 1025) if each % step == 0]
    if len(classes) ** limit > 40_000:
        classes = [each for each in classes if each <= 24 or each >= 1016]
    for length in range(1, limit + 1):
        yield from itertools.combinations(classes, length)


def lowest(cost, given, limit, step, forced=()):
    """The lowest cost of all tables that serve what is given and have the forced classes."""
    costs = (cost(table, given) for table in all_tables(limit, step) if all(each in table for each in forced))
    return min((each for each in costs if each is not None), default=None)


# ---- small inputs

def small(chosen, moments=0):
    """A small profile, or a small history."""
    sizes = {chosen.randrange(0, 250) for _ in range(chosen.randrange(1, 5))}
    if chosen.random() < 0.3:
        sizes.add(chosen.randrange(LARGEST_SIZE - 95, LARGEST_SIZE + 1))
    if moments:
        rows = {size: [chosen.randrange(0, 9) for _ in range(moments)] for size in sizes}
        return {size: counts if any(counts) else [1] * moments for size, counts in rows.items()}
    return {size: chosen.randrange(1, 9) for size in sizes}


def small_timeline(chosen):
    """A small timeline, and the history of all its moments after an event."""
    sizes, live, events, columns = list(small(chosen)), [], [], []
    for _ in range(chosen.randrange(1, 25)):
        if live and chosen.random() < 0.4:
            size = live.pop(chosen.randrange(len(live)))
            events.append(f"-{size}")
        else:
            live.append(chosen.choice(sizes))
            events.append(str(live[-1]))
        columns.append(list(live))
    rows = {size: [column.count(size) for column in columns] for size in sizes}
    return "timeline\n" + "".join(f"{event}\n" for event in events), {size: counts for size, counts in rows.items() if any(counts)}


def history_text(history):
    moments = len(next(iter(history.values())))
    return f"snapshots {moments}\n" + "".join(f"{size} {' '.join(map(str, counts))}\n" for size, counts in sorted(history.items()))


# ---- how they are tested

def run(script, *words, **more):
    done = subprocess.run([script, *words], capture_output=True, text=True, stdin=subprocess.DEVNULL, timeout=300, **more)
    expect(f"{script} {words}: {done.stderr}", "Traceback" not in done.stderr)
    return done


class WithProgram(checks.Part):
    """Tests that need a program: the built one, the plain one where that is not built, or the one that MTE_TOOL names."""

    @classmethod
    def setup_class(cls):
        other = checks.any_program(cls.folder())
        if other == "":
            pytest.skip("without a built program and rustc: the sentences in small cases")
        if other:
            os.environ["MTE_TOOL"] = other
