#!/usr/bin/env -S python3 -B
"""Tests scripts/mte_scripts/faults/odds.py: the counts against all tags of small heaps; what is said of Scudo and of glibc against
simulations of their rules of tags (simulated_heaps.py), and against what they did (heap_rows.tsv, which scripts/tests/test_real_heaps.py measures); and over random
programs, where the built program is there or MTE_TOOL names one, against the laws and the seeds."""

import itertools
import math
import os
import random
import subprocess
import tempfile
from collections import Counter
from fractions import Fraction

import checks
import heap_cases
import simulated_heaps
from checks import expect
from mte_scripts.faults import histories, odds, other_heaps, real_heaps, shares
from mte_scripts.faults.fault_log import Error, Log
from mte_scripts.faults.heap_answers import Answers, Meeting

HERE = os.path.dirname(os.path.realpath(__file__))

SCRIPTS = os.path.dirname(HERE)
PROGRAM = os.path.join(HERE, "faults_programs", "reuse.c")
GRANULE, ROOMS, SEEDS = 16, histories.SCUDO_ROOMS, 64


# all draws of small heaps

def enumerate_draws(generations, pairs, tags):
    """The probability that both draws of each pair agree, over all draws of slots that were given out so often."""
    def draws(slot, times, at=1, drawn=None):
        drawn = drawn or {}
        if at > times:
            yield drawn, 1
            return
        before = drawn.get((slot, at - 1, False))
        for given in range(tags):
            for freed in range(tags):
                if before != given != freed:
                    weight = Fraction(1, (tags if before is None else tags - 1) * (tags - 1))
                    for rest, its in draws(slot, times, at + 1, {**drawn, (slot, at, False): given, (slot, at, True): freed}):
                        yield rest, weight * its

    found = Fraction(0)
    for parts in itertools.product(*(list(draws(slot, times)) for slot, times in generations.items())):
        drawn = {key: tag for part, _ in parts for key, tag in part.items()}
        if all(drawn[one] == drawn[other] for one, other in pairs):
            found += math.prod(weight for _, weight in parts)
    return found


def try_counts(rounds):
    plain, chance = odds.tags_of, random.Random(1)
    odds.tags_of = lambda slot, has_parity: 4
    try:
        for _ in range(rounds):
            generations = {0: chance.randint(1, 3), 2: chance.randint(1, 2)}
            draws = [(slot, at, freed) for slot, times in generations.items() for at in range(1, times + 1) for freed in (False, True)]
            pairs = [tuple(sorted(chance.sample(draws, 2))) for _ in range(chance.randint(1, 3))]
            wanted, (found, is_exact) = enumerate_draws(generations, pairs, 4), odds.miss_probability(pairs, True)
            expect(f"the draws {pairs}", found == wanted and is_exact, found, wanted)
    finally:
        odds.tags_of = plain


class AskedVerdict:
    """A verdict as odds takes it."""

    kind = "asked"

    def __init__(self, *meeting):
        self.meeting = Meeting(*meeting) if meeting else None


def try_shares():
    """(the meetings of an entry, the share of this heap, the one without parity)"""
    again = AskedVerdict(0, 1, 0, 3, False)
    for name, verdicts, with_parity, without in (
        ("no chunk is met", [AskedVerdict()], (1, True), (1, True)),
        ("a freed block", [AskedVerdict(0, 1, 0, 1, True)], (1, True), (1, True)),
        ("the next user", [AskedVerdict(0, 1, 0, 2, False)], (1, True), (1, True)),
        ("the next user is freed", [AskedVerdict(0, 1, 0, 2, True)], ("6/7", True), ("13/14", True)),
        ("a user later", [again], ("6/7", True), ("13/14", True)),
        ("a user later, of an odd slot", [AskedVerdict(5, 1, 5, 3, False)], ("5/6", True), ("13/14", True)),
        ("two users later", [AskedVerdict(0, 1, 0, 4, False)], ("43/49", True), ("183/196", True)),
        ("the neighbour", [AskedVerdict(0, 1, 1, 1, False)], (1, True), ("14/15", True)),
        ("the one after it", [AskedVerdict(0, 1, 2, 9, True)], ("7/8", True), ("14/15", True)),
        ("its own place", [AskedVerdict(0, 1, 0, 1, False)], (0, True), (0, True)),
        ("the same twice", [again, again], ("6/7", True), ("13/14", True)),
        ("two slots", [AskedVerdict(0, 1, 2, 1, False), AskedVerdict(0, 1, 4, 1, False)], ("63/64", True), ("224/225", True)),
        ("a live user, and its free", [again, AskedVerdict(0, 1, 0, 3, True)], (1, True), (1, True)),
    ):
        for has_parity, wanted in ((True, with_parity), (False, without)):
            found = odds.on_this_heap(verdicts, has_parity)
            expect(f"{name}, parity {has_parity}", (found.least, found.is_exact) == (Fraction(wanted[0]), wanted[1]), found)
    some = [shares.ALWAYS, shares.NEVER, shares.UNKNOWN, other_heaps.PADDED, shares.at_least(5, 6), shares.Share(Fraction(6, 7), True)]
    words = ["always", "never", "not derived", "always, unless its block is 16 bytes larger than it has to be", "at least 5/6 (1.20)", "6/7 (1.17)"]
    expect("the words of shares", list(map(shares.in_words, some)) == words, list(map(shares.in_words, some)))
    words = ["always", "never (why)", "not derived (why)", words[3], "at least 5/6 (1.20; why)", "6/7 (1.17; why)"]
    some = [share.since("why") for share in some]
    expect("the words of shares with a reason", list(map(shares.in_words, some)) == words, list(map(shares.in_words, some)))
    for name, parts, wanted in (
        ("never and never", (shares.NEVER, shares.NEVER), shares.NEVER),
        ("never and not derived", (shares.NEVER, shares.UNKNOWN), shares.UNKNOWN),
        ("never and at least", (shares.NEVER, shares.at_least(5, 6)), shares.at_least(5, 6)),
        ("always and never", (shares.NEVER, shares.ALWAYS), shares.ALWAYS),
        ("at least, twice", (shares.at_least(5, 6), shares.at_least(6, 7)), shares.at_least(6, 7)),
    ):
        expect(f"an entry of {name}", shares.combine_shares(parts) == wanted, shares.combine_shares(parts))
    many = odds.on_this_heap([AskedVerdict(2 * at, 1, 2 * at + 2, 1, False) for at in range(40)])
    expect("many slots", not many.is_exact and Fraction(7, 8) < many.least < 1, many)


# Scudo's and glibc's tags

def try_elsewhere(rounds):
    """What is said holds in each case, whatever the places are: a mean over all cases would hide one that is never caught."""
    histories.SCUDO_ROOMS = (simulated_heaps.Scudo(random).largest(),)  # the simulated Scudo has one class
    for kind in (simulated_heaps.Scudo, simulated_heaps.Glibc):
        chance, found = random.Random(kind.__name__), Counter()
        for _ in range(rounds):
            simulated_heaps.simulate(kind(chance), chance, 400, found)
        cases = {case[:3] for case in found}
        expect(f"{kind.__name__}: its cases", len(cases) >= 12, len(cases), cases)
        for case in cases:
            share, caught, all_of_it = case[0], found[(*case, True)], found[(*case, True)] + found[(*case, False)]
            least = all_of_it * float(share.least)
            spread = 5 * math.sqrt(max(all_of_it * float(share.least * (1 - share.least)), 1)) * (0 < share.least < 1)
            good = caught <= least + spread if share.is_exact else True
            expect(f"{kind.__name__}, {case[1]}, {case[2]}: {shares.in_words(share)}", caught >= least - spread and good, caught, all_of_it)
    histories.SCUDO_ROOMS = ROOMS


# what the real heaps did

def try_rows():
    """What is said of each history of heap_cases agrees with what the real Scudo and glibc did, each row apart."""
    cases, rows = {}, heap_cases.rows()
    for heap in real_heaps.HEAPS:
        for each in heap_cases.CASES:
            if heap.name in each.heaps:
                shares_of_it = heap_cases.shares_of(heap.name, each.events, each.questions)
                cases.update(((heap.says, each.name, asked), share) for asked, share in zip(each.questions, shares_of_it))
    expect("the rows are those of the cases", cases.keys() == rows.keys(), sorted(cases.keys() ^ rows.keys())[:5])
    for key in cases.keys() & rows.keys():
        expect(f"{': '.join(key)}: {shares.in_words(cases[key])}", heap_cases.is_true(cases[key], *rows[key]), *rows[key])
    found = Counter(shares.in_words(share).split(" (")[0] for (says, _, _), share in cases.items() if says != "glibc")
    expect("the kinds of rows of Scudo", all(found[says] > 50 for says in ("always", "never", "at least 5/6", "at least 6/7")), found)


def odds_of_store(seen, block, size, offset, state="live", heap="Scudo"):
    """What is said of a store of a byte."""
    return heap_cases.ON[heap](Error("S", block, offset, 1, 0, state), size, seen.past(block)).reason


def try_unknown():
    """Where the log does not tell what became of a block, nothing is said of it that may be false."""
    for name, seen, is_known in (
        ("a block with an alignment", histories.Histories(), True),
        ("a block without a record", histories.Histories(), False),
    ):
        seen.request(1, 100, 64 if name.endswith("alignment") else GRANULE)
        seen.resize(1, 2, 100, 40, is_known)
        seen.resize(2, 3, 40, 30)
        lost = [odds_of_store(seen, 1, 100, 50, "resized"), odds_of_store(seen, 2, 40, 50, "resized"), odds_of_store(seen, 3, 30, 50)]
        expect(f"a realloc of {name}", set(lost) == {other_heaps.LOST.reason}, lost)
    seen = histories.Histories(is_small=True)
    seen.request(1, 4000)
    seen.resize(1, 2, 4000, 40)
    expect("a small log, what a realloc cut off", odds_of_store(seen, 2, 40, 100) == other_heaps.CUT_OFF.reason, odds_of_store(seen, 2, 40, 100))
    expect("a small log, what a realloc cut off in glibc", odds_of_store(seen, 2, 40, 100, heap="glibc") != other_heaps.FREE.reason)
    seen.free(2, 40)
    expect("a small log, the same after a free", odds_of_store(seen, 2, 40, 100, "freed") == other_heaps.GIVEN_BACK.reason, odds_of_store(seen, 2, 40, 100, "freed"))
    seen.request(3, 4000)
    expect("a small log, a place that was freed", odds_of_store(seen, 3, 4000, 4032) == other_heaps.LARGER_BEFORE.reason, odds_of_store(seen, 3, 4000, 4032))
    seen = histories.Histories()
    seen.request(1, 4000)
    for offset, heaps in ((-1000, ("glibc",)), (-5000, ("Scudo", "glibc")), (65 << 20, ("Scudo", "glibc"))):
        for heap in heaps:
            expect(f"{offset} bytes from a block, {heap}", odds_of_store(seen, 1, 4000, offset, heap=heap) == other_heaps.FAR_AWAY.reason)


# random programs: the laws and the seeds

def try_program(number, operations, program, work):
    path = os.path.join(work, "log")
    words = [program, str(number), str(operations)]
    subprocess.run(words, env=dict(os.environ, ACCESSES=path), stdout=subprocess.DEVNULL, check=True)
    log = Log(path)
    answers = Answers(log, path, log.length, (1 + number % 3, 262144, number % 2 * 4096), [at * 40503 % 65536 for at in range(1, SEEDS + 1)])
    expect(f"random {number}: the laws", not list(answers.differences()))
    for verdict in answers.verdicts:
        if verdict.kind == "asked":
            share = odds.on_this_heap([verdict])
            says = {"refused": share == odds.ALWAYS, "accepted": share == odds.NEVER, "open": 0 < share.least < 1 and share.is_exact}
            if not says[verdict.promise.answer]:
                expect(f"random {number}: the law and the odds", False, verdict, share)
    is_open = [at for at, verdict in enumerate(answers.verdicts) if verdict.kind == "asked" and verdict.promise.answer == "open"]
    expect(f"random {number}: errors that no law decides", len(is_open) > 20, len(is_open))
    return [(float(odds.on_this_heap([answers.verdicts[at]]).least), sum(bool(lines[at]) for lines in answers.said) / SEEDS) for at in is_open]


def try_programs(rounds):
    with tempfile.TemporaryDirectory() as work:
        program = os.path.join(work, "reuse")
        subprocess.run([os.path.join(SCRIPTS, "traced_cc"), "-w", "-O1", PROGRAM, "-o", program], check=True)
        found = [pair for number in range(1, rounds + 1) for pair in try_program(number, 3000, program, work)]
    counted, seen = (sum(column) / len(found) for column in zip(*found))
    # the machine's own draws are not quite uniform: of 16 offsets, three or four lead to the first of the tags allowed, one to the last
    expect("the odds and the seeds", abs(counted - seen) < 0.02, counted, seen, len(found))


class Odds(checks.Part):
    def test_counts(self):
        try_counts(60 * checks.options.more)

    def test_shares(self):
        try_shares()

    def test_elsewhere(self):
        try_elsewhere(100 * checks.options.more)

    def test_unknown(self):
        try_unknown()

    def test_rows(self):
        try_rows()

    def test_programs(self):
        checks.need("gcc", "the odds over random programs")
        checks.with_heap()
        try_programs(4 * checks.options.more)


def add_options(parser):
    parser.add_argument("--more", type=int, default=1, metavar="N", help="N times as many")


if __name__ == "__main__":
    checks.main()
