#!/usr/bin/env -S python3 -B
"""Compares the laws of crates/footprint_theory with the engines on drawn traces.

Of each trace the timeline is made here, a realloc as a free and then a request. `fit`, `peaks` and `footprint` of the timeline are held against
`replay` of the trace: in a region in which each class has its peak of slots no request is exhausted, one slot fewer exhausts one, and with a
quarantine the slots suffice that the law names. Of what a heap does answer, a class that was exhausted has its slots as its peak. The program
is the one that MTE_TOOL names, else the one that is built."""

import argparse
import random
import subprocess
from concurrent.futures import ThreadPoolExecutor

import checks
from checks import expect
from mte_scripts.formats import LARGEST_SIZE

FEWEST_GRANULES, GRANULE = 64, 16
VARIABLES = range(1, 200)
SLOWEST = 60  # seconds of one answer


def answer(words: "list[str]", text: str) -> str:
    done = subprocess.run([checks.built_program(), *words], input=text, capture_output=True, text=True, timeout=SLOWEST)
    if done.returncode not in (0, 1):
        raise AssertionError(f"{' '.join(words)}: status {done.returncode}: {done.stderr}")
    return done.stdout


def text_of(lines: "list[str]") -> str:
    return "".join(f"{line}\n" for line in lines)


def random_trace(draw: random.Random) -> "list[str]":
    """Requests, frees and reallocs; of a large size requests and frees alone."""
    sizes = [draw.randrange(1500) for _ in range(draw.randrange(2, 9))] + [LARGEST_SIZE + 1] * (draw.random() < 0.3)
    live: "dict[int, int]" = {}
    lines = []
    for _ in range(draw.randrange(30, 400)):
        kind, size = draw.random(), draw.choice(sizes)
        small = [each for each in live if max(live[each], size) <= LARGEST_SIZE]
        if live and kind < 0.35:
            which = draw.choice(list(live))
            lines.append(f"free {which}")
            del live[which]
        elif small and kind < 0.5:
            which = draw.choice(small)
            lines.append(f"realloc {which} {size}")
            live[which] = size
        elif free := [each for each in VARIABLES if each not in live]:
            which = draw.choice(free)
            lines.append(f"{draw.choice(('malloc', 'calloc'))} {which} {size}")
            live[which] = size
    return lines


def timeline_of(trace: "list[str]", refused: "set[int]") -> "list[str]":
    """What a heap answers by size alone, if it refuses the requests at these places, and large ones."""
    live: "dict[str, str]" = {}  # a variable that is null is not there
    events = []
    for at, line in enumerate(trace):
        word, which, *size = line.split()
        if word == "free" and which in live:
            events.append(f"-{live.pop(which)}")
        elif size and at not in refused and int(size[0]) <= LARGEST_SIZE:
            if which in live:
                events.append(f"-{live[which]}")
            events.append(size[0])
            live[which] = size[0]
    return events


def class_of(classes: "list[int]", size: int) -> int:
    return next(c for c in classes if GRANULE * c - GRANULE >= size)


class Case:
    """A drawn trace with its fitted table, and the ways in which it contradicts a law."""

    def __init__(self, seed: int):
        self.draw = random.Random(seed)
        self.trace = random_trace(self.draw)
        self.wrong: "list[str]" = []
        self.is_short = False  # whether a region one slot too small was tried

    def say(self, what: str, holds: bool) -> None:
        if not holds:
            self.wrong.append(what)

    def peaks_of(self, timeline: "list[str]") -> "list[int]":
        first = answer(["peaks"], text_of([self.table, "timeline", *timeline])).split("\n")[0]
        return [int(word) for word in first.split()[1:]]

    def replay(self, granules: int, quarantine: int = 0) -> "set[int]":
        """The places of the requests that get no slot."""
        words = ["replay", "--granules", str(granules), "--quarantine", str(quarantine), "--seed", str(self.draw.randrange(1, 65536))]
        report = answer(words, text_of([self.table, *self.trace])).splitlines()
        return {int(line.split()[0]) - 1 for line in report if line.endswith(" null exhausted")}

    def run(self) -> "Case":
        timeline = timeline_of(self.trace, set())
        fit = answer(["fit", "--limit", str(self.draw.randrange(1, 6))], text_of(["timeline", *timeline])).splitlines()
        self.table = fit[0]
        self.classes = [int(word) for word in self.table.split()[1:]]
        self.peaks = self.peaks_of(timeline)
        self.share = max((c * p for c, p in zip(self.classes, self.peaks)), default=0)
        cost = next(int(line.split()[1]) for line in fit if line.startswith("footprint "))
        self.say("the fit's footprint", cost == sum(GRANULE * c * p for c, p in zip(self.classes, self.peaks)))
        self.say("exhausted though each class has its peak", not self.replay(max(FEWEST_GRANULES, self.share * len(self.classes))))
        self.run_short()
        self.run_with_a_quarantine()
        return self

    def run_short(self) -> None:
        """The class that takes most has a slot fewer than its peak."""
        share = self.share - 1
        self.is_short = share * len(self.classes) >= FEWEST_GRANULES
        if not self.is_short:
            return
        refused = self.replay(share * len(self.classes))
        self.say("a slot fewer, and nothing exhausted", bool(refused))
        peaks, slots = self.peaks_of(timeline_of(self.trace, refused)), [share // c for c in self.classes]
        self.say("a class that gave out more than it has", all(p <= s for p, s in zip(peaks, slots)))
        full = {class_of(self.classes, int(self.trace[at].split()[2])) for at in refused}
        self.say("a class exhausted before it was full", all(p == s for c, p, s in zip(self.classes, peaks, slots) if c in full))

    def run_with_a_quarantine(self) -> None:
        limit = self.draw.randrange(4000)
        share = max((c * (p + limit // (GRANULE * c)) for c, p in zip(self.classes, self.peaks)), default=0)
        refused = self.replay(max(FEWEST_GRANULES, share * len(self.classes)), limit)
        self.say(f"exhausted with a quarantine of {limit}", not refused)


def add_options(parser: argparse.ArgumentParser) -> None:
    parser.add_argument("--cases", type=int, default=500, metavar="N", help="so many traces (default: 500)")
    parser.add_argument("--seed", type=int, default=1, metavar="N", help="of the first trace (default: 1)")


class Laws(checks.Part):
    def test_traces(self):
        """The engines do what the laws say of the definitions."""
        first, count = checks.options.seed, checks.options.cases
        with ThreadPoolExecutor(2) as pool:
            cases = list(pool.map(lambda seed: Case(seed).run(), range(first, first + count)))
        for seed, case in enumerate(cases, first):
            expect(f"the trace of seed {seed}", not case.wrong, "; ".join(case.wrong))
        expect("regions that are too small", sum(case.is_short for case in cases) > count // 2)

    def test_order(self):
        """A request before the free of a realloc in place would count two blocks, and the heap gives out one."""
        timelines = {"free first": ["16", "-16", "10"], "request first": ["16", "10", "-16"]}
        footprints = {order: answer(["footprint"], text_of(["classes 2", "timeline", *events])) for order, events in timelines.items()}
        expect("the footprints", footprints == {"free first": "footprint 32\n", "request first": "footprint 64\n"}, footprints)
        full = [f"malloc {variable} 16" for variable in range(1, 33)]
        report = answer(["replay", "--granules", "64", "--quarantine", "0"], text_of(["classes 2", *full, "realloc 1 10"]))
        expect("all 32 slots are live, and a realloc in place needs none", "exhausted 0" in report, report)


if __name__ == "__main__":
    checks.main()
