#!/usr/bin/env -S python3 -B
"""Tests of footprints and fits over timelines against their definitions, over all tables.

Compare what the commands `footprint`, `fit` and `check-fit` say of timelines with their definitions, tried over all tables and every
moment; and spoil fits, their moments and timelines. The program is the one that MTE_TOOL names, else the proved one where it is built, else
the plain one of scripts/tests/plain; beside another one, the plain one has to give the same answers. Last, `fit` of a run of 5 million events has
to take at most 3 seconds of processor time and 200 MB.
"""

import os
import random
import re
import subprocess
import tempfile
from collections import Counter
from concurrent.futures import ProcessPoolExecutor

import checks
import pytest
import test_footprint as OF
from checks import expect
from mte_scripts.formats import LARGEST_SIZE

CODES = {53: "NotMoments", **OF.CODES}

# An event is a size, with `-` before it where it is a free: 40, "-40", "large", "-large", all as text.


# ---- the definitions


def snapshots(events):
    """The blocks live before the first event and after each, by size."""
    live, all_of_them = Counter(), [{}]
    for event in events:
        live[event.lstrip("-")] += -1 if event.startswith("-") else 1
        all_of_them.append({size: count for size, count in live.items() if count})
    return all_of_them


def history(moments):
    """The history of these snapshots. Large blocks count for nothing."""
    sizes = sorted({int(size) for moment in moments for size in moment if size != "large"})
    return OF.History(len(moments), {size: [moment.get(str(size), 0) for moment in moments] for size in sizes}, None)


def verdict(events, numbers, fit):
    """The code of the first condition that a fit over these moments breaks, or None."""
    every = snapshots(events)
    if any(number > len(events) for number in numbers):
        return 53
    code = OF.verdict(history([every[number] for number in numbers]), fit)
    if code is not None:
        return code
    value = OF.footprint(history(every), fit.classes)
    if value is None:
        return 41
    return None if value == fit.footprint else 49


# ---- texts


def timeline_text(events):
    return "".join(line + "\n" for line in ["timeline", *events])


def read_fit(text):
    """The fit and the moments that a text has."""
    lines = [line.split() for line in text.splitlines()]
    numbers = {words[0]: [int(word) for word in words[1:]] for words in lines if words[0] != "row"}
    rows = [[int(word) for word in words[1:]] for words in lines if words[0] == "row"]
    fit = OF.Fit(numbers["classes"], numbers["limit"][0], numbers.get("step", [1])[0], numbers["footprint"][0], rows)
    return fit, numbers["moments"]


def certificate(fit, numbers):
    return OF.fit_text(fit) + OF.line("moments", numbers)


# ---- what is tried


def random_timeline(rng, sizes, most, up):
    """A timeline of at most so many events, whose blocks grow and fall."""
    live, events = [], []
    for _ in range(rng.randint(0, most)):
        if live and rng.random() > up:
            size = live.pop(rng.randrange(len(live)))
            events.append("-" + size)
        else:
            size = rng.choice(sizes)
            live.append(size)
            events.append(size)
        if rng.random() < 0.05:
            up = 1 - up
    return events


class Trial(OF.Trial):
    def __init__(self, program, other):
        super().__init__(program)
        self.other = other  # another program with the same answers, or None

    def answer(self, words, text):
        """What the program answers, which is what the other one answers."""
        self.runs += 1
        got = OF.run(self.program, words, text)
        if self.other and (others := OF.run(self.other, words, text)) != got:
            self.failures.append(f"{' '.join(words)} of {text!r}: {got} and, by the other program, {others}")
        return got

    def expect(self, status, out, words, text):
        got = self.answer(words, text)
        if got[:2] != (status, out):
            self.failures.append(f"{' '.join(words)} of {text!r}: status {got[0]} and {got[1]!r}, not {status} and {out!r}")

    def fit_of(self, events, limit, step, classes):
        """What `fit` writes of a timeline, compared with all tables; None where that is not a certificate."""
        whole = history(snapshots(events))
        best = OF.best_fit(whole, limit, step, classes)
        words = ["fit", "--limit", str(limit)] + (["--step", str(step)] if step > 1 else [])
        status, out, err = self.answer(words, timeline_text(events))
        if status != 0:
            self.failures.append(f"{' '.join(words)} of {timeline_text(events)!r}: status {status}, {out!r} and {err!r}")
            return None
        fit, numbers = read_fit(out)
        if (fit.classes, fit.footprint) != (list(best.classes), best.footprint):
            self.failures.append(f"{' '.join(words)} of {timeline_text(events)!r}: {out!r}, not {best.classes} of {best.footprint}")
        if out != certificate(fit, numbers) or numbers != sorted(set(numbers)):
            self.failures.append(f"{' '.join(words)} of {timeline_text(events)!r}: {out!r} is not the text of its fit")
        return fit, numbers, best.footprint

    def check_over(self, events, numbers, fit, least):
        code = verdict(events, numbers, fit)
        self.verdicts[code] += 1
        text = certificate(fit, numbers) + timeline_text(events)
        if code is None and least is not None and fit.footprint != least:
            self.failures.append(f"{text!r} meets all conditions, and the least footprint is {least}")
        out = "optimal\n" if code is None else f"refused {code} {CODES[code]}\n"
        self.expect(0 if code is None else 1, out, ["check-fit"], text)

    def footprint_over(self, events, classes):
        whole = history(snapshots(events))
        value = OF.footprint(whole, classes)
        out = f"not serving {OF.unserved_size(whole, classes)}\n" if value is None else f"footprint {value}\n"
        self.expect(1 if value is None else 0, out, ["footprint"], OF.line("classes", classes) + timeline_text(events))

    def spoil(self, rng, events, numbers, fit, least):
        """Something of the fit, its moments or the timeline is changed, and judged anew."""
        way = rng.randrange(6)
        if way == 0:
            other = OF.spoil_fit(rng, history([snapshots(events)[number] for number in numbers]), fit)
            same = (other.limit, other.step) == (fit.limit, fit.step)
            self.check_over(events, numbers, other, least if same else None)
        elif way == 1 and len(numbers) > 1:
            less = [number for number in numbers if number != rng.choice(numbers)]
            self.check_over(events, less or numbers, fit, least)
        elif way == 2:
            moved = sorted({rng.choice([number, rng.randint(0, len(events))]) for number in numbers})
            self.check_over(events, moved, fit, least)
        elif way == 3:
            self.check_over(events, [*numbers, max(len(events), numbers[-1]) + 1], fit, least)
        elif way == 4:
            self.check_over([*events, rng.choice(["1", "16", "64", "large", str(LARGEST_SIZE)])], numbers, fit, None)
        elif way == 5:
            table = sorted(rng.sample(range(2, 10), rng.randint(1, 4)))
            value = OF.footprint(history(snapshots(events)), table)
            if value is not None:
                self.check_over(events, numbers, fit._replace(classes=table, footprint=value), None)

    def one(self, rng, events, limit, step, classes):
        found = self.fit_of(events, limit, step, classes)
        if found is None:
            return
        fit, numbers, least = found
        self.check_over(events, numbers, fit, least)
        self.spoil(rng, events, numbers, fit, least)
        self.footprint_over(events, rng.choice([fit.classes, sorted(rng.sample(range(2, 10), rng.randint(0, 4)))]))

    def small(self, rng):
        sizes = [str(size) for size in OF.SMALL_SIZES] + ["0", "large"]
        events = random_timeline(rng, sizes, rng.choice([3, 8, 20, 40]), rng.choice([0.5, 0.7, 0.9]))
        self.one(rng, events, rng.randint(1, 3), 1, OF.SMALL_CLASSES)

    def larger(self, rng):
        sizes = [str(rng.randint(0, rng.choice([100, 2_000, LARGEST_SIZE]))) for _ in range(rng.randint(1, 9))] + ["large"]
        events = random_timeline(rng, sizes, rng.choice([100, 1_000]), rng.choice([0.5, 0.6, 0.9]))
        step = rng.choice([1, 1, 2, 4, 8])
        self.one(rng, events, rng.randint(1, 5), step, OF.needs_of(history(snapshots(events)), step))


# inputs without the form, and what is wrong with them
FIT = "classes 2\nlimit 1\nfootprint 32\nrow 32\n"
FAULTS = {  # by the words, a fault and its texts
    "fit --limit 2": {"37 BadTimeline line 3": ["timeline\n16\n\n"],
                      "37 BadTimeline line 2": [f"timeline\n{LARGEST_SIZE + 1}\n", "timeline\n01\n", "timeline\n+1\n",
                      "timeline\n1 1\n", "timeline\n--1\n", "timeline\n-\n", "timeline\nLarge\n",
                      "timeline\n18446744073709551616\n"], "38 NotLive line 2": ["timeline\n-16\n"],
                      "38 NotLive line 4": ["timeline\n16\n-16\n-16", "timeline\nlarge\n-large\n-large\n"],
                      "38 NotLive line 3": ["timeline\n16\n-17\n"], "34 BadSnapshots line 1": ["timeline \n16\n"]},
    "footprint": {"21 OutOfRange line 1": ["classes 1\ntimeline\n"],
                  "38 NotLive line 3": ["classes 2\ntimeline\n-1\n"]},
    "check-fit": {"34 BadSnapshots line 5": [FIT + "timeline\n16\n"],
                  "36 BadFit line 5": [FIT + "moments\ntimeline\n16\n", FIT + "moments 1 1\ntimeline\n16\n",
                  FIT + "moments 1 0\ntimeline\n16\n", FIT + "moments 01\ntimeline\n16\n",
                  FIT + "moments 1000000001\ntimeline\n16\n", FIT + OF.line("moments", range(1025)) + "timeline\n16\n"],
                  "37 BadTimeline line 6": [FIT + "moments 1\n", FIT + "moments 1\nsnapshots 1\n16 1\n"],
                  "38 NotLive line 8": [FIT + "moments 1\ntimeline\n16\n-17\n"]}}


def faults(program, other):
    trial = Trial(program, other)
    for words, text, fault in OF.cases_of(FAULTS):
        status, out, err = trial.answer(words.split(), text)
        if (status, out, err) != (2, "", f"error {fault}\n"):
            trial.failures.append(f"{words} of {text[:200]!r}: status {status}, {out!r} and {err!r}, not 2 and {fault}")
    # the timelines that count nothing
    trial.expect(0, "classes\nlimit 1\nfootprint 0\nrow\nmoments 0\n", ["fit", "--limit", "1"], "timeline")
    trial.expect(0, "footprint 0\n", ["footprint"], "classes\ntimeline\nlarge\n-large")
    trial.expect(0, "optimal\n", ["check-fit"], FIT + "moments 1\ntimeline\n16\n-16\n16\n")
    return trial


MOST_SECONDS, MOST_MEGABYTES = 3, 200


def write_long_run(path, seed):
    """Writes a timeline of 5 million events: blocks of 300 sizes, of which others are live in each of 20 phases."""
    rng = random.Random(seed)
    sizes = [rng.randint(1, rng.choice([200, 1_000, 16_000])) for _ in range(300)]
    lines, live = ["timeline"], []
    chance = rng.random
    while len(lines) <= 5_000_000:
        favoured = rng.sample(sizes, 40)
        for up in (0.8, 0.5, 0.25):
            for _ in range(83_400):
                if live and chance() > up:
                    at = int(chance() * len(live))
                    live[at], live[-1] = live[-1], live[at]
                    lines.append(f"-{live.pop()}")
                else:
                    size = favoured[int(chance() * 40)]
                    live.append(size)
                    lines.append(f"{size}")
    with open(path, "w") as file:
        file.write("\n".join(lines[:5_000_001]))


def costs(program, path):
    """A failure where `fit` of a long run takes too long, or too much memory. The least time of up to five runs decides."""
    failures: list = []
    seconds = checks.least(lambda: cost(program, path, failures), MOST_SECONDS)
    return failures or [f"fit of 5 million events takes {seconds:.1f} seconds"] * (seconds > MOST_SECONDS)


def cost(program, path, failures):
    """The time of a run. The memory of this process counts too, until the program begins."""
    with open(path, "rb") as given, tempfile.TemporaryFile() as made:
        started = subprocess.Popen([program, "fit", "--limit", "32"], stdin=given, stdout=made)
        _, status, used = os.wait4(started.pid, 0)
        started.returncode = os.waitstatus_to_exitcode(status)
        made.seek(0)
        out = made.read().decode()
    seconds, megabytes = used.ru_utime + used.ru_stime, used.ru_maxrss / 1024
    if started.returncode != 0 or not re.search(r"(?m)^moments \d", out):
        failures.append(f"fit of 5 million events: status {started.returncode} and {out[:200]!r}")
    if megabytes > MOST_MEGABYTES:
        failures.append(f"fit of 5 million events takes {megabytes:.0f} MB")
    return seconds


def part_of(programs, seed, whole, part, parts):
    """One of so many parts of all that is tried."""
    rng = random.Random(f"{seed} {part}")
    trial = Trial(*programs)
    for _ in range((10_000 if whole else 400) // parts):
        trial.small(rng)
    for _ in range((400 if whole else 20) // parts):
        trial.larger(rng)
    return trial


class Timeline(checks.Part):
    def test_timelines(self):
        folder = self.folder()
        program, plain = checks.any_program(folder), "" if checks.is_missing("rustc") else checks.compiled_plain(folder)
        if program == "":
            pytest.skip("without a program and rustc: timeline")
        programs = (program or checks.PROGRAM, plain or None)
        parts = os.cpu_count() or 1
        with ProcessPoolExecutor(parts) as pool:
            written = pool.submit(write_long_run, os.path.join(folder, "long"), checks.options.seed)
            jobs = [pool.submit(part_of, programs, checks.options.seed, checks.options.all, part, parts) for part in range(parts)]
            trials = [faults(*programs)] + [job.result() for job in jobs]
            written.result()
        too_much = costs(programs[0], os.path.join(folder, "long"))
        expect("the costs of a run of 5 million events", not too_much, *too_much)
        verdicts = sum((trial.verdicts for trial in trials), Counter())
        for trial in trials:
            checks.add_outcomes(trial.runs, trial.failures)
        for code in (40, 41, 47, 49, 53):
            expect(f"a fit is refused with {code} {CODES[code]}", verdicts[code])


def add_options(parser):
    parser.add_argument("--all", action="store_true", help='10,000 small timelines, and 400 larger ones: some minutes. Without it a sample of them')
    parser.add_argument("--seed", type=int, default=1, metavar="N", help="the seed of what is random (1)")


if __name__ == "__main__":
    checks.main()
