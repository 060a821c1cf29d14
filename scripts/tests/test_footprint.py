#!/usr/bin/env -S python3 -B
"""Tests of footprints and fits against their definitions, over all tables.

Compare the commands `footprint`, `fit` and `check-fit` with what their definitions say, tried over all tables; and `peaks` with what is
counted at each moment. The program is the one that MTE_TOOL names, else the proved one where it is built, else the plain one of scripts/tests/plain.
"""

import itertools
import os
import random
import subprocess
from collections import Counter, namedtuple
from concurrent.futures import ProcessPoolExecutor

import checks
import pytest
from checks import expect
from mte_scripts import formats

MOST_NUMBER = 2**64 - 1
# the refusals of a fit over a history: 42 is of sheets, 53 of fits over timelines
CODES = {code: it.name for code, it in formats.CODES.items() if it.status == 1 and code not in (42, 53)}

# the sizes of the small histories: they need 2, 3, 5 and 6 granules. No request needs 4 or 7
SMALL_SIZES = (16, 32, 64, 80)
SMALL_CLASSES = range(2, 8)

# `counts` has for each counted size, ascending, its count at each snapshot; `large` is None, or the counts of a line `large`
History = namedtuple("History", "snapshots counts large")
Fit = namedtuple("Fit", "classes limit step footprint rows")


# ---- the definitions


def need(size, step):
    """The granules that a request needs with its header, rounded up to the step."""
    granules = 1 + max(1, (size + 15) // 16)
    return (granules + step - 1) // step * step


def class_of(classes, size):
    """The least class that serves a size, or None."""
    return next((c for c in classes if 16 * c - 16 >= size), None)


def footprint(history, classes):
    """The footprint of a table in bytes; None where it does not serve a counted size."""
    blocks = {c: [0] * history.snapshots for c in classes}
    for size, counts in history.counts.items():
        its = class_of(classes, size)
        if its is None:
            return None
        blocks[its] = [sum(pair) for pair in zip(blocks[its], counts)]
    return sum(16 * c * max(blocks[c]) for c in classes)


def unserved_size(history, classes):
    return next((size for size in history.counts if class_of(classes, size) is None), None)


def peaks(events, classes):
    """What `peaks` writes of a timeline: a class keeps as many blocks as it ever had at once."""
    live, moments = [0] * len(classes), [[0] * len(classes)]
    sizes = {int(it) for it in events if it[0] != "-" and it != "large"}
    if without := sorted(size for size in sizes if class_of(classes, size) is None):
        return f"not serving {without[0]}\n"
    for it in events:
        if (size := it.removeprefix("-")) != "large":
            live[classes.index(class_of(classes, int(size)))] += -1 if it[0] == "-" else 1
        moments.append(list(live))
    by_class = [list(counts) for counts in zip(*moments)]
    most = list(map(max, by_class))
    kept = [sum(max(counts[: at + 1]) for counts in by_class) for at in range(len(moments))]
    lines = [line("peaks", most), line("moments", [counts.index(peak) for counts, peak in zip(by_class, most)]),
             line("live", [max(sum(16 * c * n for c, n in zip(classes, now)) for now in moments)]),
             line("freed", [max(has - sum(now) for has, now in zip(kept, moments))])]
    return "".join(lines)


def tables(classes, most):
    """All tables of at most so many of these classes."""
    return itertools.chain.from_iterable(itertools.combinations(classes, n) for n in range(most + 1))


def uses_all(history, classes):
    return {class_of(classes, size) for size in history.counts} == set(classes)


def needs_of(history, step):
    return sorted({need(size, step) for size in history.counts})


def sizes_above(history, low, step):
    """The history of the sizes whose need is above `low`."""
    return history._replace(counts={size: counts for size, counts in history.counts.items() if need(size, step) > low})


def best_fit(history, limit, step, classes):
    """The fit that `fit` writes, of all tables of these classes: among them are all needs, rounded up to the step."""
    found = [(footprint(history, table), table) for table in tables(classes, limit)]
    least = min(value for value, table in found if value is not None)
    table = min(table for value, table in found if value == least and uses_all(history, table))
    columns = [least_by_limit(sizes_above(history, low, step), limit, step) for low in [0, *needs_of(history, step)][:-1]]
    return Fit(table, limit, step, least, [[column[k] for column in columns] for k in range(limit)])


def least_by_limit(history, limit, step):
    """The least footprint of at most 1, 2, .. classes; a class that is no need is never better than the greatest need below it."""
    least = [None] * limit
    for table in tables(needs_of(history, step), limit):
        value = footprint(history, table)
        if value is not None:
            for k in range(max(len(table), 1), limit + 1):
                if least[k - 1] is None or value < least[k - 1]:
                    least[k - 1] = value
    return least


def verdict(history, fit):
    """The code of the first condition that a fit breaks, or None: docs/FORMATS.md has them in order."""
    if any(c % fit.step for c in fit.classes):
        return 39
    if len(fit.classes) > fit.limit:
        return 40
    value = footprint(history, fit.classes)
    if value is None:
        return 41
    if value != fit.footprint:
        return 49
    places = [0, *needs_of(history, fit.step)]
    last = len(places) - 1
    rows = fit.rows
    if len(rows) != fit.limit or any(len(row) != last for row in rows):
        return 43

    def span(i, j):
        inside = [counts for size, counts in history.counts.items() if places[i] < need(size, fit.step) <= places[j]]
        return 16 * places[j] * max(map(sum, zip(*inside)))

    if any(rows[0][i] > span(i, last) for i in range(last)):
        return 44
    pairs = list(zip(rows, rows[1:]))
    if any(number > before[i] for before, row in pairs for i, number in enumerate(row)):
        return 45
    edges = {(i, j): span(i, j) for i in range(last) for j in range(i + 1, last + 1)} if pairs else {}
    if any(row[i] > cost + (before[j] if j < last else 0) for before, row in pairs for (i, j), cost in edges.items()):
        return 46
    return 47 if (rows[-1][0] if last else 0) != fit.footprint else None


# ---- texts


def line(word, numbers):
    return " ".join([word, *map(str, numbers)]) + "\n"


def history_text(history):
    lines = [line("snapshots", [history.snapshots])]
    lines += [line(str(size), counts) for size, counts in history.counts.items()]
    return "".join(lines + ([line("large", history.large)] if history.large else []))


def fit_text(fit):
    lines = [line("classes", fit.classes), line("limit", [fit.limit])] + ([line("step", [fit.step])] if fit.step > 1 else [])
    return "".join(lines + [line("footprint", [fit.footprint])] + [line("row", row) for row in fit.rows])


# ---- what is tried


def spoil_fit(rng, history, fit):
    """The fit with something changed, which may still show that it is the best one."""
    classes, rows = list(fit.classes), [list(row) for row in fit.rows]
    k, i = rng.randrange(len(rows)), rng.randrange(len(rows[0]) if rows[0] else 1)
    way = rng.randrange(12)
    if way == 0 and classes:
        classes[rng.randrange(len(classes))] += rng.choice([-1, 1, fit.step])
    elif way == 1 and classes:
        classes.pop(rng.randrange(len(classes)))
    elif way == 2:
        classes.append(fit.step * rng.randint(1, 60))
    elif way == 3:
        return fit._replace(limit=rng.choice([n for n in (fit.limit - 1, fit.limit + 1) if 1 <= n <= 32]))
    elif way == 4:
        return fit._replace(step=rng.choice([1, 2, 4, 8]))
    elif way == 5:
        return fit._replace(footprint=max(0, fit.footprint + rng.choice([-16, -1, 1, 16])))
    elif way == 6:
        rows.pop(k)
    elif way == 7:
        rows[k] = rows[k][:-1] if rng.random() < 0.5 else rows[k] + [0]
    elif way == 8 and rows[k]:
        rows[k][i] = rng.choice([0, MOST_NUMBER, rng.randint(0, 2 * rows[k][i])])
    elif way == 9 and rows[k]:
        rows[k][i] = max(0, rows[k][i] + rng.choice([-1, 1]))
    elif way == 10 and rows[0]:  # a later row is raised up to the row before it: what stands against it is an edge, if anything does
        rows[k][i] = rows[k - 1][i] if k else rows[k][i]
    elif way == 11 and rows[0]:  # less is claimed than any table has, and the rows go with it
        rows[-1][0] = max(0, rows[-1][0] - 1)
        return fit._replace(rows=rows, footprint=rows[-1][0])
    classes = sorted({c for c in classes if 2 <= c <= 1024})
    value = footprint(history, classes)
    return fit._replace(classes=classes, rows=rows, footprint=fit.footprint if value is None else value)


def small_histories(snapshots):
    """The small histories of so many snapshots, which stand in one order."""
    for columns in itertools.combinations_with_replacement(itertools.product(range(3), repeat=len(SMALL_SIZES)), snapshots):
        rows = zip(SMALL_SIZES, zip(*columns))
        yield History(snapshots, {size: counts for size, counts in rows if any(counts)}, None)


def random_events(rng):
    """The events of a timeline, with as many frees as it bears."""
    events, live = [], []
    for _ in range(rng.randint(0, 80)):
        if live and rng.random() < 0.5:
            events.append("-" + live.pop(rng.randrange(len(live))))
        else:
            live.append("large" if rng.random() < 0.05 else str(rng.choice([rng.randint(0, 700), rng.randint(0, 700), formats.LARGEST_SIZE])))
            events.append(live[-1])
    return events


def random_history(rng):
    snapshots = rng.choice([1, 2, 3, 5, 8, rng.randint(1, 64)])
    top = rng.choice([100, 2_000, formats.LARGEST_SIZE])
    most = rng.choice([1, 3, 1_000, 1_000_000_000])
    counts = {}
    for size in sorted(rng.sample(range(top + 1), rng.randint(0, 9))):
        row = [rng.randint(0, most) if rng.random() < 0.7 else 0 for _ in range(snapshots)]
        if any(row):
            counts[size] = row
    large = [rng.randint(0, 2) for _ in range(snapshots)]
    return History(snapshots, counts, large if any(large) and rng.random() < 0.3 else None)


def run(program, words, text):
    done = subprocess.run([program, *words], input=text.encode(), stdout=subprocess.PIPE, stderr=subprocess.PIPE)
    return done.returncode, done.stdout.decode(), done.stderr.decode()


class Trial:
    """Runs of the program, with what went wrong and which verdicts came."""

    def __init__(self, program):
        self.program = program
        self.runs = 0
        self.failures = []
        self.verdicts = Counter()

    def expect(self, status, out, words, text):
        self.runs += 1
        got = run(self.program, words, text)
        if got[:2] != (status, out):
            self.failures.append(f"{' '.join(words)} of {text!r}: status {got[0]} and {got[1]!r}, not {status} and {out!r}")

    def fit(self, history, limit, step, classes):
        fit = best_fit(history, limit, step, classes)
        options = ["--limit", str(limit)] + (["--step", str(step)] if step > 1 else [])
        self.expect(0, fit_text(fit), ["fit", *options], history_text(history))
        return fit

    def check(self, history, fit, least):
        code = verdict(history, fit)
        self.verdicts[code] += 1
        if code is None and fit.footprint != least:
            self.failures.append(f"{fit_text(fit)!r} of {history_text(history)!r} meets all conditions, and the least footprint is {least}")
        out = "optimal\n" if code is None else f"refused {code} {CODES[code]}\n"
        self.expect(0 if code is None else 1, out, ["check-fit"], fit_text(fit) + history_text(history))

    def footprint(self, history, classes):
        value = footprint(history, classes)
        out = f"not serving {unserved_size(history, classes)}\n" if value is None else f"footprint {value}\n"
        self.expect(1 if value is None else 0, out, ["footprint"], line("classes", classes) + history_text(history))

    def small(self, rng, history):
        for limit in (1, 2, 3):
            fit = self.fit(history, limit, 1, SMALL_CLASSES)
        self.check(history, fit, fit.footprint)
        self.check_spoiled(rng, history, fit)
        self.footprint(history, rng.choice(list(tables(SMALL_CLASSES, 3))))

    def larger(self, rng):
        history, step, limit = random_history(rng), rng.choice([1, 1, 2, 4, 8]), rng.randint(1, 5)
        needs = needs_of(history, step)
        others = {c for c in (step * rng.randint(1, 128) for _ in range(2)) if 2 <= c <= 1024}
        fit = self.fit(history, limit, step, sorted({*needs, *others}))
        self.check(history, fit, fit.footprint)
        for _ in range(4):
            self.check_spoiled(rng, history, fit)
        self.footprint(history, sorted(rng.sample(range(2, 1025), rng.randint(0, 32))))

    def peaks(self, events, classes):
        out = peaks(events, classes)
        self.expect(1 if out.startswith("not") else 0, out, ["peaks"], line("classes", classes) + "timeline\n" + "".join(f"{it}\n" for it in events))

    def check_spoiled(self, rng, history, fit):
        other = spoil_fit(rng, history, fit)
        least = fit.footprint
        if (other.limit, other.step) != (fit.limit, fit.step):
            least = least_by_limit(history, other.limit, other.step)[-1]
        self.check(history, other, least)


# inputs without the form, and what is wrong with them; a program that shows no codes has to refuse them with the same status
FAULTS = {  # by the words, a fault and its texts
    "fit --limit 2": {"34 BadSnapshots line 1": ["", "16 1\n", "snapshots 0\n", "snapshots 1025\n", "snapshots 1 1\n"],
                      "30 BadLine line 2": ["snapshots 2\n16 1 01\n", f"snapshots 2\n{formats.LARGEST_SIZE + 1} 1 1\n"],
                      "30 BadLine line 3": ["snapshots 2\nlarge 1 1\n16 1 1\n", "snapshots 2\n16 1 1\n\n"],
                      "35 WrongLength line 3": ["snapshots 2\n16 1 1\n8 0\n"],
                      "35 WrongLength line 2": ["snapshots 2\n16 1 1 1\n"],
                      "31 NotAscending line 3": ["snapshots 2\n16 1 1\n16 0 0\n"],
                      "32 CountOutOfRange line 2": ["snapshots 2\n16 0 0\n", "snapshots 2\n16 1 1000000001\n",
                      "snapshots 2\nlarge 0 0\n"]},
    "footprint": {"21 OutOfRange line 1": ["classes 1\nsnapshots 1\n"],
                  "30 BadLine line 3": ["classes 2\nsnapshots 1\n16 x\n"]},
    "check-fit": {"36 BadFit line 3": ["classes 2\nlimit 1\nwaste 0\nrow\nsnapshots 1\n",
                  "classes 2\nlimit 1\nstep 1\nfootprint 0\nrow\nsnapshots 1\n"],
                  "36 BadFit line 2": ["classes 2\nlimit 33\nfootprint 0\nrow\nsnapshots 1\n"],
                  "36 BadFit line 4": ["classes 2\nlimit 1\nstep 2\nfootprint 18446744073709551616\nrow\nsnapshots 1\n"],
                  "36 BadFit line 36": ["classes\nlimit 32\nfootprint 0\n" + "row\n" * 33 + "snapshots 1\n"],
                  "34 BadSnapshots line 6": ["classes\nlimit 1\nfootprint 0\nrow\nrow 1\nsnapshots 0\n"]}}


def cases_of(faults):
    """The words, a text and its fault of each."""
    return [(words, text, fault) for words, found in faults.items() for fault, texts in found.items() for text in texts]


def faults(program):
    trial = Trial(program)
    for words, text, fault in cases_of(FAULTS):
        trial.runs += 1
        status, out, err = run(program, words.split(), text)
        if status != 2 or out or (err.startswith("error ") and err != f"error {fault}\n"):
            trial.failures.append(f"{words} of {text[:200]!r}: status {status}, {out!r} and {err!r}, not 2 and {fault}")
    # the history that counts nothing
    trial.expect(0, "classes\nlimit 2\nfootprint 0\nrow\nrow\n", ["fit", "--limit", "2"], "snapshots 1024")
    return trial


def part_of(program, seed, whole, part, parts):
    """One of so many parts of all that is tried."""
    rng = random.Random(f"{seed} {part}")
    trial = Trial(program)
    histories = itertools.chain.from_iterable(small_histories(t) for t in (1, 2, 3))
    for at, history in enumerate(histories):
        if at % parts == part and (whole or rng.random() < 0.003):
            trial.small(rng, history)
    for _ in range((2_000 if whole else 60) // parts):
        trial.larger(rng)
        events = random_events(rng)
        trial.peaks(events, sorted(rng.sample(range(2, 45), rng.randint(0, 5))))
        trial.peaks(events, sorted(rng.sample(range(2, 45), rng.randint(0, 5))) + [1024])
    return trial


class Footprint(checks.Part):
    def test_histories(self):
        if (program := checks.any_program(self.folder())) == "":
            pytest.skip("without rustc: footprint")
        program = program or checks.PROGRAM
        parts = os.cpu_count() or 1
        with ProcessPoolExecutor(parts) as pool:
            jobs = [pool.submit(part_of, program, checks.options.seed, checks.options.all, part, parts) for part in range(parts)]
            trials = [faults(program)] + [job.result() for job in jobs]
        verdicts = sum((trial.verdicts for trial in trials), Counter())
        for trial in trials:
            checks.add_outcomes(trial.runs, trial.failures)
        for code in CODES:
            expect(f"a fit is refused with {code} {CODES[code]}", verdicts[code])


def add_options(parser):
    parser.add_argument("--all", action="store_true", help='every history of at most 3 snapshots, 4 needs and counts 0 to 2, up to the order of its snapshots, at the limits 1 to 3, and 2,000 random larger ones: some minutes. Without it a sample of them: some seconds')
    parser.add_argument("--seed", type=int, default=1, metavar="N", help="the seed of what is random (1)")


if __name__ == "__main__":
    checks.main()
