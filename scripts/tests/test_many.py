"""Tests of examples/default: that its table is what the fit of the kept histories gives, that the held-out programs are
those that were drawn and have no history there, the search against every table of small cases, and the driver over four
tiny programs, from the recording on."""

import itertools
import os
import random
import subprocess
import sys

import checks
from checks import expect
from mte_scripts import certificate_texts, text_files
from mte_scripts.places import EXAMPLES, ROOT

FOLDER = os.path.join(EXAMPLES, "default")
sys.path.insert(0, FOLDER)

import histories  # noqa: E402
import programs  # noqa: E402
import scudo_runs  # noqa: E402
import search  # noqa: E402

ROWS = """name	kind	source	package	version	inputs	command
sort	text	coreutils	coreutils	1	a.txt=text:3000	sort -k 2 a.txt
ls	text	ls	coreutils	1	a=folder:30	ls -lR a
cat	text	cat	coreutils	1	a.txt=text:300	cat < a.txt
awk	script	mawk	mawk	1	a.txt=text:3000	awk '{ l[NR] = $0 } END { print length(l) }' a.txt
"""


def commands_output(*words):
    """What the driver prints."""
    driver = [os.path.join(FOLDER, "corpus"), *words]
    return subprocess.run(driver, stdin=subprocess.DEVNULL, capture_output=True, text=True, check=True).stdout


def bytes_taken(history, classes):
    """What a table takes, counted need by need."""
    most = 0
    for place, each in enumerate(classes):
        below = classes[place - 1] if place else 0
        served = [row for need, row in zip(history.needs, history.counts) if below < need <= each]
        most += 16 * each * max(map(sum, zip(*served)), default=0)
    return most


class Search(checks.Part):
    def test_small_cases(self):
        """All tables of at most three classes of some needs, and 1024."""
        draw = random.Random(1)
        for case in range(4):
            needs = sorted(draw.sample(range(2, 1000), 7))
            given = [search.History(needs, [[draw.randrange(50) for _ in range(4)] for _ in needs]) for _ in range(3)]
            weights = [draw.randrange(1, 9) for _ in given]
            low = search.lowest([1024], None)
            costs = search.no_costs(low)
            for history, weight in zip(given, weights):
                costs = costs.plus(search.costs_of(history, weight, low))
            classes, cost = search.least(costs, 3)
            tables = [[*each, 1024] for count in (0, 1, 2) for each in itertools.combinations(needs, count)]
            sums = [
                sum(weight * bytes_taken(history, table) for history, weight in zip(given, weights)) for table in tables
            ]
            own = sum(weight * bytes_taken(history, classes) for history, weight in zip(given, weights))
            expect(f"case {case}: the least of all tables", cost == min(sums) == own, cost, min(sums), own, classes)

    def test_bound(self):
        """No class is above 5/4 of the default's for the same size."""
        default = histories.default_table()
        low = search.lowest(default, search.ABOVE)
        for j in range(4, 1025):
            reached = [i for i in range(2, j) if 4 * j <= 5 * search.class_of(default, i + 1)]
            expect(f"the least class before {j}", low[j] == reached[0], low[j], reached[:1])


class Files(checks.Part):
    """The files of examples/default."""

    def test_held_out(self):
        rows = programs.programs()
        drawn = programs.draw_held_out(rows)
        expect("the held-out programs", {each.name: each.digest() for each in drawn} == programs.read_held_out())
        families = {each.source for each in drawn}
        expect("no family is on both sides", not any(each.source in families for each in rows if each not in drawn))
        kept = histories.read_histories()
        expect("the corpus has the histories", list(kept) == [each.name for each in rows if each not in drawn])

    def test_table(self):
        given, classes = list(histories.read_histories().values()), certificate_texts.class_line(histories.CLASSES)
        expect("the table is the fit of the histories", histories.fit_table(given) == classes, classes)
        default = histories.default_table()
        weights = [search.weight_of(each, default) for each in given]
        own = sum(weight * bytes_taken(each, classes) for each, weight in zip(given, weights))
        draw = random.Random(2)
        for place in draw.sample(range(len(classes) - 1), 6):
            moved = [*classes]
            moved[place] += draw.choice([-1, 1])
            if len({*moved}) == len(moved) and all(
                4 * search.class_of(moved, need) <= 5 * search.class_of(default, need) for need in range(3, 1025)
            ):
                other = sum(weight * bytes_taken(each, moved) for each, weight in zip(given, weights))
                expect(f"{classes[place]} moved to {moved[place]}", other >= own, other, own)

    def test_figures(self):
        """The means and the worst of the documents are those of the runs, worked out here."""
        runs: dict = {}
        held = programs.read_held_out()
        for line in text_files.read(scudo_runs.MEASURED).decode().splitlines():
            name, table, peaks, _, _ = line.split("\t")
            if name in held:
                runs.setdefault(table, {})[name] = sorted(map(int, peaks.split(",")))[2]
        for table, label in (("android", "Android's"), ("many", "one table for 69 other programs")):
            changes = [100 * (peak / runs["default"][name] - 1) for name, peak in runs[table].items()]
            mean, above = sum(changes) / len(changes), sum(each > 0.2 for each in changes)
            expect(f"{label}: five runs of 35 programs", len(changes) == 35, len(changes))
            with open(os.path.join(ROOT, "docs/MEASUREMENTS.md"), encoding="utf-8") as file:
                row = next(line for line in file if line.startswith(f"| {label} |"))
            rest = f"| {max(changes):+.2f}% | {above} |"
            expect(f"{label}: the row", f"| {mean:+.2f}% (" in row and rest in row, row, mean, rest)
            said = next(line for line in commands_output("figures").splitlines() if f"  {table} by default:" in line)
            expect(
                f"{label}: what the driver says",
                f"mean {mean:+.2f}%" in said and f"worst {max(changes):+.2f}%" in said,
                said,
            )

    def test_size(self):
        sizes = [os.path.getsize(os.path.join(FOLDER, name)) for name in os.listdir(FOLDER)]
        expect("at most 1 MB", sum(sizes) <= 1 << 20, sizes)


class Driver(checks.Part):
    def test_tiny_programs(self):
        checks.need("cc awk sort prlimit", "the driver over tiny programs")
        place = self.folder()
        with open(f"{place}/programs.tsv", "w", encoding="utf-8") as file:
            file.write(ROWS)
        environment = {**os.environ, "TABLE": f"{place}/programs.tsv"}

        def run(*words):
            done = subprocess.run(
                [os.path.join(FOLDER, "corpus"), *words],
                env=environment,
                stdin=subprocess.DEVNULL,
                capture_output=True,
                text=True,
            )
            expect(f"corpus {words[0]}", done.returncode == 0, done.stderr)
            return done.stdout

        said = run("record", f"{place}/work")
        expect("each is recorded", said.count("status 0") == 4, said)
        run("draw")
        with open(f"{place}/held_out.sha256", encoding="ascii") as file:
            held = [line.split()[1] for line in file]
        expect("a third of four is held out", len(held) == 2, held)
        reduced, fitted = run("reduce", f"{place}/work").splitlines(), run("fit")
        expect(
            "the fit of what is kept is the last one",
            reduced[-1] == fitted.strip() and reduced[-1] == reduced[-2],
            reduced,
            fitted,
        )
        with open(f"{place}/held_out.sha256", "w", encoding="ascii") as file:
            file.write(f"{'0' * 64} {held[0]}\n")
        done = subprocess.run(
            [os.path.join(FOLDER, "corpus"), "reduce", f"{place}/work"], env=environment, capture_output=True, text=True
        )
        expect("a row that changed is refused", done.returncode == 3 and held[0] in done.stderr, done.stderr)
