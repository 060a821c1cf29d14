#!/usr/bin/env -S python3 -B
"""Tests of the histories between which a run of any length lies: what every table takes over the lower one, over the run and over the upper
one, in this order; what a given table takes over the run; and that the reader makes the same of a program as of its timeline. Needs a C
compiler."""

import itertools
import os
import random
import re
import subprocess
from concurrent.futures import ProcessPoolExecutor

import checks
import commands
import pytest
from checks import expect
from mte_scripts import count_texts
from mte_scripts.entry_point import Refusal
from mte_scripts.formats import LARGEST_SIZE
from mte_scripts.places import SCRIPTS
from mte_scripts.recording.recording import ReaderResult
from mte_scripts.tables import long_runs

HERE = os.path.dirname(os.path.realpath(__file__))
TABLES = [table for number in (1, 2, 3) for table in itertools.combinations(range(2, 8), number)]
SMALL = ("-DIN_WINDOW=3", "-DPIECE=7")  # windows and pieces of a few events

# ---- the definitions, over moments: the live blocks by size


def moments_of(events):
    live, moments = {}, [{}]
    for event in events:
        size = event.lstrip("-")
        live[size] = live.get(size, 0) + (-1 if event[0] == "-" else 1)
        moments.append({size: count for size, count in live.items() if count})
    return moments


def snapshots_of(text):
    first, *lines = text.splitlines() or ["snapshots 0"]
    moments = [{} for _ in range(int(first.split()[1]))]
    for size, *counts in map(str.split, lines):
        for moment, count in zip(moments, counts, strict=True):
            if int(count):
                moment[size] = moment.get(size, 0) + int(count)
    return moments


def footprint(moments, table):
    """None where the table does not serve a size."""
    most = {}
    for moment in moments:
        blocks = {}
        for size in moment.keys() - {"large"}:
            serving = [each for each in table if 16 * each - 16 >= int(size)]
            if not serving:
                return None
            blocks[serving[0]] = blocks.get(serving[0], 0) + moment[size]
        most = {each: max(most.get(each, 0), blocks.get(each, 0)) for each in {*most, *blocks}}
    return sum(16 * each * count for each, count in most.items())


# ---- small runs, in windows of three events


def small_run(rng):
    sizes = [str(rng.randint(0, 96)) for _ in range(rng.randint(1, 6))] + ["large"] * (rng.random() < 0.2)
    live, events, up = [], [], rng.choice([0.5, 0.6, 0.8])
    for _ in range(rng.choice([0, 1, 5, 30, 100])):
        if live and rng.random() > up:
            events.append(f"-{live.pop(rng.randrange(len(live)))}")
        else:
            live.append(rng.choice(sizes))
            events.append(live[-1])
        if rng.random() < 0.05:
            up = 1.3 - up
    return events


def histories(reader, events, number, tables, moments):
    """What the reader keeps of a timeline: its notes, the texts of the two histories, and the moments of the first."""
    shared = os.memfd_create("found", 0)
    wanted = " ".join(map(str, ["windows", number, *moments]))
    words = [reader, str(shared), "", wanted, "", ",".join(" ".join(map(str, table)) for table in tables), "-"]
    subprocess.run(words, input="".join(f"{line}\n" for line in ["timeline", *events]).encode(), close_fds=False, check=True)
    notes, found = ReaderResult(shared).notes(), ReaderResult(shared).texts()
    os.close(shared)
    return notes, found.wanted.decode(), found.upper.decode(), list(map(int, found.moments.split()))


def at_most(one, other):
    return all(count <= other.get(size, 0) for size, count in one.items())


def are_windows(run, upper):
    """Whether each moment of the run has at most as many blocks of every size as one of these, and each of these the most of some window."""
    found = []
    for first in range(len(run)):
        most = {}
        for moment in run[first:]:
            most = {size: max(most.get(size, 0), moment.get(size, 0)) for size in {*most, *moment}}
            if not any(at_most(most, each) for each in upper):
                break
            found += [most] * (most in upper)
    return all(any(at_most(moment, each) for each in upper) for moment in run if moment) and all(each in found for each in upper)


def wrong_histories(run, lower, upper):
    """What these texts have that histories of a run's moments and windows have not; None where there is nothing."""
    try:
        parsed = [count_texts.parse_history(text.encode()) if text else None for text in (lower, upper)]
    except Refusal as refused:
        return refused.text
    moments, windows = snapshots_of(lower), snapshots_of(upper)
    if parsed[0] and parsed[1] and not long_runs.is_within(parsed[0], upper.encode()):
        return "a moment is in no window"
    if any(moment not in run for moment in moments) or not are_windows(run, windows):
        return f"they are not of the run: {moments}, {windows}"
    return None


def spoil_text(text, rng):
    """The text with one field, line or column that is another."""
    lines = [line.split() for line in text.splitlines()]
    row = rng.randrange(len(lines))
    way = rng.randrange(6)
    if way == 0 and row:
        lines.pop(row)
    elif way == 1 and row:
        lines.append(lines[row])
    elif way == 2 and len(lines) > 1:
        at = rng.randrange(1, len(lines[1]))
        lines = [["snapshots", str(int(lines[0][1]) - 1)], *(line[:at] + line[at + 1 :] for line in lines[1:])]
    else:
        at = rng.randrange(len(lines[row]))
        lines[row][at] = rng.choice(["", "x", "-1", "01", "0", "1", "96", "large", str(rng.randrange(9)), f"{lines[row][at]}0"])
    return "".join(" ".join(line) + "\n" for line in lines)


def wrong_of(reader, rng):
    """What is wrong with one small run's histories; None where nothing is."""
    events, number = small_run(rng), rng.choice([1, 2, 3, 8, 64])
    given = [sorted(rng.sample(range(2, 8), rng.randint(1, 4))) for _ in range(rng.randint(0, 3))]
    wanted = sorted(rng.sample(range(1, 2 + len(events)), rng.randint(0, min(5, 1 + len(events)))))
    notes, lower_text, upper_text, at = histories(reader, events, number, given, wanted)
    lower, upper, run = snapshots_of(lower_text), snapshots_of(upper_text), moments_of(events)
    if notes.events != len(events) or len(upper) > number or lower != [run[each] for each in at]:
        return f"{events}: {notes.events} events, {len(upper)} windows, or other moments than {at}: {lower}"
    if missing := [each for each in wanted if each <= len(events) and run[each] and each not in at]:
        return f"{events}: the moments {missing} are not kept"
    if wrong := wrong_histories(run, lower_text, upper_text):
        return f"{events}, {number} windows: {wrong}"
    if lower and (wrong := wrong_where_spoiled(run, lower_text, upper_text, rng)):
        return f"{events}, {number} windows: {wrong}"
    for table, taken in zip(given, notes.taken):
        wanted = footprint(run, table)
        if (None if taken < 0 else taken) != wanted or footprint(lower, table) != wanted:
            return f"{events}: {table} takes {wanted}, and not {taken} and {footprint(lower, table)}"
    over = {table: [footprint(each, table) for each in (lower, run, upper)] for table in TABLES}
    for table, (low, exact, high) in over.items():
        if (low is None, exact is None) != (high is None,) * 2 or (exact is not None and not low <= exact <= high):
            return f"{events}, {number} windows: {table} takes {low}, {exact} and {high}"
    least = [min(column) for column in zip(*(each for each in over.values() if None not in each))]
    return None if least == sorted(least) else f"{events}: the least footprints are {least}"


def wrong_where_spoiled(run, lower, upper, rng):
    """What is wrong where one of the histories is spoiled: it is refused, or the least footprint is still between the two."""
    bad_lower, bad_upper = (spoil_text(lower, rng), upper) if rng.random() < 0.5 else (lower, spoil_text(upper, rng))
    if wrong_histories(run, bad_lower, bad_upper):
        return None
    over = [[footprint(each, table) for table in TABLES] for each in (snapshots_of(bad_lower), run, snapshots_of(bad_upper))]
    least = [min((taken for taken in column if taken is not None), default=None) for column in over]
    return None if None in least or least == sorted(least) else f"a spoiled history is taken, and its interval is wrong: {bad_lower}{bad_upper}: {least}"


def wrong_ones(reader, seed, number):
    rng = random.Random(seed)
    return [wrong for _ in range(number) if (wrong := wrong_of(reader, rng))]


# ---- long runs


def few_wide_or_bursts(kind, count, rng):
    """60 sizes, of blocks that live long and short; 1,000; or phases in which one size after the other is live in masses."""
    number = {"few": 60, "wide": 1000, "bursts": 200}[kind]
    of = [rng.randrange(1, LARGEST_SIZE + 1) if rng.random() < 0.15 else rng.randrange(1, 1200) for _ in range(number)]
    live = []
    for at in range(count):
        phase = at * 40 // count
        if live and rng.random() > 0.5 + 0.15 * (phase % 4 - 1.4):
            k = len(live) - 1 if kind == "bursts" else min(int(len(live) * (1 - rng.random() ** 3)), len(live) - 1)
            live[k], live[-1] = live[-1], live[k]
            yield f"-{live.pop()}\n"
        else:
            live.append(of[(phase * 5 + int(5 * rng.random())) % number if kind == "bursts" else int(number * rng.random() ** 2)])
            yield f"{live[-1]}\n"


def at_random(count, rng):
    """700 sizes; blocks grow and fall at random towards another number in each phase, in which some sizes are favoured."""
    of = [rng.randrange(1, 16001) if rng.randrange(6) == 0 else rng.randrange(1, 1501) for _ in range(700)]
    live = []
    for at in range(count):
        phase = at * 200 // count
        target = count // 500 + phase * 7919 % 97 * (count // 6000)
        if live and rng.random() < (0.45 if len(live) < target else 0.55):
            k = int(len(live) * rng.random())
            live[k], live[-1] = live[-1], live[k]
            yield f"-{live.pop()}\n"
        else:
            favours = rng.random() < 1 / 3
            live.append(of[(phase * 31 + int(20 * rng.random())) % 700 if favours else int(700 * rng.random())])
            yield f"{live[-1]}\n"


def write_run(path, kind, count, seed):
    rng = random.Random(f"{kind} {seed}")
    with open(path, "w") as file:
        file.write("timeline\n")
        file.writelines(at_random(count, rng) if kind == "random" else few_wide_or_bursts(kind, count, rng))


class Windows(commands.Commands):
    @classmethod
    def setup_class(cls):
        checks.need("cc", "the histories of a run of any length")
        super().setup_class()
        cls.compiled("-O1", "-fno-builtin", "-w", f"{HERE}/windows_program.c", "-o", f"{cls.place}/program")
        cls.compiled("-O2", *SMALL, f"{SCRIPTS}/shims/follow.c", "-o", f"{cls.place}/small")

    @staticmethod
    def compiled(*words):
        subprocess.run(["cc", *words], check=True)

    def tool(self, command, *texts):
        """What the program says of these texts, one after the other."""
        done = subprocess.run([self.program, command.split()[0], *command.split()[1:]], input="".join(texts).encode(), capture_output=True)
        expect(f"{command}: its status", done.returncode in (0, 1), done.stderr)
        return done.stdout.decode()

    def both(self, *words, status=0):
        """The two histories that profile_program makes."""
        lower = self.runs(status, "snapshots *", "profile_program", "--windows", "--upper", "upper", *words)
        return lower, self.read("upper")

    def measured(self, *names):
        """What was measured, with these names or any but a moment."""
        lines = [line.split() for line in self.read("measured").splitlines()]
        return [line for line in lines if (line[0] in names if names else line[0] != "moment")]

    def test_small(self):
        """Each table takes over the run at least what it takes over the lower history, and at most what it takes over the upper one."""
        number = 10_000 if checks.options.all else 1000
        with ProcessPoolExecutor(os.cpu_count()) as pool:
            parts = list(pool.map(wrong_ones, [self.path("small")] * 20, [f"{checks.options.seed} {part}" for part in range(20)], [number // 20] * 20))
        checks.add_outcomes(number, [wrong for part in parts for wrong in part])

    def test_long(self):
        """The interval of each is within 1%, where the table of the lower history is counted in another run. That of one more is the least."""
        place = checks.any_program(self.place)
        if place == "":
            pytest.skip("without a program and rustc: the fits of long runs")
        self.program = place or checks.built_program()
        count = 5_000_000 if checks.options.all else 500_000
        with ProcessPoolExecutor(2) as pool:
            list(pool.map(write_run, map(self.path, KINDS), KINDS, [count] * 4, [checks.options.seed] * 4))
        for kind in KINDS:
            self.compare_long(kind, count)

    def compare_long(self, kind, count):
        lower, upper = self.both("--import", kind)
        expect(f"{kind}: windows", 9 < int(upper.split()[1]) <= 64, upper[:20])
        timeline, fit = self.read(kind), self.tool("fit --limit 32", lower)
        table, low = fit.split("\n")[0], int(re.search("footprint (.*)", fit)[1])
        self.write("fit", fit)
        self.both("--measured", "before", "--import", kind)
        again, _ = self.both("--classes", "fit", "--again", "before", "--measured", "measured", "--peak", "peak", "--import", kind)
        self.compare_moments(kind, lower, again)
        expect(f"{kind}: measured", self.measured()[0] == ["events", str(count)], self.measured())
        high = int(self.measured()[-1][1])
        expect(f"{kind}: the interval", low <= high <= 1.01 * low, low, high)
        expect(f"{kind}: the fit's check", self.tool("check-fit", fit, lower) == "optimal\n")
        for words in (table, "classes 1024", "classes 4 9 20 40 130 1024", "classes 2 3 5 8 13 21 34 55 89 144 233 377 610 1024"):
            found = [self.tool("footprint", f"{words}\n", text) for text in (lower, again, timeline, upper)]
            taken = [int(each.split()[1]) for each in found]
            expect(f"{kind}: {words} over both and the run", taken == sorted(taken), taken)
            expect(f"{kind}: the table that is counted", words != table or taken[1] == taken[2] == high, taken, high)
        least = int(re.search("footprint (.*)", self.tool("fit --limit 32", timeline))[1])
        expect(f"{kind}: the least footprint is between", low <= least <= high, low, least, high)

    def compare_moments(self, kind, lower, again):
        """The moments of a run, by their numbers, are in another history of it."""
        before, after = ([int(line.split()[1]) for line in self.read(name).splitlines() if line.startswith("moment ")] for name in ("before", "measured"))
        columns, others = (dict(zip(at, snapshots_of(text), strict=True)) for at, text in ((before, lower), (after, again)))
        expect(f"{kind}: the moments of another run", columns.items() <= others.items() and before == sorted(before), before, after)

    def test_program(self):
        """The same of a program as of its timeline; also where it is killed, or another process requests too."""
        self.write("table", "classes 2 30 1024\n")
        for words, status in ((["x"], 0), (["kill"], 1), (["fork"], 0)):
            self.write("timeline", self.runs(status, "timeline\n*", "profile_program", "--timeline", "--upper", "none", "./program", *words))
            expect("--timeline --upper: there is none", not os.path.exists(self.path("none")))
            of_text = self.both("--measured", "measured", "--classes", "table", "--peak", "peak", "--import", "timeline")
            peak, found = self.read("peak"), self.measured()
            of_run = self.both("--measured", "measured", "--classes", "table", "--peak", "peak", "./program", *words, status=status)
            expect(f"{words}: the histories of a program and of its timeline", of_run == of_text)
            expect(f"{words}: the peak", self.read("peak").split("large")[0] == peak.split("large")[0] and peak)
            counted = [row for row in self.measured() if row[0] not in ("resident", "others")]
            expect(f"{words}: what is counted", counted == found[-2:] and found[-1][0] == "footprint", self.measured(), found)
            expect(f"{words}: whether another process requested", ["others", "1"] in self.measured() or words != ["fork"], self.measured())
            if words == ["fork"]:
                self.says("--windows counted one process")
        self.runs(1, "snapshots *", "profile_program", "--windows=1", "--upper", "upper", "./program", "kill")
        expect("one window", self.read("upper").startswith("snapshots 1\n"))
        self.runs(0, self.out.rstrip("\n"), "profile_program", "--windows=1", "--import", "-", given=self.killed())

    def killed(self):
        return self.runs(1, "timeline\n*", "profile_program", "--timeline", "./program", "kill")

    def test_edges(self):
        """Texts without events, of large blocks alone, of one event, and faulty ones."""
        for text in ("timeline\n", "timeline"):
            self.runs(3, "", "profile_program", "--windows", "--import", "-", given=text)
            self.says("counts nothing")
        self.runs(0, "snapshots 1\nlarge 1", "profile_program", "--windows", "--import", "-", given="timeline\nlarge\n-large\n")
        self.runs(0, "snapshots 1\n0 1", "profile_program", "--windows", "--import", "-", given="timeline\n0\n-0\n")
        self.runs(0, "snapshots 1\n16368 1\nlarge 1", "profile_program", "--windows", "--upper", "up", "--import", "-", given="timeline\nlarge\n16368\n")
        expect("a large block in the upper history", self.read("up") == "snapshots 1\n16368 1\nlarge 1\n", self.read("up"))
        for text, why in (("", "line 1"), ("snapshots 1\n", "line 1 is not `timeline`"), ("timeline\0\n", "line 1 is not `timeline`"),
                          ("timeline\n16369\n", "line 2 is no event"), ("timeline\n16\0\n", "line 2 is no event"),
                          ("timeline\n1\n01\n", "line 3 is no event"), ("timeline\n\n", "line 2 is no event"), ("timeline\n1\n-2\n", "line 3 frees no live"),
                          ("timeline\n1 \n", "line 2 is no event"), ("timeline\n" + 100 * "1", "line 2 is no event"), ("timeline\n-large\n", "line 2 frees")):
            self.runs(2, "", "profile_program", "--windows", "--import", "-", given=text)
            self.says(why)
        self.write("small", "classes 2 3\n")
        self.runs(0, "snapshots *", "profile_program", "--windows", "--classes", "small", "--measured", "measured", "--import", "-", given="timeline\n100\n")
        expect("a table that serves not all", self.measured() == [["events", "1"], ["footprint", "none"]], self.measured())
        self.write("measured", "")
        for text in ("", "moment\n", "moment 0\n", "moment x\n", "events 7\n", "moment 5\n" * 1025):
            self.write("again", text)
            self.runs(2, "", "profile_program", "--windows", "--again", "again", "./program")
            self.says("again does not name 1 to 1,024 moments: --measured of --windows does")
        for words in (["--windows=0"], ["--windows=513"], ["--windows", "--history"], ["--upper", "x"], ["--classes", "small", "--classes", "small"],
                      ["--history", "--classes", "small"], ["--windows", "--as", "dhat", "--import", "x"],
                      ["--timeline", "--again", "measured"], ["--again", "measured"], ["--windows", "--again", "none"]):
            self.runs(2, "", "profile_program", *words, "./program")

    def test_service(self):
        """Read while it runs, with both histories; and the same at the end."""
        wanted = self.both("./program", "x")
        command = [os.path.join(SCRIPTS, "profile_program"), "--follow", "stream", "--windows", "--upper", "at_end"]
        with open(self.path("end"), "wb") as out:
            follows = subprocess.Popen(command, cwd=self.place, env=self.environment, stdin=subprocess.DEVNULL, stdout=out)
        self.after_test.callback(follows.wait)
        self.after_test.callback(follows.kill)
        library = self.runs(0, "*", "profile_program", "--library").strip()
        self.ends(0, "", "sh", "-c", "while [ ! -e stream ]; do sleep 0.1; done")
        self.ends(0, "", "./program", "x", MTE_STREAM=self.path("stream"), LD_PRELOAD=library)
        lower = self.runs(0, "*", "profile_program", "--read", "stream", "--upper", "upper")
        expect("the histories of a service", (lower, self.read("upper")) == wanted)
        follows.terminate()
        follows.wait()
        expect("the histories of a service at its end", (self.read("end"), self.read("at_end")) == wanted)


KINDS = ("few", "wide", "bursts", "random")


def add_options(parser):
    parser.add_argument("--all", action="store_true", help="10,000 small runs, and 5 million events of each long one: some minutes")
    parser.add_argument("--seed", type=int, default=1, metavar="N", help="the seed of what is random (1)")


if __name__ == "__main__":
    checks.main()
