"""Tests of the commands for a fleet: rows and their weights, how far a table is above its bounds. What certificates mean is compared
with all tables of small cases in the part `fleet_claims`.

It runs over the built program, or over the plain one where that is not built, or over the one that MTE_TOOL names."""

import collections
import datetime
import fractions
import io
import json
import os
import random
import re
import subprocess
import sys
import time
import xml.dom.minidom

import checks
import fleet_month
import pytest
from checks import expect
from mte_scripts import count_texts, program_runs
from mte_scripts.fleet import (
    bounds, common_table, day, suspicions, loads, regret, resampling, row_reader, rows, samples, trial, trial_lines
)
from mte_scripts.formats import LARGEST_SIZE
from mte_scripts.places import ROOT

SCRIPTS, EXAMPLES = os.path.join(ROOT, "scripts"), os.path.join(ROOT, "examples")
KEY = "redis\t7.2\tweb-1\t2026-01-02"  # of a row without a load's number
SCUDO, SQLITE, JQ, PERL, PHP, LARGE_HISTORY = (
    os.path.join(EXAMPLES, name)
    for name in "scudo.classes sqlite.profile jq.profile perl.profile php.history sqlite_large.history".split()
)
SOME_CLASSES = "classes 8 14 100 189 220 1024\n"


def run(name, *words, given="", status=0, says=(), **more):
    """Runs a command, and tests its status and what it says on standard error; its standard output."""
    words = [os.path.join(SCRIPTS, name), *words]
    done = subprocess.run(words, input=given, capture_output=True, text=True, timeout=120, **more)
    what = " ".join([name, *words[1:]])[:160]
    is_foreseen = "Traceback" not in done.stderr
    expect(what, done.returncode == status and is_foreseen, f"status {done.returncode}: {done.stdout}{done.stderr}")
    for text in [says] if isinstance(says, str) else says:
        expect(f"{what}: it does not say `{text}`", text in done.stderr, done.stderr)
    if status == 2:
        expect(f"{what}: it prints something", not done.stdout, done.stdout)
    return done.stdout


def run_json(name, *words, **more):
    """What a command prints as JSON: of the commands in steps the first of the words is the step."""
    at = name in ("fleet_trial", "fleet_rollout")
    return json.loads(run(name, *words[:at], "--json", *words[at:], **more))


def run_joined(name, *words, **more):
    """What a command prints, without the ends of its lines."""
    return " ".join(run(name, *words, **more).split())


def regret_json(*words, **more):
    """What fleet_regret says of the first load."""
    return run_json("fleet_regret", *words, **more)["loads"][0]


def refuse(name, *cases, given=""):
    """Runs a command with words that are refused: cases of words, status and what is said, or of words and what is said
    with status 2."""
    for words, *status, says in cases:
        run(name, *words.split() if isinstance(words, str) else words, given=given, status=(*status, 2)[0], says=says)


def write(text, *path):
    with open(os.path.join(*path), "w", encoding="utf-8") as file:
        file.write(text)
    return os.path.join(*path)


def read(*path):
    with open(os.path.join(*path), encoding="utf-8") as file:
        return file.read()


def lines_with(text, *words):
    """The lines of a text that have all these words."""
    return [line for line in text.splitlines(True) if all(word in line for word in words)]


def store_of(given, path="-"):
    """What is read of rows, without a process of its own."""
    store = row_reader.Store()
    store.read_rows(io.BytesIO(given.encode()), path)
    return store


def run_rows(given):
    """What fleet_profiles prints of them."""
    return count_texts.profile_text(rows.sum_profiles(load.unpack() for _, load in store_of(given).items()))


def files_below(folder):
    found = [os.path.join(where, name) for where, _, names in os.walk(folder) for name in names]
    return {os.path.relpath(file, folder): read(file) for file in found}


def table_of(*rows_of):
    return "".join("\t".join(map(str, row)) + "\n" for row in rows_of)


class WithProgram(checks.Part):
    @classmethod
    def setup_class(cls):
        cls.work = cls.folder()
        other = checks.any_program(cls.work)
        if other == "":
            pytest.skip("without a built program and rustc: the commands of a fleet")
        if other:
            os.environ["MTE_TOOL"] = other

    def write(self, name, text):
        return write(text, self.work, name)


def suspect_fields():
    """Fields that no row may have: which one, its word, and what is said of it."""
    ahead = (datetime.date.today() + datetime.timedelta(4)).isoformat()
    no_day = "a day that does not exist"
    return (
        (0, "", "no program"), (0, "\ufeffredis", "byte order mark"), (2, "m" * 201, "no machine"),
        (3, "2026-1-2", no_day), (3, "today", no_day), (3, "2026-02-29", no_day), (3, "2026-W01-1", no_day),
        (3, "1970-01-01", "a clock that is not set"), (3, ahead, "a clock that is ahead"), (4, "-1", "a load"),
        (4, str(int(time.time() + 10**6) * 1000), "a clock that is ahead"), (5, "0", "a weight"),
        (5, "1.5", "a weight"), (5, str(10**9 + 1), "a weight"), (6, "1025", "a moment"),
        (7, str(LARGEST_SIZE + 2), "a size"), (7, "99999", "a size"), (7, "-1", "a size"), (8, "0", "a count"),
        (8, "1e3", "a count"), (8, str(10**18 + 1), "a count"), (8, "large", "a count"),
        (1, "a\tb", "not the 9 fields"), (8, "3\r", "carriage return"), (1, "a\x01", "no text"),
    )


class Rows(checks.Part):
    def test_round(self):
        """A profile and a history as rows, and back."""
        work = self.folder()
        for path in (SQLITE, LARGE_HISTORY):
            name, ending, text = os.path.basename(path), os.path.splitext(path)[1], read(path)
            made = run("fleet_profiles", "--rows", "a program,1,m,2026-01-02", path)
            fields = [row.split("\t") for row in made.splitlines()]
            heads = [[*each[:4], each[5]] for each in fields]
            is_right = all(head == ["a program", "1", "m", "2026-01-02", "1"] for head in heads)
            expect(f"the rows of {name}", is_right, made[:200])
            numbers = {int(each[4]) / 1000 for each in fields}
            is_now = len(numbers) == 1 and abs(numbers.pop() - time.time()) < 60
            expect(f"the number of a load is the time, of {name}", is_now, numbers)
            own = run("fleet_profiles", "--rows", "a program,1,m,2026-01-02,7", "--load", "12", path)
            expect("a number of one's own", "\t2026-01-02\t12\t7\t" in own.splitlines()[-1])
            expect(f"{name} as rows and back", run("fleet_profiles", given=made) == text)
            folder = os.path.join(work, name)
            run("fleet_profiles", "--output", folder, given=made + made)
            files = files_below(folder)
            expect(f"{name} in a folder", files == {f"a%20program/2026-01-02{ending}": text}, files)
            run("fleet_profiles", "--output", folder, given=made, status=3, says="is there already")

    def test_weights(self):
        """Sums by program and day, of several machines and weights, and with each choice of columns."""
        work = self.folder()
        given = table_of(
            ("a", 1, "m1", "2026-01-01", 10, 0, 16, 3), ("a", 1, "m2", "2026-01-01", 2, 0, 16, 5),
            ("a", 1, "m2", "2026-01-01", 2, 0, 40, 1), ("a", 2, "m1", "2026-01-02", 1, 0, "large", 7),
            ("b", 1, "m1", "2026-01-01", 3, 0, LARGEST_SIZE + 1, 1), ("b", 1, "m1", "2026-01-01", 3, 0, 0, 1),
        )
        first, second, other = "16 40\n40 2\n", "large 7\n", "0 3\nlarge 3\n"
        by_machine = {
            "2026-01-01/m1.profile": "0 3\n16 30\nlarge 3\n", "2026-01-01/m2.profile": "16 10\n40 2\n",
            "2026-01-02/m1.profile": second,
        }
        days = {"a/2026-01-01.profile": first, "a/2026-01-02.profile": second, "b/2026-01-01.profile": other}
        for words, files in {
            "": days, "--by program": {"a.profile": first + second, "b.profile": other}, "--by day,machine": by_machine,
            "--program b": {"b/2026-01-01.profile": other},
            "--days 2026-01-02..2026-03-01": {"a/2026-01-02.profile": second},
        }.items():
            folder = os.path.join(self.folder(), "made")
            run("fleet_profiles", *words.split(), "--output", folder, given=given)
            expect(f"fleet_profiles {words}", files_below(folder) == files, files_below(folder))
        expect("all rows as one profile", run("fleet_profiles", given=given) == "0 3\n16 40\n40 2\nlarge 10\n")
        run("fleet_profiles", "--program", "c", given=given, status=3, says="none of the 4 loads")
        no_folder = os.path.join(work, "no/such")
        run("fleet_profiles", "--output", no_folder, given=given, status=3, says="can't be made")
        end, folder = ("1", 0, 16, 3), os.path.join(work, "names")
        names = table_of(("../../etc", "1", "..", "2026-01-01", *end), ("ä", "1", ".hidden", "2026-01-01", *end))
        run("fleet_profiles", "--by", "program,machine", "--output", folder, given=names)
        made = set(files_below(folder))
        expect("names of files", made == {"%2E.%2F..%2Fetc/%2E..profile", "%C3%A4/%2Ehidden.profile"}, made)

    def test_containers(self):
        """Two containers on a machine count each by itself, and are one machine that is expected by any name."""
        given = table_of(*((KEY.replace("1\t", f"1/pod{count}\t"), 1, 0, 16, count) for count in (5, 9)))
        expect("two containers", run("fleet_profiles", given=given) == "16 14\n")
        store = store_of(given + given.replace("01-02", "01-03").replace("/pod", "/other"))
        for hosts in ({}, {("redis", "web-1"): ""}):
            found = day.find_arrivals(store.items(), "2026-01-03", hosts)
            expect("one machine", found == [day.Arrival("redis", {"web-1"}, {"web-1"})], found)

    def test_sample(self):
        """One in n machines by chance: over all the samples that chance has, the mean of the weighted sums is what all
        machines have counted."""
        chosen, n = random.Random(4), 7
        sizes = lambda: [16 * chosen.randrange(1, 20) for _ in range(9)]
        machines = [{size: chosen.randrange(1, 10**6) for size in sizes()} for _ in range(n * 5)]
        order = chosen.sample(range(n * 5), n * 5)  # machine order[i] is in sample i % n
        mean, whole = collections.Counter(), collections.Counter()
        for counts in machines:
            whole.update(counts)
        for sample in range(n):
            kept = [(n, {0: machines[machine]}) for machine in order[sample::n]]
            mean.update({size: fractions.Fraction(count, n) for size, count in rows.sum_profiles(kept).items()})
        expect("the mean of all samples", mean == whole, mean, whole)

    def test_repeated(self):
        """Without numbers: of loads whose rows are in order the last counts, with its weight; of rows in no order the
        last of equal ones."""
        row = lambda *fields: table_of((KEY, *fields))
        first, again = row(4, 0, 16, 3), "1 loads that came again"
        one, in_no_order = first + row(4, 0, 40, 1), "1 loads whose rows came twice and in no order"
        for what, given, wanted, says in (
            ("twice the same", one + one, "16 12\n40 4\n", again),
            ("another load later", one + row(5, 0, 16, 5), "16 25\n", again),
            ("a cut copy later", one + first, "16 12\n40 4\n", again),
            ("a part and then the whole", row(4, 0, 8, 2) + row(4, 0, 16, 1) + one, "16 12\n40 4\n", again),
            ("in another order", "".join(reversed(one.splitlines(True))), "16 12\n40 4\n", ()),
            ("sorted, twice", "".join(sorted((one + one).splitlines(True))), "16 12\n40 4\n", in_no_order),
            ("three moments, twice", (row(1, 1, 16, 3) + row(1, 3, 16, 9)) * 2, "snapshots 3\n16 3 0 9\n", "1 loads"),
        ):
            got = run("fleet_profiles", given=given, says=says)
            expect(what, got == wanted, got)

    def test_numbered(self):
        """The load with the greatest number counts, in each order of its rows and of the loads; rows with one number
        are of one load."""
        chosen = random.Random(3)
        loads_of = [
            [f"{KEY}\t{number}\t{number}\t0\t{size}\t{size + number}\n" for size in chosen.sample(range(0, 900, 7), 12)]
            for number in (1, 2, 9, 10)
        ]
        last = loads_of[-1]
        wanted = run("fleet_profiles", given="".join(sorted(last, key=lambda row: int(row.split("\t")[-2]))))
        expect("the greatest number alone", wanted.count("\n") == 12, wanted)
        for _ in range(40):
            lines = [*sum(loads_of, []), table_of((KEY, 3, 0, 16, 7)), *chosen.sample(last, 5)]
            chosen.shuffle(lines)
            expect("in each order", run_rows("".join(lines)) == wanted, lines)
        # the last row of a load that was cut has the begin of its count alone
        row, whole = last[-1], "".join(last)
        cut = row[:-2] + "\n" if len(row.split("\t")[-1]) > 2 else row
        expect("cut within a number", run_rows(whole + cut) == run_rows(cut + whole) == wanted)
        expect("cut without an end", run_rows(whole + row[:-2]) == wanted)

    def test_moments(self):
        """Machines' moments are added by their numbers; profile and history stand side by side only in a folder."""
        folder, second = os.path.join(self.folder(), "both"), KEY.replace("web-1", "web-2")
        given = table_of((KEY, 2, 1, 16, 3), (KEY, 2, 3, 40, 1), (second, 1, 1, 40, 5), (second, 1, 3, "large", 9))
        got = run("fleet_profiles", given=given)
        expect("two machines' moments", got == "snapshots 3\n16 6 0 0\n40 5 0 2\nlarge 0 0 9\n", got)
        more = given + table_of((KEY.replace("web-1", "web-3"), 1, 4, 16, 1))
        run("fleet_profiles", given=more, status=2, says="different numbers of moments")
        both = given + table_of((KEY, 2, 0, 16, 1))
        run("fleet_profiles", given=both, status=2, says="--output makes a file of each")
        run("fleet_profiles", "--output", folder, given=both)
        wanted = [f"redis/2026-01-02.{ending}" for ending in ("history", "profile")]
        expect("a profile and a history", sorted(files_below(folder)) == wanted)

    def test_arrays(self):
        for number, key in ((0, KEY), (17, f"{KEY}\t17")):
            given = table_of((key, 4, 0, 40, 1), (key, 4, 0, 16, 3), (key, 4, 2, "large", 3))
            wanted = f"{KEY}\t{number}\t4\t[0,0,2]\t[16,40,{LARGEST_SIZE + 1}]\t[3,1,3]\n"
            expect("arrays", run("fleet_profiles", "--arrays", given=given + given) == wanted)

    def test_suspect_fields(self):
        """A row that can't count is left out with its reason, and the others count."""
        good, bad = [*KEY.split("\t"), "7", "1", "0", "16", "3"], []
        for field, word, says in suspect_fields():
            line = table_of([*good[:field], word, *good[field + 1 :]])
            bad.append(line)
            store = store_of(table_of(good) + line + line, "rows.tsv")
            told = " ".join(store.suspicions.all_lines())
            is_said = [number for number, _ in store.suspicions.rows.values()] == [2] and says in told
            is_kept = [each.cells() for _, each in store.items()] == [{(0, 16): 3}] and "line 2 of rows.tsv" in told
            expect(f"a row with {word[:20]!r} in field {field}", is_said and is_kept, told)
        marked = "\ufeff" + table_of(good)
        run("fleet_profiles", given=marked, status=2, says="a line that begins with a byte order mark")
        path = os.path.join(self.folder(), "suspects.tsv")
        given = table_of(good) + "".join(bad) + "\t".join(good)
        got = run("fleet_profiles", "--suspects", path, given=given, says="the file is cut there")
        expect("the good row", got == "16 3\n", got)
        kept = [line.split("\t", 3) for line in read(path).splitlines()]
        wanted = [line.rstrip("\r\n") for line in bad]
        expect("the rows that can't count", [each[3].rstrip("\r") for each in kept[:-1]] == wanted, kept)
        places = [("standard input", str(at)) for at in range(2, len(bad) + 3)]
        expect("where they stand", [tuple(each[1:3]) for each in kept] == places, kept)

    def test_suspects_over_input(self):
        """What is read is not written over, whatever name or link it has."""
        path = write("p\tm0\n", self.folder(), "rows.tsv")
        link = path + ".link"
        os.symlink(path, link)
        report = f"fleet_day --day 2026-11-02 --suspects {link}"
        for words in (
            f"fleet_profiles --suspects {path} {path}", f"fleet_profiles --suspects {link} -", f"{report} {path}",
            *(f"{report} --{option} {path} /dev/null" for option in ("hosts", "table", "result")),
            f"fleet_trial read --groups {path} --suspects {path} /dev/null", f"fleet_trial read --suspects {path}",
            f"fleet_table --output {path} {path}", f"fleet_regret --plot {link} /dev/null {path}",
            f"pools --limit 2 --certificate {path} {path}", f"profile_program --timeline --peak {path} --import {link}",
        ):
            script, *more = words.split()
            if checks.skip_without(f"scripts/{script}", "that what is read is not written over"):
                continue
            words = [os.path.join(SCRIPTS, script), *more]
            with open(path) as given:
                done = subprocess.run(words, stdin=given, capture_output=True, text=True)
            is_said = "is read, so it can't be written over" in done.stderr
            expect(" ".join(words), done.returncode == 2 and is_said and read(path) == "p\tm0\n", done)

    def test_refused(self):
        run("fleet_profiles", given="", status=3, says="there is no row")
        refuse(
            "fleet_profiles", ("", ["no row can count", "1 fields"]), ("--by size", "columns of"),
            ("--days 2026-01-02", "a first and a last day"), ("--days 2026-01-02..2026-01-01", "a first and a last"),
            ("--rows a,b,c", "PROGRAM,BUILD"), ("--rows a,b,c,d", "a day that does not exist"),
            ("--rows a,b,c,2026-01-01,0", "a weight"), ("--no", "no option"), given="16 3\n",
        )


class Month(checks.Part):
    """A month of 200 hosts in which loads come twice, late and in part, and clocks are wrong."""

    def test_files(self):
        """Every program and day is right, with and without the numbers of loads; what can't count is counted."""
        for is_numbered in (True, False):
            month, work = fleet_month.Month(is_numbered), self.folder()
            folder, kept = os.path.join(work, "days"), os.path.join(work, "suspects.tsv")
            says = [f"{month.again:,} loads that came again"]
            says += [f"72 rows don't count, a day {wrong}" for wrong in ("that does not exist", "before")]
            run("fleet_profiles", "--output", folder, "--suspects", kept, given=month.text(), says=says)
            month.expect_profiles(f"numbers: {is_numbered}", files_below(folder))
            expect("the rows that can't count", read(kept).count("\n") == month.wrong_days == 144)

    def test_order(self):
        """With numbers, no order of the files and of the rows changes a figure."""
        lines = fleet_month.Month().text().splitlines(True)[::7]
        wanted = run("fleet_profiles", "--arrays", given="".join(lines))
        random.Random(8).shuffle(lines)
        got = run("fleet_profiles", "--arrays", given="".join(lines))
        expect("in another order", got == wanted and len(wanted) > 10**5)

    def test_memory(self):
        """Two million rows: at most 100 MB; half a million in no order: 60."""
        path, make_rows = os.path.join(self.folder(), "rows.tsv"), os.path.join(EXAMPLES, "fleet/make_rows")
        used = "import resource, subprocess, sys; subprocess.run(sys.argv[1:], check=True)"
        used += "; found = resource.getrusage(resource.RUSAGE_CHILDREN); print(found.ru_maxrss, found.ru_utime)"
        with open(path, "w") as file:
            subprocess.run([make_rows, "2000000"], stdout=file, check=True)

        def seconds(most=100_000):
            words = [os.path.join(SCRIPTS, "fleet_profiles"), "--output", os.path.join(self.folder(), "days"), path]
            how = {"stdout": subprocess.PIPE, "stderr": subprocess.DEVNULL, "check": True, "text": True}
            done = subprocess.run([sys.executable, "-c", used, *words], **how)
            kibibytes, taken = map(float, done.stdout.split())
            expect(f"{kibibytes:,.0f} KiB", kibibytes < most)
            return taken

        found = checks.least(seconds, 8, rounds=15)  # 4 to 5 alone; the gate runs other parts beside it
        expect(f"{found:.2f} s of a processor", found < 8)
        lines = run(make_rows, "500000").splitlines(True)
        random.Random(2).shuffle(lines)
        write("".join(lines), path)
        seconds(60_000)


class Day(WithProgram):
    """fleet_day: the report of a day of the month names each suspicion of it."""

    @classmethod
    def setup_class(cls):
        super().setup_class()
        host_lines = (f"{fleet_month.program_of(at)}\thost{at}\n" for at in range(fleet_month.HOSTS))
        cls.hosts = write("".join(host_lines), cls.work, "hosts.tsv")
        cls.rows = write(fleet_month.Month().text(), cls.work, "rows.tsv")
        early = run("fleet_profiles", "--program", "search", "--days", "2026-03-01..2026-03-01", cls.rows)
        cls.table = os.path.join(cls.work, "search.classes")
        run("fleet_table", "--output", cls.table, write(early, cls.work, "search.profile"))

    def part(self, name, source, *words):
        """A file of the lines of another one that have these words."""
        return self.write(name, "".join(lines_with(read(source), *words)))

    def report(self, day, *words, given=None):
        return run_joined("fleet_day", "--day", day, "--hosts", self.hosts, *words, given or self.rows, status=1)

    def test_drift(self):
        """Drift shows on the day on which it begins, and on no day before; missing machines are told from it."""
        near = self.part("search.tsv", self.rows, "search\t", "\t2026-03-1")
        hosts = self.part("search_hosts.tsv", self.hosts, "search\t")
        words = ["--hosts", hosts, "--table", self.table, "--limit-percent", "20", "--resample", "20", near]
        drift, same = "drift: the same machines were within it on 2026-03-14", "no change: the same"
        for day, says in (("2026-03-14", ""), (fleet_month.DRIFT, drift), ("2026-03-16", same)):
            load = run_json("fleet_day", "--day", day, *words, status=int(bool(says)))["loads"][0]
            expect(f"{day}: the verdict", says in load["verdict"] and bool(says) == bool(load["verdict"]), load)
            low, high = load["interval_percent"]
            expect(f"{day}: the interval", low <= load["above_percent"] <= high and high - low < 3, load)

    def test_every_day(self):
        """Of each of the 28 days exactly those hosts are missing that sent nothing, or whose clock was wrong."""
        found = row_reader.read_rows([self.rows]).items()
        hosts = trial_lines.read_groups(self.hosts, suspicions.Suspicions())
        for at in fleet_month.DAYS:
            gone = set(fleet_month.SILENT) if at >= fleet_month.SILENT_DAY else set()
            gone |= {fleet_month.BAD_CLOCK, fleet_month.BAD_DAY} if at in fleet_month.CLOCK_DAYS else set()
            arrivals = day.find_arrivals(found, at, hosts)
            missing = {(each.program, host) for each in arrivals for host in each.expected - each.machines}
            wanted = {(fleet_month.program_of(host), f"host{host}") for host in gone}
            is_whole = [each.program for each in arrivals] == [*fleet_month.PROGRAMS]
            expect(f"{at}: the machines that did not come", missing == wanted and is_whole, missing)

    def test_missing_machines(self):
        """Two kinds of machines, of which one falls silent: no drift, as those that came were past the limit before."""
        day_rows = lambda day, most: "".join(
            f"p\t1\thost{at}\t{day}\t1\t1\t0\t{size}\t{100 + at if at < 6 else 9000}\n"
            for at in range(most) for size in ((1000, 2000, 3000) if at < 6 else (100, 200))
        )
        table = self.write("two.classes", SOME_CLASSES)
        of = lambda most: regret_json("--limit", "6", table, "-", given=day_rows("2026-03-01", most))["above_percent"]
        every, few = of(12), of(6)
        expect("the machines differ", few > every + 5, few, every)
        given = self.write("two.tsv", day_rows("2026-03-01", 12) + day_rows("2026-03-02", 6))
        limit = str(round((few + every) / 2, 2))
        words = ("--table", table, "--limit", "6", "--limit-percent", limit, "--resample", "20", given)
        out = run_joined("fleet_day", "--day", "2026-03-02", *words, status=1)
        gone = "6 of 12 machines did not come: host10, host11, host6"
        expect("missing machines", gone in out and "no drift, but missing machines" in out, out)
        out = run("fleet_day", "--day", "2026-03-01", *words)
        expect("a day without a suspicion", "!" not in out, out)

    def test_absurd_machine(self):
        """A machine with a count of 10^17 is named; a cap keeps the table what it is without it; the claim says so."""
        honest = self.part("honest.tsv", self.rows, "search\t", "\t2026-03-02\t")
        own = read(honest).split("\t")[:7]
        absurd = self.write("absurd.tsv", read(honest) + table_of((*own, 24, 10**17)))
        tuned = lambda *words: program_runs.mte_tool(["tune", "--limit", "8"], run("fleet_profiles", *words).encode())
        table = lambda *words: tuned(*words)[1].split(b"\n")[0]
        expect("the table with a cap", table("--cap", "20", absurd) == table(honest) != table(absurd))
        named = f"{own[0]} 2026-03-02: {own[2]} has "
        run("fleet_profiles", absurd, says=[named, "100.0% of the sum; --cap 20 would cut its counts"])
        out = run_joined("fleet_day", "--day", "2026-03-02", absurd, status=1)
        expect("fleet_day", "! " + named in out and "its counts are cut at 20 times the median" in out, out)
        first, second = (regret_json("--limit", "8", self.table, path) for path in (honest, absurd))
        is_near = abs(first["above_percent"] - second["above_percent"]) < 0.1
        expect("the percentage", is_near and second["capped_machines"] == 1, first, second)
        claim = ", with the counts of 1 machine cut at 20 times the median of each size)"
        expect("the claim", claim in second["sentences"] and "cut at" not in first["sentences"], second)

    def test_suspicions(self):
        """Rows that can't count, loads that came again, hosts that did not come and that nobody expects, late loads."""
        kept = os.path.join(self.work, "kept.tsv")
        out = self.report(fleet_month.SILENT_DAY, "--suspects", kept)
        for says in (
            "cache 28 40", "search 40 40", "! 72 rows don't count, a day that does not exist (line",
            "! cache: 12 of 40 machines did not come: host0, host10, host15, host20, host25 and 7 more",
            "! 72 rows don't count, a day before 2000-01-01: a clock that is not set",
            "loads are of other days. 713 loads that came again",
        ):
            expect(f"the report: {says}", says in out and "! 713" not in out, out)
        twice = self.write("again.tsv", (KEY + "\t1\t0\t16\t3\n") * 2)
        again = run_json("fleet_day", "--day", "2026-01-02", twice)
        is_said = again["remarks"] == [f"1 {suspicions.AGAIN}"]
        expect("a load that comes again", is_said and not again["suspicions"], again)
        expect("the rows that can't count", read(kept).count("\n") == 144)
        out = self.report(fleet_month.CLOCK_DAYS[0])
        is_said = all(f"1 of 40 machines did not come: host{at}" in out for at in (7, 11))
        expect("hosts with a wrong clock", is_said, out)
        strange = table_of(("cache", 1, "host1000", "2026-03-01", 1, 1, 0, 16, 3))
        out = self.report("2026-03-01", given=self.write("strange.tsv", strange))
        expect("not expected", "cache: 1 machines came that are not expected: host1000" in out, out)
        out = self.report("2026-03-01", given=self.write("nothing.tsv", "nothing\n"))
        expect("no row can count", "! no row can count" in out and "40 of 40 machines did not come" in out, out)

    def test_result(self):
        """A result in which some hosts have bytes for KiB, a day is in 1970, lines come twice, and two fifths of the
        tuned do not come."""
        groups = run("fleet_trial", "assign", given="".join(lines_with(read(self.hosts), "mail")))
        path = self.write("groups.tsv", groups)
        lines, tuned = [], 0
        for program, machine, group in map(str.split, groups.splitlines()):
            tuned += group == "tuned"
            if group == "control" or tuned % 5 > 1:
                lines.append((program, machine, group, "2026-03-01", 98_000 + tuned, 7))
        first = lines[0]
        lines += [lines[1], (*first[:4], 98_000 * 1024, 7), (*first[:3], "1970-01-01", *first[4:])]
        given = self.write("result.tsv", table_of(*lines))
        own = self.part("mail.tsv", self.rows, "mail\t", "\t2026-03-01\t")
        out = run_joined("fleet_day", "--day", "2026-03-01", "--hosts", path, "--result", given, own, status=1)
        for says in (
            "! result: tuned: 12 of 20 lines can count, 40.0% are missing; 8 machines have none.",
            "in another unit than KiB (line", " 1 lines of a result that came again",
            "! 1 rows don't count, a day before 2000-01-01: a clock that is not set",
        ):
            expect(f"the report: {says}", says in out and "! 1 lines" not in out, out)

    def test_refused(self):
        refuse(
            "fleet_day", (self.rows, "give --day"), (f"--day 2026-02-30 {self.rows}", "a day that does not exist"),
            ("--day 2026-03-01", "give --day and the rows"), ("--day 2026-03-01 nowhere", "can't be read"),
            (f"--day 2026-03-01 --limit-percent 2 {self.rows}", "name it by --table"),
        )


def sums_of(parts):
    """Counts, each times its factor, by size; not of large blocks."""
    sums = collections.Counter()
    for factor, counts in parts:
        sums.update({size: factor * count for size, count in counts.items() if size != "large"})
    return dict(sums)


def columns_of(machines, classes):
    """For each class, the blocks of all machines, each at the first moment at which it has the most blocks of it."""
    block = lambda size: next(each for each in classes if each >= max(-(-size // 16), 1) + 1)
    columns = []
    for number in classes:
        parts = []
        for weight, moments in machines:
            blocks = collections.Counter()
            for moment, counts in moments.items():
                sizes = [size for size in counts if moment and size != "large" and block(size) == number]
                blocks[moment] += sum(counts[size] for size in sizes)
            if most := max(blocks.values()):
                moment = min(moment for moment in blocks if blocks[moment] == most)
                parts.append((weight, moments[moment]))
        columns.append(sums_of(parts))
    return columns


class Regret(WithProgram):
    def test_resample(self):
        """The interval of machines that differ has what all of them come to, and is narrow where they are alike."""
        of = lambda sizes, most=20: "".join(
            f"p\t1\tm{at}\t2026-03-01\t1\t1\t0\t{size}\t{50 + at}\n" for at in range(most) for size in sizes(at)
        )
        words = ("--limit", "6", "--resample", "60", self.write("some.classes", SOME_CLASSES), "-")
        two_kinds = lambda at: (100, 200) if at % 2 else (1000, 2000)
        for what, sizes, is_wide in (("alike", lambda at: (100, 1000), False), ("two kinds", two_kinds, True)):
            found = regret_json(*words, given=of(sizes))
            low, high = found["interval_percent"]
            is_right = low <= found["above_percent"] <= high and found["machines"] == 20
            expect(f"{what}: {low} to {high}", is_right and (high - low > 2) == is_wide, found)
        expect("the same again", regret_json(*words, given=of(sizes)) == found)
        out = run("fleet_regret", *words, given=of(sizes))
        said = f"p 2026-03-01, 20 machines: from {low:,.2f} to {high:,.2f}% in the middle 95% of the draws."
        expect("in the text", said in out, out)
        out = run("fleet_regret", *words, given=of(sizes, 4))
        expect("too few", "4 machines: too few for an interval" in out, out)
        run("fleet_regret", "--resample", "3", *words[4:], given=of(sizes, 4), status=2, says="from 20 to")

    def test_draws(self):
        """What is drawn anew, and the blocks of all machines at the peaks of a table: by their definition, with the
        greatest counts too."""
        chosen, classes = random.Random(6), [3, 7, 20, 40, 1024]
        for most in (9, 10**6, 10**18):
            own = [(chosen.randrange(1, 10**9), self.draw_moments(chosen, at % 3, most)) for at in range(12)]
            keys = [rows.Key("p", "1", f"m{at}", "2026-01-02") for at in range(12)]
            store = store_of("".join(rows.text_of(key, 1, *each) for key, each in zip(keys, own)))
            for load in loads.loads_of_records("p", "2026-01-02", [each for _, each in store.items()]):
                drawn, is_profile = [*resampling.draw_places(load, 130)], load.kind == "profile"
                samples_of = resampling.sample_profiles if is_profile else resampling.sample_histories
                of = lambda each: each.counts if is_profile else each.peak_columns(classes)
                found = [*map(of, samples_of(load, iter(drawn)))]
                wanted = [
                    sums_of((own[at][0], own[at][1].get(0, {})) for at in places)
                    if is_profile
                    else columns_of([own[at] for at in places if at % 3 > 0], classes)
                    for places in drawn
                ]
                expect(f"130 draws, counts to {most:,}: {load.kind}", len(found) == 130 and found == wanted)

    def draw_moments(self, chosen, kind, most):
        """A profile, a profile and a history, or a history."""
        moments, sizes = ([0], [0, 1, 2, 4], [1, 2, 4])[kind], [*range(0, 900, 50), "large"]
        return {moment: {size: chosen.randrange(1, most) for size in chosen.sample(sizes, 6)} for moment in moments}

    def test_files(self):
        """Percentages of the examples, by `score` and `tune` or `footprint` and `fit` themselves."""
        answer = lambda words, given: program_runs.mte_tool(words.split(), given.encode())[1].split(b"\n")
        over_time = (PHP, "footprint", "fit", 16384)
        for path, command, best, more in ((SQLITE, "score", "tune", 0), (JQ, "score", "tune", 0), over_time):
            name, text = os.path.basename(path), read(path)
            own = int(answer(command, read(SCUDO) + text)[0].split()[-1])
            least = int(answer(f"{best} --limit 32", with_block(text))[2].split()[-1]) - more
            lines = [line.split() for line in text.splitlines()] if best == "tune" else []
            fixed = sum((16 + int(size)) * int(count) for size, count in lines if size != "large")
            found = run_json("fleet_regret", SCUDO, path)
            each = found["loads"][0]
            expect(f"{name}: what the table takes", each["table_bytes"] == fixed + own, each)
            expect(f"{name}: the bound", each["bound_bytes"] == fixed + least, each)
            true = 100 * (own - least) / (fixed + least)
            expect(f"{name}: {true}% is rounded up", true <= each["above_percent"] < true + 0.01, each)
            is_scudo = found["classes"] == [*map(int, read(SCUDO).split()[1:])] and found["table"] == "scudo"
            expect(f"{name}: the table", is_scudo)

    def test_rounding(self):
        for cost, bound, percent in (
            (100, 100, 0), (10001, 10000, 0.01), (1000001, 1000000, 0.01), (1000000, 1000001, 0), (115, 100, 15),
            (9, 10, -10),
        ):
            got = regret.percent_above(cost, bound)
            expect(f"{cost} above {bound}", got == percent, got)

    def test_limit(self):
        """The exit status, and what is said past a limit; a size that is not served is past each limit."""
        both = {f"! {EXAMPLES}/sqlite.profile": SQLITE, f"! {EXAMPLES}/jq.profile": JQ}
        for limit, past in (("15.13", []), ("15.12", [SQLITE]), ("1", [SQLITE, JQ]), ("12.85", [SQLITE])):
            words, status = ("--limit-percent", limit, SCUDO, SQLITE, JQ), int(bool(past))
            out = run_joined("fleet_regret", *words, status=status)
            expect(f"past {limit}", [path for says, path in both.items() if says in out] == past, out)
            found = run_json("fleet_regret", *words, status=status)
            is_right = found["is_within"] == (not past) and found["limit_percent"] == float(limit)
            expect(f"past {limit}, as JSON", is_right, found)
        small = self.write("small.classes", "classes 2 4\n")
        out = run_joined("fleet_regret", "--limit-percent", "1000000", small, SQLITE, status=1)
        expect("a size that is not served", "not served" in out and '"small" does not serve 56 bytes' in out, out)
        run("fleet_regret", small, SQLITE)
        within = run_joined("fleet_regret", "--limit", "8", "--no-largest", SCUDO, SQLITE)
        expect("a table of more classes", "it is none of these" in within or "at most" in within, within)

    def test_rows(self):
        """Rows give a load for each program and day; machines with histories count each by itself, times the weight."""
        path, picture = self.write("large.history", read(LARGE_HISTORY)), os.path.join(self.work, "regret.svg")
        given = "".join(
            run("fleet_profiles", "--rows", f"sqlite,1,{key}", of)
            for key, of in (("m1,2026-01-02,3", path), ("m2,2026-01-02,1", path), ("m1,2026-01-01,1", SQLITE))
        )
        found = run_json("fleet_regret", "--plot", picture, SCUDO, "-", given=given)["loads"]
        named = [(each["name"], each["kind"]) for each in found]
        expect("loads of rows", named == [("sqlite 2026-01-01", "profile"), ("sqlite 2026-01-02", "histories")], found)
        alone = regret_json(SCUDO, path)
        is_four = all(found[1][name] == 4 * alone[name] for name in ("table_bytes", "bound_bytes"))
        expect("four machines take four times as much", is_four, found, alone)
        titles = xml.dom.minidom.parse(picture).getElementsByTagName("title")
        said = [each.firstChild.data for each in titles]
        expect("the picture", said == [f"sqlite, {each['day']}: {each['above_percent']:,.2f}%" for each in found], said)

    def test_columns(self):
        """Over many machines the bound is what a table reaches, and no table of those tried takes less."""
        chosen, members = random.Random(9), []
        for _ in range(12):
            sizes = [16 * chosen.randrange(1, 60) for _ in range(6)]
            weight = chosen.randrange(1, 5)
            counts = {size: [chosen.randrange(1, 90) for _ in range(4)] for size in sizes}
            members.append(loads.Member(weight, count_texts.History(4, counts)))
        load = loads.Load("all", "histories", members=members)
        needs = sorted({need for member in members for need in member.needs})
        for limit in (3, 8, 32):
            found = bounds.bound_load(load, bounds.TableLimits(limit, 1, False))
            cost = load.cost(found.table.classes)
            expect(f"{limit} classes: the bound is reached", cost == found.amount, cost, found.amount)
            number = min(limit, len(needs)) - 1
            least = min(load.cost(sorted({needs[-1], *chosen.sample(needs, number)})) for _ in range(200))
            expect(f"{limit} classes: no other table takes less", least >= found.amount, least, found.amount)

    def test_refused(self):
        nothing = "there is nothing to tune"
        refuse(
            "fleet_regret", (SCUDO, "name a table"), ("", "name a table"), (f"{SQLITE} {SQLITE}", "no class line"),
            (f"{SCUDO} nowhere", "can't be read"), (f"{SCUDO} - -", "named once"),
            (f"--limit-percent many {SCUDO} {SQLITE}", "a percentage from 0"),
            (f"--step 3 {SCUDO} {SQLITE}", "1, 2, 4 or 8"), (f"{SCUDO} {SCUDO}", "is of a sheet or a class line"),
            (("--plot", os.path.join(self.work, "no/such"), SCUDO, SQLITE), 3, "can't be written"),
        )
        for name, text, status, says in (
            ("empty.profile", "", 3, "is empty"), ("large.profile", "large 3\n", 3, nothing),
            ("bad.timeline", "timeline\n16\nbad\n", 2, "bad.timeline: 37 BadTimeline line 3"),
            ("early.timeline", "timeline\n-16\n", 2, "NotLive line 2"),
            ("large.timeline", "timeline\nlarge\n", 3, nothing),
            ("bad.history", "snapshots 2\n16 3\n", 2, "has not 2 counts"),
        ):
            run("fleet_regret", SCUDO, self.write(name, text), status=status, says=says)


class Common(WithProgram):
    """fleet_table."""

    files = [SQLITE, JQ, PERL]

    def test_profiles(self):
        """Its table is nowhere far above; each certificate is accepted; the class line serves the other commands."""
        table, folder = os.path.join(self.work, "all.classes"), os.path.join(self.work, "shown")
        out = run("fleet_table", "--output", table, "--certificates", folder, *self.files)
        expect("the class line", read(table) in out and len(read(table).split()) <= 33, out)
        percents = [each["above_percent"] for each in run_json("fleet_regret", table, *self.files)["loads"]]
        expect("its worst is low", max(percents) < 0.6, percents)
        is_same = all(f"{each:.2f}%" in out for each in percents)
        expect("what is printed is what fleet_regret says", is_same, out, percents)
        commands = [line.strip() for line in read(folder, "claims.txt").splitlines() if line.startswith("    ")]
        expect("a command for each load, and one for the bound of the worst", len(commands) == 4, commands)
        for command in commands:
            done = subprocess.run(["bash", "-c", command], cwd=ROOT, capture_output=True, text=True)
            expect(command, "check_sheet" in command and done.returncode == 0 and "\noptimal" in done.stdout, done)
        run("fleet_table", "--certificates", folder, *self.files, status=3, says="is there already")

    def test_joined(self):
        """The numbers and the divisor of claims.txt make the joined profile of the profiles."""
        folder = os.path.join(self.work, "joined")
        run("fleet_table", "--no-largest", "--limit", "8", "--certificates", folder, *self.files)
        last = read(folder, "claims.txt").splitlines()[-1]
        listed, divided = re.search(r"times ([\d, ]+), added up, divided by ([\d,]+) and", last).groups()
        numbers, divisor = [*map(int, listed.split(", "))], int(divided.replace(",", ""))
        counts_of = lambda *path: {size: int(count) for size, count in map(str.split, read(*path).splitlines())}
        sums = sums_of((factor, counts_of(path)) for factor, path in zip(numbers, self.files))
        wanted = {size: count // divisor for size, count in sums.items() if count >= divisor}
        expect("the joined profile", counts_of(folder, "joined.profile") == wanted and len(numbers) == 3, last)

    def test_total(self):
        """By the total, the table is that of the merged profile; over histories each counts by itself."""
        merged = run("merge_profiles", *self.files)
        sheet = program_runs.mte_tool(["tune", "--limit", "12"], merged.encode())[1].decode()
        out = run("fleet_table", "--by", "total", "--no-largest", "--limit", "12", *self.files)
        expect("the merged profile's table", sheet.splitlines()[0] in out.splitlines(), out)
        histories = [LARGE_HISTORY, PHP, os.path.join(EXAMPLES, "perl_large.history")]
        found = run_json("fleet_table", "--by", "total", *histories)
        whole = sum(each["table_bytes"] for each in found["loads"])
        expect("the total is what bounds it", found["low_percent"] == found["worst_percent"] == 0, found["sentence"])
        for name in ("scudo", "scudo_android"):
            other = run_json("fleet_regret", os.path.join(EXAMPLES, f"{name}.classes"), *histories)["loads"]
            expect(f"{name} takes more", sum(each["table_bytes"] for each in other) > whole)

    def test_hold_out(self):
        """A load that is held out has what the table of the others comes to."""
        found = run_json("fleet_table", "--hold-out", "3", *self.files)["held_out"]
        expect("each load is held out", [each["day"] for each in found] == ["sqlite", "jq", "perl"], found)
        for at, each in enumerate(found):
            table = os.path.join(self.work, f"without{at}.classes")
            run("fleet_table", "--output", table, *self.files[:at], *self.files[at + 1 :])
            alone = regret_json(table, self.files[at])
            expect(f"without {each['day']}", alone["above_percent"] == each["above_percent"], alone, each)
        out = run("fleet_table", "--hold-out", "3", *self.files)
        worst = f"the worst is {max(each['above_percent'] for each in found):.2f}%"
        expect("the worst of those held out", worst in " ".join(out.split()) and "held out" in out.splitlines()[0], out)
        days = [f"d{at}" for at in range(7)]
        for folds, wanted in ((2, [3, 4]), (3, [2, 2, 3]), (7, [1] * 7)):
            runs = common_table.cut_days(days, folds)
            expect(f"{folds} runs of days", sum(runs, []) == days and [*map(len, runs)] == wanted, runs)

    def test_refused(self):
        every = " ".join(self.files)
        refuse(
            "fleet_table", ("", "name the loads"), ("- -", "name the loads"),
            (f"{SQLITE} {PHP}", "give one kind alone"), (f"--by mean {SQLITE}", "worst or total"),
            (f"--hold-out 1 {every}", "from 2 to"),
            (f"--hold-out 4 {every}", "wants as many days, and there are 3"),
            (("--output", os.path.join(self.work, "no/such"), SQLITE), 3, "can't be written"),
        )


def result(values, day="2026-03-01", requests=100):
    """The lines of a result: (program, group) with the values of its machines."""
    return table_of(*(
        (program, f"{group}{at}", group, day, value, requests)
        for (program, group), each in values.items() for at, value in enumerate(each)
    ))


def read_trial(given, *words, status=0):
    """What fleet_trial says of a result."""
    return run_json("fleet_trial", "read", *words, given=given, status=status)


CONTROL, TUNED = ("a", "control"), ("a", "tuned")
EVEN = {CONTROL: [100, 101, 99, 100, 100], TUNED: [90, 91, 89, 90, 90]}


class Trial(checks.Part):
    """fleet_trial, beside figures of the literature and of the definition."""

    def test_student(self):
        """Quantiles of printed tables."""
        for freedom, share, wanted in (
            (4, 0.975, 2.776), (4, 0.9995, 8.610), (5, 0.95, 2.015), (10, 0.975, 2.228), (30, 0.975, 2.042),
            (60, 0.995, 2.660), (120, 0.9, 1.289), (4, 0.2, -0.941), (1e6, 0.975, 1.960),
        ):
            got = samples.student(share, freedom)
            expect(f"Student, {freedom}, {share}", abs(got - wanted) < 0.0006, got)

    def test_power(self):
        """Machines for an effect of Cohen's d, by a chance of 80 or 90%, as printed tables have them for two groups."""
        for effect, power, wanted in (
            (0.2, 0.8, 394), (0.5, 0.8, 64), (0.8, 0.8, 26), (0.5, 0.9, 86), (0.2, 0.9, 527), (1.0, 0.8, 17)
        ):
            got = samples.sample_size(effect, 1.0, 0.95, power)
            expect(f"an effect of {effect} with {power}", abs(got - wanted) <= 1, got)
            shown = samples.detectable_saving(got, 1.0, 0.95, power)
            expect("what so many show is the effect", shown <= effect < 1.1 * shown)
        words = "plan --saving 5 --spread 10 --power 80 --machines 64".split()
        out = run("fleet_trial", *words)
        rows_of = [line.split() for line in out.splitlines()[1:4]]
        expect("plan", rows_of == [["2.50%", "253"], ["5.00%", "64"], ["10.00%", "17"]], out)
        show = "64 machines in each group show a saving of "
        expect("plan: what 64 show", f"{show}4.99%" in out or f"{show}5.00%" in out, out)

    def test_frequency(self):
        """Of many trials by chance, so many show the saving as the power says, and as many intervals have the true
        difference."""
        chosen, shown, held, trials = random.Random(2), 0, 0, 600
        number = samples.sample_size(0.06, 0.1, 0.95, 0.8)
        for _ in range(trials):
            pair = [samples.group_of([chosen.gauss(mean, 100) for _ in range(number)]) for mean in (1000, 940)]
            found = samples.difference([pair], 0.95)
            shown, held = shown + (found.low > 0), held + (found.low <= 60 <= found.high)
        expect(f"{shown} of {trials} trials show the saving", 0.75 < shown / trials < 0.85)
        expect(f"{held} of {trials} intervals have it", 0.92 < held / trials < 0.98)

    def test_read(self):
        """A difference, its interval by Welch and the verdict, of values that a printed example has."""
        control, tuned = [10, 12, 14, 16, 18], [9, 10, 11, 12, 13]
        out = read_trial(result({CONTROL: control, TUNED: tuned}), status=1)
        # means 14 and 11, variances 10 and 2.5: the error is sqrt(2.5), the freedom (2 + 0.5)^2 / (4/4 + 0.25/4) =
        # 5.88, the quantile 2.459
        wide, got = 2.459 * 2.5**0.5, out["saving_kib"]
        is_wide = abs(got["low"] - (3 - wide)) < 0.02 and abs(got["high"] - (3 + wide)) < 0.02
        expect("Welch", got["mean"] == 3 and is_wide, got)
        both = {(program, group): own for program in "ab" for group, own in (("control", control), ("tuned", tuned))}
        twice = read_trial(result(both))["saving_kib"]
        # two programs alike: the error is sqrt(1.25), the freedom 1.25^2 / (2 (0.5^2 / 4 + 0.125^2 / 4)) = 11.76, the
        # quantile 2.184
        is_wide = abs(twice["high"] - 3 - 2.184 * 1.25**0.5) < 0.01
        expect("Welch over two programs", twice["mean"] == 3 and is_wide, twice)
        verdict = "No saving is shown: the interval has 0."
        expect("the verdict", not out["is_saving"] and out["verdict"] == verdict, out["verdict"])
        text = result({CONTROL: [100 * each for each in control], TUNED: [50 * each for each in tuned]})
        for predicted, where in ((60, "within"), (1, "below"), (99, "above")):
            out = run("fleet_trial", "read", "--predicted", str(predicted), given=text)
            said = f"Predicted: {predicted}.00%, which is {where} the interval."
            expect(f"predicted {predicted}", said in out and "A saving is shown." in out and "60.71%" in out, out)
        more = result({CONTROL: [50, 51, 49, 50, 52], TUNED: [90, 91, 92, 91, 90]})
        out = run_joined("fleet_trial", "read", given=more, status=1)
        expect("more memory", "take more: this is shown" in out, out)

    def test_programs(self):
        """Programs have the weights of their machines; days before take out what machines always differ by."""
        large = {("b", "control"): [1000, 1010, 990] * 5, ("b", "tuned"): [970, 980, 960] * 5}
        out = read_trial(result({**EVEN, **large}))
        mean = (10 * 10 + 30 * 30) / 40
        is_right = abs(out["saving_kib"]["mean"] - mean) < 1e-9 and abs(out["control_kib"] - 775) < 1e-9
        expect("over both", is_right, out)
        machines = range(1, 9)
        given = result({CONTROL: [1000 * at for at in machines], TUNED: [1000 * at - 50 for at in machines]})
        out = run("fleet_trial", "read", given=given, status=1)
        expect("machines that differ hide it", "No saving is shown" in out, out)
        before = table_of(*(
            ("a", f"{group}{at - 1}", "before", f"2026-02-0{day}", 1000 * at + day, 100)
            for group in ("control", "tuned") for at in machines for day in (1, 2, 3)
        ))
        out = read_trial(given + before)
        is_right = abs(out["saving_kib"]["mean"] - 50) < 1e-9 and out["control_kib"] == 4502
        expect("the change since before", out["is_saving"] and is_right, out)
        # one machine lacks its days before: it is left out, and the others are still compared with theirs
        some = "".join(line for line in before.splitlines(True) if "\tcontrol0\t" not in line)
        less = read_trial(given + some)
        numbers = [each["programs"][0]["control"]["number"] for each in (less, out)]
        is_said = "1 of 16 machines have no line" in str(less["suspicions"])
        is_right = numbers == [7, 8] and abs(less["saving_kib"]["mean"] - 50) < 10
        expect("without days before", is_right and is_said, less)

    def test_requests(self):
        """Groups that did not serve alike."""
        lines, unlike = result(EVEN), "did not serve alike"
        out = run("fleet_trial", "read", given=lines)
        expect("alike", unlike not in out and "differ by -0.00% (from -0.00 to -0.00%)" not in out, out)
        fewer = lines.replace("\ttuned\t2026-03-01\t90\t100", "\ttuned\t2026-03-01\t90\t50")
        found = read_trial(fewer)
        expect("fewer requests", found["more_requests_percent"]["mean"] == -30, found)
        fewer = re.sub(r"(tuned\t\S+\t\S+\t)100", r"\g<1>90", lines)
        expect("fewer of all", unlike in run("fleet_trial", "read", given=fewer), fewer)

    def test_adjust(self):
        """Jobs of different sizes: a machine takes 1,000 KiB and 2 a request, and with the new table 100 less."""
        chosen = random.Random(8)
        sizes = {group: [chosen.randrange(100, 5000) for _ in range(12)] for group in ("control", "tuned")}
        lines = table_of(*(
            ("a", f"{group}{at}", group, "2026-03-01", 1000 + 2 * each - 100 * (group == "tuned") + at % 3, each)
            for group in sizes for at, each in enumerate(sizes[group])
        ))
        hidden, shown = read_trial(lines, status=1), read_trial(lines, "--adjust")
        is_hidden = not hidden["is_saving"] and not hidden["is_adjusted"]
        expect("the sizes of the jobs hide it", is_hidden, hidden)
        saving = shown["saving_kib"]
        is_shown = abs(saving["mean"] - 100) < 0.5 and saving["low"] > 98 and shown["is_adjusted"]
        expect("at the same requests", is_shown, shown)
        expect("said", "at the same requests" in run("fleet_trial", "read", "--adjust", given=lines))
        pilot = write(re.sub("\t(control|tuned)\t", "\tbefore\t", lines), self.folder(), "pilot.tsv")
        plans = [run("fleet_trial", "plan", "--saving", "3", "--pilot", pilot, *more) for more in ((), ("--adjust",))]
        spreads = [float(re.search(r"a spread of ([\d.]+)%", out)[1]) for out in plans]
        expect("the spread of the pilot", spreads[0] > 10 * spreads[1] > 0, spreads)

    def test_predict(self):
        """The footprints of both tables, by the machines for which the histories stand."""
        tables = SCUDO, os.path.join(EXAMPLES, "scudo_android.classes")
        keys = ("sqlite,1,m1,2026-01-01,3", "php,1,m2,2026-01-01", "sqlite,1,m1,2026-01-02,5")
        given = "".join(run("fleet_profiles", "--rows", key, LARGE_HISTORY) for key in keys)
        found = run_json("fleet_trial", "predict", *tables, "-", given=given)
        # the footprints that examples/README.md has
        old, new = 51_490_368 / 1024, 45_505_184 / 1024
        own = {"old": old, "new": new, "saving_kib": old - new}
        for each, wanted in zip((*found["programs"], found["all"]), (("php", 1), ("sqlite", 8), ("all", 9))):
            near = all(abs(each[name] - value) < 1e-6 for name, value in own.items())
            expect(f"predicted of {wanted}", near and (each["program"], each["machines"]) == wanted, each)
        out = run("fleet_trial", "predict", *tables, "-", given=given)
        expect("as a text", out.splitlines()[-1].split() == ["all", "9", "50,284", "44,439", "5,845"], out)
        run("fleet_trial", "predict", *tables, JQ, status=2, says="is a profile")

    def test_assign(self):
        """Half of each program's machines, by chance and the same again; the order of the lines does not count."""
        machines = [f"{program}\tm{at}\n" for program, number in (("a", 11), ("b", 40)) for at in range(number)]
        given = "".join(machines)
        out = run("fleet_trial", "assign", given=given)
        counts = collections.Counter((program, group) for program, _, group in map(str.split, out.splitlines()))
        halves = [sorted(counts[program, group] for group in ("control", "tuned")) for program in "ab"]
        expect("the halves", halves == [[5, 6], [20, 20]] and sum(counts.values()) == 51, counts)
        expect("in another order", run("fleet_trial", "assign", given="".join(reversed(machines))) == out)
        expect("another seed", run("fleet_trial", "assign", "--seed", "2", given=given) != out)
        often = [0] * 8
        for seed in range(400):
            for at, line in enumerate(trial.assign_groups([["p", f"m{at}"] for at in range(8)], seed).splitlines()):
                often[at] += line.endswith("tuned")
        expect("each machine as often", all(150 < each < 250 for each in often), often)

    def test_suspicions(self):
        """A line that can't count changes no figure, and is said with its reason; so are lines that did not come."""
        chosen, work = random.Random(4), self.folder()
        machines = [(f"m{at}", "tuned" if at % 2 else "control") for at in range(60)]
        rows_of = [
            ("p", *each, f"2026-03-0{day}", (900 if "tuned" in each else 1000) + chosen.randrange(40), 100)
            for day in range(1, 6) for each in machines
        ]
        lines = [table_of(each) for each in rows_of]
        groups = write(table_of(*(("p", *each) for each in machines)), work, "groups.tsv")
        path = os.path.join(work, "suspects.tsv")
        wanted = read_trial("".join(lines), "--groups", groups)
        expect("without a suspicion", wanted["suspicions"] == [] and wanted["is_saving"], wanted["suspicions"])
        of = lambda at, word, machine="m0": table_of([*("p", machine), *rows_of[0][2:at], word, *rows_of[0][at + 1 :]])
        bad = [
            ("a day that does not exist", of(3, "2026-02-30")), ("a clock that is not set", of(3, "1970-01-01")),
            ("a clock that is ahead", of(3, "2199-01-01")), ("in another unit than KiB", of(4, 1000 * 1024, "m99")),
            ("in another unit than KiB", of(4, 1, "m98")), ("no numbers of KiB", of(5, "many")),
            ("a group that is none of", of(2, "other")), ("a group that is not the assigned one", of(2, "tuned")),
            ("not the 6 fields", "p\tm0\n"), ("a line that has bytes that are no text", lines[0].replace("m0", "\x02")),
        ]
        chosen.shuffle(bad)
        given = "".join([*(line for _, line in bad), *lines, lines[7]])
        got = read_trial(given, "--groups", groups, "--suspects", path)
        told = got.pop("suspicions")
        expect("with all suspicions the figures are the same", {**got, "suspicions": []} == wanted, got)
        for says in ("1 lines of a result that came again", *(says for says, _ in bad)):
            expect(f"a suspicion: {says}", any(says in each for each in told), told)
        kept = sorted(line.split("\t", 3)[3] for line in read(path).splitlines(True))
        expect("the lines that can't count", kept == sorted(line for _, line in bad), kept)
        out = run_joined("fleet_trial", "read", "--groups", groups, given=given)
        expect("said in the text too", all(says in out for says, _ in bad), out)
        self.lines_that_do_not_come(lines, chosen, groups)

    def lines_that_do_not_come(self, lines, chosen, groups):
        """Lines that did not come are said, and a machine that is in both groups does not count."""
        # two fifths of the tuned lines do not come: 8 machines none at all, others some of their days
        tuned = [(int(line.split("\t")[1][1:]), line) for line in lines if "\ttuned\t" in line]
        gone = {line for at, line in tuned if at < 16} | {*chosen.sample([line for at, line in tuned if at > 16], 20)}
        some = "".join(line for line in lines if line not in gone)
        told = read_trial(some, "--groups", groups)["suspicions"]
        share, number = 100 * len(gone) / len(tuned), len(tuned) - len(gone)
        wanted = f"tuned: {number} of {len(tuned)} lines can count, {share:.1f}% are missing; 8 machines have none."
        expect("the lines that did not come", share == 40 and told == [wanted], told, share)
        told = read_trial("".join(lines) + "p\tm0\ttuned\t2026-03-09\t1000\t1\n")["suspicions"]
        wanted = "6 rows don't count, a machine that is in both groups"
        expect("a machine in both groups", any(wanted in each for each in told), told)

    def test_refused(self):
        good = result({CONTROL: [1] * 5, TUNED: [1] * 5})
        refuse(
            "fleet_trial", ("", "assign, predict, plan or read"), ("predict a b", "the old table, the new one"),
            ("plan --saving 3", "--spread or --pilot"), ("plan --saving 3 --spread 3 --pilot x", "--spread or --pilot"),
            ("plan --saving none --spread 3", "a percentage"), ("read", 3, "has no line"),
            ("assign x y", "there is one file"),
        )
        for given, status, says in (
            ("a\tb\n", 2, "no line of standard input can count"),
            (good.replace("\ttuned\t", "\tother\t"), 3, "the group tuned of a has 0 machines"),
            ("".join(good.splitlines(True)[:9]), 3, "the group tuned of a has 4 machines, and wants 5"),
            (re.sub("\t(control|tuned)\t", "\tbefore\t", good), 2, "no machine in the groups"),
        ):
            run("fleet_trial", "read", given=given, status=status, says=says)
        run("fleet_trial", "assign", given="a\tm\na\tm\n", status=2, says="is there twice")


def with_block(text):
    """A profile or a history with a block of the largest size more at each moment."""
    lines = text.splitlines()
    moments = int(lines[0].split()[1]) if lines[0].startswith("snapshots") else 1
    block = " ".join([str(LARGEST_SIZE), *["1"] * moments])
    at = next((at for at, line in enumerate(lines) if line.startswith("large")), len(lines))
    return "\n".join([*lines[:at], block, *lines[at:]]) + "\n"
