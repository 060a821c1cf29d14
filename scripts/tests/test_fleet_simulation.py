#!/usr/bin/env -S python3 -B
"""Simulates a fleet: 1,000 processes of sqlite3, jq and perl in the real Scudo, over ten days, two at a time and at low priority.

Each process is a machine on a day; its job has a size of its own. One machine in five, by a checksum, is recorded too, with the weight
5. The table in use is of the day before the first. On the first four days half of the machines have it, the others Scudo's own. On the
fifth day the jobs change; the regret is past its limit that night, and the table is made anew. On the last five days half of the
machines have the new one. It prints the regret of each day, and of both trials the predicted and the measured saving.

Scudo is built from Debian's sources of LLVM 19 by clang++, or by what CXX names. It runs over the built program, or the one that
MTE_TOOL names, or a plain one."""

import concurrent.futures
import json
import os
import random
import re
import shutil
import subprocess
import zlib

import checks
import debian_sources
import pytest
from checks import expect
from mte_scripts import certificate_texts, count_texts
from mte_scripts.fleet import rows, trial
from mte_scripts.places import ROOT, SCRIPTS
from mte_scripts.tables import verification

MACHINES, SAMPLE, LIMIT = 100, 5, 10.0  # machines on a day; one in so many is recorded; the regret's limit in percent
PROGRAMS = ("jq", "perl", "sqlite3")
DAYS = [f"2026-03-{day:02}" for day in range(1, 11)]
FIRST = "2026-02-28"  # of which the table in use is
CHANGE = DAYS[4]
TOGETHER = 2  # processes
QUERY = """pragma page_size={page}; create table t(a integer primary key, b text);
with recursive n(i) as (select 1 union all select i + 1 from n where i < {number})
insert into t select i, hex(zeroblob({length})) || i from n;
create index u on t(b); select count(*) from t;"""
PERL = 'my ($n, $l) = @ARGV; my %h; $h{"key$_"} = "x" x ($l + $_ % 40) for 1 .. $n; print scalar(keys %h), "\\n";'


def job(program, day, machine):
    """How many rows the job of a machine has, and how long each is: the days drift, and those of perl and sqlite3 change on CHANGE."""
    chance = random.Random(f"{program} {day} {machine}")
    at, is_changed = ([FIRST] + DAYS).index(day), day >= CHANGE
    number = chance.randrange(700, 1301)
    drift = at // 2 + chance.randrange(4)
    if program == "sqlite3":
        return 18 * number, 24 + drift, 8192 if is_changed else 4096
    if program == "perl":
        return 24 * number, (150 if is_changed else 40) + 2 * drift, 0
    return 3 * number, 60 + 2 * drift, 0


def words_of(program, day, machine, work):
    """The words of a machine's job, and its standard input."""
    number, length, page = job(program, day, machine)
    if program == "sqlite3":
        return ["sqlite3", ":memory:"], QUERY.format(page=page, number=number, length=length)
    if program == "perl":
        return ["perl", "-e", PERL, str(number), str(length)], ""
    records = [{"id": at, "name": "x" * (length + at % 48)} for at in range(number)]
    return ["jq", "-c", "group_by(.id % 10) | length"], json.dumps(records)


def is_sampled(day, machine):
    """One in SAMPLE, by a checksum of machine and day, as a fleet would choose."""
    return zlib.crc32(f"{machine} {day}".encode()) % SAMPLE == 0


class Fleet:
    """The machines, and the libraries of Scudo by the name of their table."""

    def __init__(self, work, scudo):
        self.work, self.scudo = work, scudo
        self.libraries = {}
        self.runner = os.path.join(work, "peak")
        verification.build_runner(scudo, self.runner, work)
        self.build("default", None)
        self.processes = 0

    def build(self, name, classes):
        self.libraries[name] = os.path.join(self.work, f"{name}.so")
        if not os.path.exists(self.libraries[name]):
            verification.build(self.scudo, self.libraries[name], classes, self.work)

    def run(self, program, day, machine, table):
        """The peak resident set of a machine's process in KiB, and its requests: the rows of its job."""
        words, given = words_of(program, day, machine, self.work)
        inputs = os.path.join(self.work, f"{program}.{machine}.input")
        with open(inputs, "w") as file:
            file.write(given)
        words = ["nice", "-n", "19", *words]
        done = verification.run_once(self.runner, words, shutil.which(words[0]), self.libraries[table], inputs)
        os.remove(inputs)
        if done.status:
            raise AssertionError(f"{program} with {table}: {done.status}")
        return done.peak // 1024, job(program, day, machine)[0]

    def record(self, program, day, machine):
        """The history of a machine's process, as rows."""
        words, given = words_of(program, day, machine, self.work)
        recorder = [os.path.join(SCRIPTS, "profile_program"), "--history=64", *words]
        done = subprocess.run(recorder, input=given.encode(), stdout=subprocess.PIPE, stderr=subprocess.DEVNULL, check=True, timeout=300)
        history = count_texts.parse_history(done.stdout)
        moments = {at + 1: {size: row[at] for size, row in history.counts.items()} for at in range(history.snapshots)}
        return rows.text_of(rows.Key(program, "1", f"m{machine}", day), 1, SAMPLE, moments)

    def sample_day(self, day):
        """The rows of a day's sample."""
        with concurrent.futures.ThreadPoolExecutor(TOGETHER) as pool:
            chosen = [(PROGRAMS[at % 3], day, at) for at in range(MACHINES) if is_sampled(day, at)]
            return "".join(pool.map(lambda words: self.record(*words), chosen))

    def day(self, day, tables):
        """The lines of a result for a day: each machine has the table of its group."""
        machines = [(PROGRAMS[at % 3], at) for at in range(MACHINES)]
        groups = {}
        for line in trial.assign_groups(
            [[program, f"m{at}"] for program, at in machines], zlib.crc32(day.encode())
        ).splitlines():
            program, machine, group = line.split("\t")
            groups[machine] = group
        with concurrent.futures.ThreadPoolExecutor(TOGETHER) as pool:
            found = list(pool.map(lambda each: self.run(each[0], day, each[1], tables[groups[f"m{each[1]}"]]), machines))
        self.processes += len(found)
        lines = []
        for (program, at), (resident, requests) in zip(machines, found):
            lines.append(f"{program}\tm{at} of {day}\t{groups[f'm{at}']}\t{day}\t{resident}\t{requests}\n")
        return "".join(lines)


def command(name, *words, given="", statuses=(0,)):
    """What a command prints; its status is one of these."""
    done = subprocess.run([os.path.join(ROOT, "scripts", name), *words], input=given, capture_output=True, text=True, timeout=600)
    expect(f"{name} {' '.join(words)[:100]}", done.returncode in statuses, f"status {done.returncode}: {done.stderr}")
    return done.stdout, done.returncode


def regret_of(table, sample):
    """The loads of a day beside a table, and whether it is within the limit."""
    out, _ = command("fleet_regret", "--json", "--limit-percent", str(LIMIT), table, "-", given=sample, statuses=(0, 1))
    return json.loads(out)


def predicted_savings(sample, old, new):
    """By how many KiB a machine of each program takes less with the new table than with the old one, by a day's sample; and of all, each
    program with its share of the machines."""
    found = json.loads(command("fleet_trial", "predict", "--json", old, new, "-", given=sample)[0])
    saved = {each["program"]: each["saving_kib"] for each in found["programs"]}
    shares = {program: sum(PROGRAMS[at % 3] == program for at in range(MACHINES)) / MACHINES for program in PROGRAMS}
    return {**saved, "all": sum(shares[program] * saved[program] for program in PROGRAMS)}


def read_trial(lines, saved):
    """The result of a trial as JSON, as it is and at the same requests, with the predicted saving in percent of what the control group
    takes."""
    found = []
    for words in ((), ("--adjust",)):
        out, _ = command("fleet_trial", "read", "--json", *words, given=lines, statuses=(0, 1))
        words = ("--predicted", f"{max(100 * saved['all'] / json.loads(out)['control_kib'], 0):.4f}", *words)
        print(command("fleet_trial", "read", *words, given=lines, statuses=(0, 1))[0], flush=True)
        found.append(json.loads(command("fleet_trial", "read", "--json", *words, given=lines, statuses=(0, 1))[0]))
    return found


def scudo_of(work):
    """The folder of Scudo's sources, of Debian's LLVM 19."""
    if not debian_sources.has_sources(work, ["llvm-toolchain-19"], "*/compiler-rt/lib/scudo/standalone/*"):
        pytest.skip("without Debian's sources of LLVM 19: the simulated fleet")
    return verification.place(os.path.join(work, "sources/llvm-toolchain-19/compiler-rt/lib/scudo/standalone"))


class Simulation(checks.Part):
    def test_fleet(self):
        checks.need(f"{' '.join(PROGRAMS)} nice {os.environ.get('CXX') or 'clang++'}", "the simulated fleet")
        work = checks.options.work or self.folder()
        os.makedirs(work, exist_ok=True)
        other = checks.any_program(work)
        if other == "":
            pytest.skip("without a built program and rustc: the simulated fleet")
        if other:
            os.environ["MTE_TOOL"] = other
        fleet = Fleet(self.folder(), scudo_of(work))
        default = os.path.join(ROOT, "examples/scudo.classes")
        tables = {name: os.path.join(fleet.work, f"{name}.classes") for name in ("first", "second")}
        before = fleet.sample_day(FIRST)
        print(command("fleet_table", "--output", tables["first"], "-", given=before)[0], flush=True)
        fleet.build("first", certificate_texts.class_line(tables["first"]))

        lines, saved, table_rows = self.passes_days(before, default, tables, fleet)
        results = {at: read_trial(lines[at], saved[at]) for at in (1, 2)}
        expect("a thousand processes", fleet.processes == MACHINES * len(DAYS) == 1000, fleet.processes)
        self.compares_savings(results, saved)
        if checks.options.table:
            print(markdown(table_rows, saved, results))

    def passes_days(self, before, default, tables, fleet):
        """Each day of the fleet, with the table in use."""
        table_rows, lines, in_use = [], {1: "", 2: ""}, ["first"]
        saved = {1: predicted_savings(before, default, tables["first"])}
        for day in DAYS:
            if day < CHANGE:
                lines[1] += fleet.day(day, {"control": "default", "tuned": "first"})
            elif day == CHANGE:
                pilot = re.sub(r"\t(control|tuned)\t", "\tbefore\t", fleet.day(day, {"control": "first", "tuned": "first"}))
            else:
                lines[2] += fleet.day(day, {"control": "first", "tuned": "second"})
            sample = fleet.sample_day(day)
            found = [regret_of(tables[name], sample) for name in in_use]
            percents = [f"{each['above_percent']:.2f}%" for each in found[0]["loads"]]
            new = [f"{each['above_percent']:.2f}%" for each in found[1]["loads"]] if len(found) > 1 else [""] * len(PROGRAMS)
            table_rows.append([day, *percents, *new, "" if found[-1]["is_within"] else "past the limit: a new table"])
            print(" | ".join(table_rows[-1]), flush=True)
            expect(
                f"{day}: within the limit until the jobs change, and then with the new table",
                found[-1]["is_within"] == (day != CHANGE),
                percents,
            )
            if day == CHANGE:
                self.begins_second_table(tables, sample, fleet, in_use, saved, pilot)
        return lines, saved, table_rows

    def compares_savings(self, results, saved):
        """Each trial shows a saving, about what was predicted."""
        for at, (plain, adjusted) in results.items():
            expect(f"trial {at}: a saving is shown", plain["is_saving"] and adjusted["is_saving"], plain)
            # jq's is between what its footprints predict and what its live blocks do: as where some of what is freed is given back
            for each in adjusted["programs"]:
                wanted, got = saved[at][each["program"]], each["saving_kib"]["mean"]
                is_near = each["program"] == "jq" or abs(got - wanted) < max(0.35 * wanted, 150)
                expect(f"trial {at}: {each['program']} saves about what was predicted", is_near, got, wanted)
            wide = [each["saving_kib"]["high"] - each["saving_kib"]["low"] for each in (adjusted, plain)]
            expect(f"trial {at}: at the same requests the interval is narrower", wide[0] < wide[1], wide)

    def begins_second_table(self, tables, sample, fleet, in_use, saved, pilot):
        print(command("fleet_table", "--output", tables["second"], "-", given=sample)[0], flush=True)
        fleet.build("second", certificate_texts.class_line(tables["second"]))
        in_use.append("second")
        saved[2] = predicted_savings(sample, tables["first"], tables["second"])
        mean = sum(float(line.split("\t")[4]) for line in pilot.splitlines()) / MACHINES
        path = os.path.join(fleet.work, "pilot.tsv")
        with open(path, "w") as file:
            file.write(pilot)
        words = ["--saving", f"{100 * saved[2]['all'] / mean:.3f}", "--pilot", path, "--machines", str(MACHINES * 5 // 2)]
        print(command("fleet_trial", "plan", *words)[0], flush=True)


def markdown(table_rows, saved, results):
    """The tables of examples/fleet/README.md."""
    heads = [f"{name}, {program}" for name in ("first", "new") for program in PROGRAMS]
    text = [f"| Day | {' | '.join(heads)} | |\n|---|{'---:|' * len(heads)}---|\n", *(f"| {' | '.join(row)} |\n" for row in table_rows)]
    heads = ["Trial", "program", "machines", "control", "predicted saving", "measured", "at the same requests"]
    text.append(f"\n| {' | '.join(heads)} |\n|---|---|{'---:|' * (len(heads) - 2)}\n")
    for at, name in ((1, "1"), (2, "2")):
        plain, adjusted = results[at]
        pairs = [(each["program"], each, other) for each, other in zip(plain["programs"], adjusted["programs"])]
        for program, each, other in [*pairs, ("all", plain, adjusted)]:
            number = sum(
                one[group]["number"] for _, one, _ in pairs for group in ("control", "tuned") if program in (one["program"], "all")
            )
            control = each["control_kib"] if program == "all" else each["control"]["mean"]
            savings = [one["saving_kib"] for one in (each, other)]
            measured = [f"{one['mean']:,.0f} ({one['low']:,.0f} to {one['high']:,.0f})" for one in savings]
            text.append(f"| {' | '.join([name, program, str(number), f'{control:,.0f}', f'{saved[at][program]:,.0f}', *measured])} |\n")
    return "".join(text)


def add_options(parser):
    parser.add_argument("--table", action="store_true", help="print the tables of examples/fleet/README.md too")
    parser.add_argument("--work", metavar="FOLDER", help="keep the sources there, for the next time")


if __name__ == "__main__":
    checks.main()
