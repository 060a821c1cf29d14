"""Tests fleet_rollout over a simulated fleet, by the commands that examples/fleet/README.md has: a good table takes all
its steps; one that is bad at the second step is stopped there and rolled back. And the mark of a table in a process
that was built with it."""

import json
import os
import random
import subprocess

import checks
from checks import expect
from test_fleet import read, refuse, run, table_of, write

DAYS = 4  # of a step
CXX = """typedef unsigned short u16; typedef unsigned char u8; typedef unsigned long uptr;
constexpr uptr getLeastSignificantSetBitIndex(uptr X) { return __builtin_ctzl(X); }
struct DefaultSizeClassConfig { static const u16 MaxNumCachedHint = 13; };
template <typename C> struct SizeClassMapBase {};
#include "tuned_map.inc"
#include <unistd.h>
int main(int argc, char **) {
    write(1, "x", 1);
    pause();
    return (int)DefaultSizeClassMap::getClassIdBySize((uptr)argc);
}
"""


def rollout(*words, **more):
    return run("fleet_rollout", *words, **more)


def day_of(number):
    return f"2026-03-{number + 1:02d}"


class Fleet:
    """Machines that run what was deployed. What a machine takes differs by 15% from that of others, and by 1% from day
    to day; `effect` says by which shares a machine's resident set, peak and time are other with the new table, at a
    step."""

    def __init__(self, folder, effect, programs=(("redis", 200), ("nginx", 120))):
        self.folder, self.effect, self.chance = folder, effect, random.Random(7)
        self.machines = [(program, f"{program}-{at}") for program, number in programs for at in range(number)]
        self.size = {key: self.chance.gauss(100_000, 15_000) for key in self.machines}
        tables = [write(f"classes 2 {size} 64 1024\n", folder, name) for name, size in (("old", 8), ("new", 6))]
        listed = write(table_of(*self.machines), folder, "machines.tsv")
        self.plan = write(rollout("plan", f"v6={tables[0]}", f"v7={tables[1]}", listed), folder, "v7.plan")
        said = json.loads(read(self.plan))
        self.old, self.new = said["old"]["digest"], said["new"]["digest"]
        self.runs = {key: ("v6", self.old) for key in self.machines}
        self.lines, self.day = [], 0

    def take(self, *words):
        """Deploys what a command prints; how many machines that is."""
        lines = rollout(*words, self.plan).splitlines()
        for program, machine, *table in (line.split("\t") for line in lines):
            self.runs[program, machine] = tuple(table)
        return len(lines)

    def write_running(self):
        """The option with the file of what runs."""
        every = table_of(*((*key, *table) for key, table in self.runs.items()))
        return "--running", write(every, self.folder, "running.tsv")

    def live(self, step):
        """Some days of a step; the first of them."""
        first = self.day
        for self.day in range(first, first + DAYS):
            for key in self.machines:
                digest = self.runs[key][1]
                shares = ((digest == self.new) * share for share in self.effect(step))
                resident, peak, time = ((1 + share) * self.chance.gauss(1, 0.01) for share in shares)
                requests = round(self.chance.gauss(1_000_000, 100_000))
                amounts = (self.size[key] * resident, self.size[key] * 1.2 * peak, requests, requests * 2e-4 * time)
                self.lines.append(table_of((*key, digest, day_of(self.day), *(f"{amount:.2f}" for amount in amounts))))
        self.day += 1
        return day_of(first)

    def read(self, step, since, status, *words):
        result = write("".join(self.lines), self.folder, "result.tsv")
        return rollout("read", "--step", str(step), "--since", since, *words, self.plan, result, status=status)

    def read_json(self, *words):
        return json.loads(self.read(*words, "--json"))

    def with_new(self):
        return sum(table[0] == "v7" for table in self.runs.values())


class Rollout(checks.Part):
    def fleet(self, *effect, **more):
        """One in which the new table has the same effect at each step."""
        return Fleet(self.folder(), lambda step: effect, **more)

    def test_good(self):
        """A table that saves 4% takes all four steps, each with as many machines as its share."""
        fleet = self.fleet(-0.04, -0.04, 0.0)
        fleet.live(0)
        for step, share in enumerate((5, 20, 50, 100), 1):
            moved, number = fleet.take("deploy", "--step", str(step), *fleet.write_running()), fleet.with_new()
            is_right = moved > 0 and number == 320 * share // 100
            expect(f"step {step} moves machines alone that it has to", is_right, moved, number)
            text = fleet.read(step, fleet.live(step), 0)
            wanted = "Go on: fleet_rollout deploy --step" if step < 4 else "Go on: v7 is on all machines"
            expect(f"step {step} goes on", wanted in text, text)
        expect("nothing is left to deploy", fleet.take("deploy", "--step", "4", *fleet.write_running()) == 0)

    def test_bad(self):
        """One whose peak rises by 8% at step two is stopped there, and rolled back."""
        fleet = Fleet(self.folder(), lambda step: (-0.04, -0.04 if step < 2 else 0.08, 0.0))
        fleet.live(0)
        fleet.take("deploy", "--step", "1")
        fleet.read(1, fleet.live(1), 0)
        fleet.take("deploy", "--step", "2")
        since = fleet.live(2)
        text = fleet.read(2, since, 1)
        is_stopped = "Stop: the rise of the peak is beyond its limit" in text and "fleet_rollout back" in text
        expect("it is stopped", is_stopped, text)
        found = fleet.read_json(2, since, 1)
        measures = found["measures"]
        interval = measures["peak"]["percent"]
        is_right = 2 < interval["low"] <= 8.2 <= interval["high"] + 1
        expect("by its interval", found["verdict"] == "stop" and is_right, found)
        expect("the others go on", {measures[name]["verdict"] for name in ("saving", "time")} == {"go on"}, found)
        moved = fleet.take("back", *fleet.write_running())
        is_back = moved == 64 and fleet.with_new() == 0
        expect("what ran the new table gets the old one", is_back, moved, fleet.with_new())
        expect("and nothing is left", fleet.take("back", *fleet.write_running()) == 0)
        every = rollout("back", fleet.plan).splitlines()
        is_old = all(line.endswith(f"\tv6\t{fleet.old}") for line in every)
        expect("without what runs, all", len(every) == 320 and is_old, every[:2])

    def test_verdicts(self):
        """Whether an interval is beyond its limit, within it, or neither."""
        for effect, condition, status, verdict in (
            ((0.0, 0.0, 0.0), "", 3, "wait"),  # no saving is shown, and no loss
            ((0.0, 0.0, 0.0), "saving<-2,peak>2,time>2", 0, "go on"), ((0.03, 0.0, 0.0), "", 1, "stop"),
            ((-0.04, -0.04, 0.06), "", 1, "stop"), ((-0.04, -0.04, 0.06), "saving<0,peak>2", 0, "go on"),
            ((-0.04, 0.08, 0.08), "time>10", 0, "go on"),
        ):
            fleet = self.fleet(*effect)
            fleet.live(0)
            fleet.take("deploy", "--step", "2")
            found = fleet.read_json(2, fleet.live(2), status, *["--stop-if", condition] * bool(condition))
            expect(f"{effect} {condition}: {verdict}", found["verdict"] == verdict, found)

    def test_lines(self):
        """Lines that can't count are said: of no machine of the plan, another table, no day, no numbers."""
        fleet = self.fleet(-0.04, -0.04, 0.0)
        fleet.live(0)
        fleet.take("deploy", "--step", "2")
        since, day, suspects = fleet.live(2), day_of(fleet.day - 1), os.path.join(fleet.folder, "suspicions")
        late = next(key for key in fleet.machines if fleet.runs[key][0] == "v6")
        for *fields, says in (
            ("redis", "none", fleet.old, day, 1, 1, 1, 1, "a machine that the rollout does not have"),
            (*late, "0" * 16, day, 1, 1, 1, 1, "a table that is neither the old nor the new one"),
            (*late, fleet.new, day, 1, 1, 1, 1, "a machine that runs another table than it has to at this step"),
            (*late, fleet.old, "2026-02-31", 1, 1, 1, 1, "a day that does not exist"),
            (*late, fleet.old, day, 1, 1, 0, 1, "served no request"),
            (*late, fleet.old, day, 1, 1, "x", 1, "no numbers of KiB"),
            (*late, fleet.old, day, 1, 1, 1, "not the 8 fields"),
        ):
            fleet.lines.append(table_of(fields))
            found = fleet.read_json(2, since, 0, "--suspects", suspects)
            expect(says, any(says in suspicion for suspicion in found["suspicions"]), found)
        few = self.fleet(0, 0, 0, programs=[("redis", 8)])
        few.take("deploy", "--step", "1")
        few.read(1, few.live(1), 3)

    def test_refused(self):
        fleet = self.fleet(0, 0, 0, programs=[("redis", 20)])
        old, new, machines = (os.path.join(fleet.folder, name) for name in ("old", "new", "machines.tsv"))
        changed = read(fleet.plan).replace('"classes": [2, 6,', '"classes": [2, 7,')
        plan, bad = fleet.plan, write(changed, fleet.folder, "bad.plan")
        one, ascend = "are one, or have one version", "takes percentages that ascend"
        step = "--step takes a number from"
        refuse(
            "fleet_rollout", ("", "the first word is"), (f"plan v6={old} v7={old} {machines}", one),
            (f"plan v6={old} v6={new} {machines}", one), (f"plan {old} {new} {machines}", "a table is VERSION=FILE"),
            (f"plan --steps 5,5,100 v6={old} v7={new} {machines}", ascend),
            (f"plan --steps 5,50 v6={old} v7={new} {machines}", ascend), (f"deploy {plan}", f"{step} 0 to 4"),
            (f"deploy --step 5 {plan}", f"{step} 0 to 4"), (f"deploy --step 1 {machines}", "is no plan of"),
            (f"back {bad}", "the digest of v7 is not that of its classes"),
            (f"read --step 0 --since 2026-03-01 {plan}", f"{step} 1 to 4"),
            (f"read --step 1 {plan}", "--since takes the first day"),
            (f"read --step 1 --since 2026-03-01 --stop-if saving>1 {plan}", "takes conditions as"),
            ("running x", "running takes the numbers of processes"), ("running 4294967290", "can't be read"),
        )

    def test_running(self):
        """The version and the digest of what a program was built with, from the process, also after its file is
        gone."""
        checks.need("c++", "the mark of a table in a process")
        folder, digest = self.folder(), self.fleet(0, 0, 0).new
        classes = write("classes 2 6 64 1024\n", folder, "new")
        write(run("scudo_classes", "--mark", "v7.1", classes), folder, "tuned_map.inc")
        source, program = write(CXX, folder, "program.cpp"), os.path.join(folder, "program")
        for flags in (["-O0"], ["-O2", "-ffunction-sections", "-fdata-sections", "-Wl,--gc-sections"]):
            words = ["c++", "-std=c++17", "-w", *flags, source, "-o", program]
            built = subprocess.run(words, capture_output=True, text=True)
            expect(f"a program is built with the header, {flags}", built.returncode == 0, built.stderr)
            with subprocess.Popen([program], stdin=subprocess.DEVNULL, stdout=subprocess.PIPE) as process:
                process.stdout.read(1)
                os.remove(program)
                out = rollout("running", "--rows", "redis,web-1", str(process.pid))
                process.kill()
            expect("its table is known", out == f"redis\tweb-1\tv7.1\t{digest}\n", out)
        with subprocess.Popen(["sleep", "100"], stdin=subprocess.DEVNULL) as process:
            out = rollout("running", str(process.pid))
            process.kill()
        expect("a process without a mark", out == f"{process.pid}\t-\t-\n", out)
        run("scudo_classes", "--mark", 'v"7', classes, status=2, says="takes a version")
