"""Tests of tune_program over runs that are longer than a timeline may be: the interval that it says, and when a program is run again. What
a long run takes is known here, since a short one takes the same. Needs a C compiler."""

import os
import re
import subprocess

import checks
import commands
import pytest
from checks import expect
from mte_scripts import claim_words
from mte_scripts.tables import long_runs

HERE = os.path.dirname(os.path.realpath(__file__))
EXAMPLES = os.path.join(os.path.dirname(os.path.dirname(HERE)), "examples")
FILES = "claims.txt fitted.fit program.history program.profile report.html summary.txt tuned.sheet tuned_map.inc upper.history waste.svg".split()
SENTENCE = re.compile(
    r"Over (?:all ([\d,]+) events of the run|the whole run) of \"[^\"]*program\.history\", of the tables of at most 32 classes, all multiples of 16 bytes, "
    r"that serve it and have class 1024, none takes less than ([\d.,]+) MiB; this one takes at most ([\d.,]+) MiB\."
)
CLAIM = re.compile(
    r"that serve \"[^\"]*program\.history\" \(SHA-256 [0-9a-f]{16}\) and have class 1024, none takes less over its [\d,]+ snapshots than ([\d,]+) bytes\."
)
RESTS = re.compile(r"the first one takes at most ([\d,]+) bytes there\. That rests on the recorder, which is tested and not proved\.")


def number(text):
    return float(text.replace(",", ""))


class LongRuns(commands.Commands):
    @classmethod
    def setup_class(cls):
        checks.need("cc", "runs that are longer than a timeline may be")
        super().setup_class()
        subprocess.run(["cc", "-O1", "-fno-builtin", "-w", f"{HERE}/windows_program.c", "-o", f"{cls.place}/program"], check=True)
        cls.program = checks.any_program(cls.place) or checks.PROGRAM
        if not os.access(cls.program, os.X_OK):
            pytest.skip("without a program and rustc: tables for long runs")
        cls.environment["MTE_TOOL"] = cls.program

    def setup_method(self):
        self.write("turns", "")

    def tool(self, command, *texts):
        return subprocess.run([self.program, *command.split()], input="".join(texts).encode(), capture_output=True, check=True).stdout.decode()

    def test_held(self):
        """The next run has the moments that a fit needs, and of the others as many as there is room for, from all parts of the run."""
        for number, needs in ((100, 7), (long_runs.MOST_HELD, 50), (long_runs.MOST_HELD * 3, 50), (long_runs.MOST_HELD * 3, long_runs.MOST_HELD + 9)):
            moments = tuple(range(0, 10 * number, 10))
            search = long_runs.IntervalNarrower(None, None, None, [], 4)
            search.needed = {*moments[:: number // needs][:needs], 5}
            held, needed = search.choose_moments(moments), search.needed & {*moments}
            what = f"{number} moments, of which {len(needed)} are needed"
            expect(f"{what}: in their order", held == sorted({*held}) and {*held} <= {*moments}, held[:9])
            expect(f"{what}: as many as there is room for", len(held) == min(number, long_runs.MOST_HELD), len(held))
            expect(f"{what}: those", needed <= {*held} or {*held} <= needed, len(needed - {*held}))
            parts = {each * 10 // moments[-1] for each in held}
            expect(f"{what}: from all parts", len(needed) > long_runs.MOST_HELD or len(parts) >= 10, parts)

    def short_run(self):
        """The timeline of the short run, which takes what the long one does."""
        return self.runs(0, "timeline\n*", "profile_program", "--timeline", "--as-scudo", "./program")

    def tuned(self, folder, *words, status=0, **more):
        """What tune_program says of a run: the number of events, and the interval in bytes."""
        more = more or {"take": {"stdin": subprocess.DEVNULL}}
        said = " ".join(self.runs(status, "*", "tune_program", "--output", folder, *words, **more).split())
        expect(f"{words}: the files", sorted(set(os.listdir(self.path(folder))) - {"page.html"}) == FILES, os.listdir(self.path(folder)))
        sentence, low, high = SENTENCE.search(said), CLAIM.search(said), RESTS.search(said)
        expect(f"{words}: the sentence", sentence and low and high, said)
        low, high = int(number(low[1])), int(number(high[1]))
        for got, exact, up in ((sentence[2], low, 0), (sentence[3], high, 1)):
            expect(f"{words}: {got} MiB of {exact} bytes", 0 <= (number(got) * 2**20 - exact) * (1 if up else -1) < 2**20 / 10, sentence[0])
        fit, lower = self.read(f"{folder}/fitted.fit"), self.read(f"{folder}/program.history")
        expect(f"{words}: the fit's check", self.tool("check-fit", fit, lower) == "optimal\n" and f"\nfootprint {low}\n" in fit, fit[:300])
        expect(f"{words}: the claims", CLAIM.search(" ".join(self.read(f"{folder}/claims.txt").split())))
        return int(number(sentence[1] or "0")), low, high

    def turns(self):
        return len(self.read("turns"))

    def map_of(self, folder):
        """The table of the map, with class 1024."""
        words = re.search(r"Granules\[\] = \{(.*?)\}", self.read(f"{folder}/tuned_map.inc"), re.S)[1].split(",")
        return " ".join(["classes", *(word.strip() for word in words if int(word) < 1024), "1024"])

    def test_run_again(self):
        """The interval of a long run holds the least footprint of all tables, within 1%; its table takes what is said."""
        short = self.short_run()
        least = int(re.search("footprint (.*)", self.tool("fit --limit 32 --largest-class 1", short))[1])
        events, low, high = self.tuned("again", "./program", "long")
        expect("a long run: its events", events == short.count("\n") - 1 + 2 * 5_199_999, events)
        expect("a long run: its interval", low <= least <= high <= 1.01 * low, low, least, high)
        expect("a long run: it is run again", 1 < self.turns() - 1 <= 4, self.turns())
        taken = int(self.tool("footprint", f"{self.map_of('again')}\n", short).split()[1])
        expect("a long run: what its table takes", low <= taken == high, taken, high)
        default = int(self.tool("footprint", self.read_example("scudo.classes"), short).split()[1])
        shown = re.search(r"Scudo's default +([\d,.]+) KiB", self.read("again/summary.txt"))[1]
        expect("a long run: what Scudo's default takes", abs(number(shown) - default / 1024) <= 0.5, shown, default)

    def read_example(self, name):
        with open(os.path.join(EXAMPLES, name)) as file:
            return file.read()

    def test_once(self):
        """Where a run is not made again, the upper history bounds the table; and so for histories of a service."""
        for folder, words, status, more, why in (
            ("runs", ["--runs", "1", "./program", "long"], 0, {}, "1 run was made"), ("pipe", ["./program", "long"], 0, {"given": "x"}, "standard input"),
            ("killed", ["./program", "long", "kill"], 1, {}, "it did not end by itself"),
        ):
            self.write("turns", "")
            _, low, high = self.tuned(folder, *words, status=status, **more)
            expect(f"{words}: it is run once", self.turns() == 1, self.turns())
            said = " ".join(self.read(f"{folder}/summary.txt").split())
            expect(f"{words}: why", f"differ by more than 1%: {why}" in said, said)
            upper = int(self.tool("footprint", f"{self.map_of(folder)}\n", self.read(f"{folder}/upper.history")).split()[1])
            expect(f"{words}: the interval", low < high == upper, low, high, upper)
        words = ["--read", "runs/program.history", "--upper", "runs/upper.history"]
        events, low, high = self.tuned("read", *words)
        expect("--read --upper: the same interval", (low, high) == self.tuned("both", *words)[1:] and not events, events, low, high)
        self.runs(0, "snapshots *", "profile_program", "--windows", "--upper", "another", "--import", "-", given="timeline\n16000\n")
        self.runs(2, "", "tune_program", "--output", "no", "--read", "runs/program.history", "--upper", "another")
        self.says("the two histories are of different runs")
        for words, why in ((["--upper", "another", "./program"], "--upper goes with --read"),
                           (["--upper", "another", "--read", "runs/program.profile"], "and runs/program.profile is none"), (["--runs", "9", "x"], "1 to 8")):
            self.runs(2, "", "tune_program", "--output", "no2", *words)
            self.says(why)

    def test_other_run(self):
        """Where the next run is another one, what is said is of the last one, and that they differ."""
        events, low, high = self.tuned("other", "--runs", "3", "./program", "long", "differs")
        number_of_runs = self.turns()
        said = " ".join(self.read("other/summary.txt").split())
        expect("another run: its events", f"Run {number_of_runs} has {events:,} events, and the one before {events - 2:,}" in said, said)
        expect("another run: the interval", low <= high <= 1.01 * low, low, high)

    def test_at_random(self):
        """Of blocks of some 600 sizes at random the interval is within 1% after two runs."""
        subprocess.run(["cc", "-O1", "-fno-builtin", f"{EXAMPLES}/over_time/random_sizes.c", "-o", self.path("random_sizes")], check=True)
        events, low, high = self.tuned("random", "--runs", "2", "./random_sizes", "16000000")
        expect("sizes at random: the interval", events == 16_000_000 and low <= high <= 1.01 * low, events, low, high)

    def test_timeline(self):
        """A timeline that is too long for a command, from a file."""
        text = self.short_run()
        self.write("long.timeline", text + "16000\n-16000\n" * 5_200_000)
        events, low, high = self.tuned("timeline", "--read", "long.timeline")
        least = int(re.search("footprint (.*)", self.tool("fit --limit 32 --largest-class 1", text))[1])
        expect("a long timeline: its events", events == text.count("\n") - 1 + 10_400_000, events)
        expect("a long timeline: its interval", low <= least <= high <= 1.01 * low, low, least, high)
        self.write("long.timeline", text + "16000\n-16000\n" * 5_200_000 + "-5\n-5\n" * 9000)
        self.runs(2, "", "tune_program", "--output", "no3", "--read", "long.timeline")
        self.says("frees no live block")

    def test_words(self):
        """MiB are rounded down and up."""
        for low, high, wanted in ((0, 1, ("0.000", "0.001")), (1 << 20, (1 << 20) + 1, ("1.000", "1.001")), ((100 << 20) - 1, 100 << 20, ("99.9", "100.0"))):
            said = claim_words.mebibytes(low, 0), claim_words.mebibytes(high, 1)
            expect(f"{low} to {high} bytes", said == tuple(f"{each} MiB" for each in wanted), said)
