#!/usr/bin/env -S python3 -B
"""Runs tune_program --verify over the jobs of docs/MEASUREMENTS.md in the real Scudo, of LLVM's sources from Debian, and then each program by hand
five times more: as it is, in Scudo with its default, which is compiled as docs/TUNING.md says, and in the tuned Scudo that is left. The peaks
of 95% of such runs have to lie in the intervals that are printed. Jobs whose program is not installed are left out.

With --table it prints rows of Markdown: the peak of the resident set in KiB as the program is, in Scudo with its default, and with the table, the
middle of the runs and how far from it a further one may be; the price of hardening, and what of it the table pays back, with its interval.

It wants the built program, or the one that MTE_TOOL names, clang++ and time. It fetches 165 MB of sources by apt-get, and is skipped, with a
message, where it can't."""

import glob
import os
import re
import shutil
import statistics
import subprocess
from typing import NamedTuple

import checks
import debian_sources
import pytest
from checks import expect

ROOT = os.path.dirname(os.path.dirname(os.path.dirname(os.path.realpath(__file__))))
EXAMPLES, SOURCES = os.path.join(ROOT, "examples"), "*/compiler-rt/lib/scudo/standalone/*"
JOBS = {
    "sqlite3 :memory: '.read examples/sqlite_large.sql'": ["sqlite3", ":memory:", f".read {EXAMPLES}/sqlite_large.sql"],
    "USE_ZEND_ALLOC=0 php -n examples/store.php": ["php", "-n", f"{EXAMPLES}/store.php"],
    "perl examples/store.pl": ["perl", f"{EXAMPLES}/store.pl"],
    "jq 'map(select(.price > 0.5)) | length' records.json": ["jq", "map(select(.price > 0.5)) | length", "records.json"],
    "xmllint --noout records.xml": ["xmllint", "--noout", "records.xml"],
    "lua5.4 records.lua": ["lua5.4", f"{EXAMPLES}/jobs/records.lua"],
    "ruby records.rb": ["ruby", f"{EXAMPLES}/jobs/records.rb"],
    "node records.js": ["node", f"{EXAMPLES}/jobs/records.js"],
    "ffmpeg -f lavfi -i testsrc=duration=4 -f null -": ["ffmpeg", "-nostdin", "-f", "lavfi", "-i", "testsrc=duration=4", "-f", "null", "-"],
    "gcc -O2 -c examples/over_time/drifts.c": ["gcc", "-O2", "-c", f"{EXAMPLES}/over_time/drifts.c", "-o", "/dev/null"],
    "openssl speed -seconds 1 sha256": ["openssl", "speed", "-seconds", "1", "sha256"],
    "git log --stat -n 300": ["git", "-C", ROOT, "log", "--stat", "-n", "300"],
    "python3 records.py json 200000": ["python3", f"{EXAMPLES}/jobs/records.py", "json", "200000"],
    "ninja -t targets all": ["ninja", "-t", "targets", "all"],
    "mawk 'BEGIN { for (n = 0; n < 400000; n++) kept[n] = \"record \" n }'": ["mawk", 'BEGIN { for (n = 0; n < 400000; n++) kept[n] = "record " n }'],
    "tclsh records.tcl": ["tclsh", f"{EXAMPLES}/jobs/records.tcl"],
    "dot -Tsvg graph.dot": ["dot", "-Tsvg", "graph.dot"],
    "gnuplot -e 'set terminal svg; set samples 200000; plot sin(x)'": ["gnuplot", "-e", "set terminal svg; set samples 200000; plot sin(x)"],
    "clang++ -O2 -c headers.cpp": ["clang++", "-O2", "-c", f"{EXAMPLES}/jobs/headers.cpp", "-o", "/dev/null"],
}
GIVEN = {  # what a job reads, and what of examples/jobs writes it
    "records.json": ("records.py", "json", "110000"),
    "records.xml": ("records.py", "xml", "40000"),
    "build.ninja": ("graphs.py", "ninja", "60000"),
    "graph.dot": ("graphs.py", "dot", "2000"),
}
# as docs/TUNING.md has it; without C++'s `new`, and what is of other systems
FLAGS = "-std=c++17 -O3 -fPIC -fvisibility=hidden -fno-exceptions -fno-rtti -nostdinc++ -msse4.2 -shared -nostdlib++ -pthread".split()
LEFT_OUT = re.compile("fuchsia|trusty|bionic|wrappers_cpp")
ENVIRONMENT = {"USE_ZEND_ALLOC": "0", "PYTHONMALLOC": "malloc", "MALLOC_ARENA_MAX": ""}
NUMBER, RUNS = r"([0-9,]+)", 5


def numbers(match):
    return [int(each.replace(",", "")) for each in match]


class Verdict(NamedTuple):
    """What a verdict has of the three that it compares, as it is, Scudo, and tuned: the peak in KiB, and the interval of a further one. And the
    share that is paid back with its interval, if it says one, in percent."""

    peaks: list
    intervals: list
    share: list

    @classmethod
    def of(cls, said):
        rows = re.findall(rf"^(.+?)  +{NUMBER} +{NUMBER} +{NUMBER} ", said, re.M)
        three = [next(numbers(row[1:]) for row in rows if re.search(name, row[0])) for name in (", now$", "^Scudo's default$", "^least")]
        share = re.search(r"pays back (-?\d+)% of that \((-?\d+) to (-?\d+)%\)", " ".join(said.split()))
        return cls([row[0] for row in three], [row[1:] for row in three], [int(each) for each in share.groups()] if share else [])

    def row(self, name):
        price, back = self.peaks[1] - self.peaks[0], self.peaks[1] - self.peaks[2]
        cells = [f"{peak:,} ±{max(peak - low, high - peak):,}" for peak, (low, high) in zip(self.peaks, self.intervals)]
        share = ", {}% ({} to {})".format(*self.share) if self.share else ""
        return f"| `{name.replace('|', chr(92) + '|')}` | {' | '.join(cells)} | {price:,} ({100 * price / self.peaks[0]:.1f}%) | {back:,}{share} |"


def peaks_by_hand(work, words, how, library):
    """The peak of a run, in KiB, as `time` says it."""
    given = {**how, "env": {**how["env"], "LD_PRELOAD": library}}
    command = ["time", "-f", "%M", "-o", os.path.join(work, "peak"), *words]
    timed = subprocess.run(command, **given, stdout=subprocess.DEVNULL, stderr=subprocess.DEVNULL)
    expect(f"{words[0]} with {library or 'no library'} ends with {timed.returncode}", timed.returncode == 0)
    with open(os.path.join(work, "peak")) as file:
        return int(file.read().split()[-1])


class Verdicts(checks.Part):
    def test_jobs(self):
        checks.need("clang++ time", "verdicts in Scudo")
        work = os.path.abspath(checks.options.work or self.folder())
        if not debian_sources.has_sources(work, ["llvm-toolchain-19"], SOURCES):
            pytest.skip("without the sources of Debian: verdicts in Scudo")
        scudo = os.path.join(work, "sources/llvm-toolchain-19/compiler-rt/lib/scudo/standalone")
        default = os.path.join(work, "default.so")
        files = sorted(path for path in glob.glob(f"{glob.escape(scudo)}/*.cpp") if not LEFT_OUT.search(os.path.basename(path)))
        subprocess.run(["clang++", *FLAGS, f"-I{scudo}", f"-I{scudo}/include", *files, "-o", default], check=True)
        for name, words in GIVEN.items():
            with open(os.path.join(work, name), "wb") as file:
                subprocess.run(["python3", f"{EXAMPLES}/jobs/{words[0]}", *words[1:]], stdout=file, check=True)
        within = runs = 0
        for name, words in JOBS.items():
            if shutil.which(words[0]) and (not checks.options.only or checks.options.only in name):
                within += self.one(work, scudo, default, name, words)
                runs += 3 * RUNS
        # the runs of a program share an interval: all of one may lie outside, and of the others an eighth
        expect(f"of {runs} runs by hand {within} lie in the intervals", runs - within <= RUNS + runs // 8)

    def one(self, work, scudo, default, name, words):
        """How many of the runs by hand lie in the intervals."""
        folder, how = os.path.join(work, "job.tuned"), {"cwd": work, "env": {**os.environ, **ENVIRONMENT}, "stdin": subprocess.DEVNULL}
        shutil.rmtree(folder, ignore_errors=True)
        command = [os.path.join(ROOT, "scripts/tune_program"), "--verify", scudo, "--output", folder, *words]
        done = subprocess.run(command, **how, capture_output=True, text=True, errors="replace", timeout=1500)
        if not expect(f"{name}: status {done.returncode}: {done.stderr[-600:]}", done.returncode == 0):
            return 0
        printed, found = Verdict.of(done.stdout), ([], [], [])
        for _ in range(RUNS):
            for peaks, library in zip(found, ("", default, *glob.glob(f"{glob.escape(folder)}/libscudo_*.so"))):
                peaks.append(peaks_by_hand(work, words, how, library))
        return self.judged(name, printed, found)

    def judged(self, name, printed, found):
        """Says what was printed and what was found by hand."""
        within = sum(low <= peak <= high for (low, high), peaks in zip(printed.intervals, found) for peak in peaks)
        now, default, tuned = middle = [statistics.median(peaks) for peaks in found]
        outside = [str(each) for each, (low, high) in zip(middle, printed.intervals) if not low <= each <= high]
        share = 100 * (default - tuned) / (default - now) if default > now else 0
        if printed.share and not printed.share[1] <= share <= printed.share[2]:
            outside.append(f"{share:.0f}%")
        print(f"{name}: of {3 * RUNS} runs by hand {within} lie in the intervals, and of the middle ones {' and '.join(outside) or 'none'} outside", flush=True)
        expect(f"{name}: most runs by hand lie in the intervals", within > 3 * RUNS / 2, printed, found)
        if checks.options.table:
            print(printed.row(name), flush=True)
        return within


def add_options(parser):
    parser.add_argument("--table", action="store_true", help="print rows too")
    parser.add_argument("--only", metavar="NAME", help="only the jobs that have this in their words")
    parser.add_argument("--work", metavar="FOLDER", help="keep the sources and what is built there, for the next time")


if __name__ == "__main__":
    checks.main()
