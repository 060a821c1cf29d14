#!/usr/bin/env -S python3 -B
"""Measures what tables save in the real Scudo, of LLVM's sources from Debian, while it gives nothing back: the programs of examples/over_time,
for which what is measured has to be within 5% of what tune_program predicts.

With --table it prints that, and the same of the other examples, as rows of Markdown: the peak of the resident set with glibc, with Scudo's
default and with the map of least footprint, in KiB, the middle of the runs; what the footprint falls by, what is predicted, and what is measured.

It wants the built program, or the one that MTE_TOOL names, and clang++. It fetches 165 MB of sources by apt-get, and is skipped, with a message,
where it can't. Use --priority where others use the machine: then the programs run before all others."""

import os
import re
import shutil
import statistics
import subprocess

import checks
import debian_sources
import pytest
from checks import expect
from mte_scripts import certificate_texts
from mte_scripts.tables import verification

ROOT = os.path.dirname(os.path.dirname(os.path.dirname(os.path.realpath(__file__))))
EXAMPLES = os.path.join(ROOT, "examples")
SOURCES = "*/compiler-rt/lib/scudo/standalone/*"
HELD = {"bursts": ["./bursts"], "bursts 4": ["./bursts", "4"], "drifts": ["./drifts"]}
OTHERS = {
    "php": ["php", "-n", f"{EXAMPLES}/store.php"],
    "perl": ["perl", f"{EXAMPLES}/store.pl"],
    "sqlite": ["sqlite3", ":memory:", f".read {EXAMPLES}/sqlite_large.sql"],
}
# with nothing given back, and php without its own allocator
SETTINGS = ["SCUDO_OPTIONS=release_to_os_interval_ms=-1", "USE_ZEND_ALLOC=0"]
WITH = ("glibc", "default", "tuned")


def kibibytes_in(pattern, text):
    """The number of KiB in a summary, after these words."""
    found = re.search(pattern + r" (-?[0-9,.]+) KiB", text)
    if not found:
        raise ValueError(f"a summary does not say `{pattern}`: {text}")
    return float(found[1].replace(",", ""))


def savings_of(work, scudo, name, words):
    """What the footprint falls by and what is predicted, in KiB; and the libraries, of which glibc's is none."""
    folder = os.path.join(work, f"{name}.tuned")
    shutil.rmtree(folder, ignore_errors=True)
    command = ["env", *SETTINGS, os.path.join(ROOT, "scripts/tune_program"), "--output", folder, *words]
    done = subprocess.run(command, cwd=work, stdin=subprocess.DEVNULL, capture_output=True, text=True, timeout=600)
    if done.returncode:
        raise OSError(f"{name}: status {done.returncode}: {done.stderr[-600:]}")
    said = " ".join(done.stdout.split())
    # LD_PRELOAD ends a name at a space
    paths = [None, *(os.path.join(work, f"{each.replace(' ', '_')}.so") for each in ("default", name))]
    libraries = dict(zip(WITH, paths))
    if not os.path.exists(libraries["default"]):
        verification.build(scudo, libraries["default"], None, work)
    verification.build(scudo, libraries["tuned"], certificate_texts.class_line(os.path.join(folder, "fitted.fit")), work)
    footprint = kibibytes_in("Scudo's default [0-9,.]+ KiB", said)
    return footprint, kibibytes_in("Scudo's default the peak falls by", said), libraries


def middle_peaks(runner, words, libraries):
    """The middle of the peaks with each, in KiB. Where libraries lie at random places, one process has more pages of their files than another."""
    still, path = ["env", *SETTINGS, "setarch", "-R", *words], shutil.which("env")
    found = {name: [] for name in WITH}
    if checks.options.priority:
        os.sched_setscheduler(0, os.SCHED_FIFO, os.sched_param(50))
    for _ in range(checks.options.runs):
        for name in WITH:
            status, size, _ = verification.run_once(runner, still, path, libraries[name], None)
            expect(f"{words[0]} with {name} ends with {status}", status == 0)
            found[name].append(size // 1024)
    os.sched_setscheduler(0, os.SCHED_OTHER, os.sched_param(0))
    return {name: statistics.median(sizes) for name, sizes in found.items()}


class OverTime(checks.Part):
    def test_savings(self):
        checks.need("clang++ setarch", "what tables save in Scudo")
        work = os.path.abspath(checks.options.work or self.folder())
        if not debian_sources.has_sources(work, ["llvm-toolchain-19"], SOURCES):
            pytest.skip("without the sources of Debian: what tables save in Scudo")
        scudo = verification.place(os.path.join(work, "sources/llvm-toolchain-19/compiler-rt/lib/scudo/standalone"))
        runner = os.path.join(work, "peak")
        verification.build_runner(scudo, runner, work)
        for name in ("bursts", "drifts"):
            subprocess.run(["cc", "-O1", "-fno-builtin", f"{EXAMPLES}/over_time/{name}.c", "-o", os.path.join(work, name)], check=True)
        os.chdir(work)
        for name, words in {**HELD, **(OTHERS if checks.options.table else {})}.items():
            if shutil.which(words[0], path=f"{work}:{os.environ['PATH']}"):
                self.one(runner, name, words, *savings_of(work, scudo, name, words))

    def one(self, runner, name, words, footprint, predicted, libraries):
        middle = middle_peaks(runner, words, libraries)
        fell = middle["default"] - middle["tuned"]
        if checks.options.table:
            cells = [*(f"{middle[each]:,.0f}" for each in WITH), f"{footprint:,.0f}", f"{predicted:,.0f}", f"{fell:,.0f}"]
            print(f"| `{name}` | {' | '.join(cells)} ({100 * (fell - predicted) / predicted:+.1f}%) |", flush=True)
        else:
            expect(f"{name}: the memory falls by what is predicted", abs(fell - predicted) <= 0.05 * predicted, fell, predicted, middle)


def add_options(parser):
    parser.add_argument("--table", action="store_true", help="print rows, also of the other examples, and compare nothing")
    parser.add_argument("--runs", type=int, default=7, metavar="N", help="run each program so often with each (7)")
    parser.add_argument("--priority", action="store_true", help="run all in real time; it wants to be root")
    parser.add_argument("--work", metavar="FOLDER", help="keep the sources and what is built there, for the next time")


if __name__ == "__main__":
    checks.main()
