#!/usr/bin/env -S python3 -B
"""Compares the odds for Scudo and glibc with what they do: with LLVM's Scudo, of Debian's sources, and glibc, both built for AArch64 with the
Memory Tagging Extension, under QEMU. Each history of heap_cases.py and each program of examples/errors is played in fresh processes, and each
chance is compared case by case: what is never caught, what always is, and what is caught at least so often.

It fetches 165 MB of sources by apt-get, and is skipped, with a message, where it can't. --table prints what each heap did beside what is said;
--rows prints heap_rows.tsv."""

import os
import subprocess
from concurrent.futures import ThreadPoolExecutor

import checks
import debian_sources
import heap_cases
import pytest
from checks import expect
from mte_scripts.faults import odds, real_heaps, shares
from mte_scripts.faults.fault_log import Log

HERE = os.path.dirname(os.path.realpath(__file__))
SCRIPTS = os.path.dirname(HERE)
ERRORS = os.path.join(os.path.dirname(SCRIPTS), "examples", "errors")
SOURCES = "*/compiler-rt/lib/scudo/standalone/*"
FEW, MANY = 20, 200  # runs, where nothing or something hangs on a draw


def build_heaps(work):
    """The folder of the heaps' programs, or None."""
    if not debian_sources.has_sources(work, ["llvm-toolchain-19"], SOURCES):
        return None
    folder = os.path.join(work, "real_heaps")
    if not os.path.exists(os.path.join(folder, "glibc")):
        os.makedirs(folder)
        real_heaps.build(scudo_in(work), folder)
    return folder


def scudo_in(work):
    return os.path.join(work, "sources/llvm-toolchain-19/compiler-rt/lib/scudo/standalone")


def measure_case(folder, heap, case, said):
    """(runs, how often each question was caught)"""
    runs = MANY if any(share.unless or share == shares.UNKNOWN or not share.is_exact for share in said) else FEW
    answers = real_heaps.play(folder, heap, [*case.events, *case.questions], runs)
    return len(answers), [sum(each[at] != real_heaps.MISSED for each in answers) for at in range(len(case.questions))]


def try_case(folder, heap, case):
    """The rows of a case: what is asked, what is said of it, in how many runs it was caught, and whether that agrees."""
    said = heap_cases.shares_of(heap.name, case.events, case.questions)
    runs, caught = measure_case(folder, heap, case, said)
    return [(heap.says, case.name, asked, share, runs, count, heap_cases.is_true(share, count, runs))
            for asked, share, count in zip(case.questions, said, caught)]


def log_of(source, work, *words):
    """The log of a program, which is built once in a folder."""
    program = os.path.join(work, os.path.basename(source) + ".program")
    if not os.path.exists(program):
        driver = "traced_c++" if source.endswith(".cpp") else "traced_cc"
        subprocess.run([os.path.join(SCRIPTS, driver), "-w", "-O0", source, "-o", program], check=True)
    log = f"{program}.{'.'.join(words)}.log"
    subprocess.run([program, *words], env=dict(os.environ, ACCESSES=log), capture_output=True)
    return Log(log)


def shares_of(heap, log):
    return [heap_cases.ON[heap.name](error, log.size[error.block], past) for error, past in zip(log.errors, odds.pasts(log))]


def try_example(folder, heap, name, log):
    """The row of a program: an entry is caught in a run if one of its errors is."""
    events, numbers = real_heaps.events_of(log)
    each = shares_of(heap, log)
    share = shares.combine_shares(tuple(each[number] for number in numbers or range(len(each))))
    answers = real_heaps.play(folder, heap, events, FEW if share.is_exact else MANY)
    caught = sum(set(answer) != {real_heaps.MISSED} for answer in answers)
    return [(heap.says, name, f"{len(numbers)} errors", share, len(answers), caught, heap_cases.is_true(share, caught, len(answers)))]


def try_random(folder, heap, name, log):
    """A row for each error of a random program."""
    events, numbers = real_heaps.events_of(log)
    each, answers = shares_of(heap, log), real_heaps.play(folder, heap, events, checks.options.runs)
    rows = []
    for at, number in enumerate(numbers):
        caught = sum(answer[at] != real_heaps.MISSED for answer in answers)
        error, true = log.errors[number], heap_cases.is_true(each[number], caught, len(answers))
        asked = f"{error.letter} of {log.size[error.block]} bytes, {error.state}, {error.offset} {error.size}"
        rows.append((heap.says, name, asked, each[number], len(answers), caught, true))
    return rows


class RealHeaps(checks.Part):
    @classmethod
    def setup_class(cls):
        checks.need(f"{real_heaps.COMPILER} {real_heaps.LINKER} {real_heaps.QEMU}", "what Scudo and glibc do with memory tags")
        cls.work = os.path.abspath(checks.options.work or cls.folder())
        cls.programs = build_heaps(cls.work)
        if not cls.programs:
            pytest.skip("without the sources of Debian: what Scudo and glibc do with memory tags")
        cls.pool = ThreadPoolExecutor(checks.options.jobs)
        cls.after_class.callback(cls.pool.shutdown)

    def rows(self, jobs):
        """All rows of (heap, how, words), which are checked, and printed if that is asked for."""
        found = []
        for job in [self.pool.submit(how, self.programs, heap, *words) for heap, how, *words in jobs]:
            for row in job.result():
                found.append(row)
                heap, name, asked, share, runs, caught, is_true = row
                expect(f"{heap}: {name}: {asked}: {shares.in_words(share)}", is_true and runs, caught, runs)
                if checks.options.table:
                    print(heap, name, asked, shares.in_words(share), caught, runs, "" if is_true else "FALSE", sep="\t", flush=True)
                elif checks.options.rows:
                    print(heap, name, asked, caught, runs, sep="\t", flush=True)
        return found

    def test_cases(self):
        jobs = [(heap, try_case, case) for heap in real_heaps.HEAPS for case in heap_cases.CASES if heap.name in case.heaps]
        found = [row[3] for row in self.rows(jobs) if row[0] != "glibc"]
        for share in (shares.ALWAYS, shares.NEVER, shares.at_least(5, 6), shares.at_least(6, 7)):
            expect(f"rows of Scudo with {share}", found.count(share) > 20, found.count(share))

    def test_examples(self):
        names = sorted(name for name in os.listdir(ERRORS) if name.endswith((".c", ".cpp")) and not name.startswith("right_"))
        logs = {name: log_of(os.path.join(ERRORS, name), self.folder()) for name in names}
        self.rows([(heap, try_example, name, log) for heap in real_heaps.HEAPS for name, log in logs.items() if log.errors])

    def test_random(self):
        work, source = self.folder(), os.path.join(HERE, "faults_programs", "random.c")
        logs = {f"random {number}": log_of(source, work, str(number), "4000", "200") for number in range(1, 1 + checks.options.random)}
        found = self.rows([(heap, try_random, name, log) for heap in real_heaps.HEAPS for name, log in logs.items()])
        expect("errors of random programs", len(found) > 100 * len(logs), len(found))

    def test_measure(self):
        """find_faults says what the heaps did."""
        os.environ["MTE_TOOL"] = checks.with_heap()
        program = os.path.join(self.folder(), "shrunk")
        subprocess.run([os.path.join(SCRIPTS, "traced_cc"), "-g", os.path.join(ERRORS, "cwe787_shrunk.c"), "-o", program], check=True)
        words = [os.path.join(SCRIPTS, "find_faults"), "--measure", scudo_in(self.work), program]
        told = subprocess.run(words, capture_output=True, text=True).stdout
        wanted = [f"{heap.says} {real_heaps.RUNS if heap.name == 'glibc' else 0} of {real_heaps.RUNS} runs" for heap in real_heaps.HEAPS]
        expect("find_faults --measure", f"    measured: {', '.join(wanted)}\n" in told, told)
        status = subprocess.run([*words[:2], "/", program], capture_output=True).returncode
        expect("find_faults --measure of a folder without Scudo", status == 2, status)


def add_options(parser):
    parser.add_argument("--table", action="store_true", help="print each row too")
    parser.add_argument("--rows", action="store_true", help="print heap_rows.tsv")
    parser.add_argument("--random", type=int, default=4, metavar="N", help="try so many random programs (4)")
    parser.add_argument("--runs", type=int, default=60, metavar="N", help="play each of them so often (60)")
    parser.add_argument("--jobs", type=int, default=os.cpu_count(), metavar="N", help="play so many histories at once")
    parser.add_argument("--work", metavar="FOLDER", help="keep the sources and what is built there, for the next time")


if __name__ == "__main__":
    checks.main()
