#!/usr/bin/env -S python3 -B
"""Tests traced_cc, traced_c++ and find_faults on the built program, or on the one that MTE_TOOL names: the programs of examples/errors,
random programs, and programs with threads, forks, signals and much else."""

import contextlib
import os
import random
import re
import resource
import shutil
import signal
import struct
import subprocess
import sys
import tempfile
import time
import zlib
from concurrent.futures import ThreadPoolExecutor
from pathlib import Path

import checks
import slot_model
from checks import expect, skip, skip_without
from mte_scripts import certificate_texts
from mte_scripts.faults import compiler_driver, heap_answers, heap_reader, odds
from mte_scripts.faults.fault_log import Log, NoLog
from mte_scripts.places import GET_GCC

HERE = os.path.dirname(os.path.realpath(__file__))
ROOT = os.path.dirname(os.path.dirname(HERE))
SCRIPTS, ERRORS, PROGRAMS = os.path.join(ROOT, "scripts"), os.path.join(ROOT, "examples", "errors"), os.path.join(HERE, "faults_programs")

FIND = os.path.join(SCRIPTS, "find_faults")
BUILT = checks.PROGRAM
DOCUMENT = os.path.join(ERRORS, "README.md")
SEEDS = 64
RANDOM, OPERATIONS = range(1, 31), 4000
COMPILERS = {"gcc": ("gcc", "g++"), "clang": ("clang", "clang++")}
BY_LAWS = "is an error of mte_tool"
HEAPS = ("this heap", "without parity", "Scudo", "glibc")
FEW = (("DELAY", 20), ("AGAIN", 28))  # bits of bytes after which a runtime of the test gives memory and addresses out again
DONE = r"(?:load|store|free|delete|delete\[\]|realloc)"  # what a line says that a program did
MOST_APART = 0.15  # the odds and the share of 64 seeds


def run(words, **options):
    """(status, standard output, standard error) of a command; 124 where it does not end."""
    try:
        done = subprocess.run(words, capture_output=True, text=True, errors="replace", timeout=300, stdin=subprocess.DEVNULL, **options)
    except subprocess.TimeoutExpired:
        return 124, "", "it does not end"
    return done.returncode, done.stdout, done.stderr


def find(name, words, status, *patterns, lacks=None, **options):
    """Checks the exit status of find_faults, and patterns that its answer has, or lacks."""
    got, told, said = run([FIND, *words], **options)
    has_all = all(re.search(each, told, re.M) for each in patterns) and not (lacks and re.search(lacks, told, re.M))
    expect(name, got == status and has_all, got, told, said)


def build(source, to, compiler, *flags):
    """Whether traced_cc or traced_c++ builds a program."""
    driver = os.path.join(SCRIPTS, "traced_c++" if source.endswith(".cpp") else "traced_cc")
    environment = dict(os.environ, TRACED_CC=COMPILERS[compiler][0], TRACED_CXX=COMPILERS[compiler][1])
    status, _, said = run([driver, "-w", "-pthread", source, "-o", to, *flags, "-lm"], env=environment)
    return expect(f"{os.path.basename(source)} with {compiler} {' '.join(flags)}: it does not build", status == 0, said)


def build_sanitized(path, to, compiler, *flags):
    """The path of a program with AddressSanitizer; None where it does not build."""
    words = [COMPILERS[compiler][path.endswith(".cpp")], "-w", "-g", "-fsanitize=address", *flags, path, "-o", to]
    status, _, said = run(words)
    return to if expect(f"{path} with AddressSanitizer, {compiler} {' '.join(flags)}", status == 0, said) else None


class Example:
    """A program of examples/errors, with what its comments say: its title, what the heap does, the error, and the wrong line."""

    def __init__(self, name):
        self.name, self.path = name, os.path.join(ERRORS, name)
        lines = Path(self.path).read_text().split("\n")
        self.title = lines[0][3:]
        described = re.fullmatch(r"// heap: (always|sometimes|never): (.+)", lines[1])
        self.heap, self.says = described.groups() if described else (None, None)
        self.wrong = [number for number, line in enumerate(lines, 1) if line.endswith("// WRONG")]
        expect(f"{name}: its comments", len(self.wrong) == (1 if self.heap else 0), self.wrong)

    def try_build(self, compiler, flag, work):
        """Whether the right line is told."""
        name = f"{self.name} with {compiler} {flag}"
        program = os.path.join(work, f"{self.name}.{compiler}{flag}")
        if not build(self.path, program, compiler, flag):
            return None
        words = ["--keep", program + ".kept", program]
        if not self.heap:
            find(f"{name}: it has no error", words, 0, r"\Aerrors 0$", cwd=ERRORS)
        else:
            line = rf"^(?:    then )?{re.escape(self.name)}:{self.wrong[0]} in .*: {re.escape(self.says)}(?: \(\d+ times\))?(?:: |$)"
            find(f"{name}: no line {self.wrong[0]}, {self.says}", words, 1, line, cwd=ERRORS)
        return program + ".kept"

    def try_seeds(self, compiler, flag, work):
        """How often the heap catches the error, what that rests on, and the odds of each heap."""
        kept = self.try_build(compiler, flag, work)
        if not kept or not self.heap:
            return None
        status, told, said = run([FIND, "--read", kept, "--seeds", str(SEEDS)], cwd=ERRORS)
        found = re.search(rf"^{re.escape(self.name)}:{self.wrong[0]} in .*: {re.escape(self.says)}: (?:caught (\d+))?.*\((.*)\)$", told, re.M)
        if not expect(f"{self.name} over {SEEDS} seeds", status == 1 and found, status, told, said):
            return None
        caught, odds = int(found[1] or 0), odds_in(told[found.end() :])
        heap = "never" if caught == 0 else "always" if caught == SEEDS else "sometimes"
        expect(f"{self.name}: the heap catches it at {caught} of {SEEDS} seeds", heap == self.heap, self.heap)
        agrees = odds["this heap"] == heap or (heap == "sometimes" and abs(eval_fraction(odds["this heap"]) - caught / SEEDS) < MOST_APART)
        expect(f"{self.name}: the odds and the seeds", agrees, odds, caught)
        answer = f"{odds['this heap']} ({caught} of {SEEDS} seeds)" if heap == "sometimes" else heap
        return answer, found[2], odds["Scudo"], odds["glibc"]

    def row(self, work):
        """A row of the table, without what AddressSanitizer says."""
        answer = self.try_seeds("gcc", "-O0", work)
        kind, what = self.title.split(": ", 1)
        return answer and f"| [{kind}]({self.name}) | {what.rstrip('.')} | {answer[0]} | {rests_on(answer[1])} | {answer[2]} | {answer[3]} |"

    def sanitizer(self, work):
        """What GCC's AddressSanitizer says."""
        program = build_sanitized(self.path, os.path.join(work, self.name + ".sanitized"), "gcc", "-O0")
        said = run([program], env=dict(os.environ, ASAN_OPTIONS="detect_leaks=0"))[2]
        found = re.search(r"SUMMARY: AddressSanitizer: ([A-Za-z-]+)", said)
        return found[1] if found else "nothing"


def odds_in(told):
    """The odds of the next entry, by heap."""
    line = re.search(r"^    odds: (.*)$", told, re.M)[1]
    for same in ("always on each heap", "never on any heap"):
        if line.startswith(same):
            return {name: same.split()[0] for name in HEAPS}
    return {name: re.search(rf"{name} (.*?)(?: \(|, (?:{'|'.join(HEAPS)}) |$)", line)[1] for name in HEAPS}


def eval_fraction(text):
    above, below = text.split("/")
    return int(above) / int(below)


def try_kinds(source, compiler, flag, work, sanitizer=False):
    """(how many of a program's errors are told at once, how many AddressSanitizer tells, how many there are). Each runs by its word."""
    path, program = os.path.join(PROGRAMS, source), os.path.join(work, f"{source}.{compiler}{flag}")
    if not build(path, program, compiler, flag):
        return 0, 0, 0
    kinds, told, said = run([program])[1].split(), [], []
    if sanitizer:
        build_sanitized(path, program + ".sanitized", compiler, flag)
    for kind in kinds:
        log = f"{program}.{kind}.log"
        if "\ntraced_cc: " in "\n" + run([program, kind], env=dict(os.environ, ACCESSES=log), cwd=work)[2]:  # its path is too long for a block
            told.append(kind)
        if sanitizer and "AddressSanitizer" in run([program + ".sanitized", kind], env=dict(os.environ, ASAN_OPTIONS="detect_leaks=0"), cwd=work)[2]:
            said.append(kind)
        if os.path.exists(log):
            os.remove(log)
    missing = set(kinds) - set(told)
    expect(f"{source} with {compiler} {flag}: not told", kinds and not missing, missing)
    return len(told), len(said), len(kinds)


def try_right_calls(source, compiler, flag, work):
    """Right calls of functions that the runtime stands in for: they answer as they do without it, and no error is told."""
    program = os.path.join(work, f"right_{source}.{compiler}{flag}")
    if build(os.path.join(PROGRAMS, source), program, compiler, flag):
        status, told, said = run([FIND, program, "right"])
        expect(f"right calls of {source} with {compiler} {flag}", status == 0 and "traced_cc" not in said, status, told, said)


def exported_functions(path):
    """The functions that a library exports."""
    return set(re.findall(r"(?m)^[0-9a-f]+ [TWi] (\w+)", run(["nm", "-D", "--defined-only", path])[1]))


def try_number(work):
    """docs/FAULTS.md says for how many functions of libc and libm the runtime stands in."""
    if skip_without("gcc nm ldd", "how many functions of libc the runtime stands in for"):
        return
    runtime = compiler_driver.runtime("gcc")
    libraries = re.findall(r"=> (/\S+/lib[cm]\.so\S*)", run(["ldd", runtime])[1])
    document = " ".join(Path(ROOT, "docs", "FAULTS.md").read_text().split())
    theirs = set().union(*map(exported_functions, libraries))
    found = exported_functions(runtime) & theirs
    expect("libc and libm have the functions that the runtime stands in for", len(libraries) == 2 and len(found) > 300, libraries, len(found))
    sanitizer = run(["gcc", "-print-file-name=libasan.so.8"])[1].strip()
    if not os.path.isabs(sanitizer) or os.confstr("CS_GNU_LIBC_VERSION") != "glibc 2.36":
        checks.skip("without the sanitizer of GCC 12 and glibc 2.36: for how many of its functions the runtime stands in")
        return
    plain = {name for name in exported_functions(sanitizer) & theirs if not name.startswith("_")}
    for says in (f"In glibc 2.36 the runtime stands in for {len(found)} functions, ",
                 f"for {len(plain & found)} of the {len(plain)} that GCC 12's AddressSanitizer exports"):
        expect(f"docs/FAULTS.md: {says}", says in document)


def try_unfreed(compiler, flag, work):
    """What is left at the end is told where that is asked for, and else not."""
    program = os.path.join(work, f"unfreed.{compiler}{flag}")
    if build(os.path.join(PROGRAMS, "unfreed.c"), program, compiler, flag):
        status, told, said = run([FIND, "--unfreed", program], cwd=PROGRAMS)
        expect(f"unfreed.c with {compiler} {flag}", status == 1 and has_lines(told, LEFT), status, told, said)
        find(f"unfreed.c with {compiler} {flag}, not asked", [program], 0, r"\Aerrors 0$", lacks="reachable|lost", cwd=PROGRAMS)


def print_levels(pool, compilers, work):
    """The table of errors that compilers may take out."""
    levels = ("-O0", "-O1", "-O2", "-O3")
    print(f"| Errors | by | {' | '.join(f'`{level}`' for level in levels)} |\n|---|---|{'---|' * len(levels)}")
    for source in ("plain.c", "plain.cpp", "calls.c"):
        for compiler in compilers:
            found = list(pool.map(lambda level: try_kinds(source, compiler, level, work, sanitizer=True), levels))
            print(f"| {found[0][2]} of `{source}` | {compiler} | {' | '.join(f'{told}, AddressSanitizer {said}' for told, said, _ in found)} |")


def rests_on(reason):
    """A law as code, and a reason as it is."""
    return f"`{reason}`" if reason.startswith("law_") else reason


def examples():
    return [Example(name) for name in sorted(os.listdir(ERRORS)) if name.endswith((".c", ".cpp"))]


def try_random(number, operations, compilers, work):
    """A random program with options of its own: the replay, the recorder and the laws agree."""
    compiler = compilers[number % len(compilers)]
    granules = 262144 if number % 4 else 20000
    words = ["--limit", 1 + number % 9, "--quarantine", number * 7919 % 5 * 20000, "--granules", granules, "--seed", number]
    program = [os.path.join(work, f"random.{compiler}"), number, operations, 30 + number % 3 * 30]
    status, told, said = run(list(map(str, [FIND, *words, *program])))
    errors = re.search(r"^wrong accesses and frees (\d+)$", told, re.M)
    has_many = errors and int(errors[1]) > operations / 200
    expect(f"random {number} with {compiler}", status == 1 and has_many, status, told[-300:], said[-600:])


def has_lines(told, lines):
    """Whether a report has lines of these patterns, in their order."""
    left = iter(told.split("\n"))
    return all(any(re.fullmatch(line, each) for each in left) for line in lines.strip("\n").split("\n"))


def try_program(name, compiler, flag, work, lines):
    """A program of faults_programs: its report has these lines, in their order."""
    program = os.path.join(work, f"{name}.{compiler}{flag}")
    if not build(os.path.join(PROGRAMS, name), program, compiler, flag):
        return
    got, told, said = run([FIND, program], cwd=PROGRAMS)
    wanted, has_all = lines.strip("\n").split("\n"), has_lines(told, lines)
    status = 3 if wanted[-1].startswith("incomplete") else wanted[-1] != "errors 0"
    expect(f"{name} with {compiler} {flag}", got == status and has_all, got, told[-500:], said)


def log_of_random(number, compilers, work, operations):
    """The log of a random program, with its path, and a heap for it."""
    path = os.path.join(work, f"small.{number}.log")
    run(list(map(str, [os.path.join(work, f"random.{compilers[number % len(compilers)]}"), number, operations, 40])), env=dict(os.environ, ACCESSES=path))
    return Log(path), path, (1 + number % 9, 262144 if number % 4 else 20000, number * 7919 % 5 * 20000)


def try_answers(number, compilers, work):
    """What the heap says of a random program's errors: the model of the slots says the same, the replay of the built program has the same
    lines, the small log has the same errors with the same odds as far as it tells them, and each seed its own answers."""
    log, path, heap = log_of_random(number, compilers, work, 3000)
    seeds = [at * 40503 % 65536 for at in range(number, number + 10)]
    answers = heap_answers.Answers(log, path, log.length, heap, seeds)
    expect(f"random log {number}: the laws", not list(answers.differences()), list(answers.differences())[:3])
    table = certificate_texts.parse_sheet(answers.sheet).classes
    model = slot_model.verdicts_of(log, slot_model.Slots(table, *heap[1:]))
    found = [its._replace(event=None) if its.kind == "asked" else None for its in answers.verdicts]
    other = [both for both in zip(log.errors, model, found) if both[1] != both[2]]
    expect(f"random log {number}: the model of the slots", any(model) and not other, other[:3])
    words = ["replay", "--granules", str(heap[1]), "--quarantine", str(heap[2]), "--seed", str(seeds[0])]
    replayed = subprocess.run([BUILT, *words], input=answers.sheet.split(b"\n")[0] + b"\n" + answers.trace, capture_output=True).stdout.decode()
    report = {int(at): line for at, line in re.findall(r"(?m)^(\d+) (?!data )(.*)$", replayed)}
    wrong = list(answers.replayed(report))
    has_all = answers.events == answers.trace.count(b"\n") and all(report.get(at) == line for at, line in answers.reports[0].items())
    expect(f"random log {number}: the replay", answers.trace and has_all and not wrong, answers.events, wrong[:3])
    alone = heap_answers.Answers(log, path, log.length, heap, seeds[-1:])
    expect(f"random log {number}: a seed of many", alone.said[0] == answers.said[-1] and len(answers.said) == len(seeds))
    try_small(number, answers, path, heap, seeds)


def try_small(number, answers, path, heap, seeds):
    log, (small, its) = answers.log, heap_answers.Answers.small(path, heap, seeds[:1], least=0)
    told = [[(error.letter, error.offset, error.size, error.state, error.times, each.size[error.block], each.stacks[error.stack],
              each.stacks[each.made[error.block]], each.alignment.get(error.block)) for error in each.errors] for each in (log, small)]
    expect(f"small log {number}: its errors", told[0] == told[1] and len(small.letters) < len(log.letters))
    expect(f"small log {number}: its answers", (its.said[0], its.verdicts, its.profile) == (answers.said[0], answers.verdicts, answers.profile))
    kept = {"live", "freed", "resized"}
    expect(f"small log {number}: its states", {error.state for error in log.errors} <= kept)
    both = zip(*(list(map(odds.Odds(each, its.verdicts)._elsewhere, range(len(each.errors)))) for each in (log, small)))
    # a small log knows less: what it says of another heap is the same, or less
    worse = [pair for pair in both for whole, part in zip(*pair) if part.least > whole.least or part.is_exact and part != whole]
    expect(f"small log {number}: its odds", not worse, worse[:3])


def try_mutations(work):
    """Logs that differ from a random one by a line: the reader ends, and answers what the whole log allows."""
    path = os.path.join(work, "small.3.log")
    base = Path(path).read_bytes()
    (length,) = struct.unpack_from("<Q", base, 16 + 40 * struct.unpack_from("<Q", base, 8)[0])
    lines, draw = base[128 : 128 + length].split(b"\n")[:-1], random.Random(1)
    mutated, made = os.path.join(work, "mutated"), 0
    for _ in range(150):
        changed = list(lines)
        at = draw.randrange(len(changed))
        words = changed[at].split(b" ")
        words[draw.randrange(len(words))] = draw.choice((b"0", b"-1", b"9" * 17, b"4294967296", b"5", b"1:", b"", b"17", b"20000", b"L", b"m", b"r"))
        changed[at : at + draw.randrange(2)] = [b" ".join(words), draw.choice(lines)][: draw.randrange(3)]
        text = b"".join(line + b"\n" for line in changed)
        Path(mutated).write_bytes(log_of(text))
        words = [heap_reader.path(), mutated, str(len(text)), *(f"{mutated}.{name}" for name in heap_answers.FILES), "4", "20000", "65536", "1"]
        status = subprocess.run(words, capture_output=True).returncode
        with contextlib.suppress(NoLog):
            log = Log(mutated)
            expect("the reader of a log that is told", status == 0 or log.missing or log.length < len(text), status)
        made += status == 0
        expect("the reader of a mutated log", status in (0, 4), status)
    expect("mutated logs", 20 < made < 150, made)


def try_large(compilers, pool, work):
    """Logs of random programs and of large ones."""
    list(pool.map(lambda number: try_answers(number, compilers, work), range(1, 31)))
    try_mutations(work)
    for name in LARGE:
        try_program(name, compilers[0], "-O2", work, SPECIAL[name])


def try_beside(name, compiler, flag, work):
    """A program of faults_programs whose comments say what is wrong with their lines: each error is told once, and nothing else."""
    program, path = os.path.join(work, f"{name}.{compiler}{flag}"), os.path.join(PROGRAMS, name)
    if not build(path, program, compiler, flag):
        return
    got, told, said = run([FIND, program], cwd=PROGRAMS)
    with open(path) as file:
        beside = [re.search(rf"// ({DONE} of .*)", line) for line in file]
    wanted = [(number, found[1]) for number, found in enumerate(beside, 1) if found]
    use = rf"^(?:    then )?{re.escape(name)}:(\d+) in \w+: ({DONE} of [^:]*?)(?: \(\d+ times\))?(?:: .*)?$"
    seen = [(int(number), says) for number, says in re.findall(use, told, re.M)]
    at_once = re.findall(rf"^traced_cc: {re.escape(name)}:(\d+) in \w+: (.*)$", said, re.M)
    is_all = sorted(seen) == sorted(wanted) == sorted((int(number), says) for number, says in at_once)
    expect(f"{name} with {compiler} {flag}", got == 1 and is_all, got, sorted(set(seen) ^ set(wanted)), told[-500:], said)


# the lines of the reports that matter, as patterns
SPECIAL = {
    "threads.c": """
threads.c:25 in main: store of 1 byte, 1 byte into a block of 50 bytes that was freed
    caught: tag fault, .*
errors 1""",
    "forks.c": """
forks.c:22 in main: store of 1 byte, 0 bytes into a block of 50 bytes that was freed
errors 1""",
    "jump.c": """
jump.c:20 in main: store of 1 byte, 1 byte after .*
    not caught: it is inside the last granule of its chunk
jump.c:21 in main: store of 1 byte, 2 bytes after .*
    caught: tag fault.*
errors 2""",
    "killed.c": """
killed.c:10 in main: store of 1 byte, 1 byte into .*
errors 1
incomplete: the program did not come to its end: .*""",
    "many_accesses.c": """
many_accesses.c:15 in main: .*
    caught: .*
    then many_accesses.c:21 in main: .*: caught: .*
errors 1""",
    "many_blocks.c": """
many_blocks.c:8 in .*
    not caught: .*
many_blocks.c:9 in .*
    caught: .*
many_blocks.c:11 in .*
    caught: .*
errors \\d+""",
    "late.c": """
late.c:14 .*
late.c:15 .*
late.c:16 .*
late.c:17 .*
late.c:19 .*
errors 5
caught 4
not caught 1""",
    "far.c": """
far.c:7 in main: store of 1 byte, 94 bytes after a block of 6 bytes
    caught: .*
far.c:8 in main: store of 1 byte, 99994 bytes after a block of 6 bytes
    caught: .*
far.c:10 in main: store of 1 byte, 199994 bytes after a block of 6 bytes
    caught: .*
far.c:11 in main: store of 1 byte, 100000 bytes after a block of 600000 bytes
    not caught: the block is larger than the heap serves
far.c:12 in main: store of 1 byte of an address that the heap never gave out
    not replayed: it is far from every block
far.c:13 in main: free of an address that the heap never gave out
    caught: misplaced: .*
far.c:17 in main: store of 1 byte of a block that was freed long ago
    not replayed: its block was freed so long ago that the recorder forgot it
far.c:18 in main: free of a block that was freed long ago
    not replayed: .*
errors 8""",
    "sizes.c": """
sizes.c:10 in main: load of 18446744073709551614 bytes, more than an object can have, 4 bytes into a block of 20 bytes
    caught: .*
    then sizes.c:10 in main: load of 18446744073709551614 bytes, more than an object can have, 4 bytes into a block of 30 bytes: caught: .*
    allocated at sizes.c:8 in main
    the other block allocated at sizes.c:8 in main
sizes.c:13 in main: load of 18446744073709551614 bytes, more than an object can have, 4 bytes into a block of 30 bytes that was freed
    then sizes.c:13 in main: store of 18446744073709551614 bytes, more than an object can have, 4 bytes into a block of 20 bytes: caught: .*
    freed at sizes.c:12 in main
errors 2
crashed 1
the program ended with status 139""",
    "pool.c": """
pool.c:18 in main: store of 1 byte to poisoned memory, 69 bytes into a block of 4096 bytes
    not caught: the program itself poisoned it, .*
    then pool.c:19 in main: store of 1 byte to poisoned memory, 70 bytes into .*
    poisoned at pool.c:10 in put, from pool.c:17 in main: 32 bytes, the access begins 5 bytes into them
    unpoisoned before at pool.c:7 in get, from pool.c:15 in main: 32 bytes, the access begins 5 bytes into them
    allocated at pool.c:13 in main
pool.c:22 in main: load of 1 byte of poisoned memory, 96 bytes into a block of 4096 bytes
    poisoned at pool.c:14 in main: 4096 bytes, the access begins 96 bytes into them
errors 2""",
    "ways.c": """
ways.c:4 in put: store of 1 byte, 0 bytes after a block of 20 bytes \\(4 times\\)
    from ways.c:5 in level1
    from ways.c:18 in main
    also from ways.c:7 in level2, from ways.c:19 in main
ways.c:9 in release: free of a block of 30 bytes that was freed .*
    from ways.c:13 in twice
    from ways.c:21 in main
    also from ways.c:13 in twice, from ways.c:22 in main
    freed at ways.c:9 in release, from ways.c:12 in twice, from ways.c:21 in main
errors 2""",
    "long_copy.c": """
long_copy.c:11 in main: load of 600 bytes, from 0 bytes into a block of 48 bytes to 552 bytes after it
long_copy.c:12 in main: load of 600 bytes, from 0 bytes into a block of 48 bytes to 552 bytes after it
long_copy.c:13 in main: overlapping copy of 9 bytes, 8 bytes into a block of 48 bytes
bits/put.h:3 in put: store of 1 byte, 0 bytes after a block of 48 bytes
    from long_copy.c:14 in main
errors 4""",
    "large_pool.c": """
large_pool.c:14 in main: store of 1 byte to poisoned memory, 180 bytes into a block of 4096 bytes
    poisoned at large_pool.c:10 in main: 4096 bytes, the access begins 180 bytes into them
large_pool.c:16 in main: store of 1 byte to poisoned memory, 167 bytes into a block of 4096 bytes
    poisoned at large_pool.c:7 in put, from large_pool.c:15 in main: 20 bytes, the access begins 7 bytes into them
    unpoisoned before at large_pool.c:6 in get, from large_pool.c:12 in main: 20 bytes, the access begins 7 bytes into them
large_pool.c:17 in main: overlapping copy of 10 bytes, 5 bytes into a block of 30 bytes
errors 3""",
    "strings.cpp": """
strings.cpp:17 in main: store of 1 byte, 0 bytes after a block of \\d+ bytes
    allocated at strings.cpp:5 in made.*, from strings.cpp:15 in main
strings.cpp:19 in main: store of 1 byte, 3 bytes into a block of \\d+ bytes that was freed
    freed at strings.cpp:18 in main
errors 2""",
    "lambdas.cpp": r"""
lambdas\.cpp:11 in (.*\{lambda\(\)#1\}.*|main::\$_0::operator\(\)): load of 4 bytes, 4 bytes after a block of 40 bytes
lambdas\.h:5 in Later<int \(\*\)\(int\)>::run: load of 4 bytes, 12 bytes into a block of 40 bytes that was freed
lambdas\.cpp:18 in .*: load of 4 bytes, 20 bytes into a block of 80 bytes that was freed
errors 3""",
    "fibers.c": """
fibers.c:16 in work: store of 1 byte, 0 bytes after a block of 13 bytes
    from fibers.c:22 in run
    allocated at fibers.c:14 in work, from fibers.c:22 in run
errors 1""",
    "wrapper.c": """
    allocated at wrapper.c:7 in must_allocate, from wrapper.c:13 in new_name, from wrapper.c:17 in main
errors 1""",
}
LARGE = ("many_accesses.c", "late.c", "large_pool.c")
QUIET = ("signal.c", "features.cpp", "functions.c", "handlers.cpp")
LEFT = r"""
unfreed\.c:15 in make: 120 bytes in 3 blocks, to which no pointer is left at the end
    from unfreed\.c:16 in lose_one
    also from unfreed\.c:17 in lose_more, from unfreed\.c:\d+ in main
errors 1
possibly lost at the end: 25 bytes in 1 block, to which the stack alone has a pointer, allocated at unfreed\.c:15 in make, from unfreed\.c:47 in main
still reachable at the end: 33 bytes in 1 block, allocated at unfreed\.c:15 in make, from unfreed\.c:40 in main
still reachable at the end: 160 bytes in 5 blocks, allocated at unfreed\.c:42 in main
still reachable at the end: \d+ bytes in 1 block of libc's own"""
BESIDE = ("unaligned.c", "copies.c", "mismatches.cpp")


def try_lies(work):
    """A heap that lies once in the reader: it does not refuse what it has to, names another kind or granule, or refuses a right access. And a
    replay that lacks a line."""
    cache, program, source = os.path.join(work, "lies"), os.path.join(work, "random.gcc"), os.path.join(PROGRAMS, "liar.c")
    os.mkdir(cache, 0o700)
    environment, library = dict(os.environ, XDG_CACHE_HOME=cache), heap_reader.library()
    words = [FIND, program, "3", "3000", "60"]
    expect("a heap that tells the truth", run(words, env=environment)[0] == 1)
    place = os.path.join(cache, "mte_tool", next(name for name in os.listdir(os.path.join(cache, "mte_tool")) if name.startswith("reader-")), "heap_answers")
    wrapped = [f"-Wl,--wrap=mte_tool_heap_{name}" for name in ("load", "store")]
    built = run(["gcc", "-O1", f"-I{library}/include", heap_reader.SOURCE, source, heap_reader.static(library), *wrapped, "-o", place])
    expect("a reader with a heap that lies", built[0] == 0, built)
    for lie in ("none", "lose", "other kind", "granule", "right access refused"):
        status, _, said = run(words, env=dict(environment, LIE=lie))
        wanted = 1 if lie == "none" else 3
        expect(f"a heap that lies: {lie}", status == wanted and (BY_LAWS in said) == (wanted == 3), status, said)
    liar = os.path.join(work, "liar")
    Path(liar).write_text("""#!/bin/bash\n"$TOLD" "$@" | sed '0,/ fault tag/{/ fault tag/d}'\n""")
    os.chmod(liar, 0o755)
    kept = os.path.join(work, "lies.kept")
    status, _, said = run([FIND, "--keep", kept, *words[1:]], env=dict(os.environ, MTE_TOOL=liar, TOLD=BUILT))
    expect("a replay that lies", status == 3 and BY_LAWS in said, status, said)


def try_words(work):
    """Words, and what is missing."""
    for name in ("find_faults", "traced_cc"):
        status, told, _ = run([os.path.join(SCRIPTS, name), "--help"])
        expect(f"{name} --help", status == 0 and re.search("^Usage: ", told, re.M) and max(map(len, told.split("\n"))) <= 132, status, told)
    empty, full = os.path.join(work, "empty"), os.path.join(work, "full")
    os.mkdir(empty), os.mkdir(full)
    Path(full, "log").write_text("m one two\n")
    for status, says, words in (
        (2, "there is no program", []),
        (2, "--help", ["--limit", "33", "true"]),
        (2, "--help", ["--seed", "0", "true"]),
        (2, "--help", ["--wrong", "true"]),
        (2, "--help", ["--read", full, "true"]),
        (2, "is no log", ["--read", full]),
        (2, "can't be read", ["--read", empty]),
        (2, "no empty folder", ["--keep", full, "true"]),
        (3, "there is no program", ["no_such_program"]),
        (3, "traced_cc", ["true"]),
    ):
        got, told, said = run([FIND, *words])
        expect(f"find_faults {' '.join(words)}", got == status and not told and says in said, got, told, said)
    status, _, said = run([os.path.join(SCRIPTS, "traced_cc"), "a.c"], env=dict(os.environ, TRACED_CC="no_such_compiler"))
    expect("traced_cc without a compiler", status == 3 and "install" in said, status, said)
    if shutil.which("gcc"):
        words = [os.path.join(SCRIPTS, "traced_cc"), "-c", os.path.join(PROGRAMS, "long.c"), "-o", os.path.join(work, "long.o")]
        done = subprocess.run(words, stderr=subprocess.PIPE, preexec_fn=lambda: os.close(1))
        expect("traced_cc with a closed standard output", done.returncode == 0, done.stderr)
    plain = {name: value for name, value in os.environ.items() if not name.startswith("TRACED_")}
    missing = "there is no compiler: install gcc or clang (Debian: `apt install gcc libc6-dev`)"
    for driver, word in (("traced_cc", "a.c"), ("traced_c++", "a.cc"), ("find_faults", "/bin/true")):
        status, told, said = run([sys.executable, os.path.join(SCRIPTS, driver), word], env={**plain, "PATH": empty})
        is_one = said.count("\n") == 1 and missing in said
        expect(f"{driver} without a compiler on the path", status == 3 and not told and is_one, status, told, said)


# words for traced_cc, what they make, and TRACED_CC: nothing is linked where a header is made, or where a file of words has -c
DRIVEN = (
    ("-x c-header h.h -o h.gch", "h.gch", "gcc"), ("h.h", "h.h.gch", "gcc"), ("@words use.c -o use_c.o", "use_c.o", "gcc"),
    ("-include h.h use.c -o use_h", "use_h", "gcc"), ("-g use.c -o use_e", "use_e", "env gcc"),
)


def try_driven(work):
    """Twice, since the first call leaves a recipe for the second one."""
    folder = os.path.join(work, "driven")
    os.mkdir(folder)
    for name, text in (("h.h", "int five;\n"), ("words", "-c -O1\n"), ("use.c", "int main(void) { return 0; }\n")):
        Path(folder, name).write_text(text)
    for words, made, compiler in [*DRIVEN, *DRIVEN]:
        environment = {**os.environ, "TRACED_CC": compiler}
        status, told, said = run([os.path.join(SCRIPTS, "traced_cc"), *words.split()], cwd=folder, env=environment)
        is_made = os.path.exists(os.path.join(folder, made))
        expect(f"{compiler}: traced_cc {words}", is_made and (status, told, said) == (0, "", ""), is_made, status, told, said)
        if is_made:
            os.remove(os.path.join(folder, made))


def try_stripped(compiler, work):
    """Without symbols a place is the file and an offset; of libc, which called main, nothing is told."""
    program = os.path.join(work, "stripped")
    if build(os.path.join(PROGRAMS, "wrapper.c"), program, compiler, "-O0"):
        run(["strip", program])
        status, told, said = run([FIND, program])
        places = re.findall(r"(?m)^(\S+): store|^    from (.*)|allocated at (.*)", told)
        shown = ", from ".join(map("".join, places)).split(", from ")
        named = [re.fullmatch(r"stripped\+0x[0-9a-f]+", each) for each in shown]
        expect("a stripped program", status == 1 and len(named) > 2 and all(named), status, told, said)


def try_places(work):
    """The runtime stands where nobody else can change it, and the loader takes its place; what others may have put there is not used."""
    source, program = os.path.join(ERRORS, "cwe416_store_at_once.c"), os.path.join(work, "placed")
    plain = {name: value for name, value in os.environ.items() if name not in ("HOME", "XDG_CACHE_HOME", "MTE_TOOL")}
    driver = [os.path.join(SCRIPTS, "traced_cc"), source, "-o", program]

    def refused(name, says, **environment):
        status, _, said = run(driver, env=dict(plain, **environment), cwd=work)
        expect(f"traced_cc, {name}", status == 3 and says in said and "XDG_CACHE_HOME" in said, status, said)
        expect(f"traced_cc, {name}: it builds", not os.path.exists(program))

    for name in ("a:b", "a,b", "a$LIB"):
        refused(f"a place {name}", "the loader takes no path", XDG_CACHE_HOME=os.path.join(work, name))
    refused("without a home", "no place")
    refused("a relative home", "no place", HOME="relative", XDG_CACHE_HOME="relative")
    refused("a home that is no folder", "no place", HOME=source)
    cache = os.path.join(work, "a place")
    kept = os.path.join(cache, "mte_tool")
    environment = dict(plain, XDG_CACHE_HOME=cache)

    def works(name):
        status, _, said = run(driver, env=environment)
        log = os.path.join(work, "placed.log")
        status_run, _, told = run([program], env=dict(environment, ACCESSES=log)) if status == 0 else (None, None, None)
        good = status == 0 and status_run == 0 and "PLANTED" not in said + told and os.path.getsize(log) > 0
        expect(f"traced_cc, {name}", good, status, said, status_run, told)
        for each in (log, program):
            if os.path.exists(each):
                os.remove(each)

    works("a place with a space")
    try_planted(kept, work, works, refused, cache)


def try_planted(kept, work, works, refused, cache):
    """What others may have put into the place of the runtime or of a recipe is not used."""
    folder = os.path.join(kept, next(name for name in os.listdir(kept) if name.startswith("accesses-")))
    runtime = os.path.join(folder, "libmte_accesses.so")
    planted = os.path.join(work, "planted.so")
    code = '#include <stdio.h>\n__attribute__((constructor)) static void f(void) { fputs("PLANTED\\n", stderr); }\n'
    Path(work, "planted.c").write_text(code)
    run(["cc", "-shared", "-fPIC", os.path.join(work, "planted.c"), "-o", planted])
    recipe = os.path.join(kept, "recipes", os.listdir(os.path.join(kept, "recipes"))[0])
    expect("traced_cc leaves a recipe", os.stat(recipe).st_mode & 0o777 == 0o755)
    for name, mode in (("a recipe that others can change", 0o757), ("a recipe of another compiler", 0o755)):
        lines = Path(recipe).read_text().replace("command -v 'gcc'", "command -v 'no_gcc'").replace("exec", "exec echo PLANTED")
        Path(recipe).write_text("echo PLANTED >&2\n" if mode == 0o757 else lines)
        os.chmod(recipe, mode)
        works(name)
    shutil.copy(planted, runtime)
    os.chmod(runtime, 0o777)
    works("a runtime that others can change")
    os.remove(runtime)
    os.symlink(planted, runtime)
    works("a runtime that is a link")
    for each in (folder, kept):
        os.chmod(each, 0o777)
        refused("a folder that others can change", "others can change", XDG_CACHE_HOME=cache)
        os.chmod(each, 0o700)
    if os.geteuid() == 0:
        os.chown(kept, 65534, -1)
        refused("another user's folder", "others can change", XDG_CACHE_HOME=cache)
        os.chown(kept, 0, -1)
        shutil.copy(planted, folder + "/other.so")
        os.rename(folder + "/other.so", runtime)
        os.chown(runtime, 65534, -1)
        works("another user's runtime")


def try_log(compiler, work):
    """A program runs on where its log can't be made or can't grow, and an execution without a log makes none. An error that comes later is
    told, without what the heap makes of it."""
    program = os.path.join(work, "log.long")
    if not build(os.path.join(PROGRAMS, "long.c"), program, compiler, "-O0"):
        return
    words, log = [program], os.path.join(work, "log.of_long", "log")
    os.mkdir(os.path.dirname(log))
    expect("without a log", run(words)[0] == 0)
    expect("a log in no folder", run(words, env=dict(os.environ, ACCESSES="/no/such/folder/log"))[0] == 0)

    def limit():
        resource.setrlimit(resource.RLIMIT_FSIZE, (12000 << 10, 12000 << 10))

    status, _, said = run(words, env=dict(os.environ, ACCESSES=log), preexec_fn=limit)
    expect("a log that can't grow", status == 0 and os.path.getsize(log) <= 12000 << 10, status, said)
    cut = r".*long.c:8 in main: store of 1 byte, 1 byte into a block of 50 bytes that was freed\n    not replayed: who had its slot since is not in the log, "
    cut += r".*\nerrors 1\n.*\nincomplete: the log could not grow at \d+ bytes: of what the program did later it has wrong accesses and frees alone\n"
    cut = rf"(?s)\A{cut}\Z"
    find("a log that could not grow", ["--read", os.path.dirname(log)], 3, cut)
    # the same where a file system has no more room
    small = os.path.join(work, "small")
    os.mkdir(small)
    if run(["mount", "-t", "tmpfs", "-o", "size=10m", "none", small])[0]:
        skip("without the right to mount: a log on a full disk")
        return
    try:
        find("a log on a full disk", words, 3, cut, env=dict(os.environ, TMPDIR=small))
        expect("a log on a full disk: the folder is left", not os.listdir(small))
    finally:
        run(["umount", small])
    run(["mount", "-t", "tmpfs", "-o", "size=64k,mode=700", "none", small])
    try:
        words = [os.path.join(SCRIPTS, "traced_cc"), os.path.join(PROGRAMS, "long.c"), "-o", os.path.join(work, "unbuilt")]
        status, _, said = run(words, env=dict(os.environ, XDG_CACHE_HOME=small))
        expect("traced_cc with a cache on a full disk", status == 3 and f"it needs glibc ({GET_GCC}), and room in {small}" in said, status, said)
    finally:
        run(["umount", small])


def try_long(compiler, work):
    """However many requests come, the log has room for an error at the end, and for all that the heap says of it."""
    program, kept = os.path.join(work, "longer"), os.path.join(work, "longer.kept")
    if build(os.path.join(PROGRAMS, "long.c"), program, compiler, "-O1"):
        most = 150 << 20
        status, told, said = run([FIND, "--keep", kept, program, "6000000"], preexec_fn=lambda: resource.setrlimit(resource.RLIMIT_FSIZE, (most, most)))
        told_all = re.search(r"^.*long.c:8 in main: store of 1 byte, 1 .*\n    caught: tag fault, .*\n    odds: always on each heap\n", told, re.M)
        left_out = re.search(r"\nleft out: (\d+) blocks of which the log has no more\n", told)
        expect("a long run", status == 1 and told_all and left_out and "incomplete" not in told, status, told, said)
        expect("a long run: its profile has all requests", Path(kept, "profile").read_text() == "24 6000000\n50 1\n")


def try_written_anew(compiler, work):
    """A log that was written anew again and again has the same errors and the same profile as one that never was, and the laws say the same."""
    program, logs = os.path.join(work, "random.anew"), []
    if not build(os.path.join(PROGRAMS, "random.c"), program, compiler, "-O1"):
        return
    for most in (1 << 30, 1 << 17):
        folder = os.path.join(work, f"runtime.{most}")
        os.mkdir(folder)
        sources = [path for path in compiler_driver.SOURCES if path.endswith(".c")]
        flags = [*compiler_driver.RUNTIME_FLAGS, "-O1", "-g0", f"-DMOST_LOG={most}", *(f"-D{name}=((address)1<<{bits})" for name, bits in FEW)]
        built = run(["gcc", *flags, *sources, "-o", os.path.join(folder, compiler_driver.RUNTIME), "-lm", "-ldl", "-pthread"])
        expect("a runtime that writes logs anew", built[0] == 0, built)
        path = os.path.join(folder, "log")
        run([program, "5", "60000", "10"], env=dict(os.environ, ACCESSES=path, LD_LIBRARY_PATH=folder))
        log = Log(path)
        logs.append((log, heap_answers.Answers(log, path, log.length, (8, 262144, 65536), [1]), *heap_answers.Answers.small(path, (8, 262144, 65536), [1], 0)))
    if build(os.path.join(PROGRAMS, "long.c"), program, compiler, "-O1"):  # its blocks have the same addresses again and again
        run([program, "2000000"], env=dict(os.environ, ACCESSES=path + ".long", LD_LIBRARY_PATH=folder))
        errors = [(error.letter, error.offset, error.state) for error in Log(path + ".long").errors]
        expect("an error after blocks that had its addresses", errors == [("S", 1, "freed")], errors)
    told = [[(error.letter, error.offset, error.size, error.state, error.times, log.size[error.block], log.alignment.get(error.block),
              *map(pages_offsets, (log.stacks[error.stack], log.stacks[log.made[error.block]], log.stacks[max(log.ended[error.block], 0)])))
             for error in log.errors] for log in (logs[0][0], logs[1][0], logs[1][2])]
    (whole, its, *_), (short, other, _, of_small) = logs
    expect("a log that was written anew: its errors", len(told[0]) > 100 and told[0] == told[1] == told[2], len(told[0]), len(told[1]), len(told[2]))
    expect("a log that was written anew: most of it", short.left_out > len(whole.size) / 3 and short.length < 2 * whole.length / 3, short.left_out, short.length)
    expect("a log that was written anew: its profile", its.profile == other.profile == of_small.profile)
    expect("a log that was written anew: the laws", not [*other.differences(), *its.differences()], list(other.differences())[:3])
    expect("a log that was written anew: its small log", other.verdicts == of_small.verdicts)
    answers = [{one.promise.answer, two.promise.answer} for one, two in zip(its.verdicts, other.verdicts)]
    apart = [both for both in zip(whole.errors, answers) if both[1] == {"refused", "accepted"} or both[0].state == "live" and len(both[1]) > 1]
    reasons = {each.promise.reason for each in other.verdicts}
    expect("a log that was written anew: what the laws say", not apart and {heap_answers.LEFT_OUT, "law_bookkeeping"} <= reasons, apart[:3], reasons)


def pages_offsets(stack):
    """What a stack is wherever the program is loaded."""
    return [int(pc, 16) % 4096 for pc in stack.split(",") if pc]


def try_ends(compiler, work):
    """A log is whole where the program came to its end, and what a killed one did until then is told. SIGTERM and SIGHUP end the program."""
    program = os.path.join(work, "ends")
    if not build(os.path.join(PROGRAMS, "ends.c"), program, compiler, "-O1"):
        return
    for kind in ("return", "_exit", "quick_exit", "handler", "abort"):
        find(f"an end by {kind}", [program, kind], 1, f"^errors {2 if kind == 'abort' else 1}$", lacks="incomplete")
    for kind in ("kill", "exec", "vfork"):
        find(f"an end by {kind}", [program, kind], 3, "^errors 1$", "^incomplete: the program did not come to its end")
    limited = f"(ulimit -v 4000000; {program} return 2>/dev/null); {program} return; :"
    line = r"incomplete of process \d+, ends: the runtime had no room for its tables, and ended the program: raise `ulimit -v`, "
    name, one = "a process without room for the runtime, whose own output is lost", r"^incomplete(?s:.*)^incomplete"
    find(name, ["--children", "sh", "-c", limited], 3, r"^processes 2\nerrors 1$", f"^{line}", lacks=one)
    place = os.path.join(work, "ended")
    os.mkdir(place)
    stopped = ((signal.SIGTERM, ["wait"], 1), (signal.SIGHUP, ["right"], 0), (signal.SIGINT, ["wait"], 1), (signal.SIGTERM, ["wait", "ignored"], 1))
    streams = {"stdout": subprocess.PIPE, "stderr": subprocess.PIPE, "start_new_session": True}
    for which, words, errors in stopped:
        child = subprocess.Popen([FIND, program, *words], env=dict(os.environ, TMPDIR=place), **streams)
        while child.stderr.readline() not in (b"waiting\n", b""):
            pass
        begun = time.monotonic()
        if which == signal.SIGINT:  # a terminal sends it to all
            os.killpg(child.pid, which)
        else:
            child.send_signal(which)
        told, said = child.communicate(timeout=100)
        good = child.returncode == 3 and f"errors {errors}\n".encode() in told and b"incomplete" in told
        expect(f"{which.name} for find_faults, {words}", good, child.returncode, told, said)
        expect(f"{which.name} for find_faults, {words}: the program goes on", time.monotonic() - begun < 40)
        expect(f"{which.name} for find_faults, {words}: its folder is left", not os.listdir(place), os.listdir(place))


def try_halts(compiler, work):
    """--halt ends each process at its first error, by AddressSanitizer's exit status; a crash is the program's own end."""
    program, kept = os.path.join(work, "halts"), os.path.join(work, "halts.kept")
    if not build(os.path.join(PROGRAMS, "long_copy.c"), program, compiler, "-O2"):
        return
    for options, code in (("", 1), ("verbosity=0:exitcode=23:a=b", 23)):
        end = f"^the program ended with status {code}$", "^incomplete: --halt ended the program at its first error$"
        lines = r"\Along_copy\.c:11 ", "^errors 1$", *end
        find(f"--halt, and ASAN_OPTIONS={options}", ["--halt", program], 1, *lines, env=dict(os.environ, ASAN_OPTIONS=options), cwd=PROGRAMS)
    both = f"{program}; echo $? >&2; {program}; :"
    status, told, said = run([FIND, "--halt", "--children", "--keep", kept, "sh", "-c", both])
    good = "\nprocesses 2\nerrors 1\n" in told and told.count("\nincomplete of process ") == 2 and said.count("\n1\n") == 1
    expect("--halt --children", status == 1 and good, status, told, said)
    find("--halt, read again", ["--children", "--read", kept], 1, rf"(?s)\A{re.escape(told)}\Z")
    find("--halt --read", ["--halt", "--read", kept], 2)
    if build(os.path.join(PROGRAMS, "crashes.c"), program, compiler, "-O1"):
        find("--halt, and a crash", ["--halt", program, "null"], 1, "^the program ended with status 139$", lacks="--halt")
        find("--halt, and no error", ["--halt", program, "status"], 4, r"\Aerrors 0$", lacks="--halt")


def try_crashes(compiler, flag, work):
    """A crash is an error with its place and callers, and the program ends by it as it does alone; an exit that fails is told."""
    program, path = os.path.join(work, f"crashes.{compiler}{flag}"), os.path.join(PROGRAMS, "crashes.c")
    if not build(path, program, compiler, flag):
        return
    with open(path) as file:
        lines = {found[1]: number for number, line in enumerate(file, 1) if (found := re.search("// ([A-Z]+)$", line))}
    main = r"(    from .*\n)*    from crashes\.c:\d+ in main\n"
    for kind, place, how, callers in (
        ("null", "NULL", "SIGSEGV at the address 0x0", main), ("strlen", "STRLEN", "SIGSEGV at the address 0x0", main),
        ("assert", "ASSERT", "SIGABRT", main), ("divide", "DIVIDE", "SIGFPE", main), ("call", "CALL", "SIGSEGV at the address 0x0", main),
        ("deep", None, "SIGSEGV at the address 0x.*", r"(    from .* in deep\n){9,}"), ("raise", "RAISE", "SIGBUS", main),
        ("trap", "TRAP", "SIGILL", main),
        ("thread", None, "SIGSEGV at the address 0x.*", r"(    from .* in deep\n){9,}"),
        ("qsort", "QSORT", "SIGSEGV at the address 0x10", r"    from crashes.c:\d+ in crash\n" + main),
    ):
        status, told, said = run([FIND, program, kind], cwd=PROGRAMS)
        line = rf"crashes\.c:{lines.get(place, '[0-9]+')} in \w+: {how}\n"
        is_told = re.match(line + callers, told) and re.search(r"^traced_cc: " + line, said, re.M)
        good = status == 1 and is_told and "\nerrors 1\n" in told and "crashed 1\n" in told and "incomplete" not in told
        alone = run([program, kind])[0]
        good = good and alone < 0 and f"the program ended with status {128 - alone}\n" in told
        expect(f"a crash by {kind} with {compiler} {flag}", good, status, alone, told, said)
    for kind, code in (("own", 11), ("status", 7), ("return", 9)):
        kept = os.path.join(work, f"kept.{kind}.{compiler}{flag}")
        for words in (["--keep", kept, program, kind], ["--read", kept]):
            name = f"an end by {kind} with {compiler} {flag}, {words[0]}"
            find(name, words, 4, r"\Aerrors 0$", f"^the program ended with status {code}$")
    os.remove(os.path.join(kept, "status"))
    find("an exit status of the log alone", ["--read", kept], 4, "^the program ended with status 9$")
    find("a program whose part failed, and which goes on", ["sh", "-c", f"{program} status; {program} null; exit 0"], 0, r"\Aerrors 0$")


def try_overwritten(compiler, work):
    """A program that stores to its own log, and a log that something changed or cut later: it is never told as whole."""
    program, kept = os.path.join(work, "overwrites"), os.path.join(work, "overwrites.kept")
    if not build(os.path.join(PROGRAMS, "overwrites.c"), program, compiler, "-O1"):
        return
    for place in ("head", "20", "30", "200", "500"):
        is_whole, damage = place in ("head", "20", "30"), "incomplete: the log is damaged"  # the head is written once more at the end
        find(f"a log overwritten at {place}", [program, place], 0 if is_whole else 3, "" if is_whole else damage, lacks=is_whole and damage)
    run([FIND, "--keep", kept, program, "0"])
    log = Path(kept, "log").read_bytes()
    whole = len(log.rstrip(b"\0"))
    for name, changed, wanted in (
        ("its last byte", log[: whole - 1], 3),
        ("all but its head", log[:128], 3),
        ("half of its head", log[:50], 2),
        ("all", b"", 3),
    ):
        status, told, said = read_log(work, changed)
        good = status == wanted and ("incomplete: the log has " in told) == (len(changed) >= 128)
        expect(f"a log that lacks {name}", good, status, told, said)
    for at in (*range(8, 96, 7), 130, whole - 2):
        status, told, said = read_log(work, log[:at] + bytes([log[at] ^ 4]) + log[at + 1 :])
        # one of the two marks is not in use
        good = status == 3 and "incomplete: the log is damaged" in told or status == 0 and 8 < at < 96
        expect(f"a log whose byte {at} is another", good, status, told, said)


def read_log(work, data):
    """find_faults --read of these bytes."""
    with tempfile.TemporaryDirectory(dir=work) as folder:
        Path(folder, "log").write_bytes(data)
        most = 16 << 30 if checks.ENGINES else 1 << 30  # the project's engines take 8 GiB of addresses
        return run([FIND, "--read", folder], preexec_fn=lambda: resource.setrlimit(resource.RLIMIT_AS, (most, most)))


def log_of(text):
    """A whole log with this text, and a head that is right."""
    check, numbers = 0, (len(text), zlib.crc32(text), 0, 2)
    for number in numbers:
        check = (check ^ number) * 0x9E3779B97F4A7C15 % (1 << 64)
    return (b"ACCESS1\0" + bytes(8) + struct.pack("<5Q", *numbers, check)).ljust(128, b"\0") + text


def try_no_log(work, text):
    status, told, said = read_log(work, log_of(text))
    expect(f"a log {text[:60]}", (status, told) == (2, "") and said.count("\n") == 1 and "is no log" in said, status, told, said)


def try_hostile(pool, work):
    """Logs that no program makes: none is told as whole, or takes long, and what is printed moves no cursor."""
    begin = b"m 1 16 1:401\n"
    many = b"9" * 5000
    no_logs = (
        b"m 40000000 16 1:400\n", b"m 0 16 1:400\n", b"m -1 16 1:400\n", b"m 1 99999999999999999999999 1:400\n", b"m 1 -5 1:400\n",
        b"m 1 16 7\n", b"m 1 16 1:zz\n", b"m " + many + b" 16 1:400\n", b"m 1 16\n", b"\n", b" \n", b"\0\n", b"Z 0\n",
        begin + b"m 1 16 1\n", begin + b"f -1 1\n", begin + b"f 1 1\nf 1 1\n", begin + b"f 5000000 1\n", begin + b"r 1 1 16 1\n",
        begin + b"l 1 0 17\n", begin + b"l 1 0 99999999999\n", begin + b"l 1 -1 1\n", begin + b"l 1 16 1\n", begin + b"l 1\n",
        begin + b"L 1 99999999999999999999 1 1\n", begin + b"L 1 16 0 1\n", begin + b"L 1 16 1\n", begin + b"n 1 1 1\n",
        begin + b"+ 1 2\n", begin + b"L 1 16 1 1\n+ 1 0\n", begin + b"C 11 1 0\n", begin + b"C 99 1 0 1\n", begin + b"C 11 1 10000000000000000 1\n",
        begin + b"C 11 1 -1 1\n", begin + b"e 256\n", begin + b"e\n", begin + b"e -1\n",
        begin + b"p 1 0 0 1\n", begin + b"p 1 -1 4 1\n", begin + b"u 1 0 4\n", begin + b"P 1 0 0 1\n", begin + b"V 1 0 1\n", begin + b"i\n", begin + b"k -1\n",
        begin + b"i 5000000\n", begin + b"L 0 3 1 1\n", begin + b"S 0 -1 1 1\n", begin + b"d -1\n", begin + b"d 1 1\n", begin + b"z 16370 1\n",
        begin + b"z 24 0\n", begin + b"h 1\n", begin + b"t\n", begin + b"t 7\n", begin + b"g 1\n", begin + b"d 5\nm 1 16 1\n",
        begin + b"y 0 0 1 1\n", begin + b"y 1 0 4 1\n", begin + b"y 1 3 0 1\n", begin + b"y 1 -1 0 1\n", begin + b"y 1 0 1\n", begin + b"q 0\n",
        begin + b"v 1 x\n", begin + b"L 1 16 1 1\nv\n",
        begin + b"- 1\n", begin + b"L 1 16 1 1\n- 2\n", begin + b"M 0 10000000000000000 0 /x\n", begin + b"M 0 1 0 /x\0y\n", begin + b"M 0 1\n",
    )
    list(pool.map(lambda text: try_no_log(work, text), no_logs))
    for text in (b"m 1 16 1:400", b"m" * 9000):
        status, told, said = read_log(work, log_of(text))
        expect(f"a log {text[:60]}", status == 3 and "incomplete: the log is damaged: a line has no end" in told, status, told, said)
    try_strange(work, begin)
    try_origins(work, begin)


def try_origins(work, begin):
    """A log that goes on from another one, which is there or not."""
    whole = log_of(begin + b"f 1 1\nL 1 0 1 1\n")
    names = {"itself": b"log", "one of another folder": b"../log", "none": b"no", "a folder": b"."}
    for name, at in names.items():
        status, told, said = read_log(work, whole[:104] + struct.pack("<Q16s", len(begin), at) + whole[128 + len(begin) :])
        expect(f"a log that goes on from {name}", status == 2 and not told and "goes on from" in said, status, told, said)
    folder = os.path.join(work, "origins")
    os.mkdir(folder)
    for name, data in (("7", log_of(begin + b"l 1 0 1\n")), ("8", whole[:104] + struct.pack("<Q16s", len(begin), b"7") + whole[128 + len(begin) :])):
        Path(folder, name).write_bytes(data)
    status, told, said = run([FIND, "--children", "--read", folder])
    expect("a log that goes on from another one", status == 1 and "load of 1 byte, 0 bytes into a block of 16 bytes that was freed" in told
           and "\nprocesses 2\nerrors 1\n" in told and "incomplete" not in told, status, told, said)


def try_strange(work, begin):
    """Far from its block, more bytes than there are, an access that was taken back, and a module's name that is hostile or a pipe."""
    pipe = os.path.join(work, "pipe")
    os.mkfifo(pipe)
    for text, says in (
        (b"L 1 100000000000 1 1\n", "not replayed: it is far from every block"),
        (b"x 1 100000000000 1\n", "not replayed: it is far from every block"),
        (b"L 1 -5 -1 1\n", "load of 18446744073709551615 bytes, more than an object can have, 5 bytes before a block of 16 bytes"),
        (b"p 1 0 4 1\nP 1 2 1 1\n", "load of 1 byte of poisoned memory, 2 bytes into a block of 16 bytes"),
        (b"Q 1 90 1 1\n", "store of 1 byte to poisoned memory, 74 bytes after a block of 16 bytes"),
        (b"V 0 99999 5 1\n", "overlapping copy of 5 bytes, at the address 0x1869f"),
        (b"S 1 16 1 1\nL 1 0 17 1\n- 1\n", "load of 17 bytes, from 0 bytes into a block of 16 bytes to 1 byte after it"),
        (b"f 1 1\ny 1 0 1 1\n", "delete of a block of 16 bytes that malloc made"),
        (b"L 0 2 4 1\nv 1 stack-x\t[9, 19) 'b\x1b[31m' <== Memory access at offset 20\n", "load of 4 bytes, 1 byte after the variable b\\x1b[31m of 10"),
        (b"L 0 2 4 1\nv 1 global-x\t'a\n", "load of 4 bytes of memory that is not the heap's"),
        (b"M 400 500 0 /a\x1b[31mb\xffc\nL 1 16 1 1\n", "a\\x1b[31mb\\udcffc+0x1: load of 1 byte"),
        (f"M 400 500 0 {pipe}\nL 1 16 1 1\n".encode(), "pipe+0x1: load of 1 byte"),
    ):
        status, told, said = read_log(work, log_of(begin + text))
        good = status == 1 and says in told and "errors 1\n" in told and told.replace("\n", "").isprintable()
        expect(f"a log with {text}", good, status, told, said)
    os.mkdir(os.path.join(work, "piped"))
    os.rename(pipe, os.path.join(work, "piped", "log"))
    status, told, said = run([FIND, "--read", os.path.join(work, "piped")])
    expect("a pipe in place of a log", status == 2 and "is no log" in said, status, told, said)


def try_page(compiler, work):
    """A page without the engines of the page's heap, which nothing builds then: a copy of the scripts has none."""
    copy, program = os.path.join(work, "copy"), os.path.join(work, "paged")
    for name in ("scripts", "web", "examples"):
        shutil.copytree(os.path.join(ROOT, name), os.path.join(copy, name), symlinks=True)
    os.makedirs(os.path.join(copy, "crates"))
    shutil.copy(os.path.join(ROOT, "crates.txt"), copy)
    if build(os.path.join(ERRORS, "cwe122_loop_bound.c"), program, compiler, "-O0"):
        begun = time.monotonic()
        status, told, said = run([os.path.join(copy, "scripts", "find_faults"), "--page", program + ".html", program], cwd=ERRORS)
        page = Path(program + ".html").read_text()
        good = status == 1 and "the engines of the page are not built" in said.split("\n")[0] and "store of 4 bytes, 8 bytes after" in page
        expect("a page without engines", good and "Content-Security-Policy" in page, status, told, said, page)
        expect("a page without engines, at once", time.monotonic() - begun < 60)


def try_library(compiler, work):
    """An error in a library, of a block of the program: both have one runtime. The library is compiled and linked apart."""
    commands = """set -e
$CC -O1 -fPIC -c -o library.o $PROGRAMS/library.c
$CC -shared -Wl,-z,defs library.o -o liblibrary.so
$CC -c -o program.o $PROGRAMS/uses_library.c
$CC program.o -L. -llibrary -Wl,-rpath,. -o program
exec $FIND ./program"""
    folder = os.path.join(work, f"library.{compiler}")
    os.mkdir(folder)
    traced_cc = os.path.join(SCRIPTS, "traced_cc")
    environment = dict(os.environ, TRACED_CC=COMPILERS[compiler][0], CC=traced_cc, FIND=FIND, PROGRAMS=PROGRAMS)
    status, told, said = run(["bash", "-c", commands], cwd=folder, env=environment)
    lines = "library.c:4 in clear: store of 1 byte, 0 bytes after a block of 16 bytes\n    from uses_library.c:6 in main\n    caught: .*\n    odds: .*\n"
    found = re.match(lines + "    allocated at .*:6 in main\n", told)
    expect(f"a library with {compiler}", status == 1 and found, status, told, said)


# how interpreters load a library and call its function `run`: those of Debian, and the one that runs this
PYTHON = ["-c", "import ctypes, sys; ctypes.CDLL(sys.argv[1]).run()"]
INTERPRETERS = {
    sys.executable: PYTHON,
    "/usr/bin/python3": PYTHON,
    "/usr/bin/node": ["-e", "require(process.argv[1])"],
    "/usr/bin/ruby": ["-rfiddle", "-e", "Fiddle::Function.new(Fiddle.dlopen(ARGV[0])['run'], [], Fiddle::TYPE_VOID).call"],
    "/usr/bin/perl": ["-MDynaLoader", "-e", "DynaLoader::dl_install_xsub('run', DynaLoader::dl_find_symbol("
                      "DynaLoader::dl_load_file($ARGV[0]), 'run')); run()"],
}


def try_loaded(compiler, work):
    """An error in a library that a program loads which traced_cc did not build: it is seen where the runtime comes first, and nothing is told to
    be without errors where it does not. There is little room for what each thread has of its own by then."""
    library = os.path.join(work, f"loaded.{compiler}.node")
    environment = dict(os.environ, TRACED_CC=COMPILERS[compiler][0])
    words = [os.path.join(SCRIPTS, "traced_cc"), "-O1", "-shared", "-fPIC", os.path.join(PROGRAMS, "loaded.c"), "-o", library]
    status, _, said = run(words, env=environment)
    expect(f"a library to be loaded, with {compiler}", status == 0, said)
    status, told, said = run([FIND, sys.executable, *PYTHON, library], env=environment)
    expect(f"a library that is loaded, with {compiler}", status == 3 and not told and "find_faults --preload" in said, status, told, said)
    for interpreter, words in INTERPRETERS.items() if compiler == "gcc" else [(sys.executable, PYTHON)]:
        if not os.path.exists(interpreter):
            skip(f"without {interpreter}: a library that it loads")
            continue
        lines = r"^loaded\.c:7 in run: store of 1 byte, 0 bytes after a block of 16 bytes$", r"^processes 1\nerrors 1$"
        find(f"a library that {interpreter} loads, with {compiler}", ["--preload", interpreter, *words, library], 1, *lines, env=environment, cwd=work)


def try_table(rows):
    """examples/errors/README.md has the rows."""
    text = Path(DOCUMENT).read_text()
    for row in rows:
        expect("examples/errors/README.md lacks a row that `faults --table` prints", row and f"\n{row}" in text, row)


def gate(compilers, pool, work):
    for compiler in compilers:
        build(os.path.join(PROGRAMS, "random.c"), os.path.join(work, f"random.{compiler}"), compiler, "-O1")
    special = [(name, compiler) for name in SPECIAL if name not in LARGE for compiler in compilers]
    jobs = [pool.submit(try_program, name, compiler, "-O2", work, SPECIAL[name]) for name, compiler in special]
    jobs += [pool.submit(try_program, name, compiler, "-O1", work, "errors 0") for name in QUIET for compiler in compilers]
    jobs += [pool.submit(try_beside, name, compiler, flag, work) for name in BESIDE for compiler in compilers for flag in ("-O0", "-O2")]
    singles = try_log, try_long, try_written_anew, try_ends, try_halts, try_overwritten, try_page
    jobs += [pool.submit(each, compilers[0], work) for each in singles]
    jobs += [pool.submit(try_loaded, compiler, work) for compiler in compilers]
    jobs += [pool.submit(try_library, compiler, work) for compiler in compilers]
    for compiler in compilers:
        jobs += [pool.submit(try_kinds, source, compiler, flag, work) for source in ("plain.c", "plain.cpp") for flag in ("-O0", "-O2")]
        jobs += [pool.submit(try_kinds, source, compiler, "-O1", work) for source in ("calls.c", "misuses.c", "poison.c", "overlaps.c")]
        jobs += [pool.submit(try_kinds, "vectors.c", compiler, "-O3", work), pool.submit(try_right_calls, "vectors.c", compiler, "-O3", work)]
        jobs += [pool.submit(try_right_calls, source, compiler, "-O2", work) for source in ("calls.c", "poison.c", "overlaps.c")]
        jobs += [pool.submit(try_unfreed, compiler, flag, work) for flag in ("-O0", "-O2")]
    jobs += [pool.submit(try_crashes, compiler, flag, work) for compiler in compilers for flag in ("-O0", "-O2")]
    jobs += [pool.submit(try_random, number, OPERATIONS, compilers, work) for number in RANDOM]
    if "gcc" in compilers:
        jobs += [pool.submit(try_lies, work)]
    rows = []
    for example in examples():
        has_row = example.heap and "gcc" in compilers
        if has_row:
            rows.append(pool.submit(example.row, work))
        for how in ((compiler, flag) for compiler in compilers for flag in ("-O0", "-O2")):
            if not has_row or how != ("gcc", "-O0"):
                jobs.append(pool.submit(example.try_build, *how, work))
    for job in jobs:
        job.result()
    try_large(compilers, pool, work)
    try_table([row.result() for row in rows])


class Faults(checks.Part):
    @classmethod
    def setup_class(cls):
        os.environ["MTE_TOOL"] = checks.with_heap()
        cls.work = os.environ["XDG_CACHE_HOME"] = cls.folder()
        cls.pool = ThreadPoolExecutor(os.cpu_count())
        cls.after_class.callback(cls.pool.shutdown)
        cls.compilers = [name for name, both in COMPILERS.items() if not skip_without(" ".join(both), f"the programs of {name}")]

    def test_programs(self):
        if self.compilers:
            gate(self.compilers, self.pool, self.work)

    def test_places(self):
        if self.compilers:
            try_places(self.work)

    def test_words(self):
        try_words(self.work)
        if "gcc" in self.compilers:
            try_driven(self.work)
            try_stripped("gcc", self.work)
        try_number(self.work)

    def test_hostile(self):
        try_hostile(self.pool, self.work)


def add_options(parser):
    parser.add_argument("--table", action="store_true", help="print the table of examples/errors/README.md, with what GCC's AddressSanitizer says")
    parser.add_argument("--levels", action="store_true", help="print how many errors of plain programs and of calls of libc are told at each level")
    parser.add_argument("--random", nargs="+", type=int, metavar="N", help="try the random programs FIRST to LAST, of so many OPERATIONS (20000)")


def instead(options):
    """What is printed or tried in place of the tests."""
    if not options.table and not options.levels and not options.random:
        return None
    compilers = [name for name, both in COMPILERS.items() if not checks.missing_tools(" ".join(both))]
    with tempfile.TemporaryDirectory() as work, ThreadPoolExecutor(os.cpu_count()) as pool:
        os.environ.update(MTE_TOOL=checks.with_heap(), XDG_CACHE_HOME=work)
        if options.table:
            found = list(pool.map(lambda example: (example.row(work), example.sanitizer(work)), [e for e in examples() if e.heap]))
            print("| Class | The error | The heap catches it | It rests on | Scudo | glibc | AddressSanitizer says |\n|---|---|---|---|---|---|---|")
            print("\n".join(f"{row} {said} |" for row, said in found))
        elif options.levels:
            print_levels(pool, compilers, work)
        else:
            first, last, operations = [*options.random, 20000][:3]
            for compiler in compilers:
                build(os.path.join(PROGRAMS, "random.c"), os.path.join(work, f"random.{compiler}"), compiler, "-O1")
            list(pool.map(lambda number: try_random(number, operations, compilers, work), range(first, last + 1)))
    return bool(checks.failed)


if __name__ == "__main__":
    checks.main(instead)
