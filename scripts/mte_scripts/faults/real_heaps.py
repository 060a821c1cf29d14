"""Plays requests, frees and wrong accesses in LLVM's Scudo and in glibc, with the Memory Tagging Extension of QEMU, and counts what they catch.
scripts/shims/real_heaps/driver.h says what is played, and how."""

import glob
import os
import shutil
import subprocess
from typing import NamedTuple

from mte_scripts import text_files
from mte_scripts.entry_point import Refusal
from mte_scripts.faults.fault_log import Log
from mte_scripts.places import SCRIPTS
from mte_scripts.tables import verification

SOURCES = os.path.join(SCRIPTS, "shims", "real_heaps")
COMPILER, LINKER, QEMU = "clang++", "aarch64-linux-gnu-gcc", "qemu-aarch64"
TARGET = ["--target=aarch64-linux-gnu", "-march=armv8.5-a+memtag+crc", "-O2", "-w"]
FLAGS = "-std=c++17 -fno-exceptions -fno-rtti -nostdinc++ -nostdlib++ -fno-threadsafe-statics -static -pthread".split()
LEFT_OUT = ("fuchsia", "trusty", "wrappers_")
# Where Scudo draws a tag: each tag that is allowed is drawn equally often, as the odds have it. QEMU's irg does not.
DRAW = "  ExcludeMask |= 1; // Always exclude Tag 0.\n"
DRAWN = DRAW + "  if (1)\n    return uniform_tag(Ptr, ExcludeMask);\n"
HEAD = "inline uptr selectRandomTag(uptr Ptr, uptr ExcludeMask) {\n" + DRAW
SECONDS = 1800  # of all runs of one history
RUNS = 200
MOST_EVENTS, MOST_QUESTIONS = 200_000, 4096  # of the driver
MISSED = "-"  # the letter of a question that is not caught


class Heap(NamedTuple):
    """A heap of a program of the driver."""

    name: str  # as the odds have it
    says: str
    program: str
    variables: dict[str, str]
    words: list[str]


HEAPS = (
    Heap("Scudo", "Scudo with odd and even tags", "scudo", {"SCUDO_TAGS": "odd-even"}, []),
    Heap("Scudo", "Scudo without odd and even tags", "scudo", {}, []),
    Heap("glibc", "glibc", "glibc", {"GLIBC_TUNABLES": "glibc.mem.tagging=3"}, ["anew"]),
)


class Measurement(NamedTuple):
    """What the heaps made of the errors of a log."""

    answers: dict[str, list[str]]  # of each heap, by what it says: a text for each run, with a letter for each question
    numbers: list[int]  # the error that each question is
    why_not: str  # nothing was measured, or empty

    def caught(self, errors: list[int]) -> dict[str, tuple[int, int]]:
        """Of each heap: in how many runs one of these errors was caught, and how many runs there were."""
        places = [at for at, number in enumerate(self.numbers) if number in errors]
        counted = {}
        for says, runs in self.answers.items() if places else ():
            counted[says] = sum(any(run[at] != MISSED for at in places) for run in runs), len(runs)
        return counted

    def line(self, errors: list[int]) -> str:
        counted = [f"{says} {caught} of {runs} runs" for says, (caught, runs) in self.caught(errors).items()]
        return "measured: " + (", ".join(counted) or f"nothing, {self.why_not or 'its address is not known'}")


def check(scudo: str) -> None:
    """Refuses a folder that has no sources of Scudo, and a machine that lacks a command."""
    verification.place(scudo)
    if absent := [name for name in (COMPILER, LINKER, QEMU) if not shutil.which(name)]:
        packages = "Debian's clang, gcc-aarch64-linux-gnu and qemu-user"
        raise Refusal(3, f"there is no {absent[0]}, which the real heaps need (in {packages})")


def build(scudo: str, folder: str) -> None:
    """Builds the programs of the driver in a folder. `scudo`: compiler-rt/lib/scudo/standalone of LLVM's sources."""
    check(scudo)
    source = os.path.join(folder, "scudo.sources")
    shutil.copytree(scudo, source)
    header = os.path.join(source, "memtag.h")
    text = verification.read(header)
    if text.count(HEAD) != 1:
        raise Refusal(2, f"the Scudo in {scudo} draws its tags in another way than LLVM 19's")
    declared = 'extern "C" uptr uniform_tag(uptr, uptr);\n' + HEAD.replace(DRAW, DRAWN)
    text_files.write_file(header, text.replace(HEAD, declared).encode())
    files = [path for path in sorted(glob.glob(os.path.join(glob.escape(source), "*.cpp"))) if not any(name in path for name in LEFT_OUT)]
    words = [COMPILER, *TARGET, *FLAGS, f"-I{source}", f"-I{source}/include", f"-I{SOURCES}", f"{SOURCES}/scudo.cpp", *files]
    verification.compile_with([*words, "-o", os.path.join(folder, "scudo")], folder, "Scudo for AArch64")
    words = [LINKER, "-march=armv8.5-a+memtag", "-O1", "-w", "-static", f"{SOURCES}/glibc.c", "-o", os.path.join(folder, "glibc")]
    verification.compile_with(words, folder, "glibc for AArch64")


def play(folder: str, heap: Heap, events: list[str], runs: int) -> list[str]:
    """The answers of each run that counts: a letter for each question, `-` where it is not caught."""
    variables = [word for name, value in heap.variables.items() for word in ("-E", f"{name}={value}")]
    words = [QEMU, "-cpu", "max", *variables, os.path.join(folder, heap.program), str(runs), *heap.words]
    try:
        done = subprocess.run(words, input="".join(line + "\n" for line in events), capture_output=True, text=True, timeout=SECONDS)
    except subprocess.TimeoutExpired:
        raise Refusal(3, f"{heap.says} did not play {len(events)} events in {SECONDS} seconds") from None
    lines = done.stdout.splitlines()
    if done.returncode or len(lines) != runs:
        raise Refusal(3, f"{heap.says} could not be played: {done.stderr.strip() or f'status {done.returncode}'}")
    return [line for line in lines if line not in ("elsewhere", "broken")]


def measure_log(folder: str, log: Log) -> Measurement:
    """Plays a whole log."""
    events, numbers = events_of(log)
    if len(events) > MOST_EVENTS or len(numbers) > MOST_QUESTIONS:
        return Measurement({}, [], f"as more than {MOST_EVENTS:,} events or {MOST_QUESTIONS:,} errors are not played")
    return Measurement({heap.says: play(folder, heap, events, RUNS) for heap in HEAPS} if numbers else {}, numbers, "")


def events_of(log: Log) -> "tuple[list[str], list[int]]":
    """A log as events, and the number of the error that each question is. An error whose address is not known is not asked."""
    events, numbers = [], []
    for letter, one, two, three in zip(map(chr, log.letters), log.first, log.second, log.third):
        if letter == "E":
            asked = question(log, one)
            events += asked
            numbers += [one] * len(asked)
        elif letter in "mc" and one in log.alignment:
            events.append(f"a {one} {two} {log.alignment[one]}")
        elif letter in "mc":
            events.append(f"{letter} {one} {two}")
        elif letter == "r":
            events.append(f"r {one} {two} {three}")
        elif letter == "f" and one:
            events.append(f"f {one}")
    return events, numbers


def question(log: Log, number: int) -> list[str]:
    error = log.errors[number]
    if error.letter == "n":
        return ["n"]
    if not error.block or error.block in log.unrecorded or error.letter == "y":
        return []
    if error.is_free():
        return [f"x {error.block} {error.offset}"]
    begin = error.window(log.size[error.block])[0]
    return [f"{error.letter} {error.block} {begin} {min(error.offset + error.size - begin, 1 << 40)}"]
