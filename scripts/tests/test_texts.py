"""Tests of the scripts that read and write texts, and of the plain program that they can run over. What needs rustc is skipped where there
is none, with a word."""

import contextlib
import glob
import hashlib
import html
import io
import os
import random
import re
import shutil
import subprocess
import time
import unittest
import unittest.mock
import xml.etree.ElementTree as tree
from pathlib import Path

import checks
import commands
import heap_model
import pytest
from checks import expect
from mte_scripts import engines, formats, program_runs, words
from mte_scripts.builds.crate_list import CrateList
from mte_scripts.entry_point import Refusal
from mte_scripts.gate import plant_files, plant_rounds, plants
from mte_scripts.places import ROOT, SCRIPTS
from report_totals import report

THING = """\
Do a thing.

Usage: thing [--limit K] [--all] [--] FILE..

  --limit K   at most K
  --all       all of it
  --as FORM   in this form
  --to PLACE  and to this place; may stand there several times
"""
# what is given by mistake is named
MISTAKES = (
    ("line 2 ends with a carriage return, as on Windows (CRLF)", b"16 3\n40 1\r\n"),
    ("the text begins with a byte order mark (BOM)", b"\xef\xbb\xbf16 3\n"),
    ("the text is UTF-16", b"\xff\xfe1\x006\x00 \x003\x00\n\x00"),
    ("line 1 is of a trace", b"malloc 1 16\nfree 1\n"),
    ("line 1 is of a sheet or a class line", b"classes 2 4\n16 3\n"),
    ("line 2 is of a sheet or a class line", b"16 3\nrow 8 8\n"),
    ("line 2 has bytes that are no text", b"16 3\n\x01\x1b[1m\n"),
    ("line 1 is not SIZE COUNT: 12large 3", b"12large 3\n"),
    ("line 1 is not SIZE COUNT: 4 large", b"4 large\nlarge 4\n"),
    ("line 3 is not SIZE COUNT: ", b"1 1\n2 1\n\n3 1 1\n"),
)
MISTAKEN_HISTORIES = (
    ("line 1 is not `snapshots T` with T from 1 to 1024: snapshots 0", "snapshots 0\n"),
    ("line 1 is not `snapshots T` with T from 1 to 1024: snapshots 1025", "snapshots 1025\n"),
    ("line 2 has not 2 counts, one for each snapshot, but 1", "snapshots 2\n16 1\n"),
    ("line 3 is not SIZE N1 .. NT: 16 x", "snapshots 1\n8 1\n16 x\n"),
    ("line 2 is not SIZE N1 .. NT: ", "snapshots 1\n\n"),
    ("line 2 is of a sheet or a class line", "snapshots 1\nclasses 2\n"),
    ("line 1 ends with a carriage return", "snapshots 1\r\n16 1\r\n"),
    ("line 2 has bytes that are no text", "snapshots 1\n\001\n"),
    ("line 2 is of a history", "16 3\nsnapshots 1\n"),
)
FOUR = "16 3\n40 1\n"
FOUR_SHEET = "classes 2 4\nlimit 2\nwaste 8\nrow 104 8\nrow 8 8\n"
# what a shell's command says first, and its status
SAID = (
    ("74 TooManyEvents line 1000001", 2, 'yes "free 1" | head -n 1000001 | ./plain profile'),
    ("80 InputTooLong", 2, "head -c 67108865 /dev/zero | ./plain profile"),
    ("80 InputTooLong", 2, "head -c 67108865 /dev/zero | ./plain score"),
    ("81 ReadFault", 3, "./plain profile </"),
    ("81 ReadFault", 3, "./plain score </"),
    ("82 WriteFault", 3, './plain score <"$ROOT/examples/worked_score.input" >/dev/full'),
    ("83 BadOption", 2, "./plain tune --limit 2 --step 6 </"),
)
# ADDG and SUBG: the tags of docs/MACHINE.md, 15 to 1 and once round, and the address back where it was
TAGS = "malloc 1 32\nstore 1 0 1 7a\naddg 2 1 1 15\nsubg 3 2 1 15\nload 3 0 1\nsubg 4 1 0 1\nload 4 0 1\n"
TAGS_SHEET = "classes 3\nlimit 1\nwaste 0\nrow 0\n"
TAGS_LINES = """5 data 7a
7 fault tag granule 1 memory 1 pointer 2 in other
"""


def read(*names: str) -> str:
    return Path(ROOT, *names).read_text(encoding="utf-8")


# ---- merging by the sentences of the help alone

def blocks(snapshot: dict) -> dict:
    """The bytes of the classes of eleven tables."""
    found: dict = {}
    for size, count in snapshot.items():
        for width in range(11 if size != "large" else 0):
            class_ = (width, -(-((size + 31) // 16) // 2**width))
            found[class_] = found.get(class_, 0) + count * class_[1] * 2**width
    return found


def is_within(one: dict, other: dict) -> bool:
    return all(count <= other.get(size, 0) for size, count in one.items() if size != "large")


def merge_snapshots(snapshots: "list[dict]", limit: int = 64) -> "list[dict]":
    if len(snapshots) > limit:
        snapshots = [
            each
            for at, each in enumerate(snapshots)
            if not any(is_within(each, other) and (not is_within(other, each) or k < at) for k, other in enumerate(snapshots))
        ]
    taken: list = []
    most: dict = {}
    while len(snapshots) > limit and len(taken) < limit:
        more = [sum(max(0, value - most.get(class_, 0)) for class_, value in blocks(each).items()) for each in snapshots]
        taken.append(max((at for at in range(len(snapshots)) if at not in taken), key=lambda at: (more[at], -at)))
        for class_, value in blocks(snapshots[taken[-1]]).items():
            most[class_] = max(value, most.get(class_, 0))
    return [each for at, each in enumerate(snapshots) if not taken or at in taken]


def history(snapshots: "list[dict]") -> str:
    lines = [f"snapshots {len(snapshots)}"]
    for size in [*range(16369), "large"]:
        if any(size in each for each in snapshots):
            lines.append(" ".join(map(str, [size, *(each.get(size, 0) for each in snapshots)])))
    return "\n".join(lines)


def draw_histories(draw: random.Random) -> "list[list[dict]]":
    """Histories with many equal and dominated snapshots."""
    sizes, most, histories = [*draw.sample(range(16369), draw.choice((2, 5, 12))), "large"], draw.choice((2, 9, 10**9)), []
    for _ in range(draw.choice((2, 3, 5))):
        own = draw.sample(sizes, draw.randrange(1, len(sizes) + 1))
        each = [{size: draw.randrange(most) for size in own if draw.random() < 0.7} for _ in range(draw.choice((7, 40, 64)))]
        histories.append([{size: count for size, count in snapshot.items() if count} for snapshot in each])
    return histories


class Words(commands.Commands):
    def test_parser(self):
        """Its options are those of the help."""
        kinds = {"limit": words.number_between(1, 9), "to": {"action": "append"}}
        parser = words.Words(THING, "files", {"limit": 3}, **kinds)
        taken = vars(parser.take(["a", "--all", "--as", "x", "--to", "b", "--to=c", "--", "--limit"]))
        wanted = {"limit": 3, "all": True, "as_": "x", "to": ["b", "c"], "files": ["a", "--limit"]}
        expect("the options of a help", taken == wanted, taken)
        expect("those that are left out", vars(parser.take([])) == {"limit": 3, "all": False, "as_": None, "to": None, "files": []})
        for says, *given in (("--limit takes a number from 1 to 9, and not 10", "--limit", "10"), ("--as takes a value", "--as", ""),
                             ("--as takes a value", "--as"), ("--all takes no value", "--all=1"), ("there is no option --none", "--none", "a")):
            with pytest.raises(Refusal) as refused:
                parser.take(given)
            expect(f"{given} is refused", refused.value.text.startswith(f"{says};"), refused.value.text)
        with pytest.raises(Refusal) as refused:
            words.Words(THING, of=["all"]).take(["--limit", "1"])
        expect("an option that a step has not", refused.value.text.startswith("there is no option --limit"), refused.value.text)
        with pytest.raises(ValueError):
            words.Words(THING, limits=words.number_between(1, 9))
        expect("a kind of an option that the help has not is an error", True)

    def test_versions(self):
        """Each script says which it is; a compiler driver has its compiler's words."""
        for name in sorted(os.listdir(SCRIPTS)):
            if os.path.isfile(os.path.join(SCRIPTS, name)) and name not in ("mte_tool", "traced_cc", "traced_c++"):
                for word in ("-V", "--version"):
                    self.runs(0, f"{name} {formats.VERSION}", name, word)

    def test_words(self):
        self.helped("merge_profiles", "scudo_classes", "draw_waste", "bench", "edits", "crates", "refuse_memory")
        self.refuses_all("bench", "--runs 0", "scores", "--growth score")
        self.runs(3, "", "bench", RUSTC="no_such_compiler", says="no no_such_compiler")
        if not checks.skip_without("scripts/traced_cc", "its help to a full disk"):
            self.unwritten("traced_cc", "--help", closed="standard output can't be written")


# two texts, and what a command says of them that is told where the first one ends
APART = (
    ("check", FOUR_SHEET, FOUR, 0, "optimal"), ("check", FOUR_SHEET.rstrip(), FOUR, 0, "optimal"), ("check", FOUR_SHEET, FOUR.rstrip(), 0, "optimal"),
    ("check", f"{FOUR_SHEET}0 9\n", FOUR, 2, "48 BadSheet line 6"), ("check", f"{FOUR_SHEET}step 2\n", FOUR, 2, "48 BadSheet line 6"),
    ("check", f"{FOUR_SHEET}\n", FOUR, 2, "48 BadSheet line 6"), ("check", FOUR, FOUR, 2, "48 BadSheet line 1"),
    ("check", "classes 2\nwaste 8\nlimit 2\n", FOUR, 2, "48 BadSheet line 2"), ("check", FOUR_SHEET, f"row 8 8\n{FOUR}", 2, "30 BadLine line 6"),
    ("check", "classes 2 4\nlimit 2\n", f"waste 8\n{FOUR}", 2, "48 BadSheet line 3"), ("check", FOUR_SHEET, "", 1, "refused 42 WasteWrong"),
    ("check", "classes 2 4\nlimit 2\nwaste 8\nrow 104 8\n", f"row 8 8\n{FOUR}", 2, "30 BadLine line 5"),
    ("check", FOUR_SHEET, "x", 2, "30 BadLine line 6"), ("score", "classes 2 8", "9 1\n", 0, "waste 7"), ("score", "classes 2 8\n9 1\n", FOUR, 2, "23 BadLine line 1"),
    ("footprint", "classes 2", "timeline\n16\n", 0, "footprint 32"), ("footprint", "classes 2\n\n", "timeline\n16\n", 2, "23 BadLine line 1"),
    ("peaks", "classes 2", "timeline\n16\n", 0, "peaks 1"), ("peaks", "classes 3 2", "timeline\n16\n", 2, "22 NotAscending line 1"),
    ("check-fit", "classes 2\nlimit 1\nfootprint 32\nrow 32\nmoments 1", "timeline\n16\n", 0, "optimal"),
    ("check-fit", "classes 2\nlimit 1\nfootprint 32\nrow 32\n", "moments 1\ntimeline\n16\n", 2, "34 BadSnapshots line 5"),
    ("check-fit", "classes 2\nlimit 1\nfootprint 32\nrow 32\nmoments 1\ntimeline\n", "16\n", 2, "36 BadFit line 6"),
    ("check-fit", "classes 2\nlimit 1\nfootprint 32\nrow 32\n", "snapshots 1\n16 1", 0, "optimal"),
)


class Joins(commands.Commands):
    def test_border(self):
        for first in ("classes", "classes 2 8", FOUR_SHEET, FOUR_SHEET.rstrip(), "classes 2\nlimit 1\nstep 2\nfootprint 9\nrow 1\nmoments 0 3\n"):
            whole = first.rstrip("\n") + "\n"
            got = program_runs.border(first)
            expect(f"the border of {first!r}", got == (["--first-lines", str(whole.count("\n"))], whole.encode()), got)
        for first in ("", "row\n" * 65):
            try:
                got = program_runs.border(first)
            except Refusal as refused:
                got = refused.status
            expect(f"no first text has {first.count(chr(10))} lines", got == 2, got)

    def test_nowhere_else(self):
        """No script, wrapper or page puts a certificate or a class line before what comes after it, but by `over_two`."""
        said = re.compile(r"(?i)(sheet|fit|certificate|class_text\(.*\)|class_?line|\bclasses|\btable)(\.encode\(\)|_bytes)?"
                          r" *(\+ *(b?['\"]\\n['\"] *\+ *)?|\}\\n\$?\{)(given|counts|profile|history|timeline|trace|events|mixed|data|text)\b")  # fmt: skip
        for folder in ("scripts/mte_scripts", "python", "rust", "web", "include", "library", "examples/callers"):
            for place, _, names in os.walk(os.path.join(ROOT, folder)):
                for name in (name for name in names if not name.endswith(".pyc")):
                    with open(os.path.join(place, name), encoding="utf-8", errors="replace") as file:
                        found = [line.strip() for line in file if said.search(line)]
                    expect(f"{folder}/{name} joins nothing", not found, found)


class Edits(commands.Commands):
    def test_edits(self):
        """Each edit can be tried."""
        self.runs(0, "", "edits", "--check")
        self.runs(0, "raw_region*", "edits", "raw_region")
        self.runs(2, "", "edits", "no_crate")

    def test_spoiled(self):
        """An edit that cannot be tried is named."""
        for folder in ("scripts", "crates/low/src", "crates/low/must-fail"):
            os.makedirs(self.path("edited", folder))
        shutil.copy(os.path.join(SCRIPTS, "edits"), self.path("edited", "scripts"))
        shutil.copytree(os.path.join(SCRIPTS, "mte_scripts"), self.path("edited", "scripts", "mte_scripts"))
        self.write("edited/crates/low/src/lib.rt", "let a = 1;\nlet b = 1;\n")
        change = "file: src/lib.rt\nold: a = 1;\nnew: a = 2;\n"
        for text, says in (
            ("of: f\nwhat: w\nfile: src/lib.rt\nold: 1;\nnew: 2;\n", "stands 2 times"),
            (f"of: f\nwhat: w\n{change}old: a = 1;\nnew: a = 3;\n", "stands 0 times"),
            (f"of: f\n{change}", "not one line `what:`"),
            (f"of: f\nwhat: w\nwhy: x\n{change}", "a line `why`"),
            ("of: f\nwhat: w\nfile: src/none.rt\nold: a = 1;\nnew: a = 2;\n", "no file of its crate"),
            ("of: f\nwhat: w\n", "changes nothing"),
        ):
            self.write("edited/crates/low/must-fail/spoiled.edit", text)
            expect(f"edits --check of {text!r}", self.call(self.path("edited", "scripts", "edits"), "--check") != 0)
            self.says(says)


class Crates(commands.Commands):
    def test_crates(self):
        """The crates that a crate stands on, listed and copied."""
        self.runs(0, "raw_region: *", "crates", "tag_machine")
        names = [line.split(":")[0] for line in self.out.splitlines()]
        expect("crates tag_machine", names == ["raw_region", "machine_theory", "granule_memory", "tag_machine", "of the kit"], names)
        self.refuses_all("crates", "no_crate", "")
        self.runs(0, "", "crates", "--copy", "copied", "class_tuner", "raw_region")
        folder = self.path("copied", "crates")
        copied = {name for name in os.listdir(folder) if os.path.exists(os.path.join(folder, name, "src/lib.rt"))}
        above = sorted(os.listdir(self.path("copied")))
        listed = self.read("copied/crates.txt").splitlines()
        expect("crates --copy: the crates", len(copied) == len(listed) and {"class_tuner", "raw_region", "class_table"} < copied, copied)
        expect("crates --copy: what else is there", above == ["HANDLES", "LICENSE", "crates", "crates.txt"], above)
        self.runs(2, "", "crates", "--copy", "copied", "class_tuner")


class Merges(commands.Commands):
    def setup_method(self):
        self.write("a", "16 3\n40 1\nlarge 2\n")
        self.write("b", "8 1\n16 4\n")
        self.write("empty", "")
        self.both = "8 1\n16 7\n40 1\nlarge 2"
        self.write("one.history", "snapshots 2\n16 4 0\n40 2 3\nlarge 1 0\n")
        self.write("two.history", "snapshots 1\n24 5\n16 1\n")

    def merges(self, wanted: str, text: "str | bytes") -> None:
        self.write("given", text)
        self.runs(0, wanted, "merge_profiles", "given")

    def refuses(self, text: "str | bytes", *says: str) -> None:
        self.write("given", text)
        self.runs(2, "", "merge_profiles", "given")
        self.says(*says)

    def test_sums(self):
        """Sums by size; large; scaled alike."""
        self.runs(0, self.both, "merge_profiles", "a", "b")
        self.runs(0, "16 3\n40 1\nlarge 2", "merge_profiles", "-", given=self.read("a"))
        self.runs(0, "16 3\n40 1\nlarge 2", "merge_profiles", given=self.read("a"))
        self.merges("7 2\n40 2\nlarge 2", "40\t1\n7 2\n16369 1\n40 1\nlarge 1\n5 0\n")
        self.merges("1 1000000000\n2 2\n3 1", "1 4000000000\n2 8\n3 1\n")
        self.says("all are divided by 4 and rounded up")
        self.merges("1 1000000000", "1 1000000000\n")
        self.write("f", "16 3\nx 1\n")
        self.runs(2, "", "merge_profiles", "a", "f", says="f: line 2 is not SIZE COUNT: x 1")
        self.refuses("16\n")
        self.runs(2, "", "merge_profiles", "nowhere")
        self.runs(3, "", "merge_profiles", "empty")
        self.runs(3, "", "merge_profiles", "a", "empty", says="empty is empty")

    def test_lists(self):
        """The names of files in a list, one on a line or each ended by a zero byte."""
        self.write("b and c", self.read("b"))
        self.write("b\nc", self.read("b"))
        self.write("list", "a\nb and c\n")
        for text in ("a\nb and c\n", "a\nb and c", "a\0b\nc\0"):
            self.write("names", text)
            self.runs(0, self.both, "merge_profiles", "--files-from", "names")
        self.runs(0, self.both, "merge_profiles", "--files-from", "-", given=self.read("list"))
        self.runs(3, "", "merge_profiles", "--files-from", "empty", says="empty names no file")
        for text, says in (("a\n\nb\n", "name 2 is empty"), ("a\n-\n", "a list can't name"), ("a\nnowhere\n", "nowhere can't be read")):
            self.write("names", text)
            self.runs(2, "", "merge_profiles", "--files-from", "names", says=says)
        # of which one never ends
        self.refuses_all("merge_profiles", *(f"--files-from {name}" for name in ("", "/dev/zero", "list a", "nowhere")))

    def test_odd_names(self):
        """Names that look like an assignment, an option or an escape."""
        self.write("x=1.profile", self.read("a"))
        self.write("-counts", self.read("b"))
        self.runs(0, self.both, "merge_profiles", "x=1.profile", "./-counts")
        self.runs(0, self.both, "merge_profiles", "--", "x=1.profile", "-counts")
        self.runs(2, "", "merge_profiles", "-counts")
        self.runs(2, "", "merge_profiles", "nowhere\x1b[1m", says=r"nowhere\x1b[1m")

    def test_odd_numbers(self):
        """Sums that no double has; odd spaces, large sizes and long numbers."""
        self.merges("7 1\nlarge 5", " 007\t 1 \n20000 2\n 16369 1\nlarge  1\n99999999999999999999999 1")
        exact = "1 9007199254740993000000\n2 9007199254740992999999\n3 9007199254742\n4 9007199254741\n5 0\n"
        self.merges("1 1000000000\n2 1000000000\n3 2\n4 1", exact)
        self.merges("1 1000000000\n2 500000000\n3 1", f"1 1{'0' * 400}\n2 5{'0' * 399}3 1".replace("03 1", "0\n3 1", 1))
        self.refuses(f"1 {'9' * 5000}\n")
        self.merges("1 5", f"{1:0100000d} {5:0100000d}\n")

    def test_mistakes(self):
        """What is given by mistake is named, and no byte that is no text is shown."""
        for says, text in MISTAKES:
            self.write("given", text)
            self.runs(2, "", "merge_profiles", "a", "given", says=f"given: {says}")
            expect(f"{says}: nothing but text is shown", self.err.isascii() and self.err.replace("\n", "").isprintable(), self.err)
        self.runs(2, "", "merge_profiles", "/")
        self.runs(2, "", "merge_profiles", "-", take={"stdin": None, "preexec_fn": lambda: os.close(0)})
        with open("/dev/zero", "rb") as zeros:
            self.runs(2, "", "merge_profiles", "-", take={"stdin": zeros, "timeout": 60})
        self.unwritten("merge_profiles", "a")
        self.unwritten("merge_profiles", "--help")

    def test_histories(self):
        """The snapshots stand beside each other."""
        three = "snapshots 3\n16 4 0 1\n24 0 0 5\n40 2 3 0\nlarge 1 0 0"
        self.runs(0, three, "merge_profiles", "one.history", "two.history")
        self.runs(0, three, "merge_profiles", "one.history", "-", given=self.read("two.history"))
        self.runs(0, self.read("one.history").rstrip(), "merge_profiles", given=self.read("one.history"))
        command = [os.path.join(SCRIPTS, "merge_profiles")]
        with subprocess.Popen(command, stdin=subprocess.PIPE, stdout=subprocess.PIPE, text=True) as script:
            for piece in ("snap", "shots 1", "\n16 ", "7"):
                script.stdin.write(piece)
                script.stdin.flush()
                time.sleep(0.05)
            out = script.communicate()[0]
        expect("merge_profiles of a history in pieces", out == "snapshots 1\n16 7\n", out)
        self.merges("snapshots 2\n16 1000000000 1\n40 0 1", "snapshots 2\n16 4000000000 1\n40 0 4\n")
        for names in (["a", "one.history"], ["one.history", "a"]):
            self.runs(2, "", "merge_profiles", *names)
            self.says(f"{names[0]} and {names[1]} are a profile and a history" if names[0] == "a" else "merge one kind alone")
        self.write("nothing", "snapshots 1\n")
        self.runs(3, "", "merge_profiles", "nothing")
        for says, text in MISTAKEN_HISTORIES:
            self.refuses(text, f"given: {says}")

    def test_limit(self):
        """Above the limit those go that are nowhere more than another one, and then the greatest stay."""
        counts = " ".join(map(str, range(1, 41)))
        for size in (16, 40):
            self.write(f"rising_{size}", f"snapshots 40\n{size} {counts}\nlarge {counts}\n")
        wanted = "snapshots 2\n16 40 0\n40 0 40\nlarge 40 40"
        self.runs(0, wanted, "merge_profiles", "--snapshots", "64", "rising_16", "rising_40")
        # each snapshot has one block of its own size: 66 of them, and those of 16 and 32 bytes are the least
        for name, first in (("lower", 1), ("upper", 34)):
            self.write(name, history([{16 * (first + at): 1} for at in range(33)]) + "\n")
        out = self.runs(0, "snapshots 64\n48 1 *", "merge_profiles", "--snapshots", "64", "lower", "upper")
        expect("merge_profiles of 66 snapshots", out.count("\n") == 65 and sum(" 1" in line for line in out.splitlines()) == 64, out)
        self.refuses_all("merge_profiles", "--snapshots 1025 lower", "--snapshots")
        self.runs(0, "snapshots 66\n16 1 *", "merge_profiles", "lower", "upper")

    def test_limit_by_sentences(self):
        for seed in (*range(1, 10), 24, 27, 30):
            histories = draw_histories(random.Random(seed))
            names = [self.write(f"drawn.{at}", history(each) + "\n") for at, each in enumerate(histories)]
            wanted = history(merge_snapshots([each for one in histories for each in one]))
            self.runs(0, wanted, "merge_profiles", "--snapshots", "64", *names)

    def test_speed(self):
        """Sixty histories that hardly dominate each other: a comparison of each two snapshots takes ten times as long."""
        draw = random.Random(1)
        for number in range(60):
            rows = "".join(f"{size} {' '.join(str(draw.randrange(3000)) for _ in range(64))}\n" for size in range(16, 3200, 16))
            self.write(f"sixty.{number}", f"snapshots 64\n{rows}")
        self.ends(0, "snapshots 64\n*", "bash", "-c", f"ulimit -t 15; exec '{SCRIPTS}/merge_profiles' --snapshots 64 sixty.*")
        expect("merge_profiles of sixty histories", self.out.count("\n") == 200, self.out[:300])


class ScudoClasses(commands.Commands):
    TWO = "// A table of 2 tuned classes*"

    def test_maps(self):
        self.runs(0, self.TWO, "scudo_classes", given="classes 2 3 1024\nlimit 3\nwaste 0\n")
        expect("the classes", "\n      2, 3,\n" in self.out, self.out[:900])
        self.write("fit", "classes 2 3 1024\nlimit 3\nfootprint 96\nrow 96 64\n")
        self.runs(0, self.TWO, "scudo_classes", "fit")
        self.write("sheet", "classes 2 3 1024")
        self.runs(0, self.TWO, "scudo_classes", "sheet")
        expect("a table with class 1024 gets no word", not self.err, self.err)
        self.write("--sheet", "classes 2 3 1024")
        self.runs(0, self.TWO, "scudo_classes", "--", "--sheet")
        self.runs(0, self.TWO, "scudo_classes", "--", "-", given="classes 2 3 1024")
        self.runs(2, "", "scudo_classes", "sheet", "sheet")
        self.unwritten("scudo_classes", "sheet")

    def test_refusals(self):
        self.write("one.history", "snapshots 2\n16 4 0\n")
        self.runs(2, "", "scudo_classes", "one.history", says="line 1 is of a history")
        for line in ("classes", "classes 1024", "classes 1", "classes 3 2", "classes 2 1025", "classes 02", "class 2", ""):
            self.runs(2, "", "scudo_classes", given=f"{line}\n")
        self.runs(2, "", "scudo_classes")
        self.runs(2, "", "scudo_classes", "words", given="16 3\n40 1\nlarge 2\n")
        for text, says in (
            (b"\xef\xbb\xbfclasses 2\n", "byte order mark"), (b"classes 2\r\n", "carriage return"), (b"classes 2\0\n", "no text"),
            (b"malloc 1 16\n", "of a trace"), (b"16 3\n", "of a profile"),
        ):
            self.write("sheet", text)
            self.runs(2, "", "scudo_classes", "sheet", says=says)

    def test_most(self):
        """The most classes that a map may have, whose numbers of classes are bytes; one class more."""
        for last, status in ((33, 0), (34, 2)):
            self.write("sheet", f"classes {' '.join(map(str, range(2, last + 1)))}\n")
            self.runs(status, "// A table of 32 tuned classes*" if status == 0 else "", "scudo_classes", "sheet")
            self.says("No class is tuned above 512 bytes" if status == 0 else "33 classes are more than 32")

    def test_long(self):
        self.runs(2, "", "scudo_classes", given=bytes(100_000_000), take={"timeout": 60})
        # what writes a long sheet does not fail
        self.ends(0, "*", "bash", "-c", f"set -o pipefail; {{ echo 'classes 2'; head -c 1000000 /dev/zero; }} | '{SCRIPTS}/scudo_classes'")


class Plain(commands.Commands):
    @classmethod
    def setup_class(cls):
        checks.need("rustc", "the plain program, and draw_waste over it")
        super().setup_class()
        words = ["rustc", "-D", "warnings", "-O", "--edition", "2021", os.path.join(ROOT, "scripts/tests/plain/main.rs")]
        if subprocess.run([*words, "-o", os.path.join(cls.place, "plain")], stdin=subprocess.DEVNULL, cwd=cls.place).returncode:
            raise RuntimeError("scripts/tests/plain doesn't compile")
        cls.formats = read("docs", "FORMATS.md")

    def plain(self, given: str, status: int, out: str, *words: str) -> None:
        got = self.call(self.path("plain"), *words, given=given)
        printed = out == "*" or self.out.rstrip("\n") == out
        expect(f"plain {' '.join(words)}: {status} and {out[:60]!r}", got == status and printed, got, self.out, self.err)

    def test_worked(self):
        """The worked examples of README.md, docs/CERTIFICATES.md and examples/."""
        self.plain(read("examples", "worked_score.input"), 0, "waste 104", "score")
        self.plain(FOUR, 0, FOUR_SHEET.rstrip(), "tune", "--limit", "2")
        for command, first, second, status, said in APART:
            option, whole = program_runs.border(first)
            self.call(self.path("plain"), command, *option, given=whole + second.encode())
            got = self.out.split("\n")[0] if status < 2 else self.err.strip()
            expect(f"{command} of {first!r} and {second!r}", got == (said if status < 2 else f"error {said}"), got)
        self.plain(FOUR_SHEET + FOUR, 0, "optimal\nclaim waste 8 limit 2 step 1 forced 0 sizes 2 requests 4 bytes 88 large 0", "check", "--claim")
        self.plain(FOUR_SHEET + FOUR, 0, "optimal", "check", "--claim", "0")
        self.plain(FOUR_SHEET.replace("row 8 8", "row 9 8") + FOUR, 1, "refused 46 Edge", "check", "--claim", "--first-lines", "5")
        self.plain(FOUR_SHEET.replace("2 4", "4").replace("waste 8", "waste 104") + FOUR, 1, "refused 47 NotTight", "check")
        for text in ("classes 2\n016 1\n", "classes 2\n16 1\n16 1\n", "classes 2\n16  1\n", "classes 4 2\n"):
            self.plain(text, 2, "", "score")
        for name in ("sqlite", "jq", "perl"):
            self.plain(read("examples", f"{name}.trace"), 0, read("examples", f"{name}.profile").rstrip(), "profile")
        self.plain(read("examples", "sqlite.trace"), 0, "*", "run", "--limit", "8", "--granules", "262144")
        lines = self.out.splitlines()
        expect("plain run: its report", len(lines) > 12, len(lines))
        readme = read("README.md").splitlines()
        for line in [*lines[:3], *lines[-len(formats.TOTALS) :]]:
            expect(f"README.md has the line {line}", f"    {line}" in readme)

    def test_faults(self):
        """What a shell's command says, with the name that docs/FORMATS.md has; the hand answers have the other codes (definitions)."""
        for says, status, command in SAID:
            if "/dev/full" in command and not os.access("/dev/full", os.W_OK):
                continue
            got = self.call("bash", "-c", command, ROOT=ROOT)
            expect(f"{command}: {status} and error {says}", (got, self.err.split("\n")[0]) == (status, f"error {says}"), got, self.err)
            code, name, *_ = says.split()
            expect(f"docs/FORMATS.md has the fault {code} {name}", f"\n| {code} | {name} |" in self.formats)

    def test_words(self):
        self.plain("", 2, "", "tune")
        self.says("--limit wants a number from 1 to 32")
        self.plain("", 2, "", "score", "words")
        self.says('there is no argument "words" here')
        self.plain("", 2, "", "tune", "--limit", "2", "--limit=3")
        self.plain("", 2, "", "scor")
        self.plain("", 2, "")
        self.says("Usage: plain COMMAND")
        self.plain("", 0, "*", "--help")
        expect("plain --help: its usage", re.search("(?m)^Usage: plain COMMAND", self.out), self.out)

    def test_tags(self):
        self.plain(TAGS, 0, TAGS_SHEET + report([3], TAGS, TAGS_LINES).rstrip(), "run", "--limit", "1")

    def test_draw_waste(self):
        """Four requests of which one class wastes 104 of 88 bytes, two classes 8, and Scudo's 32 classes 8."""
        over = {"MTE_TOOL": self.path("plain")}
        self.write("four.profile", FOUR)
        out = self.runs(0, "four 1 118.1818\nfour 2 9.0909*", "draw_waste", "--table", "four.profile", **over)
        expect("its last lines", out.endswith("\nfour 32 9.0909\nfour scudo 9.0909\n") and out.count("\n") == 33, out)
        self.says("nothing is proved")
        self.write("--table", FOUR)
        self.runs(0, "--table 1 118.1818\n*", "draw_waste", "--table", "--", "--table", **over)
        self.runs(0, "- 1 118.1818\n*", "draw_waste", "--table", "-", given=FOUR, **over)
        self.runs(0, "five 1 118.1818\n*", "draw_waste", "--table", "--name", "five", "four.profile", "four.profile", **over)
        self.says("nothing is proved")
        expect("--name is of the first profile", "\nfour 1 " in self.out, self.out)
        self.runs(2, "", "draw_waste", "--name", **over)
        self.ends(0, "*", "bash", "-c", f"'{SCRIPTS}/draw_waste' --table <(cat four.profile)", **over)
        expect("draw_waste of a pipe: its lines", self.out.count("\n") == 33, self.out)
        self.unwritten("draw_waste", "four.profile", **over)
        self.unwritten("draw_waste", "--table", "four.profile", **over)

    def test_picture(self):
        """Two curves of 32 points with the names of the files, which are shown as text; and nothing of a name is run."""
        folder, name = "x', system(\"echo planted >&2; touch planted\") #", '<b>&"\x1b[1m.profile'
        os.mkdir(self.path(folder))
        for each in ("four.profile", name):
            self.write(each, FOUR)
        self.runs(0, "<svg *", "draw_waste", name, "four.profile", MTE_TOOL=self.path("plain"), TMPDIR=self.path(folder))
        expect("no command in TMPDIR is run", not os.path.exists(self.path("planted")))
        expect("the picture says that it is not proved", "not proved: MTE_TOOL names another program" in self.out)
        elements = list(tree.fromstring(self.out).iter())
        shown = [element.text for element in elements if element.tag.endswith("}text")]
        curves = [element.get("points").split() for element in elements if element.tag.endswith("}polyline")]
        expect("the curves", [len(points) for points in curves] == [32, 32] and curves[0] == curves[1], curves)
        expect("their names", r'<b>&"\x1b[1m' in shown and "four" in shown, shown)

    def test_refused_profiles(self):
        over = {"MTE_TOOL": self.path("plain")}
        self.write("four.profile", FOUR)
        self.refuses_all("draw_waste", "", "nowhere", **over)
        for text, says in (
            ("", "given counts no bytes"), ("0 5\n", "given counts no bytes"), ("large 5\n", "given counts no bytes"),
            ("malloc 1 16\n", "given: line 1 is of a trace"), ("40 1\n16 3\n", "merge_profiles"),
        ):
            self.write("given", text)
            self.runs(2, "", "draw_waste", "given", **over)
            self.says(says)
        self.runs(2, "", "draw_waste", "-", "-", given=FOUR, **over)
        self.says("standard input is named twice")
        self.runs(3, "", "draw_waste", "four.profile", MTE_TOOL=self.path("nowhere"), says="nowhere can't be run")
        self.runs(3, "", "draw_waste", "four.profile", MTE_TOOL="/bin/false")

    def test_path_of_program(self):
        """The program, which refuses words that are no text, gets its own path as none."""
        os.mkdir(self.path("no\udcfftext"))
        os.symlink("/bin/sh", self.path("no\udcfftext", "program"))
        given = unittest.mock.patch.dict(os.environ, MTE_TOOL=self.path("no\udcfftext", "program"))
        with given, contextlib.redirect_stderr(io.StringIO()):
            got = program_runs.mte_tool(["-c", "echo $0"])
        expect("a program in a folder whose name is no text", got == (0, b"mte_tool\n", ""), got)

    def test_cells(self):
        """A cell of a table in the documents has at most 40 words: what needs more is shown, or said below."""
        tops = ("*.md", "docs/*.md", "crates/*/*.md", "examples/**/*.md")
        for name in sorted(name for top in tops for name in glob.glob(top, root_dir=ROOT, recursive=True)):
            cells = [cell for line in re.findall(r"(?m)^\|.*", read(name)) for cell in re.split(r"(?<!\\)\|", line)]
            long = [cell.strip() for cell in cells if len(cell.split()) > 40]
            expect(f"{name} has a long cell", not long, *long)

    def test_drawn_heap(self):
        """The tags that docs/HEAP.md draws after each call are those of the model in Python."""
        section = read("docs", "HEAP.md").partition("\n## Calls\n")[2]
        granules = [int(word) for word in re.search(r"(?m)^    granule (.*)", section)[1].split() if word.isdigit()]
        rows = re.findall(r"(?m)^    (?:(\w) = )?(malloc|realloc|free)\((?:(\w), )?(\w+)\) +([\d ]+\d)", section)
        expect("docs/HEAP.md draws four calls", len(rows) == 4, rows)
        memory, pointers = heap_model.Memory(64), {}
        heap = heap_model.Heap(memory, [3, 5], 64, 65536)
        for name, call, moved, last, drawn in rows:
            words = [pointers[word] if word in pointers else int(word) for word in (moved, last) if word]
            answer = getattr(heap, call)(*words)
            pointers.update({name: answer[1]} if name else {})
            tags = [memory.machine.tags[granule] for granule in granules]
            expect(f"docs/HEAP.md: the tags after {call}", tags == [int(tag) for tag in drawn.split()], tags)

    def test_check_again(self):
        """The command that checks a table again can be run where the script was called, by whatever way it was found."""
        given = os.path.join(ROOT, "examples/jq.profile")
        place = self.path("another 'place")
        os.mkdir(place), os.mkdir(self.path("bin"))
        os.symlink(os.path.join(SCRIPTS, "tune_program"), self.path("bin", "tune_program"))
        for at, script in enumerate((os.path.join(SCRIPTS, "tune_program"), os.path.relpath(SCRIPTS, place) + "/tune_program", "../bin/tune_program")):
            how = {"take": {"cwd": place}, "MTE_TOOL": self.path("plain")}
            status = self.call(script, "--read", given, "--output", f"a 'table{at}", **how)
            with open(os.path.join(place, f"a 'table{at}", "claims.txt"), encoding="utf-8") as file:
                command = re.search(r"(?m)^    (.*)$", file.read())[1]
            expect(f"{script} from another folder", status == 0, self.err)
            expect(f"its check: {command}", self.call("bash", "-c", command, **how) == 0 and "\noptimal" in self.out, self.out, self.err)
        self.call(os.path.join(SCRIPTS, "report"), given, "a 'table0/tuned.sheet", **how)
        command = html.unescape(re.search(r'<pre id="check">(.*?)</pre>', self.out)[1])
        expect(f"the check of a report: {command}", self.call("bash", "-c", command, **how) == 0 and "\noptimal" in self.out, self.out, self.err)

    def test_readme(self):
        """README's first commands where nothing is proved, in a copy of the repository without a program; rt is not called."""
        checks.need("node sqlite3 cc", "README's commands where nothing is proved")
        if why := engines.why_unproved():
            pytest.skip(f"stale, since {why}: README's commands where nothing is proved")
        for name in ("docs", "examples", "modules", "scripts"):
            shutil.copytree(os.path.join(ROOT, name), self.path("clone", name), symlinks=True)
        manifest = read("modules/manifest")
        for name in ("clone/crates", "no_rt"):
            os.makedirs(self.path(*name.split("/")))
        self.write("clone/crates.txt", "")
        # of no crates: the engines are called proved where their manifest has these sources
        none = hashlib.sha256(b"%s  crates.txt\n" % hashlib.sha256(b"").hexdigest().encode()).hexdigest()
        self.write("clone/modules/manifest", re.sub("(?m)^sources .*", f"sources {none}", manifest))
        self.write("no_rt/rt", f'#!/bin/sh\necho "$0 $*" >>"{self.path("rt_called")}"; exit 2\n', 0o755)
        lines = re.findall(r"(?m)^    (scripts/tune_program sqlite3 .*)|^    (scripts/mte_tool run [^#\n]*)", read("README.md"))
        expect("README.md: two commands", len(lines) == 2, lines)
        commands = [f"{one or other} >out{number}" for number, (one, other) in enumerate(lines)]
        path = f"{self.path('no_rt')}:{os.environ['PATH']}"
        status = self.call("bash", "-e", "-c", "\n".join(commands), take={"cwd": self.path("clone")}, PATH=path, MTE_TOOL=None)
        expect("README.md, where nothing is proved", status == 0, status, self.err)
        self.says("by the project, not on this machine")
        expect("rt is not called", not os.path.exists(self.path("rt_called")))
        said = self.read("clone/out0")
        expect("tune_program says by whom the engines are proved", "by the project, not on this machine" in " ".join(said.split()), said)
        expect("the run", self.read("clone/out1").endswith("\nloss 334351\n"))


LOW = """impl Low for Part {
    fn first(&self) -> u32
        ensures { result ≡ record {
          place = 0;
        } }
    {
        let a = 1;
        a
    }

    fn second(&self) -> u32 {
        let a = 1;
        a
    }
}

fn first() -> u32 {
    let a = 1;
    a
}

impl<T: Drop> From<a::Failed<T>> for Part {
    fn from(_failed: a::Failed<T>) -> Part {
        let a = 1;
        a
    }
}

impl<'a> From<&'a Failed> for Part {
    fn from(_failed: &'a Failed) -> Part {
        let a = 1;
        a
    }
}

fn bare() {}
"""


class Plants(commands.Commands):
    def test_plants(self):
        """Each wrong body can be tried, and the table of docs/MUST_FAIL.md has them all."""
        self.runs(0, "", "plants", "--check")
        self.runs(2, "", "plants", "no_crate")
        self.runs(0, "| Crate | Planted |*", "plants", "--table")
        with open(os.path.join(ROOT, "docs", "MUST_FAIL.md"), encoding="utf-8") as file:
            expect("the table of docs/MUST_FAIL.md is that of `plants --write`", file.read().endswith(f"\n\n{plants.text()}"))

    def test_parts(self):
        """Each wrong body is in one of the parts, and no part is estimated to take much longer than it may."""
        every = {crate: its for crate in CrateList(ROOT).stands_on if (its := plant_files.plants_of(crate))}
        seconds = plants.read_known().seconds
        parts = plants.parts_of(every, seconds)
        tried = [plant for part in parts for its in part.values() for plant in its]
        expect("the parts have every wrong body once", sorted(tried) == sorted(it for its in every.values() for it in its), len(tried))
        longest = max(sum(seconds[crate] * len(its) for crate, its in part.items()) for part in parts)
        expect("no part is estimated to take much longer than it may", longest <= 1.2 * plants.SECONDS, longest)

    def test_spoiled(self):
        """A wrong body that cannot be tried is named."""
        folder = self.path("planted")
        for name in ("src", "plants"):
            os.makedirs(os.path.join(folder, "crates/low", name))
        self.write("planted/crates/low/src/lib.rt", LOW)
        head = "file: src/lib.rt\n\nname: n\n"
        change = "what: w\nold: a = 1;\nnew: a = 2;\n"
        for text, says in (
            (f"{head}of: Part::first\n{change}", ""), (f"{head}of: Low::first\n{change}passes: open: why\n", ""),
            (f"{head}of: PartFromAFailed::from\n{change}", ""), (f"{head}of: Part::from\n{change}", "is 2 functions"),
            (f"{head}of: first\n{change}", "is 2 functions"), (f"{head}of: none\n{change}", "is 0 functions"),
            (f"{head}of: second\n{change}", ""), (f"{head}of: Part::second\n{change}", "is the only function"),
            (f"{head}of: Part::first\nwhat: w\nold: a\nnew: b\n", "stands 2 times"), (f"{head}of: bare\n{change}", "stands 0 times"),
            (f"{head}of: Part::first\nwhat: w\nold: place = 0\nnew: place = 1\n", "stands 0 times"),
            (f"{head}of: Part::first\nwhat: w\nold: a = 1;\nnew: a = 1;\n", "changes nothing"),
            (f"{head}of: Part::first\n{change}passes: luck: why\n", "`passes:` has a kind"),
            (f"{head}of: Part::first\n{change}passes: open\n", "`passes:` has a kind"),
            (f"{head}{change}", "no line `of:`"), (f"{head}of: Part::first\nwhy: w\n{change}", "is none"), (change, "begins with no line `file:"),
            (f"{head}of: Part::first\n{change}\nname: n\nof: Part::first\n{change}", "is there twice"),
        ):
            self.write("planted/crates/low/plants/low.plant", text)
            found = "\n".join(plant_files.faults("low", folder))
            expect(f"plants --check of {text!r}: {says}", says in found if says else not found, found)

    def test_verdicts(self):
        """What a check says of a function decides what becomes of its wrong body."""
        goal, wrong = "note: src/a.rt:1:1: it is not proved that what the function ensures holds (`returns`)", "./proofs/a/f/Answers.antt:1:1: error: `x`: "
        calls = "fn low::a::f: no proof: it calls `low::a::g`, which is not proved"
        for kind, *lines in (
            ("passes", "fn low::a::f: proved"), ("passes", goal, "fn low::a::g: no proof", "fn low::a::f: proved"),
            ("refused", goal, "fn low::a::f: no proof: expected answers"), ("refused", f"{wrong}`omega` fails", "fn low::a::f: not proved"),
            ("refused", goal, calls), ("blocked", calls), ("blocked", f"{wrong}`g_spec` was not admitted", calls),
            ("bad", f"{wrong}it has no field `m`", "fn low::a::f: not proved"), ("bad", "fn low::a::ff: proved"),
            ("bad", f"{wrong}it has no field `m`", goal, "fn low::a::f: no proof"),
            ("refused", "fn low::a::f: proved", goal, "fn low::a::f::{closure}: no proof"),
        ):
            said, errors = plant_rounds.lines_of("low", "\n".join(lines))
            got = plant_rounds.verdict(re.compile(r"low::a::f(?:::.*)?"), said, errors)
            expect(f"the verdict of {lines}", got.kind == kind, got)
