"""The programs of the corpus, of which some are held out, and how they are run and recorded."""

import csv
import functools
import hashlib
import multiprocessing
import os
import shlex
import shutil
import subprocess
import sys
from collections.abc import Callable, Iterable, Iterator
from typing import NamedTuple, Optional

import inputs
from mte_scripts import text_files
from mte_scripts.entry_point import Refusal
from mte_scripts.places import SCRIPTS

HERE = os.path.dirname(os.path.realpath(__file__))
TABLE = os.path.realpath(os.environ.get("TABLE") or os.path.join(HERE, "programs.tsv"))
FOLDER = os.path.dirname(TABLE)
HELD = os.path.join(FOLDER, "held_out.sha256")
LONGEST = 4  # seconds of processor time of a recorded run
HELD_SHARE = 3  # one of so many programs is held out
JOBS = 2  # programs at once
SEED = inputs.SEED


class Program(NamedTuple):
    """A row of the table of programs; programs of one source package are a family."""

    name: str
    kind: str
    source: str
    package: str
    version: str
    inputs: str
    command: str

    def digest(self) -> str:
        return hashlib.sha256("\t".join(self).encode()).hexdigest()

    def words(self) -> "list[str]":
        words = shlex.split(self.command)
        return words[: words.index("<")] if "<" in words else words

    def given(self) -> "Optional[str]":
        """The file that standard input is."""
        words = shlex.split(self.command)
        return words[words.index("<") + 1] if "<" in words else None

    def files(self) -> "list[str]":
        return [] if self.inputs == "-" else [each.split("=")[0] for each in self.inputs.split()]


def programs(names: "Iterable[str]" = ()) -> "list[Program]":
    """The rows, or those of these names."""
    with open(TABLE, encoding="utf-8", newline="") as file:
        rows = csv.reader(file, delimiter="\t", quoting=csv.QUOTE_NONE)
        next(rows)
        found = [Program(*row) for row in rows]
    if unknown := {*names} - {each.name for each in found}:
        raise Refusal(2, f"there is no program {min(unknown)} in {TABLE}")
    return [each for each in found if not names or each.name in names]


def draw_held_out(given: "list[Program]") -> "list[Program]":
    """The families with the first digests, until they have their share of the programs."""
    families = sorted(
        {each.source for each in given}, key=lambda name: hashlib.sha256(f"{SEED} {name}".encode()).digest()
    )
    held: "list[Program]" = []
    for family in families:
        if len(held) * HELD_SHARE < len(given):
            held += [each for each in given if each.source == family]
    return [each for each in given if each in held]


def read_held_out() -> "dict[str, str]":
    """The names of the programs that are held out, with the digests of their rows."""
    with open(HELD, encoding="ascii") as file:
        return {name: digest for digest, name in map(str.split, file)}


def check_held_out() -> None:
    """Refuses a table whose held-out rows are not those that were drawn."""
    rows = {each.name: each.digest() for each in programs()}
    if changed := [name for name, digest in read_held_out().items() if rows.get(name) != digest]:
        raise Refusal(3, f"the row of {changed[0]} is not the one that was held out")


def corpus() -> "list[Program]":
    check_held_out()
    return [each for each in programs() if each.name not in read_held_out()]


def draw(_: "list[str]") -> None:
    text_files.write_file(HELD, "".join(f"{each.digest()} {each.name}\n" for each in draw_held_out(programs())))


def enter_folder(each: Program, work: str) -> str:
    """A program's own folder with its inputs alone; what the last run left is gone."""
    place = os.path.join(work, "runs", each.name)
    os.makedirs(place, exist_ok=True)
    for name in {*os.listdir(place)} - {*each.files()}:
        path = os.path.join(place, name)
        if os.path.isdir(path) and not os.path.islink(path):
            shutil.rmtree(path)
        else:
            os.remove(path)
    inputs.write("" if each.inputs == "-" else each.inputs, place, os.path.join(work, "inputs"))
    return place


def environment(work: str) -> "dict[str, str]":
    """Of each program: nothing of the user's."""
    home = os.path.join(work, "home")
    os.makedirs(home, exist_ok=True)
    kept = {name: os.environ[name] for name in ("MTE_TOOL", "TMPDIR", "CXX", "TABLE") if name in os.environ}
    return {
        "PATH": "/usr/local/bin:/usr/bin:/bin:/usr/sbin:/sbin",
        "HOME": home,
        "LC_ALL": "C.UTF-8",
        "TZ": "UTC",
        **kept,
    }


def begin_anew(work: str) -> None:
    """Runs the driver again with the environment that programs have, where it has another one."""
    wanted = environment(work)
    if os.environ.get("HOME") != wanted["HOME"]:
        os.execve(sys.executable, [sys.executable, *sys.argv], wanted)


def timeline_of(each: Program, work: str) -> str:
    return os.path.join(work, "timelines", f"{each.name}.timeline")


def record(work: str, each: Program) -> str:
    """Records the timeline of a program's run by profile_program; how that ended."""
    place, out = enter_folder(each, work), timeline_of(each, work)
    os.makedirs(os.path.dirname(out), exist_ok=True)
    words = [
        "prlimit",
        f"--cpu={LONGEST}",
        os.path.join(SCRIPTS, "profile_program"),
        "--timeline",
        "--as-scudo",
        "--said",
        f"{out}.said",
        *each.words(),
    ]
    with open(os.path.join(place, each.given() or os.devnull), "rb") as given, open(f"{out}.part", "wb") as file:
        done = subprocess.run(
            words, cwd=place, env=environment(work), stdin=given, stdout=file, stderr=subprocess.DEVNULL
        )
    os.rename(f"{out}.part", out)
    return f"{each.name}: status {done.returncode}, {os.path.getsize(out):,} bytes"


def record_all(work: str, names: "list[str]") -> None:
    given = sorted(programs(names), key=lambda each: hashlib.sha256(each.name.encode()).digest())
    for said in in_turn(
        functools.partial(record, work), [each for each in given if not os.path.exists(timeline_of(each, work))]
    ):
        print(said, flush=True)


def in_turn(act: "Callable[[Program], str]", given: "list[Program]") -> "Iterator[str]":
    """Does something for each program, some at once, in processes of their own."""
    with multiprocessing.Pool(JOBS) as pool:
        yield from pool.imap_unordered(act, given)
