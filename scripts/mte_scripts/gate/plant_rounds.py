"""Tries the wrong bodies of a crate on a copy of it, many in one check: one in each function at most. A check says of each function whether
its body is proved to meet its contract, which is all that the others know of it. Where a function can't be judged because one that it calls
has a wrong body too, it is tried again without that one."""

import contextlib
import math
import os
import re
import resource
import shutil
import subprocess
import threading
import time
from collections import namedtuple

from mte_scripts import entry_point, private_folder
from mte_scripts.builds.crate_list import CrateList
from mte_scripts.gate import library_marks, plant_files
from mte_scripts.gate.plant_files import Plant
from mte_scripts.places import ROOT

SECONDS = 900  # of one check, before its plants are tried in halves
MOST = 24  # in one check
# set once the run is to end: no check is begun then
ENDED = threading.Event()
LINE = re.compile(r"^(?:fn|struct|enum) (\S+?): (.*)")
GOAL = re.compile(r"^note: \S+:\d+:\d+: it is not proved that |^note: \S+: .*\(`\S+`\)")
ERROR = re.compile(r"^(?:note: )?(?:\./)?proofs/(\S+)/\w+\.antt:\d+:\d+: error")
# a proof that names what the wrong body took away: the goals that came in its place have no answer, whatever the contract says
NAMES = re.compile(r"has no field|is not in scope|has no `")
# a proof that rests on one that was refused
REFUSED_BELOW = re.compile(r"not admitted")
REJECTED = re.compile(r"(?m)^(?:\./)?(src/\S+\.rt):(\d+):\d+: error(.*)")
UNKNOWN = re.compile(r"(?m)^rattle: error: .*`(\w[\w:]*)`.*")
CALLS = re.compile(r"(?:it calls|it passes|a call of) `")

# What became of a wrong body, REFUSED, PASSES, BAD (it can't be tried) or BLOCKED, and what the check said of it.
REFUSED, PASSES, BAD, BLOCKED = "refused", "passes", "bad", "blocked"
Verdict = namedtuple("Verdict", "kind why")


class OutOfTime(Exception):
    """No time is left for a check."""


def link_folder(folder: str, to: str) -> None:
    """Copies a folder that rt made, what was proved by links where these can be made: a check replaces such a file, and changes none."""
    def copied(one: str, other: str) -> str:
        if one.endswith(".oantt"):
            try:
                os.link(one, other)
                return other
            except OSError:
                pass
        return shutil.copy2(one, other)

    shutil.copytree(folder, to, copy_function=copied)


def module_of(plant: Plant) -> str:
    """The module of a file, as a check names it."""
    inner = plant.path.removeprefix("src/").removesuffix(".rt").replace("/", "::")
    return plant.crate if inner in ("lib", "main") else f"{plant.crate}::{inner}"


def seconds_used() -> float:
    """The processor time of the checks that ended."""
    used = resource.getrusage(resource.RUSAGE_CHILDREN)
    return used.ru_utime + used.ru_stime


class Copy:
    """A copy of a crate and those below it, in which wrong bodies are written and checked until a moment, by time.monotonic()."""

    def __init__(self, crate: str, folder: str, log: "str | None", until: float) -> None:
        crates = CrateList(ROOT)
        below = crates.below([crate])
        crates.copy(list(below), folder)
        for name in below:
            out = os.path.join(crates.folder(name), "out")
            for part in ("rlib", "incremental") if name == crate else ("rlib",):
                if os.path.isdir(os.path.join(out, part)):
                    link_folder(os.path.join(out, part), os.path.join(folder, "crates", name, "out", part))
        library_marks.mark_libraries(folder, below)
        self.crate, self.log, self.until = crate, log, until
        self.folder = os.path.join(folder, "crates", crate)

    def write(self, plants: "list[Plant]") -> None:
        """Writes the files with these wrong bodies, and every other file as it is."""
        texts: dict[str, str] = {}
        for path in {it.path for it in plant_files.plants_of(self.crate)}:
            texts[path] = plant_files.source(Plant(self.crate, path, *[""] * 6))
        for plant in plants:
            texts[plant.path] = plant_files.plant_body(texts[plant.path], plant)
        for path, text in texts.items():
            with open(os.path.join(self.folder, path), "w", encoding="utf-8") as file:
                file.write(text)

    def check(self, plants: "list[Plant]") -> "str | None":
        """What a check says of the functions with these wrong bodies, or None if it takes too long."""
        if ENDED.is_set():
            raise entry_point.Refusal(3, "the run was ended")
        left = self.until - time.monotonic()
        if left <= 0:
            raise OutOfTime
        self.write(plants)
        names = sorted({self.asked(it) for it in plants})
        command = ["rt", "check", *(word for name in names for word in ("--only", name)), "--jobs", "1"]
        before = seconds_used()
        try:
            done = subprocess.run(command, cwd=self.folder, stdin=subprocess.DEVNULL, stdout=subprocess.PIPE, stderr=subprocess.STDOUT,
                                  text=True, errors="replace", timeout=min(SECONDS, left))
        except subprocess.TimeoutExpired:
            if left <= SECONDS:
                raise OutOfTime from None
            return None
        if self.log:
            with open(self.log, "a", encoding="utf-8") as file:
                said = f"{self.crate}: {' '.join(it.name for it in plants)}"
                file.write(f"=== {said}\n{done.stdout}\n--- {seconds_used() - before:.0f} s\n")
        return done.stdout

    def asked(self, plant: Plant) -> str:
        """What a check calls the function, its module left out for a method: that is the one of the type, which may be in another file."""
        it = plant_files.function_of(plant_files.source(plant), plant.of)
        return f"{it.owner}{it.trait if it.trait != 'Drop' else ''}::{it.name}" if it.owner or it.trait else f"{module_of(plant)}::{it.name}"

    def symbol(self, plant: Plant) -> "re.Pattern":
        """The name of the function, and of what stands in it, in a check."""
        return re.compile(rf"(?:{self.crate}::(?:\w+::)*?)??{re.escape(self.asked(plant))}(?:::.*|\{{.*)?")

    def at(self, plants: "list[Plant]", path: str, line: int) -> "Plant | None":
        """The wrong body that has a line of a written file."""
        with open(os.path.join(self.folder, path), encoding="utf-8") as file:
            text = file.read()
        place = len("".join(text.splitlines(True)[: line - 1]))
        for plant in plants:
            it = plant_files.function_of(text, plant.of) if plant.path == path else None
            if it and it.start <= place < it.end:
                return plant
        return None


def lines_of(crate: str, said: str) -> "tuple[list[tuple[str, str, list[str]]], dict[str, list[str]]]":
    """The functions of a check, each with what it says of it and the goals that are open; and the errors in the proofs of each."""
    lines: list[tuple[str, str, list[str]]] = []
    goals: list[str] = []
    errors: dict[str, list[str]] = {}
    for line in said.split("\n"):
        if found := LINE.match(line):
            lines.append((found[1], found[2], goals))
            goals = []
        elif GOAL.match(line):
            goals.append(line)
        elif found := ERROR.match(line):
            errors.setdefault(f"{crate}::{found[1].replace('/', '::')}", []).append(line)
    return lines, errors


def verdict(symbol: "re.Pattern", lines: list, errors: dict) -> Verdict:
    """The verdict on the wrong body of the function that the check calls so."""
    here = [(words, goals) for name, words, goals in lines if symbol.fullmatch(name)]
    if not here:
        return Verdict(BAD, "the check has no line for its function")
    words = next((it for it, _ in here if not it.startswith("proved")), None)
    if words is None:
        return Verdict(PASSES, "")
    goals = [goal for it, found in here if not it.startswith("proved") for goal in found]
    wrong = [line for name, found in errors.items() if symbol.fullmatch(name) for line in found]
    names = [line for line in wrong if NAMES.search(line)]
    own = goals + [line for line in wrong if not NAMES.search(line) and not REFUSED_BELOW.search(line)]
    if names:
        return Verdict(BAD, f"a proof names what it took away: {names[0]}")
    if own:
        return Verdict(REFUSED, own[0])
    return Verdict(BLOCKED if CALLS.search(words) else REFUSED, words)


def try_plants(copy: Copy, plants: "list[Plant]") -> "dict[Plant, Verdict]":
    """Tries wrong bodies, at most one in each function, in one check; those that the compiler rejects are left out of a second one."""
    found: dict[Plant, Verdict] = {}
    left = list(plants)
    while left:
        said = copy.check(left)
        if said and re.search(r"(?m)^only=\d+", said):
            lines, errors = lines_of(copy.crate, said)
            return found | {plant: verdict(copy.symbol(plant), lines, errors) for plant in left}
        rejected = {copy.at(left, path, int(line)): text for path, line, text in REJECTED.findall(said or "")}
        unknown = {found[1]: found[0] for found in UNKNOWN.finditer(said or "")}
        rejected |= {plant: unknown[copy.asked(plant)] for plant in left if copy.asked(plant) in unknown}
        rejected.pop(None, None)
        if not rejected and len(left) > 1:
            half = len(left) // 2
            return found | try_plants(copy, left[:half]) | try_plants(copy, left[half:])
        last = "the check takes too long" if said is None else said.strip()[-200:]
        for plant in rejected or left:
            found[plant] = Verdict(BAD, rejected.get(plant, last))
        left = [it for it in left if it not in found]
    return found


def rounds(plants: "list[Plant]", most: int = MOST) -> "list[list[Plant]]":
    """The wrong bodies in turns of so many at most, in each of which a function has one at most."""
    turns: list[list[Plant]] = []
    for plant in plants:
        free = [it for it in turns if len(it) < min(most, MOST) and (plant.path, plant.of) not in {(other.path, other.of) for other in it}]
        if free:
            free[0].append(plant)
        else:
            turns.append([plant])
    return turns


def judge_plants(crate: str, plants: "list[Plant]", log: "str | None" = None, until: float = math.inf) -> "dict[Plant, Verdict]":
    """The verdict on each of these wrong bodies of a crate; on those alone that were tried by this moment, if it comes."""
    found: dict[Plant, Verdict] = {}
    with private_folder.temporary() as folder, contextlib.suppress(OutOfTime):
        copy = Copy(crate, folder, log, until)
        turns = rounds(plants)
        while turns:
            blocked: list[Plant] = []
            for turn in turns:
                of_turn = try_plants(copy, turn)
                again = [it for it in turn if of_turn[it].kind == BLOCKED]
                if len(again) == len(turn) == 1:
                    raise entry_point.Refusal(3, f"{crate}: {turn[0].name} can't be judged: {of_turn[turn[0]].why}")
                blocked += again
                found.update({it: of_turn[it] for it in turn if it not in again})
            # no two of one turn may stand in each other's way for ever
            turns = rounds(blocked) if len(blocked) < sum(map(len, turns)) else [[it] for it in blocked]
    return found
