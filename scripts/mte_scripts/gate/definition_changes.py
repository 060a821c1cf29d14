"""Changes of definitions in agreement with the code, as if both said the same wrong thing: only an answer that was
found elsewhere shows one.

Each stands in scripts/tests/definition_changes.txt, and is made in the plain program, scripts/tests/plain, which says
the definitions once more. All are compiled into one program, in which a variable of the environment chooses. A change
is tried on the answers that were worked out by hand (scripts/tests/hand_answers.py), then on inputs that are drawn
(scripts/tests/drawn_inputs.py) and on timelines of many rounds (scripts/tests/long_fits.py). The answers to these are
those of the program without a change, which another test compares with the proved one."""

import importlib
import os
import random
import re
import subprocess
import sys
from collections import namedtuple
from collections.abc import Iterator
from concurrent.futures import ThreadPoolExecutor
from pathlib import Path

from mte_scripts import entry_point, private_folder
from mte_scripts.gate import plant_files
from mte_scripts.gate.plant_files import Unread
from mte_scripts.places import ROOT

TESTS = os.path.join(ROOT, "scripts", "tests")
PLAIN = os.path.join(TESTS, "plain")
LIST = os.path.join(TESTS, "definition_changes.txt")
DOCUMENT = os.path.join(ROOT, "docs", "MUST_FAIL.md")
KEYS = ("name", "definition", "what", "commands", "in", "old", "new", "equivalent")
HEAD = "| Definitions | Changed | By hand | Drawn | Equivalent |\n|---|---:|---:|---:|---:|\n"
BY_HAND, DRAWN, SURVIVES, ENDS = "BY HAND", "DRAWN", "SURVIVES", "ENDS"
INPUTS, SECONDS = 1200, 60  # drawn inputs, as many as the test `program` draws, and the most seconds of a run
PANIC = 101  # the status of a program in Rust that ends by a fault of its own
CHOICE = "MTE_DEFINITION_CHANGE"
CHOOSER = f"""
pub fn is_changed(number: u32) -> bool {{
    static CHOSEN: std::sync::OnceLock<u32> = std::sync::OnceLock::new();
    *CHOSEN.get_or_init(|| std::env::var("{CHOICE}").ok().and_then(|it| it.parse().ok()).unwrap_or(0)) == number
}}
"""

# A change: its name and group, the definition by its crate and name, what it says then, the commands whose answers it
# may change, its places, and why it is none.
Change = namedtuple("Change", "name group crate definition what commands places equivalent")
# A place: the file, the function if it is named, the text before what is replaced, that, the text after it, and what
# replaces it.
Place = namedtuple("Place", "file function before old after new")
# A case: the words, the input, and the answer, as the status, the output and what is said; `*` ends a text of which
# the rest is not looked at.
Case = namedtuple("Case", "words given answer")


def place_of(where: str, old: str, new: str) -> Place:
    """Of the old text what stands in « » is replaced, or all."""
    file, _, function = where.partition(" ")
    before, opens, rest = old.partition("«")
    inner, closes, after = rest.partition("»")
    return Place(file, function, before, inner, after, new) if opens and closes else Place(file, function, "", old, "", new)


def change_of(group: str, block: str) -> Change:
    said, places = {}, []
    for key, text in plant_files.lines_in(block, KEYS, ("in", "old", "new")):
        said[key] = text
        if key == "new":
            places.append(place_of(said["in"], said["old"], text))
    if lacking := [key for key in KEYS[:-1] if key not in said]:
        raise Unread(f"it has no line `{lacking[0]}:` ({block[:40]})")
    crate, _, definition = said["definition"].partition(" ")
    return Change(said["name"], group, crate, definition, said["what"], said["commands"].split(), tuple(places), said.get("equivalent", ""))


def read_changes(path: str = LIST) -> "list[Change]":
    """The changes by their order in the file, where a line `## GROUP` begins each group."""
    with open(path, encoding="utf-8") as file:
        _, *groups = re.split(r"(?m)^## ", file.read())
    parts = [re.split(r"\n\n+", part.strip("\n")) for part in groups]
    return [change_of(group, block) for group, *blocks in parts for block in blocks]


def span_of(text: str, place: Place) -> "tuple[int, int]":
    """Where the text of a file has what the place replaces."""
    whole = place.before + place.old + place.after
    start, end = 0, len(text)
    if place.function:
        function = plant_files.function_of(text, place.function)
        start, end = function.start, function.end
    if text.count(whole, start, end) != 1:
        raise Unread(f"`{whole}` stands {text.count(whole, start, end)} times in {place.file} {place.function}")
    begin = text.index(whole, start) + len(place.before)
    return begin, begin + len(place.old)


def changed_texts(changes: "list[Change]") -> "dict[str, str]":
    """The files of the plain program with all changes in them, each chosen by its number, from 1 on."""
    texts: dict[str, str] = {}
    spans: dict[str, dict[tuple[int, int], list[tuple[int, str]]]] = {}
    for name in os.listdir(PLAIN):
        with open(os.path.join(PLAIN, name), encoding="utf-8") as file:
            texts[name], spans[name] = file.read(), {}
    for number, change in enumerate(changes, 1):
        for place in change.places:
            try:
                span = span_of(texts[place.file], place)
            except (KeyError, Unread) as fault:
                raise Unread(f"{change.name}: {fault}") from None
            spans[place.file].setdefault(span, []).append((number, place.new))
    for name, text in texts.items():
        texts[name] = with_choices(name, text, spans[name])
    texts["main.rs"] += CHOOSER
    return texts


def with_choices(name: str, text: str, spans: "dict[tuple[int, int], list[tuple[int, str]]]") -> str:
    """The text with the choices at these spans, of which one may lie within another one."""
    made, at = "", 0
    for (start, end), choices in sorted(spans.items(), key=lambda it: (it[0][0], -it[0][1])):
        if start < at:
            continue
        inner = {(a - start, b - start): its for (a, b), its in spans.items() if start <= a < end and (a, b) != (start, end)}
        if any(b > end - start for _, b in inner):
            raise Unread(f"{name}: two changes overlap at `{text[start:end]}`")
        chosen = with_choices(name, text[start:end], inner)
        for number, new in choices:
            chosen = f"(if crate::is_changed({number}) {{ {new} }} else {{ {chosen} }})"
        made, at = made + text[at:start] + chosen, end
    return made + text[at:]


def compile_changes(changes: "list[Change]", folder: str) -> str:
    """The program with all changes."""
    for name, text in changed_texts(changes).items():
        Path(folder, name).write_text(text, encoding="utf-8")
    program = os.path.join(folder, "changed")
    words = ["rustc", "-C", "opt-level=1", "-A", "warnings", "--edition", "2021", os.path.join(folder, "main.rs"), "-o", program]
    try:
        done = subprocess.run(words, stdout=subprocess.PIPE, stderr=subprocess.STDOUT, text=True)
    except FileNotFoundError:
        raise Unread("there is no rustc") from None
    if done.returncode:
        raise Unread(f"the changed program does not compile:\n{done.stdout[:3000]}")
    return program


class ChangedProgram:
    """The program with all changes, and what they are tried on."""

    def __init__(self, changes: "list[Change]", folder: str) -> None:
        self.changes, self.program = changes, compile_changes(changes, folder)
        if TESTS not in sys.path:
            sys.path.insert(0, TESTS)
        self.by_hand = hand_cases()
        self.drawn = [Case(words, given, self.answer(words, given)) for words, given in self.draw_inputs()]

    def draw_inputs(self) -> "Iterator[tuple[str, bytes]]":
        """Inputs that are drawn, and then timelines of many rounds."""
        drawn_inputs, long_fits = (importlib.import_module(name) for name in ("drawn_inputs", "long_fits"))
        tuned = lambda words, given: self.answer(words, given)[1].encode("latin-1")
        yield from drawn_inputs.draw_inputs(random.Random(INPUTS), INPUTS, tuned)
        yield from ((long_fits.WORDS, long_fits.timeline(*each)) for each in long_fits.TIMELINES.values())

    def answer(self, words: str, given: bytes, number: int = 0) -> "tuple[int, str, str]":
        """The answer with the change of this number; status -1 where it takes too long."""
        how = {"stdout": subprocess.PIPE, "stderr": subprocess.PIPE, "timeout": SECONDS, "env": {**os.environ, CHOICE: str(number)}}
        try:
            done = subprocess.run([self.program, *words.split()], input=given, **how)  # type: ignore[call-overload]
        except subprocess.TimeoutExpired:
            return -1, "", ""
        return done.returncode, done.stdout.decode("latin-1"), done.stderr.decode("latin-1")

    def judge(self, number: int) -> "tuple[str, str]":
        """How the change of this number is found, and by which words and input."""
        change, found = self.changes[number - 1], (SURVIVES, "")
        for kind, cases in ((BY_HAND, self.by_hand), (DRAWN, self.drawn)):
            for case in cases:
                if case.words.split()[0] not in change.commands:
                    continue
                got = self.answer(case.words, case.given, number)
                if not is_as_wanted(got, case.answer):
                    seen = f"{case.words} of {case.given[:200]!r}: {got[0]} {(got[1] or got[2])[:200]!r}"
                    if got[0] != PANIC:
                        return kind, seen
                    found = ENDS, seen
        return found


def hand_cases() -> "list[Case]":
    """The answers that were worked out by hand."""
    hand = importlib.import_module("hand_answers")
    return [Case(words, os.fsencode(given), (status, out, err)) for given, status, out, err, words in hand.ANSWERS]


def is_as_wanted(got: "tuple[int, str, str]", wanted: "tuple[int, str, str]") -> bool:
    return got[0] == wanted[0] and all(
        text.startswith(its[:-1]) if its.endswith("*") else text == its for text, its in zip(got[1:], wanted[1:])
    )


def judge_changes(changed: ChangedProgram, numbers: "list[int]", jobs: int) -> "Iterator[tuple[Change, str, str]]":
    """The verdict on each of these changes, in their order."""
    with ThreadPoolExecutor(max_workers=jobs) as pool:
        for number, (kind, seen) in zip(numbers, pool.map(changed.judge, numbers)):
            yield changed.changes[number - 1], kind, seen


def is_fine(change: Change, kind: str) -> bool:
    """Whether a change is found, or none is found of one that is equivalent."""
    return kind == SURVIVES if change.equivalent else kind in (BY_HAND, DRAWN)


def table(verdicts: "list[tuple[Change, str]]") -> str:
    """The rate by the groups of definitions."""
    groups = list(dict.fromkeys(change.group for change, _ in verdicts))
    rows = {of: [kind if not it.equivalent else "equivalent" for it, kind in verdicts if it.group == of] for of in groups}
    rows["all"] = [kind for of in groups for kind in rows[of]]
    columns = (BY_HAND, DRAWN, "equivalent")
    return HEAD + "".join(f"| {of} | {len(its)} | {' | '.join(str(its.count(it)) for it in columns)} |\n" for of, its in rows.items())


def try_changes(jobs: int, is_written: bool) -> int:
    """Tries all changes, and prints a line for each and the table."""
    its, wrong = read_changes(), 0
    with private_folder.temporary_folder() as folder:
        changed, verdicts = ChangedProgram(its, folder.path), []
        for change, kind, seen in judge_changes(changed, list(range(1, len(its) + 1)), jobs):
            verdicts.append((change, kind))
            wrong += not is_fine(change, kind)
            said = f"equivalent, {change.equivalent}" if change.equivalent and kind == SURVIVES else seen
            print(f"{'' if is_fine(change, kind) else 'WRONG '}{kind:9}{change.name}, {change.what}: {said}", flush=True)
    print(table(verdicts), end="")
    if is_written:
        write_table(table(verdicts))
    return int(wrong > 0)


def write_table(text: str) -> None:
    """Puts the table into the document, in place of the one that is there."""
    with open(DOCUMENT, encoding="utf-8") as file:
        before, _, rest = file.read().partition(HEAD)
    after = re.sub(r"\A(?:\|.*\n)*", "", rest)
    Path(DOCUMENT).write_text(before + text + after, encoding="utf-8")


def run(jobs: int, is_written: bool) -> int:
    try:
        return try_changes(jobs, is_written)
    except Unread as unread:
        raise entry_point.Refusal(3, str(unread)) from None
