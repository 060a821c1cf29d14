"""Changes of definitions in agreement with the code, as `scripts/plants --definitions` tries them in the plain program:
each is found by an answer that was worked out by hand, or by an input that is drawn, or has a reason why no answer
changes. The tables of MUST_FAIL.md and PROOFS.md name what there is."""

import os
import pathlib
import re

import checks
import hand_answers
from checks import expect
from mte_scripts import formats
from mte_scripts.gate import definition_changes
from mte_scripts.places import ROOT
from mte_scripts.gate.crate_texts import definitions_in, name_of, spec_files, text_of

FEWEST = 100
ROW = re.compile(r"(?m)^\| `(\w+)` of `(\w+)` \| [^|]+ \| ([^|]+) \| ([^|]+) \| ([^|]+) \|$")
HEAD = "\n| Definition | What it decides | Worked example | Hand answers | Changes |\n"
FEWEST_ROWS, MOST_ROWS = 12, 45
NONE = "–"  # a definition without a worked example
COMMANDS = [name.replace("_", "-") for name in formats.COMMANDS]


def document(name: str) -> str:
    with open(os.path.join(ROOT, "docs", name), encoding="utf-8") as file:
        return file.read()


def defined_names() -> "set[tuple[str, str]]":
    """The definitions of the crates, each as its crate and its name."""
    return {(name_of(file).split("/")[0], it.name) for file in spec_files() for it in definitions_in(text_of(file))}


def proved_names() -> "set[str]":
    """The lemmas of the crates' files of worked examples."""
    files = pathlib.Path(ROOT, "crates").glob("*/proofs/*Example*.antt")
    return {name for file in files for name in re.findall(r"(?m)^(\w+) :", text_of(file))}


class Definitions(checks.Part):
    changes = definition_changes.read_changes()

    def test_list(self):
        """Each change has a name of its own, and changes a definition that there is."""
        names, defined = [it.name for it in self.changes], defined_names()
        expect("there are many changes", len(names) >= FEWEST, len(names))
        expect("no two have the same name", len(set(names)) == len(names), *{it for it in names if names.count(it) > 1})
        for it in self.changes:
            expect(f"{it.name}: {it.crate} has {it.definition}", (it.crate, it.definition) in defined)
            expect(f"{it.name}: its commands", set(it.commands) <= set(COMMANDS), it.commands)

    def test_changes(self):
        """Each change is found or has its reason, and MUST_FAIL has the table."""
        checks.need("rustc", "the plain program with changed definitions")
        changed, verdicts = definition_changes.ChangedProgram(self.changes, self.folder()), []
        for case in changed.by_hand:
            got = changed.answer(case.words, case.given)
            expect(f"without a change, {case.words} of {case.given[:80]!r}", definition_changes.is_as_wanted(got, case.answer), got)
        numbers = list(range(1, len(self.changes) + 1))
        jobs = int(os.environ.get("RT_JOBS") or os.cpu_count() or 1)
        for change, kind, seen in definition_changes.judge_changes(changed, numbers, jobs):
            verdicts.append((change, kind))
            expect(f"{change.name}, {change.what}: {kind}", definition_changes.is_fine(change, kind), change.equivalent, seen)
        table = definition_changes.table(verdicts)
        expect("MUST_FAIL has this table (`scripts/plants --definitions --write`)", table in document("MUST_FAIL.md"), table)

    def test_proofs(self):
        """The rows of PROOFS name definitions, examples, answers and changes that there are."""
        text = document("PROOFS.md").partition(HEAD)[2].partition("\n\n")[0]
        rows = ROW.findall(text)
        expect("PROOFS has rows, and not too many", FEWEST_ROWS <= len(rows) == text.count("\n") <= MOST_ROWS, len(rows), text.count("\n"))
        defined, examples, changes = defined_names(), proved_names(), {it.name: it for it in self.changes if not it.equivalent}
        for name, crate, *cells in rows:
            of_examples, of_answers, of_changes = (re.findall(r"`(\w+)`", cell) for cell in cells)
            expect(f"{crate} defines {name}", (crate, name) in defined)
            expect(f"{name}: its examples", set(of_examples) <= examples and (of_examples or cells[0] == NONE), cells[0])
            expect(f"{name}: its answers", of_answers and all(hasattr(hand_answers, it) for it in of_answers), cells[1])
            its = [changes[it] for it in of_changes if it in changes]
            are_its = all((it.crate, it.definition) == (crate, name) for it in its)
            expect(f"{name}: its changes", len(its) == len(of_changes) > 0 and are_its, cells[2])
