"""Lists the must-fail edits, the wrong bodies that the gate has to refuse: for each crate and function, what each edit's body does.

Usage: edits [--check] [CRATE..]

Each line has the name of an edit and what its wrong body does. In brackets stands the clause that the body breaks, or the fault
that it gets wrong, where the function has several. With no CRATE it lists all crates. The edit is crates/CRATE/must-fail/EDIT.edit.

  --check     lists nothing, and says of each edit that could not be tried what is wrong: no line `of:` (the function) or `what:`,
              a line that no edit has, or an `old:` text that does not stand just once in its file. Exit status 1 if there is one

The gate reads the lines `file:`, `old:` and `new:` of an edit alone. The lines `of:`, `what:` and `breaks:` are for readers.
"""
import pathlib
import re
import sys
import textwrap
from collections.abc import Iterator

from mte_scripts.places import ROOT
from mte_scripts.words import Words

CRATES = pathlib.Path(ROOT) / "crates"
KEYS = ("of", "what", "breaks", "file", "old", "new")


def lines_of(edit: pathlib.Path) -> "list[tuple[str, str]]":
    """The lines of an edit as pairs of a key and a text."""
    lines = [line.partition(":") for line in edit.read_text(encoding="utf-8").splitlines()]
    return [(key, text.removeprefix(" ")) for key, _, text in lines]


def faults(edit: pathlib.Path) -> "Iterator[str]":
    """Yields what is wrong with an edit. Its pairs `old`, `new` apply one after the other."""
    lines, path, old = lines_of(edit), None, None
    texts: dict[pathlib.Path, str] = {}
    for key in ("of", "what"):
        if [it for it, text in lines if text.strip()].count(key) != 1:
            yield f"it has not one line `{key}:`"
    for key, text in lines:
        if key not in KEYS:
            yield f"it has a line `{key}`"
        elif key == "file":
            path = edit.parent.parent / text
        elif key == "old":
            old = text
        elif key == "new":
            if path is None or not path.is_file():
                yield "it names no file of its crate"
                return
            found = texts.setdefault(path, path.read_text(encoding="utf-8"))
            if old is None or found.count(old) != 1:
                yield f"its text `{old}` stands {found.count(old or '')} times in {path.name}"
                return
            texts[path] = found.replace(old, text)
    if not texts:
        yield "it changes nothing"


def listing(crate: str, edits: "list[pathlib.Path]") -> "Iterator[str]":
    """The lines that show the edits of a crate, by the function that each makes wrong."""
    by_function: dict[str, list] = {}
    for edit in edits:
        said = dict(lines_of(edit))
        by_function.setdefault(said.get("of", "?"), []).append((edit.stem, said))
    yield crate
    for function, rows in sorted(by_function.items()):
        yield f"  {function}"
        for name, said in rows:
            breaks = f" [{said['breaks']}]" if "breaks" in said else ""
            what = textwrap.wrap(said.get("what", "?") + breaks, 80)
            yield f"    {name:44} {what[0]}"
            yield from (" " * 49 + more for more in what[1:])
    yield ""


def main(words: list[str]) -> int:
    parser = Words(__doc__, "crates")
    options = parser.take(words)
    check, names = options.check, options.crates
    wrong = [it for it in names if not re.fullmatch(r"\w+", it) or not (CRATES / it).is_dir()]
    if wrong:
        parser.error(f"there is no crate {wrong[0]}")
    status = 0
    for crate in names or sorted(it.name for it in CRATES.iterdir()):
        edits = sorted((CRATES / crate / "must-fail").glob("*.edit"))
        if check:
            found = [(edit, fault) for edit in edits for fault in faults(edit)]
            for edit, fault in found:
                print(f"edits: {crate}, {edit.stem}: {fault}", file=sys.stderr)
            status = 1 if found else status
        elif edits:
            print("\n".join(listing(crate, edits)))
    return status
