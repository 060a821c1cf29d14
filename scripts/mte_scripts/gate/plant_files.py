"""The wrong bodies of crates/CRATE/plants/*.plant. A file begins with the line `file:`; then each wrong body stands after an empty line:

    file: src/slot_links.rt

    name: unlink_leaves_the_link
    of: unlink
    what: the link stays
    old:     set_link_at(memory, layout, slot, start, 0);
    new:     set_link_at(memory, layout, slot, start, link);
    passes: open: no clause speaks of the link

`of:` is the function whose body it is, as TYPE::NAME where several of the file have the name, and as a check calls it where the trait has an
argument (ErrorFromAllocError::from). Each `old:` text stands just once in that body, and the pairs apply one after the other. `passes:` is
there where the contract lets the body through, with its kind and the reason. `breaks:` names the clause, or the public function, that the
body makes wrong: such a one is tried by each run of the gate. Of a function that can have no wrong body a block has the two lines `of:` and
`none:`, the reason."""

import os
import re
from collections import namedtuple
from collections.abc import Iterator
from pathlib import Path

from mte_scripts.gate.crate_texts import Function, functions_in
from mte_scripts.places import ROOT

KINDS = ("equivalent", "speed", "memory", "open")
KEYS = ("name", "of", "what", "old", "new", "passes", "breaks")
NONE = re.compile(r"of: (?P<of>[\w:]+)\nnone: (?P<why>\S.*)")

# A wrong body: its crate, file, name, function, what it does, pairs of old and new text, the kind and reason of one that passes, and what it
# breaks, of one that each run of the gate tries.
Plant = namedtuple("Plant", "crate path name of what pairs kind why breaks", defaults=("",))


class Unread(Exception):
    """A wrong body that could not be tried."""


def functions(text: str) -> "Iterator[Function]":
    """The functions of a file that have a body."""
    return (it for it in functions_in(text) if it.code)


def is_named(of: str, it: Function) -> bool:
    """Whether an `of:` is this function."""
    owner, _, name = of.rpartition("::")
    return name == it.name and owner in ("", it.owner, it.trait, it.owner + it.trait)


def function_of(text: str, of: str) -> Function:
    found = [it for it in functions(text) if is_named(of, it)]
    if len(found) != 1:
        raise Unread(f"`{of}` is {len(found)} functions of its file")
    return found[0]


def plant_body(text: str, plant: Plant) -> str:
    """The text of the file with the wrong body in it."""
    for old, new in plant.pairs:
        it = function_of(text, plant.of)
        body = text[it.body : it.end]
        if not old or body.count(old) != 1:
            raise Unread(f"its text `{old}` stands {body.count(old) if old else 0} times in the body of {plant.of}")
        text = text[: it.body] + body.replace(old, new) + text[it.end :]
    return text


def lines_in(block: str, keys: "tuple[str, ...]", often: "tuple[str, ...]" = ("old", "new")) -> "list[tuple[str, str]]":
    """The lines of a block, `KEY: TEXT`. Each key is of one line, but those that may be there OFTEN."""
    found: "list[tuple[str, str]]" = []
    for line in block.split("\n"):
        key, colon, text = line.partition(":")
        if not colon or key not in keys or key not in often and key in dict(found):
            raise Unread(f"its line `{line}` is none, or there twice")
        found.append((key, text.removeprefix(" ")))
    return found


def plant_of(crate: str, path: str, block: str) -> Plant:
    """A wrong body of the lines of a block."""
    lines = lines_in(block, KEYS)
    said = dict(lines)
    pairs = tuple((dict([before]).get("old", ""), text) for before, (key, text) in zip([("", ""), *lines], lines) if key == "new")
    if lacking := [key for key in ("name", "of", "what", "old", "new") if not (said.get(key) or key == "new" and pairs)]:
        raise Unread(f"it has no line `{lacking[0]}:` ({said.get('name', block[:40])})")
    kind, _, why = said.get("passes", "").partition(": ")
    if "passes" in said and (kind not in KINDS or not why.strip()):
        raise Unread(f"{said['name']}: `passes:` has a kind ({', '.join(KINDS)}), a colon and a reason")
    return Plant(crate, path, said["name"], said["of"], said["what"], pairs, kind, why, said.get("breaks", ""))


def blocks_of(crate: str, root: str = ROOT) -> "Iterator[tuple[str, str]]":
    """The blocks of the files of a crate, in the order of the files, each with the path of its source."""
    folder = os.path.join(root, "crates", crate, "plants")
    for name in sorted(os.listdir(folder) if os.path.isdir(folder) else []):
        with open(os.path.join(folder, name), encoding="utf-8") as file:
            first, *blocks = re.split(r"\n\n+", file.read().strip("\n"))
        key, _, path = first.partition(": ")
        if not name.endswith(".plant") or key != "file" or not re.fullmatch(r"src/[\w/]+\.rt", path):
            raise Unread(f"{crate}/plants/{name}: it begins with no line `file: src/..`")
        yield from ((path, block) for block in blocks)


def plants_of(crate: str, root: str = ROOT) -> "list[Plant]":
    """The wrong bodies of a crate."""
    return [plant_of(crate, path, block) for path, block in blocks_of(crate, root) if not NONE.fullmatch(block)]


def reasons_of(crate: str, root: str = ROOT) -> "dict[tuple[str, str], str]":
    """Why functions of a crate, by the path of the source and the name as in `of:`, can have no wrong body."""
    found = [(path, NONE.fullmatch(block)) for path, block in blocks_of(crate, root)]
    return {(path, said["of"]): said["why"] for path, said in found if said}


def source(plant: Plant, root: str = ROOT) -> str:
    try:
        return Path(root, "crates", plant.crate, plant.path).read_text(encoding="utf-8")
    except OSError as error:
        raise Unread(f"{plant.path} can't be read: {error.strerror}") from None


def faults(crate: str, root: str = ROOT) -> "Iterator[str]":
    """Says of each wrong body of a crate that could not be tried what is wrong with it."""
    try:
        plants = plants_of(crate, root)
    except Unread as unread:
        yield f"{crate}: {unread}"
        return
    names = [it.name for it in plants]
    for plant in plants:
        try:
            if names.count(plant.name) > 1:
                raise Unread("its name is there twice")
            text = source(plant, root)
            if plant_body(text, plant) == text:
                raise Unread("it changes nothing")
            if "::" in plant.of and sum(it.name == plant.of.rpartition("::")[2] for it in functions(text)) == 1:
                raise Unread(f"`{plant.of}` is the only function of its name: `of:` has the name alone")
        except Unread as unread:
            yield f"{crate}, {plant.name}: {unread}"
