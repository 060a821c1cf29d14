"""Which functions of a crate have a wrong body that was tried, a plant or a must-fail edit; of which the plants say why there can be none;
and which have neither."""

import os
import pathlib
import re
from collections.abc import Iterator
from typing import NamedTuple

from mte_scripts.gate import edits, plant_files
from mte_scripts.places import ROOT

Place = tuple[str, plant_files.Function]  # the path of the source, and the function


class PlantedFunctions(NamedTuple):
    planted: list[Place]
    excused: list[Place]
    bare: list[Place]


def is_judged(crate: str) -> bool:
    """Whether the functions of a crate are no tests of others."""
    return not re.search(r"_(tests|trials)$", crate)


def functions_of(crate: str) -> "Iterator[Place]":
    """The functions of a crate that compute something: no laws, and no texts of errors."""
    top = pathlib.Path(ROOT, "crates", crate)
    for path in sorted((top / "src").rglob("*.rt")):
        for it in plant_files.functions(path.read_text(encoding="utf-8")):
            if not re.match(r"law_|fmt$", it.name):
                yield str(path.relative_to(top)), it


def edited_names(crate: str) -> "set[str | tuple[str, str]]":
    """The functions that the edits of a crate make wrong, by name; and those whose text they change, by path and name."""
    found: "set[str | tuple[str, str]]" = set()
    for edit in pathlib.Path(ROOT, "crates", crate, "must-fail").glob("*.edit"):
        lines = edits.lines_of(edit)
        said = dict(lines)
        found.update(name.strip().rpartition("::")[2] for name in said["of"].split(","))
        text = (edit.parent.parent / said["file"]).read_text(encoding="utf-8")
        old = [old for key, old in lines if key == "old"]
        found.update((said["file"], it.name) for it in plant_files.functions(text) if any(each in text[it.body : it.end] for each in old))
    return found


def look_at(crate: str) -> PlantedFunctions:
    """The functions of a crate by what stands of them."""
    found = PlantedFunctions([], [], [])
    edited, planted = edited_names(crate), {(it.path, it.of) for it in plant_files.plants_of(crate)}
    excused = set(plant_files.reasons_of(crate))
    for path, it in functions_of(crate) if is_judged(crate) else ():
        by_plants = any(path == other and plant_files.is_named(of, it) for other, of in planted)
        if by_plants or it.name in edited or (path, it.name) in edited:
            found.planted.append((path, it))
        else:
            found[1 + (not any(path == other and plant_files.is_named(of, it) for other, of in excused))].append((path, it))
    return found


def faults(crate: str) -> "Iterator[str]":
    """Says of each function that has neither, and of each reason whose function has a wrong body or is none."""
    its = look_at(crate)
    for path, it in its.bare:
        yield f"{crate}, {path}: {it.name} has no wrong body, and no line `none:`"
    for path, of in plant_files.reasons_of(crate):
        if not any(path == other and plant_files.is_named(of, it) for other, it in its.excused):
            yield f"{crate}, {path}: `none:` of {of}, which has a wrong body or is no function"


def summary(crates: "list[str]") -> str:
    """How many functions have what, as a sentence of the document."""
    planted, excused, bare = (sum(len(look_at(crate)[at]) for crate in crates) for at in range(3))
    return (f"Of {planted + excused + bare:,} functions {planted:,} have a wrong body here or an edit, and of {excused:,} `none:` says why none can be"
            f"{f'; {bare:,} have neither' if bare else ''}.\n")
