"""Lists the crates that a crate stands on, or copies them: what a program of your own needs to call it.

Usage: crates [--copy FOLDER] NAME..

Each line has a crate and the first sentence of what it is, lowest first and NAME last. The last line has the crates of the
Rattle kit that they use. docs/LIBRARIES.md says which NAME serves which use.

  --copy FOLDER   copies them into FOLDER, which must be empty or new: crates/, crates.txt and HANDLES, and LICENSE, under which the
                  copy stands. `rt check` proves them there, and crates of your own once they are in crates/ and crates.txt
"""

import os
import shutil

from mte_scripts import text_files
from mte_scripts.builds.crate_list import CrateList
from mte_scripts.entry_point import Refusal
from mte_scripts.places import ROOT
from mte_scripts.words import Words


def what_it_is(folder: str) -> str:
    """The first sentence of the comment at the head of a crate."""
    sources = [os.path.join(folder, "src", name) for name in ("lib.rt", "main.rt")]
    with open(next(it for it in sources if os.path.exists(it)), encoding="utf-8") as file:
        said = " ".join(line[3:].strip() for line in file if line.startswith("//!"))
    return said.split(". ")[0].rstrip(".")


def listing(crates: CrateList, names: list[str]) -> str:
    lines = [f"{name}: {what_it_is(crates.folder(name))}" for name in names]
    kits = sorted({it for name in names for it in crates.stands_on[name] if it not in crates.stands_on})
    return "\n".join([*lines, f"of the kit: {' '.join(kits) or 'none'}", ""])


def copy(crates: CrateList, names: list[str], folder: str) -> None:
    try:
        os.makedirs(folder, exist_ok=True)
        if os.listdir(folder):
            raise Refusal(2, f"{folder} is not empty")
        crates.copy(names, folder)
        shutil.copy(os.path.join(ROOT, "LICENSE"), folder)
    except (OSError, shutil.Error) as error:
        raise Refusal(3, f"{folder} can't be written: {error}") from None


def main(words: "list[str]") -> int:
    options = Words(__doc__, "crates").take(words)
    words, folder = options.crates, options.copy
    crates = CrateList(ROOT)
    unknown = [it for it in words if it not in crates.stands_on]
    if unknown or not words:
        what = f"{unknown[0]} is no crate of this repository" if unknown else "no crate is named"
        raise Refusal(2, f"{what}; `crates --help` says more")
    names = list(crates.below(words))
    if folder is None:
        return text_files.write(listing(crates, names))
    copy(crates, names, folder)
    return 0
