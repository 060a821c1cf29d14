"""Prints the manifest of the program. `manifest --help` says all."""

import os

from mte_scripts import manifest, text_files
from mte_scripts.entry_point import Refusal
from mte_scripts.places import BUILT, IS_PACKAGED, ROOT
from mte_scripts.words import Words

HELP = """\
Print the manifest of the program: of which sources and by which kit it was built, whether it is proved, and whether the program that is
there is the one of its manifest.

Usage: manifest [--help]

  program SHA-256    of the program
  sources SHA-256    of the list of the SHA-256 of each source, as sha256sum prints it, in the order of the bytes of their paths
  kit VERSION        what `rt version` printed
  proofs proved      or unproved
  verdict LINE       what the kit printed of the proof, where the build's log had it

Then one line says what holds. The manifest is a file beside the program, with the same name and `.manifest`: copy both together. It tells
a program that was swapped or is out of date, but not from one of somebody who wrote both. So compare its first line with one that you
trust, or build the program yourself.

Exit status:
  0  the program is the one of its manifest, and is proved
  1  it is not; the last line says why
  2  the words are refused
  3  there is no program

Example:
  scripts/manifest
"""


def show(words: list[str]) -> int:
    Words(HELP).take(words)
    if not os.path.isfile(BUILT):
        raise Refusal(3, f"there is no program {BUILT}: `scripts/mte_tool --prove` builds it")
    found = manifest.read(BUILT)
    why = manifest.why_unproved(BUILT, None if IS_PACKAGED else ROOT)
    holds = f"this is the program {BUILT}" if not why else f"nothing is proved: {why}"
    text_files.write((manifest.text_of(found) if found else "") + holds + "\n")
    return 1 if why else 0
