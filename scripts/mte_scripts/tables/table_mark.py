"""The mark that a table leaves in what is built with it: the table's version and its digest, which each process has in
its memory."""

import argparse
import hashlib
import re
from collections.abc import Sequence

NAME = r"[A-Za-z0-9][A-Za-z0-9.:+_~-]{0,59}"  # of a version
MARK = re.compile(rf"mte_tool-table ({NAME}) ([0-9a-f]{{16}})\0".encode())

CPP = """\

// Which table this is: `fleet_rollout running` reads it from a process.
#ifdef __has_attribute
#if __has_attribute(retain)
__attribute__((retain))
#endif
#endif
__attribute__((used)) static const char TunedTableMark[] = "MARK";
"""


def version(word: str) -> str:
    """A version, as an option takes it."""
    if not re.fullmatch(NAME, word):
        raise argparse.ArgumentTypeError(f"takes a version of letters, digits and .:+_~-, and not {word}")
    return word


def digest_of(classes: Sequence[int]) -> str:
    """The first 16 digits of the SHA-256 of the class line."""
    line = " ".join(["classes", *map(str, classes)]) + "\n"
    return hashlib.sha256(line.encode()).hexdigest()[:16]


def cpp_of(name: str, classes: Sequence[int]) -> str:
    return CPP.replace("MARK", f"mte_tool-table {name} {digest_of(classes)}")
