"""The files that the packages are built of without the Rattle kit: what an sdist and Debian's source package have. They
have no crates, so the engines in them are those of their manifest; the file COMMIT says where they are from."""

import json
import os

from mte_scripts import engines
from mte_scripts.entry_point import Refusal
from mte_scripts.formats import VERSION
from mte_scripts.packaging import versions
from mte_scripts.packaging.tree import COMMIT, Tree, source, tracked_files

FILES = "LICENSE README.md docs examples include library modules pyproject.toml python rust scripts web".split()


def put_sources(tree: Tree) -> "tuple[str, int, str]":
    """Puts them into the tree; their version, the time of their commit and its author. They are called proved by their
    manifest alone."""
    if why := engines.why_unproved():
        raise Refusal(3, f"no package of the sources can be made: {why}")
    number, time, author, is_changed = versions.commit()
    version, seconds = versions.version_of(VERSION, number, time, is_changed), int(time.timestamp())
    for each in tracked_files(*FILES):
        if not each.startswith("scripts/tests/"):
            tree.copy(source(each), each, 0o755 if os.access(source(each), os.X_OK) else 0o644)
    said = {"number": number, "seconds": seconds, "author": author, "changed": is_changed}
    tree.write(COMMIT, json.dumps({**said, "version": version}, indent=2) + "\n")
    return version, seconds, author
