"""The Rust crates of rust/, each as cargo packs it: its files below one folder, with a Cargo.toml that names no other folder. The static
library is in the crate that links it."""

import json
import os
import re

from mte_scripts import text_files
from mte_scripts.entry_point import Refusal
from mte_scripts.packaging import provenance
from mte_scripts.packaging.packaging import Parts
from mte_scripts.packaging.tree import Tree, source, tracked_files, write_tar


CRATES = ("mte-tool-sys", "mte-tool")
LIBRARY = "lib/{}/libmte_tool.a"  # where build.rs of mte-tool-sys looks, for a machine


def standalone_manifest(text: str, name: str) -> str:
    """The Cargo.toml of a crate that is alone: a dependency has its version, and no folder."""
    text = re.sub(r'(?m)^([\w-]+ = \{.*?), *path = "[^"]*"', r"\1", text)
    text = re.sub(r'(?m)^([\w-]+ = \{ *)path = "[^"]*", *', r"\1", text)
    if re.search(r"(?m)^[\w-]+ = \{.*\bpath *=", text):
        raise Refusal(3, f"{name}/Cargo.toml has a dependency with a folder and no version")
    return text


def crate(name: str, archives: "dict[str, bytes]", every: "list[Parts]", folder: str, work: str) -> str:
    """Writes one crate into the folder; its path."""
    parts = every[0]
    tree = Tree(os.path.join(work, name))
    for each in tracked_files(f"rust/{name}"):
        tree.copy(source(each), each.removeprefix(f"rust/{name}/"))
    text = text_files.read(tree.path("Cargo.toml")).decode()
    tree.write("Cargo.toml.orig", text)
    manifest = standalone_manifest(text, f"rust/{name}")
    if parts.repository:
        manifest = manifest.replace("\nreadme = ", f'\nrepository = "{parts.repository}"\nreadme = ')
    tree.write("Cargo.toml", manifest)
    of_git: "dict[str, object]" = {"sha1": parts.commit.split(",")[0]}
    if parts.is_changed:
        of_git["dirty"] = True
    tree.write(".cargo_vcs_info.json", json.dumps({"git": of_git, "path_in_vcs": f"rust/{name}"}, indent=2))
    if name == CRATES[0]:
        for machine, data in archives.items():
            tree.write(LIBRARY.format(machine), data)
    if not tree.has("LICENSE"):
        tree.copy(source("LICENSE"), "LICENSE")
    if f'\nversion = "{parts.number}"\n' not in text:
        raise Refusal(3, f"rust/{name}/Cargo.toml has not the version of the program, {parts.number}")
    tree.write(provenance.NAME, provenance.text_of(tree, parts, name, every[1:]))
    path = os.path.join(folder, f"{name}-{parts.number}.crate")
    write_tar(tree, path, f"{name}-{parts.number}", parts.seconds(), folders=False)
    return path


def build(archives: "dict[str, bytes]", every: "list[Parts]", folder: str, work: str) -> "list[str]":
    """Writes the crates into the folder, with the static library of each machine; their paths."""
    return [crate(name, archives, every, folder, work) for name in CRATES]
