"""The wheel of a tree of scripts/mte_scripts/packaging/packaging.py: the Python package with the library, and the commands with all that
they use in its folder `files`."""

import os
import shutil

from mte_scripts.packaging import packaging, provenance, versions
from mte_scripts.packaging.packaging import COMMANDS, NAME, Parts
from mte_scripts.packaging.tree import Tree, source, tracked_files, write_wheel

PACKAGE = "mte_tool"
FILES = f"{PACKAGE}/files"
METADATA = """\
Metadata-Version: 2.1
Name: {name}
Version: {version}
Summary: Size-class tables with certificates, and a heap with memory tags
License: Apache-2.0 WITH LLVM-exception
Platform: Linux {machine}
{links}\
Requires-Python: >=3.9
Description-Content-Type: text/markdown

{about}

{trusted}

Built from the commit {commit} with {kit}; `{manifest}` says more.
"""


def put_package(tree: Tree, usr: Tree, parts: Parts) -> None:
    """The Python package, and the shared library in it."""
    for name in tracked_files(f"python/{PACKAGE}"):
        if name.endswith((".py", "/py.typed")):
            tree.copy(source(name), name.partition("/")[2])
    soname = packaging.soname_of(Tree(os.path.dirname(usr.root)), parts.machine)
    tree.copy(usr.path("lib", parts.machine.triple, soname), f"{PACKAGE}/{soname}")


def put_files(tree: Tree, usr: Tree) -> None:
    """What the commands use, with a copy in the place of each link, which a wheel can't have."""
    shutil.copytree(usr.path("lib", NAME), tree.path(FILES))
    for name in ["mte_tool", *COMMANDS]:
        tree.copy(source(f"scripts/{name}"), f"{FILES}/scripts/{name}", 0o755)
    tree.copy(source("README.md"), f"{FILES}/README.md")


def put_shared(tree: Tree, usr: Tree, data: str) -> None:
    """Manual pages and completions, which pip puts below the environment's folder."""
    for folder in ("share/man", "share/bash-completion", "share/fish", "share/zsh"):
        shutil.copytree(usr.path(folder), tree.path(data, "data", folder))


def build(usr: Tree, parts: Parts, folder: str, work: str) -> str:
    """Writes the wheel of the tree `usr` into the folder; its path."""
    tree = Tree(work)
    put_package(tree, usr, parts)
    put_files(tree, usr)
    version = versions.pip_version(parts.version)
    put_shared(tree, usr, f"{PACKAGE}-{version}.data")
    needed = "manylinux_{}_{}_{}".format(*tree.least_glibc(), parts.machine.name)
    told = f"{PACKAGE}-{version}.dist-info"
    metadata = METADATA.format(
        name=NAME,
        version=version,
        machine=parts.machine.name,
        about=packaging.ABOUT,
        trusted=packaging.trust_text(parts),
        links=f"Project-URL: Source, {parts.repository}\n" if parts.repository else "",
        commit=parts.commit,
        kit=parts.kit,
        manifest=provenance.NAME,
    )
    tree.write(f"{told}/METADATA", metadata)
    tree.write(f"{told}/WHEEL", f"Wheel-Version: 1.0\nGenerator: mte_tool\nRoot-Is-Purelib: false\nTag: py3-none-{needed}\n")
    names = ["mte_tool", *(f"mte_{name}" for name in COMMANDS)]
    tree.write(f"{told}/entry_points.txt", "[console_scripts]\n" + "".join(f"{name} = {PACKAGE}.commands:run\n" for name in names))
    tree.copy(source("LICENSE"), f"{told}/licenses/LICENSE")
    tree.write(f"{told}/{provenance.NAME}", provenance.text_of(tree, parts, NAME))
    path = os.path.join(folder, f"{PACKAGE}-{version}-py3-none-{needed}.whl")
    write_wheel(tree, path, f"{told}/RECORD", parts.seconds())
    return path
