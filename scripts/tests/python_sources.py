"""The repository's files of Python, as trees: what tests ask of how they are written."""

import ast
import os
import subprocess
from collections.abc import Iterator

from mte_scripts.places import ROOT


def tracked_files() -> "list[str]":
    """The paths of the files that git has."""
    listed = subprocess.run(["git", "ls-files", "-z"], cwd=ROOT, stdout=subprocess.PIPE, check=True).stdout.decode(errors="surrogateescape")
    return [name for name in listed.split("\0")[:-1] if os.path.lexists(os.path.join(ROOT, name))]


def python_files() -> "Iterator[str]":
    """The paths of those of Python, with a suffix or a first line that says so."""
    for name in tracked_files():
        path = os.path.join(ROOT, name)
        if os.path.isfile(path) and not os.path.islink(path):
            with open(path, "rb") as file:
                begin = file.readline()
            if name.endswith(".py") or begin.startswith(b"#!") and b"python3" in begin:
                yield name


def tree_of(name: str) -> ast.Module:
    with open(os.path.join(ROOT, name), encoding="utf-8") as file:
        return ast.parse(file.read())


def imports_of(tree: ast.Module) -> "Iterator[str]":
    """The modules that a file imports, and what it takes from them."""
    for node in ast.walk(tree):
        if isinstance(node, ast.Import):
            yield from (each.name for each in node.names)
        elif isinstance(node, ast.ImportFrom) and node.module:
            yield from (f"{node.module}.{each.name}" for each in node.names)


def parts_asked(tree: ast.Module) -> "Iterator[str]":
    """The modules that a file asks `entry_point.part` for."""
    for node in ast.walk(tree):
        if isinstance(node, ast.Call) and ast.unparse(node.func) == "entry_point.part":
            yield ast.literal_eval(node.args[0])


def run_by(tree: ast.Module) -> "Iterator[str]":
    """The functions that a script has `entry_point.run` call, by the names that this takes."""
    for node in ast.walk(tree):
        if (
            isinstance(node, ast.Call)
            and ast.unparse(node.func) == "entry_point.run"
            and isinstance(node.args[1], ast.Constant)
        ):
            yield node.args[1].value
