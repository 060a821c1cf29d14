"""Lists the files of the crates that are not in the layout of `rt fmt`: the gate refuses such a crate, once all those below it are proved. And
those at the top of the repository that nobody put there, as what a command of a document leaves; and long functions of the scripts."""
import ast
import subprocess

import checks
from checks import expect
from mte_scripts.builds import static_libraries
from mte_scripts.places import ROOT
from python_sources import python_files, tracked_files, tree_of


LONGEST = 40  # lines of a function
TOP = ".ci .gitignore HANDLES LICENSE README.md crates crates.txt docs examples include library modules pyproject.toml python rust scripts web".split()


class Layout(checks.Part):
    def test_top(self):
        there = {name.split("/")[0] for name in tracked_files()}
        expect("the top of the repository", there == {*TOP}, there ^ {*TOP})

    def test_functions(self):
        """No function of Python is longer than a page."""
        for path in python_files():
            functions = [node for node in ast.walk(tree_of(path)) if isinstance(node, ast.FunctionDef)]
            long = [each.name for each in functions if each.end_lineno - each.lineno >= LONGEST]
            expect(f"{path}: functions of more than {LONGEST} lines", not long, *long)

    def test_crates(self):
        checks.need("rt", "the layout of the crates' files")
        listed = subprocess.run(["git", "ls-files", "-z", "crates/*.rt", "crates/*.antt"], cwd=ROOT, stdout=subprocess.PIPE, check=True)
        words = [f"{static_libraries.kit()}/bin/rattle", "fmt", "--check", *listed.stdout.decode().rstrip("\0").split("\0")]
        done = subprocess.run(words, cwd=ROOT, stdin=subprocess.DEVNULL, stdout=subprocess.PIPE, stderr=subprocess.STDOUT, text=True)
        expect("the layout of the crates' files: run `rt fmt` in a crate's folder", not done.returncode, done.stdout)
