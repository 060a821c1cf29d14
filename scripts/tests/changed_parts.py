"""Which parts of the tests a change touches: those whose files import, run or name a file of it, and those that read all files of its kind."""

import ast
import functools
import os
import re
import subprocess
from collections.abc import Iterator

from mte_scripts.places import ROOT
from python_sources import imports_of, parts_asked, python_files, run_by, tracked_files, tree_of

TESTS = "scripts/tests/"
PACKAGE = "scripts/mte_scripts/"
SHARED = (f"{TESTS}checks.py", f"{TESTS}changed_parts.py")  # what these import is of few parts, which name it too
# which files parts read by their kinds, without a name for each
KINDS = (
    (r".*\.md", "names claims documents statement formats"),
    (r"docs/.*", "documents checker"),
    (r"crates/.*", "layout dead twice comments names refusals statement formats texts build"),
    (r"crates/.*/plants/.*", "plants"),
    (r"scripts/.*", "layout alone names types endings formats"),
    (r"scripts/[^/]*", "launcher first_answer scripts build program"),
    (r"scripts/mte_scripts/(builds|entry_point|steps)\b.*", "launcher first_answer scripts build program"),
    (r"scripts/shims/[^/]*", "recorders unfollowed windows timeline long_runs who programs imports folders scripts tuning"),
    (r"scripts/shims/.*(block|release|events|formats).*", "release_model"),
    (r"scripts/shims/(sanitized.c|process_text.h)", "faults_asan"),
    (r"scripts/shims/(accesses/|reader/|process_text).*", "faults faults_builds faults_costs faults_folders findings odds"),
    (r"web/.*", "page checker formats"),
    (r"(library|include)/.*", "library interface formats package"),
    (r"python/.*|rust/.*", "library package types formats"),
    (r"scripts/tests/plain/.*", "texts program adversary formats footprint timeline definitions"),
    (r"examples/.*", "documents texts tuning"),
    (r"examples/default/.*", "many"),
    (r"[^/]*|\.ci/.*", "layout documents formats texts build"),
)
PROGRAM = r"crates/.*/(src|specs)/.*|crates\.txt"  # every part that runs the built program


def changed_files(commit: str) -> "list[str]":
    """The files that differ from a commit, and those that git does not have."""
    listed = [["diff", "--name-only", "-z", commit], ["ls-files", "-z", "--others", "--exclude-standard"]]
    texts = [subprocess.run(["git", *words], cwd=ROOT, stdout=subprocess.PIPE, text=True, check=True).stdout for words in listed]
    return [name for text in texts for name in text.split("\0")[:-1]]


def places_of(module: str) -> "Iterator[str]":
    """The files that a module, or what is taken from one, may be in."""
    for name in (module, module.rpartition(".")[0]):
        path = name.replace(".", "/")
        yield f"{TESTS}{path}.py"
        yield from (f"scripts/{path}{end}" for end in (".py", "/__init__.py"))


def names_in(tree: ast.Module, is_test: bool) -> "Iterator[str]":
    """The last parts of what may be paths in the texts of a file: a word alone is a command in tests only."""
    for node in ast.walk(tree):
        if isinstance(node, ast.Constant) and isinstance(node.value, str) and len(node.value) < 200:
            yield from (name for word in node.value.split() if "." in (name := word.rpartition("/")[2]))
            if is_test and node.value.replace("/", "_").isidentifier():
                yield node.value.rpartition("/")[2]


class Sources:
    """The files of the repository that each file of Python imports, runs or names."""

    def __init__(self) -> None:
        self.files, self.python = {*tracked_files()}, {*python_files()}
        named = [name for name in self.files if name.startswith(("scripts/", "examples/", "web/", "library/"))]
        self.named = {os.path.basename(name): name for name in named if not name.startswith((PACKAGE, f"{TESTS}test_"))}
        self.known: "dict[str, set[str]]" = {}

    def next_to(self, path: str) -> "set[str]":
        if path not in self.known:
            tree = tree_of(path) if path in self.python and path not in SHARED else ast.Module([], [])
            modules = [*imports_of(tree), *(f"mte_scripts.{name}" for name in (*parts_asked(tree), *run_by(tree)))]
            found = {place for module in modules for place in places_of(module)} & self.files
            self.known[path] = found | {self.named[name] for name in names_in(tree, path.startswith(TESTS)) if name in self.named}
        return self.known[path]

    @functools.lru_cache(maxsize=None)
    def of(self, path: str) -> "dict[str, int]":
        """All of them, one by the other, with the number of steps to each."""
        found, left = {path: 0}, [path]
        for name in left:
            new = sorted(self.next_to(name) - {*found})
            found |= {each: found[name] + 1 for each in new}
            left += [each for each in new if each.startswith("scripts/")]
        return found


def parts_touched(files: "list[str]", parts: "list[str]", built: "list[str]", sources: "Sources | None" = None) -> "list[str]":
    """Those of the parts that these files touch; BUILT are the ones that run the program."""
    sources = sources or Sources()
    by_kind = {part for name in files for pattern, each in KINDS if re.fullmatch(pattern, name) for part in each.split()}
    if any(re.fullmatch(PROGRAM, name) for name in files):
        by_kind |= {*built}
    return [part for part in parts if part in by_kind or not sources.of(f"{TESTS}test_{part}.py").keys().isdisjoint(files)]
