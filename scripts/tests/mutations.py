"""One-line changes of the scripts' Python and C that may break them: a comparison the other way, another number, a condition or a statement
that is dropped, exchanged arguments, another key. They are drawn by the number of lines of each file."""

import ast
import os
import random
import re
import subprocess
from collections.abc import Iterator
from typing import NamedTuple, Optional

from mte_scripts.places import ROOT
from python_sources import tracked_files

COMPARED = {"<": "<=", "<=": "<", ">": ">=", ">=": ">", "==": "!=", "!=": "==", "in": "not in", "not in": "in", "is": "is not",
            "is not": "is"}
COMPUTED = {"+": "-", "-": "+", "*": "//", "//": "*", "/": "*"}
JOINED = {"and": "or", "or": "and"}
CALLED = {"min": "max", "max": "min", "any": "all", "all": "any"}
IN_C = (  # the kind, what is found in a line, and what takes its place
    ("compare", r" (<=|>=|==|!=|<|>) ", lambda found: f" {COMPARED[found[1]]} "),
    ("and/or", r" (&&|\|\|) ", lambda found: {"&&": " || ", "||": " && "}[found[1]]),
    ("arithmetic", r" ([-+]) (?=[\w(])", lambda found: f" {COMPUTED[found[1]]} "),
    ("dropped not", r"!(?=[\w(])", lambda found: ""),
    ("constant", r"(?<![\w.])\d+(?![\w.])", lambda found: str(int(found[0]) + 1)),
    ("sum", r"(?<=[\w)]) *(\+=|-=) *", lambda found: {"+=": " -= ", "-=": " += "}[found[1]]),
    ("early return", r"(?<=return )(?!0;|NULL;)[^;]+(?=;)", lambda found: "0"),
    ("dropped statement", r"(?<=^    )\s*(?:\w+\(.*\)|[\w>.\[\]-]+ [-+|]?= [^;]*|[\w>.-]+(?:\+\+|--));\s*$", lambda found: ";"),
)  # fmt: skip


class Change(NamedTuple):
    path: str
    line: int
    kind: str
    old: str
    new: str

    def __str__(self) -> str:
        return f"{self.path}:{self.line} ({self.kind}) `{self.old.strip()}` to `{self.new.strip()}`"


class PythonChanges(ast.NodeVisitor):
    """The changes of a file: (line, kind, what the line is then)."""

    def __init__(self, text: str) -> None:
        self.lines, self.found, self.depth = text.split("\n"), [], 0
        self.visit(ast.parse(text))

    def add(self, kind: str, first: "tuple[int, int]", last: "tuple[int, int]", new: str) -> None:
        """Places are a line and a byte of it."""
        raw = self.lines[first[0] - 1].encode()
        if first[0] == last[0]:
            self.found.append((first[0], kind, (raw[: first[1]] + new.encode() + raw[last[1] :]).decode()))

    def text_between(self, left: ast.AST, right: ast.AST) -> str:
        return self.lines[left.end_lineno - 1].encode()[left.end_col_offset : right.col_offset].decode()

    def replace(self, kind: str, node: ast.AST, new: str) -> None:
        self.add(kind, (node.lineno, node.col_offset), (node.end_lineno, node.end_col_offset), new)

    def replace_sign(self, kind: str, left: ast.AST, right: ast.AST, signs: "dict[str, str]") -> None:
        if left.end_lineno == right.lineno:
            found = re.fullmatch(r"(\)*\s*)(\S+(?: (?:in|not))?)(\s*\(*)", self.text_between(left, right))
            if found and found[2] in signs:
                new = found[1] + signs[found[2]] + found[3]
                self.add(kind, (left.end_lineno, left.end_col_offset), (right.lineno, right.col_offset), new)

    def visit_JoinedStr(self, node: ast.JoinedStr) -> None:
        """Its places are not to be trusted."""

    def visit_Import(self, node: ast.AST) -> None:
        """None."""

    visit_ImportFrom = visit_Import

    def visit_FunctionDef(self, node: ast.FunctionDef) -> None:
        self.depth += 1
        for each in node.body:
            self.visit(each)
        self.depth -= 1

    def visit_ClassDef(self, node: ast.ClassDef) -> None:
        for each in node.body:
            self.visit(each)

    def visit_Compare(self, node: ast.Compare) -> None:
        self.replace_sign("compare", node.left, node.comparators[0], COMPARED)
        self.generic_visit(node)

    def visit_BinOp(self, node: ast.BinOp) -> None:
        self.replace_sign("arithmetic", node.left, node.right, COMPUTED)
        self.generic_visit(node)

    def visit_BoolOp(self, node: ast.BoolOp) -> None:
        self.replace_sign("and/or", node.values[0], node.values[1], JOINED)
        self.generic_visit(node)

    def visit_UnaryOp(self, node: ast.UnaryOp) -> None:
        if isinstance(node.op, ast.Not):
            self.add("dropped not", (node.lineno, node.col_offset), (node.operand.lineno, node.operand.col_offset), "")
        self.generic_visit(node)

    def visit_Call(self, node: ast.Call) -> None:
        first, *more = node.args or [None]
        name = node.func.id if isinstance(node.func, ast.Name) else getattr(node.func, "attr", "")
        if more and first.lineno == more[0].end_lineno and not any(isinstance(each, ast.Starred) for each in (first, more[0])):
            one, other = (self.text_between_ends(each) for each in (first, more[0]))
            new = other + self.text_between(first, more[0]) + one
            self.add("exchanged arguments", (first.lineno, first.col_offset), (more[0].lineno, more[0].end_col_offset), new)
        if name in CALLED and isinstance(node.func, ast.Name):
            self.replace("min/max/any/all", node.func, CALLED[name])
        self.generic_visit(node)

    def text_between_ends(self, node: ast.AST) -> str:
        return self.lines[node.lineno - 1].encode()[node.col_offset : node.end_col_offset].decode()

    def visit_Subscript(self, node: ast.Subscript) -> None:
        if isinstance(node.slice, ast.Constant) and isinstance(node.slice.value, str):
            end = (node.slice.end_lineno, node.slice.end_col_offset - 1)
            self.add("wrong key", end, end, "_")
        self.generic_visit(node)

    def visit_Constant(self, node: ast.Constant) -> None:
        if self.depth and node.value in (True, False) and isinstance(node.value, bool):
            self.replace("constant", node, str(not node.value))
        elif self.depth and type(node.value) in (int, float):
            self.replace("constant", node, str(node.value + 1))

    def visit_If(self, node: ast.If) -> None:
        if self.depth:
            self.replace("condition", node.test, "True")
        self.generic_visit(node)

    def visit_Return(self, node: ast.Return) -> None:
        if self.depth and node.value and not isinstance(node.value, ast.Constant):
            self.replace("early return", node, "return None")
        self.generic_visit(node)

    def drop(self, node: ast.stmt) -> None:
        if self.depth:
            self.replace("dropped statement", node, "pass")
        self.generic_visit(node)

    visit_AugAssign = visit_Raise = visit_Continue = visit_Break = drop

    def visit_Expr(self, node: ast.Expr) -> None:
        if isinstance(node.value, ast.Call):
            self.drop(node)


def changes_of_c(text: str) -> "Iterator[tuple[int, str, str]]":
    for number, line in enumerate(text.split("\n"), 1):
        code = re.sub(r'"(?:\\.|[^"\\])*"', lambda it: '"' + "~" * (len(it[0]) - 2) + '"', line.split("//")[0])
        if code.startswith("    ") and not code.lstrip().startswith(("#", "*", "/*")) and "asm" not in code:
            for kind, pattern, new in IN_C:
                for found in re.finditer(pattern, code):
                    yield number, kind, line[: found.start()] + new(found) + line[found.end() :]


def changes_of(path: str, text: str) -> "list[Change]":
    found = PythonChanges(text).found if path.endswith(".py") else changes_of_c(text)
    lines = text.split("\n")
    return [Change(path, line, kind, lines[line - 1], new) for line, kind, new in found if new != lines[line - 1]]


def changed_text(text: str, change: Change) -> str:
    lines = text.split("\n")
    lines[change.line - 1] = change.new
    return "\n".join(lines)


def is_code(path: str, text: str, files: "list[str]") -> bool:
    """Whether a changed file is still Python; or of C, whether a source that has it still compiles."""
    if path.endswith(".py"):
        try:
            return bool(ast.parse(text))
        except SyntaxError:
            return False
    users = [path] if path.endswith(".c") else [name for name in files if name.endswith(".c") and includes(name, os.path.basename(path))]
    flags = ["-w", "-fsyntax-only", "-std=gnu11", "-x", "c", "-I", os.path.join(ROOT, os.path.dirname(path)), "-"]
    given = text if path.endswith(".c") else f'{text}\n#include "{os.path.join(ROOT, users[0])}"\n' if users else ""
    return bool(given) and not subprocess.run(["gcc", *flags], input=given, capture_output=True, text=True).returncode


def includes(path: str, name: str) -> bool:
    with open(os.path.join(ROOT, path), encoding="utf-8") as file:
        return f'#include "{name}"' in file.read()


def draw_changes(seed: int, count: int, below: "Optional[str]" = None) -> "list[Change]":
    """So many changes, of different lines, in the files of scripts; or in those below a path."""
    draw, found, tops = random.Random(seed), {}, ("scripts/mte_scripts/", "scripts/shims/")
    files = [name for name in tracked_files() if name.startswith(tops) and name.endswith((".py", ".c", ".h"))]
    files = [name for name in files if name.startswith(below or tops) and "shims/real_heaps" not in name]
    texts = {}
    for name in files:
        with open(os.path.join(ROOT, name), encoding="utf-8") as file:
            texts[name] = file.read()
    changes, weights = {name: changes_of(name, text) for name, text in texts.items()}, [text.count("\n") for text in texts.values()]
    for _ in range(100 * count):
        (name,) = draw.choices(files, weights)
        if changes[name] and len(found) < count:
            kind = draw.choice(sorted({each.kind for each in changes[name]}))
            change = draw.choice([each for each in changes[name] if each.kind == kind])
            if (name, change.line) not in found and is_code(name, changed_text(texts[name], change), files):
                found[name, change.line] = change
    return list(found.values())
