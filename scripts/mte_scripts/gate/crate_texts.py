"""The texts of the crates, as scripts and tests read them: the items of a file of Rust, its functions with their
contracts and bodies, and the definitions, imports and equations of a file of antt. (statements.py says what the names
in them mean.)"""

import functools
import itertools
import pathlib
import re
from collections.abc import Iterator
from typing import NamedTuple

from mte_scripts.entry_point import Refusal
from mte_scripts.places import ROOT

CRATES = pathlib.Path(ROOT, "crates")
ITEM = re.compile(r'(?m)^(?P<indent> *)(?P<pub>pub(?:\([^)]*\))? )?(?:(?:const|unsafe|ghost|(?P<c>extern "C")) )*'
                  r"(?P<kind>fn|enum|struct|trait|type|const|static) (?P<name>\w+)")
BLOCK = re.compile(r"(?m)^ *(?P<pub>pub )?(?:unsafe )?(?P<kind>impl|trait)\b(?P<head>[^{;]*)\{")
OF_CONTRACT = r"(requires|ensures|decreases)\b"
RESULT = re.compile(rf"(?s)(?:\s*->\s*(?P<type>.*?))?(?=\s+(?:where\b|{OF_CONTRACT})|\s*(?:\{{|;(?![^][{{;]*\])))")
CLAUSE = re.compile(rf"\s*(?:where\b[^{{;]*?(?=\s{OF_CONTRACT}|\{{|;))?\s*(?P<kind>requires|ensures|decreases)\b[^{{]*")
HIDDEN = re.compile(r"""//[^\n]*|"(?:\\.|[^"\\])*"|'(?:\\.|[^'\\])'""", re.S)
RUST_USE = re.compile(r"(?ms)^(?:pub )?use ([a-z_][\w:]*?)(?:::\{([^}]*)\}|::(\w+))?(?: as (\w+))?;")
IMPORT = re.compile(r"(?m)^(?:ghost |    ghost )?(?:pub )?use ((?:Rattle|base|denote|contract)[\w.-]*)"
                    r"(?:\.\{((?:[^{}]|\{[^}]*\})*)\}| as (\w+))?;?$")
LISTED = re.compile(r"([\w.-]+)\.\{([^}]*)\}|([^\s,{}][^,{}]*)")
WORDS = r"(?:abbrev|unfoldable|opaque|pub|record|data) "
DEFINITION = re.compile(r"(?m)(?P<comment>(?:^--(?! ----).*\n)*)(?P<text>(?:^infix.*\n)?^(?!pub (?:use|mod) )"
                        rf"(?P<words>(?:{WORDS})+)(?P<name>[^\s(){{}}:]+).*(?:\n(?!--|use |{WORDS})[^\n]*\S[^\n]*)*)")
OUTSIDE = re.compile(r"--|(?:pub )?use |pub mod |infix|\s*$")
EQUATION = re.compile(r"(?m)^([A-Za-z_][\w'-]*)((?: [^=\n]*?)?) =\s*((?:.|\n)*?)(?=^\S|\Z)")


class Function(NamedTuple):
    name: str
    owner: str  # the type of its block; empty outside one, and in a trait
    trait: str  # the trait of its block, or empty
    head: str  # `pub`, `pub(crate)` or nothing
    is_public: bool  # with `pub`, or of a public trait
    is_exported: bool  # to C
    params: str
    result: str
    requires: "list[str]"
    ensures: "list[str]"
    start: int  # where it is in the text of its file
    body: int  # where its body begins, after the brace; its end, where it has none
    end: int
    indent: str
    code: str  # of its body, without comments


class Definition(NamedTuple):
    """A definition of a file of antt, with the comment above it."""

    name: str
    comment: str
    text: str
    constructors: "list[str]"


@functools.lru_cache(maxsize=None)
def text_of(path: "pathlib.Path | str") -> str:
    """The text of a file, whose path may begin at the repository."""
    try:
        return pathlib.Path(ROOT, path).read_text(encoding="utf-8")
    except FileNotFoundError:
        raise
    except (OSError, ValueError) as error:
        raise Refusal(3, f"{path} can't be read: {error}") from error


def rust_files(crate: str = "*") -> "list[pathlib.Path]":
    return sorted(path for path in CRATES.glob(f"{crate}/src/**/*.rt") if path.is_file())


def spec_files() -> "list[pathlib.Path]":
    return sorted(CRATES.glob("*/specs/**/*.antt"))


def name_of(path: pathlib.Path) -> str:
    return str(path.relative_to(CRATES))


def in_a_line(text: str) -> str:
    return " ".join(text.split())


# ---- Rust


def without_comments(text: str, suffix: str = ".rt") -> str:
    return re.sub(r"//[^\n]*" if suffix == ".rt" else r"--[^\n]*", "", text)


def hide_comments(text: str) -> str:
    """A text of Rust with spaces in the place of its comments."""
    return re.sub(r"//[^\n]*", lambda found: " " * len(found[0]), text)


@functools.lru_cache(maxsize=None)
def code_of(text: str) -> str:
    """A text of Rust with spaces in place of comments, strings and characters: its brackets are those of the code."""
    return HIDDEN.sub(lambda found: re.sub(r"[^\n]", " ", found[0]), text)


def close_bracket(code: str, at: int, marks: str = "()[]{}", stops: str = ")]}") -> int:
    """The place after the bracket that closes the one there, or after the first of STOPS outside of brackets."""
    depth = 0
    for found in re.compile(f"[;{re.escape(marks)}]").finditer(code, at):
        depth += (found[0] in marks[::2]) - (found[0] in marks[1::2])
        if depth == 0 and found[0] in stops:
            return found.end()
    raise ValueError(f"nothing closes {code[at : at + 20]!r}")


def past_generics(code: str, at: int) -> int:
    """The place after the parameters `<..>` that stand there, if any do."""
    return close_bracket(code.replace("->", "  "), at, "<>", ">") if code.startswith("<", at) else at


def items_in(text: str, name: str) -> "list[re.Match[str]]":
    """Where the types, traits and constants of this name begin in a text of Rust."""
    return [it for it in ITEM.finditer(text) if it["name"] == name and it["kind"] != "fn"]


def item_end(text: str, start: int) -> int:
    """Where an item ends, or what begins with a brace: after its braces, or its semicolon."""
    return close_bracket(code_of(text), start, stops="};")


def comment_above(text: str, start: int) -> str:
    """The comment above an item; attributes are left out."""
    lines = [line.strip() for line in text[:start].split("\n")[:-1]]
    above = itertools.takewhile(lambda line: line.startswith(("//", "#[")) and not line.startswith("//!"),
                                reversed(lines))
    return "\n".join([line for line in above if line.startswith("//")][::-1])


def path_of(name: str) -> str:
    """The path of a type without references, lifetimes and arguments."""
    return re.sub(r"[<>].*", "", re.sub(r"'\w+,? ?|&|\bmut ", "", name)).strip()


def trait_name(trait: str) -> str:
    """A trait as it stands in the name of an `impl`: of `From<io::Error>` it is `FromIoError`."""
    name, _, argument = trait.partition("<")
    return path_of(name).rpartition("::")[2] + "".join(it[:1].upper() + it[1:] for it in path_of(argument).split("::"))


def owner_of(block: "re.Match[str] | None") -> "tuple[str, str]":
    """The type and the trait of a block, or empty texts."""
    if block is None:
        return "", ""
    head = re.sub(r"^\s*<[^{]*?>(?= )", "", block["head"]).split(" where ")[0].strip()
    trait, _, of = head.rpartition(" for ")
    name = path_of(of).rpartition("::")[2].partition(":")[0]
    return (name, trait_name(trait)) if block["kind"] == "impl" else ("", name)


def function_at(said: str, code: str, found: "re.Match[str]", block: "re.Match[str] | None") -> Function:
    """The function that begins there, in a block or in none."""
    at = past_generics(code, found.end())
    end = close_bracket(code, at)
    result = RESULT.match(code, end)
    clauses: "dict[str, list[str]]" = {"requires": [], "ensures": [], "decreases": []}
    place = result.end()
    while clause := CLAUSE.match(code, place):
        place = close_bracket(code, clause.end())
        clauses[clause["kind"]].append(in_a_line(said[clause.end() + 1 : place - 1]))
    body = re.compile("[{;]").search(code, place).end()
    stop = close_bracket(code, body - 1) if code[body - 1] == "{" else body
    head = (found["pub"] or "").strip()
    is_public = head == "pub" or bool(block and block["pub"])
    params, gives = said[at + 1 : end - 1], in_a_line(result["type"] or "")
    return Function(found["name"], *owner_of(block), head, is_public, bool(found["c"]), params, gives,
                    clauses["requires"], clauses["ensures"], found.start(), body, stop, found["indent"], said[body:stop])


@functools.lru_cache(maxsize=None)
def functions_in(text: str) -> "list[Function]":
    """The functions of a text of Rust."""
    said, code = hide_comments(text), code_of(text)
    blocks = [(it.end(), close_bracket(code, it.end() - 1), it) for it in BLOCK.finditer(code)]
    return [function_at(said, code, found,
                        next((it for start, end, it in reversed(blocks) if start <= found.start() < end), None))
            for found in ITEM.finditer(said) if found["kind"] == "fn"]


@functools.lru_cache(maxsize=None)
def uses_in(text: str) -> "dict[str, list[str]]":
    """What each name that a text of Rust imports is: its path."""
    found = {}
    for path, names, last, alias in RUST_USE.findall(text):
        for each in names.split(",") if names else [f"{last} as {alias}" if alias else last]:
            name, _, new = each.strip().partition(" as ")
            if name and "::" not in name:
                found[(new or name).strip()] = [*path.split("::"), name.strip()]
    return found


# ---- antt


@functools.lru_cache(maxsize=None)
def imports_in(text: str) -> "dict[str, tuple[str, str]]":
    """What each name that a text imports from antt is: its module and its name there."""
    found = {}
    for path, listed, whole in IMPORT.findall(text):
        if whole:
            found[whole] = (path, whole)
        for below, names, name in LISTED.findall(listed):
            for each in filter(None, (it.strip() for it in (names or name).split(","))):
                name, _, alias = each.partition(" as ")
                found[(alias or name).strip()] = (f"{path}.{below}" if below else path, name.strip())
    return found


def definitions_in(text: str) -> "Iterator[Definition]":
    """The definitions of a text. A line of none is an error."""
    for found in DEFINITION.finditer(text):
        constructors = re.findall(r"(?m)^  (\S+) :", found["text"]) if "data " in found["words"] else []
        yield Definition(found["name"], found["comment"].rstrip("\n"), found["text"], constructors)
    if lost := [line for line in DEFINITION.sub("", text).split("\n") if not OUTSIDE.match(line)]:
        raise ValueError(f"this line belongs to no definition: {lost[0]}")


def equations_in(text: str) -> "Iterator[tuple[str, str, str]]":
    """The equations of a text: a name, and the left side after it and the right side of one of its cases."""
    for name, left, right in EQUATION.findall(without_comments(text, ".antt")):
        yield name, left, in_a_line(right)
