"""Names by which nothing is found: functions, classes and modules of scripts, python and crates whose name is a bare participle, preposition or
pronoun, as `found`, `within` or `its_calls`. A name says what it does, with a verb and an object, or what it is, with a noun."""

import ast
import collections
import os
import re
from collections.abc import Iterator

from mte_scripts.gate.crate_texts import ITEM, text_of
from python_sources import python_files, tracked_files, tree_of

# of words that end as a participle does, those that are nouns or verbs
NO_PARTICIPLES = set(
    """bed bound drawing embed exceed feed finding hundred need padding proceed ranking recording red resampling rounding sampling saving seed
    setting shed speed spelling spring string succeed thing timing tuning warning weed beginning building ceiling ending heading king listing
    mapping meaning ordering packaging ring sibling wing hardening encoding""".split()
)
IRREGULAR = set(
    """begun broken brought built caught chosen dealt done drawn driven drunk eaten fallen felt forgotten found frozen given gone got grown had
    heard held hidden kept known laid led left lent lost made meant met paid ran risen said seen sent shown shrunk shut sold spent spoken stood
    sung sunk sworn taken taught thought thrown told torn understood was were won worn wound written""".split()
)
SMALL_WORDS = set(
    """about above across after again against all along always among another anybody apart around as aside at away back before behind below
    beneath beside between beyond both by down during each either else elsewhere everything for from he here his in inside into it itself me mine
    near neither never no nobody none not nothing of off on once one onto other others our out outside over past per she since some something such
    that them themselves then there these they this those through to together too toward towards twice under until up upon us we what whatever
    which who whom whose with within without""".split()
)
POSSESSIVE = set("her his its my our their whose your".split())


def words_of(name: str) -> "list[str]":
    return [word.lower() for word in re.findall(r"[A-Z]+(?=[A-Z][a-z]|$)|[A-Z]?[a-z]+|[A-Z]+|\d+", name)]


def is_participle(word: str) -> bool:
    return word in IRREGULAR or word not in NO_PARTICIPLES and bool(re.fullmatch(r"\w{2,}ed|\w{3,}ing", word))


def is_bare(name: str) -> bool:
    """Whether a name has neither a verb nor a noun: of a participle with a preposition after it, what follows is of neither."""
    words = words_of(name)
    if not words or words[0] in POSSESSIVE or all(word in SMALL_WORDS or is_participle(word) for word in words):
        return bool(words)
    return is_participle(words[0]) and words[1] in SMALL_WORDS


def names_of_python(path: str) -> "Iterator[str]":
    stem = os.path.basename(path).removesuffix(".py")
    if path.endswith(".py") and not stem.startswith("test_"):
        yield stem
    for node in tree_of(path).body:
        if isinstance(node, (ast.FunctionDef, ast.AsyncFunctionDef, ast.ClassDef)):
            yield node.name


def names_of_rust(path: str, is_only: bool) -> "Iterator[str]":
    """A module whose name says what is done in it (`scoring`) is found by it, if it is the only one of its crate."""
    stem = os.path.basename(path).removesuffix(".rt")
    if not (is_only and re.fullmatch(r"[a-z]+ing", stem)):
        yield stem
    yield from (it["name"] for it in ITEM.finditer(text_of(path)) if not it["indent"] and it["kind"] not in ("const", "static"))


def bare_names() -> "Iterator[str]":
    """A line for each: the file, and the name."""
    for path in python_files():
        yield from (f"{path} {name}" for name in names_of_python(path) if is_bare(name))
    sources = [path for path in tracked_files() if re.fullmatch(r"crates/\w+/src/.*\.rt", path)]
    places = collections.Counter((path.split("/")[1], os.path.basename(path)) for path in sources)
    for path in sources:
        is_only = places[path.split("/")[1], os.path.basename(path)] == 1
        yield from (f"{path} {name}" for name in names_of_rust(path, is_only) if is_bare(name))
