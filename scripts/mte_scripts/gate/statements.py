"""What a reader has to read to believe a promise: the contract, and each definition that it reaches.

The definitions are those of crates/*/specs. A name that a module `declared` gives is a type, a constant or a trait of the source, and its item
is printed. Names of std and of clap are the kit's: they are listed, and not printed. A name that is none of these is an error."""

import functools
import itertools
import os
import re
from collections.abc import Iterable, Iterator
from dataclasses import dataclass, field
from typing import NamedTuple, Union

from mte_scripts.gate import crate_texts
from mte_scripts.gate.crate_texts import CRATES, comment_above, imports_in, item_end, items_in, name_of, rust_files, text_of, uses_in

ENGINES = ("score", "tune", "check", "footprint", "fit", "check-fit", "peaks", "profile", "replay", "run")
# the public functions whose contracts are a promise: crates and names
COMMANDS = {name: (f"`{name}`", [("mte_engine", name.replace("-", "_"))]) for name in ENGINES}
PROMISES = {
    "safe": ("Safe and total", []),
    "least-waste": ("The least waste, checked by anybody", [("mte_engine", name) for name in ("tune", "check", "fit", "check_fit")]),
    "headline": ("The headline", [("mte_engine", "run")]),
    "hardening": ("Hardening", [("replay_core", "laws")]),
    "bounded": (
        "Canonical and bounded",
        [("mte_engine", "law_one_answer"), *(("class_tuner", name) for name in ("fill_rows", "fill_places", "tune", "fit", "fit_over"))],
    ),
    "own-footprint": ("The heap's own footprint", [("footprint_theory", "laws")]),
}
PROGRAM = {"program": ("The whole program, on its own streams", [("mte_tool", "program.run"), ("mte_tool", "laws.law_exit_status")])}
TOPICS: dict = {**COMMANDS, **PROMISES, **PROGRAM}
# of the promise that no definition carries
NO_CONTRACT = "The prover demands it of every function, with or without a contract; it cites no definition. docs/PROOFS.md says more."
FEW_LAWS = 4

MARKS = "(){}[],;:."
TOKEN = re.compile(r'--[^\n]*|//[^\n]*|"(?:\\.|[^"\\])*"|(?P<word>[(){}\[\],;:.]|[^\s(){}\[\],;:."]+)')
TYPE_WORD = re.compile(r"//[^\n]*|#\[[^\n]*\]|(?P<word>(?<![A-Za-z_])[A-Z]\w*)|[A-Za-z_]\w*")
NUMBER = re.compile(r"0x[0-9A-Fa-f]+$|[0-9]+$")
GHOST = re.compile(r"(?m)^[ \t]*(?:ghost|requires|ensures)\b[^{\n;]*\{")
# the language's own words
OWN = set("Type × → λ let in record data where elim as do = | ↦ ← Unit tt absurd ⊥ _ pub abbrev unfoldable opaque".split())
# constructors whose names begin as a variable's do
PATTERN_WORDS = set("zero suc pos negsuc true false tt".split())
# what Rust, and the kit's Rust, has without an import
RUST_OWN = set(
    """Self Vec String Option Some None Result Ok Err Box Drop Clone Copy Debug Default Eq PartialEq Ord PartialOrd Iterator Fn FnMut
    FnOnce Sized Model Value""".split()
)
KIT_OWN = set("Env Print Eprint AllocGlobal HostRuntime".split())


class Key(NamedTuple):
    """A definition of specs/ (place is its module), or an item of the source (place is its file)."""

    place: str
    name: str
    is_source: bool = False


class Foreign(NamedTuple):
    """A word of the kit's."""

    crate: str
    name: str


Meaning = Union[Key, Foreign]


@dataclass
class Definition:
    key: Key
    file: str
    comment: str
    text: str
    links: list = field(default_factory=list)  # (start, end, Meaning) in the text, in the order in which they are followed

    @property
    def lines(self) -> int:
        return sum(1 for line in self.text.split("\n") if line.strip() and not re.match(r"\s*(--|//)", line))


class Module(NamedTuple):
    file: str
    blocks: "dict[str, crate_texts.Definition]"
    constructors: "dict[str, str]"  # name -> its data
    imports: "dict[str, tuple[str, str]]"  # name -> (module, name)


class UnresolvedName(Exception):
    """A name that is neither defined, nor declared, nor the kit's."""


def is_own_crate(name: str) -> bool:
    return (CRATES / name).is_dir()


def crate_of(file: str) -> str:
    """The crate of a file, `crates/CRATE/..`."""
    return file.split(os.sep)[1]


def read(file: str) -> str:
    """The text of a file of the repository that a name leads to."""
    try:
        return text_of(file)
    except FileNotFoundError:
        raise UnresolvedName(f"there is no file {file}") from None


@functools.lru_cache(maxsize=None)
def module(name: str) -> Module:
    """A module of specs/, `Rattle.crate.specs.Name`."""
    crate, _, path = name.removeprefix("Rattle.").partition(".specs.")
    file = f"crates/{crate}/specs/{path.replace('.', '/')}.antt"
    text = read(file)
    try:
        blocks = {it.name: it for it in crate_texts.definitions_in(text)}
    except ValueError as error:
        raise UnresolvedName(f"{file}: {error}") from None
    return Module(file, blocks, {name: it.name for it in blocks.values() for name in it.constructors}, imports_in(text))


@functools.lru_cache(maxsize=None)
def sources_of(crate: str) -> "list[str]":
    return [f"crates/{name_of(path)}" for path in rust_files(crate)]


# ---- items of the source


@functools.lru_cache(maxsize=None)
def item(crate: str, name: str, within: str = "") -> "tuple[str, str, str] | None":
    """An item of a crate: its file, comment and text. Of a type with a Model, what a clause sees of its values: its fields are the code's
    own."""
    for file in sorted(sources_of(crate), key=lambda file: within not in file):
        text = text_of(file)
        found = items_in(text, name)
        if len(found) > 1:
            raise UnresolvedName(f"{file} has two items {name}")
        if found:
            start = found[0].start()
            shown = text[start : item_end(text, start)].replace(f"\n{found[0]['indent']}", "\n").removeprefix(found[0]["indent"])
            return file, comment_above(text, start), with_model(text, name, shown)
    return None


def with_model(text: str, name: str, shown: str) -> str:
    """What is shown of a type: where it has a Model, that in place of its fields."""
    if model := re.search(rf"(?m)^impl(?:<[^\n]*>)? Model for {re.escape(name)}\b[^\n]*", text):
        start = text.find("    ghost Value", model.start(), item_end(text, model.start()))
        if start >= 0:
            return f"{shown.split('{')[0].rstrip()} {{ .. }}\n\n{model[0]}\n{text[start : item_end(text, start)]};\n    ..\n}}"
    return shown


def source_key(crate: str, name: str, within: str = "", seen: tuple = ()) -> "Meaning | None":
    """The item with this name of a crate, which may hand on that of another."""
    if not is_own_crate(crate):
        return Foreign(crate, name)
    if found := item(crate, name, within):
        return Key(found[0], name, True)
    for file in sources_of(crate):
        path = uses_in(text_of(file)).get(name)
        if path and path[0] not in ("crate", "super", "self", crate, *seen):
            return source_key(path[0], path[-1], "", (*seen, crate))
    return None


def rust_meaning(file: str, word: str, before: str) -> "Meaning | None":
    """What a type, a trait or a constant of Rust is, in a file, after this text."""
    of_module = re.search(r"([a-z_]\w*)::$", before)
    path = uses_in(text_of(file)).get(of_module[1] if of_module else word) or ([of_module[1]] if of_module else [])
    if path:
        crate = crate_of(file) if path[0] in ("crate", "self", "super") else path[0]
        return source_key(crate, word if of_module else path[-1])
    return Foreign("std", word) if word in KIT_OWN else source_key(crate_of(file), word, file)


# ---- what a name is


def declared_key(place: str, name: str) -> Key:
    """The item of the source that a module `declared` or `contracts` gives."""
    crate, _, path = place.removeprefix("Rattle.").partition(".")
    parts = path.split(".")[2:]
    if name in ("the_row", "Ghosts"):  # how the values of a type are stored, and a trait's ghost parts
        parts.append("The")
    at = next((at for at, part in enumerate(parts) if part.startswith("The")), None)
    wanted = name if at is None or parts[at] == "TheConstants" else parts[at - 1]
    folders = [part for part in parts if part[0].islower()] or ["lib"]
    for end in (".rt", "/mod.rt"):
        file = f"crates/{crate}/src/{'/'.join(folders)}{end}"
        if file in sources_of(crate) and items_in(text_of(file), wanted):
            return Key(file, wanted, True)
    raise UnresolvedName(f"{place}.{name} is declared in no source")


def target(place: str, name: str) -> Meaning:
    """What an import of NAME from a module is."""
    crate, _, path = place.removeprefix("Rattle.").partition(".")
    if not is_own_crate(crate):
        return Foreign(crate, name)
    if re.match(r"specs\.(declared|contracts)\.", path):
        return declared_key(place, name)
    try:
        there = module(place)
    except UnresolvedName:
        place, _, data = place.rpartition(".")
        if module(place).constructors.get(name) != data:
            raise
        return Key(place, data)
    if name in there.blocks or name in there.constructors:
        return Key(place, name if name in there.blocks else there.constructors[name])
    if name in there.imports:  # handed on by `pub use`
        return target(*there.imports[name])
    raise UnresolvedName(f"{place} does not define {name}")


def word_meanings(imports: dict, blocks: "Iterable[str]" = (), constructors: "dict[str, str] | None" = None, place: str = "") -> dict:
    """What each word means in a module or a source: a Key, a Foreign, or where it is imported from."""
    known = {**imports, **{name: Key(place, name) for name in blocks}}
    known.update({name: Key(place, data) for name, data in (constructors or {}).items()})
    # the parts of names with holes: `≡` of `◌≡◌`
    known.update({part: known[name] for name in list(known) if name != "◌" for part in name.split("◌") if part and part != name})
    return {**known, "do": known[">>="]} if ">>=" in known else known


# ---- what a text cites


def bound_in(words: "list[str]", is_clause: bool, known: dict) -> "set[str]":
    """The variables that a text binds: in parentheses before a colon, after λ and let, and in patterns."""
    bound: "set[str]" = set()
    for pattern in (r" [({] ([^][(){},;:.]*)(?=: )", r" λ ([^(.]*)", r" let (\S+)", r" (\([^(]*\)|\S+) ← "):
        bound.update(word for names in re.findall(pattern, f" {' '.join(words)} ") for word in names.split())
    depth = 0
    for word in words if is_clause else ():
        depth += (word in "([{") - (word in ")]}")
        if word == "=" and depth == 0:
            break
        is_variable = (word[0].islower() or word[0] == "_") and word not in PATTERN_WORDS
        if word not in f"{MARKS}=" and (is_variable or word not in known and word.isalpha()):
            bound.add(word)
    return bound - set(MARKS)


def tokens_of(text: str, start: int = 0) -> "list[tuple[str, int, int]]":
    """The words and marks of a text with their places; comments and strings are left out."""
    return [(it["word"], start + it.start(), start + it.end()) for it in TOKEN.finditer(text) if it["word"]]


def words_in(text: str) -> "list[str]":
    return [word for word, _, _ in tokens_of(text)]


def spec_links(text: str, start: int, known: dict, bound: "set[str]", where: str, is_clause: bool = False) -> list:
    """The links of a text of antt; the text begins at START of its definition. What is BOUND has none."""
    tokens, links = tokens_of(text, start), []
    bound = bound | bound_in([word for word, _, _ in tokens], is_clause, known)
    for at, (word, begin, end) in enumerate(tokens):
        before, after = tokens[at - 1] if at else ("", -1, -1), tokens[at + 1][0] if at + 1 < len(tokens) else ""
        is_field = before[0] == "." and before[2] == begin and at > 1 and tokens[at - 2][2] == before[1]
        is_label = after == "=" and before[0] in ("{", ";") or after == ":" and before[0] == "pub"
        if word in MARKS or (word in OWN and word not in known) or is_field or is_label or NUMBER.match(word) or word in bound:
            continue
        found = known.get(word)
        if not found:
            raise UnresolvedName(f"{where}: nothing says what {word} is")
        links.append((begin, end, found if isinstance(found, (Key, Foreign)) else target(*found)))
    return links


def spec_definition(key: Key) -> Definition:
    there = module(key.place)
    _, comment, text, _ = there.blocks[key.name]
    known = word_meanings(there.imports, there.blocks, there.constructors, key.place)
    found = Definition(key, there.file, comment, text)
    inner = own_words(key.name) | {name for name, data in there.constructors.items() if data == key.name}
    # its signature, and its clauses or fields
    starts = [0] + [match.end() for match in re.finditer(r"\n(?=[^\s}]|  pub )", text)]
    for start, end in zip(starts, [*(start - 1 for start in starts[1:]), len(text)]):
        part = text[start:end]
        if part.startswith(("unfolding ", "infix")):
            continue
        found.links += spec_links(part, start, known, inner, short(key), start > 0 and not part.startswith("  pub "))
        if text.startswith("pub record "):  # a record's parameters, and the fields before, are known in a field
            inner = inner | bound_in(words_in(part), False, known) | set(re.findall(r"^  pub (\S+) :", part))
    return found


def own_words(name: str) -> "set[str]":
    """The name of a definition, and the signs of one with holes."""
    return {name, *filter(None, name.split("◌"))}


def source_links(file: str, text: str, own: str) -> list:
    """The links of an item of the source: those of its clauses, and then those of its types."""
    known, where = word_meanings(imports_in(text_of(file))), f"{file}, {own}"
    # where its clauses stand, and what else is ghost
    ghosts = [(match.end() - 1, item_end(text, match.end() - 1)) for match in GHOST.finditer(text)]
    rust = text
    for start, end in ghosts:
        rust = rust[:start] + " " * (end - start) + rust[end:]
    names = {"self", "result", *re.findall(r"\b[a-z_]\w*(?=\s*[:=])", rust), *re.findall(r"(?m)^\s*ghost (\w+)", rust)}
    generics = set(re.findall(r"[<,]\s*([A-Z]\w*)\s*(?=[:,>])", rust.split("(")[0])) | set(re.findall(r"(?m)^\s*type (\w+)", rust))
    variants = set(re.findall(r"(?m)^    ([A-Z]\w*)(?=[,({ ])", rust)) if re.search(r"\benum\b", rust) else set()
    types, links = [], []
    for match in filter(lambda it: it["word"], TYPE_WORD.finditer(rust)):
        word, before = match["word"], rust[: match.start()]
        if word in RUST_OWN | generics | variants | {own} and not re.search(r"\b[a-z_]\w*::$", before):
            continue
        if not (found := rust_meaning(file, word, before)):
            raise UnresolvedName(f"{where}: nothing says what {word} is")
        types.append((match.start(), match.end(), found))
    for start, end in ghosts:
        part = text[start:end]
        new = {word: rust_meaning(file, word, "") for word in set(re.findall(r"\b[A-Z]\w*", part)) - set(known) - generics}
        scope = {**known, **{word: found for word, found in new.items() if found}}
        links += spec_links(part, start, scope, names | generics | (RUST_OWN - set(scope)) | own_words(own), where)
    return links + types


@functools.lru_cache(maxsize=None)
def definition(key: Key) -> Definition:
    if not key.is_source:
        return spec_definition(key)
    file, comment, text = item(crate_of(key.place), key.name, key.place)
    return Definition(key, file, comment, text, source_links(file, text, key.name))


# ---- worked examples


class Example(NamedTuple):
    """A lemma that works a definition out: its comment and statement, with what its own file defines for it."""

    file: str
    text: str


@functools.lru_cache(maxsize=None)
def examples() -> "dict[Key, Example]":
    """An example of each definition that has one: the shortest statement that cites it."""
    found: "dict[Key, Example]" = {}
    for path in sorted(CRATES.glob("*/proofs/*Examples.antt")):
        for key, example in examples_in(f"crates/{name_of(path)}"):
            if key not in found or len(example.text) < len(found[key].text):
                found[key] = example
    return found


def statements_in(text: str) -> "tuple[dict[str, str], list[str]]":
    """What a file of examples defines for itself, by its names, and its lemmas that are equations: comments and statements."""
    local, lemmas = {}, []
    for part in re.split(r"\n\n+", text):
        lines = part.rstrip().split("\n")
        first = next((at for at, line in enumerate(lines) if not line.startswith(("--", "use ", "pub use "))), len(lines))
        after = next((at for at in range(first + 1, len(lines)) if not lines[at][0].isspace()), len(lines))
        begin = re.match(rf"((?:{crate_texts.WORDS})*)([^\s(){{}}:]+)", "\n".join(lines[first:]))
        if begin and not begin[1] and "≡" in "\n".join(lines[first:after]):
            lemmas.append("\n".join(lines[:after]))
        elif begin:
            local[begin[2]] = "\n".join(line for line in lines if not line.startswith("unfolding "))
    return local, lemmas


def examples_in(file: str) -> "Iterator[tuple[Key, Example]]":
    imports = {name: it for name, it in imports_in(text_of(file)).items() if is_own_crate(it[0].split(".")[1]) and ".specs." in it[0]}
    local, lemmas = statements_in(text_of(file))
    for statement in lemmas:
        own: "list[str]" = []
        words = words_in(statement)
        left = [word for word in words if word in local]
        while left:
            text = local[left.pop(0)]
            if text not in own:
                own.insert(0, text)
                left += [word for word in words_in(text) if word in local]
        for word in sorted({*words} & {*imports}):
            key = target(*imports[word])
            if isinstance(key, Key) and not key.is_source and key.name == word:
                yield key, Example(file, "\n\n".join([*own, statement]))


# ---- contracts


def function(crate: str, name: str) -> Definition:
    """The contract of a public function; NAME may have its file in front, `program.run`."""
    within, _, name = name.rpartition(".")
    for file in sources_of(crate):
        text = text_of(file)
        # a law may be a method
        found = [it for it in crate_texts.functions_in(text) if it.name == name and it.head == "pub" and len(it.indent) <= 4 * name.startswith("law_")]
        if not found or within and not file.endswith(f"/{within}.rt"):
            continue
        it = found[0]
        shown = text[it.start : it.body - 1].rstrip().removeprefix(it.indent).replace(f"\n{it.indent}", "\n")
        links = source_links(file, shown, name)
        if it.indent:
            at = shown.index("self")
            links.append((at, at + len("self"), rust_meaning(file, it.owner, "")))
        return Definition(Key(file, name, True), file, comment_above(text, it.start), shown, links)
    raise UnresolvedName(f"crate {crate} has no public function {name}")


def law_names(text: str) -> "list[str]":
    return re.findall(r"\bpub fn (law_\w+)", text)


def laws(crate: str) -> "list[Definition]":
    """The laws of a file `laws.rt`, and those that it hands on from other crates."""
    text = read(f"crates/{crate}/src/laws.rt")
    lent = re.findall(r"(?ms)^pub use (\w+)[\w:]*::\{([^}]*)\};", text)
    found = [(of, name.strip()) for of, names in lent for name in names.split(",") if name.strip()]
    return [function(*each) for each in (*found, *((crate, name) for name in law_names(text)))]


@functools.lru_cache(maxsize=None)
def laws_by_definition() -> "dict[Key, list[str]]":
    """The laws of all crates whose statement names a definition, by the definition."""
    found: "dict[Key, list[str]]" = {}
    for crate in sorted(os.listdir(CRATES)):
        for name in sorted({name for file in sources_of(crate) for name in law_names(text_of(file))}):
            for key in dict.fromkeys(own_links(function(crate, name))):
                found.setdefault(key, []).append(name)
    return found


@dataclass
class Statement:
    title: str
    contracts: "list[Definition]"
    definitions: "list[Definition]"  # of specs/ and of the source, in the order of `downwards`
    foreign: "list[Foreign]"

    @property
    def own(self) -> "list[Definition]":
        return [it for it in self.definitions if not it.key.is_source]

    @property
    def kit_words(self) -> "dict[str, str]":
        """The words of the kit's crates, by crate."""
        return {crate: " ".join(it.name for it in its) for crate, its in itertools.groupby(self.foreign, lambda it: it.crate)}

    @property
    def counts(self) -> "tuple[int, int, int, int]":
        """Definitions, lines and modules of specs/, and items of the source."""
        own = self.own
        return len(own), sum(it.lines for it in own), len({it.key.place for it in own}), len(self.definitions) - len(own)


def own_links(found: Definition) -> "list[Key]":
    """What a definition cites, but for the kit's words."""
    return [key for _, _, key in found.links if isinstance(key, Key)]


def places_downwards(contracts: "list[Definition]", reached: "dict[Key, Definition]") -> "list[str]":
    """The modules and files of what contracts reach, each after all that cite it."""
    cites = {"": [key.place for it in contracts for key in own_links(it)]}
    for it in reached.values():
        cites.setdefault(it.key.place, []).extend(key.place for key in own_links(it))
    upwards: "dict[str, None]" = {}
    seen: "set[str]" = set()

    def visit(place: str) -> None:
        seen.add(place)
        for other in reversed(cites[place]):
            if other not in seen:
                visit(other)
        upwards[place] = None

    visit("")
    return [*upwards][-2::-1]


def downwards(contracts: "list[Definition]", reached: "dict[Key, Definition]") -> "list[Definition]":
    """What contracts reach, in the order in which it is read: module by module, each after all that cite it, and in a module each definition
    where it is cited first."""
    waiting: "dict[str, list[Key]]" = {place: [] for place in places_downwards(contracts, reached)}
    order: "dict[Key, Definition]" = {}

    def follow(found: Definition, place: str) -> None:
        for key in own_links(found):
            if key.place == place:
                put(key)
            else:
                waiting[key.place].append(key)

    def put(key: Key) -> None:
        if key not in order:
            order[key] = reached[key]
            follow(reached[key], key.place)

    for contract in contracts:
        follow(contract, "")
    for keys in waiting.values():
        for key in keys:
            put(key)
    return [*order.values()]


def reach(contracts: "list[Definition]") -> "tuple[dict[Key, Definition], set[Foreign]]":
    """All definitions that contracts cite, directly or by others; and the kit's words among them."""
    reached: "dict[Key, Definition]" = {}
    foreign: "set[Foreign]" = set()
    left = list(contracts)
    while left:
        found = left.pop()
        foreign.update(key for _, _, key in found.links if isinstance(key, Foreign))
        for key in own_links(found):
            if key not in reached:
                reached[key] = definition(key)
                left.append(reached[key])
    return reached, foreign


def statement(topic: str) -> Statement:
    """The contracts of a topic, and each definition that they reach."""
    title, functions = TOPICS[topic]
    contracts = [it for crate, name in functions for it in (laws(crate) if name == "laws" else [function(crate, name)])]
    reached, foreign = reach(contracts)
    return Statement(title, contracts, downwards(contracts, reached), sorted(foreign))


def short(key: Key) -> str:
    """How a definition's place is called: `mte_engine::Run`; of an item of the source its file."""
    return key.place if key.is_source else key.place.removeprefix("Rattle.").replace(".specs.", "::", 1)


def counts_text(found: Statement) -> str:
    """The counts, in words."""
    return "{} definitions, {} lines in {} modules, and {} types and constants of the source".format(*found.counts)


def laws_on(found: Definition) -> str:
    """The line with the laws that say more of a definition of specs/; empty without one, or where so many name it that it is a common word."""
    names = [] if found.key.is_source else laws_by_definition().get(found.key, [])
    return f"-- laws: {', '.join(names)}" if 1 <= len(names) <= FEW_LAWS else ""


def as_text(found: Statement) -> str:
    """The statement, to be read from the top."""
    parts = [f"{found.title}: {counts_text(found) if found.contracts else NO_CONTRACT}"]
    for file, its in itertools.groupby(found.contracts + found.definitions, lambda it: it.file):
        shown = ("\n".join(filter(None, (it.comment, laws_on(it), it.text))) for it in its)
        parts.append(f"==== {file}\n" + "\n\n".join(shown))
    parts += [f"==== words of {crate}, which the kit defines: {words}" for crate, words in found.kit_words.items()]
    return "\n\n".join(parts) + "\n"
