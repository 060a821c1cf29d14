"""Lists definitions and lemmas of the crates that nothing cites, and imports that their file does not use.

A name counts as cited if it stands anywhere in the crates but at its own definition and in lines that import it, if a `pub use` gives it
another name, or if a comment has it in backticks: such a lemma is there to be proved. So a name that two files define is taken for cited if
either is. Worked examples are there to be proved too.
"""
import collections
import re

import checks
from checks import expect
from mte_scripts.gate.crate_texts import CRATES, imports_in, name_of, text_of, without_comments

EXAMPLES = re.compile(r"(Worked|Realloc)?Example\w*\.antt$")
# files in which the check itself looks for names that it gives
ANSWERS = ("Answers.antt", "Invariants.antt", "Proof.antt")
WORD = re.compile(r"[^\s(){}\[\],.;:\"]+")
HEAD = re.compile(r"^(?:(?:abbrev|unfoldable|opaque|record|data|pub)\s+)*([^\s(){}:]+)\s*[:({]", re.M)
NO_NAMES = {"use", "mod", "module", "where", "let", "open", "with"}
# an operator that a notation brings in, and whose sign so stands nowhere
BY_NOTATION = {"◌>>=◌"}


def names_in_comments(path):
    """Yields the names that comments of a file have in backticks, and those that it hands on under another name."""
    text = text_of(path)
    yield from re.findall(r"`([^`\s]+)`", "\n".join(re.findall(r"(?:--|//).*", text)))
    for names in re.findall(r"(?m)^pub use [\w.-]+\.\{([^}]*)\}", text):
        yield from re.findall(r"(\S+) as ", names)


def without_imports(path, text):
    return re.sub(r"(?s)\bghost use .*?;" if path.suffix == ".rt" else r"(?m)^(?:pub )?use .*$", "", text)


def unused_imports(text, body):
    """Yields the names that a file of definitions or lemmas imports, and then does not use."""
    for name in imports_in(re.sub(r"(?m)^pub use .*$", "", text)):
        if name not in BY_NOTATION and not all(it in body for it in name.split("◌")):
            yield name


def uncited_names(body, said):
    for name in dict.fromkeys(HEAD.findall(body)):
        own = re.findall(rf"(?m)^(?:(?:abbrev|unfoldable|opaque|record|data|pub) )*{re.escape(name)}(?=[\s({{:]|$)", body)
        if name not in NO_NAMES and said[name] <= len(own):
            yield name


class Dead(checks.Part):
    def test_crates(self):
        paths = [it for it in sorted(CRATES.glob("*/*/**/*")) if it.suffix in (".rt", ".antt") and "out" not in it.parts]
        texts = {path: without_comments(text_of(path), path.suffix) for path in paths}
        bodies = {path: without_imports(path, text) for path, text in texts.items()}
        said = collections.Counter(word for body in bodies.values() for word in WORD.findall(body))
        said.update(name for path in texts for name in names_in_comments(path))
        wrong = []
        for path, body in bodies.items():
            if path.suffix == ".antt":
                # (a whole proof imports all the steps of a proof)
                unused = [] if path.name == "Proof.antt" else unused_imports(texts[path], body)
                uncited = [] if path.name in ANSWERS or EXAMPLES.search(path.name) else uncited_names(body, said)
                wrong += [f"{name_of(path)} imports {name}, and does not use it" for name in unused]
                wrong += [f"nothing cites {name} of {name_of(path)}" for name in uncited]
        expect("definitions, lemmas and imports of the crates", not wrong, *wrong)
        expect("there are files", len(texts) > 1000, len(texts))
