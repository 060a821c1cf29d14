"""Lists what stands in two crates and is the same: bodies of functions, definitions of specs, and public constants of one name and value.

A body or definition counts from 60 characters on, its spaces and comments left out. What is in ALIKE may stand twice, with its reason.
"""
import collections
import re

import checks
from checks import expect
from mte_scripts.gate.crate_texts import equations_in, functions_in, in_a_line, name_of, rust_files, spec_files, text_of, without_comments

LEAST = 60
# programs and tests, which say things again to compare them
APART = ("callers", "engine_tests", "heap_tests", "machine_trials")
ALIKE = {
    "GRANULE_BYTES": "Arm's granule, of which the machine knows without a heap, and the unit of block sizes",
    "FEWEST_GRANULES": "the machine's memory and the heap's region, of one size; granule_memory and Layout compare them in their contracts",
    "MOST_GRANULES": "as FEWEST_GRANULES",
    "of_parts": "a handle to a text and one to a heap: an exported function takes no structure that holds a handle with a type parameter",
    "into_parts": "as of_parts",
    "code_of": "the number of a slot's state in its header, and the one by which a caller is told it",
    "state_number": "as code_of",
    "config": "of two structures of C, whose fields have these names",
    "config_of": "as config",
}


def number_constants(text):
    """The names and values of public constants that are numbers."""
    for name, value in re.findall(r"\bpub const ([A-Z_0-9]+): *[^=]+= *([^;]+);", without_comments(text)):
        if not re.search(r"[a-zA-Z]", value):
            yield name, value.replace("_", "")


def definitions_in(text):
    for name, left, right in equations_in(text):
        yield name, in_a_line(f"{left}={right}")


def repeats():
    """Yields what stands twice: what it is called, and the files."""
    bodies, constants = collections.defaultdict(set), collections.defaultdict(set)
    for path in [*rust_files(), *spec_files()]:
        crate, text = name_of(path).split("/")[0], text_of(path)
        if crate in APART or "declared" in path.parts:
            continue
        if path.suffix == ".rt":
            for name, value in number_constants(text):
                constants[name, value].add((crate, name, path))
        named = ((it.name, in_a_line(it.code)) for it in functions_in(text)) if path.suffix == ".rt" else definitions_in(text)
        for name, body in named:
            if len(body) >= LEAST:
                bodies[body].add((crate, name, path))
    for places in [*bodies.values(), *constants.values()]:
        if len({crate for crate, _, _ in places}) > 1:
            yield sorted(places)


class Repeats(checks.Part):
    def test_crates(self):
        for places in repeats():
            if not all(name in ALIKE for _, name, _ in places):
                expect("the same twice", False, ", ".join(f"{name} in {name_of(path)}" for _, name, path in places))
