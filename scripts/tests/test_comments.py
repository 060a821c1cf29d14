"""Lists public items of the crates without a comment `///`, and files of code that do not begin with what they are.

An item is public if it is `pub` or `pub(..)`. A module needs no comment, since its file has one, nor does a field that is `pub(crate)`, since
its type has one. A file says what it is by `//!`, or by the comment of its first item.
"""
import re

import checks
from checks import expect
from mte_scripts.gate.crate_texts import ITEM, comment_above, name_of, rust_files, text_of

# a field, but of the crate alone
FIELD = re.compile(r"(?m)^ +pub(?!\(crate\))(?:\([a-z]+\))? \w+:")
# what may stand before the first item of a file
BEFORE = re.compile(r"$|\s|[}\]]|#\[|(pub )?(ghost )?use |(pub )?mod ")


def without_comment(text):
    """Yields the numbers, from 1, of the lines of public items that no comment `///` stands above."""
    items = [it.start() for it in ITEM.finditer(text) if it["pub"]] + [it.start() for it in FIELD.finditer(text)]
    yield from (text.count("\n", 0, start) + 1 for start in items if not comment_above(text, start).split("\n")[-1].startswith("///"))


def says_what_it_is(text):
    first = next((line for line in text.split("\n") if not BEFORE.match(line)), "///")
    return text.startswith("//!") or first.startswith("///")


class Comments(checks.Part):
    def test_crates(self):
        wrong = []
        for path in rust_files():
            wrong += [f"{name_of(path)}: no comment at line {n}" for n in without_comment(text_of(path))]
            wrong += [f"{name_of(path)} does not begin with what it is"] * (not says_what_it_is(text_of(path)))
        expect("comments in the crates", not wrong, *wrong)
