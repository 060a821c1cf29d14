"""The texts of tables and what certifies them: class lines, sheets and fits. docs/FORMATS.md says what they are."""

import os
import re
from collections import namedtuple

from mte_scripts.count_texts import EVENT_WORDS, encoding, is_history, parse_count_line
from mte_scripts.entry_point import Refusal
from mte_scripts.formats import LARGEST_CLASS, MOST_CLASSES, MOST_INPUT
from mte_scripts.text_files import first_line, input_name, lines_of, read
from mte_scripts.text_layout import shorten_line

NUMBER = rb" (?:0|[1-9][0-9]{0,19})"
NUMBERS = re.compile(rb"(?:%b)*" % NUMBER)
# `forced` is whether the table has to have class 1024
Sheet = namedtuple("Sheet", "classes limit step forced waste rows")
Fit = namedtuple("Fit", "classes limit step forced footprint rows moments")  # the moments are None of a fit over a history


def class_line(path: str) -> "list[int] | None":
    """The classes of the first line of a file, which may be a sheet, in granules."""
    text = read(path, MOST_INPUT)  # and not the first line alone: what writes the rest would fail
    return parse_class_line(first_line(text) if text else None, input_name(path))


def parse_class_line(text: "str | bytes", name: str = "the class line") -> list[int]:
    """The classes of a line `classes C1 C2 ..`, in granules. None stands for a missing line."""
    if text is None:
        raise Refusal(2, f"{name}: there is no line, so no class line")
    text = os.fsencode(text)
    if wrong := encoding(text):
        raise Refusal(2, f"{name}: {wrong}")
    if text.split(b" ", 1)[0] in EVENT_WORDS:
        raise Refusal(2, f"{name}: line 1 is of a trace, and no class line: `mte_tool run` makes the sheet of a trace")
    if parse_count_line(text):
        raise Refusal(
            2, f"{name}: line 1 is of a profile, and no class line: `mte_tool tune` makes the sheet of a profile"
        )
    if is_history(text):
        raise Refusal(
            2, f"{name}: line 1 is of a history, and no class line: `mte_tool fit` makes the fit of a history"
        )
    if not re.fullmatch(rb"classes( (0|[1-9][0-9]*))*", text):
        raise Refusal(2, f"{name}: line 1 is no class line, `classes C1 C2 ..`: {shorten_line(text)}")
    words = text.split()[1:]
    if len(words) > MOST_CLASSES:
        raise Refusal(2, f"{name}: {len(words)} classes are more than {MOST_CLASSES}")
    below = 1
    for word in words:
        if len(word) > 4 or not below < int(word) <= LARGEST_CLASS:
            raise Refusal(2, f"{name}: the classes do not ascend from 2 to {LARGEST_CLASS}: {shorten_line(word)}")
        below = int(word)
    return [int(word) for word in words]


def parse_sheet(text: "str | bytes", name: str = "the sheet") -> Sheet:
    """A sheet as its parts. It has the form of a sheet; only `mte_tool check` says whether it is right."""
    return Sheet(*parts_of(text, name, "sheet", b"waste"))


def parse_fit(text: "str | bytes", name: str = "the fit") -> Fit:
    """A fit as its parts. Only `mte_tool check-fit` says whether it is right."""
    lines = lines_of(os.fsencode(text))
    moments = None
    if lines and (match := re.fullmatch(rb"moments((?: (?:0|[1-9][0-9]{0,9}))+)", lines[-1])):
        moments = [int(at) for at in match[1].split()]
        text = b"\n".join(lines[:-1])
    classes, limit, step, forced, footprint, rows = parts_of(text, name, "fit", b"footprint")
    return Fit(classes, limit, step, forced, footprint, rows, moments)


def parts_of(text: "str | bytes", name: str, kind: str, cost: bytes) -> tuple:
    """The classes, limit and step of a sheet or a fit, whether class 1024 is forced, its cost and its rows."""
    lines = lines_of(os.fsencode(text))
    classes = parse_class_line(lines[0] if lines else None, name)
    numbers = {b"step": 1}
    rows = []
    for at, line in enumerate(lines[1:], 2):
        word, *values = line.split(b" ")
        has_numbers = bool(NUMBERS.fullmatch(line, len(word)))
        if has_numbers and word == b"row":
            rows.append(list(map(int, values)))
        elif has_numbers and word in (b"limit", b"step", b"forced", cost) and len(values) == 1 and not rows:
            numbers[word] = int(values[0])
        else:
            form = "`row N1 N2 ..`" if rows else f"`limit K`, `step S`, `forced 1024`, `{cost.decode()} N` or `row N1 N2 ..`"
            raise Refusal(
                2, f"{name}: {encoding(line, at) or f'line {at} is no line of a {kind}, {form}: {shorten_line(line)}'}"
            )
    if b"limit" not in numbers or cost not in numbers:
        raise Refusal(2, f"{name}: it is no whole {kind}: a line `limit` or `{cost.decode()}` is missing")
    return classes, numbers[b"limit"], numbers[b"step"], b"forced" in numbers, numbers[cost], rows


def tuner_options(limit: int, step: int, largest: bool) -> "list[str]":
    """The options of `tune` and `fit`: for tables with class 1024 where it is wanted."""
    return ["--limit", str(limit), "--step", str(step), "--largest-class", str(int(largest))]
