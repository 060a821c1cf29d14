"""What a fleet gets wrong: rows that can't count, each with its reason; and what came again, which is none. None of them refuses a
file, and none is silent."""

import os
from collections import Counter
from collections.abc import Callable, Iterable, Iterator
from typing import Any, Optional, TypeVar

from mte_scripts import entry_point, text_files, text_layout

PODS = "; two containers of a machine have names as MACHINE/POD"
AGAIN = f"loads that came again: one of each counts{PODS}"
AGAIN_LINES = "lines of a result that came again: the last one counts"
MIXED = "loads whose rows came twice and in no order: of equal rows the last counts; a load's number tells them apart"
UNLIKE = f"rows of one load with different counts: the greatest counts{PODS}"
Made = TypeVar("Made")


class Suspicion(Exception):
    """A row that can't count: why, in words that rows with the same suspicion have alike; and what of the row shows it."""

    def __init__(self, reason: str, what: str = "") -> None:
        super().__init__(reason)
        self.reason, self.what = reason, what


def number_lines(counts: "Counter[str]") -> "list[str]":
    return [f"{number:,} {what}" for what, number in sorted(counts.items()) if number]


class Suspicions:
    """How many rows have each suspicion, and the first of them; of how many loads, or rows of loads, something is to be
    said, and how many came again, of which one counts. With a file, the rows that can't count are written there: the
    reason, the file and its line, and the row as it came."""

    def __init__(self, path: Optional[str] = None) -> None:
        self.rows: "dict[str, list[Any]]" = {}
        self.loads: "Counter[str]" = Counter()
        self.repeats: "Counter[str]" = Counter()
        self.notes: "list[str]" = []  # what else is to be looked at
        self.remarks: "list[str]" = []  # and what is not
        self.lines: "list[bytes]" = []
        self.path = path

    def add_row(self, suspicion: Suspicion, path: str, at: int, line: bytes) -> None:
        """A row that can't count."""
        name, what = text_files.input_name(path), suspicion.what.encode(errors="surrogateescape")
        shown = f": {text_layout.shorten_line(what)}" if what else ""
        first = f"line {at} of {name}{shown}"
        self.rows.setdefault(suspicion.reason, [0, first])[0] += 1
        if self.path:
            self.lines.append(f"{suspicion.reason}\t{name}\t{at}\t".encode(errors="surrogateescape") + line + b"\n")

    def keep_good(self, path: str, rows: "Iterable[tuple]", read: "Callable[..., Made]") -> "Iterator[Made]":
        """What READ makes of the rows of a file, each its number, its line and the words for READ; those that it
        suspects are left out."""
        for at, line, words in rows:
            try:
                yield read(*words)
            except Suspicion as suspicion:
                self.add_row(suspicion, path, at, line)

    def suspect_lines(self) -> "list[str]":
        """A line for each suspicion."""
        rows = [f"{number:,} rows don't count, {reason} ({first})" for reason, (number, first) in sorted(self.rows.items())]
        return [*rows, *number_lines(self.loads), *self.notes]

    def remark_lines(self) -> "list[str]":
        """A line for each kind of what came again, and for what else is none."""
        return [*number_lines(self.repeats), *self.remarks]

    def all_lines(self) -> "list[str]":
        return [*self.suspect_lines(), *self.remark_lines()]

    def refuse_all(self, what: str, of_none: Optional[entry_point.Refusal] = None) -> entry_point.Refusal:
        """What refuses files of which nothing can count: WHAT can't, and why; OF_NONE where nothing was suspected."""
        self.write_rows()
        first = self.all_lines()[:1]
        return of_none if of_none and not first else entry_point.Refusal(2, f"no {what} can count: {''.join(first)}")

    def write_rows(self) -> None:
        """Writes the file of the rows that can't count; where there is none, an empty one."""
        if self.path:
            text_files.write_file(self.path, b"".join(self.lines))

    def say_all(self, name: str) -> None:
        """All of it, on standard error."""
        self.write_rows()
        for line in self.all_lines():
            entry_point.say(os.path.basename(name), line)
