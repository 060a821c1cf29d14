"""Which table a process runs: the mark of scudo_classes, in what the process has mapped."""

import contextlib
import os
import re
from collections.abc import Iterable, Iterator
from typing import Optional

from mte_scripts.entry_point import Refusal
from mte_scripts.tables.table_mark import MARK

MAPPED = re.compile(rb"([0-9a-f]+)-([0-9a-f]+) (r[w-][x-][ps]) \S+ \S+ \d+ +(/.*)")
PIECE, LONGEST = 1 << 20, 128  # bytes of a read, and those that two have in common: a mark is shorter
RunningTable = tuple[str, str]  # its version and its digest
NO_TABLE = "-", "-"  # of a process without a mark


def find_marks(path: "str | bytes", spans: "Iterable[tuple[int, int]]" = ()) -> "Optional[set[RunningTable]]":
    """The marks in a file, or in these spans of it; None where it can't be read."""
    found: "set[RunningTable]" = set()
    try:
        descriptor = os.open(path, os.O_RDONLY | os.O_CLOEXEC)
    except OSError:
        return None
    try:
        for begin, end in spans or [(0, os.fstat(descriptor).st_size)]:
            with contextlib.suppress(OSError):  # a mapping that has no file behind it any more
                found |= {*marks_between(descriptor, begin, end)}
    finally:
        os.close(descriptor)
    return found


def marks_between(descriptor: int, begin: int, end: int) -> "Iterator[RunningTable]":
    rest = b""
    while begin < end and (piece := os.pread(descriptor, min(PIECE, end - begin), begin)):
        for found in MARK.finditer(rest + piece):
            yield found[1].decode(), found[2].decode()
        rest, begin = piece[-LONGEST:], begin + len(piece)


def table_of(pid: int) -> RunningTable:
    """The table that a process runs, by its memory; where the kernel refuses that, as of another process of the user,
    by the files that it has mapped. Two marks in one process are refused: nobody knows which one serves."""
    process = f"/proc/{pid}"
    try:
        with open(f"{process}/maps", "rb") as file:
            mapped = [line for line in map(MAPPED.fullmatch, file.read().splitlines()) if line]
    except OSError as error:
        raise Refusal(2, f"process {pid} can't be read: {error.strerror}") from None
    found = find_marks(f"{process}/mem", [(int(each[1], 16), int(each[2], 16)) for each in mapped])
    if found is None:
        files = {f"{process}/root".encode() + each[4] for each in mapped}
        found = set().union(*(find_marks(path) or () for path in files))
    if len(found) > 1:
        versions = ", ".join(sorted(version for version, _ in found))
        raise Refusal(2, f"process {pid} has the marks of {len(found)} tables: {versions}")
    return found.pop() if found else NO_TABLE
