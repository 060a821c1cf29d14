"""The maps that bpftrace prints at its end, as `@[24]: 100`: how often each size was requested."""

import re
from collections import Counter
from typing import Optional

from mte_scripts import text_layout
from mte_scripts.recording.imports import import_result
from mte_scripts.recording.imports.import_result import ImportResult, counter_of, number
from mte_scripts.recording.imports.source import Source, Wrong

NAME = "bpftrace"
WHAT = "the maps that bpftrace prints, as `@[24]: 100`"
KINDS = (import_result.ALL,)

BEGIN = re.compile(rb"(?m)^@\w{0,60}\[\d{1,20}\]: \d{1,19}$")
ENTRY = re.compile(rb"(@\w{0,60})\[(\d{1,20})\]: (\d{1,19})")
RANGE = re.compile(rb"(\[|\()\S+(, \S+\)|\])\s+\d+ \|[@ ]*\|")
FULL = re.compile(rb"(?i).*\bmap full\b.*")
LOST = re.compile(rb"Lost \d+ events.*")


def read(source: Source, kind: str) -> ImportResult:
    """The sums over all maps. A map that is printed several times counts as it was printed last."""
    found: "dict[tuple[bytes, int], int]" = {}
    again, is_full = 0, False
    for lines in source.lines():
        for line in lines:
            is_full = is_full or bool(FULL.fullmatch(line) or LOST.fullmatch(line))
            if entry := entry_of(line):
                again += entry[0] in found
                found[entry[0]] = entry[1]
    if source.ends_in_line:
        raise Wrong("its last line has no end: it was cut off")
    if not found:
        raise Wrong("it has no line as `@[24]: 100`")
    counts: Counter = Counter()
    for (_, size), count in found.items():
        counts[counter_of(size)] += count
    maps = len({name for name, _ in found})
    told = [
        f"bpftrace: {number(sum(counts.values()), 'request')} in {number(maps, 'map')}, each of the size that its probe "
        "counted"
    ]
    if again:
        told.append(f"{number(again, 'line')} came again, as where a map is printed at intervals: the last one counts")
    if is_full:
        told.append(
            "! a map was full, or events were lost: sizes are missing. Set BPFTRACE_MAP_KEYS_MAX=100000 for bpftrace"
        )
    return ImportResult(import_result.ALL, +counts, told)


def entry_of(line: bytes) -> "Optional[tuple[tuple[bytes, int], int]]":
    """The map and the size of a line, with their count; None of a line that the program or bpftrace printed beside the
    maps."""
    if match := ENTRY.fullmatch(line):
        return (match[1], int(match[2])), int(match[3])
    if RANGE.fullmatch(line):
        raise Wrong(
            "it has a histogram, whose ranges are no sizes: count by `@[arg0] = count()`, and not by hist or lhist"
        )
    if line.startswith(b"@") and b"[" in line:
        raise Wrong(f"a line is not `@[SIZE]: COUNT`: {text_layout.shorten_line(line)}; count by `@[arg0] = count()`")
    return None
