"""The statistics that Scudo prints (__scudo_print_stats): the blocks of each size class."""

import re
from collections import Counter

from mte_scripts.recording.imports import import_result
from mte_scripts.recording.imports.import_result import LARGE, ImportResult, counter_of, number
from mte_scripts.recording.imports.source import Source, Wrong

NAME = "scudo-stats"
WHAT = "the statistics of Scudo (__scudo_print_stats)"
KINDS = (import_result.LIVE,)

HEADER_BYTES = 16  # of a block
BEGIN = re.compile(rb"Stats: SizeClassAllocator(?:32|64): .*")
CLASS = re.compile(rb"[EF\s]*(\d{2,3}) \(\s*(\d{1,10})\): mapped: .*?\binuse:\s*(\d{1,19})\b.*")
LARGE_ONES = re.compile(rb"Stats: MapAllocator: .*\bremains (\d{1,19}) .*")


def read(source: Source, kind: str) -> ImportResult:
    counts: Counter = Counter()
    has_begun = is_whole = False
    for lines in source.lines():
        for line in lines:
            if BEGIN.match(line):
                has_begun, is_whole = True, False
                counts.clear()  # the last ones of several count
            elif not has_begun:
                continue
            elif match := CLASS.fullmatch(line):
                if match[1] != b"00":  # Scudo's own, for its lists of free blocks
                    counts[counter_of(max(int(match[2]) - HEADER_BYTES, 0))] += int(match[3])
            elif match := LARGE_ONES.fullmatch(line):
                counts[LARGE] += int(match[1])
                is_whole = True
    if not has_begun:
        raise Wrong("it has no line `Stats: SizeClassAllocator..`")
    if not is_whole:
        raise Wrong("it has no line `Stats: MapAllocator`: it was cut off")
    return ImportResult(import_result.LIVE, +counts, [
        f"Scudo: {number(sum(counts.values()), 'block')}, each at the most bytes that its class holds, which is an upper bound: of what was"
        " requested is only told that it is above the class below",
        "blocks that threads keep for reuse count as live; by `malloc_info` Scudo lists the exact sizes of the live ones",
    ])
