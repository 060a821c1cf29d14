"""The XML of malloc_info: Scudo's counts its live blocks by their sizes; glibc's counts free chunks, of which no profile can be made."""

import re
from collections import Counter

from mte_scripts import text_layout
from mte_scripts.recording.imports import import_result
from mte_scripts.recording.imports.import_result import ImportResult, counter_of, number
from mte_scripts.recording.imports.source import Source, Wrong

NAME = "malloc-info"
WHAT = "the XML of malloc_info, of Scudo"
KINDS = (import_result.LIVE,)

BEGIN = re.compile(rb'<malloc version="([^"<>]{1,40})">')
BLOCKS = re.compile(rb'<alloc size="(\d{1,19})" count="(\d{1,19})"/>')
FREE = re.compile(rb'<(?:size|unsorted) from="\d{1,19}" to="\d{1,19}" total="\d{1,19}" count="(\d{1,19})"/>')


def read(source: Source, kind: str) -> ImportResult:
    counts: Counter = Counter()
    version, is_whole, free = b"", False, 0
    for lines in source.lines():
        for line in map(bytes.strip, lines):
            if match := BEGIN.fullmatch(line):
                version, is_whole = match[1], False
                counts.clear()  # the last one of several counts
            elif match := BLOCKS.fullmatch(line):
                counts[counter_of(int(match[1]))] += int(match[2])
            elif match := FREE.fullmatch(line):
                free += int(match[1])
            elif line == b"</malloc>":
                is_whole = True
            elif version.startswith(b"scudo") and not is_whole:
                raise Wrong(f"it has a line that is none of Scudo's: {text_layout.shorten_line(line)}")
    if not version:
        raise Wrong("it has no line `<malloc version=..>`")
    if not version.startswith(b"scudo"):
        refuse_glibc(free)
    if not is_whole:
        raise Wrong("it has no line `</malloc>`: it was cut off")
    blocks = f"{number(sum(counts.values()), 'live block')} at the moment of the call"
    return ImportResult(import_result.LIVE, +counts, [
        f"Scudo: {blocks}. Each size is exact; that of an aligned block is without its alignment",
        "blocks above Scudo's largest class, 64 or 128 KiB, are not in it",
    ])


def refuse_glibc(free: int) -> None:
    chunks = f"its {number(free, 'free chunk')} are" if free else "free chunks are"
    raise Wrong(
        f"it is of glibc, which lists free chunks and sums of bytes only: {chunks} what is left between blocks, and no size of a request or"
        " of a live block can be told. Record the program by `profile_program --live PROGRAM ARGS..`"
    )
