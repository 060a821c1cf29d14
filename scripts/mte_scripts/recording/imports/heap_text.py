"""Heap profiles as texts: those of gperftools, Go's older form, and the dumps of jemalloc. A stack has its live blocks and their bytes, and
in brackets all that were requested."""

import math
import re
from typing import Iterator

from mte_scripts import count_texts, text_layout
from mte_scripts.recording.imports import import_result
from mte_scripts.recording.imports.import_result import Buckets, ImportResult
from mte_scripts.recording.imports.source import Source, Wrong

NAME = "heap-text"
WHAT = "a heap profile as text, of gperftools, of jemalloc's heap dumps, or of Go"
KINDS = (import_result.ALL, import_result.LIVE)

BEGIN = re.compile(rb"\Aheap profile:|\Aheap_v2/")
HEADER = re.compile(rb"heap profile:\s*(\d+):\s*(\d+)\s*\[\s*(\d+):\s*(\d+)\]\s*@\s*(\S+)\s*")
STACK = re.compile(rb"\s*(\d+):\s*(\d+)\s*\[\s*(\d+):\s*(\d+)\]\s*@[ 0-9a-fx]*")
DUMP = re.compile(rb"heap_v2/(\d{1,19})")
THREADS = re.compile(rb"\s*t(\*|\d+):\s*(\d+):\s*(\d+)\s*\[\s*(\d+):\s*(\d+)\]\s*")
SAMPLING = re.compile(r"(heap|heap_v2|heapz_v2)/(\d{1,19})")
END = b"MAPPED_LIBRARIES:"
MOST_DIGITS = 19  # of a number of blocks or bytes
MOST_STACKS = 1 << 21


class Profile:
    """What the lines say, so far."""

    def __init__(self, kind: str) -> None:
        self.kind = kind
        self.sums = [0, 0, 0, 0]  # live blocks and bytes, and all
        self.header: list = []
        self.stacks: list = []  # of those that have blocks, the four numbers
        self.has_end = False


def read(source: Source, kind: str) -> ImportResult:
    lines = (line for some in source.lines() for line in some)
    first = next(lines, b"")
    profile = Profile(kind)
    if match := HEADER.fullmatch(first):
        period, form = sampling(match[5].decode(errors="replace"))
        profile.header = numbers(match, 1)
        read_stacks(profile, up_to_end(profile, lines))
        if profile.sums != profile.header and not profile.has_end:
            raise Wrong("its stacks have other sums than its first line: it was cut off")
    elif match := DUMP.fullmatch(first):
        period, form = int(match[1]), "jemalloc"
        read_dump(profile, up_to_end(profile, lines))
    else:
        raise Wrong(f"its first line is not `heap profile: ..` or `heap_v2/N`: {text_layout.shorten_line(first)}")
    if source.ends_in_line:
        raise Wrong("it ends inside a line: it was cut off")
    return count_stacks(profile, period, form)


def numbers(match: re.Match, first: int) -> list:
    """The four numbers of a line."""
    words = match.group(first, first + 1, first + 2, first + 3)
    if max(map(len, words)) > MOST_DIGITS:
        raise Wrong(f"a number has more than {MOST_DIGITS} digits")
    return list(map(int, words))


def sampling(word: str) -> tuple:
    """After how many bytes a block is sampled, on average, and whose the text is; 1 where every block is there."""
    if word == "heapprofile":
        return 1, "gperftools"
    match = SAMPLING.fullmatch(word)
    if not match:
        raise Wrong(f"it is a profile of another kind, `{word}`, without blocks of one size")
    return (int(match[2]) // 2, "Go") if match[1] == "heap" else (int(match[2]), "gperftools")


def up_to_end(profile: Profile, lines: Iterator[bytes]) -> Iterator[bytes]:
    """The lines before those of libraries, which are read too."""
    for line in lines:
        profile.has_end = profile.has_end or line == END
        if not profile.has_end:
            yield line


def read_stacks(profile: Profile, lines: Iterator[bytes]) -> None:
    for at, line in enumerate(lines, 2):
        if match := STACK.fullmatch(line):
            take(profile, numbers(match, 1))
        elif line.strip() and not line.startswith(b"#"):
            raise Wrong(count_texts.encoding(line, at) or f"line {at} is no line of a stack: {text_layout.shorten_line(line)}")


def read_dump(profile: Profile, lines: Iterator[bytes]) -> None:
    """A dump has a stack, its counts, and those of its threads; and before all stacks the sums."""
    has_stack, is_told = False, True
    for at, line in enumerate(lines, 2):
        if line.startswith(b"@"):
            if not is_told:
                break
            has_stack, is_told = True, False
        elif match := THREADS.fullmatch(line):
            if match[1] == b"*":
                if has_stack:
                    take(profile, numbers(match, 2))
                is_told = True
        elif line.strip():
            raise Wrong(count_texts.encoding(line, at) or f"line {at} is no line of a dump: {text_layout.shorten_line(line)}")
    if not is_told or not has_stack:
        raise Wrong("a stack has no counts: it was cut off" if has_stack else "it has no stack: it was cut off, or nothing was sampled")


def take(profile: Profile, counts: list) -> None:
    if len(profile.stacks) == MOST_STACKS:
        raise Wrong(f"it has more than {MOST_STACKS:,} stacks")
    profile.sums = [one + other for one, other in zip(profile.sums, counts)]
    profile.stacks.append(counts)


def count_stacks(profile: Profile, period: int, form: str) -> ImportResult:
    kind = profile.kind
    if kind == import_result.ALL and not any(stack[2] for stack in profile.stacks):
        kind = import_result.LIVE  # jemalloc counts no others unless prof_accum is set
    buckets, place = Buckets(), 0 if kind == import_result.LIVE else 2
    for stack in profile.stacks:
        blocks, total = stack[place : place + 2]
        buckets.add(blocks, total, share_of(blocks, total, period))
    told = buckets.told(form)
    if period > 1:
        how = f"a block of s bytes is in the sample with the probability 1 - exp(-s/{period:,}), and the counts are scaled up by that"
        told.append(f"sampled, a block in about {period:,} bytes, so the counts are estimates: {how}")
        told.append(f"! {import_result.MISSED}")
    if form == "jemalloc":
        told.append("the sizes are of jemalloc's classes, to which it rounds requests up; where it samples, they are off by some percent")
    elif form == "Go":
        told.append("the sizes are those of Go's classes, and not what was requested")
    else:
        told.append("an aligned block has the bytes that gperftools took for it")
    if profile.header and profile.sums != profile.header:
        blocks = profile.header[place]
        told.append(f"! {blocks - profile.sums[place]:,} of {blocks:,} blocks are at stacks that the file has not")
    if not profile.header and not profile.has_end:
        told.append("! it has no lines of libraries, which end a dump: if it was cut off, stacks are missing")
    return ImportResult(kind, buckets.counts, told)


def share_of(blocks: int, total: int, period: int) -> float:
    """Which share of a stack's blocks is in the sample, by their average size."""
    if period <= 1 or not blocks or not total:
        return 1.0
    return -math.expm1(-total / blocks / period) or 1.0
