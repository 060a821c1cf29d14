"""The texts of counts: profiles and histories. docs/FORMATS.md says what they are. No message shows a byte that is no text."""

import io
import operator
import re
from collections import defaultdict, namedtuple
from collections.abc import Callable, Iterable, Iterator
from typing import Any, BinaryIO

from mte_scripts.entry_point import Refusal
from mte_scripts.formats import CODES, LARGEST_SIZE, MOST_COUNT, MOST_SNAPSHOTS
from mte_scripts.text_files import PIECE, first_line, input_name, lines_of, next_piece, open_input
from mte_scripts.text_layout import shorten_line

DIVIDED = "a count is above {most}, the most that a text may have: all are divided by {divisor} and rounded up"
MOST_DIGITS = 4_000  # of a number; Python itself converts 4,300
DIGITS = b"0123456789"
LARGE = b"%d" % (LARGEST_SIZE + 1)
COUNTED = re.compile(rb"[ \t]*([0-9]+|large)[ \t]+([0-9]+)[ \t]*")
# how files of other tools begin, packed or not
OTHER_TOOLS = re.compile(
    rb"\x1f\x8b|\x28\xb5\x2f\xfd|heap profile:|heap_v2/|v [0-9a-f]+ [0-9a-f]+$|\{\"dhatFileVersion|\{\"jemalloc"
    rb"|<malloc |Stats: SizeClassAllocator"
)
EVENT_WORDS = (b"malloc", b"calloc", b"realloc", b"free", b"load", b"store", b"addg", b"subg")
SHEET_WORDS = (b"classes", b"limit", b"step", b"forced", b"waste", b"footprint", b"row", b"moments")
History = namedtuple("History", "snapshots counts")  # how many snapshots; for each size, and `large`, its count at each of them


def read_profile(path: str) -> dict:
    """What a profile counts: the count of each size up to LARGEST_SIZE, and of `large`.

    A line is a size and a count, or `large` and a count, in any order and however often; a larger size is large. Counts may be
    0, and are summed exactly."""
    with open_input(path) as file:
        return counts_of(file, path)


def parse_profile(data: bytes, name: str) -> dict:
    """The same of bytes that were read from a file of this name."""
    return counts_of(io.BytesIO(data), name)


def counts_of(file: BinaryIO, path: str, begin: bytes = b"") -> dict:
    """The same of an open file; what was read of it already is BEGIN."""
    counts: "defaultdict[Any, int]" = defaultdict(int)
    line = 1
    for piece in whole_lines(file, path, begin):
        if not add_lines(counts, piece):
            at, text = next((at, text) for at, text in enumerate(lines_of(piece), line) if not parse_count_line(text))
            raise line_refusal(text, at, path)
        line += piece.count(b"\n")
    return with_large(counts)


def with_large(counts: dict) -> dict:
    """Counts by size, those of all larger sizes as of `large`."""
    found = {size: count for size, count in counts.items() if size <= LARGEST_SIZE}
    large = [count for size, count in counts.items() if size > LARGEST_SIZE]
    return {**found, "large": sum(large)} if large else found


def add_counts(sums: dict, counts: dict, factor: int = 1) -> None:
    """Adds counts by size to others, each so many times."""
    for size, count in counts.items():
        sums[size] = sums.get(size, 0) + factor * count


def add_row(rows: dict, key: object, counts: "list[int]", factor: int = 1) -> None:
    """Adds the counts at each moment to those that have this key."""
    more = counts if factor == 1 else [factor * count for count in counts]
    rows[key] = list(map(operator.add, rows[key], more)) if key in rows else list(more)


def is_history(data: bytes) -> bool:
    """Whether a text that begins with these bytes is a history, or means to be one."""
    return first_line(data).split(b" ", 1)[0] == b"snapshots"


def is_timeline(data: bytes) -> bool:
    """Whether a text that begins with these bytes is a timeline, or means to be one."""
    return first_line(data).rstrip(b"\r ") == b"timeline"


def parse_history(data: bytes, name: str = "the history") -> History:
    """A history of a file with this name. As in a profile, its sizes come in any order and however often; a size above LARGEST_SIZE is large.
    Counts are summed."""
    lines = lines_of(data)
    first = lines[0] if lines else b""
    match = re.fullmatch(rb"snapshots ([1-9][0-9]{0,3})", first)
    if not match or int(match[1]) > MOST_SNAPSHOTS:
        if wrong := encoding(first):
            raise Refusal(2, f"{name}: {wrong}")
        if parse_count_line(first):
            raise Refusal(2, f"{name}: line 1 is of a profile, and no history: `profile_program --history` records one")
        if is_timeline(first) or first.split(b" ")[0] in EVENT_WORDS + SHEET_WORDS:
            raise line_refusal(first, 1, name, "SIZE N1 .. NT")
        raise Refusal(
            2, f"{name}: line 1 is not `snapshots T` with T from 1 to {MOST_SNAPSHOTS}: {shorten_line(first)}"
        )
    snapshots = int(match[1])
    counts: dict = {}
    for at, line in enumerate(lines[1:], 2):
        word, *numbers = line.split() or [b""]
        digits = numbers if word == b"large" else [word, *numbers]
        if digits and not (b"".join(digits).isdigit() and len(max(digits, key=len)) <= MOST_DIGITS):
            raise line_refusal(line, at, name, "SIZE N1 .. NT")
        if len(numbers) != snapshots:
            raise Refusal(2, f"{name}: line {at} has not {snapshots} counts, one for each snapshot, but {len(numbers)}")
        size = "large" if word == b"large" or int(word) > LARGEST_SIZE else int(word)
        add_row(counts, size, list(map(int, numbers)))
    return History(snapshots, {size: numbers for size, numbers in counts.items() if any(numbers)})


def read_either(path: str) -> "dict | History":
    """A profile as read_profile has it, or a History: the first line says which."""
    with open_input(path) as file:
        begin = next_piece(file, path, len(b"snapshots "))
        if not is_history(begin):
            return counts_of(file, path, begin)
        return parse_history(begin + next_piece(file, path, None), input_name(path))


def history_text(history: History, divisor: int = 1) -> str:
    """A history as FORMATS.md has it, whose counts are divided and rounded up. One that is above the most that a text may have is refused."""
    return f"snapshots {history.snapshots}\n" + rows_text(history.counts, divisor)


def profile_text(counts: dict, divisor: int = 1) -> str:
    """A profile as FORMATS.md has it; the same."""
    return rows_text({size: [count] for size, count in counts.items() if count}, divisor)


def rows_text(rows: dict, divisor: int) -> str:
    """The lines of sizes with their counts."""
    lines = []
    for size in [*sorted(rows.keys() - {"large"}), *["large"] * ("large" in rows)]:
        counts = [-(-count // divisor) for count in rows[size]] if divisor > 1 else rows[size]
        if max(counts) > MOST_COUNT:
            raise Refusal(2, f"the counts of {size}: 32 CountOutOfRange: {CODES[32].words}")
        lines.append(f"{size} {' '.join(map(str, counts))}\n")
    return "".join(lines)


def divisor_of(found: "dict | History") -> int:
    """By what the counts of a profile or a history have to be divided so that a text can have them."""
    counts = map(max, found.counts.values()) if isinstance(found, History) else found.values()
    return max(-(-max(counts, default=0) // MOST_COUNT), 1)


def fitting_text(found: "dict | History", tell: "Callable[[str], None]") -> str:
    """The text of a profile or a history, whose counts are divided where they have to be; that is told."""
    if (divisor := divisor_of(found)) > 1:
        tell(DIVIDED.format(most=f"{MOST_COUNT:,}", divisor=f"{divisor:,}"))
    return history_text(found, divisor) if isinstance(found, History) else profile_text(found, divisor)


def told_divisor(notes: "Iterable[str]") -> int:
    """By what the counts were divided, of which one of these notes tells."""
    found = re.search(re.escape(DIVIDED).replace(r"\{most\}", "[0-9,]+").replace(r"\{divisor\}", "([0-9,]+)"), "\n".join(notes))
    return int(found[1].replace(",", "")) if found else 1


def whole_lines(file: BinaryIO, path: str, rest: bytes) -> "Iterator[bytes]":
    """These bytes and those of a file in pieces of whole lines. The last line is given the newline that it may lack."""
    while piece := next_piece(file, path):
        if end := piece.rfind(b"\n") + 1:
            yield rest + piece[:end]
            rest = b""
        rest += piece[end:]
        if len(rest) > PIECE:
            raise line_refusal(rest, None, path)
    if rest:
        yield rest.removesuffix(b"\n") + b"\n"


def add_lines(counts: defaultdict, piece: bytes) -> bool:
    """Adds the counts of some whole lines, or says False where one is faulty. `large` is counted at the first size that is."""
    if b"large" in piece and piece.count(b"large") == piece.count(b"\nlarge ") + piece.startswith(b"large "):
        piece = piece.replace(b"large", LARGE)
    lines = piece.count(b"\n")
    words = piece.split()
    # Most lines are a size, a space and a count. Where all are, this is seen at once, and else line by line.
    if piece.translate(None, DIGITS) == b" \n" * lines and len(words) == 2 * lines and len(max(words, key=len)) <= MOST_DIGITS:
        sizes, numbers = words[::2], words[1::2]
    else:
        pairs = [parse_count_line(line) for line in lines_of(piece)]
        if not all(pairs):
            return False
        sizes, numbers = [size.replace(b"large", LARGE) for size, _ in pairs], [number for _, number in pairs]
    for size, number in zip(map(int, sizes), map(int, numbers)):
        counts[size] += number
    return True


def parse_count_line(line: bytes) -> "list[bytes] | None":
    """The size and the count of a line, without leading zeros, or None where it is no such line or a number has too many digits."""
    match = COUNTED.fullmatch(line)
    pair = match and [word.lstrip(b"0") or b"0" for word in match.groups()]
    return pair if pair and len(max(pair, key=len)) <= MOST_DIGITS else None


def line_refusal(text: bytes, line: "int | None", path: str, form: str = "SIZE COUNT") -> Refusal:
    """What is wrong with a line that is not of this form."""
    name, first = input_name(path), text.split(b" ")[0]
    if line == 1 and OTHER_TOOLS.match(text):
        return Refusal(
            2, f"{name}: it looks like a file of another tool: `profile_program --import` makes a profile of it"
        )
    if wrong := encoding(text, line):
        return Refusal(2, f"{name}: {wrong}")
    where = f"{name}: line {line}" if line else name
    kind = "profile" if form == "SIZE COUNT" else "history"
    if first in EVENT_WORDS:
        return Refusal(2, f"{where} is of a trace, and not {form}: `mte_tool profile` makes the profile of a trace")
    if first in SHEET_WORDS:
        return Refusal(
            2, f"{where} is of a sheet or a class line, and not {form}: give the {kind} that it was made for"
        )
    if is_history(text):
        return Refusal(2, f"{where} is of a history, and not {form}: give histories alone, or profiles alone")
    if is_timeline(text):
        return Refusal(2, f"{where} is of a timeline, and not {form}: `mte_tool fit` and tune_program take it as it is")
    return Refusal(2, f"{where} is not {form}: {shorten_line(text)}")


def encoding(text: bytes, line: "int | None" = 1) -> "str | None":
    """What is wrong with the bytes of a line themselves, if something is; each has its own remedy."""
    if line == 1 and text.startswith((b"\xff\xfe", b"\xfe\xff")):
        return "the text is UTF-16: make it UTF-8 by `iconv -f UTF-16 -t UTF-8`"
    if line == 1 and text.startswith(b"\xef\xbb\xbf"):
        return r"the text begins with a byte order mark (BOM): remove it by `sed '1s/^\xef\xbb\xbf//'`"
    if text.endswith(b"\r") and not binary(text[:-1]):
        return rf"line {line} ends with a carriage return, as on Windows (CRLF): remove them by `sed 's/\r$//'`"
    if binary(text):
        return f"line {line} has bytes that are no text: the file is binary" if line else "it is binary, and no text"
    return None


def binary(text: bytes) -> bool:
    try:
        return not re.fullmatch(r"[\t\x20-\x7e\x80-\U0010ffff]*", text.decode())
    except UnicodeDecodeError:
        return True
