"""Lines of a terminal: wrapped texts, columns, and the begin of a line for a message."""

import itertools
import textwrap
from collections.abc import Sequence



def wrap_text(text: str, width: int = 80, indent: str = "") -> "list[str]":
    """A text in lines of at most so many columns; those after the first are indented."""
    return textwrap.wrap(text, width, subsequent_indent=indent, break_long_words=False, break_on_hyphens=False)


def columns(rows: "Sequence[Sequence[str]]", left: int = 0, most: "int | None" = None) -> "list[str]":
    """Rows of cells as lines, all cells to the right but those of the column LEFT. The last cell of a row that is shorter than the first one may
    be wider than its column. Where a line would have more than MOST characters, the first cells lose their begin."""
    in_columns = [row if len(row) == len(rows[0]) else row[:-1] for row in rows]
    widths = [max(map(len, column)) for column in itertools.zip_longest(*in_columns, fillvalue="")]
    if most is not None:
        widths[0] = min(widths[0], max(most - sum(widths[1:]) - 2 * len(widths[1:]), 12))
    lines = []
    for row in rows:
        first = row[0] if len(row[0]) <= widths[0] else ".." + row[0][2 - widths[0] :]
        cells = enumerate(zip([first, *row[1:]], widths))
        lines.append("  ".join(cell.ljust(width) if at == left else cell.rjust(width) for at, (cell, width) in cells).rstrip())
    return lines


def shorten_line(text: bytes) -> str:
    """The begin of a line for a message."""
    words = text[:1000].decode(errors="replace")
    return words if len(words) <= 60 else words[:60] + ".."
