"""What the commands of a fleet print: paragraphs, tables and JSON."""

import json
import math
from collections.abc import Iterable, Sequence
from typing import Any, Optional

from mte_scripts import text_layout
from mte_scripts.entry_point import printable


def wrap_paragraph(text: str) -> str:
    return "".join(f"{line}\n" for line in text_layout.wrap_text(text))


def alert_text(lines: "Iterable[str]") -> str:
    """A paragraph for each line that is to be looked at."""
    return "".join(wrap_paragraph(f"! {printable(line)}") for line in lines)


def table_text(rows: "Sequence[Sequence[str]]", most: Optional[int] = None) -> str:
    return "".join(f"{line}\n" for line in text_layout.columns(rows, most=most))


def percent_text(percent: Optional[float]) -> str:
    """A percentage above a bound; none or one without end is of a table that does not serve all sizes."""
    return "not served" if percent in (None, math.inf) else f"{percent:,.2f}%"


def json_text(value: Any) -> str:
    """A value as JSON: a named tuple with its names, and a number without end, which JSON has not, as null."""
    return json.dumps(json_value(value), indent=1) + "\n"


def json_value(value: Any) -> Any:
    if hasattr(value, "_asdict"):
        value = value._asdict()
    if isinstance(value, dict):
        return {name: json_value(each) for name, each in value.items()}
    if isinstance(value, (list, tuple)):
        return [*map(json_value, value)]
    return None if value == math.inf else value
