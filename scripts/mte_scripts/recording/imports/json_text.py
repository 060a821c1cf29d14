"""JSON of other tools, in bounded memory, and its parts."""

import json
import re
from typing import Any, NoReturn

from mte_scripts.recording.imports.source import Wrong

MOST_VALUES = 3_000_000
MOST_DIGITS = 19
KINDS = {list: "a list", dict: "an object", int: "a number", str: "a text"}


def refuse(word: str) -> NoReturn:
    raise Wrong(f"it has a number that nothing counts, {word[:40]}")


def whole_number(word: str) -> int:
    return int(word) if len(word) <= MOST_DIGITS else refuse(word)


def parse_json(data: bytes, begin: re.Pattern = re.compile(rb"\{")) -> Any:
    """The value that begins so. What stands before, such as a program's own output, and after it is left out."""
    if sum(map(data.count, (b",", b"[", b"{"))) > MOST_VALUES:
        raise Wrong(f"it has more than {MOST_VALUES:,} values")
    match = begin.search(data)
    try:
        decoder = json.JSONDecoder(parse_int=whole_number, parse_constant=refuse)
        # by the encoding that makes no byte wider; of the texts only the names of members matter
        return decoder.raw_decode(data.decode("latin-1"), match.start() if match else 0)[0]
    except RecursionError:
        raise Wrong("it is no JSON of this format: its values are in one another too deep") from None
    except ValueError as error:
        raise Wrong(f"it is no whole JSON, perhaps cut off: {error}") from None


def member(value: object, name: str, kind: type) -> Any:
    """A part of an object, of this kind."""
    found = value.get(name) if isinstance(value, dict) else None
    if not isinstance(found, kind):
        raise Wrong(f"it has no `{name}` that is {KINDS[kind]}")
    return found


def natural(value: object) -> int:
    if not isinstance(value, int) or isinstance(value, bool) or value < 0:
        raise Wrong(f"it has {str(value)[:40]} where a number of blocks or bytes is")
    return value
