"""Calls over texts."""

import ctypes
import os
from typing import NamedTuple, Union

from mte_tool import _c, _calls
from mte_tool._calls import Cost, Fit, Verdict
from mte_tool._codes import Code

Bytes = Union[bytes, bytearray, memoryview, str, "os.PathLike[str]"]


class Answer(NamedTuple):
    """What a call over texts gave."""

    is_yes: bool
    text: bytes
    result: _c.Result

    def cost(self) -> Cost:
        return Cost(self.is_yes, self.result.bytes, self.result.at)

    def fit(self) -> Fit:
        return Fit(self.text, self.is_yes)

    def verdict(self) -> Verdict:
        return Verdict(self.is_yes, Code(self.result.code))


def as_bytes(text: Bytes) -> bytes:
    """The bytes of a text, or of the file at a path."""
    if isinstance(text, os.PathLike):
        with open(text, "rb") as file:
            return file.read()
    if isinstance(text, str):
        return text.encode()
    try:
        return bytes(memoryview(text))
    except TypeError:  # bytes would make zeros of a number
        raise TypeError(f"a text is bytes, a str or a path, and no {type(text).__name__}") from None


def call_over_texts(name: str, *inputs: Bytes, **given: int) -> Answer:
    """Makes a call over a text, or over a first text and another."""
    return answer_of(name, inputs, **given)


def answer_of(name: str, inputs: "tuple[Bytes, ...]", *more: object, **given: int) -> Answer:
    """The same, with more that the call fills after the text."""
    data = [part for text in map(as_bytes, inputs) for part in (text, len(text))]
    options, text, result = _calls.options(**given), _c.Text(), _c.Result()
    function = getattr(_c.library, f"mte_tool_{name}")
    end = function(ctypes.byref(options), *data, ctypes.byref(text), *more, ctypes.byref(result))
    try:
        answer = ctypes.string_at(text.bytes, text.length)
    finally:
        _c.library.mte_tool_text_free(ctypes.byref(text))
    return Answer(_calls.is_yes(end, result, answer), answer, result)
