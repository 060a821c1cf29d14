"""What all calls share: options, how a call ended, and what it found."""

import ctypes
from typing import Any, Callable, NamedTuple, Optional

from mte_tool import _c
from mte_tool._codes import Code, End
from mte_tool._formats import OPTIONS

MOST = 2**64 - 1


class Error(Exception):
    """Why a call gave no answer: the first fault of the input, or a sentence."""

    def __init__(self, text: str, end: int, code: int = 0, line: int = 0, at: int = 0):
        super().__init__(text)
        #: the input is refused, an option is out of its range, or the call is not as it has to be
        self.end = End(end)
        #: the code of the input's fault, as docs/FORMATS.md lists them; Code.NONE, which is 0, without one
        self.code = Code(code)
        #: the line of a text's fault, from 1 on; 0 without one
        self.line = line
        #: the index of the first faulty entry of numbers, from 0 on
        self.at = at

    def __reduce__(self) -> "tuple[Any, ...]":
        """For pickle, and so for what a pool of processes raises."""
        return Error, (str(self), self.end, self.code, self.line, self.at)


Error.__module__ = "mte_tool"


class Verdict(NamedTuple):
    """The verdict of a check."""

    #: whether it shows that no table within the limit and step, and with class 1024 if it is forced, costs less
    is_optimal: bool
    #: that of the condition that is not met; Code.NONE if it is optimal
    code: Code

    @property
    def sentence(self) -> str:
        """What it means."""
        return self.code.sentence if self.code else "optimal"


class Claim(NamedTuple):
    """What a check showed: of the tables of at most LIMIT classes, all multiples of STEP granules, that serve all that was
    counted, and that have class FORCED where it is not 0, none costs less than COST bytes, which the table itself does. As
    a str it is the line of the program's `check --claim`."""

    #: what was counted: "profile", "history" or "timeline"
    kind: str
    #: the waste on a profile, the footprint over a history or a timeline
    cost: int
    limit: int
    step: int
    forced: int
    #: of a profile: how many sizes it has, how often these were requested, the bytes of these requests, and the requests
    #: that are larger than all that a class serves, which are in none of the other numbers
    sizes: int
    requests: int
    bytes: int
    large: int
    #: of a history
    snapshots: int
    #: of a timeline
    events: int
    line: str

    def __str__(self) -> str:
        return self.line


class CheckAnswer(NamedTuple):
    """The verdict of a check with what it showed."""

    is_optimal: bool
    code: Code
    #: None unless it is optimal
    claim: Optional[Claim]


class Cost(NamedTuple):
    """What a table costs."""

    #: whether each counted size has a class
    serves: bool
    #: what it wastes, or takes of memory, in bytes, if it serves
    bytes: int
    #: else the least size without a class, in bytes
    least_size: int


class Fit(NamedTuple):
    """A fit as a text."""

    text: bytes
    #: True of a history; of a timeline False where the text says that it is not shown
    is_least: bool


def version() -> str:
    """The version of the library that is loaded."""
    return str(_c.library.mte_tool_version().decode())


def version_number() -> int:
    """The same as a number: 10000, 100 and 1 times its three."""
    return int(_c.library.mte_tool_version_number())


def whole(number: int, what: str) -> int:
    """A number that has to fit 64 bits, since no other one stands for it."""
    if not 0 <= number <= MOST:
        raise ValueError(f"{what} is from 0 to 2^64 - 1: {number}")
    return number


def options(**given: int) -> _c.Options:
    """The options as the library takes them, with the defaults of those that are not given: a number that 64 bits can't hold is out of its
    range, as others are."""
    return _c.Options(**{name: number if 0 <= number <= MOST else MOST for name, number in {**OPTIONS, **given}.items()})


def is_yes(end: int, result: _c.Result, text: Optional[bytes] = None) -> bool:
    """Raises unless there is an answer; whether it is a yes."""
    if end == End.OUT_OF_MEMORY:
        raise MemoryError(End.OUT_OF_MEMORY.sentence)
    if end not in (End.DONE, End.NO):
        said = text.decode() if text else Code(result.code).sentence if result.code else End(end).sentence
        raise Error(said, end, result.code, result.line, result.at)
    return end == End.DONE


def call_for_result(call: Callable[[object], Any]) -> "tuple[bool, _c.Result]":
    """Makes a call that takes a result last."""
    result = _c.Result()
    end = call(ctypes.byref(result))
    return is_yes(end, result), result
