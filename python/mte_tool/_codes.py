"""The ends of calls, and the codes of docs/FORMATS.md.

Written by scripts/tests/formats from scripts/mte_scripts/formats.py.
"""

from mte_tool._numbers import Number, end_sentence, code_name, code_sentence


class End(Number):
    """How a call ended."""

    DONE = 0
    NO = 1
    REFUSED = 2
    OUT_OF_MEMORY = 3
    BAD_OPTION = 4
    MISUSE = 5

    @property
    def sentence(self) -> str:
        """What it means."""
        return end_sentence(self)


class Code(Number):
    """Why an input is refused, why a verdict is no, or why the heap or the machine refuses a call. One that a later library has is a
    member too, without a name."""

    NONE = 0
    TOO_MANY_CLASSES = 20
    CLASS_OUT_OF_RANGE = 21
    CLASSES_NOT_ASCENDING = 22
    BAD_CLASS_LINE = 23
    BAD_COUNT_LINE = 30
    SIZES_NOT_ASCENDING = 31
    COUNT_OUT_OF_RANGE = 32
    COUNT_FULL = 33
    BAD_SNAPSHOTS = 34
    WRONG_LENGTH = 35
    BAD_FIT = 36
    BAD_TIMELINE = 37
    SIZE_NOT_LIVE = 38
    OFF_STEP = 39
    OVER_LIMIT = 40
    NOT_SERVING = 41
    WASTE_WRONG = 42
    SHAPE = 43
    LAST_CLASS = 44
    STAGE_DROP = 45
    EDGE = 46
    NOT_TIGHT = 47
    BAD_SHEET = 48
    FOOTPRINT_WRONG = 49
    UNMAPPED = 50
    ALIGNMENT = 51
    TAG_CHECK = 52
    NOT_MOMENTS = 53
    LARGE = 60
    NO_CLASS = 61
    EXHAUSTED = 62
    MISPLACED = 63
    CHUNK_NOT_LIVE = 64
    WRONG_TAG = 65
    BAD_WORD = 70
    BAD_NUMBER = 71
    NUMBER_OUT_OF_RANGE = 72
    LINE_TOO_LONG = 73
    TOO_MANY_EVENTS = 74
    INPUT_TOO_LONG = 80
    READ_FAULT = 81
    WRITE_FAULT = 82
    BAD_OPTION = 83

    @property
    def word(self) -> str:
        """The word after its number in the text of a refusal, as BadLine; empty if it is no code."""
        return code_name(self)

    @property
    def sentence(self) -> str:
        """What it means."""
        return code_sentence(self)
