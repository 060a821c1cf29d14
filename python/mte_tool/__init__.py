"""The engines of mte_tool: the block sizes that lose the least for a program's requests, with certificates, and a heap with memory tags.

The texts are those of the program's commands, whose formats docs/FORMATS.md has:

>>> import mte_tool
>>> profile = "16 500\\n24 70\\n100 3\\n"
>>> sheet = mte_tool.tune(profile, limit=2)
>>> print(sheet.decode().splitlines()[0])
classes 2 8
>>> mte_tool.check(sheet, profile).is_optimal
True

Whoever counts requests has numbers and no text:

>>> table = mte_tool.tune_profile({16: 500, 24: 70, 100: 3}, limit=2)
>>> table.classes, table.bytes
([2, 8], 6196)

What can't be answered raises Error, with the code and where it is:

>>> mte_tool.tune("16 500\\n16 1\\n", limit=2)
Traceback (most recent call last):
    ..
mte_tool.Error: 31 NotAscending line 2
>>> try:
...     mte_tool.tune("16 500\\n16 1\\n", limit=2)
... except mte_tool.Error as error:
...     print(error.code == mte_tool.Code.SIZES_NOT_ASCENDING, error.line, error.code.sentence)
True 2 a size is not above the one before it

The shared library is the one that MTE_TOOL_LIBRARY names, the one beside this package, or the one that the loader finds. Without one the
import raises ImportError. Calls may be made from many threads, but not on one Heap at a time.
"""

from mte_tool._arrays import (
    Table, check_fit_history, check_fit_timeline, check_profile, class_of, fit_history, fit_timeline, footprint_history,
    footprint_timeline, score_profile, tune_profile,
)  # fmt: skip
from mte_tool._calls import CheckAnswer, Claim, Cost, Error, Fit, Verdict, version, version_number
from mte_tool._claims import check_claim, check_fit_claim
from mte_tool._codes import Code, End
from mte_tool._commands import check, check_fit, fit, footprint, peaks, profile, replay, run, score, tune
from mte_tool._heap import Heap, Outcome

__version__ = "1.0.0"
__all__ = [
    "CheckAnswer", "Claim", "Code", "Cost", "End", "Error", "Fit", "Heap", "Outcome", "Table", "Verdict", "check",
    "check_claim", "check_fit", "check_fit_claim", "check_fit_history", "check_fit_timeline", "check_profile", "class_of",
    "fit", "fit_history", "fit_timeline", "footprint", "footprint_history", "footprint_timeline", "peaks", "profile",
    "replay", "run", "score", "score_profile", "tune", "tune_profile", "version", "version_number",
]  # fmt: skip
