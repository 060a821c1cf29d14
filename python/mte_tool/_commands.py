"""The commands over texts. A text is bytes, a str of ASCII or the path of a file, and has at most 67,108,864 bytes.

Written by scripts/tests/formats from scripts/mte_scripts/formats.py.
"""

from mte_tool._calls import Cost, Fit, Verdict
from mte_tool._texts import Bytes, call_over_texts


def score(classes: Bytes, profile: Bytes) -> Cost:
    """What the table of a class line, such as `classes 2 8`, wastes on a profile."""
    return call_over_texts("score", classes, profile).cost()


def tune(profile: Bytes, limit: int, step: int = 1, largest_class: int = 0) -> bytes:
    """The sheet of the table of least waste on a profile.

    limit: the most classes of the table, 1 to 32
    step: the granules that each class is a multiple of: 1, 2, 4 or 8
    largest_class: whether the table must have class 1024: 0 or 1
    """
    return call_over_texts("tune", profile, limit=limit, step=step, largest_class=largest_class).text


def check(sheet: Bytes, profile: Bytes) -> Verdict:
    """Whether a sheet shows that no table of its limit, step and forced class wastes less on a profile."""
    return call_over_texts("check", sheet, profile).verdict()


def footprint(classes: Bytes, history: Bytes) -> Cost:
    """What the table of a class line takes of memory over a history or a timeline."""
    return call_over_texts("footprint", classes, history).cost()


def fit(history: Bytes, limit: int, step: int = 1, largest_class: int = 0) -> Fit:
    """The fit of the table of least footprint over a history or a timeline.

    limit: the most classes of the table, 1 to 32
    step: the granules that each class is a multiple of: 1, 2, 4 or 8
    largest_class: whether the table must have class 1024: 0 or 1
    """
    return call_over_texts("fit", history, limit=limit, step=step, largest_class=largest_class).fit()


def check_fit(fit: Bytes, history: Bytes) -> Verdict:
    """Whether a fit shows that no table of its limit, step and forced class takes less over a history or a timeline."""
    return call_over_texts("check_fit", fit, history).verdict()


def profile(trace: Bytes) -> bytes:
    """The profile of a trace."""
    return call_over_texts("profile", trace).text


def replay(classes: Bytes, trace: Bytes, *, granules: int = 65_536, quarantine: int = 65_536, seed: int = 1) -> bytes:
    """The report of the tagged heap over the table of a class line on a trace.

    granules: the granules of the heap, 64 to 262144
    quarantine: the bytes of freed blocks that the heap holds back, 0 to 4194304
    seed: the seed of the random tags, 1 to 65535
    """
    return call_over_texts("replay", classes, trace, granules=granules, quarantine=quarantine, seed=seed).text


def run(trace: Bytes, limit: int, step: int = 1, *, granules: int = 65_536, quarantine: int = 65_536, seed: int = 1) -> bytes:
    """The sheet of a trace's profile, and then the report with its table.

    limit: the most classes of the table, 1 to 32
    step: the granules that each class is a multiple of: 1, 2, 4 or 8
    granules: the granules of the heap, 64 to 262144
    quarantine: the bytes of freed blocks that the heap holds back, 0 to 4194304
    seed: the seed of the random tags, 1 to 65535
    """
    return call_over_texts("run", trace, limit=limit, step=step, granules=granules, quarantine=quarantine, seed=seed).text


def peaks(classes: Bytes, timeline: Bytes) -> bytes:
    """The most live blocks of each class of a class line over a timeline, and when."""
    return call_over_texts("peaks", classes, timeline).text
