"""What a check showed, as numbers."""

import ctypes

from mte_tool import _c, _calls
from mte_tool._calls import CheckAnswer, Claim
from mte_tool._codes import Code, End
from mte_tool._texts import Bytes, answer_of

KINDS = (None, "profile", "history", "timeline")


def claim_of(found: _c.Claim, text: bytes) -> Claim:
    """A claim, with its line of the answer."""
    kind = KINDS[found.kind] if found.kind < len(KINDS) else None
    if kind is None:
        raise _calls.Error("what the check showed is of no known kind", End.MISUSE)
    numbers = {name: getattr(found, name) for name in Claim._fields[1:-1]}
    return Claim(kind=kind, line=text.decode().splitlines()[1], **numbers)


def check_with_claim(name: str, first: Bytes, input: Bytes) -> CheckAnswer:
    """Makes a check that also gives what it showed."""
    found = _c.Claim()
    answer = answer_of(name, (first, input), ctypes.byref(found))
    claim = claim_of(found, answer.text) if answer.is_yes else None
    return CheckAnswer(answer.is_yes, Code(answer.result.code), claim)


def check_claim(sheet: Bytes, profile: Bytes) -> CheckAnswer:
    """Whether a sheet shows that its table is one of least waste on a profile, and of which tables that holds.

    >>> sheet = "classes 2 4\\nlimit 2\\nwaste 16\\nrow 48 16 0\\nrow 16 0 0\\n"
    >>> claim = check_claim(sheet, "16 1\\n32 1\\n48 1\\n").claim
    >>> claim.cost, claim.limit, claim.step, claim.forced, claim.sizes, claim.requests
    (16, 2, 1, 0, 3, 3)
    >>> print(claim)
    claim waste 16 limit 2 step 1 forced 0 sizes 3 requests 3 bytes 96 large 0
    """
    return check_with_claim("check_claim", sheet, profile)


def check_fit_claim(fit: Bytes, history: Bytes) -> CheckAnswer:
    """Whether a fit shows that its table is one of least footprint over a history or a timeline, and of which tables
    that holds."""
    return check_with_claim("check_fit_claim", fit, history)
