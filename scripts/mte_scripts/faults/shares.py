"""The chance that a heap catches an error, and the words for it."""

from dataclasses import dataclass, field, replace
from fractions import Fraction

SHOWN = 10_000  # the greatest denominator that is shown as a fraction


@dataclass(frozen=True)
class Share:
    """The probability that an error is caught: exactly, or at least; a condition in words; and the reason, by which no two shares differ."""

    least: Fraction
    is_exact: bool
    unless: str = ""
    reason: str = field(default="", compare=False)

    def since(self, reason: str) -> "Share":
        return replace(self, reason=reason)


ALWAYS, NEVER, UNKNOWN = Share(Fraction(1), True), Share(Fraction(0), True), Share(Fraction(0), False)


def at_least(number: int, of: int) -> Share:
    return Share(Fraction(number, of), False)


def combine_shares(shares: "tuple[Share, ...]") -> Share:
    """The share of an entry: that at least one of its errors is caught, where it is not known how they hang together."""
    if all(share == NEVER for share in shares):
        return shares[0]
    best = max(shares, key=lambda share: (share.least, share.unless, not share.is_exact))
    return replace(best, is_exact=best == ALWAYS or (best.is_exact and len(set(shares)) == 1))


def in_words(share: Share, says: str = "") -> str:
    """The probability, and after how many runs it is seen first, in the mean, where each run draws all tags anew; and in brackets the reason,
    but of `always`."""
    if share.unless:
        return share.unless
    if share == ALWAYS:
        return "always"
    if share.least == 0:
        return ("never" if share.is_exact else "not derived") + (f" ({share.reason})" if share.reason else "")
    runs = f"{says[1:]} {float(1 / share.least):.2f} runs" if says else f"{float(1 / share.least):.2f}"
    return f"{'' if share.is_exact else 'at least '}{as_text(share.least)} ({runs}{f'; {share.reason}' if share.reason else ''})"


def as_text(number: Fraction) -> str:
    return f"{number.numerator}/{number.denominator}" if number.denominator <= SHOWN else f"{float(number):.6f}"


def as_value(share: Share) -> dict:
    """What a machine reads: the least probability as a fraction and as a number, whether it is exact, the condition, and the reason."""
    value = {"text": in_words(share, " seen after"), "exact": share.is_exact}
    if share != UNKNOWN and not share.unless:
        value |= {"least": float(share.least), "fraction": f"{share.least.numerator}/{share.least.denominator}"}
        value["runs_until_seen"] = float(1 / share.least) if share.least else None
    return value | ({"reason": share.reason} if share.reason else {})
