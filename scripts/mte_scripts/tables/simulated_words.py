"""How what is simulated of Scudo (release_model.py) is said: a prediction for the first line, a clause beside it."""

from mte_scripts.tables import figures
from mte_scripts.tables.figures import kibibytes, percent
from mte_scripts.tables.release_model import USUAL_INTERVAL, Saving


def range_text(ends: "list[str]", unit: str) -> str:
    """One text where both ends read the same; else both, with the unit after the last one alone."""
    first, last = ends
    return last if first == last else f"{first.removesuffix(unit)} to {last}"


def difference(saved: Saving) -> str:
    """So many KiB less or more; of a range its ends."""
    low, high = saved.ends()
    if saved.is_mixed():
        return f"from {kibibytes(-low)} more to {kibibytes(high)} less"
    ends = [kibibytes(each) for each in saved.sizes()]
    return f"{range_text(ends, ' KiB')} {'less' if high > 0 else 'more'}"


def first_line(found: figures.Figures, saved: Saving, process: int) -> str:
    """The table of the map and what it is predicted to save: of the bytes of the process, where these were measured."""
    may_help = not process or figures.helps(saved.ends()[1], process)
    text = f"{figures.NO_HELP * (not may_help)}{found.first.name}, {difference(saved)} than {found.others[0].name}"
    if process:
        ends = [percent(each, process) for each in (saved.ends() if saved.is_mixed() else saved.sizes())]
        text += f", {range_text(ends, '%')} of the process"
    return f"{text}{set_by(saved, ', with ')}{': measure' * (may_help and saved.is_unsure())}"


def set_by(saved: Saving, before: str) -> str:
    """By what Scudo is set, where SCUDO_OPTIONS says it; else nothing."""
    return "" if saved.interval == USUAL_INTERVAL else f"{before}release_to_os_interval_ms={saved.interval}"


def clause(found: figures.Figures, saved: "Saving | None") -> str:
    """What the map saves as Scudo is set, with what Android's table does, or on what a range rests; empty without a
    simulation."""
    if not saved:
        return ""
    setting = set_by(saved, "by ") or "by default"
    if saved.android is None:
        more, rests = "", "which block of a size each free gives back, how much of each is written"
    else:
        more = f", and {found.others[1].name} {difference(Saving(*saved.android, None, saved.interval))}"
        rests = "how much of each block is written"
    rests = f"by {f'{rests}, and ' * (saved.low != saved.high)}how far the model may be off"
    return f"simulated page by page, as Scudo gives memory back {setting}, the table takes {difference(saved)}{more}, {rests}; "
