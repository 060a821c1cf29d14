"""The result of a step of a rollout: what machines with the new table take beside those with the old one, or before
they had it."""

from typing import NamedTuple, Optional

from mte_scripts import text_files
from mte_scripts.entry_point import Refusal
from mte_scripts.fleet import rows, samples
from mte_scripts.fleet.machine_values import BEFORE, FEWEST, Amounts, Machine, Values, parse_amounts, read_fields
from mte_scripts.fleet.machine_values import value_machines
from mte_scripts.fleet.rollout_plan import Plan
from mte_scripts.fleet.samples import Difference, Group
from mte_scripts.fleet.suspicions import AGAIN_LINES, Suspicion, Suspicions

COLUMNS = "program machine digest day resident peak requests seconds".split()
OLD, NEW = "old", "new"


class Measure(NamedTuple):
    """What is measured of a machine."""

    name: str
    unit: str
    is_rise: bool  # whether its condition is on a rise, or on a saving


MEASURES = (
    Measure("saving", "resident set, KiB", False),
    Measure("peak", "peak, KiB", True),
    Measure("time", "ms for a request", True),
)


class Change(NamedTuple):
    """Of a measure the means of the old and the new table, and by which share the new one is below it, or above it for
    a rise."""

    measure: Measure
    old: float
    new: float
    share: Difference


def parse_measures(words: "list[str]") -> Amounts:
    """The resident set, the peak, and the milliseconds for a request."""
    resident, peak, requests, seconds = parse_amounts(words, "KiB, requests and seconds")
    if not requests:
        raise Suspicion("a machine that served no request", " ".join(words))
    return resident, peak, 1000 * seconds / requests


def group_of(plan: Plan, step: int, since: str, words: "list[str]") -> "Optional[str]":
    """The group of a line; None of one that is of an earlier step."""
    key, digest, day = (words[0], words[1]), words[2], words[3]
    if key not in plan.machines:
        raise Suspicion("a machine that the rollout does not have", f"{key[1]} of {key[0]}")
    if digest not in (plan.old.digest, plan.new.digest):
        raise Suspicion("a table that is neither the old nor the new one", digest)
    rows.check_day(day)
    if day < since:
        return BEFORE if digest == plan.old.digest else None
    if digest != plan.table_at(step, key).digest:
        raise Suspicion("a machine that runs another table than it has to at this step", f"{key[1]} of {key[0]}")
    return NEW if digest == plan.new.digest else OLD


def read_values(plan: Plan, step: int, since: str, path: str, found: Suspicions) -> Values:
    """The values of the machines, which are all changes since before, or none."""
    machines: "dict[Machine, dict[str, dict[str, Amounts]]]" = {}

    def parse_line(words: "list[str]") -> "tuple[Optional[str], Amounts, list[str]]":
        return group_of(plan, step, since, words), parse_measures(words[4:]), words

    given = read_fields(path, {len(COLUMNS): ", ".join(COLUMNS)}, found)
    for group, amounts, words in found.keep_good(path, ((at, text, (words,)) for at, text, words in given), parse_line):
        if group:
            days = machines.setdefault((words[0], words[1]), {}).setdefault(group, {})
            found.repeats[AGAIN_LINES] += words[3] in days
            days[words[3]] = amounts
    if not machines:
        raise found.refuse_all(f"line of {text_files.input_name(path)}")
    values = value_machines(machines, len(MEASURES))
    found.loads["machines without a line before this step, which are left out"] += values.without
    return values


def pair_groups(values: Values, at: int, found: Suspicions) -> "list[tuple[Group, Group]]":
    """Of a measure the two groups of each program. Where no machine has the old table any more, the second one is what
    the same machines took before."""
    is_last = not any(OLD in groups for groups in values.by_program.values())
    if is_last and not values.before:
        why = "no machine has the old table, and no line is of a day before this step"
        raise Refusal(3, f"{why}: nothing is there to compare with")
    pairs = []
    for program, groups in sorted(values.by_program.items()):
        old, new = ([amounts[at] for amounts in groups.get(group, ())] for group in (OLD, NEW))
        number = len(old) + len(new)
        old = [0.0] * len(new) if is_last else old
        if min(len(new), len(old)) >= FEWEST:
            pairs.append((samples.group_of(old), samples.group_of(new)))
        elif not at:
            found.loads[f"machines of {program} are left out: a group of it has fewer than {FEWEST}"] += number
    if not pairs:
        both = f"{FEWEST} machines with the new table and {FEWEST} with the old one"
        raise Refusal(3, f"no program has {both} that can count")
    return pairs


def read_changes(plan: Plan, step: int, since: str, path: str, level: float, found: Suspicions) -> "list[Change]":
    """What the new table changes of each measure."""
    values, changes = read_values(plan, step, since, path, found), []
    for at, measure in enumerate(MEASURES):
        pairs = pair_groups(values, at, found)
        saving = samples.difference(pairs, level)
        old = values.mean_before(at) if values.before else samples.first_mean(pairs)
        share = saving.divide(-(old or 1.0) if measure.is_rise else old or 1.0)
        changes.append(Change(measure, old, old - saving.mean, share))
    return changes
