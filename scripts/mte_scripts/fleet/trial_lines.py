"""The result of a trial: the lines of the machines in both groups, what of them can't count, and the values of each machine."""

import statistics
from typing import NamedTuple, Optional

from mte_scripts import text_files
from mte_scripts.fleet import rows
from mte_scripts.fleet.machine_values import BEFORE, MACHINES, Amounts, Machine, Values, parse_amounts, read_fields
from mte_scripts.fleet.machine_values import value_machines
from mte_scripts.fleet.suspicions import AGAIN_LINES, Suspicion, Suspicions

COLUMNS = "program machine group day resident requests".split()
GROUPS = ("control", "tuned")
OTHER_UNIT = 100  # a resident set so many times the median of its program, or that part of it, is in another unit
MOST_MISSING = 0.05  # of the lines of a group, before it is said


class Line(NamedTuple):
    """What a machine took on a day, in KiB, and what it served; and which line of the file says so."""

    key: Machine
    group: str
    day: str
    amounts: Amounts
    at: int
    text: bytes


def parse_line(at: int, text: bytes, words: "list[str]") -> Line:
    program, machine, group, day, *amounts = words
    if group not in (*GROUPS, BEFORE):
        raise Suspicion(f"a group that is none of {', '.join(GROUPS)}, {BEFORE}", group)
    rows.check_day(day)
    return Line((program, machine), group, day, tuple(parse_amounts(amounts, "KiB and requests")), at, text)


def check_unit(line: Line, median: float) -> Line:
    """Refuses a line that is far from the median of its program: its resident set is in bytes, or in MiB."""
    resident, (_, machine) = line.amounts[0], line.key
    if not median / OTHER_UNIT <= resident <= median * OTHER_UNIT:
        times = f"over {OTHER_UNIT} times" if resident > median else f"less than a {OTHER_UNIT}th of"
        what = f"{resident:,.0f} KiB of {machine}, and the median is {median:,.0f}"
        raise Suspicion(f"a resident set {times} the median of its program: in another unit than KiB", what)
    return line


def check_group(line: Line, assigned: str, is_in_both: bool) -> Line:
    """Refuses a line of another group than the machine was assigned to, or of a machine in both where that is not known."""
    what = "{1} of {0}".format(*line.key)
    if assigned and line.group not in (assigned, BEFORE):
        raise Suspicion("a group that is not the assigned one", what)
    if not assigned and is_in_both:
        raise Suspicion("a machine that is in both groups", what)
    return line


def read_lines(path: str, found: Suspicions) -> "list[Line]":
    """The lines that can count: of two of a machine, a group and a day the last one."""
    given = read_fields(path, {len(COLUMNS): ", ".join(COLUMNS)}, found)
    lines = [*found.keep_good(path, ((*each[:2], each) for each in given), parse_line)]
    by_program = rows.group_pairs((line.key[0], line.amounts[0]) for line in lines)
    medians = {program: statistics.median(values) for program, values in by_program.items()}
    lines = [*found.keep_good(path, ((line.at, line.text, (line, medians[line.key[0]])) for line in lines), check_unit)]
    last = {line[:3]: line for line in lines}
    found.repeats[AGAIN_LINES] += len(lines) - len(last)
    return list(last.values())


def read_groups(path: str, found: Suspicions) -> "dict[Machine, str]":
    """The group of each program and machine, as `assign` prints them; empty where the lines have none."""
    form = {**MACHINES, 3: "program, machine and group"}
    return {(words[0], words[1]): "".join(words[2:]) for _, _, words in read_fields(path, form, found)}


def read_values(path: str, found: Suspicions, groups: "Optional[str]" = None) -> "tuple[Values, list[str]]":
    """The values of the machines, their resident sets in KiB or the changes of these and their requests; and what is to
    be said of lines that did not come. GROUPS is the file of those that were assigned."""
    assigned = read_groups(groups, found) if groups else {}
    lines = read_lines(path, found)
    in_groups = rows.group_pairs((line.key, line.group) for line in lines)
    is_in_both = {key: len({*own} - {BEFORE}) > 1 for key, own in in_groups.items()}
    checked = ((line.at, line.text, (line, assigned.get(line.key, ""), is_in_both[line.key])) for line in lines)
    kept = [*found.keep_good(path, checked, check_group)]
    if not kept:
        raise found.refuse_all(f"line of {text_files.input_name(path)}")
    machines: "dict[Machine, dict[str, dict[str, Amounts]]]" = {}
    for line in kept:
        machines.setdefault(line.key, {}).setdefault(line.group, {})[line.day] = line.amounts
    values = value_machines(machines, 1)
    said = missing_lines(kept, assigned)
    if values.without:
        said.append(f"{values.without:,} of {values.tried:,} machines have no line before the trial, and are left out")
    return values, said


def missing_lines(lines: "list[Line]", assigned: "dict[Machine, str]") -> "list[str]":
    """Of each group how many lines did not come: one for each of its machines on each day of the trial."""
    said = []
    days = {line.day for line in lines if line.group != BEFORE}
    for group in GROUPS:
        own = {line.key for line in lines if line.group == group}
        machines = own | {key for key, each in assigned.items() if each == group}
        wanted, came = len(machines) * len(days), sum(line.group == group for line in lines)
        if wanted and came < wanted * (1 - MOST_MISSING):
            share = 100 * (wanted - came) / wanted
            said.append(f"{group}: {came:,} of {wanted:,} lines can count, {share:.1f}% are missing; {len(machines - own):,} machines have none.")
    return said
