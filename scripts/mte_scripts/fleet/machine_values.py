"""What machines took on their days, by lines with tabs: those that can count, and the value of each machine, which is
the change since before where most machines have days before. And the order by chance in which machines get a table."""

import operator
import random
import re
import statistics
from collections.abc import Iterable, Iterator
from typing import NamedTuple

from mte_scripts import text_files
from mte_scripts.entry_point import Refusal
from mte_scripts.fleet import rows
from mte_scripts.fleet.suspicions import Suspicion, Suspicions

FEWEST = 5  # machines of a group
BEFORE = "before"  # the group of the days before
MACHINES = {2: "program and machine"}  # the form of a list of machines
Machine = tuple[str, str]  # its program and its name
Amounts = tuple[float, ...]  # of a day


def read_fields(path: str, form: "dict[int, str]", found: Suspicions) -> "Iterator[tuple[int, bytes, list[str]]]":
    """The lines of a file that have one of these numbers of fields, none of them empty: their numbers, texts and
    fields. The others are suspicions."""
    with text_files.open_input(path) as file:
        lines = text_files.lines_of(text_files.next_piece(file, path, None))
    if not lines:
        raise Refusal(3, f"{text_files.input_name(path)} has no line: did the command that writes it fail?")
    most = max(form)

    def split_line(line: bytes, at: int) -> "tuple[int, bytes, list[str]]":
        words = rows.split_fields(line, at)
        if len(words) not in form or not all(words):
            raise Suspicion(f"not the {most} fields {form[most]}, with tabs between", line.decode())
        return at, line, words

    return found.keep_good(path, ((at, line, (line, at)) for at, line in enumerate(lines, 1)), split_line)


def read_strictly(path: str, form: "dict[int, str]") -> "list[list[str]]":
    """The fields of the lines of a file that has no others."""
    found = Suspicions()
    fields = [words for _, _, words in read_fields(path, form, found)]
    if found.rows:
        raise Refusal(2, found.all_lines()[0])
    return fields


def parse_amounts(words: "list[str]", what: str) -> "Iterable[float]":
    if not all(re.fullmatch(r"[0-9]{1,15}(\.[0-9]{1,9})?", word) for word in words):
        raise Suspicion(f"no numbers of {what}", " ".join(words))
    return map(float, words)


def shuffle_machines(machines: "Iterable[list[str]]", seed: int) -> "Iterator[tuple[str, list[str], random.Random]]":
    """Each program with its machines in an order by chance, and that chance."""
    by_program: "dict[str, set[str]]" = {}
    for program, machine in machines:
        if machine in by_program.setdefault(program, set()):
            raise Refusal(2, f"the machine {machine} of {program} is there twice")
        by_program[program].add(machine)
    for program in sorted(by_program):
        chance, order = random.Random(f"{seed} {program}"), sorted(by_program[program])
        chance.shuffle(order)
        yield program, order, chance


class Values(NamedTuple):
    """By program and group the amounts of each machine, the means of its days. Where most machines have days before,
    some are changes since: BEFORE are the amounts then, and WITHOUT is how many of those that were TRIED have none, and
    are left out."""

    by_program: "dict[str, dict[str, list[Amounts]]]"
    before: "list[Amounts]"
    without: int
    tried: int

    def mean_before(self, at: int = 0) -> float:
        """Of the amounts at this place; 0 where the values are no changes."""
        return statistics.fmean(amounts[at] for amounts in self.before) if self.before else 0.0


def value_machines(machines: "dict[Machine, dict[str, dict[str, Amounts]]]", changing: int) -> Values:
    """The values of machines by their groups and days, of which the first so many amounts may be CHANGING since before;
    of a pilot, which has no other group, those before."""
    means = {
        key: {group: tuple(map(statistics.fmean, zip(*days.values()))) for group, days in groups.items()}
        for key, groups in machines.items()
    }
    is_pilot = all(groups.keys() == {BEFORE} for groups in means.values())
    tried = {key: groups for key, groups in means.items() if is_pilot or groups.keys() - {BEFORE}}
    without = sum(BEFORE not in groups for groups in tried.values())
    is_change = not is_pilot and 2 * without < len(tried)
    values: "dict[str, dict[str, list[Amounts]]]" = {}
    before = []
    for (program, _), groups in tried.items():
        group = next(iter(groups.keys() - {BEFORE}), BEFORE)
        amounts = groups[group]
        if is_change:
            if BEFORE not in groups:
                continue
            before.append(groups[BEFORE])
            amounts = (*map(operator.sub, amounts[:changing], before[-1]), *amounts[changing:])
        values.setdefault(program, {}).setdefault(group, []).append(amounts)
    return Values(values, before, without if is_change else 0, len(tried))
