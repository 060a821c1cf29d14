"""The plan of a rollout: two tables, the shares of its steps, and the step at which each machine gets the new table."""

import argparse
import bisect
import json
import math
import operator
import re
from collections import Counter
from collections.abc import Iterable, Sequence
from typing import Any, NamedTuple

from mte_scripts import certificate_texts, text_files
from mte_scripts.entry_point import Refusal
from mte_scripts.fleet.machine_values import FEWEST, Machine, shuffle_machines
from mte_scripts.tables import table_mark

FORM = "mte_tool rollout 1"
MOST_STEPS = 20


class Table(NamedTuple):
    """A table of the rollout."""

    version: str
    digest: str
    classes: "list[int]"


class Plan(NamedTuple):
    """The machines by program and name, with the number of the step at which each gets the new table, from 1 on."""

    old: Table
    new: Table
    steps: "list[float]"  # percentages of the machines that have it then
    machines: "dict[Machine, int]"

    def table_at(self, step: int, key: Machine) -> Table:
        """The table that a machine has to run from this step on; of step 0 the old one."""
        return self.new if self.machines[key] <= step else self.old

    def text(self) -> str:
        head = json.dumps({"form": FORM, "old": self.old._asdict(), "new": self.new._asdict(), "steps": self.steps})
        lines = ",\n".join(json.dumps([*key, step]) for key, step in sorted(self.machines.items()))
        return f'{head[:-1]}, "machines": [\n{lines}\n]}}\n'


def parse_steps(word: str) -> "list[float]":
    """The steps, as an option takes them."""
    shares = word.split(",")
    good = all(re.fullmatch(r"[0-9]{1,3}(\.[0-9]{1,3})?", share) for share in shares) and len(shares) <= MOST_STEPS
    found = [float(share) for share in shares] if good else []
    if not found or found[-1] != 100 or not 0 < found[0] or any(map(operator.ge, found, found[1:])):
        form = "percentages that ascend and end with 100, as 5,20,50,100"
        raise argparse.ArgumentTypeError(f"takes {form}, and not {word}")
    return found


def read_table(word: str) -> Table:
    """The table of a word VERSION=FILE."""
    version, mark, path = word.partition("=")
    if not mark or not path or not re.fullmatch(table_mark.NAME, version):
        raise Refusal(2, f"a table is VERSION=FILE, as v7=new.classes, and not {word}")
    classes = certificate_texts.class_line(path)
    return Table(version, table_mark.digest_of(classes), classes)


def assign_steps(machines: "Iterable[list[str]]", steps: Sequence[float], seed: int) -> "dict[Machine, int]":
    """The step of each machine: by chance, so many of each program's as the shares say, rounded up."""
    found = {}
    for program, order, _ in shuffle_machines(machines, seed):
        until = [math.ceil(len(order) * share / 100 - 1e-9) for share in steps]
        for at, machine in enumerate(order):
            found[program, machine] = 1 + bisect.bisect_right(until, at)
    return found


def small_programs(plan: Plan) -> "list[str]":
    """Those whose first step can't be read, each with its machines then."""
    first: "Counter[str]" = Counter()
    for (program, _), step in plan.machines.items():
        first[program] += step == 1
    return [f"{program} ({number})" for program, number in sorted(first.items()) if number < FEWEST]


def read_plan(path: str) -> Plan:
    """The plan in a file that `plan` printed."""
    name = text_files.input_name(path)
    try:
        said: Any = json.loads(text_files.read(path))
        if said["form"] != FORM:
            raise ValueError
        tables = [
            Table(str(each["version"]), str(each["digest"]), [*map(int, each["classes"])])
            for each in (said["old"], said["new"])
        ]
        machines = {(str(program), str(machine)): int(step) for program, machine, step in said["machines"]}
        plan = Plan(tables[0], tables[1], [*map(float, said["steps"])], machines)
    except (ValueError, KeyError, TypeError, RecursionError):
        raise Refusal(2, f"{name} is no plan of `fleet_rollout plan`") from None
    for table in tables:
        if table.digest != table_mark.digest_of(table.classes):
            raise Refusal(2, f"{name}: the digest of {table.version} is not that of its classes")
    if not all(1 <= step <= len(plan.steps) for step in machines.values()) or not machines:
        raise Refusal(2, f"{name}: a machine's step is none of the {len(plan.steps)}")
    return plan
