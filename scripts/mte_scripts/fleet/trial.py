"""The trial of a new table on some machines: who gets it, how many show a saving, and what the result says. `fleet_trial --help` says
all."""

import argparse
import math
from collections.abc import Iterable
from typing import NamedTuple, Optional

from mte_scripts import certificate_texts, text_files
from mte_scripts.entry_point import Refusal, printable
from mte_scripts.fleet import loads, samples
from mte_scripts.fleet.command_words import run_step, take_options
from mte_scripts.fleet.machine_values import FEWEST, MACHINES, Values, read_strictly, shuffle_machines
from mte_scripts.fleet.report_text import alert_text, json_text, table_text, wrap_paragraph
from mte_scripts.fleet.samples import Difference, Group
from mte_scripts.fleet.suspicions import Suspicions
from mte_scripts.fleet.trial_lines import GROUPS, read_values

HELP = """\
Plan the trial of a new table on some machines beside others, and read its result: difference, interval and verdict.

Usage: fleet_trial assign [--seed N] [MACHINES]
       fleet_trial predict [--json] OLD NEW LOAD..
       fleet_trial plan --saving PERCENT (--spread PERCENT | --pilot RESULT) [--adjust] [--machines N] [--level P] [--power P]
       fleet_trial read [--predicted PERCENT] [--adjust] [--groups FILE] [--suspects FILE] [--level P] [--json] [RESULT]
                                          (standard input for `-`, or where there is no file)

assign takes lines of a program and a machine, with a tab between, and adds a third field, `control` or `tuned`: by chance, half of
each program's machines each. predict says how much less a machine takes with the table in the file NEW than with OLD, by the
footprints of histories, timelines or rows of these, as of fleet_regret: where the allocator gives nothing back, the resident set
falls by that. plan says how many machines each group wants. read says what a result shows.

  --seed N           assign: another choice; the same seed gives the same groups; 1 where it is left out
  --saving PERCENT   plan: the saving that is to show, as a share of the resident set
  --spread PERCENT   plan: the standard deviation of the resident sets of a program's machines, as a share of the mean
  --pilot RESULT     plan: measures this of any machines' values before the trial
  --machines N       plan: says also which saving N machines in each group show
  --predicted PERCENT
                     read: says also whether the predicted saving is within the interval
  --groups FILE      read: what assign printed; a line with another group can't count, and a machine without a line is missing
  --suspects FILE    read: write the lines that can't count into FILE: why, the file and its line, with tabs between, and the line
  --json             predict, read: print all as JSON
  --adjust           plan, read: compare at the same requests: of each program, less what the resident set grows with the requests,
                     by the slope that both groups have in common. It narrows the interval where jobs differ; choose it before the
                     trial, and not where the table could change what is served
  --level P          the chance that an interval has the true value, in percent; 95 where it is left out
  --power P          plan: the chance that the trial shows the saving, if it is so large, in percent; 90 where it is left out

A RESULT has lines of six fields with tabs between: program, machine, group, day, resident and requests. The group is `control`,
`tuned` or `before`; resident is the resident set in KiB, as the kernel has it (VmHWM of /proc/PID/status, or RssAnon at a set
hour), requests what the machine served then. The value of a machine is the mean of its days. Where most machines have days `before`
the trial too, it is the change since: this takes out what machines always differ by; those that have none are left out. A line can't
count whose day does not exist, whose resident set is in another unit than most of its program's, or whose machine is in both groups: it
is left out, and said. So are lines that did not come, where they are more than 5% of a group's machines and days.

The difference is that of the means, for each program and over all, each program with its share of the machines; its interval is
that of Welch. It rests on this: chance alone chose the groups, the machines do not depend on each other, each ran one table
throughout, and the groups are large enough for their means to be normal, some 30 machines, or fewer of even values. The verdict is
of all programs together: look once, at the end of the planned days.

Exit status:
  0  assign, predict, plan: it is printed; read: a saving is shown
  1  read: no saving is shown
  2  the words, a table, a load or a line are refused
  3  a group of a program has fewer than 5 machines, or the output can't be written

Examples:
  fleet_trial plan --saving 3 --spread 12
  fleet_trial read --predicted 3.4 result.tsv
"""


def assign_groups(machines: "Iterable[list[str]]", seed: int) -> str:
    """Each program's machines, half of them tuned; an odd one out goes to either group by chance."""
    lines = []
    for program, order, chance in shuffle_machines(machines, seed):
        first = len(order) // 2 + (len(order) % 2 and chance.randrange(2))
        lines += [(program, machine, GROUPS[at >= first]) for at, machine in enumerate(order)]
    return "".join("\t".join(line) + "\n" for line in sorted(lines))


def pair_groups(values: Values, at: int) -> "dict[str, tuple[Group, Group]]":
    """Of each program the groups control and tuned, by the amounts at this place."""
    found = {}
    for program, groups in sorted(values.by_program.items()):
        own = [[amounts[at] for amounts in groups.get(group, ())] for group in GROUPS]
        for group, each in zip(GROUPS, own):
            if len(each) < FEWEST:
                raise Refusal(3, f"the group {group} of {program} has {len(each)} machines, and wants {FEWEST} or more")
        found[program] = samples.group_of(own[0]), samples.group_of(own[1])
    return found


def adjust_requests(values: Values) -> Values:
    """The values that each machine would have with the mean requests of its program."""
    adjusted = {program: samples.adjust_for_covariate(groups) for program, groups in values.by_program.items()}
    return values._replace(by_program=adjusted)


class Row(NamedTuple):
    """Of a program: the two groups and their difference, in KiB."""

    program: str
    control: Group
    tuned: Group
    saving_kib: Difference

    def cells(self) -> "tuple[str, ...]":
        _, first, second, (mean, low, high) = self
        numbers = f"{first.number} + {second.number}", f"{first.mean:,.0f}", f"{second.mean:,.0f}", f"{mean:,.0f}"
        return (printable(self.program), *numbers, f"{low:,.0f} to {high:,.0f}")


class TrialResult(NamedTuple):
    """A result: of each program, and the difference over all, in KiB; the mean of the control group, or of what they
    took before; and the requests of the tuned machines beyond the others', as a share."""

    rows: "list[Row]"
    whole: Difference
    mean: float
    requests: Difference
    level: float

    @property
    def is_saving(self) -> bool:
        return self.whole.low > 0

    @property
    def shares(self) -> Difference:
        return self.whole.divide(self.mean)

    @property
    def is_load_alike(self) -> bool:
        return self.requests.low <= 0 <= self.requests.high

    def verdict(self) -> str:
        if self.is_saving:
            return "A saving is shown."
        if self.whole.high < 0:
            return "The tuned machines take more: this is shown."
        return "No saving is shown: the interval has 0."


def read_difference(values: Values, level: float) -> TrialResult:
    pairs, served = pair_groups(values, 0), [*pair_groups(values, 1).values()]
    rows = [Row(program, *pair, samples.difference([pair], level)) for program, pair in pairs.items()]
    mean = values.mean_before() or samples.first_mean([*pairs.values()])
    requests = samples.difference(served, level).divide(-(samples.first_mean(served) or 1.0))
    return TrialResult(rows, samples.difference([*pairs.values()], level), mean, requests, level)


def share_text(shares: Difference) -> str:
    mean, low, high = (round(100 * share, 2) + 0.0 for share in shares)  # and no -0.00
    return f"{mean:.2f}% (from {low:.2f} to {high:.2f}%)"


def result_text(
    result: TrialResult, predicted: Optional[float], is_change: bool, is_adjusted: bool, suspicions: "list[str]"
) -> str:
    what = ("change since before, KiB" if is_change else "resident set, KiB") + ", at the same requests" * is_adjusted
    head = ("Program", "machines", f"control: {what}", "tuned", "saving, KiB", f"{100 * result.level:g}% interval")
    less = f"{result.whole.mean:,.0f} KiB less of {result.mean:,.0f}, {share_text(result.shares)}"
    said = f"Over all, each program with its share of the machines: the tuned ones take {less}. {result.verdict()}"
    lines = [table_text([head, *(each.cells() for each in result.rows)]), "\n", wrap_paragraph(said)]
    if predicted is not None:
        where = "below" if predicted < result.shares.low else "above" if predicted > result.shares.high else "within"
        lines.append(wrap_paragraph(f"Predicted: {100 * predicted:.2f}%, which is {where} the interval."))
    lines.append(wrap_paragraph(f"Requests: the tuned machines differ by {share_text(result.requests)}."))
    if not result.is_load_alike:
        also = "" if is_adjusted else ": what is measured may be of that, unless it is read with --adjust"
        lines.append(wrap_paragraph(f"! The groups did not serve alike{also}."))
    return "".join(lines) + alert_text(suspicions)


def describe_result(
    result: TrialResult, predicted: Optional[float], is_adjusted: bool, suspicions: "list[str]"
) -> dict:
    """All of it, as JSON has it."""
    return {
        "is_adjusted": is_adjusted, "level_percent": 100 * result.level, "control_kib": result.mean,
        "saving_kib": result.whole, "saving_percent": result.shares.percents(),
        "more_requests_percent": result.requests.percents(),
        "predicted_percent": None if predicted is None else 100 * predicted, "is_saving": result.is_saving,
        "is_load_alike": result.is_load_alike, "verdict": result.verdict(), "suspicions": suspicions,
        "programs": result.rows,
    }


def measure_spread(values: Values) -> "tuple[float, float]":
    """The mean of all machines, and the standard deviation of one within its program, as a share of the mean."""
    groups: "list[Group]" = []
    for program, by_group in values.by_program.items():
        for group, own in by_group.items():
            if len(own) < 2:
                has = f"the pilot has {len(own)} machine of {program} in the group {group}"
                raise Refusal(3, f"{has}: the spread wants more")
            groups.append(samples.group_of([amounts[0] for amounts in own]))
    whole = sum(group.number for group in groups)
    mean = values.mean_before() or sum(group.number * group.mean for group in groups) / whole
    return mean, math.sqrt(sum(group.number * group.variance for group in groups) / whole) / mean


def plan_text(saving: float, spread: float, given: argparse.Namespace) -> str:
    chances = given.level / 100, given.power / 100
    lines = [f"{'Saving':>8}  machines in each group\n"]
    for each in (saving / 2, saving, 2 * saving):
        lines.append(f"{100 * each:>7.2f}%  {samples.sample_size(each, spread, *chances):,}\n")
    said = f"With these, a trial shows the saving with a chance of {given.power:g}% by an interval of {given.level:g}%"
    said += f", if the spread of a machine is {100 * spread:.2f}% of the mean in both groups, chance alone chooses them"
    lines.append(wrap_paragraph(f"{said}, and they do not depend on each other."))
    if given.machines:
        shown = samples.detectable_saving(given.machines, spread, *chances)
        lines.append(wrap_paragraph(f"{given.machines:,} machines in each group show a saving of {100 * shown:.2f}%."))
    return "".join(lines)


class Prediction(NamedTuple):
    """Of a program: for how many machines it is, and what one takes with the old and with the new table, in KiB."""

    program: str
    machines: int
    old: float
    new: float

    @property
    def saving(self) -> float:
        return self.old - self.new


def predict_programs(tables: "list[list[int]]", given: "Iterable[loads.Load]") -> "list[Prediction]":
    """The means of the machines of each program, over all days, with the old and the new table; last those of all."""
    sums: "dict[str, list[tuple]]" = {}
    for load in given:
        if load.kind == "profile":
            raise Refusal(2, f"{load.name} is a profile, which has no footprint: give histories or timelines")
        costs = [load.cost(classes) for classes in tables]
        if None in costs:
            raise Refusal(2, f"a table does not serve all sizes of {load.name}")
        sums.setdefault(load.program, []).append((load.machines, *costs))
    found = []
    for name, each in [*sorted(sums.items()), ("all", [own for each in sums.values() for own in each])]:
        machines, old, new = map(sum, zip(*each))
        found.append(Prediction(name, machines, old / machines / 1024, new / machines / 1024))
    return found


def predict_saving(words: "list[str]") -> int:
    given = take_options(words, HELP, "json")
    if len(given.names) < 3 or given.names.count("-") > 1:
        raise Refusal(2, "predict takes the old table, the new one and the loads; --help says more")
    tables = [certificate_texts.class_line(name) for name in given.names[:2]]
    found = predict_programs(tables, loads.read_loads(given.names[2:]))
    if given.json:
        *programs, whole = [{**each._asdict(), "saving_kib": each.saving} for each in found]
        return text_files.write(json_text({"programs": programs, "all": whole}))
    rows: "list[tuple]" = [("Program", "machines", "old, KiB", "new, KiB", "saving, KiB")]
    rows += [(printable(each.program), *(f"{value:,.0f}" for value in (*each[1:], each.saving))) for each in found]
    return text_files.write(table_text(rows))


def take_file(given: argparse.Namespace) -> str:
    if len(given.names) > 1:
        raise Refusal(2, f"there is one file, so no place for {given.names[1]}")
    return given.names[0] if given.names else "-"


def print_groups(words: "list[str]") -> int:
    given = take_options(words, HELP, "seed")
    return text_files.write(assign_groups(read_strictly(take_file(given), MACHINES), given.seed))


def print_plan(words: "list[str]") -> int:
    given = take_options(words, HELP, "saving spread pilot adjust machines power level", "")
    if given.saving is None or (given.spread is None) == (given.pilot is None):
        raise Refusal(2, "plan takes --saving, and --spread or --pilot; --help says more")
    spread, begin = (given.spread or 0) / 100, ""
    if given.pilot:
        found = Suspicions()
        values, _ = read_values(given.pilot, found)
        found.say_all("fleet_trial")
        mean, spread = measure_spread(adjust_requests(values) if given.adjust else values)
        begin = f"The pilot: a mean of {mean:,.0f} KiB, and a spread of {100 * spread:.2f}%.\n"
        if not spread:
            raise Refusal(3, "all machines of the pilot take the same: there is no spread to plan with")
    return text_files.write(begin + plan_text(given.saving / 100, spread, given))


def read_result(words: "list[str]") -> int:
    given = take_options(words, HELP, "predicted adjust json level groups suspects")
    path, found = take_file(given), Suspicions(given.suspects)
    text_files.refuse_over([("--suspects", given.suspects)], [path, given.groups])
    values, missing = read_values(path, found, given.groups)
    found.write_rows()
    if not any(group in groups for groups in values.by_program.values() for group in GROUPS):
        raise Refusal(2, "the result has no machine in the groups control and tuned")
    result = read_difference(adjust_requests(values) if given.adjust else values, given.level / 100)
    predicted, said = None if given.predicted is None else given.predicted / 100, [*missing, *found.all_lines()]
    json_of = lambda: json_text(describe_result(result, predicted, given.adjust, said))
    text_of = lambda: result_text(result, predicted, bool(values.before), given.adjust, said)
    text_files.write(json_of() if given.json else text_of())
    return 0 if result.is_saving else 1


def main(words: "list[str]") -> int:
    return run_step(words, HELP, assign=print_groups, predict=predict_saving, plan=print_plan, read=read_result)
