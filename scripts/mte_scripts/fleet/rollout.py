"""A rollout of a new table in steps, with a stop and a way back. `fleet_rollout --help` says all."""

import argparse
import re
from typing import Any, NamedTuple, Optional

from mte_scripts import shell_words, text_files
from mte_scripts.entry_point import Refusal, say
from mte_scripts.fleet import process_mark, rows
from mte_scripts.fleet.command_words import run_step, take_options
from mte_scripts.fleet.machine_values import FEWEST, MACHINES, read_strictly
from mte_scripts.fleet.report_text import alert_text, json_text, table_text, wrap_paragraph
from mte_scripts.fleet.rollout_lines import Change, read_changes
from mte_scripts.fleet.rollout_plan import Plan, assign_steps, parse_steps, read_plan, read_table, small_programs
from mte_scripts.fleet.suspicions import Suspicions
from mte_scripts.words import number_between

HELP = """\
Roll a new table out over a fleet in steps: which machines get it when, whether the next step may be taken, and what to
deploy.

Usage: fleet_rollout plan [--steps LIST] [--seed N] VERSION=OLD VERSION=NEW [MACHINES]
       fleet_rollout deploy --step N [--running FILE] PLAN
       fleet_rollout back [--running FILE] PLAN
       fleet_rollout running [--rows KEY] PID..
       fleet_rollout read --step N --since DAY [--stop-if LIST] [--level P] [--suspects FILE] [--json] PLAN [RESULT]
                                          (standard input for `-`, or where there is no last file)

plan takes the old and the new table, sheets, fits or class lines, each with the version that it is called by, and lines
of a program and a machine, with a tab between. It prints the plan: each machine's step, by chance. deploy prints what
each machine has to run at a step: program, machine, version and digest of its table. back prints the same of step 0:
the old table for all. running prints which table a process runs, by the mark of `scudo_classes --mark VERSION` in its
memory: process, version and digest, or `-` where it has none. read says of a step's result whether the next step may be
taken.

  --steps LIST     the shares of the machines that have the new table at each step, in percent, up to 100; 5,20,50,100
                   where left out
  --seed N         plan: another choice; the same seed gives the same plan; 1 where it is left out
  --step N         deploy: of which step; read: the step that was taken
  --running FILE   deploy, back: what `running --rows` printed of the machines. Only those are printed that run another
                   table, or none that is known
  --rows KEY       running: KEY is PROGRAM,MACHINE, which are printed in place of the process
  --since DAY      read: the first day of the step. Lines of days before are what the machines took with the old table
  --stop-if LIST   read: the conditions by which the rollout stops; saving<0,peak>2,time>2 where it is left out, in
                   percent
  --level P        the chance that an interval has the true value, in percent; 95 where it is left out
  --suspects FILE  read: write the lines that can't count into FILE: why, the file and its line, with tabs between, and
                   the line
  --json           read: print all as JSON

A RESULT has lines of eight fields with tabs between: program, machine, digest, day, resident, peak, requests and
seconds. The digest is that of the table that ran, as running prints it; resident is the mean resident set in KiB, peak
its most (VmHWM of /proc/PID/status), requests what the machine served that day, and seconds its processor time. A line
can't count whose machine is not in the plan, or ran another table than its step has: it is left out, and said.

read compares machines with the new table with those that have the old one, or at the last step with themselves before;
each program with its share, by the interval of Welch. saving is of the resident set, time of a request. stop: a whole
interval breaks its condition. go on: no part of any does. wait: neither is shown; read again after more days.

Exit status:
  0  plan, deploy, back, running: it is printed; read: go on
  1  read: stop
  2  the words, a table, a plan, a process or a line are refused
  3  read: wait, or too few machines can be read; or the output can't be written

Examples:
  fleet_rollout plan v6=old.classes v7=new.classes machines.tsv > v7.plan
  fleet_rollout read --step 1 --since 2026-03-02 v7.plan result.tsv; [ $? != 1 ] || fleet_rollout back v7.plan
"""

CONDITION = re.compile(r"(?:(saving)<|(peak|time)>)(-?[0-9]{1,3}(?:\.[0-9]{1,3})?)")
GO_ON, STOP, WAIT = "go on", "stop", "wait"
STATUS = {GO_ON: 0, STOP: 1, WAIT: 3}
NEXT = {
    STOP: "Stop: {why} is beyond its limit. What to deploy, the old table for all: fleet_rollout back {plan}",
    WAIT: "Wait: {why} is not shown to be within its limit, nor beyond it. Read again after more days.",
    GO_ON: "Go on: fleet_rollout deploy --step {next} {plan}",
}
LAST = "Go on: {new} is on all machines, and is the old table of the next rollout."


def parse_conditions(word: str) -> "dict[str, float]":
    """The limits of the measures, as shares."""
    found = {}
    for each in word.split(","):
        match = CONDITION.fullmatch(each)
        if not match or (match[1] or match[2]) in found:
            raise argparse.ArgumentTypeError(f"takes conditions as saving<0,peak>2,time>2, each once, and not {word}")
        found[match[1] or match[2]] = float(match[3]) / 100
    return found


OPTIONS: "dict[str, Any]" = {
    "steps": (parse_steps, [5.0, 20.0, 50.0, 100.0]),
    "step": (number_between(0, 1000), None),
    "stop_if": (parse_conditions, parse_conditions("saving<0,peak>2,time>2")),
}


class Judgement(NamedTuple):
    """A change with its limit, or None without one; and what that says: go on, stop or wait."""

    change: Change
    limit: "Optional[float]"
    verdict: str

    def cells(self) -> "tuple[str, ...]":
        measure, old, new, share = self.change
        name = f"{'rise of' if measure.is_rise else 'saving,'} {measure.unit}"
        limit = "" if self.limit is None else f"{'above' if measure.is_rise else 'below'} {share_text(self.limit)}"
        interval = f"{share_text(share.low)} to {share_text(share.high)}"
        return name, f"{old:,.2f}", f"{new:,.2f}", share_text(share.mean), interval, limit, self.verdict


def judge_change(change: Change, limits: "dict[str, float]") -> Judgement:
    limit = limits.get(change.measure.name)
    if limit is None:
        return Judgement(change, None, GO_ON)
    _, low, high = change.share
    is_broken, is_kept = (low > limit, high <= limit) if change.measure.is_rise else (high < limit, low >= limit)
    return Judgement(change, limit, STOP if is_broken else GO_ON if is_kept else WAIT)


def share_text(share: float) -> str:
    return f"{100 * share + 0.0:.2f}%"


class StepResult(NamedTuple):
    """What a step's result says."""

    plan: Plan
    step: int
    judged: "list[Judgement]"
    level: float  # a percentage
    suspicions: "list[str]"

    @property
    def verdict(self) -> str:
        """The worst of them."""
        return max((each.verdict for each in self.judged), key=(GO_ON, WAIT, STOP).index)

    def text(self, path: str) -> str:
        plan, verdict, share = self.plan, self.verdict, self.plan.steps[self.step - 1]
        begin = f"Step {self.step} of {len(plan.steps)}: {plan.new.version} on {share:g}% of the machines"
        head = ("Measure", plan.old.version, plan.new.version, "change", f"{self.level:g}% interval", "stop if", "")
        measures = [each.change.measure for each in self.judged if each.verdict == verdict]
        why = " and ".join(f"the {'rise of the ' * each.is_rise}{each.name}" for each in measures)
        said = LAST if verdict == GO_ON and self.step == len(plan.steps) else NEXT[verdict]
        said = said.format(why=why, plan=shell_words.path_word(path), next=self.step + 1, new=plan.new.version)
        table = table_text([head, *(each.cells() for each in self.judged)])
        return f"{begin}, after {plan.old.version}.\n{table}\n{wrap_paragraph(said)}{alert_text(self.suspicions)}"

    def describe(self) -> dict:
        """All of it, as JSON has it."""
        measures = {
            each.change.measure.name: {
                "old": each.change.old, "new": each.change.new, "verdict": each.verdict,
                "limit_percent": None if each.limit is None else 100 * each.limit,
                "percent": each.change.share.percents(),
            }
            for each in self.judged
        }
        return {
            "step": self.step, "steps": self.plan.steps, "old": self.plan.old, "new": self.plan.new,
            "level_percent": self.level, "verdict": self.verdict, "measures": measures, "suspicions": self.suspicions,
        }


def take_names(given: argparse.Namespace, least: int, most: int, what: str) -> "list[str]":
    if not least <= len(given.names) <= most:
        raise Refusal(2, f"it takes {what}, and not {len(given.names)} words; --help says more")
    return [*given.names, *["-"] * (most - len(given.names))]


def check_step(given: argparse.Namespace, plan: Plan, first: int) -> int:
    if given.step is None or not first <= given.step <= len(plan.steps):
        raise Refusal(2, f"--step takes a number from {first} to {len(plan.steps)}, the steps of the plan")
    return given.step


def print_plan(words: "list[str]") -> int:
    given = take_options(words, HELP, "steps seed", **OPTIONS)
    old, new, path = take_names(given, 2, 3, "VERSION=OLD, VERSION=NEW and a file of machines")
    tables = read_table(old), read_table(new)
    if tables[0].digest == tables[1].digest or tables[0].version == tables[1].version:
        raise Refusal(2, "the old and the new table are one, or have one version")
    plan = Plan(*tables, given.steps, assign_steps(read_strictly(path, MACHINES), given.steps, given.seed))
    if small := ", ".join(small_programs(plan)):
        why = f"fewer than {FEWEST} machines get the new table, too few to be read"
        say("fleet_rollout", f"at step 1 {why}, of {small}")
    return text_files.write(plan.text())


def print_tables(plan: Plan, step: int, path: "Optional[str]") -> int:
    """What each machine has to run; with the file of what they run, those that don't."""
    running = read_strictly(path, {4: "program, machine, version, digest"}) if path else []
    digests = {(program, machine): digest for program, machine, _, digest in running}
    tables = [(key, plan.table_at(step, key)) for key in sorted(plan.machines)]
    lines = ["\t".join([*key, *table[:2]]) for key, table in tables if digests.get(key) != table.digest]
    return text_files.write("".join(f"{line}\n" for line in lines))


def print_new(words: "list[str]") -> int:
    given = take_options(words, HELP, "step running", **OPTIONS)
    plan = read_plan(*take_names(given, 1, 1, "a plan"))
    return print_tables(plan, check_step(given, plan, 0), given.running)


def print_old(words: "list[str]") -> int:
    given = take_options(words, HELP, "running", **OPTIONS)
    return print_tables(read_plan(*take_names(given, 1, 1, "a plan")), 0, given.running)


def print_running(words: "list[str]") -> int:
    given = take_options(words, HELP, "rows", **OPTIONS)
    if not given.names or not all(re.fullmatch("[1-9][0-9]{0,9}", name) for name in given.names):
        raise Refusal(2, "running takes the numbers of processes; --help says more")
    first = given.rows.split(",") if given.rows else None
    if first and (len(first) != 2 or not all(first) or re.search(r"[\x00-\x1f\x7f]", given.rows)):
        raise Refusal(2, f"--rows takes PROGRAM,MACHINE, and not {given.rows}")
    lines = ("\t".join([*(first or [name]), *process_mark.table_of(int(name))]) for name in given.names)
    return text_files.write("".join(f"{line}\n" for line in dict.fromkeys(lines)))


def read_step(words: "list[str]") -> int:
    given = take_options(words, HELP, "step since stop_if level suspects json", **OPTIONS)
    path, result = take_names(given, 1, 2, "a plan and a result")
    text_files.refuse_over([("--suspects", given.suspects)], [path, result])
    plan, found = read_plan(path), Suspicions(given.suspects)
    step = check_step(given, plan, 1)
    if given.since is None or rows.day_refusal(given.since):
        raise Refusal(2, "--since takes the first day of the step, as 2026-03-02")
    changes = read_changes(plan, step, given.since, result, given.level / 100, found)
    found.write_rows()
    judged = [judge_change(change, given.stop_if) for change in changes]
    judgement = StepResult(plan, step, judged, given.level, found.all_lines())
    text_files.write(json_text(judgement.describe()) if given.json else judgement.text(path))
    return STATUS[judgement.verdict]


def main(words: "list[str]") -> int:
    return run_step(
        words, HELP, plan=print_plan, deploy=print_new, back=print_old, running=print_running, read=read_step
    )
