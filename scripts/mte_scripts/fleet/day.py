"""The report of a day: what a fleet sent, what of it can't count, who is missing, and whether the table drifts. `fleet_day --help` says
all."""

import argparse
import math
from collections.abc import Iterator
from typing import NamedTuple, Optional

from mte_scripts import certificate_texts, text_files
from mte_scripts.entry_point import Refusal, printable
from mte_scripts.fleet import bounds, caps, loads, regret, resampling, row_reader, rows
from mte_scripts.fleet.command_words import OPTIONS, take_options
from mte_scripts.fleet.machine_values import Machine
from mte_scripts.fleet.report_text import alert_text, json_text, percent_text, table_text, wrap_paragraph
from mte_scripts.fleet.row_reader import PackedLoad
from mte_scripts.fleet.suspicions import Suspicions
from mte_scripts.fleet.trial_lines import read_groups, read_values

HELP = f"""\
Report a day of a fleet: which machines came, what can't count and why, and whether the table drifts; for a nightly job.

Usage: fleet_day --day DAY [--hosts FILE] [--table FILE --limit-percent X] [--result FILE] [OPTION..] ROWS..
                                          (standard input for `-`)

ROWS are those of the day, and of earlier days too: what came late, and what a drift is compared with. fleet_profiles --help has
their form. Each line of the report that begins with `!` is something to look at:

  - rows that can't count, with their reason: of a day that does not exist, of a clock in 1970, cut, or not in the form
  - machines that are expected and did not come, or that came and are not expected
  - machines with absurd counts, that are cut
  - lines of a result that can't count, as of another unit than KiB, and those that did not come
  - the table is past the limit: by drift, if the same machines were within it on an earlier day, or because of the machines that are
    missing, if those that came were past it then too

What came late, or again, is a line without `!`.

  --day DAY          the day of the report, as 2026-01-31
  --hosts FILE       the machines that are expected: lines of a program and a machine, with a tab between, or what fleet_trial assign
                     prints; of MACHINE/POD the machine; where it is left out, those that came on any day of the rows
  --table FILE       the table in use: its first line is a class line
  --limit-percent X  how far it may be above the bound, as of fleet_regret
  --resample N       of how many draws of machines the interval of a percentage is, 20 to 10,000; 100 where it is left out
  --result FILE      the lines of a trial, as of fleet_trial read; those who are expected have a group by --hosts
  --suspects FILE    write the rows and lines that can't count into FILE: why, the file and its line, with tabs between, and the row
  --json             print all as JSON
{bounds.AMONG_HELP}
{caps.HELP}

MTE_TOOL=PATH in the environment takes the program at PATH in place of the built one.

Exit status:
  0  the report is printed, and there is nothing to look at
  1  there is
  2  the words or a table are refused
  3  the program mte_tool could not run, or the output can't be written

Example:
  fleet_day --day 2026-01-31 --table in_use.classes --limit-percent 2 rows.tsv
"""

NAMED = 5  # machines that a line names


class Arrival(NamedTuple):
    """Of a program: the machines that came on the day, and those that are expected."""

    program: str
    machines: set
    expected: set

    def absences(self) -> "Iterator[str]":
        missing, strange = self.expected - self.machines, self.machines - self.expected
        if missing:
            some = f"{len(missing):,} of {len(self.expected):,} machines"
            yield f"{self.program}: {some} did not come: {name_machines(missing)}"
        if strange:
            yield f"{self.program}: {len(strange):,} machines came that are not expected: {name_machines(strange)}"


class Drift(NamedTuple):
    """A load of the day, the percentage of the table and its interval; and what is to be said past the limit."""

    load: loads.Load
    percent: Optional[float]
    interval: Optional[resampling.Interval]
    verdict: str


def parse_day(word: str) -> str:
    if wrong := rows.day_refusal(word):
        raise argparse.ArgumentTypeError(f"takes a day as 2026-01-31, and not {wrong}: {word}")
    return word


def find_arrivals(found: "list[tuple[rows.Key, PackedLoad]]", day: str, hosts: "dict[Machine, str]") -> "list[Arrival]":
    """The machines of each program, whatever their containers are called; one that is expected by its whole name has
    that."""
    arrivals: "dict[str, Arrival]" = {}
    of_program = lambda name: arrivals.setdefault(name, Arrival(name, set(), set()))
    for program, machine in hosts:
        of_program(program).expected.add(machine)
    for key, _ in found:
        machine = key.machine if (key.program, key.machine) in hosts else rows.host_of(key.machine)
        if key.day == day:
            of_program(key.program).machines.add(machine)
        if not hosts:
            of_program(key.program).expected.add(machine)
    return [arrivals[name] for name in sorted(arrivals)]


def name_machines(machines: set) -> str:
    """The first machines by name."""
    names = sorted(machines)
    more = f" and {len(names) - NAMED:,} more" if len(names) > NAMED else ""
    return ", ".join(names[:NAMED]) + more


def find_drifts(found: "list[tuple[rows.Key, PackedLoad]]", given: argparse.Namespace) -> "list[Drift]":
    """The table beside the bounds of the day."""
    percent = regret.percent_of(certificate_texts.class_line(given.table), bounds.table_limits(given))
    of_days = rows.group_pairs(((key.program, key.day), (rows.host_of(key.machine), record)) for key, record in found)
    made = []
    for program in sorted(name for name, day in of_days if day == given.day):
        for load in loads.loads_of_records(program, given.day, [own for _, own in of_days[program, given.day]]):
            now, interval = percent(load), resampling.draw_interval(load, percent, given.resample)
            verdict = ""
            if given.limit_percent is not None and (now is None or now > given.limit_percent):
                verdict = judge_drift(load, interval, of_days, percent, given)
            made.append(Drift(load, now, interval, verdict))
    return made


def judge_drift(load: loads.Load, interval: Optional[resampling.Interval], of_days: dict, percent: resampling.Percent,
                given: argparse.Namespace) -> str:
    """Why the table is past the limit, by the last earlier day: of all its machines, and of those alone that came now."""
    if interval and interval.low <= given.limit_percent:
        return "it may be by chance: other machines of this kind are within the limit"
    before = max((day for program, day in of_days if program == load.program and day < given.day), default="")
    here = {machine for machine, _ in of_days[load.program, given.day]}
    earlier = of_days.get((load.program, before), [])
    same = percent_before([own for machine, own in earlier if machine in here], load, before, percent)
    if same is None:
        return "there is no earlier day to tell drift from missing machines"
    if same <= given.limit_percent:
        return f"drift: the same machines were within it on {before}, at {percent_text(same)}"
    every = percent_before([own for _, own in earlier], load, before, percent)
    if every is not None and every <= given.limit_percent:
        were = f"on {before} those that came now were at {percent_text(same)}, and all at {percent_text(every)}"
        return f"no drift, but missing machines: {were}"
    return f"no change: the same machines were past it on {before}, at {percent_text(same)}"


def percent_before(records: list, load: loads.Load, day: str, percent: resampling.Percent) -> Optional[float]:
    """Of these machines on an earlier day, without end where the table does not serve them; None where there are none."""
    for each in loads.loads_of_records(load.program, day, records):
        if each.kind == load.kind:
            found = percent(each)
            return math.inf if found is None else found
    return None


class Report(NamedTuple):
    """What is said of a day."""

    day: str
    arrivals: "list[Arrival]"
    late: int  # loads of other days
    drifts: "list[Drift]"
    remarks: "list[str]"
    suspicions: "list[str]"

    def text(self) -> str:
        cells: "list[tuple[str, ...]]" = [("Program", "machines", "expected", "above the bound", "95% of the draws")]
        by_program = {each.load.program: each for each in self.drifts}
        for each in self.arrivals:
            drift = by_program.get(each.program)
            interval = drift.interval.text() if drift and drift.interval else ""
            percents = percent_text(drift.percent) if drift else "", interval
            cells.append((printable(each.program), f"{len(each.machines):,}", f"{len(each.expected):,}", *percents))
        lines = [f"{self.day}\n\n", table_text(cells), "\n" * bool(self.late or self.remarks)]
        lines += [f"{self.late:,} loads are of other days.\n"] * bool(self.late)
        lines += [wrap_paragraph(f"{each}.") for each in self.remarks]
        return "".join([*lines, "\n" * bool(self.suspicions), alert_text(self.suspicions)])

    def describe(self) -> dict:
        """All of it, as JSON has it."""
        programs = [
            {"program": each.program, "machines": len(each.machines), "missing": sorted(each.expected - each.machines)}
            for each in self.arrivals
        ]
        found = [
            {"name": load.name, "above_percent": above, "interval_percent": span and [*span], "verdict": verdict}
            for load, above, span, verdict in self.drifts
        ]
        return {"day": self.day, "programs": programs, "other_days": self.late, "loads": found,
                "remarks": self.remarks, "suspicions": self.suspicions}


def make_report(given: argparse.Namespace) -> Report:
    suspicions = Suspicions(given.suspects)
    hosts = read_groups(given.hosts, suspicions) if given.hosts else {}
    store = row_reader.Store(suspicions)
    store.read_files(given.names)
    capped = caps.cap_machines(store.items(), given.cap)
    capped.note_machines(caps.cut_words(given.cap), suspicions, given.day)
    arrivals = find_arrivals(capped.found, given.day, hosts)
    drifts = find_drifts(capped.found, given) if given.table else []
    missing = read_values(given.result, suspicions, given.hosts)[1] if given.result else []
    said = [] if capped.found else ["no row can count"]
    said += [absence for each in arrivals for absence in each.absences()]
    for each in drifts:
        if each.verdict:
            past = f"{percent_text(each.percent)} above the bound, past the limit of {given.limit_percent:g}%"
            said.append(f"{each.load.name}: {past}; {each.verdict}")
    said += [*(f"result: {each}" for each in missing), *suspicions.suspect_lines()]
    suspicions.write_rows()
    late = sum(key.day != given.day for key, _ in capped.found)
    return Report(given.day, arrivals, late, drifts, suspicions.remark_lines(), said)


def main(words: "list[str]") -> int:
    given = take_options(words, HELP, day=(parse_day, None), resample=(OPTIONS["resample"][0], 100))
    if not given.day or not given.names or given.names.count("-") > 1:
        raise Refusal(2, "give --day and the rows; --help says more")
    if given.limit_percent is not None and not given.table:
        raise Refusal(2, "--limit-percent is of a table: name it by --table")
    text_files.refuse_over([("--suspects", given.suspects)], [*given.names, given.hosts, given.table, given.result])
    report = make_report(given)
    text_files.write(json_text(report.describe()) if given.json else report.text())
    return 1 if report.suspicions else 0
