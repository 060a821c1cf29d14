"""How far a table is above a bound of all tables, day by day. `fleet_regret --help` says all."""

import math
from collections.abc import Iterable, Sequence
from typing import NamedTuple, Optional

from mte_scripts import certificate_texts, claim_words, claims, program_runs, text_files
from mte_scripts.entry_point import Refusal, printable
from mte_scripts.fleet import bounds, caps, loads, resampling
from mte_scripts.fleet.command_words import take_options
from mte_scripts.fleet.report_text import json_text, percent_text, table_text, wrap_paragraph
from mte_scripts.reports import pictures
from mte_scripts.tables import figures

HELP = f"""\
Say how far a table of size classes is at most above a bound of all tables of each day, by a certificate for each day; for a
nightly job.

Usage: fleet_regret [OPTION..] TABLE LOAD..       (standard input for `-`)

TABLE is a file whose first line is a class line: a sheet, a fit, what fleet_table writes, or that line alone. A LOAD is

  - a profile: what the table's blocks take counts, with their headers and the bytes that were requested
  - a history or a timeline: the footprint counts, the most memory of the classes over time
  - rows of the fleet's database (fleet_profiles --help has their form): of each program and day what its machines counted. Over
    histories, the footprint is the sum of each machine's by itself, times its weight

{bounds.AMONG_HELP}
{caps.HELP}
  --limit-percent X  end with status 1 where the table is more than X percent above the bound of a load, or does not serve one
  --resample N       of rows, say how far the percentage depends on which machines came: draw machines from them N times, with repeats,
                     and print what the middle 95% come to; 100 gives a fair interval
  --json             print all as JSON, with a sentence for each load
  --plot FILE        draw the percentages over the days into FILE too, as SVG, a line for each program: of a file its folder's name

The bound of a load is what each table takes at least. It is of a sheet that `mte_tool check` accepts, or of a fit that `check-fit`
accepts, of the load itself or of counts that are nowhere above it. So nothing of how it was found has to be believed. A percentage
is rounded up. The sentences at the end are of the load that is farthest above its bound.

MTE_TOOL=PATH in the environment takes the program at PATH in place of the built one; the sentences say so.

Exit status:
  0  all is printed; with --limit-percent, the table is within it everywhere
  1  with --limit-percent: it is not
  2  the words, the table or a load are refused
  3  the program mte_tool could not run, a load counts nothing, or the output can't be written

Examples:
  fleet_regret examples/scudo.classes examples/sqlite.profile examples/jq.profile
  fleet_regret in_use.classes --limit-percent 2 --plot regret.svg days/redis/*.profile
"""

WIDTH = 80  # of a table
HUNDREDTHS = 10**4  # of a percent, in a whole
WIDE, HIGH, BELOW, MOST_DAYS = 760, 320, 40, 8  # of the picture, and how many days it names


class Regret(NamedTuple):
    """What a table takes of a load, and what each table takes at least, in bytes; by how many percent at most it is above, rounded up."""

    load: loads.Load
    bound: bounds.Bound
    cost: Optional[int]
    above: Optional[float]
    unserved: Optional[int]  # the least size that the table does not serve

    def sentences(self, name: str) -> str:
        """What is known of the load's bound, and of the table beside it, which may have a name."""
        bound = claims.bound(self.bound.claim, self.load.name, self.bound.divisor, self.bound.is_own)
        table = claim_words.quote_name(name) if name else "The table"
        own = None if self.cost is None else self.cost - self.load.fixed  # the waste or the footprint
        return f"{bound} {claims.regret(self.bound.claim, self.load.name, table, own, self.above, self.unserved)}"

    def is_within(self, limit: Optional[float]) -> bool:
        return limit is None or self.above is not None and self.above <= limit


def percent_above(cost: int, bound: int) -> float:
    """By how many percent a cost is above a bound, rounded up to hundredths; without end where the bound says nothing."""
    return -((bound - cost) * HUNDREDTHS // bound) / 100 if bound > 0 else math.inf


def regret_of(load: loads.Load, bound: bounds.Bound, classes: list) -> Regret:
    """A table beside the bound of a load."""
    cost = load.cost(classes)
    above = None if cost is None else percent_above(cost, bound.amount)
    return Regret(load, bound, cost, above, load.unserved_size(classes))


def percent_of(classes: list, among: bounds.TableLimits) -> resampling.Percent:
    """What says how far a table is above the bound of a load."""
    return lambda load: regret_of(load, bounds.bound_load(load, among), classes).above


def resampled_text(found: list, intervals: list, times: int) -> str:
    """A line for each load of rows."""
    lines = []
    for each, interval in zip(found, intervals):
        if each.load.hosts:
            what = f"from {interval.text()} in the middle 95% of the draws" if interval else "too few for an interval"
            lines.append(f"{each.load.name}, {len(each.load.hosts)} machines: {what}.\n")
    return "".join(["\n", f"The machines drawn anew {times} times:\n", *lines] if lines else [])


def farthest_regret(found: Iterable[Regret]) -> Regret:
    """The load that is farthest above its bound, or that is not served."""
    return max(found, key=lambda each: math.inf if each.above is None else each.above)


def regret_table(found: list, held_out: Sequence[Regret] = ()) -> str:
    """The loads in columns; the last has what a table came to that was made without the load's day."""
    rows: list[tuple] = [("Load", "table, bytes", "bound, bytes", "above the bound")]
    for each in found:
        cost = "not served" if each.cost is None else figures.number(each.cost)
        rows.append((each.load.name, cost, figures.number(each.bound.amount), percent_text(each.above)))
    if held_out:
        rows = [(*row, cell) for row, cell in zip(rows, ["held out", *(percent_text(each.above) for each in held_out)])]
    return table_text(rows, WIDTH)


def summary(found: list, name: str, limit: Optional[float]) -> str:
    lines = [regret_table(found), "\n", wrap_paragraph(farthest_regret(found).sentences(name))]
    if len(found) > 1:
        lines.append("Each line has its own certificate; --json has its sentence.\n")
    for each in found:
        if not each.is_within(limit):
            why = "it does not serve all sizes" if each.above is None else f"{each.above:,.2f}% is above the limit of {limit:g}%"
            lines.append(wrap_paragraph(f"! {each.load.name}: {why}"))
    return "".join(lines)


def describe_regrets(
    found: list, name: str, classes: list, among: bounds.TableLimits, limit: Optional[float], intervals: Sequence = ()
) -> dict:
    """All of it, as JSON has it."""
    trust = program_runs.trust()
    each_load = [
        {
            "name": each.load.name, "program": each.load.program, "day": each.load.day, "kind": each.load.kind,
            "table_bytes": each.cost, "bound_bytes": each.bound.amount, "above_percent": each.above,
            "unserved_bytes": each.unserved, "sentences": each.sentences(name), "bound_sha256": each.bound.claim.digest,
            "machines": len(each.load.hosts), "capped_machines": each.load.capped,
            "interval_percent": interval and [*interval],
        }
        for each, interval in zip(found, intervals or [None] * len(found))
    ]
    return {
        "table": printable(name) or "the table", "classes": classes, "among": among, "is_proved": trust.is_proved,
        "why_not": trust.why, "limit_percent": limit, "is_within": all(each.is_within(limit) for each in found),
        "loads": each_load,
    }


def draw_days(title: str, points: list, limit: Optional[float], note: str = "") -> str:
    """The picture of (program, day, percent), a line for each program, in the order of the days; the limit as a broken line."""
    programs = sorted({program for program, _, _ in points})
    days = sorted({day for _, day, _ in points})
    drawing = pictures.Drawing(WIDE, HIGH, BELOW + 18 * len(programs), title)
    top = 1.15 * max([limit or 0.0, *(percent for _, _, percent in points)], default=0.0) or 1.0
    drawing.levels(top, 6, lambda value: f"{value:g}%")
    across = {day: drawing.x((at + 0.5) / len(days)) for at, day in enumerate(days)}
    for day in days[:: max(-(-len(days) // MOST_DAYS), 1)]:
        drawing.tick(across[day], day)
    if limit is not None:
        y = pictures.coordinate(drawing.y(limit, top))
        drawing.parts.append(f'<path class="limit" d="M{drawing.left} {y}H{drawing.right}"><title>the limit, {limit:g}%</title></path>')
    for at, program in enumerate(programs):
        own = sorted((day, percent) for name, day, percent in points if name == program)
        shown = [(across[day], drawing.y(percent, top), f"{program}, {day}: {percent:,.2f}%") for day, percent in own]
        drawing.curve(at, shown)
        drawing.key(at, drawing.left, HIGH - 12 - 18 * (len(programs) - 1 - at), program or "all")
    if note:
        drawing.text(drawing.right, 12, note, "end")
    return drawing.svg(title)


def main(words: list) -> int:
    given = take_options(words, HELP)
    if len(given.names) < 2:
        raise Refusal(2, "name a table, and then the loads of its days; --help says more")
    if given.names.count("-") > 1:
        raise Refusal(2, "standard input can be named once")
    text_files.refuse_over([("--plot", given.plot)], given.names)
    among, limit, times = bounds.table_limits(given), given.limit_percent, given.resample
    classes = certificate_texts.class_line(given.names[0])
    name = figures.without_ending(given.names[0], ".classes", ".sheet", ".fit")
    every = loads.read_loads(given.names[1:], given.cap)
    found = [regret_of(load, bounds.bound_load(load, among), classes) for load in every]
    if given.plot:
        title = f"{claim_words.quote_name(name)}: at most so far above the bound of each day"
        points = [(each.load.program, each.load.day, each.above) for each in found if each.above is not None]
        note = "" if program_runs.trust().is_proved else claims.unproved_note(program_runs.trust())
        text_files.write_file(given.plot, draw_days(title, points, limit, note))
    percent = percent_of(classes, among)
    intervals = [resampling.draw_interval(each.load, percent, times) if times else None for each in found]
    if given.json:
        text_files.write(json_text(describe_regrets(found, name, classes, among, limit, intervals)))
    else:
        text_files.write(summary(found, name, limit) + (resampled_text(found, intervals, times) if times else ""))
    return 0 if all(each.is_within(limit) for each in found) else 1
