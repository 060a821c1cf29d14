"""A table for several programs or days, by the worst of its percentages above their bounds. `fleet_table --help` says all.

Let table T cost c(T, p) on load p, and b(p) be the bound of p. For any numbers m(p) of at least 0, the sum of m(p) c(T, p) is at most the
worst of the ratios c(T, p) / b(p), times the sum of m(p) b(p). So a sheet or a fit of the loads joined with these numbers bounds the worst
ratio of every table from below. Loads with a high ratio get higher numbers, round by round; each round's table is a candidate. A candidate
whose worst ratio is the bound has the lowest one of all. Else other tables may be between the two."""

import argparse
import math
import operator
import os
import re
from collections.abc import Sequence
from fractions import Fraction
from typing import NamedTuple, Optional

from mte_scripts import claim_words, claims, text_files
from mte_scripts.entry_point import Refusal
from mte_scripts.fleet import bounds, caps, loads, regret
from mte_scripts.fleet.bounds import Bound, TableLimits
from mte_scripts.fleet.command_words import take_options
from mte_scripts.fleet.loads import Load
from mte_scripts.fleet.regret import Regret
from mte_scripts.fleet.report_text import json_text, percent_text, wrap_paragraph
from mte_scripts.formats import LARGEST_CLASS
from mte_scripts.recording import timelines
from mte_scripts.tables import check_sheet, figures
from mte_scripts.words import name_among

HELP = f"""\
Find a table of size classes for several programs or days: one that is nowhere far above the bound of each.

Usage: fleet_table [OPTION..] LOAD..       (standard input for `-`)

A LOAD is a profile, a history, a timeline or rows, as of fleet_regret; profiles alone, or the others alone. A load alone has its
own table.

  --by worst|total   worst: the highest percentage above the bound of a load is to be low; so it is where this is left out. total:
                     the sum over all loads is, in which large ones weigh more
{bounds.AMONG_HELP}
{caps.HELP}
  --hold-out N       cut the days into N runs; for each, make a table of the others, and say how far it is above the bounds of these
                     days, which it has not seen. All loads of a day are held out together. With as many runs as days, each day is
                     by itself
  --output FILE      write the table's class line into FILE, for scudo_classes, score, footprint and fleet_regret
  --certificates DIR
                     make the new folder DIR, with what shows each bound and that of the worst, and claims.txt with their commands
  --json             print all as JSON

The table is chosen among candidates: the tables of each load and of the loads joined, each with a weight that grows where the table
is far above the bound, and then with one class moved, while that helps. {claim_words.general_sentence("fleet")}

MTE_TOOL=PATH in the environment takes the program at PATH in place of the built one; the sentences say so.

Exit status:
  0  the table is printed, and what is known of it
  2  the words or a load are refused
  3  the program mte_tool could not run, a load counts nothing, or the output can't be written

Examples:
  fleet_table --output all.classes examples/sqlite.profile examples/jq.profile examples/perl.profile
  fleet_table --hold-out 4 days/redis/*.profile
"""

OWN_FILES = re.compile(r"claims\.txt|(joined|load[0-9]+)\.[a-z]+")  # of the folder of certificates
ROUNDS = 40
PRECISION = 1 << 20  # of the numbers that loads are joined with
MOST_WORK = 60_000  # of classes that are moved, times the machines that are looked at


class CommonTable(NamedTuple):
    """A table in common; the worst ratio to a bound, and what bounds that of every table; and what shows that."""

    classes: list
    worst: Fraction
    low: Fraction
    certified: bounds.CertifiedTable
    claim: claims.Claim
    numbers: list
    divisor: int


class Search:
    """The loads with their bounds, and the candidate that is the first so far."""

    def __init__(self, given: Sequence[Load], own: Sequence[Bound], among: TableLimits):
        self.given, self.own, self.among = list(given), list(own), among
        self.amounts = [max(bound.amount, 1) for bound in own]
        self.tables: list = []  # whose columns are known, of histories
        self.first: Optional[tuple] = None
        self.low: Optional[tuple] = None

    def ratios(self, classes: list) -> Optional[list]:
        """The cost on each load by its bound; None for a table that is not among those meant, or that does not serve all."""
        if len(classes) > self.among.limit or any(each % self.among.step for each in classes):
            return None
        if self.among.largest and classes[-1] != LARGEST_CLASS:
            return None
        costs = [load.cost(classes) for load in self.given]
        return None if None in costs else [*map(Fraction, costs, self.amounts)]

    def offer(self, classes: list) -> Optional[list]:
        """Takes a candidate if its worst ratio is lower, or the same with a lower sum."""
        ratios = self.ratios(classes)
        if ratios and (self.first is None or (max(ratios), sum(ratios)) < self.first[0]):
            self.first = (max(ratios), sum(ratios)), list(classes)
        return ratios

    def join_loads(self, weights: Sequence[float]) -> list:
        """The table of the loads joined, each with its weight of their bounds; and its bound of the worst ratio of all tables."""
        shares = [weight / amount for weight, amount in zip(weights, self.amounts)]
        numbers = [max(round(share * (PRECISION / max(shares))), 1) for share in shares]
        if len(set(numbers)) == 1:
            numbers = [1] * len(numbers)
        parts = list(zip(numbers, self.given))
        divisor = bounds.divide_counts(parts)
        found = bounds.certify_joined(parts, divisor, self.among, self.tables)
        cost = divisor * found.cost + sum(each * load.fixed for each, load in parts)
        # no table is below the bound of a load, so none has a ratio below 1
        low = max(Fraction(cost, sum(map(operator.mul, numbers, self.amounts))), Fraction(1))
        if self.low is None or low > self.low[0]:
            self.low = low, found, numbers, divisor
        return found.classes

    def is_closed(self) -> bool:
        return self.first is not None and self.low is not None and self.first[0][0] <= self.low[0]

    def find_table(self) -> CommonTable:
        """The table that is found round by round, with more weight on what the round's table is far above."""
        others = [classes for _, classes in figures.other_tables([])]
        for classes in [*(bound.table.classes for bound in self.own), *others]:
            self.offer(classes)
        weights = [1.0 / len(self.given)] * len(self.given)
        for at in range(ROUNDS if len(self.given) > 1 else 1):
            ratios = self.offer(self.serve_all(self.join_loads(weights)))
            if self.is_closed() or not ratios:
                break
            spread = float(max(ratios) - min(ratios)) or 1.0
            step = math.sqrt(2 * math.log(len(weights) + 1) / (at + 1)) / spread
            weights = [weight * math.exp(step * float(ratio - max(ratios))) for weight, ratio in zip(weights, ratios)]
            weights = [max(weight / sum(weights), 1e-9) for weight in weights]
        if self.first and not self.is_closed():
            self.move_classes()
        if self.first is None or self.low is None:
            raise Refusal(3, "no candidate serves all sizes of all loads: take more classes")
        (worst, _), classes = self.first
        low, found, numbers, divisor = self.low
        how = claim_words.capped_words(*sum_caps(self.given))
        claim = claims.check_certificate(found.certificate, found.counts, "the loads joined", how)
        return CommonTable(classes, worst, low, found, claim, numbers, divisor)

    def need_of(self, size: int) -> int:
        """The least class of the tables that are meant which serves a size."""
        return -(-timelines.need_of(size) // self.among.step) * self.among.step

    def serve_all(self, classes: list) -> list:
        """A table of joined loads of which small counts were rounded away: with the largest need, where it lacks that."""
        need = max(self.need_of(load.sizes[-1]) for load in self.given)
        return classes if classes and classes[-1] >= need else [*classes[: self.among.limit - 1], need]

    def move_classes(self) -> None:
        """Moves one class at a time to another need, while the worst ratio falls."""
        needs = sorted({self.need_of(size) for load in self.given for size in load.sizes})
        each = sum(50 if load.kind == "timeline" else max(len(load.members), 1) for load in self.given)
        left, before = MOST_WORK // each, None
        while before != self.first and left > 0:
            before, classes = self.first, self.first[1]
            for place, (below, own, above) in enumerate(zip([1, *classes], classes, classes[1:])):
                for need in [need for need in needs if below < need < above and need != own][: max(left, 0)]:
                    left -= 1
                    self.offer([*classes[:place], need, *classes[place + 1 :]])


def sum_caps(given: Sequence[Load]) -> "tuple[int, int]":
    """How many machines of loads are cut, and at how many times the median."""
    return sum(load.capped for load in given), max(load.cap for load in given)


def sum_loads(given: Sequence[Load]) -> Load:
    """All loads as one, by the sum of their costs."""
    members = [member for load in given for member in load.members]
    counts = bounds.add_up((1, load.counts) for load in given)
    made = Load("all loads", "histories" if members else "profile", counts, members)
    made.capped, made.cap = sum_caps(given)
    return made


def round_percent(ratio: Fraction, is_up: bool) -> float:
    """How many percent a ratio is above 1, in hundredths."""
    value = (ratio - 1) * 10_000
    return (math.ceil(value) if is_up else math.floor(value)) / 100


def cut_days(days: Sequence[str], number_of: int) -> list:
    """The days in their order, cut into so many runs as equal as can be."""
    if number_of > len(days):
        raise Refusal(2, f"--hold-out {number_of} wants as many days, and there are {len(days)}")
    cuts = [len(days) * at // number_of for at in range(number_of + 1)]
    return [list(days[begin:end]) for begin, end in zip(cuts, cuts[1:])]


def hold_out_regrets(given: Sequence[Load], own: Sequence[Bound], among: TableLimits, folds: int) -> list:
    """For each load, how far the table of the loads of other days is above its bound: a Regret."""
    found: dict = {}
    for days in cut_days(sorted({load.day for load in given}), folds):
        seen = [(load, bound) for load, bound in zip(given, own) if load.day not in days]
        table = Search([load for load, _ in seen], [bound for _, bound in seen], among).find_table()
        for load, bound in zip(given, own):
            if load.day in days:
                found[load.name] = regret.regret_of(load, bound, table.classes)
    return [found[load.name] for load in given]


def worst_sentence(table: CommonTable, given: Sequence[Load]) -> str:
    few = claim_words.join_words(claim_words.quote_name(load.name) for load in given)
    names = few if len(given) <= 4 else f"all {len(given)} loads"
    low, worst = round_percent(table.low, False), round_percent(table.worst, True)
    return claims.worst(table.claim, names, low, worst, table.worst == table.low)


def write_certificates(folder: str, pairs: list, table: CommonTable, among: TableLimits) -> None:
    """The folder with the sheet or fit of each load, and of the loads joined, each beside its counts: PAIRS are these,
    their claim, and what is said of it."""
    files, lines = {}, []
    for at, (shown, claim, said) in enumerate(pairs, 1):
        name = "joined" if at == len(pairs) else f"load{at}"
        names = [f"{name}.{'sheet' if claim.kind == 'profile' else 'fit'}", f"{name}.{claim.kind}"]
        files[names[0]], files[names[1]] = shown.certificate.encode(), shown.counts
        command = check_sheet.command(claim, among, *(os.path.join(folder, each) for each in names))
        lines.append(f"{said}\n\n    {command}\n\nThe SHA-256 of what it is of is {claim.digest}.\n\n")
    each = ", ".join(map(str, table.numbers))
    joined = f"times {each}, added up, divided by {table.divisor:,} and rounded down"
    lines.append(f"Joined: the loads in their order, {joined}.\n")
    files["claims.txt"] = "".join(lines).encode(errors="surrogateescape")
    with text_files.new_folder(folder, "--certificates") as place:
        for name, data in files.items():
            place.write(name, data)


def main(words: list) -> int:
    options = take_options(words, HELP, by=(name_among("worst", "total"), "worst"))
    if not options.names or options.names.count("-") > 1:
        raise Refusal(2, "name the loads, standard input once; --help says more")
    written = [("--certificates", options.certificates)]
    if options.certificates and options.output and OWN_FILES.fullmatch(os.path.basename(options.output)):
        written.append(("--certificates", os.path.join(options.certificates, os.path.basename(options.output))))
    text_files.refuse_over([*written, ("--output", options.output)], options.names)
    among = bounds.table_limits(options)
    given = loads.read_loads(options.names, options.cap)
    if len({load.kind == "profile" for load in given}) > 1:
        raise Refusal(2, "there are profiles, and histories or timelines: give one kind alone")
    own = [bounds.bound_load(load, among) for load in given]
    total = None
    if options.by == "total":
        whole = sum_loads(given)
        bound = bounds.bound_load(whole, among)
        made = Search([whole], [bound], among).find_table()
        total = regret.regret_of(whole, bound, made.classes)
    else:
        made = Search(given, own, among).find_table()
    found = [regret.regret_of(load, bound, made.classes) for load, bound in zip(given, own)]
    folds = hold_out_regrets(given, own, among, options.hold_out) if options.hold_out else []
    return write_answer(options, among, made, found, folds, total)


def write_answer(
    given: argparse.Namespace, among: TableLimits, made: CommonTable, found: list, folds: list, total: Optional[Regret]
) -> int:
    """Writes the files, and prints the text or the JSON. What is said is of the TOTAL where that is to be low, else of
    the worst."""
    lines = figures.class_text(made.classes)
    name = figures.without_ending(given.output, ".classes") if given.output else ""
    said = total.sentences(name) if total else worst_sentence(made, [each.load for each in found])
    if given.certificates:
        joined = (total.bound.table, total.bound.claim) if total else (made.certified, made.claim)
        pairs = [*((each.bound.table, each.bound.claim, each.sentences(name)) for each in found), (*joined, said)]
        write_certificates(given.certificates, pairs, made, among)
    if given.output:
        text_files.write_file(given.output, lines + "\n")
    if given.json:
        held_out = [{"name": each.load.name, "day": each.load.day, "above_percent": each.above} for each in folds]
        return text_files.write(json_text({
            **regret.describe_regrets(found, name, made.classes, among, None), "by": given.by,
            "worst_percent": round_percent(made.worst, True), "low_percent": round_percent(made.low, False),
            "sentence": said, "held_out": held_out,
        }))
    text = [regret.regret_table(found, folds), "\n", lines, "\n\n", wrap_paragraph(said)]
    if folds:
        served = [each.above for each in folds if each.above is not None]
        mean = f"{sum(served) / len(served):,.2f}%" if served else "none"
        worst = percent_text(regret.farthest_regret(folds).above)
        said = f"Held out, in {given.hold_out} runs of days: the worst is {worst}, the mean {mean}."
        text.append(wrap_paragraph(said))
    return text_files.write("".join(text))
