"""Lower bounds of what every table takes, by certificates: a sheet or a fit that `check` or `check-fit` calls so is of the load itself,
or of counts that are nowhere above it; then it bounds every table there from below, and nothing of how it was found has to be believed.

Several loads are joined, each times a number of its own. Profiles add up. Of histories, no table takes more over one column, which has
some moment of each member added up, than over the members: a class has its most blocks in each. So the columns at which the classes of
some tables have the most blocks bound all tables. The fit over them is a further table; with its columns too, until a fit comes again,
the bound is what the last one takes."""

import argparse
from collections.abc import Iterable, Sequence
from typing import NamedTuple, Optional

from mte_scripts import certificate_texts, claim_words, claims, count_texts
from mte_scripts.entry_point import Refusal
from mte_scripts.fleet.loads import Load
from mte_scripts.formats import MOST_CLASSES, MOST_COUNT, MOST_SNAPSHOTS
from mte_scripts.recording import timelines
from mte_scripts.tables import figures

AMONG_HELP = """\
  --limit K          among tables of at most K classes, 1 to 32; 32 where it is left out
  --step S           whose classes are multiples of S granules of 16 bytes: 1, 2, 4 or 8; 1 where it is left out
  --no-largest       without it, only tables with class 1024 are meant, which serve every size that any can"""
ROUNDS = 24  # of fits over more and more columns
MOST_TABLES = MOST_SNAPSHOTS // MOST_CLASSES


class TableLimits(NamedTuple):
    """Which tables are meant: of at most so many classes, multiples of a step, with class 1024 where it is wanted."""

    limit: int
    step: int
    largest: bool


def table_limits(options: argparse.Namespace) -> TableLimits:
    return TableLimits(options.limit, options.step, not options.no_largest)


class CertifiedTable(NamedTuple):
    """A sheet or a fit, and the counts that it is of, both as texts; its cost; and its table."""

    cost: int
    classes: list
    certificate: str
    counts: bytes


class Bound(NamedTuple):
    """What each table takes at least of a load, in bytes as Load.cost has them; the claim that shows it, of the load
    itself where it IS_OWN, else of counts that bound those of it, divided; and the table with its certificate."""

    amount: int
    claim: claims.Claim
    divisor: int
    is_own: bool
    table: CertifiedTable


def bound_load(load: Load, among: TableLimits) -> Bound:
    """The bound of one load. Where nothing shows it, the script ends with what the checker says."""
    divisor, is_profile = divide_counts([(1, load)]), load.kind == "profile"
    is_own = divisor <= 1 and load.kind != "histories"
    if is_own and not is_profile:
        timed = figures.over_time(load.kind, load.text, among.largest, among.limit, among.step, load.name)
        found, claim = CertifiedTable(timed.fit.footprint, timed.fit.classes, timed.fit_text, load.text), timed.claim
    else:
        found = certify_joined([(1, load)], divisor, among, [])
        found = found._replace(counts=is_own and load.text or found.counts)
        how = ("" if is_own else claim_words.how("bound")) + load.cap_words()
        claim = claims.check_certificate(found.certificate, found.counts, load.name, how)
    if not claim.holds and not claim.is_bound:
        raise Refusal(3, claim.sentence())
    return Bound(load.fixed + divisor * claim.cost, claim, divisor, is_own, found)


def divide_counts(parts: Sequence[tuple]) -> int:
    """By what the counts of loads, each times its number, are divided, so that a text can have them."""
    return -(-sum(factor * load.count_bound() for factor, load in parts) // MOST_COUNT)


def certify_joined(parts: Sequence[tuple], divisor: int, among: TableLimits, seen: list) -> CertifiedTable:
    """The certificate of loads of one kind, each times its number, added up, divided and rounded down: of what each
    table costs there, times the numbers, the sum is at least the divisor times its cost. SEEN are tables whose columns
    over time are taken from the start; it gets those that are found."""
    if parts[0][1].kind != "profile":
        return certify_columns(parts, divisor, among, seen)
    counts = divide(add_up((factor, load.counts) for factor, load in parts), divisor)
    text = count_texts.profile_text(counts).encode()
    _, made = figures.run(["tune", *figures.options(*among)], text)
    found = certificate_texts.parse_sheet(made)
    return CertifiedTable(found.waste, found.classes, f"{made}\n", text)


def certify_columns(parts: Sequence[tuple], divisor: int, among: TableLimits, seen: list) -> CertifiedTable:
    """The same of histories and timelines, and of their footprints."""
    is_served = lambda classes: all(load.unserved_size(classes) is None for _, load in parts)
    if not seen:
        seen += filter(is_served, first_tables(parts))
    best: Optional[CertifiedTable] = None
    for _ in range(ROUNDS):
        columns = peak_columns(parts, divisor, seen[-MOST_TABLES:])
        counts = {size: [column.get(size, 0) for column in columns] for size in sorted(set().union(*columns))}
        text = count_texts.history_text(count_texts.History(len(columns), counts)).encode()
        _, made = figures.run(["fit", *figures.options(*among)], text)
        found = certificate_texts.parse_fit(made)
        if best is None or found.footprint > best.cost:
            best = CertifiedTable(found.footprint, found.classes, f"{made}\n", text)
        if found.classes in seen[-MOST_TABLES:] or not is_served(found.classes):
            break
        seen.append(found.classes)
    assert best is not None
    return best


def first_tables(parts: Iterable[tuple]) -> list:
    """Scudo's tables; and, as every size has to be served, one with the needs of the largest sizes."""
    needs = sorted({timelines.need_of(size) for _, load in parts for size in load.sizes})
    spread = sorted({needs[-1], *(needs[len(needs) * at // 31] for at in range(31))})
    return [spread, *(classes for _, classes in figures.other_tables([]))]


def add_up(parts: Iterable[tuple]) -> dict:
    """Counts by size, each times its number."""
    sums: dict = {}
    for factor, counts in parts:
        count_texts.add_counts(sums, counts, factor)
    return sums


def divide(counts: dict, divisor: int) -> dict:
    """Counts that are divided and rounded down, without those that are 0 then."""
    return {size: count // divisor for size, count in counts.items() if count >= divisor}


def peak_columns(parts: Sequence[tuple], divisor: int, tables: list) -> list:
    """The columns of these tables, each size with its blocks."""
    found: list[dict] = []
    for classes in tables:
        peaks = [(factor, load.peak_columns(classes)) for factor, load in parts]
        is_sum = [factor for factor, _ in peaks] != [1]
        for at in range(len(classes)):
            sums = add_up((factor, columns[at]) for factor, columns in peaks) if is_sum else peaks[0][1][at]
            sums = divide(sums, divisor) if divisor > 1 else sums
            if sums and sums not in found[-2 * MOST_CLASSES :]:
                found.append(sums)
    return found
