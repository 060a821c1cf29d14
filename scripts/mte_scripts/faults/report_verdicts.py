"""What the tagged heap makes of an error that a report of another tool tells, by the laws of docs/HEAP.md.

A report says what an access has to do with its block, and not where the block is, or who else had its slot. So each
case is asked of the laws (heap_answers.verdict), by the granules that the access meets there. Where all cases have one
result, that is the answer."""

from collections import namedtuple
from collections.abc import Iterator
from types import SimpleNamespace
from typing import Any

from mte_scripts.faults import fault_entries, heap_answers, other_heaps
from mte_scripts.faults.fault_entries import CAUGHT, NOT_CAUGHT, NOT_REPLAYED
from mte_scripts.faults.fault_log import Error
from mte_scripts.faults.heap_answers import Facts, Granule, Verdict
from mte_scripts.faults.histories import GRANULE, BlockPast, Histories, round_to_granule
from mte_scripts.faults.sanitizer_reports import CRASH, FOREIGN, FREE, HEAP, HWASAN, LOAD, MISMATCH, OVERLAP
from mte_scripts.faults.sanitizer_reports import POISON_LOAD, POISON_STORE, Report
from mte_scripts.faults.shares import ALWAYS, NEVER, UNKNOWN, Share
from mte_scripts.faults.variables import GLOBAL, NOT_TAGGED
from mte_scripts.formats import LARGEST_SIZE

DEPENDS, BY_CHANCE = "depends", "by chance"
RESULTS = (CAUGHT, DEPENDS, BY_CHANCE, NOT_CAUGHT, NOT_REPLAYED)
HEAPS = ("this heap", "Scudo", "glibc")
FARTHEST = 3  # slots of its class around a block within which each place is looked at
# of an act; others are stores
LETTERS = {LOAD: "L", FREE: "x", MISMATCH: "y", OVERLAP: "V", POISON_LOAD: "P", POISON_STORE: "Q"}

LAWS = {
    "law_bookkeeping": "it meets a header, a tail or slack, whose tag is 0 (law_bookkeeping)",
    "law_neighbours": "it meets the slot beside its own (law_neighbours)",
    "law_freed": "its slot's next user is not freed yet (law_freed)",
    "law_own_pointer": "free takes the own pointer of a live chunk alone (law_own_pointer)",
    "law_accesses": "it is outside the region (law_accesses)",
}
NO_CLASS = "no class of the table serves its block"
NO_PLACE = "the report names no block"

IN_GRANULE = "if the call ends in the last granule of the block"
BEYOND = "if the call goes on after the last granule of the block"
IN_PLACE, NO_USER = "if a realloc ended the block, and in place", "if its slot has had no other user since"
NEXT_USER, LATER_USER = "if its slot's next user is live", "if its slot's next user was freed too"
NEXT_FREED, THIRD_USER = "if its slot's users since were all freed", "if its slot has its third user, or a later one"
NEIGHBOUR = "if it falls in a header, a tail, slack or a slot of the other parity"
SAME_PARITY = "if it falls in a chunk of the same parity"
IN_NEW, AFTER_NEW = ", and the new size has what is touched", ", and the new size has not all of what is touched"
OF_BLOCK, OF_ANOTHER = "if the pointer is to this block", "if the pointer is to another block"
OTHER_PLACE, NO_OTHER = "if the other place of the call is a block", "if no place of the call is a block"
FORGOTTEN, NEVER_GIVEN = "if it is a block that was freed long ago", "if the heap never gave it out"
OVERWRITTEN = "if it is a live block, and what was written after its end changed its short granule's tag"

# What is supposed, in words or empty; what that makes of the error: result and why; and the odds: a Share of each of
# HEAPS, or None.
Case = namedtuple("Case", "supposed result why odds")
Judged = namedtuple("Judged", "error size kind result why cases")


class Layout:
    """The slots of a class table in a region of so many granules (docs/HEAP.md)."""

    def __init__(self, table: "list[int]", granules: int) -> None:
        self.table, self.granules = table, granules
        self.share = granules // len(table) if table else 0
        self.slots = [self.share // each for each in table]
        self.before = [sum(self.slots[:at]) for at in range(len(table))]  # slots of the classes below
        self.known: "dict[tuple, list[Facts]]" = {}  # what was asked already

    def class_of(self, size: int) -> "int | None":
        """The number of the least class that serves a request and has a slot."""
        need = 1 + max(1, round_to_granule(size) // GRANULE)
        at = next((at for at, each in enumerate(self.table) if each >= need), None)
        return at if at is not None and self.slots[at] else None

    def least_chunk(self, at: int) -> int:
        """The granules of the smallest chunk of a class."""
        return max(1, self.table[at - 1]) if at else 1

    def places(self, at: int) -> "list[int]":
        """Slots of a class, by their numbers in it, that stand for all: those near its ends, and one between."""
        last = self.slots[at] - 1
        ends = {place for near in range(2 * FARTHEST + 2) for place in (near, last - near) if 0 <= place <= last}
        return sorted(ends | {last // 2})

    def first(self, at: int, place: int) -> int:
        return at * self.share + place * self.table[at]

    def granule(self, number: int) -> "tuple[str, int | None]":
        """(outside, slack, header or payload; the slot) of a granule."""
        if not 0 <= number < self.granules:
            return "outside", None
        at, within = divmod(number, self.share)
        if at >= len(self.table) or within // self.table[at] >= self.slots[at]:
            return "slack", None
        return "header" if within % self.table[at] == 0 else "payload", self.before[at] + within // self.table[at]


# what an access meets

# What the payload of the block's own slot is: kind and generation of its chunk, and how many granules surely are of it,
# and at most.
Own = namedtuple("Own", "kind generation sure most")


class Meetings:
    """The Facts of an error of a block of this size, for each place that the block may have."""

    def __init__(self, layout: Layout, size: int) -> None:
        self.layout, self.at = layout, layout.class_of(size)
        self.room = layout.table[self.at] - 1 if self.at is not None else 0

    def is_near(self, error: Error, size: int) -> bool:
        offset = error.offset if error.is_free() else error.window(size)[0]
        return abs(offset) < GRANULE * FARTHEST * (self.room + 1)

    def facts_of(self, error: Error, size: int, own: Own) -> "list[Facts]":
        begin, length = (error.offset - GRANULE, 2 * GRANULE) if error.is_free() else error.window(size)
        key = self.at, begin // GRANULE, (begin + length - 1) // GRANULE, own
        if key not in self.layout.known:
            self.layout.known[key] = self.distinct_facts(*key)
        return self.layout.known[key]

    def distinct_facts(self, at: int, first: int, last: int, own: Own) -> "list[Facts]":
        """Of the granules from one to another, counted from the payload on; slots are counted from the block's own."""
        found: "dict[tuple, Facts]" = {}
        for place in self.layout.places(at):
            payload, slot = self.layout.first(at, place) + 1, self.layout.before[at] + place
            for is_chunk in (True, False):
                met = [self.kind_of(payload + each, payload, slot, own, is_chunk) for each in range(first, last + 1)]
                met = [each._replace(slot=each.slot - slot) if each.slot is not None else each for each in met]
                found.setdefault(tuple(met), Facts(1, first, 0, 1, met))
        return list(found.values())

    def kind_of(self, number: int, payload: int, own_slot: int, own: Own, is_chunk: bool) -> Granule:
        """A granule. Where a report leaves open whether it is of a chunk, that is as given."""
        kind, slot = self.layout.granule(number)
        if kind != "payload":
            return Granule(kind)
        if slot == own_slot:
            is_own = number - payload < (own.most if is_chunk else own.sure)
            return Granule(own.kind, slot, own.generation) if is_own else Granule("tail")
        return Granule("other", slot, 1) if is_chunk else Granule("tail")


# the cases of a report


def judge_report(report: Report, layout: Layout) -> Judged:
    """The error of a report, and what the heap makes of it in each case."""
    size = report.size
    error = error_of(report)
    kind = fault_entries.CRASH if report.act == CRASH else fault_entries.kind_of(error)
    if report.is_resized and kind == fault_entries.USE_AFTER_FREE:
        kind = fault_entries.USE_AFTER_REALLOC
    cases = [] if report.act == CRASH else list(dict.fromkeys(cases_of(report, error, layout)))
    results = {case.result for case in cases}
    if not cases:
        return Judged(error, size, kind, None, report.detail, [])
    if len(results) == 1:
        whys = list(dict.fromkeys(case.why for case in cases))
        return Judged(error, size, kind, cases[0].result, whys[0], cases)
    return Judged(error, size, kind, DEPENDS, "; ".join(f"{case.supposed}: {case.result}" for case in cases), cases)


def error_of(report: Report) -> Error:
    letter, state = LETTERS.get(report.act, "S"), report.state
    if report.where != HEAP:
        letter = "n" if letter in "xy" else {"P": "L", "Q": "S"}.get(letter, letter)
        return Error(letter, 0, 2 if report.where == FOREIGN else 1, report.length, 0, "live", variable=report.variable)
    is_inside = 0 <= report.offset and report.offset + report.length <= report.size and state == "live"
    if letter in "PQV" and not is_inside:
        letter = "L" if letter == "P" else "S"
    if report.is_resized:
        state = "resized"
    functions = tuple(report.detail.split(" ")) if letter == "y" and report.detail else None
    return Error(letter, 1, report.offset, 0 if letter in "xy" else report.length, 0, state, functions=functions)


def cases_of(report: Report, error: Error, layout: Layout) -> "Iterator[Case]":
    if report.where != HEAP:
        yield from cases_without_block(report, error)
    elif report.act == MISMATCH:
        yield Case("", NOT_CAUGHT, heap_answers.ONE_FREE, (NEVER, other_heaps.COMPARED, NEVER))
    elif report.size <= LARGEST_SIZE and layout.class_of(report.size) is None:
        yield Case("", NOT_REPLAYED, NO_CLASS, None)
    else:
        cases = (cases_after_free if report.state == "freed" else cases_while_live)(report, error, layout)
        if is_beside(error, report.size):
            yield from cases
        else:
            yield from (case._replace(supposed=case.supposed or OF_BLOCK) for case in cases)
            yield Case(join_conditions(OF_ANOTHER, NEIGHBOUR), CAUGHT, LAWS["law_bookkeeping"], None)
            yield Case(join_conditions(OF_ANOTHER, SAME_PARITY), BY_CHANCE, heap_answers.SAME_PARITY, None)


def is_beside(error: Error, size: int) -> bool:
    """Whether an access begins or ends where its block does. A tool names the nearest block, and not the pointer's."""
    if error.is_inside():
        return True
    if error.is_free():
        return 0 <= error.offset <= size
    return error.offset <= size if error.offset >= 0 else error.offset + error.size >= 0


def cases_without_block(report: Report, error: Error) -> "Iterator[Case]":
    if error.letter == "V":
        yield Case("", NOT_CAUGHT, heap_answers.OVERLAPS, (NEVER, NEVER, NEVER))
    elif error.is_too_large():
        yield Case(OTHER_PLACE, CAUGHT, LAWS["law_bookkeeping"], None)
        yield Case(NO_OTHER, NOT_REPLAYED, heap_answers.NOT_OF_HEAP, None)
    elif error.letter != "n":
        why = heap_answers.NOT_OF_HEAP if report.where == FOREIGN else NO_PLACE
        yield Case("", NOT_REPLAYED, NOT_TAGGED if error.variable and error.variable.kind == GLOBAL else why, None)
    else:
        is_known = report.where == FOREIGN
        odds = ALWAYS, other_heaps.CHECKSUM, other_heaps.NO_BLOCK
        yield Case("" if is_known else NEVER_GIVEN, CAUGHT, heap_answers.NOT_GIVEN, odds)
        if not is_known:
            yield Case(FORGOTTEN, BY_CHANCE, heap_answers.REUSED, None)
        if report.tool == HWASAN and not is_known:
            yield Case(OVERWRITTEN, NOT_CAUGHT, heap_answers.LAST_GRANULE, None)


def cases_while_live(report: Report, error: Error, layout: Layout) -> "Iterator[Case]":
    """Of a block that was not freed: for each end that a call may have, and each place of the block."""
    size = report.size
    least, most = error, error
    if report.is_begin_open:
        least = error._replace(offset=max(0, report.offset - report.length + 1))
    if report.is_end_open:
        most = error._replace(size=error.size + round_to_granule(size) + GRANULE)
    for each, supposed in ((least, IN_GRANULE), (most, BEYOND)) if least != most else ((error, ""),):
        own = Own("other", 1, chunk_granules(size), chunk_granules(size))
        for case in cases_at_places(each, report, layout, own, block_past(size), ""):
            both = supposed + case.supposed[2:] if case.supposed and supposed else case.supposed or supposed
            yield case._replace(supposed=both)


def chunk_granules(size: int) -> int:
    return max(1, round_to_granule(size) // GRANULE)


def cases_after_free(report: Report, error: Error, layout: Layout) -> "Iterator[Case]":
    """Of a block that was freed, or moved by a realloc: for each thing that may have become of its slot since."""
    size, at = report.size, layout.class_of(report.size)
    chunk, most = chunk_granules(size), layout.table[at] - 1 if at is not None else 0
    if report.is_resized is not False and at is not None and size <= LARGEST_SIZE:
        in_place, own = error._replace(state="resized"), Own("other", 1, layout.least_chunk(at), most)
        yield from cases_at_places(in_place, report, layout, own, None, IN_PLACE)
    supposed = [(NO_USER, Own("dead", 1, chunk, chunk), 0), (NEXT_USER, Own("other", 2, 0, most), 1), (LATER_USER, Own("dead", 2, 0, most), 2)]
    if error.is_free():
        supposed[2:] = [(NEXT_FREED, Own("dead", 2, 0, most), 1), (THIRD_USER, Own("other", 3, 0, most), 2)]
    for words, own, users in supposed:
        yield from cases_at_places(error._replace(state="freed"), report, layout, own, block_past(size, users), words)


def cases_at_places(
    error: Error, report: Report, layout: Layout, own: Own, past: "BlockPast | None", supposed: str
) -> "Iterator[Case]":
    """The cases of an error over all places of its block."""
    blocks: Any = SimpleNamespace(size=[0, report.size])
    meetings, found = Meetings(layout, report.size), dict[str, "tuple[Verdict, str]"]()
    if meetings.at is None:  # the block is large
        facts = [Facts(1, 0, 0, 0, [])]
    elif meetings.is_near(error, report.size):
        facts = meetings.facts_of(error, report.size, own)
    else:
        header, chunk = Granule("header"), Granule("other", 2, 1)
        facts = [Facts(1, 0, 0, 1, [first, chunk]) for first in (chunk, header)]
    for each in facts:
        verdict = heap_answers.verdict(error, each, blocks)
        result, why = outcome(verdict)
        found.setdefault(result, (verdict, why))
    if report.state == "freed" and BY_CHANCE in found:
        found = {BY_CHANCE: found[BY_CHANCE]}  # which may catch it too
    for result, (verdict, why) in sorted(found.items(), key=lambda pair: RESULTS.index(pair[0])):
        words = join_conditions(supposed, NEIGHBOUR if result == CAUGHT else SAME_PARITY)
        if supposed == IN_PLACE:
            words = supposed + (IN_NEW if result == NOT_CAUGHT else AFTER_NEW)
        words = words if len(found) > 1 else supposed
        yield Case(words, result, why, odds_of(error, report, past, result, verdict, len(found) > 1))


def join_conditions(one: str, other: str) -> str:
    return f"{one}, and {other[3:]}" if one else other


def outcome(verdict: Verdict) -> "tuple[str, str]":
    reason = verdict.promise.reason
    if verdict.kind in ("left", "large"):
        return (NOT_REPLAYED if verdict.kind == "left" else NOT_CAUGHT), reason
    if verdict.kind == "ruled" or verdict.promise.answer == "refused":
        return CAUGHT, LAWS.get(reason, reason)
    return (NOT_CAUGHT if verdict.promise.answer == "accepted" else BY_CHANCE), reason


# the odds


def block_past(size: int, users: "int | None" = None) -> BlockPast:
    """A block of which nothing else is known: live, or freed, and so many requests since."""
    seen = Histories(is_small=True)  # as a log that lacks other blocks
    seen.has_freed = True
    seen.request(1, size)
    if users is not None:
        seen.free(1, size)
        for number in range(users):
            seen.request(2 + number, size)
    return seen.past(1)


def odds_of(
    error: Error, report: Report, past: "BlockPast | None", result: str, verdict: Verdict, is_one_of: bool
) -> "tuple[Share, ...]":
    here = ALWAYS if result == CAUGHT else NEVER if result == NOT_CAUGHT else UNKNOWN
    if result == BY_CHANCE:
        here = other_heaps.REUSED if verdict.promise.reason == heap_answers.REUSED else other_heaps.ELSEWHERE
    if past is None:  # a realloc in place, by each heap's own rules
        is_sure = result == NOT_CAUGHT and not is_one_of
        scudo = other_heaps.IN_PLACE if is_sure else UNKNOWN.since("its new size is not known")
        return here, scudo, other_heaps.SAME_POINTER
    return here, other_heaps.on_scudo(error, report.size, past), other_heaps.on_glibc(error, report.size, past)
