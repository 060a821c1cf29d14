"""Tells the errors of a log, what the heap of the replay made of each, and why."""

import html
from collections import Counter
from collections.abc import Iterator

from mte_scripts import html_safe
from mte_scripts.entry_point import printable
from mte_scripts.faults.fault_entries import CAUGHT, NOT_CAUGHT, NOT_REPLAYED, RESULTS, Entry, Left, block_of, entries, stacks_of
from mte_scripts.faults.fault_log import Crash, Error, Log, Mark
from mte_scripts.faults.fault_places import Places
from mte_scripts.faults.heap_answers import Answers, Verdict
from mte_scripts.faults.odds import Odds
from mte_scripts.faults.variables import tell_variable, value_of

MOST_USES = 8  # of a cause that are shown
PLACES = ("a block that was freed long ago", "an address that the heap never gave out", "memory that is not the heap's")  # by the offset
GUESS = " (by a guess: AddressSanitizer does not tell where a call begins, nor whose pointer it is)"
NO_END = "the program did not come to its end"  # of what a log misses


def outcome(verdict: Verdict, report: dict[int, str]) -> tuple[str, str]:
    """(caught, not caught or not replayed; why) of an error in a replay."""
    if verdict.kind == "ruled":
        return CAUGHT, verdict.promise.reason
    if verdict.kind in ("left", "large"):
        return (NOT_REPLAYED if verdict.kind == "left" else NOT_CAUGHT), verdict.promise.reason
    line = report.get(verdict.event)
    if line is None:
        return NOT_CAUGHT, verdict.promise.reason
    words = line.split(" ")
    if words[0] == "refused":
        return CAUGHT, f"{words[1]}, the free is refused (event {verdict.event})"
    if words[1] == "unmapped":
        return CAUGHT, f"unmapped, it is outside the region (event {verdict.event})"
    granule, memory, pointer, kind = words[3], words[5], words[7], words[9]
    if verdict.is_free:
        return CAUGHT, f"wrong-tag, the slot has tag {memory}, the pointer tag {pointer} (asked by a load, event {verdict.event})"
    return CAUGHT, f"tag fault, granule {granule} has tag {memory} ({kind}), the pointer tag {pointer} (event {verdict.event})"


def find_entries(log: Log, verdicts: list[Verdict], report: dict[int, str]) -> tuple[list[Entry], Places]:
    """(the entries of a log after its replay, the Places that name their frames)."""
    places = Places(log)
    places.learn(stacks_of(log, log.errors))
    outcomes = [outcome(verdict, report) for verdict in verdicts]
    whys = [why + GUESS * error.is_guess for error, (_, why) in zip(log.errors, outcomes)]
    return entries(log, [(verdict, result, why) for verdict, (result, _), why in zip(verdicts, outcomes, whys)], places), places


def count(number: int, word: str) -> str:
    return f"{number} {word}" + ("" if number == 1 else "s")


def sentence(error: Error, log: Log) -> str:
    """What the program did; the runtime has the same words (tell.c)."""
    size = log.size[error.block]
    block = f"a block of {count(size, 'byte')}"
    if error.letter == "n" or error.is_free():
        return free_sentence(error, block)
    if error.letter == "V":
        place = f"{count(error.offset, 'byte')} into {block}" if error.block else f"at the address 0x{error.offset:x}"
        return f"overlapping copy of {count(error.size, 'byte')}, {place}"
    access = f"{'load' if error.is_load() else 'store'} of {count(error.size, 'byte')}"
    if error.variable:
        its = error.variable
        near, name = error._replace(offset=its.offset, state=its.dead or "live"), f"{its.kind} {its.name} of {count(its.size, 'byte')}"
        return f"{access}, {place_sentence(near, its.size, name)}"
    if error.is_of_poison():
        access += f" {'of' if error.is_load() else 'to'} poisoned memory"
    if error.is_of_poison() and not error.block:
        return f"{access}, at the address 0x{error.offset:x}"
    if error.is_too_large():
        access += ", more than an object can have"
    if not error.block:
        return access + ("," if error.is_too_large() else "") + " of " + PLACES[error.offset]
    return f"{access}, {place_sentence(error, size, block)}"


def state_clause(error: Error) -> str:
    clauses = {"live": "", "scope": " after the end of its scope", "return": " after its function's return"}
    return clauses.get(error.state, f" that was {error.state}")


def free_sentence(error: Error, block: str) -> str:
    if error.letter == "y":
        made, used = error.functions or ("", "")
        return f"{used} of {block} that {made} made" if used else f"free of {block}, by another function than fits how it was allocated"
    if error.letter == "n":
        return "free of an address that the heap never gave out"
    if not error.block:
        return "free of a block that was freed long ago"
    where = f"a pointer {count(abs(error.offset), 'byte')} {'into' if error.offset > 0 else 'before'} "
    return f"free of {where * bool(error.offset)}{block}{state_clause(error)}"


def place_sentence(error: Error, size: int, block: str) -> str:
    """Where an access begins."""
    if error.offset < 0:
        return f"{count(-error.offset, 'byte')} before {block}{state_clause(error)}"
    if error.offset >= size:
        return f"{count(error.offset - size, 'byte')} after {block}{state_clause(error)}"
    if error.state == "live" and not error.is_too_large() and not error.is_of_poison():
        return f"from {count(error.offset, 'byte')} into {block} to {count(error.offset + error.size - size, 'byte')} after it"
    return f"{count(error.offset, 'byte')} into {block}{state_clause(error)}"


def crash_sentence(crash: Crash) -> str:
    return crash.signal + (f" at the address 0x{crash.address:x}" if crash.address is not None else "")


def left_sentence(left: Left) -> str:
    return f"{count(left.bytes, 'byte')} in {count(left.blocks, 'block')}, to which no pointer is left at the end"


def history(entry: Entry, log: Log, places: Places) -> list[str]:
    """Where the block of an entry was allocated, and freed or resized: a line each."""
    error = entry.uses[0].error
    lines = [f"{did} at {places.show(mark.stack)}: {mark_clause(mark, error)}" for did, mark in marks_of(error) if mark]
    lines += tell_variable(value_of(places.resolve(error.variable), error.size)) if error.variable else []
    lines += [f"allocated at {places.show(entry.made)}"] if error.block else []
    lines += [f"{error.state} at {places.show(entry.ended)}"] if error.block and error.state != "live" else []
    for other in {use.error.block: use.error for use in entry.uses if block_of(use.error)}.values() if block_of(error) else ():
        if other.block != error.block:
            lines.append(f"the other block allocated at {places.show(log.made[other.block])}")
            lines += [f"the other block {other.state} at {places.show(log.ended[other.block])}"] if other.state != "live" else []
    return lines


def marks_of(error: Error) -> "tuple[tuple, tuple]":
    return ("poisoned", error.poisoned), ("unpoisoned before", error.unpoisoned)


def mark_clause(mark: Mark, error: Error) -> str:
    """Where an access is in the bytes that a call poisoned or unpoisoned."""
    apart = error.offset - mark.offset
    return f"{count(mark.size, 'byte')}, the access begins {count(abs(apart), 'byte')} {'into' if apart >= 0 else 'before'} them"


def tell(log: Log, found: "list[Entry]", places: Places, odds: Odds) -> "list[str]":
    """The text of some entries."""
    return [line for entry in found for line in tell_entry(entry, log, places, odds)]


def tell_entry(entry: Entry, log: Log, places: Places, odds: Odds) -> "list[str]":
    """What was done and where, with the callers; what came of it, and the odds; and the same of what else has this cause."""
    place, *callers = [frame.show() for frame in places.frames(entry.stack)] or ["an unknown place"]
    from_callers = [f"    from {caller}" for caller in callers]
    from_callers += other_ways(entry, places)
    if not entry.uses:
        return [f"{place}: {crash_sentence(entry.crash) if entry.crash else left_sentence(entry.left)}", *from_callers]
    first, *others = entry.uses
    lines = [f"{place}: {sentence(first.error, log)}{often(first.times)}", *from_callers, f"    {first.result}: {first.why}"]
    for use in others[: MOST_USES - 1]:
        at = places.show(use.error.stack, callers=False)
        lines.append(f"    then {at}: {sentence(use.error, log)}{often(use.times)}: {use.result}: {use.why}")
    if len(others) >= MOST_USES:
        lines.append(f"    and so at {count(len(others) - MOST_USES + 1, 'other place')}")
    of_heap = [] if first.error.variable else odds.lines(entry.numbers)
    return lines + [f"    {line}" for line in (*of_heap, *history(entry, log, places))]


def other_ways(entry: Entry, places: Places) -> "list[str]":
    """The callers that lead to the same line, beside those of the first use."""
    ways = [", from ".join(frame.show() for frame in places.frames(stack)[1:]) for stack in entry.ways]
    lines = [f"    also from {way}" for way in ways[:MOST_USES] if way]
    return lines + ([f"    and by {count(len(ways) - MOST_USES, 'other way')}"] if len(ways) > MOST_USES else [])


def often(times: int) -> str:
    return f" ({times} times)" if times > 1 else ""


def notes(log: Log, answers: Answers) -> "Iterator[tuple[int, str]]":
    """For each error that an event of the trace asks: the event, and what the program did, what came of it, and whose block it was."""
    asked = [(error, verdict) for error, verdict in zip(log.errors, answers.verdicts) if verdict.event]
    places = Places(log)
    places.learn(stacks_of(log, [error for error, _ in asked]))
    for error, verdict in asked:
        result, why = outcome(verdict, answers.reports[0])
        text = f"{places.show(error.stack, callers=False)}: {sentence(error, log)}. {result.capitalize()}: {why}."
        text += f" Allocated at {places.show(log.made[error.block])}."
        if error.state != "live":
            text += f" {error.state.capitalize()} at {places.show(log.ended[error.block])}."
        yield verdict.event, printable(text)


def totals(log: Log, found: "list[Entry]", answers: Answers) -> "list[str]":
    lines = [f"errors {len(found)}"]
    reasons = Counter((entry.result, entry.uses[0].why) for entry in found if entry.result not in (CAUGHT, None))
    for result in RESULTS:
        lines.append(f"{result} {sum(entry.result == result for entry in found)}")
        lines += [f"    {number}: {why}" for (of, why), number in reasons.items() if of == result]
    if log.crash:
        lines.append("crashed 1")
    lines.append(f"wrong accesses and frees {sum(use.times for entry in found for use in entry.uses)}")
    lines.append(f"events {answers.events}")
    lines += [f"left out: {number} {words}" for words, number in sorted(answers.left_out.items())]
    return lines


def ending(status: int) -> list:
    """A line where the program did not end well."""
    return [f"the program ended with status {status}"] if status else []


def tell_seeds(log: Log, found: "list[Entry]", places: Places, reports: "list[dict[int, str]]", odds: Odds) -> "Iterator[str]":
    """A line for each use of each entry: over how many seeds it was caught, and what that rests on; and the odds of the entry."""
    for entry in found:
        for use in entry.uses:
            results = Counter(outcome(use.verdict, report)[0] for report in reports)
            counts = ", ".join(f"{result} {results[result]}" for result in RESULTS if results[result])
            reason = "law_own_pointer" if use.verdict.kind == "ruled" else use.verdict.promise.reason
            yield f"{places.show(use.error.stack, callers=False)}: {sentence(use.error, log)}: {counts} ({reason})"
        if entry.uses:
            yield from (f"    {line}" for line in odds.lines(entry.numbers))


def page(name: str, lines: list[str]) -> str:
    """A page of the report alone."""
    title = html.escape(f"Memory errors of {name}")
    style = "body { font: 15px/1.5 monospace; margin: 2em; white-space: pre-wrap } h1 { font-size: 1.2em }"
    text = html.escape("\n".join(printable(line) for line in lines))
    head = f"<!doctype html>\n<html lang=\"en\">\n{html_safe.HEAD}<title>{title}</title>\n<style>{style}</style>\n"
    return html_safe.with_policy(f"{head}<h1>{title}</h1>\n<div>{text}</div>\n</html>\n")
