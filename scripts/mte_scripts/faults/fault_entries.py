"""What find_faults tells: an entry for each cause. This is what its summary and other forms of its answer are made of.

    found = entries(log, verdicts, reports, places)
    found[0].kind                 one of KINDS
    found[0].uses[0]              the first wrong access or free of this cause; the others follow, each place and outcome once
    found[0].uses[0].error        fault_log.Error, with .verdict, what the heap has to answer to it (heap_answers.Verdict)
    found[0].uses[0].result       CAUGHT, NOT_CAUGHT or NOT_REPLAYED, and .why
    found[0].uses[0].times        how often the program did it, as far as the recorder saw
    found[0].result               of the cause: caught where one of its uses is
    found[0].stack, .made, .ended the numbers of stacks of the log: of the first use, and where its block was allocated, and freed or
                                  resized (0 where that is not known); places.frames(number) are the frames of one
    found[0].crash                of a CRASH, fault_log.Crash; it has no uses, and no result
    found[0].numbers              of all errors of the log that are of this cause, from 0
    found[0].ways                 the stacks that lead to the same line as .stack by other callers

An access of a live block beyond its bounds has one cause with those that come from the same source line and the same allocation, on the same
side of the block. An access of a freed or resized block has one with each other of that block, of blocks that were freed from the same
callers and first wrongly used at the same line, and of what is one object with it (its_calls). Whoever called the function of the wrong
access does not count where it made or freed the block itself (within). A second free has one with those whose two frees come from the same
lines (apart). Another wrong free has one with those from the same line, and so has a size that no object can have, with all blocks of its
call and with the crash that it brings. A use of poisoned memory has one with all uses of what
one call poisoned."""

import functools
import itertools
from collections import namedtuple

from mte_scripts.faults.fault_log import Error, Log
from mte_scripts.faults.fault_places import Frame, Places

OVERFLOW, UNDERFLOW, USE_AFTER_FREE, USE_AFTER_REALLOC = "overflow", "underflow", "use after free", "use after realloc"
DOUBLE_FREE, INVALID_FREE, WILD = "double free", "invalid free", "access of no block"
TOO_LARGE, POISON, OVERLAP = "impossible size", "use of poisoned memory", "overlapping copy"
MISMATCH, DEAD_VARIABLE = "mismatched free", "use of a dead variable"
VARIABLE_OVERFLOW, VARIABLE_UNDERFLOW = "overflow of a variable", "underflow of a variable"
CRASH, UNFREED = "crash", "memory leak"
# Of a kind: what it is, in words; and its class of CWE where it is a store or a free, where it is a load, and where it is a free of no block
# or a store on the stack.
Kind = namedtuple("Kind", "text store load special", defaults=(None,))
KINDS = {
    OVERFLOW: Kind("An access after the end of a heap block", 787, 126),
    UNDERFLOW: Kind("An access before the start of a heap block", 124, 127),
    USE_AFTER_FREE: Kind("An access of a heap block that was freed", 416, 416),
    USE_AFTER_REALLOC: Kind("An access by a pointer from before a realloc", 825, 825),
    DOUBLE_FREE: Kind("A free of a heap block that was freed", 415, 415),
    INVALID_FREE: Kind("A free of what is no start of a heap block", 761, 761, 590),
    WILD: Kind("An access far from every heap block", 119, 119),
    TOO_LARGE: Kind("An access of more bytes than an object can have", 805, 805),
    POISON: Kind("An access of memory that the program poisoned", 672, 672),
    OVERLAP: Kind("A copy between two places that overlap", 475, 475),
    MISMATCH: Kind("A free that does not fit how its block was allocated", 762, 762),
    VARIABLE_OVERFLOW: Kind("An access after the end of a variable", 787, 126, 121),
    VARIABLE_UNDERFLOW: Kind("An access before the start of a variable", 124, 127),
    DEAD_VARIABLE: Kind("An access of a variable after its scope or its function", 825, 825),
    UNFREED: Kind("A heap block to which no pointer is left", 401, 401),
    CRASH: Kind("The program was ended by a signal", None, None),
}
CAUGHT, NOT_CAUGHT, NOT_REPLAYED = "caught", "not caught", "not replayed"
RESULTS = (CAUGHT, NOT_CAUGHT, NOT_REPLAYED)
SAME_CALLERS = 3  # innermost frames that two stacks share which have the same callers

Use = namedtuple("Use", "at error verdict result why times")  # at: the number of the error in the log, from 0
Entry = namedtuple("Entry", "kind uses result stack made ended crash numbers ways left", defaults=([], None))
Left = namedtuple("Left", "blocks bytes")  # of an UNFREED: how much was lost


def kind_of(error: Error) -> str:
    if error.letter == "y":
        return MISMATCH
    if error.variable:
        return DEAD_VARIABLE if error.variable.dead else VARIABLE_UNDERFLOW if error.variable.offset < 0 else VARIABLE_OVERFLOW
    if error.is_free():
        return DOUBLE_FREE if error.letter == "o" or error.block and error.state != "live" and not error.offset else INVALID_FREE
    if error.is_too_large():
        return TOO_LARGE
    if error.is_inside():
        return POISON if error.is_of_poison() else OVERLAP
    if not error.block:
        return WILD if error.offset else USE_AFTER_FREE
    if error.state != "live":
        return USE_AFTER_FREE if error.state == "freed" else USE_AFTER_REALLOC
    return UNDERFLOW if error.offset < 0 else OVERFLOW


def block_of(error: Error) -> int:
    """The block by which a use is told apart from others of its place: a call with a wrong size may have two."""
    return error.block if error.is_too_large() else 0


def stacks_of(log: Log, errors: list[Error]) -> set[int]:
    """The numbers of the stacks that tell of some errors."""
    numbers = {number for error in errors for number in (error.stack, log.made[error.block], max(log.ended[error.block], 0))}
    numbers |= {mark.stack for error in errors for mark in (error.poisoned, error.unpoisoned, error.variable) if mark}
    return numbers | ({log.crash.stack} if log.crash else set())


def lifetime_calls(log: Log, error: Error, places: Places) -> "list[tuple]":
    """Of a use after free: the calls that made the block, freed it and used it, by the program's innermost functions and their callers. A
    block that has such three calls in common with another one is of one object with it, as a text with the struct that names it. What
    all have in common does not count: the program's first function."""

    def calls(stack: int) -> list[tuple]:
        pcs = log.stacks[stack].split(",") if stack > 0 else []
        own = [(at, frame) for at, pc in enumerate(pcs) for frame in places.at(int(pc, 16))[-1:] if frame.is_own()]
        return [(frame.function, *pcs[at + 1 : at + 1 + SAME_CALLERS]) for at, frame in own[:-1][:SAME_CALLERS]]

    ways = itertools.product(calls(log.made[error.block]), calls(log.ended[error.block]), calls(error.stack))
    return [(made, ended, used) for made, ended, used in ways if ended[0] != used[0]]


def count_own_frames(frames: list[Frame], others: list[Frame]) -> int:
    """How many of the innermost frames of a request or a free are of the function of the wrong access, or were called by it; 0 where that
    function did not make the request."""
    names = [(frame.function, frame.source) for frame in others[:SAME_CALLERS]]
    return names.index((frames[0].function, frames[0].source)) + 1 if frames and (frames[0].function, frames[0].source) in names else 0


def frames_to_difference(one: list[Frame], other: list[Frame]) -> "tuple[str, ...]":
    """The innermost frames of a stack, up to the first in which another one differs: the ways of both through the same functions."""
    same = next((at for at, (left, right) in enumerate(zip(one, other)) if left.show() != right.show()), SAME_CALLERS - 1)
    return tuple(frame.show() for frame in one[: same + 1])


def of_both_frees(log: Log, stack: int, block: int, places: Places) -> tuple:
    """What two double frees of one cause have in common."""
    second, first = places.frames(stack), places.frames(max(log.ended[block], 0))
    return frames_to_difference(second, first), frames_to_difference(first, second)


def cause_of(entry: "Entry", log: Log, places: Places) -> tuple:
    """What an entry has in common with those of other processes that are of its cause."""
    line = places.show(entry.stack, callers=False)
    if entry.kind == DOUBLE_FREE and entry.uses[0].error.block:
        return (entry.kind, *of_both_frees(log, entry.stack, entry.uses[0].error.block, places))
    if not entry.uses or entry.kind in (TOO_LARGE, POISON):
        return entry.kind, line, entry.crash and entry.crash.signal

    def lines(stack: int) -> "list[str]":
        frames = places.frames(stack)
        own = count_own_frames(places.frames(entry.stack), frames)
        return [frame.show() for frame in frames[: own or SAME_CALLERS]]

    return entry.kind, line, tuple(lines(entry.made)), tuple(lines(entry.ended)) if entry.uses[0].error.state != "live" else ()


class Causes:
    """What stands for the cause of each error of a log, told in their order. places has learned the stacks of all errors."""

    def __init__(self, log: Log, places: Places) -> None:
        self.log, self.places = log, places
        self.line = functools.lru_cache(maxsize=None)(functools.partial(places.show, callers=False))
        self.known: "set[tuple]" = set()
        self.of_block: "dict[tuple, tuple]" = {}
        self.of_object: "dict[tuple, tuple]" = {}
        self.of_region: "dict[tuple, tuple]" = {}

    def callers(self, stack: int) -> str:
        """By their lines, so that two calls in one line are the same; by their addresses, where the lines are not known."""
        return ",".join(map(self.call, self.log.stacks[max(stack, 0)].split(",")[:SAME_CALLERS]))

    def call(self, pc: str) -> str:
        frames = self.places.at(int(pc, 16)) if pc else []
        return " ".join(frame.show() for frame in frames) if frames and all(frame.line for frame in frames) else pc

    def callers_within(self, error: Error, stack: int) -> str:
        frames = self.places.frames(max(stack, 0))
        own = frames[: count_own_frames(self.places.frames(error.stack), frames)]
        return " ".join(frame.show() for frame in own) or self.callers(stack)

    def of(self, error: Error) -> tuple:
        key = self.found(kind_of(error), error)
        self.known.add(key)
        return key

    def found(self, kind: str, error: Error) -> tuple:
        block = error.block
        if kind in (USE_AFTER_FREE, USE_AFTER_REALLOC) and block:
            if (kind, block) not in self.of_block:
                self.of_block[kind, block] = self.of_use(kind, error)
            return self.of_block[kind, block]
        if kind == DOUBLE_FREE and block:
            return (kind, *of_both_frees(self.log, error.stack, block, self.places))
        if kind == TOO_LARGE:
            return kind, self.line(error.stack)
        if kind == POISON and error.poisoned:  # all uses of what one call poisoned
            return self.of_region.setdefault((block, error.poisoned.number), (kind, self.line(error.stack), self.callers(error.poisoned.stack)))
        made = self.callers_within(error, self.log.made[block]) if block else str(error.variable and error.variable[:2])
        return kind, self.line(error.stack), made, self.callers(self.log.ended[block]) if error.state != "live" else ""

    def of_use(self, kind: str, error: Error) -> tuple:
        """What a block's first wrong use is one cause with: another block's, or one of the object that it is of."""
        key: tuple = (kind, self.line(error.stack), self.callers_within(error, self.log.ended[error.block]))
        ways = lifetime_calls(self.log, error, self.places)
        if key not in self.known:
            key = next((self.of_object[kind, way] for way in ways if (kind, way) in self.of_object), key)
        self.of_object.update(((kind, way), key) for way in ways if (kind, way) not in self.of_object)
        return key

    def entry(self, kind: str, numbers: "list[int]", outcomes: "list[tuple]") -> Entry:
        """The entry of one cause, of the errors of these numbers."""
        log, uses = self.log, dict[tuple, Use]()
        for at in numbers:
            error, (verdict, result, why) = log.errors[at], outcomes[at]
            key = error.letter, error.state, self.line(error.stack), result, block_of(error)
            if key in uses:
                uses[key] = uses[key]._replace(times=uses[key].times + error.times)
            else:
                uses[key] = Use(at, error, verdict, result, why, error.times)
        first, results = log.errors[numbers[0]], [use.result for use in uses.values()]
        same = [stack for stack in (log.errors[at].stack for at in numbers) if self.line(stack) == self.line(first.stack)]
        ways = list({self.places.show(stack): stack for stack in reversed(same)}.values())[::-1]
        made, ended = log.made[first.block], max(log.ended[first.block], 0) if first.state != "live" else 0
        return Entry(kind, list(uses.values()), min(results, key=RESULTS.index), first.stack, made, ended, None, numbers, ways[1:])


def entries(log: Log, outcomes: "list[tuple]", places: Places) -> "list[Entry]":
    """The entries of a log, in the order of their first use. An outcome of an error is (verdict, result, why). places has learned the
    stacks of all errors."""
    causes, numbers = Causes(log, places), dict[tuple, "list[int]"]()
    for at, error in enumerate(log.errors):
        numbers.setdefault(causes.of(error), []).append(at)
    found = [causes.entry(key[0], each, outcomes) for key, each in numbers.items()]
    if log.crash and not (log.errors and log.errors[-1].is_too_large() and causes.line(log.errors[-1].stack) == causes.line(log.crash.stack)):
        found.append(Entry(CRASH, [], None, log.crash.stack, 0, 0, log.crash, []))
    return found
