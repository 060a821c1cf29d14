"""What a program left unfreed at its end. Lost blocks, to which the runtime found no pointer, are errors, one for each line that requests
them. Those that are still reachable are none: a program may leave them to the system. Nor are those to which the stack alone has a pointer,
which may be one of a function that has returned. What libc keeps for itself is only counted."""

import os
from collections.abc import Callable, Iterator

from mte_scripts.faults.fault_entries import UNFREED, Entry, Left
from mte_scripts.faults.fault_log import Log
from mte_scripts.faults.fault_places import RUNTIME, Places
from mte_scripts.faults.fault_report import count

LIBC = ("libc.so", "libc-", "ld-linux", "ld-", "libpthread")
BY_STACK = ", to which the stack alone has a pointer"
NOT_SEARCHED = "the program ended by a signal or before its end: which of the blocks are lost is not known"


def by_line(log: Log, places: Places, is_wanted: "Callable[[int], bool]") -> "dict[str, dict[int, list[int]]]":
    """The blocks that were left, by the line that requested them and by its stack."""
    passed = log.unrecorded | log.ignored
    left = [block for block in range(1, len(log.size)) if log.ended[block] == -1 and block not in passed]
    wanted = [block for block in left if is_wanted(block)]
    places.learn({log.made[block] for block in wanted})
    found: "dict[str, dict[int, list[int]]]" = {}
    for block in wanted:
        stack = log.made[block]
        found.setdefault(places.show(stack, callers=False), {}).setdefault(stack, []).append(block)
    return found


def find_lost_blocks(log: Log, places: Places) -> "list[Entry]":
    """The entries of blocks to which no pointer is left."""
    found = []
    for stacks in by_line(log, places, log.lost.__contains__).values():
        blocks = [block for each in stacks.values() for block in each]
        first, left = next(iter(stacks)), Left(len(blocks), sum(log.size[block] for block in blocks))
        ways = {places.show(stack): stack for stack in reversed(stacks)}
        found.append(Entry(UNFREED, [], None, first, first, 0, None, [], [stack for stack in ways.values() if stack != first], left))
    return found


def is_libcs(log: Log, stack: int) -> bool:
    """Whether libc requested a block for itself, as a buffer of standard output."""
    for pc in filter(None, log.stacks[stack].split(",")):
        module = next((module for module in log.modules if module.low <= int(pc, 16) < module.high), None)
        name = os.path.basename(module.path) if module else ""
        if name != RUNTIME:
            return name.startswith(LIBC)
    return False


def tell_left(log: Log, places: Places) -> "Iterator[str]":
    """A line for each line of the program that requested blocks which may be lost, or are still reachable at the end."""
    if 0 not in log.lost:
        yield f"unfreed: {NOT_SEARCHED}"
    says = "still reachable at the end" if 0 in log.lost else "unfreed at the end"
    found = log.lost | log.maybe_lost
    of_libc: "list[int]" = []
    kinds = ("possibly lost at the end", BY_STACK, log.maybe_lost.__contains__), (says, "", lambda block: block not in found)
    for title, more, is_wanted in kinds:
        for stacks in by_line(log, places, is_wanted).values():
            of_libc += [block for stack, each in stacks.items() if is_libcs(log, stack) for block in each]
            own = {stack: each for stack, each in stacks.items() if not is_libcs(log, stack)}
            if own:
                blocks = [block for each in own.values() for block in each]
                yield f"{title}: {amount(log, blocks)}{more}, allocated at {places.show(next(iter(own)))}"
    if of_libc:
        yield f"{says}: {amount(log, of_libc)} of libc's own"


def amount(log: Log, blocks: "list[int]") -> str:
    return f"{count(sum(log.size[block] for block in blocks), 'byte')} in {count(len(blocks), 'block')}"
