"""Tombstones: what Android's debuggerd writes of a fault that the Memory Tagging Extension told, with what Scudo knows of its block. Written
for each error that the replay catches, and read, to say which of the errors fit one of a phone best.

What is not known here, as registers, is left out. An address is that of the replay: its region begins at BASE. Scudo refuses a wrong free by
a message, and not by a fault."""

import os
import re
from collections import namedtuple
from collections.abc import Iterator
from typing import Any

from mte_scripts.entry_point import Refusal
from mte_scripts.faults import fault_entries, findings
from mte_scripts.faults.fault_entries import CAUGHT, Entry, Use
from mte_scripts.faults.fault_log import Error
from mte_scripts.faults.fault_places import RUNTIME
from mte_scripts.faults.fault_report import count
from mte_scripts.recording.calls import without_parameters

BASE, TAG_SHIFT = 0x7000_0000_0000, 56
GRANULE = 16
STARS = " ".join(["***"] * 16)
OVERFLOW, UNDERFLOW, AFTER_FREE = "Buffer Overflow", "Buffer Underflow", "Use After Free"
CAUSES = {
    fault_entries.OVERFLOW: OVERFLOW, fault_entries.UNDERFLOW: UNDERFLOW, fault_entries.USE_AFTER_FREE: AFTER_FREE,
    fault_entries.USE_AFTER_REALLOC: AFTER_FREE, fault_entries.TOO_LARGE: OVERFLOW,
}
FAULT = re.compile(r"fault tag granule (\d+) memory \d+ pointer (\d+)")
CAUSE = re.compile(r"\[MTE\]: ([A-Z][A-Za-z ]+), (\d+) bytes? (right of|left of|into) a (\d+)-byte allocation")
SIGNAL = re.compile(r"signal (\d+) \((SIG[A-Z]+)\), code -?\d+ \((SEGV_MTE[SA]ERR|[A-Z_]+)")
ABORT = re.compile(r"Scudo ERROR: (invalid chunk state|misaligned pointer|corrupted chunk header)")
FRAME = re.compile(r"\s*#\d+ +pc +[0-9a-f]+ +(\S+)(?: +\((.*)\))?")
FREES = {"invalid chunk state": (fault_entries.DOUBLE_FREE,), "misaligned pointer": (fault_entries.INVALID_FREE,),
         "corrupted chunk header": (fault_entries.INVALID_FREE, fault_entries.DOUBLE_FREE)}
MOST_SHOWN = 10
OF_KIND, OF_SIZE, OF_OFFSET, OF_STACK, OF_BLOCK = 3, 3, 2, 4, 2  # what each thing counts in the rank

Tombstone = namedtuple("Tombstone", "signal causes abort backtrace allocated freed")
Cause = namedtuple("Cause", "kind offset size")  # the offset is in bytes from the start of the block


# writing

def texts_of(judged: Any) -> "Iterator[str]":
    """A tombstone of each entry that is told and that the replay catches."""
    for entry, value in zip(judged.found, judged.values):
        if value["state"] == "new" and entry.result == CAUGHT:
            yield text_of(judged, entry)


def text_of(judged: Any, entry: Entry) -> str:
    use = next(use for use in entry.uses if use.result == CAUGHT)
    process = judged.name if judged.name.isdigit() else "1"
    head = [STARS, "ABI: 'arm64'", f"pid: {process}, tid: {process}, name: {judged.program[:15]}  >>> {judged.program} <<<"]
    told = head + (of_free(use.error) if use.error.is_free() else of_access(judged, use))
    told += ["", "backtrace:", *frames_of(judged, use.error.stack)]
    block = use.error.block
    if block and use.error.state != "live":
        told += ["", f"deallocated by thread {process}:", *frames_of(judged, judged.log.ended[block])]
    if block:
        told += ["", f"allocated by thread {process}:", *frames_of(judged, judged.log.made[block])]
    return "\n".join(told) + "\n\n"


def of_access(judged: Any, use: Use) -> "list[str]":
    size = judged.log.size[use.error.block]
    offset = offset_of(use.error, size)
    found = FAULT.match(judged.reports[0].get(use.verdict.event, ""))
    if not found:
        return ["signal 11 (SIGSEGV), code 1 (SEGV_MAPERR), fault addr --------"]
    place = BASE + int(found[1]) * GRANULE + offset % GRANULE
    cause = f"{CAUSES[fault_entries.kind_of(use.error)]}, {where(offset, size)} a {size}-byte allocation at 0x{place - offset:x}"
    return [f"signal 11 (SIGSEGV), code 9 (SEGV_MTESERR), fault addr 0x{int(found[2]) << TAG_SHIFT | place:016x}", f"Cause: [MTE]: {cause}"]


def offset_of(error: Error, size: int) -> int:
    """Where the fault is, from the start of the block: the first byte with another tag."""
    begin, _ = error.window(size)
    chunk = max(GRANULE, -(-size // GRANULE) * GRANULE)
    return chunk if error.state == "live" and 0 <= begin < chunk else begin


def where(offset: int, size: int) -> str:
    if offset < 0:
        return f"{count(-offset, 'byte')} left of"
    return f"{count(offset, 'byte')} into" if offset < size else f"{count(offset - size, 'byte')} right of"


def of_free(error: Error) -> "list[str]":
    """The message of Scudo."""
    says = "corrupted chunk header at address"
    if error.block and not error.offset:
        says = "invalid chunk state when deallocating address"
    elif error.block and error.offset % GRANULE:
        says = "misaligned pointer when deallocating address"
    return ["signal 6 (SIGABRT), code -1 (SI_QUEUE), fault addr --------", f"Abort message: 'Scudo ERROR: {says}'"]


def frames_of(judged: Any, stack: int) -> "list[str]":
    """The frames of a stack as debuggerd has them: its pc in the file, the file and the function; and the source, which a phone has not."""
    lines: "list[str]" = []
    for pc in filter(None, judged.log.stacks[stack].split(",")):
        address = int(pc, 16)
        module = next((module for module in judged.log.modules if module.low <= address < module.high), None)
        frame = (judged.places.at(address) or [None])[-1]
        if module and frame and os.path.basename(module.path) != RUNTIME:
            function, source = frame.function.split(" of ")[0], f" {os.path.basename(frame.source)}:{frame.line}" if frame.source else ""
            lines.append(f"      #{len(lines):02} pc {address - module.low + module.offset:016x}  {module.path} ({function}){source}")
    return lines


# reading

def read(text: str) -> Tombstone:
    """A Tombstone of the text of one."""
    signal = SIGNAL.search(text)
    if not signal:
        raise Refusal(2, "the tombstone has no line `signal N (NAME), code N (NAME)`")
    causes = []
    for kind, distance, side, size in CAUSE.findall(text):
        offset = {"into": int(distance), "left of": -int(distance), "right of": int(size) + int(distance)}[side]
        causes.append(Cause(kind, offset, int(size)))
    abort = ABORT.search(text)
    return Tombstone(signal[3] if signal[3].startswith("SEGV") else signal[2], causes, abort and abort[1], functions(text, "backtrace:"),
                     functions(text, "allocated by thread"), functions(text, "deallocated by thread"))


def functions(text: str, head: str) -> "list[str]":
    """The functions of the frames after a line that begins so; a frame without one has the name of its file."""
    found, is_in = list[str](), False
    for line in text.split("\n"):
        frame = FRAME.match(line)
        if line.strip().startswith(head):
            if found:
                break
            is_in = True
        elif frame and is_in:
            name = (frame[2] or "").split(") (")[0]
            found.append(plain(name) if name and not name.startswith("BuildId") else os.path.basename(frame[1]))
        elif is_in and line.strip():
            break
    return found


def plain(function: str) -> str:
    """A function's name without its parameters and the offset in it."""
    return without_parameters(re.sub(r"\+\d+$", "", function)).strip() or function


def in_common(one: list[str], other: list[str]) -> int:
    """How many names two lists of functions share in their order."""
    row = [0] * (len(other) + 1)
    for name in one:
        before = 0
        for at, each in enumerate(other, 1):
            before, row[at] = row[at], before + 1 if name == each else max(row[at], row[at - 1])
    return row[-1]


def fit(entry: Entry, judged: Any, wanted: Tombstone) -> "tuple[float, int, list[str]]":
    """(how well an entry fits, of how much; why)."""
    parts: "list[tuple[int, float, str]]" = []  # of how much, which share of it, and why
    size = judged.log.size[entry.uses[0].error.block]
    if wanted.causes:
        same = [cause for cause in wanted.causes if cause.kind == CAUSES.get(entry.kind)]
        sizes = [cause for cause in same or wanted.causes if cause.size == size]
        offsets = {offset_of(use.error, size) for use in entry.uses if not use.error.is_free()} | {use.error.offset for use in entry.uses}
        is_there = any(cause.offset in offsets for cause in sizes)
        parts += [(OF_KIND, bool(same), "the kind"), (OF_SIZE, bool(sizes), "the size"), (OF_OFFSET, is_there, "the offset")]
    elif wanted.abort:
        parts.append((OF_KIND, entry.kind in FREES[wanted.abort], "the kind"))
    for weight, theirs, stack, says in ((OF_STACK, wanted.backtrace, entry.stack, "of the backtrace"),
                                        (OF_BLOCK, wanted.allocated, entry.made, "of the allocation"),
                                        (OF_BLOCK, wanted.freed, entry.ended, "of the free")):
        if theirs:
            ours = [plain(frame.function) for frame in judged.places.frames(stack)]
            shared = in_common(ours, theirs)
            parts.append((weight, shared / max(min(len(ours), len(theirs)), 1), f"{count(shared, 'function')} {says}"))
    rank, most = sum(weight * share for weight, share, _ in parts), sum(weight for weight, *_ in parts)
    return rank, most, [says for _, share, says in parts if share]


def ranking(processes: list, wanted: Tombstone) -> "list[str]":
    """The lines that say which errors fit a tombstone, the best first."""
    causes = ", or ".join(f"{cause.kind}, {where(cause.offset, cause.size)} a {cause.size}-byte allocation" for cause in wanted.causes)
    lines = [f"tombstone: {wanted.signal}" + (f", {causes or wanted.abort}" if causes or wanted.abort else "")]
    fits = []
    for judged in processes:
        for entry, value in zip(judged.found, judged.values):
            if entry.uses:
                rank, most, why = fit(entry, judged, wanted)
                if why:
                    fits.append((rank / most, findings.title(value), why))
    fits.sort(key=lambda each: -each[0])
    for rank, title, why in fits[:MOST_SHOWN]:
        lines.append(f"    {rank:.2f} {title}: {', '.join(why)}")
    return lines if fits else [*lines, "    no error of this run fits it"]
