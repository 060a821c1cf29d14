"""What find_faults found, as plain values: for --json, --sarif and the annotations of a workflow, and to compare with an earlier run.

A finding is a cause (fault_entries.Entry) as a dictionary: kind, cwe, what, result, why, times, odds, block, frames, allocated, ended, uses and
id. The id names the cause in another run or another commit: it is made of the kind, and of the functions and files of the innermost frames,
and has no line numbers. Findings of one run that agree in all that are numbered."""

import fnmatch
import functools
import hashlib
import json
import os
from collections import Counter, namedtuple
from typing import Any

from mte_scripts import text_files
from mte_scripts.entry_point import Refusal
from mte_scripts.faults import fault_entries
from mte_scripts.faults.fault_entries import KINDS, Entry
from mte_scripts.faults.fault_log import Error, Log
from mte_scripts.faults.fault_places import Frame, Places
from mte_scripts.faults.fault_report import count, crash_sentence, left_sentence, sentence
from mte_scripts.faults.odds import Odds
from mte_scripts.faults.variables import STACK, value_of

FORM = 1  # of the JSON
FRAMES_OF_ID = 3
LARGEST_FILE = 64 << 20

# A line of a file of suppressions: the kind and the place are patterns as of file names.
Suppression = namedtuple("Suppression", "kind place line number")


def findings_of(log: Log, found: "list[Entry]", places: Places, odds: Odds) -> "list[dict]":
    """The findings of the entries of a log."""
    made = [finding(entry, log, places, odds) for entry in found]
    number_ids(made)
    return made


def number_ids(values: "list[dict]") -> None:
    """Numbers the ids of findings that agree in all that an id is made of."""
    seen: Counter[str] = Counter()
    for each in values:
        seen[each["id"]] += 1
        if seen[each["id"]] > 1:
            each["id"] = hash_words(each["id"], str(seen[each["id"]]))


def begin_finding(kind: str, frames: "list[Frame]", made: "list[Frame]", ended: "list[Frame]", **known: Any) -> dict:
    """A finding by the stacks of the wrong access, of its block's request and of its end, and what else is known of it."""
    value = {"kind": kind, "cwe": None, "result": None, "times": 1, "odds": None, "block": None, "frames": as_values(frames), "ways": [],
             "allocated": as_values(made), "ended": as_values(ended), "uses": [], "id": hash_words(*id_words(kind, frames, made, ended))}
    return value | known


def finding(entry: Entry, log: Log, places: Places, odds: Odds) -> dict:
    stacks = map(places.frames, (entry.stack, entry.made, entry.ended))
    ways = [as_values(places.frames(stack)) for stack in entry.ways]
    value = begin_finding(entry.kind, *stacks, result=entry.result, ways=ways)
    if entry.kind == fault_entries.CRASH:
        return value | {"what": crash_sentence(entry.crash), "why": entry.crash.signal}
    if entry.kind == fault_entries.UNFREED:
        return value | {"what": left_sentence(entry.left), "why": "no pointer is left", "cwe": KINDS[entry.kind].store}
    first = entry.uses[0]
    for use in entry.uses:
        innermost = as_values(places.frames(use.error.stack)[:1])
        value["uses"].append({"what": sentence(use.error, log), "result": use.result, "why": use.why, "times": use.times,
                              "frame": innermost[0] if innermost else None})
    value["odds"] = odds.values(entry.numbers)
    if first.error.block:
        value["block"] = {"bytes": log.size[first.error.block], "offset": first.error.offset, "state": first.error.state}
    if first.error.variable:
        value["variable"] = value_of(places.resolve(first.error.variable), first.error.size)
    cwe = cwe_of(entry.kind, first.error)
    deciding = next(use for use in entry.uses if use.result == entry.result)
    return value | {"cwe": cwe, "what": sentence(first.error, log), "why": deciding.why, "times": sum(use.times for use in entry.uses)}


def cwe_of(kind: str, error: Error) -> "int | None":
    is_of_stack = error.variable and error.variable.kind == STACK and not error.is_load()
    known = KINDS[kind]
    return known.special if known.special and (error.letter == "n" or is_of_stack) else known.load if error.is_load() else known.store


def id_words(kind: str, frames: list[Frame], made: list[Frame], ended: list[Frame]) -> list[str]:
    """The words that an id is made of. Callers are none of them where one function did all of it."""
    own = {name: fault_entries.count_own_frames(frames, stack) for name, stack in (("made", made), ("ended", ended))}
    if kind in (fault_entries.OVERFLOW, fault_entries.UNDERFLOW) and own["made"]:
        frames, made = frames[:1], made[: own["made"]]
    if kind in (fault_entries.USE_AFTER_FREE, fault_entries.USE_AFTER_REALLOC) and own["ended"]:
        return [kind, *map(name_of, frames[:1]), "ended", *map(name_of, ended[: own["ended"]])]
    return [kind, *map(name_of, frames[:FRAMES_OF_ID]), "allocated", *map(name_of, made[:FRAMES_OF_ID])]


def as_values(frames: list[Frame]) -> list[dict]:
    return [{"function": frame.function, "file": path_of(frame), "line": frame.line or None, "module": frame.module or None} for frame in frames]


@functools.lru_cache(maxsize=None)
def root() -> str:
    """The folder that the paths of sources are told from: the repository that the working folder is in, or the working folder."""
    here = os.getcwd()
    folders = [here]
    while folders[-1] != os.path.dirname(folders[-1]):
        folders.append(os.path.dirname(folders[-1]))
    return next((folder for folder in folders if os.path.lexists(os.path.join(folder, ".git"))), here)


def path_of(frame: Frame) -> str:
    """Of a frame's source: from the root on, where it is in it."""
    if not frame.source:
        return None
    path, here = os.path.normpath(frame.source), root().rstrip("/") + "/"
    return path[len(here) :] if path.startswith(here) else path


def name_of(frame: Frame) -> str:
    return f"{frame.function}@{os.path.basename(frame.source or frame.module or '')}"


def hash_words(*words: str) -> str:
    return hashlib.sha256("\0".join(words).encode(errors="surrogateescape")).hexdigest()[:16]


def place(frame: dict) -> str:
    """A frame as a report shows it."""
    return f"{frame['file']}:{frame['line'] or 0} in {frame['function']}" if frame["file"] else frame["function"]


def title(value: dict) -> str:
    """A finding in a line."""
    times = f" ({count(value['times'], 'time')})" if value["times"] > 1 else ""
    return f"{place(value['frames'][0]) if value['frames'] else 'an unknown place'}: {value['what']}{times}"


def document(program: str, status: int, ended: int, processes: list[dict]) -> dict:
    """The whole answer. A process has its name, its findings, and what is missing of its log."""
    told = [each for process in processes for each in process["findings"]]
    state = Counter(each.get("state", "new") for each in told)
    return {"form": FORM, "tool": "find_faults", "program": program, "status": status, "ended": ended, "findings": len(told),
            "suppressed": state["suppressed"], "known": state["known"], "processes": processes}


def text(value: dict) -> str:
    return json.dumps(value, indent=2, ensure_ascii=True) + "\n"


def read(path: str) -> str:
    """The text of a file of suppressions, a baseline or a tombstone."""
    content = text_files.read(path, LARGEST_FILE + 1)
    if len(content) > LARGEST_FILE:
        raise Refusal(2, f"{path} is too long")
    try:
        return content.decode()
    except UnicodeDecodeError:
        raise Refusal(2, f"{path} is no text") from None


def suppressions(path: str) -> list[Suppression]:
    """The lines of a file, each KIND:PLACE, with `*` and `?` in both; empty lines and those that begin with # say nothing."""
    found = []
    for number, line in enumerate(read(path).split("\n"), 1):
        line = line.strip()
        if not line or line.startswith("#"):
            continue
        kind, _, place = (word.strip() for word in line.partition(":"))
        if not kind or not place or not any(fnmatch.fnmatchcase(kind_id(each), kind) for each in KINDS):
            raise Refusal(2, f"{path}, line {number}: it is no KIND:PLACE, with a kind of {', '.join(map(kind_id, KINDS))}")
        found.append(Suppression(kind, place, line, number))
    return found


def kind_id(kind: str) -> str:
    """A kind as one word."""
    return kind.replace(" ", "-")


def baseline(path: str) -> dict[str, str]:
    """The ids of the findings of an earlier --json."""
    try:
        value = json.loads(read(path))
        if value["form"] != FORM or value["tool"] != "find_faults":
            raise ValueError
        return {each["id"]: title(each) for process in value["processes"] for each in process["findings"]}
    except (ValueError, KeyError, TypeError, AttributeError, RecursionError):
        raise Refusal(2, f"{path} is no --json of find_faults") from None


def matches(suppression: Suppression, value: dict) -> bool:
    """Whether a finding has this kind, and a frame of the wrong access this place: a function, a file, or FILE in FUNCTION."""
    frames = value["frames"] if fnmatch.fnmatchcase(kind_id(value["kind"]), suppression.kind) else []
    names = [frame["function"] for frame in frames]
    for frame in frames:
        names += [frame["file"], f"{frame['file']} in {frame['function']}"] if frame["file"] else []
    return any(fnmatch.fnmatchcase(name, suppression.place) for name in names)


def mark(values: list[dict], suppressed: list[Suppression], known: dict[str, str]) -> set[Suppression]:
    """Gives each finding its state: new, known (the baseline has it) or suppressed; and returns the suppressions that were used."""
    used = set()
    for value in values:
        by = next((each for each in suppressed if matches(each, value)), None)
        value["state"] = "suppressed" if by else "known" if value["id"] in known else "new"
        if by:
            value["suppressed_by"] = by.line
            used.add(by)
    return used
