"""What the proved heap answers to each error of a log (scripts/shims/reader/heap_answers.c), and which law or reason each answer rests on.

The reader performs the log on the heap. It says which granules each error meets, and whose they are; the laws of docs/HEAP.md then promise what
the heap has to answer, or leave it open; and the answer of the heap has to agree. No wrong event changes the heap."""

import contextlib
import os
import subprocess
from collections import namedtuple
from collections.abc import Iterator
from pathlib import Path

from mte_scripts.entry_point import Refusal
from mte_scripts.faults import heap_reader
from mte_scripts.faults.fault_log import Error, Log, NoLog, Text, open_log
from mte_scripts.faults.variables import GLOBAL, NOT_TAGGED
from mte_scripts.formats import FARTHEST_ACCESS, FARTHEST_MOVE, LARGEST_SIZE

LARGE = 4 << 20  # bytes of a log that is told by a small one
TOGETHER = 8  # seeds of one reader; the heaps of more would be more than a processor keeps at hand
MOST_MOVES = 2000  # of one wrong free
GRANULE = 16
FILES = "profile sheet log trace".split()  # of the reader, in the order of its words

# What the laws say of an error. The answer is `refused`, `accepted` or `open`. The report is the line that follows, as (granule, kind) for a
# tag fault, or None where any does. The reason is the law, or why nothing is promised.
Promise = namedtuple("Promise", "answer report reason")
# The chunk whose tag decides an error: of which slot and generation the pointer is, and the chunk.
Meeting = namedtuple("Meeting", "own generation other other_generation is_dead")
# What became of an error: `asked` has the promise, and the event that asks; `ruled` is refused by a rule, and no event can say it; `large`,
# which the heap surely misses, and `left` are not asked, for the reason of the promise. The meeting is what decides one that is asked.
Verdict = namedtuple("Verdict", "kind promise event is_free meeting", defaults=(None,))
# A granule that an error meets: what it is, and of a chunk its slot, and how often that was given out by then.
Granule = namedtuple("Granule", "kind slot generation", defaults=(None, None))
# Of an error: its event, the first granule that it meets, the slot and generation of its pointer, and all granules that it meets.
Facts = namedtuple("Facts", "event first own generation granules")

LAST_GRANULE = "it is inside the last granule of its chunk"
IN_PLACE = "the block was resized in place, and the old pointer is still its own"
SAME_PARITY = "it falls in a slot of the same parity that has the same tag"
REUSED = "it comes after the slot's next user was freed, and the same tag came again"
MISPLACED = "misplaced: free refuses what is not the first byte of a granule"
NOT_GIVEN = "misplaced: free refuses an address that the heap never gave out"
LARGE_BLOCK = "the block is larger than the heap serves"
ONE_FREE = "the heap has one free for all that it gives out"
FORGOTTEN = "its block was freed so long ago that the recorder forgot it"
NEVER_GIVEN = "it is far from every block"
NOT_OF_HEAP = "its memory is not the heap's"
POISONED = "the program itself poisoned it, and the heap has no tag for that"
OVERLAPS = "both of its places are inside of blocks"
NO_SLOT = "its block has no slot: its class is exhausted"
LEFT_OUT = "who had its slot since is not in the log, which would have been too long"


class Answers:
    """verdicts: of each error. reports: of each seed, the lines by their event. said: of each seed, the line of each error, or an empty one.
    conflicts: how many right requests, frees and accesses the heap refused. profile, sheet, trace: the files, the last empty where it has no
    room."""

    def __init__(self, log: Log, path: str, length: int, heap: "tuple[int, int, int]", seeds: "list[int]") -> None:
        self._read(log, path, length, heap, seeds)

    @classmethod
    def small(cls, path: str, heap: "tuple[int, int, int]", seeds: "list[int]", least: int = LARGE) -> "tuple[Log, Answers] | None":
        """The small log of a large one with its answers, or None where there is none."""
        try:
            with open_log(path) as file:
                text = Text(file)
            if text.is_damaged or text.length < least and not text.dropped:
                return None
            answers = cls.__new__(cls)
            answers._read(None, path, text.length, heap, seeds, text.sum)
        except (OSError, NoLog):
            return None
        text.say_end()
        answers.log.missing = text.missing
        return answers.log, answers

    def _read(self, log: "Log | None", path: str, length: int, heap: "tuple[int, int, int]", seeds: "list[int]", wanted: "int | None" = None) -> None:
        from concurrent.futures import ThreadPoolExecutor  # it takes longer to import than a refusal of words

        groups = [seeds[at : at + TOGETHER] for at in range(0, len(seeds), TOGETHER)]
        reader = heap_reader.path()
        with ThreadPoolExecutor(os.cpu_count()) as pool, contextlib.ExitStack() as files:
            paths = [[memory(files) for _ in FILES] for _ in groups]
            outputs = list(pool.map(lambda both: run([reader, path, length, *both[0], *heap, *both[1]]), zip(paths, groups)))
            of_first = dict(zip(FILES, paths[0]))
            self.log = log or Log(of_first["log"])
            self.log.is_small = not log
            self.profile, self.sheet, self.trace = (Path(of_first[name]).read_bytes() for name in ("profile", "sheet", "trace"))
        first = outputs[0]
        if wanted is not None and int(first[0]) != wanted:
            raise NoLog
        kept = self.log.kept()
        each = [1 + len(group) for group in groups]
        self.facts = [facts(first[1 + at * each[0]]) for at in kept]
        self.said = [[output[2 + at * size + k] for at in kept] for output, size in zip(outputs, each) for k in range(size - 1)]
        self.verdicts = [verdict(*both, self.log) for both in zip(self.log.errors, self.facts)]
        self.reports = [{its.event: line for its, line in zip(self.facts, lines) if its.event > 0 and line} for lines in self.said]
        ends = [list(map(int, output[-1].split())) for output in outputs]
        self.conflicts, self.events, exhausted = sum(end[0] for end in ends), ends[0][1], ends[0][2]
        large = sum(int(line.split()[1]) for line in self.profile.decode().splitlines() if line.startswith("large"))
        counts = ("large blocks", large), ("blocks without a slot", exhausted), ("blocks of which the log has no more", ends[0][3])
        self.left_out = {words: number for words, number in counts if number}

    def differences(self) -> "Iterator[str]":
        """Where the heap and the laws do not agree."""
        if self.conflicts:
            yield f"{self.conflicts} right requests, frees and accesses were refused"
        for lines in self.said:
            for error, its, line in zip(self.log.errors, self.verdicts, lines):
                if its.kind == "asked" and not agrees(its, line) or its.promise.reason == MISPLACED and line != "refused misplaced":
                    yield f"{error.letter} {error.block} {error.offset} {error.size}: the promise is {its.promise}, the heap says {line or 'nothing'}"

    def replayed(self, report: "dict[int, str]") -> "Iterator[str]":
        """Where the replay of the trace says something else of an error than the heap did."""
        for its, line in zip(self.facts, self.said[0]):
            if its.event > 0 and report.get(its.event, "") != line:
                yield f"event {its.event}: the heap says {line or 'nothing'}, the replay {report.get(its.event, 'nothing')}"


def memory(files: contextlib.ExitStack) -> str:
    """The path of a file in memory, until the stack is closed."""
    descriptor = os.memfd_create("mte_tool")
    files.callback(os.close, descriptor)
    return f"/proc/{os.getpid()}/fd/{descriptor}"


def run(words: list) -> "list[str]":
    """The lines of the reader."""
    done = subprocess.run(list(map(str, words)), stdin=subprocess.DEVNULL, stdout=subprocess.PIPE, stderr=subprocess.PIPE, text=True)
    if done.returncode == 4:
        raise NoLog(done.stderr.strip())
    if done.returncode:
        raise Refusal(3, f"the log can't be told: {done.stderr.strip() or f'its reader ended with status {done.returncode}'}")
    return done.stdout.split("\n")[:-1]


def facts(line: str) -> Facts:
    event, first, own, generation, *met = line.split(" ")
    granules = [Granule(kind, *map(int, place)) for kind, *place in (word.split(":") for word in met)]
    return Facts(int(event), int(first), int(own), int(generation), granules)


def why_not_asked(error: Error, its: Facts, log: Log) -> "tuple[str, str] | None":
    """The kind and the reason of a verdict for which the heap is not asked."""
    size = log.size[error.block]
    if error.letter == "n":
        return "ruled", NOT_GIVEN
    if error.letter == "y":
        return "large", ONE_FREE
    if error.variable and error.variable.kind == GLOBAL:
        return "left", NOT_TAGGED
    if not error.block:
        return "left", NOT_OF_HEAP if error.is_inside() else (FORGOTTEN, NEVER_GIVEN, NOT_OF_HEAP)[error.offset]
    if size > LARGEST_SIZE:
        return "large", LARGE_BLOCK
    if not its.generation:
        return "left", LEFT_OUT if its.event < 0 else NO_SLOT
    if error.is_free() and error.offset % GRANULE:
        return "ruled", MISPLACED
    is_far = abs(error.offset) > GRANULE * FARTHEST_MOVE * MOST_MOVES if error.is_free() else abs(error.window(size)[0]) > FARTHEST_ACCESS
    return ("left", NEVER_GIVEN) if is_far else None


def verdict(error: Error, its: Facts, log: Log) -> Verdict:
    if found := why_not_asked(error, its, log):
        return Verdict(found[0], Promise("open", None, found[1]), None, error.is_free())
    if error.is_free():
        before, at = its.granules
        is_chunk = before.kind == "header" and at.kind == "other"
        return Verdict("asked", free_promise(its, before, at), its.event, True, meets(its, at) if is_chunk else None)
    promise = access(its)
    if promise.reason == LAST_GRANULE and error.state == "resized":
        promise = promise._replace(reason=IN_PLACE)
    if error.is_inside():
        promise = promise._replace(reason=POISONED if error.is_of_poison() else OVERLAPS)
    return Verdict("asked", promise, its.event, False, meets(its, its.granules[0]) if all(each.slot is not None for each in its.granules) else None)


def meets(its: Facts, chunk: Granule) -> Meeting:
    return Meeting(its.own, its.generation, chunk.slot, chunk.generation, chunk.kind == "dead")


def access(its: Facts) -> Promise:
    """What the laws say of an access of these granules. The fault names the lowest one with another tag; one below it whose tag may be another
    leaves open which that is, but not that there is a fault."""
    if any(each.kind == "outside" for each in its.granules):
        return Promise("refused", "fault unmapped", "law_accesses")
    is_open = None
    for number, granule in enumerate(its.granules, its.first):
        differs, reason = compare(its, granule)
        if differs:
            return Promise("refused", None if is_open else (number, granule.kind), reason)
        if differs is None:
            is_open = is_open or reason
    return Promise("open", None, is_open) if is_open else Promise("accepted", None, LAST_GRANULE)


def compare(its: Facts, granule: Granule) -> "tuple[bool | None, str]":
    """Whether the tag of a granule differs from the pointer's (None where the laws leave it open), and why."""
    if granule.slot is None:
        return True, "law_bookkeeping"
    if (granule.slot - its.own) % 2:
        return True, "law_neighbours"
    if granule.slot != its.own:
        return None, SAME_PARITY
    if granule.generation == its.generation:
        return granule.kind == "dead", "law_freed"
    return (True, "law_freed") if granule.generation == its.generation + 1 and granule.kind == "other" else (None, REUSED)


def free_promise(its: Facts, before: Granule, at: Granule) -> Promise:
    """What the laws say of a free of a pointer to the second of these granules."""
    if before.kind != "header":
        return Promise("refused", "refused misplaced", "law_own_pointer")
    if at.kind != "other":
        return Promise("refused", "refused not-live", "law_own_pointer")
    if (at.slot, at.generation) == (its.own, its.generation):
        return Promise("accepted", None, IN_PLACE)
    if (at.slot - its.own) % 2 or (at.slot, at.generation) == (its.own, its.generation + 1):
        return Promise("refused", (its.first + 1, "other"), "law_own_pointer")
    return Promise("open", None, REUSED if at.slot == its.own else SAME_PARITY)


def agrees(its: Verdict, line: str) -> bool:
    """Whether what the heap said of an error is what is promised."""
    answer, report, _ = its.promise
    if answer == "accepted" or not line:
        return not line and answer != "refused"
    if answer == "open" or report is None:
        return line.startswith("fault ")
    words = line.split(" ")
    return line == report or words[:2] == ["fault", "tag"] and (int(words[3]), words[9]) == report
