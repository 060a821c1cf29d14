"""The second step of find_faults: what the heaps say of the log of each process, and what is found in it."""

import argparse
import contextlib
import os
from collections.abc import Iterator
from typing import Optional

from mte_scripts import certificate_texts, private_folder, program_runs
from mte_scripts.entry_point import Refusal
from mte_scripts.faults import fault_answer, fault_report, findings, heap_answers, real_heaps, tombstone, unfreed_blocks
from mte_scripts.faults.fault_answer import Judged
from mte_scripts.faults.fault_log import Log, NoLog, whole_log
from mte_scripts.faults.heap_answers import Answers
from mte_scripts.faults.odds import Odds

NONE = "is no log of a program that traced_cc built, or of another version of it"


class Lists:
    """What is given beside the program: suppressions, an earlier answer, and a tombstone."""

    def __init__(self, options: argparse.Namespace) -> None:
        self.suppressed = findings.suppressions(options.suppressions) if options.suppressions else []
        self.known = findings.baseline(options.baseline) if options.baseline else {}
        self.tombstone = tombstone.read(findings.read(options.tombstone)) if options.tombstone else None
        self.used: set = set()

    def mark(self, values: list[dict]) -> None:
        self.used |= findings.mark(values, self.suppressed, self.known)

    def unused_suppressions(self) -> list[findings.Suppression]:
        return [each for each in self.suppressed if each not in self.used]


def read_log(path: str, whole: str) -> Log:
    try:
        log = Log(whole)
    except OSError as error:
        raise Refusal(2, f"{path} can't be read: {error.strerror}") from None
    except NoLog:
        raise Refusal(2, f"{path} {NONE}") from None
    if log.is_empty:
        raise Refusal(3, f"{path} is empty: it could not be written")
    return log


def run_program(words: list[str], given: bytes) -> bytes:
    status, output, said = program_runs.mte_tool(words, given)
    if status:
        raise Refusal(3, f"mte_tool {words[0]}: {said}")
    return output


def spread_seeds(number: int) -> list[int]:
    """So many seeds, each once. Small seeds have the same high bits, which the tags from the third draw on come from."""
    return [at * 40503 % 65536 for at in range(1, number + 1)]


def ask_heaps(options: argparse.Namespace, path: str, whole: str) -> "tuple[Log, Answers | None]":
    """The log of a process, and what the heaps say of it. Of a large one it is a small log, unless all blocks are asked for. Of many processes
    those without an error are not asked."""
    seeds = spread_seeds(options.seeds) if options.seeds else [options.seed]
    heap = options.limit, options.granules, options.quarantine
    small = None if options.unfreed or options.measure else Answers.small(whole, heap, seeds, 0 if whole != path else heap_answers.LARGE)
    if small:
        return small
    log = read_log(path, whole)
    try:
        return log, None if options.children and not log.errors else Answers(log, whole, log.length, heap, seeds)
    except NoLog as why:
        raise Refusal(2, f"{path} {NONE}: {why}") from None


def kept_files(options: argparse.Namespace, answers: Answers) -> "tuple[dict[str, bytes], list[str]]":
    """What is kept of a process, and where the replay of its trace is not what the heap said."""
    files, differing = {"profile": answers.profile, "sheet": answers.sheet}, []
    if answers.trace:
        seed = spread_seeds(1)[0] if options.seeds else options.seed
        words = ["replay", "--granules", str(options.granules), "--quarantine", str(options.quarantine), "--seed", str(seed)]
        output = run_program(words, program_runs.join_texts(answers.sheet.split(b"\n", 1)[0], answers.trace))
        files |= {"trace": answers.trace, "report": output}
        lines = (line.split(" ", 1) for line in output.decode().splitlines())
        differing = list(answers.replayed({int(number): rest for number, rest in lines if number.isdigit() and not rest.startswith("data ")}))
    return files, differing


def judge_log(options: argparse.Namespace, path: str, lists: Lists, heaps: "Optional[str]") -> Judged:
    """The log of a process with what the heaps say, and what is found. `heaps`: where the programs of the real heaps are, if they are played."""
    try:
        with whole_log(path) as whole:
            log, answers = ask_heaps(options, path, whole)
    except NoLog:
        raise Refusal(2, f"{path} goes on from a log that is not beside it, or is no log") from None
    verdicts, reports = (answers.verdicts, answers.reports) if answers else ([], [])
    files, differing = kept_files(options, answers) if answers and (options.keep or options.read) else ({}, [])
    differing += answers.differences() if answers else []
    found, places = fault_report.find_entries(log, verdicts, reports[0] if reports else {})
    if options.unfreed:
        found += unfreed_blocks.find_lost_blocks(log, places)
    odds = Odds(log, verdicts, real_heaps.measure_log(heaps, log) if heaps and log.errors else None)
    values = findings.findings_of(log, found, places, odds)
    lists.mark(values)
    name, program = os.path.basename(path), fault_answer.program_of(log)
    table = certificate_texts.parse_sheet(answers.sheet).classes if answers else None
    return Judged(name, program, log, answers, table, reports, found, places, odds, values, files, differing)


def judge_logs(options: argparse.Namespace, folder: str, lists: Lists) -> "list[Judged]":
    """Those of a folder, in the order of their processes."""
    names = fault_answer.logs(folder, options.children)
    if not names:
        raise Refusal(2, f"{folder} has no log of a process")
    with programs_of_heaps(options) as heaps:
        return [judge_log(options, os.path.join(folder, name), lists, heaps) for name in names]


@contextlib.contextmanager
def programs_of_heaps(options: argparse.Namespace) -> "Iterator[str | None]":
    """A folder with the programs of the real heaps, where they are asked for."""
    if not options.measure:
        yield None
        return
    with private_folder.temporary() as folder:
        real_heaps.build(options.measure, folder)
        yield folder
