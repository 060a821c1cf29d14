"""What find_faults answers: the text of one process or of many, and the files that have the same for other programs."""

import argparse
import os
import re
from collections import Counter, namedtuple
from collections.abc import Sequence
from typing import Any

from mte_scripts import text_files
from mte_scripts.entry_point import printable
from mte_scripts.faults import fault_report, findings, sarif, tombstone
from mte_scripts.faults.fault_entries import RESULTS, Entry, cause_of
from mte_scripts.faults.fault_log import Log
from mte_scripts.faults.fault_report import MOST_USES

PROCESS = re.compile(r"[0-9]{1,10}(\.[2-9])?")  # the name of a log of one of many processes

# A process: the name of its log and of its program, its log, what the heaps answered, and what was found: entries, and findings in the same order.
Judged = namedtuple("Judged", "name program log answers table reports found places odds values files differing")


def logs(folder: str, has_children: bool) -> list[str]:
    """The names of the logs in a folder."""
    if not has_children:
        return ["log"]
    return sorted((name for name in os.listdir(folder) if PROCESS.fullmatch(name)), key=lambda name: tuple(map(int, name.split("."))))


def program_of(log: Log) -> str:
    """The name of the program that wrote a log: its own file is the first that is mapped."""
    return os.path.basename(log.modules[0].path) if log.modules else "a program"


def new(judged: Judged) -> list[Entry]:
    return [entry for entry, value in zip(judged.found, judged.values) if value["state"] == "new"]


def answer_of_one(judged: Judged, options: argparse.Namespace) -> list[str]:
    """The text of a process that was run alone."""
    log = judged.log
    if options.seeds:
        return list(fault_report.tell_seeds(log, new(judged), judged.places, judged.reports, judged.odds))
    return fault_report.tell(log, new(judged), judged.places, judged.odds) + fault_report.totals(log, new(judged), judged.answers)


def answer_of_many(processes: list[Judged], options: argparse.Namespace) -> list[str]:
    """The text of many processes: each cause is told for the first of them, and how many more have it."""
    causes: "dict[tuple, list[tuple[Judged, Entry]]]" = {}
    for judged in processes:
        for entry in new(judged):
            causes.setdefault(cause_of(entry, judged.log, judged.places), []).append((judged, entry))
    results: Counter = Counter()
    lines, last = [], None
    for (judged, entry), *others in causes.values():
        if judged is not last:
            lines.append(f"process {judged.name}, {judged.program}:")
            last = judged
        if options.seeds:
            lines += fault_report.tell_seeds(judged.log, [entry], judged.places, judged.reports, judged.odds)
        else:
            lines += fault_report.tell(judged.log, [entry], judged.places, judged.odds) + other_ways(judged, entry, others)
        more = len({other.name for other, _ in others} - {judged.name})
        if more:
            lines.append(f"    in {fault_report.count(more, 'process')} more".replace("processs", "processes"))
        results[entry.result] += 1
    lines += [f"processes {len(processes)}", f"errors {len(causes)}", *(f"{result} {results[result]}" for result in RESULTS)]
    crashes = sum(judged.log.crash is not None for judged in processes)
    return lines + ([f"crashed {crashes}"] if crashes else [])


def other_ways(judged: Judged, entry: Entry, others: "list[tuple[Judged, Entry]]") -> list[str]:
    """Lines on the callers that led other processes to the same cause."""
    told = {judged.places.show(stack) for stack in (entry.stack, *entry.ways)}
    lines = []
    for other, its in others:
        for stack in (its.stack, *its.ways):
            way = other.places.show(stack)
            if way not in told:
                told.add(way)
                lines.append(f"    also, in process {other.name}: {way}")
    return lines[:MOST_USES]


def incomplete(judged: Judged, names: list[str]) -> list:
    """What is missing of a process's log. One of many may be ended by another, or run one that nobody records: that is no fault."""
    if len(names) == 1:
        return judged.log.missing
    return [each for each in judged.log.missing if not each.startswith(fault_report.NO_END)]


def counts(processes: "Sequence[Any]", known: dict[str, str]) -> list[str]:
    """Lines on the findings of processes that are not told, and on what the baseline has and the run has not."""
    states = Counter(each["state"] for judged in processes for each in judged.values)
    lines = [f"{state} {states[state]}" for state in ("suppressed", "known") if states[state]]
    here = {each["id"] for judged in processes for each in judged.values}
    return lines + [f"gone: {title}" for id, title in known.items() if id not in here]


def document(processes: list[Judged], program: str, status: int, ended: int) -> dict:
    names = [judged.name for judged in processes]
    listed = [{"name": judged.program, "log": judged.name, "findings": judged.values, "incomplete": incomplete(judged, names)} for judged in processes]
    return findings.document(program, status, ended, listed)


def write(options: argparse.Namespace, lines: "list[str]", answer: dict, processes: "Sequence[Judged]" = ()) -> None:
    """Prints the text of an answer, and writes the files that were asked for; one of - is printed in place of the text."""
    lines = lines + (list(sarif.annotations(answer)) if options.annotations else [])
    makes = {
        "json": lambda: findings.text(answer),
        "sarif": lambda: findings.text(sarif.document(answer, bool(options.baseline))),
        "tombstones": lambda: "".join(text for judged in processes for text in tombstone.texts_of(judged)),
    }
    written = [(path, make()) for name, make in makes.items() if (path := getattr(options, name))]
    if "-" not in (path for path, _ in written):
        text_files.write("".join(printable(line) + "\n" for line in lines))
    for path, text in written:
        text_files.write(text) if path == "-" else text_files.write_file(path, text)
