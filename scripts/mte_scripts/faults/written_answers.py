"""The third step of find_faults: the text and the files that say what was found, and the exit status."""

import argparse
import os

from mte_scripts import text_files
from mte_scripts.builds import web_page
from mte_scripts.entry_point import printable, say
from mte_scripts.faults import fault_answer, fault_report, tombstone, unfreed_blocks
from mte_scripts.faults.fault_answer import Judged
from mte_scripts.faults.fault_log import HALT, STOP
from mte_scripts.faults.fault_options import NAME
from mte_scripts.faults.judged_logs import Lists, spread_seeds

MOST_DIFFERENCES = 20  # that are told


def write_answer(options: argparse.Namespace, processes: "list[Judged]", lists: Lists, folder: str, ended: int) -> int:
    """Writes all, and returns the exit status. ENDED is that of the program."""
    differing = [line for judged in processes if not judged.log.is_damaged for line in judged.differing]
    status = exit_status(processes, differing, ended)
    write_texts(options, processes, lists, ended, status)
    for judged in processes if options.keep or options.read else []:
        for name, content in judged.files.items():
            text_files.write_file(os.path.join(folder, f"{judged.name}.{name}" if options.children else name), content)
    for line in differing[:MOST_DIFFERENCES]:
        say(NAME, line)
    if differing:
        say(NAME, f"{len(differing)} answers are not as the laws promise: this is an error of mte_tool, please report it")
    return status


def exit_status(processes: "list[Judged]", differing: list, ended: int) -> int:
    """DIFFERING are events whose answer is not what the laws promise."""
    names = [judged.name for judged in processes]
    is_new = any(fault_answer.new(judged) for judged in processes)
    is_partial = any(each not in (HALT, STOP) for judged in processes for each in fault_answer.incomplete(judged, names))
    return 3 if differing or is_partial else 1 if is_new else 4 if ended else 0


def write_texts(options: argparse.Namespace, processes: "list[Judged]", lists: Lists, ended: int, status: int) -> None:
    """Writes the answer, and the files that were asked for."""
    name = os.path.basename(options.words[0] if options.words else os.path.abspath(options.read))
    lines = fault_answer.answer_of_many(processes, options) if options.children else fault_answer.answer_of_one(processes[0], options)
    for judged in processes if options.unfreed else ():
        lines += unfreed_blocks.tell_left(judged.log, judged.places)
    lines += fault_answer.counts(processes, lists.known) + fault_report.ending(ended)
    for judged in processes:
        of_whom = f" of process {judged.name}, {judged.program}" if options.children else ""
        lines += [f"incomplete{of_whom}: {each}" for each in fault_answer.incomplete(judged, [each.name for each in processes])]
    if options.tombstone:
        lines += tombstone.ranking(processes, lists.tombstone)
    fault_answer.write(options, lines, fault_answer.document(processes, name, status, ended), processes)
    if options.page:
        write_page(options, processes[0], lines)
    for each in lists.unused_suppressions():
        say(NAME, f"{options.suppressions}, line {each.number}: no error is passed over by {each.line}")


def write_page(options: argparse.Namespace, judged: Judged, lines: "list[str]") -> None:
    """The page with the replay and a note at each error that an event asks; without the page's engines, or a trace that has room, that of the
    report alone."""
    name = os.path.basename(options.words[0] if options.words else os.path.abspath(options.read))
    modules = web_page.at_hand()
    if modules and judged.answers.trace:
        heap = {"granules": options.granules, "seed": spread_seeds(1)[0] if options.seeds else options.seed, "quarantine": options.quarantine}
        line = "classes " + " ".join(map(str, judged.table)) if judged.table else "classes"
        replayed = {"line": line, "heap": heap, "notes": list(fault_report.notes(judged.log, judged.answers))}
        text = web_page.page(modules, trace=(printable(name), judged.answers.trace.decode()), replay=replayed)
    else:
        if modules:
            say(NAME, f"no trace has room for this run: {options.page} has the report alone")
        text = fault_report.page(printable(name), lines)
    text_files.write_file(options.page, text)
