"""Runs a program that traced_cc built, and tells its memory errors on the tagged heap. `find_faults --help` says all.

Its steps, each a module: a log is recorded (traced_runs), judged (judged_logs) and told (written_answers). The reports of other tools are
judged and told by report_answer."""

import argparse

from mte_scripts import text_files
from mte_scripts.builds import web_page
from mte_scripts.entry_point import say
from mte_scripts.faults import heap_reader, real_heaps, report_answer
from mte_scripts.faults.fault_options import NAME, read_words
from mte_scripts.faults.judged_logs import Lists, judge_logs
from mte_scripts.faults.traced_runs import open_log_folder, program_status, record_program
from mte_scripts.faults.written_answers import write_answer
from mte_scripts.recording import recording


def main(words: "list[str]") -> int:
    options = read_words(words)
    if report_answer.is_asked(options):
        return report_answer.answer_reports(options, Lists(options))
    if options.measure:
        real_heaps.check(options.measure)
    if options.page and not web_page.at_hand():
        why = "the engines of the page are not built (`scripts/page` proves and builds them)"
        say(NAME, f"{why}: {options.page} has the report alone")
    lists = Lists(options)
    if options.read:
        return answer_logs(options, options.read, lists)
    refuse_before_run(options)
    with open_log_folder(options.keep) as folder:
        record_program(options, folder)
        return answer_logs(options, folder, lists)


def answer_logs(options: argparse.Namespace, folder: str, lists: Lists) -> int:
    """All that follows from the logs of a folder."""
    processes = judge_logs(options, folder, lists)
    return write_answer(options, processes, lists, folder, program_status(folder, processes[0].log))


def refuse_before_run(options: argparse.Namespace) -> None:
    """What is missing, or can't be written, is said before the program runs."""
    recording.find_program(options.words[0])
    written = [options.page, *(path for path in (options.json, options.sarif, options.tombstones) if path != "-")]
    text_files.refuse_unwritable(written, options.keep)
    heap_reader.path()
