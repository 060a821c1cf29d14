"""Runs a program and prints what it does with its allocator as a trace. `trace_program --help` says all."""

import argparse
from collections.abc import Iterator

from mte_scripts import private_folder
from mte_scripts.entry_point import Refusal
from mte_scripts.formats import MOST_EVENTS
from mte_scripts.recording import recording
from mte_scripts.recording.notes import Notes
from mte_scripts.words import ProgramWords, number_between

HELP = """\
Run a program, and print what it does with its allocator as a trace, the input of `mte_tool run`, `replay` and `profile`.

Usage: trace_program [--only NAME] [--first N] PROGRAM ARGS..

  --only NAME  trace the first process whose program has this name, as NAME of /usr/bin/NAME
  --first N    end the trace after N events at most; there are never more than 1,000,000

The first process alone is traced, with what it runs in its own place: neither its forks nor what they run. Give the program
itself, or --only, and not a script that starts it. Its threads are traced together. It may be killed; its trace up to there is
printed. The program's standard input is its own, its standard output goes to standard error.

A live pointer has a variable of its own from 0 to 1022. A request that finds none free goes to variable 1023 and is never freed.
At the end standard error says how many blocks had a variable of their own, and so what a replay can mean. After a request the
trace stores to the first and the last byte, and before a free it loads the first, so that a replay checks tags: these loads and
stores are made up, the rest is the program's. A request above 2,147,483,647 bytes, or a calloc that overflows, is traced as one of
so many. A realloc to 0 bytes is a free, and a realloc of a pointer of variable 1023 is a malloc. An aligned request is a malloc of
its bytes plus its alignment minus 16. A free that the program makes of no live block is a free of the variable that had it before,
or of a place within the nearest block: a replay refuses it. What is not seen: `profile_program --help`.

Exit status:
  0  the trace is printed
  1  the trace is printed; the program itself ended with another status than 0, which standard error has
  2  the words are refused
  3  there is no trace: no compiler, no such program, it requested nothing, or it counts for nothing; or the trace could not be
     written

Example:
  trace_program sort /etc/services > sort.trace
"""

REASON = "So a replay is of a sample; for a whole one trace a smaller job, one program of it (--only), or its start (--first N)"


def remarks(options: argparse.Namespace, notes: Notes) -> "Iterator[str]":
    """What is to be said of the trace."""
    program = options.words[0]
    if notes.left:
        still = " ".join(map(str, notes.remaining_processes()))
        yield f"{program} ended but left process {still} running, which is not traced: run it in the foreground (nginx: daemon off)"
    if notes.other_requests:
        others = f"(processes: {notes.others}, requests: {notes.other_requests})"
        yield f"one process is traced. Others requested too {others}: --only NAME traces another"
    if notes.foreign:
        yield recording.foreign(program, notes, "traced")
    if notes.untouched or not notes.events:
        recording.refuse_nothing(program, notes, "traced")
    if notes.is_cut:
        yield f"the trace is cut at {options.first or 'a million'} events"
    yield variables(notes)
    if notes.wrong:
        frees = "one free is of no live block, and a replay refuses it"
        yield frees if notes.wrong == 1 else f"{notes.wrong} frees are of no live block, and a replay refuses them"


def variables(notes: Notes) -> str:
    """How many blocks have a variable of their own."""
    blocks = notes.variables + notes.shared
    if not notes.shared:
        return f"each of the {blocks} blocks has a variable of its own"
    sample = f". {REASON}" if notes.shared * 20 > blocks else ""
    own = f"{notes.variables} of the {blocks} blocks have a variable of their own"
    return f"{own}; the other {notes.shared} are never freed in the trace{sample}"


def run_program(options: argparse.Namespace, speaker: recording.Speaker, path: str, work: private_folder.Folder) -> int:
    with recording.Run(speaker, work, f"trace {options.first or MOST_EVENTS}", options.only) as run:
        notes = run.run(options.words, path)
        if notes.left:
            run.library.keep()
        for remark in remarks(options, notes):
            speaker.say(remark)
        recording.say_lost(speaker, notes)
        recording.write("the trace", run.found.texts().wanted)
    return 1 if run.status else 0


def trace(words: list[str], speaker: recording.Speaker) -> int:
    options = ProgramWords(HELP, first=number_between(3, MOST_EVENTS)).take(words)
    if not options.words:
        return recording.print_usage(HELP)
    path = recording.find_program(options.words[0])
    if not options.only:
        recording.say_script(speaker, options.words[0], path, f"what is traced is {recording.INTERPRETER}; --only NAME traces")
    with private_folder.temporary_folder() as work:
        return run_program(options, speaker, path, work)


main = recording.with_speaker("trace_program", trace)
