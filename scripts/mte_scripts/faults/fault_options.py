"""The words of find_faults, and what they ask for."""

import argparse
import os
from typing import Any

from mte_scripts import text_files
from mte_scripts.faults import fault_answer, report_answer
from mte_scripts.formats import MOST_GRANULES, OPTIONS
from mte_scripts.words import ProgramWords, number_between

HELP = """Run a program that traced_cc or traced_c++ built, and tell its memory errors: the source line of each wrong load, store and free,
where its block was allocated and freed, and whether the tagged heap catches it, or why it does not.

Usage: find_faults [OPTIONS] PROGRAM ARGS..
       find_faults [OPTIONS] --asan PROGRAM ARGS..
       find_faults [OPTIONS] --read FOLDER
       find_faults [OPTIONS] --read REPORT..

  --limit K       classes of the heap's table, which is tuned for the program: 1 to 32 (8)
  --granules R    the heap's region, in granules of 16 bytes: 64 to 262144 (262144)
  --quarantine Q  bytes of freed blocks that the heap holds back: 0 to 4194304 (65536)
  --seed N        the seed of the random tags: 1 to 65535 (1)
  --seeds N       tell over how many of N seeds, spread over all, each error is caught
  --measure SCUDO play the errors in LLVM's Scudo and in glibc, with QEMU's memory tags, and tell in how many of 200 runs each
                  catches them; SCUDO is the folder compiler-rt/lib/scudo/standalone of LLVM's sources
  --keep FOLDER   keep the log, the profile and the sheet in a new folder, and the trace and its report where a trace has room
  --read FOLDER   tell the errors of a log that --keep kept; or of text reports of AddressSanitizer, HWAddressSanitizer and
                  valgrind's memcheck, without a run: what the heap makes of each, or what that depends on; with - of standard
                  input
  --table FILE    the class table of the heap for reports: a file whose first line is a class line (Scudo's on Android)
  --page FILE     make a page for the browser too: each error, and the heap at that moment if scripts/page has built its engines
  --only NAME     record the first process whose program has this name, as NAME of /usr/bin/NAME
  --unfreed       tell what is left unfreed at the end too: lost blocks are errors; those that are still reachable, or to which the
                  stack alone has a pointer, are not
  --children      record each process, and tell the errors of all: find_faults --children make check
  --preload       the same, for a program of which only libraries that it loads are traced, as Python's extensions are
  --asan          the program was built with -fsanitize=address, by gcc or clang: tell what AddressSanitizer sees, in the first
                  process that has it
  --halt          end each process at its first error, with exit status 1, or what exitcode=N of ASAN_OPTIONS says
  --json FILE     write the errors for other programs too; with - to standard output, in place of the text
  --sarif FILE    the same as SARIF 2.1.0, which code hosts and editors read
  --annotations   print a line ::error for each error too, which a runner of GitHub's shows beside its source line
  --suppressions FILE  pass over the errors of this file: lines KIND:PLACE, as use-after-free:parse_* or *:src/old/*.c
  --baseline FILE      tell only the errors that this --json of an earlier run does not have
  --tombstones FILE    write what a phone with the Memory Tagging Extension would write of each error that is caught
  --tombstone FILE     say which errors fit this tombstone of a phone, and why, the likeliest first

Without --children the first process that traced_cc built is recorded, neither its forks nor what they run. Its standard input is
its own, its standard output goes to standard error. Ctrl-C, SIGTERM and SIGHUP are for the program. What it did until a signal
ended it, or until the log could not grow, is told, and a line `incomplete` says what is missing. docs/FAULTS.md says what is
seen, what is caught, and why.

Exit status:
  0  no error in the whole run but those passed over or known, and the program ended well
  1  errors, which standard output has; a crash is one
  2  the words are refused, or the log of --read
  3  the log is incomplete, it could not be told, or the heap, the recorder and the laws do not agree
  4  no error was found, but the program failed: its exit status is not 0, or a signal ended it

Example:
  traced_cc -g use.c -o use && find_faults ./use
"""
RANGES = {  # of an option: the least and the most, and where it is left out
    "limit": OPTIONS["limit"]._replace(default=8),
    "granules": OPTIONS["granules"]._replace(default=MOST_GRANULES),
    "quarantine": OPTIONS["quarantine"],
    "seed": OPTIONS["seed"],
    "seeds": OPTIONS["seed"]._replace(default=None),
}
NAME = "find_faults"
ENDED = "status"  # the file of a kept folder that has the exit status of the program
KEPT = ("profile", "sheet", "trace", "report")  # what is kept of a process beside its log


def read_words(words: list[str]) -> argparse.Namespace:
    kinds: dict[str, Any] = {name: number_between(its.least, its.most) for name, its in RANGES.items()}
    parser = ProgramWords(HELP, defaults={name: its.default for name, its in RANGES.items()}, **kinds)
    options = parser.take(words)
    if report_answer.is_asked(options):
        return read_report_words(parser, options)
    if options.table:
        parser.error("--table is for reports: the table of a run is tuned for it")
    if bool(options.words) == bool(options.read):
        parser.error("there is no program" if not options.words else "--read takes no program")
    if options.read and (also := [name for name in ("keep", "halt") if getattr(options, name)]):
        parser.error(f"--read and --{also[0]} can't be given both")
    if options.asan and (also := [name for name in ("read", "children", "preload", "only", "unfreed") if getattr(options, name)]):
        parser.error(f"--asan and --{also[0]} can't be given both")
    options.children = options.children or options.preload
    logs, written = own_files(options)
    written += [(f"--{name}", getattr(options, name)) for name in ("page", "json", "sarif", "tombstones")]
    text_files.refuse_over(written, [options.suppressions, options.tombstone, *logs], [*options.words, *["-"] * bool(options.words)])
    printed = [name for name in ("annotations", "tombstone") if getattr(options, name)]
    if printed and (taken := [name for name in ("json", "sarif", "tombstones") if getattr(options, name) == "-"]):
        parser.error(f"--{taken[0]} - takes the place of the text, and so of what --{printed[0]} prints: name a file by --{taken[0]}")
    if options.children and (options.only or options.page):
        parser.error(f"--{'preload' if options.preload else 'children'} and --{'only' if options.only else 'page'} can't be given both")
    return options


def read_report_words(parser: ProgramWords, options: argparse.Namespace) -> argparse.Namespace:
    """The words where --read names reports."""
    if wrong := report_answer.refuse_options(options):
        parser.error(wrong)
    written = [(f"--{name}", getattr(options, name)) for name in ("json", "sarif")]
    text_files.refuse_over(written, [options.suppressions, options.baseline, options.table, options.read, *options.words])
    return options


def own_files(options: argparse.Namespace) -> "tuple[list[str], list[tuple[str, str]]]":
    """What is read in the folder of --read or --keep, and what is written there, with the option. Of --keep nobody knows yet which processes
    there will be."""
    folder, option = (options.read, "--read") if options.read else (options.keep, "--keep")
    if not folder:
        return [], []
    names = fault_answer.logs(folder, options.children) if not options.children or os.path.isdir(folder) else []
    kept = [f"{name}.{each}" if options.children else each for name in names for each in KEPT]
    return [os.path.join(folder, name) for name in (ENDED, *names)], [(option, os.path.join(folder, name)) for name in kept]
