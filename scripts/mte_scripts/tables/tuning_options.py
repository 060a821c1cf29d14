"""The words of tune_program, and what they ask for."""

import argparse
import copy
import os
from typing import Any

from mte_scripts import count_texts, text_files
from mte_scripts.entry_point import Refusal
from mte_scripts.formats import CODES, MOST_COUNT
from mte_scripts.tables import figures, long_runs, services
from mte_scripts.words import TABLES, ProgramWords, decimal, name_among, nonempty_word, number_between

HELP = """\
Run a program, make two tables of size classes for it, check both, and say what they save. One is made to take little memory over
time, the other to lose little by rounding. The summary says among which tables each is the first, and whether that is shown.

Usage: tune_program [OPTION..] PROGRAM ARGS..
       tune_program [OPTION..] --load CMD [--ready WHEN] [--stop HOW] [--idle SECONDS] [--measure REGEX] -- SERVER ARGS..
       tune_program [OPTION..] --read FILE [--upper UPPER]

  --limit K        the most classes that the table may have, 1 to 32; 32 where it is left out
  --step S         each class is a multiple of S granules of 16 bytes: 1, 2, 4 or 8; 1 where it is left out
  --all            count all requests, and make one table; without it the live blocks count, over time and at the peak
  --objective footprint|waste
                   which of the two tables Scudo's map is of: that of the footprint where this is left out and there is a timeline
                   or a history, else that of the waste
  --verify SCUDO   build Scudo from LLVM's sources, of which SCUDO is the folder compiler-rt/lib/scudo/standalone, with its own map
                   and with this one; run the program five times each, in random order, as it is, with each other allocator that is
                   installed, with Scudo and with the map; and say what hardening costs it in memory and what of that the map pays
                   back, with the interval in which a further run lies (95%, by Student's t, if peaks are normally distributed). For
                   a program that ends by itself and does the same each time, or a server with --load. Its standard input is kept
                   for that; what these runs print is not shown. The tuned Scudo stays in the folder, as a library for LD_PRELOAD,
                   with its header. It wants LLVM 19 or a later one, and clang++ or what CXX names
  --load CMD       the program is a server, and CMD, which the shell runs and which ends, is the load under which it is recorded and
                   measured. Each run has a start, this load and a stop, and leaves no process; measured.txt has a line for each.
                   Ctrl-C keeps what is measured
  --ready WHEN     when the load may begin: a port of localhost; /REGEX/, which a line has that the server prints; or a command that
                   succeeds then. Without it, when the server listens
  --stop HOW       what stops the server: the name of a signal to its first process, or a command; TERM where it is left out
  --idle SECONDS   how long the server has no load before its memory is read once more; {IDLE:g} where it is left out
  --measure REGEX  the number of what CMD prints, such as requests a second: the first group, or all; of several their geometric
                   mean. Where it is left out, that of redis-benchmark, ab, wrk, pgbench or memtier_benchmark
  --settings       with --verify: run it also with other settings of Scudo, of both tables: how soon memory is given back, a
                   quarantine, zero fill. That is 60 runs more
  --who            say which places in the source request the blocks that cost, and what is saved where one requests some bytes
                   fewer: by the calls that made each request, which are recorded too, or stand in FILE of --read where heaptrack
                   wrote it. Recording takes more time then, by the depth of the calls. Names want binutils, lines debug symbols
  --only NAME      count only processes whose program has this name, as NAME of /usr/bin/NAME
  --against TABLE  a file with a class line: another table to compare with, besides Scudo's default and its table for Android
  --output FOLDER  the folder to make; without it, the name of the program or of FILE with `.tuned`, in the current folder, and a
                   number where that is there already
  --largest        force class 1024, so that each table serves every size that any can; this is so where it is left out. Then the
                   tables are compared with those alone that have it
  --no-largest     do not force it: a table serves the counted sizes, and perhaps no larger one
  --read FILE      run no program: take a profile, a history or a timeline from anywhere, also what merge_profiles prints. With
                   --all, a profile counts all requests. Of the others the moment of the most requested bytes is the profile
  --upper UPPER    with a history that `profile_program --windows` printed: the one that it wrote beside it
  --scale          where a count is above {MOST_COUNT:,}, the most that a text may have, divide all by the same number and round up:
                   what is said is then of these, and says so. Without it such a FILE is refused
  --runs N         run the program N times at most, 1 to {MOST_RUNS}, where one run is too long for a timeline; 4 where it is left out

The program runs under scripts/profile_program, and as ever: its standard input is its own, its standard output goes to standard
error. Ctrl-C ends it early; what it did up to then counts. A server counts until it is stopped.

Where a program is run without --all, each request and each free is recorded: a timeline. The footprint is then over each moment of
the run. Where the record is too long for that, it is of some moments, and of the most blocks between them: the summary says how
much every table takes, and this one at most. If these differ by more than 1%, and the program ended by itself and reads a file or
nothing, it is run again, and the table counted over that whole run; what is said is of the last run alone. docs/TUNING.md says
when to take which table.

What the first line then predicts is simulated page by page, and not proved: for the interval at which Scudo gives memory back by
default, or by release_to_os_interval_ms in SCUDO_OPTIONS, from which block each free gave back. It is a range, since it is not
recorded how much of each block the program writes: all, all but the end, half, or a byte. A timeline of --read has only sizes: then
also for the last, the first and any block of a size. Each end is moved by how far the model may be off, a twentieth of it and 256
KiB at least. Where what is simulated differs by more than a tenth, and 256 KiB, or the range goes from more to less, the line says
`measure`; where it ends below 512 KiB, or 0.5% of the process, that a table is not worth it.

The folder is new. It has program.profile (what was counted), tuned.sheet (the table that loses little and its certificate),
tuned_map.inc (a table for LLVM's Scudo), waste.svg (the waste by the number of classes), report.html (all of it as a page),
claims.txt (what is shown of each table, and the command that checks it) and summary.txt, which is printed too. Beside these it
has program.timeline, fitted.fit (the other table and its certificate) and moments.history (the moments that the fit names, for
merge_profiles); or program.history, fitted.fit and, of a long run, upper.history. Where the engines of scripts/page are at hand,
page.html is its page of the same counts, to which report.html has a link. With --who there are who.txt (the places), who.svg and
who_lost.svg (flame graphs of what is taken, and of what is lost by rounding) and who.speedscope.json. If a step fails, what was
made before it stays.

Where the process that is started first makes less than nine tenths of all requests, and another program makes those, the program is
run again for that, as with --only; where none does, the programs are named with their requests, and nothing is tuned.

MTE_TOOL=PATH in the environment takes the program at PATH in place of the built one; the summary and the page say so.

Exit status:
  0  all files are made, and `check` says `optimal`
  1  the same; but the program itself ended with another status than 0
  2  the words are refused, or a profile or a table that they name
  3  the folder is there already or cannot be made, nothing was counted, or a step failed; standard error says which and why

Example:
  tune_program sqlite3 :memory: < examples/sqlite_large.sql
""".replace("{MOST_RUNS}", str(long_runs.MOST_RUNS)).replace("{MOST_COUNT:,}", f"{MOST_COUNT:,}").replace("{IDLE:g}", f"{services.IDLE:g}")


class Options(argparse.Namespace):
    objective: str
    is_objective_given: bool
    divisor = 1  # of the counts
    ran = ""  # the program that runs in the place of the one that the words name, where there is one

    def __init__(self, words: list[str]) -> None:
        kinds: dict[str, Any] = {**TABLES, "objective": name_among("footprint", "waste")}
        kinds |= {"largest": {"action": "store_true", "default": True}, "no_largest": {"action": "store_false", "dest": "largest"}}
        kinds |= {"against": {"action": "append", "type": nonempty_word, "default": []},
                  "runs": number_between(1, long_runs.MOST_RUNS)}
        kinds["idle"] = decimal(0, services.MOST_IDLE, "seconds")
        ProgramWords(HELP, defaults={"limit": 32, "step": 1, "runs": 4}, **kinds).take(words, into=self)
        self.refuse_conflicts()

    def refuse_conflicts(self) -> None:
        if self.read is None and not self.words:
            raise Refusal(2, "it wants a program to run, or --read FILE; --help says more")
        if self.read is not None and self.words:
            raise Refusal(2, f"--read runs no program, so there is no place for {self.words[0]}")
        if self.read is not None and self.only is not None:
            raise Refusal(2, "--read runs no program, so there is no process that --only could name")
        if self.upper is not None and self.read is None:
            raise Refusal(2, "--upper goes with --read")
        services.agree(self)
        if self.verify is not None and self.load is None and (self.read is not None or self.all or self.only is not None):
            raise Refusal(2, "--verify runs the program itself, so there is no place for --read, --all or --only: name "
                             f"the program alone; {services.hint('redis-server')}")
        if self.settings and self.verify is None:
            raise Refusal(2, "--settings goes with --verify")
        if self.who and (self.all or self.upper is not None):
            raise Refusal(2, "--who takes each moment of a run, so there is no place for "
                             f"{'--all' if self.all else '--upper'}")
        if self.limit == 1 and self.largest:
            raise Refusal(2, "--limit 1 has no class beside 1024: take --no-largest too, or a higher limit")

    def with_values(self, **values: object) -> "Options":
        """A copy with other values: what a step was given it leaves as it is."""
        found = copy.copy(self)
        vars(found).update(values)
        return found

    def with_objective(self, history: object) -> "Options":
        """With the objective that follows where none is given. Without a history, which may yet be recorded, there is but one table."""
        if history is None and self.objective == "footprint":
            wanted = "a history or a timeline: a program that is run without --all, or one of --read"
            raise Refusal(2, f"--objective footprint wants {wanted}")
        if history is not None and self.all:
            raise Refusal(2, "--all counts all requests, and this has the live blocks: leave it out")
        follows = "waste" if history is None else "footprint"
        return self.with_values(is_objective_given=self.objective is not None, objective=self.objective or follows)

    def with_divisor(self, found: "dict | count_texts.History") -> "Options":
        """With that of the counts, where it is wanted; else those that no text can have are refused."""
        divisor = count_texts.divisor_of(found) if self.scale else 1
        if divisor < count_texts.divisor_of(found):
            raise Refusal(2, f"{text_files.input_name(self.read)}: 32 CountOutOfRange: {CODES[32].words}; --scale "
                             "divides all counts by the same number")
        return self.with_values(divisor=divisor)

    def name(self) -> str:
        if self.read is None:
            return self.ran or os.path.basename(self.words[0]) or self.words[0]
        return "profile" if self.read == "-" else figures.without_ending(self.read, ".profile", ".history", ".timeline")

    def name_counted(self) -> str:
        """The name of what is counted, with that of the program that started it."""
        return self.name() if self.only in (None, self.name()) else f"{self.only} of {self.name()}"
