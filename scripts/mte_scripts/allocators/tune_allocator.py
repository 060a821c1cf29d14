"""Finds block sizes for an allocator with size classes. `tune_allocator --help` says all."""

import argparse
import contextlib
import os
import re
import sys
from bisect import bisect_left
from typing import Any, NamedTuple

from mte_scripts import claim_words, claims, private_folder, text_files, text_layout
from mte_scripts.allocators import parts
from mte_scripts.allocators.models import MODELS, Model
from mte_scripts.allocators.records import Record, read_record
from mte_scripts.entry_point import Refusal, printable
from mte_scripts.formats import MOST_CLASSES
from mte_scripts.places import SCRIPTS
from mte_scripts.recording import children, recording
from mte_scripts.tables import figures
from mte_scripts.words import ProgramWords, nonempty_word, number_between

GROWS = 90  # percent of what sizes take that are live at one moment, where a program grows
WIDTH = 100


def model_line(name: str, model: Model) -> str:
    """What the help says of a model."""
    number = sum(size > model.ends[0] for size in model.own)
    return f"  {name:16} {number} sizes above {model.ends[0]} and up to {model.ends[-1]:,} bytes\n"


HELP = f"""\
Find block sizes for an allocator with size classes that take less memory for a program than its own, and say what they
save, or that there is nothing to gain.

Usage: tune_allocator NAME [OPTION..] PROGRAM ARGS..
       tune_allocator NAME [OPTION..] --read FILE

  --limit K        at most so many sizes; as many as the allocator has where it is left out
  --against SIZES  other sizes to compare with, as 16,32,48
  --line           print the sizes alone, as they are built in
  --output FOLDER  make a folder with the record, the sizes, and for each part what mte_tool was given and has printed
  --only NAME      follow only processes whose program has this name, as NAME of /usr/bin/NAME
  --read FILE      run no program: take a timeline, a history or a profile; `-` for standard input

NAME is one of these. The largest size stays, and in kmalloc and aset some others:
{"".join(model_line(name, model) for name, model in MODELS.items())}
The program runs under scripts/profile_program, which makes a timeline of it, and as ever: its standard input is its
own, its standard output goes to standard error. go, kmalloc and aset serve no program's malloc: they take a FILE.

What sizes take is the sum over the sizes of the most of their blocks live at once, each at its cost. That is what an
allocator takes that gives the memory of one size never to another. Most give what is wholly free to others. So a saving
is predicted only where a program grows: if what is live at one moment comes within {100 - GROWS}% of that sum. Smaller
and larger blocks are left alone. What is of no one block is not seen: slabs that are partly free, caches of threads,
alignment.

{claim_words.general_sentence("allocators")}

Exit status:
  0  the answer is printed
  1  the same; the program itself ended with another status than 0, which standard error has
  2  the words or a file are refused
  3  nothing was recorded, mte_tool could not run, or a write failed

Examples:
  scripts/tune_allocator jemalloc sqlite3 :memory: < examples/sqlite_large.sql
  scripts/tune_allocator musl --limit 24 --read examples/sqlite_large.history
"""


class Options(argparse.Namespace):
    words: "list[str]"
    read: "str | None"
    output: "str | None"

    def __init__(self, words: "list[str]") -> None:
        is_first = bool(words) and not words[0].startswith("-")
        kinds: "dict[str, Any]" = {"limit": number_between(1, 2 * MOST_CLASSES), "against": sizes_of}
        ProgramWords(HELP, **kinds).take(words[is_first:], into=self)
        named = words[:1] if is_first else self.words[:1]
        self.words = self.words if is_first else self.words[1:]
        if not named or named[0] not in MODELS:
            wrong = f", and {printable(named[0])} is none" if named else ""
            raise Refusal(2, f"it wants the name of an allocator first, {', '.join(MODELS)}{wrong}; --help says more")
        self.model = MODELS[named[0]]
        self.agree()

    def agree(self) -> None:
        if self.read is None and not self.words:
            raise Refusal(2, "it wants a program to run, or --read FILE; --help says more")
        if self.read is not None and (self.words or self.only is not None):
            what = f"place for {self.words[0]}" if self.words else "process that --only could name"
            raise Refusal(2, f"--read runs no program, so there is no {what}")
        if self.model.serves and self.read is None:
            what = f"a record of what {self.model.serves}"
            raise Refusal(2, f"{self.model.title} serves no malloc of a program: give {what}, by --read")


def sizes_of(value: str) -> "list[int]":
    """Ascending sizes."""
    if not re.fullmatch("[1-9][0-9]{0,5}(,[1-9][0-9]{0,5})*", value):
        raise argparse.ArgumentTypeError(f"takes sizes as 16,32,48, and not {value}")
    return sorted({*map(int, value.split(","))})


class Table(NamedTuple):
    """Block sizes, what they take, and what of it is live at one moment at most."""

    name: str
    sizes: "list[int]"
    taken: int
    live: int


class Answer(NamedTuple):
    """The fits of the parts, and the tables: the own one, the fitted one, and others. SIZES are to be built, and
    come to BUILT."""

    model: Model
    record: Record
    fits: "list[parts.PartFit]"
    tables: "list[Table]"
    sizes: "list[int]"
    built: Table

    def saving(self) -> int:
        return self.tables[0].taken - self.built.taken

    def cells(self, table: Table) -> "list[str]":
        """The row of a table."""
        own = self.tables[0].taken
        less = own - table.taken
        saved = [figures.kibibytes(less), figures.percent(less, own)] if table is not self.tables[0] else ["", ""]
        return [table.name, str(len(table.sizes)), figures.kibibytes(table.taken), *saved]

    def grows(self) -> bool:
        """Whether blocks of all sizes are live at one moment, nearly all that there ever are."""
        return all(100 * each.live >= GROWS * each.taken for each in (self.tables[0], self.built))


def tune_allocator(words: "list[str]") -> int:
    options, status = Options(words), 0
    figures.run(["footprint"], "snapshots 1\n16 1\n", [2])  # there is a program, before another one runs
    place = text_files.new_folder(options.output, "--output") if options.output is not None else None
    try:
        if options.read is None:
            record, status = record_program(options)
        else:
            record = read_record(options.read, text_files.input_name(options.read))
        answer = answer_record(options, record)
    except BaseException:
        if place:
            with contextlib.suppress(OSError):  # where the program has put something into it, or taken it away
                os.rmdir(options.output)
        raise
    line = ",".join(map(str, answer.sizes)) + "\n"
    if place:
        place.write(f"record.{record.kind}", record.data)
        place.write("sizes.txt", line.encode())
        for number, fit in enumerate(answer.fits, 1):
            place.write(f"part{number}.fit", fit.answer.encode())
            place.write(f"part{number}.{'timeline' if record.kind == 'timeline' else 'history'}", fit.text)
    text_files.write(line if options.line else summary(answer))
    return status


def record_program(options: Options) -> "tuple[Record, int]":
    """Runs the program: its record, and 1 where it ended with another status than 0."""
    name = options.words[0]
    recording.find_program(name)
    words = ["--timeline", *(["--only", options.only] if options.only else []), "--", *options.words]
    command = [sys.executable, "-ISXutf8", "--", os.path.join(SCRIPTS, "profile_program"), *words]
    with private_folder.temporary_folder() as work:
        with open(work.file("record"), "wb") as file:
            status = children.run(command, stdout=file)
        if status not in (0, 1):
            raise Refusal(3, f"nothing is recorded of {name}")
        return read_record(work.file("record"), os.path.basename(name)), status


def answer_record(options: Options, record: Record) -> Answer:
    model = options.model
    own = [size for size in model.own if size > model.ends[0]]
    fits = parts.fit_parts(model, record, options.limit or len(own))
    fitted = [size for fit in fits for size in fit.sizes]
    sizes = parts.filled_sizes(model, fitted, record) if model.exact else fitted
    name = fits[0].claim.table() if len(fits) == 1 else "fitted"
    tables = [table_of(each, which, fits, record) for each, which in ((f"{model.title} as it is", own), (name, fitted))]
    if model.exact and len(sizes) + 1 > len(fitted):  # the largest stays, and is none of them
        tables.append(table_of(f"with {model.exact + 1} sizes, as there have to be", sizes, fits, record))
    built = tables[-1]
    if options.against:
        tables.append(table_of("--against", options.against, fits, record))
    return Answer(model, record, fits, tables, sizes, built)


def table_of(name: str, sizes: "list[int]", fits: "list[parts.PartFit]", record: Record) -> Table:
    """What block sizes come to, with those that stay."""
    model = fits[0].part.model
    low, top = model.ends[0], model.ends[-1]
    if outside := [size for size in sizes if not low < size <= top]:
        raise Refusal(2, f"{outside[0]:,} bytes are not above {low} and up to {top:,}, as sizes are for {model.title}")
    taken = sum(fit.part.footprint(sizes, fit.text) for fit in fits)
    every = sorted({*sizes, *(size for fit in fits for size in fit.part.held)})
    cost = {size: each for fit in fits for size, each in fit.part.cost.items()}
    blocks = {size: block for fit in fits for size in record.sizes if (block := fit.part.block(size))}
    amounts = {size: cost[every[bisect_left(every, block)]] for size, block in blocks.items()}
    return Table(name, every, taken, record.most(amounts))


def summary(answer: Answer) -> str:
    model, record, ends, own = answer.model, answer.record, answer.model.ends, answer.tables[0]
    lines = [f"{printable(record.name)} in {model.title}, blocks above {ends[0]} and up to {ends[-1]:,} bytes", ""]
    said = [prediction(answer), *(fit.sentence(record) for fit in answer.fits)]
    if len(answer.fits) > 1:
        said.append(claims.shared_sizes(f"{end:,}" for end in ends[1:-1]))
    alone = {size: size for size in record.sizes if not any(fit.part.block(size) for fit in answer.fits)}
    if live := record.most(alone):
        others = f"of requests with {figures.kibibytes(live)} live at most, and large ones"
        said.append(f"Left alone are smaller and larger blocks, {others}.")
    if figures.helps(answer.saving(), own.taken):
        said += [f"To build, by {model.build}:", ",".join(map(str, answer.sizes))]
    lines += text_layout.columns([["Table", "sizes", "takes", "less", ""], *map(answer.cells, answer.tables)])
    lines += [line for text in said for line in ["", *text_layout.wrap_text(text, WIDTH)]]
    return "".join(f"{line}\n" for line in lines)


def prediction(answer: Answer) -> str:
    """What follows for the memory of the program."""
    own, built, title = answer.tables[0], answer.built, answer.model.title
    saved, *amounts = map(figures.kibibytes, (answer.saving(), own.live, own.taken, built.live, built.taken))
    if not figures.helps(answer.saving(), own.taken):
        return f"Nothing to gain: {title} as it is takes {amounts[1]}, and with other sizes {amounts[3]}."
    if answer.record.has_one_moment():
        return f"No saving is predicted: one moment does not show whether the program grows. If all that is counted is live at once, {saved} less."
    if answer.model.keeps_empty:
        return f"Predicted: {saved} less. What blocks of one size have taken, no other size gets."
    live = "Live at one moment are {} of {}, and {} of {}.".format(*amounts)
    if answer.grows():
        return f"Predicted: {saved} less. The program grows. {live}"
    why = f"blocks of the sizes peak at different moments, and {title} gives memory that is wholly free to other sizes"
    return f"No saving is predicted: {why}. {live} Measure it."
