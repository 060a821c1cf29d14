"""Runs a program and prints its profile: how often it requested each size. `profile_program --help` says all."""

import argparse
import contextlib
import errno
import os
import re
import signal
import stat
import struct
import time

from mte_scripts import certificate_texts, count_texts, entry_point, private_folder, text_files
from mte_scripts.entry_point import Refusal
from mte_scripts.formats import LARGEST_SIZE, MOST_INPUT, MOST_SNAPSHOTS
from mte_scripts.private_folder import NotPrivate
from mte_scripts.recording import SNAPSHOTS, TABLES, WINDOWS, recording, timelines
from mte_scripts.recording.notes import Notes, Texts

from mte_scripts.words import ProgramWords, name_among, nonempty_word, number_between

USUAL_WINDOWS = 64
CLOCK_EACH = 1 << 14  # calls, in shims/blocks.h
importers = entry_point.part("recording.imports.importers")
FORMATS = importers.HELP if importers else "  none: what reads them is not here"

HELP = f"""\
Run a program, and print how often it requested each size: a profile, the input of `mte_tool tune`.

Usage: profile_program [--live] [--only NAME] [--said FILE] PROGRAM ARGS..
       profile_program --timeline|--history[=T]|--windows[=N]|--classes TABLE [--peak FILE] [--upper FILE] [--measured FILE]
                       [--stacks FILE] [--blocks FILE] [--processes FILE] [--again FILE] [--only NAME] PROGRAM ARGS..
       profile_program --library [DIR]
       profile_program --follow STREAM [the options above]
       profile_program --read STREAM
       profile_program --import FILE [--as FORMAT] [--live|--timeline|--history[=T]] [--peak FILE]
       profile_program --import TIMELINE --windows[=N]|--classes TABLE [--peak FILE] [--upper FILE] [--measured FILE] [--again FILE]

  --live         count only the blocks that are live at the peak: when the most bytes are live
  --timeline     print a timeline instead: each request and each free of the run, by size
  --history[=T]  print a history instead: the live blocks at T moments of the run, 1 to 64; 32 where T is left out
  --windows[=N]  print a history of a run of any length, over which each table takes at most what it takes over the run: of moments
                 in N windows of the run, 1 to {WINDOWS}, and others; {USUAL_WINDOWS} where N is left out
  --upper FILE   with --windows, or a timeline that is too long: write into FILE a history over which each table takes at least what
                 it takes over the run
  --again FILE   with --windows: the moments in FILE, which --measured of an earlier run wrote, are among the others. So over an
                 equal run each table takes at least as much over this history as over the earlier one
  --classes TABLE
                 print a history of the moments at which each class of a table has the most blocks. TABLE is a file whose first line
                 is a class line, such as a sheet or a fit. With --windows these moments are among the others; up to {TABLES} times
  --peak FILE    with these four: write the profile of the blocks live at the peak into FILE too, as --live counts them
  --measured FILE
                 with these and --live: write into FILE what the process took of memory at most, in bytes, as lines
                 `large N`, blocks above {LARGEST_SIZE:,} bytes, and `resident N`, its resident set without what the recorder takes;
                 how many requests and frees there were, `events N`, and requests of other processes, `others N`; of each TABLE
                 `footprint N`, what it takes over the whole run, or `footprint none` where it does not serve a size; and of each
                 moment of --windows `moment N`, after N events
  --stacks FILE  with --timeline of a run: write into FILE, for tune_program --who, which calls made each request. The run takes
                 more time, by the depth of the calls. FILE is empty where the run is too long for a timeline
  --blocks FILE  with --timeline of a run: write into FILE, for tune_program, which block each free gives back, and each
                 {CLOCK_EACH:,} calls the time and how much of files is resident. FILE is empty where that would be more than
                 {MOST_INPUT:,} bytes, or the run is too long for a timeline
  --processes FILE
                 with these and --live: write into FILE a line for each program that requested, that of the counted one first:
                 how many, their requests, the most resident memory of one in bytes, 0 where none was seen, and the name
  --as-scudo     with these and --live: a realloc leaves a block as it was where LLVM's Scudo does, which makes it smaller by up to
                 4,095 bytes in its place, and as large again as it had been
  --only NAME    count only processes whose program has this name, as NAME of /usr/bin/NAME
  --library      print the path of the library that is preloaded, and run nothing; with DIR, put it there for services
  --follow STREAM
                 make the file STREAM, and follow what something else starts with it, until Ctrl-C or SIGTERM; then print
  --read STREAM  print what the script that follows STREAM has so far
  --import FILE  print the profile of a file that another tool wrote (standard input for `-`); standard error says what it tells
  --as FORMAT    of --import: the format, where it is not found by itself
  --said FILE    write what this script says of the run into FILE too, a line for each, apart from what the program says

The program is run with a library (LD_PRELOAD) that notes its calls of malloc, calloc, realloc, free, memalign, aligned_alloc,
valloc, pvalloc and posix_memalign, and so C++'s new, in memory that a reader outside the program follows: nothing is called for
that, no lock is taken, and nothing changes in the blocks. Where it is far ahead of the reader it sleeps until that goes on. If all
requests are counted, the library adds to counters alone, which are read when a process has ended, and a free is not seen. The
program runs as ever: its standard input is its own, its standard output goes to standard error; where that is a terminal, a line
there says each second how far it is. It may have threads, fork, and be killed. Without --live all processes that it starts are
counted with it, also those of a script; with --live only the first process is, with what it runs in its own place. A calloc that
overflows counts as a large request, and so does any other above {LARGEST_SIZE:,} bytes; a realloc to 0 bytes is a free. An aligned request
counts as its bytes plus its alignment minus 16. A program that fills its blocks up to malloc_usable_size, as redis does, requests
what the sizes of its present allocator leave it.

A timeline is the input of `mte_tool fit`, which then counts each moment of the run. Its events are in an order in which the calls
could have come one after the other, of all threads: a request as soon as it has its block, a free before the block is given back, a
realloc as a free and a request. The calls of each thread are in their order, and so are those on each block; a call may stand
before an earlier one of another thread where its own thread has made fewer than 32 calls since. Where the text would have more than
{timelines.MOST_TEXT:,} bytes, some 15 million events, what --windows prints is in its place, and standard error says so. All else
is as with --live.

A history is an input of `fit` too. Its snapshots are in the order of time. One is of the peak, the others are taken at evenly
spaced requests: where T are full, every second one goes, and the spacing doubles. So at the end they are about T/2 to T, and fewer
where the program makes fewer requests. All else is as with --live.

--windows is for a run of any length, in memory that does not grow with it. Its snapshots are moments of the run: of each window
that of the most bytes, those at which a class of 16 bytes or a class of a TABLE has the most blocks, and the peak; {MOST_SNAPSHOTS:,} at
most, and windows are left out first. The history of --upper has for each window the most blocks of each size at any of its moments.
Windows begin with some thousand events, and are joined where that changes little. --import takes a timeline of any length for it.

--classes is for a program that runs for long, with the table that it has now: no record is kept, and over the history this table
takes what it takes over the whole run. Another table may take more than the history shows. Merge each day's history with those
before by merge_profiles, and `mte_tool fit` finds the table for all of them.

A program with another allocator, such as jemalloc, keeps it, and its calls are counted. Where it gets blocks in other ways too,
such as by mallocx, nothing of it is counted, and standard error names the file that has the allocator. An allocator inside the
program (Go, jemalloc linked in) is not seen. Before each program is run it is asked whether it can be followed. One that is static,
of another C library than this machine's glibc, set-user-id, or with file capabilities, or that is run after system calls were
given up (seccomp), runs as ever, without the library, as does what it starts; standard error names it with the reason, and the
status is 3 where it is the one that was to be counted. Standard error says which forks can't be followed: after a chroot, under
seccomp, or with an address space that leaves no room. Nothing is counted of a program that overwrites the stream, or requests
faster than the machine can follow.

For a service that something else starts: run `profile_program --follow STREAM` as the service's user, with what is to be counted.
STREAM is a new file in /run or /dev/shm, where it takes 1.3 MB for each process; a disk will do. Start the service with LD_PRELOAD
set to the path that --library DIR prints, and MTE_STREAM to STREAM's. Meanwhile --read STREAM prints what is there. A service that
begins under seccomp (systemd's SystemCallFilter= and the like) is not followed: leave that out while you record.

--import takes these formats, packed by gzip or zstd or not:
{FORMATS}
Without an option all requests are counted, where the file has them; with --live the blocks that were live: at the peak in files of
heaptrack and DHAT, in others when the file was written. heaptrack alone has the order of requests and frees, for --timeline and
--history. Where a file has only the sum of several blocks, each counts at their average; where it has only size classes, at the
most that its class holds.

Exit status:
  0  the profile, the history or the timeline is printed
  1  the same; the program itself ended with another status than 0, which standard error has
  2  the words are refused
  3  there is no profile: no compiler, no such program, nothing was counted, or it counts for nothing; or it could not be written

Examples:
  profile_program sort /etc/services > sort.profile
  profile_program --timeline sort /etc/services > sort.timeline
  profile_program --timeline --import heaptrack.sort.4711.zst > sort.timeline
"""

LIBRARY = "mte_tool_stream.so"  # for services
FORM, HEAD = b"STREAM3\0", struct.Struct("<8sQQ")  # of shims/stream.h: the form, the reader and its descriptor of what it found
ANSWERED = 20  # seconds
CLOSED_PLACE = "choose a place that only you and root can change, such as /usr/local/lib"
OPEN_PLACE = "choose a place that all can reach, such as /usr/local/lib"
FOREGROUND = "run it in the foreground (nginx: daemon off)"


class Options(argparse.Namespace):
    live: "str | None"

    def __init__(self, words: list[str]) -> None:
        kinds: dict = {"history": {"type": number_between(1, SNAPSHOTS), "nargs": "?", "const": 32},
                       "live": {"action": "store_const", "const": "--live"}}
        kinds["windows"] = {"type": number_between(1, WINDOWS), "nargs": "?", "const": USUAL_WINDOWS}
        kinds["classes"] = {"action": "append", "type": nonempty_word, "default": []}
        kinds["as_"] = name_among(*importers.NAMES) if importers else nonempty_word
        ProgramWords(HELP, **kinds).take(words, into=self)
        names = "follow said measured peak upper stacks blocks processes".split()
        written = [(f"--{name}", getattr(self, name)) for name in names]
        text_files.refuse_over(written, [self.import_, self.again, self.read, *self.classes], [*self.words, *["-"] * bool(self.words)])
        self.tables = [certificate_texts.class_line(path) for path in self.classes]
        self.moments = [] if self.again is None else moments_in(self.again)
        if not all(self.tables):
            raise Refusal(2, "the table of --classes has no class")
        self.choose()
        if self.import_ is not None:
            self.refuse_beside_import()
        elif self.as_ is not None:
            raise Refusal(2, "--as goes with --import")

    def choose(self) -> None:
        """What is printed, and what does not go with that."""
        over_time = [f"--{name}" for name in ("timeline", "history", "windows") if getattr(self, name)]
        if len(over_time) > 1 or (self.tables and over_time == ["--history"]):
            raise Refusal(2, f"take one of {' and '.join([*over_time, *['--classes'] * (len(over_time) < 2)])}")
        if len(self.tables) > (TABLES if over_time else 1):
            raise Refusal(2, f"there are {len(self.tables)} tables of --classes: it takes "
                             f"{TABLES if over_time else 'one without --windows'}")
        over_time += ["--classes"] * bool(self.tables)
        self.live = over_time[0] if over_time else self.live
        goes_with = {
            "peak": (over_time, "--timeline, --history, --windows or --classes"),
            "upper": (self.read or self.live in ("--timeline", "--windows"), "--windows, --timeline or --read"),
            "again": (self.live == "--windows", "--windows"),
            "stacks": (self.live == "--timeline" and self.words, "--timeline and a program to run"),
            "blocks": (self.live == "--timeline" and (self.words or self.follow), "--timeline and a program or --follow"),
            **dict.fromkeys(("measured", "as_scudo", "processes"), (self.live, "--live, --timeline, --history, --windows or --classes")),
        }
        for name, (is_there, what) in goes_with.items():
            if getattr(self, name) and not is_there:
                raise Refusal(2, f"--{name.replace('_', '-')} goes with {what}")

    def refuse_beside_import(self) -> None:
        others = {"--read": self.read, "--follow": self.follow, "--only": self.only, "--as-scudo": self.as_scudo, "--library": self.library}
        if not self.is_timeline():
            others |= {"--measured": self.measured, "--classes": self.tables, "--upper": self.upper}
        if given := [name for name, value in others.items() if value]:
            raise Refusal(2, f"--import reads a file, and {given[0]} is for a run")
        if self.words:
            raise Refusal(2, f"--import takes one file, and runs no program: there is no place for {self.words[0]}")
        if self.as_ and self.is_timeline():
            raise Refusal(2, f"{self.live} takes a timeline, and no file of {self.as_}")

    def is_timeline(self) -> bool:
        """Whether what --import names is a timeline."""
        return self.live in ("--windows", "--classes")

    def table_words(self) -> str:
        return ",".join(" ".join(map(str, table)) for table in self.tables)

    def request_to_reader(self) -> str:
        """What the reader is asked for."""
        kinds = {None: "all", "--live": "live", "--history": f"history {self.history}", "--classes": "classes",
                 "--timeline": "timeline blocks" if self.blocks else "timeline",
                 "--windows": " ".join(map(str, ["windows", self.windows, *self.moments]))}
        return ("-" if self.as_scudo else "") + kinds[self.live]


def moments_in(path: str) -> "list[int]":
    """The moments that a file of --measured names."""
    lines = text_files.read(path).decode(errors="replace").splitlines()
    found = [line.removeprefix("moment ") for line in lines if line.startswith("moment ")]
    if not 0 < len(found) <= MOST_SNAPSHOTS or not all(re.fullmatch("[1-9][0-9]{0,17}", each) for each in found):
        raise Refusal(2, f"{text_files.input_name(path)} does not name 1 to {MOST_SNAPSHOTS:,} moments: --measured of "
                         "--windows does")
    return sorted({int(each) for each in found})


# ---- what was found

def print_found(options: Options, speaker: recording.Speaker, notes: Notes, found: Texts) -> bool:
    """Prints what was counted. False where that is nothing."""
    write_beside(options.measured, "".join(f"{line}\n" for line in measurement_lines(options, notes, found.moments)))
    if notes.is_cut:
        instead = f"a history of {notes.snapshots} of its moments is made in its place"
        speaker.say(f"the timeline of {notes.events:,} events would have more than {timelines.MOST_TEXT:,} bytes: {instead}")
    profile = count_texts.fitting_text(count_texts.parse_profile(found.profile, "the profile"), speaker.say)
    if found.wanted:
        recording.write("the history" if notes.snapshots else "the timeline", found.wanted)
        write_beside(options.peak, profile)
    elif profile:
        recording.write("the profile", profile)
    if found.upper:
        write_beside(options.upper, found.upper)
    return bool(found.wanted or profile)


def measurement_lines(options: Options, notes: Notes, moments: bytes) -> "list[str]":
    """What was measured of the run. The footprints are counted where there is a history."""
    found = {"large": notes.large, "resident": notes.resident, "events": notes.events, "others": notes.other_requests}
    lines = [f"{name} {value}" for name, value in found.items() if value]
    taken = notes.taken[: len(options.tables)] if notes.snapshots else []
    return [*lines, *(f"footprint {'none' if each < 0 else each}" for each in taken), *(f"moment {each}" for each in moments.decode().split())]


def write_beside(path: "str | None", text: "str | bytes") -> None:
    if path:
        text_files.write_file(path, text)


def say_uncounted(speaker: recording.Speaker, notes: Notes, live: str, program: str) -> None:
    """What the counts are not of."""
    if notes.wrong:
        speaker.say("one free is of no live block" if notes.wrong == 1 else f"{notes.wrong} frees are of no live block")
    if notes.foreign:
        speaker.say(recording.foreign(program, notes, "counted"))
    if notes.other_requests:
        others = f"(processes: {notes.others}, requests: {notes.other_requests})"
        remedy = f"run it as one process, name one by --only, or count all requests, without {live}"
        speaker.say(f"{live} counted one process. Others requested too, and are not counted {others}: {remedy}")


def print_run(options: Options, speaker: recording.Speaker, notes: Notes, found: Texts, program: str) -> bool:
    """Prints what was counted, and says what that is not of. False where nothing was."""
    recording.refuse_spoiled(notes, program)
    say_uncounted(speaker, notes, options.live or "--live", program)
    recording.say_lost(speaker, notes)
    return print_found(options, speaker, notes, found)


# ---- a service

def follow(options: Options, speaker: recording.Speaker, work: private_folder.Folder) -> int:
    """Follows what something else starts, until it is told to end."""
    if options.words:
        raise Refusal(2, "--follow takes one file, and runs no program")
    with recording.Run(speaker, work, options.request_to_reader(), options.only, options.table_words()) as run:
        status, notes = run.follow(os.path.abspath(options.follow), "", []), run.found.notes()
        if status or not notes.version:
            raise Refusal(3, f"{options.follow} can't be followed: {notes.why or 'the reader was ended'}")
        write_beside(options.processes, "".join(f"{line}\n" for line in notes.programs()))
        write_beside(options.blocks, run.found.texts().blocks)
        return print_service(options, speaker, run.found, options.follow)


def print_service(options: Options, speaker: recording.Speaker, run: recording.ReaderResult, stream: str) -> int:
    if print_run(options, speaker, run.notes(), run.texts(), "the service"):
        return 0
    if run.notes().untouched:
        recording.refuse_nothing("the service", run.notes(), "counted")
    raise Refusal(3, f"nothing was counted in {stream} yet")


def read_only(options: Options, speaker: recording.Speaker) -> int:
    """Prints what the reader of --read's stream has so far."""
    if options.words:
        raise Refusal(2, "--read takes one file, and runs no program")
    try:
        with open(options.read, "rb", opener=private_folder.look_at) as file:
            form, reader, descriptor = HEAD.unpack(file.read(HEAD.size))
            path = os.path.join(os.path.realpath(os.path.dirname(options.read) or "."), os.path.basename(options.read))
            with Reader(reader, descriptor) as found:
                if form != FORM or not found.follows(os.fstat(file.fileno()), path):
                    raise Refusal(3,
                                  f"{options.read} is no stream, or nobody follows it: `profile_program --follow` does")
                with open(found.path(descriptor), "rb") as shared:
                    run = recording.ReaderResult(shared.fileno())
                    return print_service(options, speaker, found.ask_again(run, options.read), options.read)
    except OSError as error:
        if error.errno == errno.ELOOP:
            raise Refusal(3, f"{options.read} is a link: name the file itself") from None
        raise Refusal(3, f"{options.read} can't be read: {error.strerror}") from None
    except struct.error:
        raise Refusal(3, f"{options.read} is no stream") from None


class Reader:
    """The process that a stream names as its reader. Anybody may have written the stream: nothing is sent to a process that does not hold
    this very file, and what a reader has."""

    def __init__(self, process: int, descriptor: int) -> None:
        self.process, self.descriptor = process, descriptor
        self.opened = -1

    def __enter__(self) -> "Reader":
        with contextlib.suppress(OSError, OverflowError):  # it may have been killed
            self.opened = os.pidfd_open(self.process)
        return self

    def __exit__(self, *_: object) -> None:
        if self.opened >= 0:
            os.close(self.opened)

    def path(self, descriptor: "int | str") -> str:
        return f"/proc/{self.process}/fd/{descriptor}"

    def follows(self, status: os.stat_result, path: str) -> bool:
        """Whether it holds the file of a stream by its path, and the file is of nobody else but root."""
        if self.opened < 0 or not stat.S_ISREG(status.st_mode) or (os.geteuid() and status.st_uid not in (0, os.geteuid())):
            return False
        held, shared = os.listdir(f"/proc/{self.process}/fd"), self.path(self.descriptor)
        return os.path.islink(shared) and os.readlink(shared).startswith("/memfd:mte_found") and any(self.is_at(each, status, path) for each in held)

    def is_at(self, descriptor: str, status: os.stat_result, path: str) -> bool:
        with contextlib.suppress(OSError):
            own = os.stat(self.path(descriptor))
            return (own.st_dev, own.st_ino) == (status.st_dev, status.st_ino) and os.readlink(self.path(descriptor)) == path
        return False

    def ask_again(self, run: recording.ReaderResult, stream: str) -> recording.ReaderResult:
        """What it found, once it has written that anew."""
        before, end = run.notes().version, time.monotonic() + ANSWERED
        signal.pidfd_send_signal(self.opened, signal.SIGUSR1)
        while run.notes().version == before:
            if time.monotonic() > end:
                raise Refusal(3, f"the reader of {stream} does not answer")
            time.sleep(0.01)
        return run


def import_file(options: Options, speaker: recording.Speaker) -> int:
    """Prints what a file of another tool counts, and says what that is; or what is kept of a timeline."""
    if options.is_timeline():
        with private_folder.temporary_folder() as work:
            of_reader = recording.of_timeline(options.import_, work, options.request_to_reader(), options.table_words())
        if print_found(options, speaker, *of_reader):
            return 0
        raise Refusal(3, f"{text_files.input_name(options.import_)}: it counts nothing")
    if not importers:
        raise Refusal(3, f"{options.import_} can't be read: the files of other tools want "
                         "scripts/mte_scripts/recording/imports, which is not here")
    wanted = options.live.removeprefix("--") if options.live else importers.import_result.ALL
    got = importers.import_file(options.import_, options.as_, wanted, options.history)
    for line in got.told:
        speaker.say(line)
    for piece in got.text:
        recording.write(got.what, piece)
    write_beside(options.peak, got.peak)
    return 0


# ---- the library of a service

def print_library(options: Options, speaker: recording.Speaker) -> int:
    if len(options.words) > 1:
        raise Refusal(2, "--library takes one folder, and runs no program")
    with private_folder.temporary_folder() as work:
        library = recording.make("stream", work)
        if options.words:
            library = install_library(library, options.words[0])
        if library.startswith(f"{work.path}/"):
            work.keep()
    if not recording.is_plain(library):
        speaker.say("the loader takes no path with a space, a colon or a dollar sign: put the library elsewhere by --library DIR")
    recording.write("the path", f"{library}\n")
    return 0


def install_library(library: str, folder: str) -> str:
    """Puts the library where a service may read it."""
    if not os.path.isdir(folder):
        raise Refusal(3, f"there is no folder {folder}")
    if closed := private_folder.first_closed(folder):
        raise Refusal(3, f"no other user can enter {closed}: {OPEN_PLACE}")
    try:
        with private_folder.open_private_folder(folder) as place:
            if not recording.is_plain(place.path):
                raise Refusal(3, "the loader takes no path with a space, a colon or a dollar sign, as in "
                                 f"{place.path}: choose another place")
            with place.new_file(LIBRARY) as new, open(new, "wb") as file:
                file.write(text_files.read(library))
            path = place.file(LIBRARY)
    except NotPrivate as found:
        raise Refusal(3, f"{found}: {CLOSED_PLACE}") from None
    except OSError as error:
        raise Refusal(3, f"{folder} can't be written: {error.strerror}") from None
    if recording.try_loading("stream", path):
        raise Refusal(3, f"the library can't be loaded from {folder}: perhaps it is mounted with noexec")
    return path


# ---- a run

def say_left(speaker: recording.Speaker, options: Options, notes: Notes) -> None:
    """Says of a program that goes on."""
    begin = f"{options.words[0]} ended but left process {' '.join(map(str, notes.remaining_processes()))} running"
    if options.live:
        speaker.say(f"{begin}, which {options.live} does not count: {FOREGROUND}, or count all requests, without {options.live}")
    else:
        speaker.say(f"{begin}: counted is what was requested until now. R{FOREGROUND[1:]}, or follow it as a service, by --follow")


def run_program(options: Options, speaker: recording.Speaker, path: str, work: private_folder.Folder) -> int:
    program = options.words[0]
    wanted, recorder = options.request_to_reader(), "stacks" if options.stacks else "stream"
    if wanted == "all":
        wanted, recorder = "counts", "counts"
    with recording.Run(speaker, work, wanted, options.only, options.table_words(), recorder) as run:
        notes, found = run.run(options.words, path), run.found.texts()
        write_beside(options.stacks, found.sites)
        write_beside(options.blocks, found.blocks)
        write_beside(options.processes, "".join(f"{line}\n" for line in notes.programs()))
        if notes.left:
            say_left(speaker, options, notes)
            run.library.keep()
        whose = options.only or program
        if not print_run(options, speaker, notes, found, whose):
            recording.refuse_nothing(whose, notes, "counted")
        if notes.untouched:
            last = f"the last one in {notes.allocator}"
            speaker.say(f"{notes.untouched} processes with an allocator of their own, {last}, are not counted")
    return 1 if run.status else 0


def profile(words: list[str], speaker: recording.Speaker) -> int:
    options = Options(words)
    speaker.said = options.said
    if options.library:
        return print_library(options, speaker)
    if options.import_ is not None:
        return import_file(options, speaker)
    if options.read:
        return read_only(options, speaker)
    if options.follow:
        with private_folder.temporary_folder() as work:
            return follow(options, speaker, work)
    if not options.words:
        return recording.print_usage(HELP)
    path = recording.find_program(options.words[0])
    beside = [options.upper, options.stacks, options.blocks, options.processes]
    text_files.refuse_unwritable([options.measured, options.peak, *beside, options.said])
    if options.live and not options.only:
        recording.say_script(speaker, options.words[0], path, f"{options.live} counts {recording.INTERPRETER}; --only NAME counts")
    with private_folder.temporary_folder() as work:
        return run_program(options, speaker, path, work)


main = recording.with_speaker("profile_program", profile)
