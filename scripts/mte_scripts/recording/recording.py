"""What profile_program and trace_program share: the library that is preloaded, its reader, and the run of a program with both."""

import contextlib
import errno
import mmap
import os
import re
import shutil
import subprocess
import sys
import time
from collections.abc import Callable, Iterator
from typing import NoReturn

from mte_scripts import entry_point, private_folder, shell_words, text_files
from mte_scripts.entry_point import Refusal
from mte_scripts.places import GET_GCC, IS_PACKAGED, ROOT
from mte_scripts.private_folder import NotPrivate
from mte_scripts.recording import children, programs
from mte_scripts.recording.notes import PAGE, Notes, Texts
from mte_scripts.recording.shims import SHIMS, compile_alone, sources_in, sum_of

RECORDERS = os.path.join(ROOT, "recorders")  # of a package
# Without -fno-builtin gcc makes a calloc of a malloc and a memset, also inside calloc.
LIBRARY, READER = ["-O2", "-fno-builtin", "-shared", "-fPIC", "-Wall"], ["-O2", "-Wall"]
# `stacks` and `sites` record the stack of each request too, `counts` has no records; what goes over a run's events is no
# part of a recorder
FLAGS = dict.fromkeys(("stream", "stacks", "counts", "passes"), LIBRARY)
FLAGS |= dict.fromkeys(("follow", "sites", "release_model"), READER)
READERS = {"stream": "follow", "stacks": "sites", "counts": "follow"}
ENDINGS = {name: ".so" if flags is LIBRARY else "" for name, flags in FLAGS.items()}
WATCHED = 1  # a line on a terminal every so many seconds
NO_NOTES = {3: "there is no room for what is recorded"}  # the reader's status, where it could not note it
ANOTHER_PLACE = "set XDG_CACHE_HOME to another place"
INTERPRETER = "its interpreter alone, or what that runs in its own place"  # of a script


class Speaker:
    """What a script says of a run: a line on standard error, and in the file that --said names."""

    def __init__(self, name: str) -> None:
        self.name = name
        self.said = None

    def say(self, text: str) -> None:
        entry_point.say(self.name, text)
        if self.said:
            with contextlib.suppress(OSError), open(self.said, "ab") as file:
                file.write(os.fsencode("".join(c if c.isprintable() or "\udc80" <= c <= "\udcff" else "?" for c in text) + "\n"))


def write(what: str, data: "str | bytes") -> None:
    try:
        text_files.write(data)
    except Refusal as refused:
        raise Refusal(3, f"{what} could not be written: {refused.text}") from None


def print_usage(text: str) -> int:
    """The help on standard error, where there are no words."""
    os.write(2, os.fsencode(shell_words.help_text(text)))
    return 2


def open_missing_stderr() -> None:
    """Without standard error nobody hears a word, and all else is as ever."""
    try:
        os.fstat(2)
    except OSError:
        nowhere = os.open(os.devnull, os.O_WRONLY)
        os.dup2(nowhere, 2, inheritable=True)
        if nowhere != 2:
            os.close(nowhere)


def is_plain(path: str) -> bool:
    """Whether the loader takes a path in LD_PRELOAD as it is: it has no escape for a space, a colon and a dollar sign."""
    return not re.search(r"[:$\s]", path)


# ---- the library and its reader

def make(name: str, work: private_folder.Folder) -> str:
    """The path of shims/NAME.c compiled. A package brings it, for its own glibc or a later one. Else it stays in the cache, or in WORK if
    there is no cache that nobody else can change."""
    if IS_PACKAGED and (path := find_packaged(name)):
        return path
    file = file_of(name)
    with cache_or(work, file) as place:
        return place.kept(file, lambda new: compile_source(name, new))


def file_of(name: str) -> str:
    """What its compiled form is called in the cache."""
    return f"{name}-{sum_of(FLAGS[name], sources_in(SHIMS, '.c'))}{ENDINGS[name]}"


def find_packaged(name: str) -> "str | None":
    path = os.path.realpath(os.path.join(RECORDERS, f"{name}{ENDINGS[name]}"))
    try:
        with private_folder.open_private_folder(os.path.dirname(path)) as place:
            return (path if place.has(os.path.basename(path)) and is_plain(path) and not try_loading(name, path)
                    else None)
    except (NotPrivate, OSError):
        return None


def try_loading(name: str, path: str) -> bytes:
    """What the loader says against it: the reader ends without a word where it gets none."""
    small = shutil.which("cat", path=f"{os.defpath}:{os.environ.get('PATH', '')}") or sys.executable
    words, more = ([path], {}) if not ENDINGS[name] else ([small, os.devnull], {"LD_PRELOAD": path, "MTE_STREAM": ""})
    how: dict = {"stdin": subprocess.DEVNULL, "stdout": subprocess.PIPE, "stderr": subprocess.STDOUT, "env": {**os.environ, **more}}
    return subprocess.run(words, **how).stdout


def cache_or(work: private_folder.Folder, file: str) -> private_folder.Place:
    """The cache if it has the file or can take it; else the folder of this run."""
    with contextlib.suppress(Refusal):
        place = private_folder.cache()
        if place.has(file) or os.access(place.path, os.W_OK):
            return place
        place.close()
    return private_folder.open_private_folder(work.path)


def compile_source(name: str, to: str) -> None:
    source, words = os.path.join(SHIMS, f"{name}.c"), [find_compiler(), *FLAGS[name]]
    refusal = f"{source} could not be compiled: it needs glibc ({GET_GCC}), and room in {os.path.dirname(to)}"
    compile_alone([*words, source, "-o", to, "-ldl"], refusal)


def find_compiler() -> str:
    compiler = os.environ.get("CC") or "cc"
    if not shutil.which(compiler):
        raise Refusal(3, f"there is no C compiler `{compiler}`: install one ({GET_GCC}), or set CC")
    return compiler


def need_recorder() -> None:
    """Refuses where no program can be recorded: nothing here can compile the recorder, and none is kept or packaged."""
    if IS_PACKAGED:
        return
    with contextlib.suppress(Refusal), private_folder.cache() as place:
        if place.has(file_of("stream")):
            return
    find_compiler()


class Library:
    """The library and a name of it that the loader takes, in a folder of its own where there has to be one."""

    def __init__(self, work: private_folder.Folder, name: str = "stream") -> None:
        self.path, self.work = make(name, work), work
        self.link: "private_folder.Folder | None" = None
        self.name = self.path if is_plain(self.path) else self.link_apart()

    def link_apart(self) -> str:
        for where in (self.work.path, "/tmp", "/var/tmp", "/dev/shm"):
            with contextlib.suppress(NotPrivate, OSError):
                self.link = private_folder.new_folder(private_folder.open_folder(where))
                name = self.link.file("library.so")
                if is_plain(name):
                    os.symlink(self.path, name)
                    return name
                self.link.close()
        raise Refusal(3, f"the loader takes no path with a space, a colon or a dollar sign, as in {self.path}: "
                         f"{ANOTHER_PLACE}")

    def keep(self) -> None:
        """For processes that are left: what they start loads the library by its name."""
        if self.link:
            self.link.keep()
        if self.path.startswith(self.work.path + "/") or (self.link and self.link.path.startswith(self.work.path + "/")):
            self.work.keep()

    def close(self) -> None:
        if self.link:
            self.link.close()


# ---- the program

def find_program(word: str) -> str:
    """The path of a program."""
    path = word if "/" in word or word in (".", "..") else shutil.which(word)
    if not path or not os.path.exists(path):
        raise Refusal(3, f"there is no program {word}")
    if os.path.isdir(path):
        raise Refusal(3, f"{word} is a folder, and no program")
    if not os.access(path, os.X_OK):
        raise Refusal(3, f"{word} is not executable: run `chmod +x` on it, or name the program that reads it before it")
    return path


def begins(path: str) -> bytes:
    with contextlib.suppress(OSError), open(path, "rb") as file:
        return file.read(4)
    return b""


def say_script(speaker: Speaker, word: str, path: str, how: str) -> None:
    """Says how a script is recorded, where the program is one."""
    if begins(path).startswith(b"#!"):
        speaker.say(f"{word} is a script, and {how} a program that it starts")


def foreign(program: str, notes: Notes, done: str) -> str:
    """What is said of another allocator; DONE says how its requests are recorded."""
    return f"{program} has another allocator than glibc's, {notes.allocator}; what it requests of that is {done}"


def refuse_nothing(program: str, notes: Notes, done: str) -> NoReturn:
    """Says why there are no requests."""
    if notes.untouched:
        own = f"{program} has an allocator of its own, in {notes.allocator}, that can't be followed"
        raise Refusal(3, f"{own}: it ran as ever, and nothing is {done}")
    raise Refusal(3, f"{program} requested nothing from malloc; perhaps it has an allocator of its own inside")


def refuse_spoiled(notes: Notes, program: str) -> None:
    """Says why what there is of a record does not count."""
    if notes.spoiled:
        raise Refusal(3, f"{program} overwrote what was recorded: nothing of it counts")
    if notes.gaps:
        raise Refusal(3, f"{program} requested faster than could be followed on this machine: nothing of it counts")


def say_lost(speaker: Speaker, notes: Notes) -> None:
    """Says of calls that have no record, and of processes that have none."""
    if notes.lost:
        speaker.say(f"calls without a whole record: {notes.lost}; a signal's handler jumped out of them, or the program or a thread ended in them")
    if reasons := notes.reasons():
        speaker.say(f"some processes are not counted: {', '.join(reasons)}")
    if unfollowed := notes.name_unfollowed():
        speaker.say(f"not followed, nor what they start: {', '.join(unfollowed)}")


def has_sanitizer(path: str) -> bool:
    with contextlib.suppress(OSError, ValueError), open(path, "rb") as file:
        with mmap.mmap(file.fileno(), 0, access=mmap.ACCESS_READ) as data:
            return data.find(b"libasan.so") >= 0
    return False


class ReaderResult:
    """What a reader finds, in memory that it shares: its notes, and the texts after them."""

    def __init__(self, descriptor: int) -> None:
        self.descriptor = descriptor

    def notes(self) -> Notes:
        return Notes.of_page(os.pread(self.descriptor, PAGE, 0))

    def texts(self) -> Texts:
        with open(os.dup(self.descriptor), "rb") as file:
            file.seek(PAGE)
            return Texts(*map(file.read, self.notes().bytes))


def of_timeline(path: str, work: private_folder.Folder, wanted: str, tables: str) -> "tuple[Notes, Texts]":
    """What a reader finds in a timeline of any length."""
    with open(os.memfd_create("mte_found", 0), "rb") as shared, text_files.open_input(path) as file:
        words = [make("follow", work), str(shared.fileno()), "", wanted, "", tables, "-"]
        status = children.run(words, stdin=file, stdout=2, close_fds=False)
        notes, found = ReaderResult(shared.fileno()).notes(), ReaderResult(shared.fileno()).texts()
    if status or not notes.version:
        raise Refusal(2 if notes.why else 3, f"{text_files.input_name(path)}: {notes.why or 'the reader was ended'}")
    return notes, found


class Run:
    """The run of a program with the library, and what its reader finds. WANTED, ONLY and TABLES are the words of shims/follow.c."""

    def __init__(self, speaker: Speaker, work: private_folder.Folder, wanted: str, only: "str | None" = None, tables: str = "",
                 recorder: str = "stream") -> None:
        self.speaker, self.only = speaker, only
        self.library, self.reader = Library(work, recorder), make(READERS[recorder], work)
        self.found = ReaderResult(os.memfd_create("mte_found", 0))
        self.words = [wanted, only or "", tables]
        self.status = 0

    def environment(self, path: str) -> "tuple[dict, str]":
        """That of the reader, which is the program's but for LD_PRELOAD; and that."""
        found = programs.environment()
        libraries = b":".join(filter(None, (os.fsencode(self.library.name), found.pop(b"LD_PRELOAD", None))))
        if path and has_sanitizer(path):  # gcc's wants to be the first library, and ends the program else
            found[b"ASAN_OPTIONS"] = b":".join(filter(None, (found.get(b"ASAN_OPTIONS"), b"verify_asan_link_order=0")))
        return found, os.fsdecode(libraries)

    def follow(self, stream: str, path: str, words: "list[str]") -> int:
        """Runs the reader to its end. An interrupt reaches the program too; then what was recorded up to there counts."""
        variables, libraries = self.environment(path)
        reader = [self.reader, str(self.found.descriptor), libraries, *self.words, stream, *([path, *words] if path else [])]
        try:
            return children.run(reader, stdout=2, close_fds=False, env=variables)
        except OSError as error:
            raise Refusal(3, f"nothing can be recorded: {self.reader} can't be run: {error.strerror}") from None

    def run(self, words: "list[str]", path: str) -> Notes:
        """Runs the program to its end."""
        with show_progress(self.found.notes):
            status = self.follow("", path, words)
            if self.found.notes().error == errno.ENOEXEC and begins(path) != b"\x7fELF":  # it has no line `#!`: a shell reads it
                status = self.follow("", "/bin/sh", ["/bin/sh", path, *words[1:]])
        notes = self.found.notes()
        if notes.error and notes.error not in errno.errorcode:
            raise Refusal(3, f"{words[0]} overwrote what was recorded: nothing of it counts")
        if notes.error:
            raise Refusal(3, f"{words[0]} can't be run: {os.strerror(notes.error)}")
        self.status = notes.status
        if self.status:
            self.speaker.say(f"{words[0]} ended with status {self.status}")
        self.refuse_unfollowed(notes, status, words[0])
        if notes.executed and not self.only:
            which = words[0] if notes.executed == 1 else f"{notes.executed} processes"
            self.speaker.say(f"{which} ran another program in its own place, without the recorder: what that requested is not counted")
        return notes

    def refuse_unfollowed(self, notes: Notes, status: int, word: str) -> None:
        """Says why there is no record, where there is none."""
        if status or not notes.version:
            raise Refusal(3, f"nothing can be recorded: {notes.why or NO_NOTES.get(status, 'the reader was ended')}")
        refuse_spoiled(notes, word)
        if not self.only and (last := notes.name_last_unfollowed()):
            ran = f"it ran {last[0]} in its own place, which can't be followed: " if notes.started else ""
            raise Refusal(3, f"{word} can't be recorded: {ran}{last[1]}")
        if notes.started:
            return
        if notes.refused[:] != [0] * len(notes.refused):
            raise Refusal(3, f"{word} can't be recorded: {', '.join(notes.reasons())}")
        if self.only:
            others = f". Not followed, nor what they start: {', '.join(unfollowed)}" if (unfollowed := notes.name_unfollowed()) else ""
            raise Refusal(3, f"no process that could be recorded has the name {self.only}{others}")
        if why := try_loading("stream", self.library.name).decode(errors="replace").strip():
            raise Refusal(3, f"nothing can be recorded: {why}")
        raise Refusal(3, f"{word} can't be recorded: the loader did not take the library, or its memory is limited")

    def __enter__(self) -> "Run":
        return self

    def __exit__(self, *_: object) -> None:
        os.close(self.found.descriptor)
        self.library.close()


@contextlib.contextmanager
def show_progress(notes: "Callable[[], Notes]") -> "Iterator[None]":
    """While the program runs, a line on a terminal says how far it is, by the reader's notes."""
    if not os.isatty(2):
        yield
        return
    begin = time.monotonic()

    def show(line: str) -> None:
        with contextlib.suppress(OSError):  # the terminal may be closed meanwhile, and what was recorded counts
            os.write(2, f"\r{line}\033[K\r".encode())

    def watch() -> None:
        seen = notes()
        live = f", {seen.live / 2**20:,.1f} MiB live" if seen.live else ""
        show(f"{time.monotonic() - begin:,.0f} s, {seen.requests:,} requests{live}")

    try:
        with children.call_each(WATCHED, watch):
            yield
    finally:
        show("")


def with_speaker(name: str, script: "Callable[[list[str], Speaker], int]") -> "Callable[[list[str]], int]":
    """The function of a script that says what is refused as it says all else; script(words, speaker) returns the status."""
    def run(words: list[str]) -> int:
        speaker = Speaker(name)
        open_missing_stderr()
        try:
            return script(words, speaker)
        except Refusal as refused:
            speaker.say(refused.text)
            return refused.status

    return run
