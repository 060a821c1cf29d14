"""Files and streams: texts in as bytes, since they may hold anything, and what the scripts write. What can't be read or written is refused."""

import errno
import os
import stat
import subprocess
import sys
from collections.abc import Iterable, Sequence
from typing import Any, BinaryIO

from mte_scripts import private_folder
from mte_scripts.entry_point import Refusal, printable, say
from mte_scripts.formats import MOST_INPUT
from mte_scripts.shell_words import help_text

PIECE = 1 << 20
MOST_TEXT = 1 << 30  # of a text that is read as a whole
taken: "list[str]" = []  # `-`, once standard input is read


def write_help(text: str) -> None:
    write(help_text(text))


def say_reading(name: str, what: str = "") -> None:
    """What a script that reads standard input says where somebody types it."""
    if sys.stdin is not None and sys.stdin.isatty():
        say(name, f"reading standard input{what}; Ctrl-D ends it")


def write(text: "str | bytes") -> int:
    """Writes a text, or bytes, to standard output at once; 0, the status of a script that does nothing after that."""
    left = memoryview(os.fsencode(text))
    try:
        while left:
            left = left[os.write(1, left) :]
    except OSError as error:
        raise Refusal(3, f"standard output can't be written: {error.strerror}") from None
    return 0


def new_folder(path: str, option: str) -> private_folder.Place:
    """Makes a folder, which this option names, for what a script writes."""
    try:
        return private_folder.output(path, is_new=True)
    except FileExistsError:
        raise Refusal(3, f"{path} is there already: name another folder by {option}") from None
    except private_folder.NotPrivate:
        raise Refusal(
            3, f"another user has put a folder of his in the place of {path}: name another place by {option}"
        ) from None
    except OSError as error:
        raise Refusal(3, f"the folder {path} can't be made: {error.strerror}; {option} names another place") from None


def write_file(path: str, data: "str | bytes") -> None:
    """A file beside what is printed."""
    try:
        with open(private_folder.output_file(path), "wb") as file:
            file.write(data if isinstance(data, bytes) else data.encode(errors="surrogateescape"))
    except private_folder.NotPrivate:
        raise Refusal(
            3, f"{path} can't be written: another user has put a file or a link there; name another place"
        ) from None
    except OSError as error:
        raise Refusal(3, f"{path} can't be written: {error.strerror}") from None


def refuse_over(written: "Sequence[tuple[str, str | None]]", read_: "Iterable[str | None]" = (), words: "Iterable[str]" = ()) -> None:
    """Refuses to write the file that an option names, each with its option, over one that is read, that is a word of the program which is run,
    or that another option or a standard stream writes. `-` of those that are read is standard input, and None nothing."""
    outputs = [(option, path, leads_to(path)) for option, path in written if path]
    inputs, programs = ({leads_to(0 if path == "-" else path) for path in paths if path} for paths in (read_, words))
    writers = {leads_to(1): "standard output", leads_to(2): "standard error"}
    for option, path, place in outputs:
        if place is None:
            continue
        if place in inputs or place in programs:
            why = "is read" if place in inputs else "is a word of the program"
            raise Refusal(2, f"{path} {why}, so it can't be written over: name another file by {option}")
        if place in writers:
            raise Refusal(2, f"{path} is written by {writers[place]} too: name another file by {option}")
        writers[place] = option


def leads_to(path: "str | int") -> "tuple[object, ...] | None":
    """What tells the file of a path, or of a descriptor, from all others, whatever name or link leads there. One that is not there yet has its
    folder and its name. What is no regular file has None: several may write to a terminal."""
    try:
        status = os.stat(path)
        return (status.st_dev, status.st_ino) if stat.S_ISREG(status.st_mode) else None
    except OSError:
        if isinstance(path, int):
            return None
    above, name = os.path.split(os.path.realpath(path))
    try:
        status = os.stat(above)
        return status.st_dev, status.st_ino, name
    except OSError:
        return above, name


def refuse_unwritable(paths: "Iterable[str | None]", made: "str | None" = None) -> None:
    """Refuses a file that can't be written, before a run that may be long; but not in a folder that is MADE until then."""
    for path in filter(None, paths):
        above = os.path.dirname(path) or "."
        if made is not None and os.path.abspath(above) == os.path.abspath(made):
            continue
        wrong = 0 if os.access(path if os.path.exists(path) else above, os.W_OK) else errno.EACCES
        wrong = errno.EISDIR if os.path.isdir(path) else wrong if os.path.isdir(above) else errno.ENOENT
        if wrong:
            raise Refusal(3, f"{path} can't be written: {os.strerror(wrong)}")


def open_input(path: str) -> BinaryIO:
    """A file that is open for reading as bytes; for `-` standard input, which nothing is left of a second time."""
    try:
        if path != "-":
            return open(path, "rb")
        if sys.stdin is None:
            raise Refusal(2, "standard input is closed")
        if taken:
            raise Refusal(2, "standard input is named twice, and can be read once")
        taken.append(path)
        return open(0, "rb", closefd=False)
    except OSError as error:
        raise Refusal(2, f"{input_name(path)} can't be read: {error.strerror}") from None


def input_name(path: str) -> str:
    return "standard input" if path == "-" else path


def read(path: str, most: "int | None" = None) -> bytes:
    """The bytes of a file, or of `-`, or the first so many of them."""
    with open_input(path) as file:
        return next_piece(file, path, most)


def read_some(path: str, most: int = MOST_INPUT, whose: str = "mte_tool reads", if_empty: int = 2) -> bytes:
    """The bytes of a file that has some, and no more than so many. No more are read, whatever it is. One that is empty has its own status."""
    data, name = read(path, most + 1), printable(input_name(path))
    if not data:
        raise Refusal(if_empty, f"{name} is empty: did the command that writes it fail?")
    if len(data) > most:
        raise Refusal(2, f"{name} has more than the {most:,} bytes that {whose}")
    return data


def next_piece(file: BinaryIO, path: str, most: "int | None" = PIECE) -> bytes:
    """So many bytes of a file, or all that are left, which may be MOST_TEXT at most: a source that never ends is refused."""
    try:
        data = file.read(MOST_TEXT + 1 if most is None else most)
    except OSError as error:
        raise Refusal(2, f"{input_name(path)} can't be read: {error.strerror}") from None
    if most is None and len(data) > MOST_TEXT:
        raise Refusal(2, f"{printable(input_name(path))} has more than the {MOST_TEXT:,} bytes that are read at once")
    return data


def first_line(data: bytes) -> bytes:
    """Its first line, without a copy of the others."""
    return data[: data.find(b"\n")] if b"\n" in data else data


def lines_of(text: bytes) -> list[bytes]:
    """The lines of a text; the last may lack its newline."""
    lines = text.split(b"\n")
    return lines if lines[-1] else lines[:-1]


def output_of(words: "Sequence[Any]", **how: Any) -> bytes:
    """What a command prints. Where it fails, the script ends, and what the command said goes to standard error."""
    how = {"stdin": subprocess.DEVNULL, "stdout": subprocess.PIPE, "stderr": subprocess.PIPE, **how}
    try:
        done = subprocess.run(words, **how)
    except OSError as error:
        raise Refusal(3, f"{words[0]} can't be run: {error.strerror}") from None
    if done.returncode:
        sys.stderr.write((done.stdout if done.stderr is None else done.stderr).decode(errors="replace"))
        raise Refusal(3, f"{os.path.basename(words[0])} ended with status {done.returncode}")
    return done.stdout
