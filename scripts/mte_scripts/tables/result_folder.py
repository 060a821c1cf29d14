"""The folders of tune_program: the new one that it makes, and those for what is needed meanwhile."""

import contextlib
import os
from collections.abc import Iterator
from typing import Any, NamedTuple

from mte_scripts import private_folder, shell_words, text_files
from mte_scripts.entry_point import Refusal, say
from mte_scripts.private_folder import NotPrivate

KEPT = ("program.timeline", "program.history", "program.profile")  # the records
MOST_FOLDERS = 999  # with the same name and a number


class Folder:
    """The new folder. What a step has made stays there, also where a later step fails."""

    def __init__(self, path: str) -> None:
        kept = next((name for name in KEPT if os.path.isfile(os.path.join(path, name))), None)
        if kept:
            again = f"--read {shell_words.path_word(os.path.join(path, kept))} --output ANOTHER"
            raise Refusal(3, f"{path} is there already: name another folder by --output, or tune its record again, "
                             f"without a run: {again}")
        self.place = text_files.new_folder(path, "--output")
        self.path = path

    @classmethod
    def make_numbered(cls, path: str) -> "Folder":
        """The folder that nobody named: where it is there already, one with the first number that is free."""
        for number in range(1, MOST_FOLDERS + 1):
            numbered = path if number == 1 else f"{path}.{number}"
            if not os.path.lexists(numbered):
                if number > 1:
                    say("tune_program", f"{path} is there already, so this one is {numbered}")
                return cls(numbered)
        return cls(path)

    def file(self, name: str) -> str:
        """The path of a file, as it is shown."""
        return os.path.join(self.path, name)

    def at(self, name: str) -> str:
        """The path by which it is opened."""
        return self.place.at(name)

    def has(self, name: str) -> bool:
        return os.path.isfile(self.at(name))

    def write(self, name: str, data: "str | bytes") -> None:
        try:
            self.place.write(name, data if isinstance(data, bytes) else data.encode(errors="surrogateescape"))
        except Refusal:
            if self.has(name):
                os.remove(self.at(name))  # what is there of it is no use
            raise

    def drop_record(self) -> None:
        """What was recorded is of no use."""
        for name in KEPT:
            if self.has(name):
                os.remove(self.at(name))

    def drop_empty(self) -> None:
        """Without a profile nothing is worth keeping: then the next run finds its folder free."""
        try:
            for name in KEPT:
                if self.has(name) and not os.path.getsize(self.at(name)):
                    os.remove(self.at(name))
            os.rmdir(self.path)
        except OSError:
            pass  # there is something in it


def shared_folder() -> private_folder.Folder:
    """A new folder for what a server reads, which may change its user: every user can go through it, and nobody else list or change it."""
    for where in dict.fromkeys((os.environ.get("TMPDIR") or "/tmp", "/tmp", "/var/tmp", "/dev/shm")):
        with contextlib.suppress(NotPrivate, OSError):
            if not private_folder.first_closed(where):
                return private_folder.new_folder(private_folder.open_folder(where))
    raise Refusal(3, "there is no folder for libraries that every user can read: set TMPDIR to one")


class Folders(NamedTuple):
    """NEW is the one that stays, WORK has what is needed meanwhile, and SHARED the libraries, which a server reads whose user may be another."""

    new: Folder
    work: private_folder.Folder
    shared: private_folder.Folder


@contextlib.contextmanager
def open_folders(options: Any) -> "Iterator[Folders]":
    """Those of the options of tune_program."""
    new = Folder(options.output) if options.output else Folder.make_numbered(options.name() + ".tuned")
    with private_folder.temporary_folder() as work:
        if options.load is None:
            yield Folders(new, work, work)
            return
        with shared_folder() as shared:
            shared.open_to_all()
            yield Folders(new, work, shared)
