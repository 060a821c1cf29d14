"""Folders that no other user can change: the temporary folder of a run, and the cache of compiled libraries.

A name is safe once nobody else can change where it leads. So each folder from / on is opened by a descriptor, without following a link, and
tested: it is the user's or root's, and others may not write to it unless it has the sticky bit, as /tmp has. A link on the way has to be
the user's or root's too, and is followed by the same steps. Only then is anything made. shims/private_folder.h does the same in C.

    with private_folder.temporary() as folder: ..        # its path; it is removed at the end, by descriptors

A shell script calls it:

    work=$(scripts/step private_folder make NAME) || exit 3       # NAME is the script's own
    scripts/step private_folder remove NAME "$work"
"""

import _signal  # the module signal alone takes longer to import than this one
import contextlib
import errno
import os
import stat
from _collections_abc import Callable, Iterator

from mte_scripts.entry_point import Refusal

MOST_LINKS = 40
WAITING = (_signal.SIGINT, _signal.SIGTERM, _signal.SIGHUP)
LOOK = os.O_PATH | os.O_NOFOLLOW | os.O_CLOEXEC
LIST = os.O_RDONLY | os.O_DIRECTORY | os.O_NOFOLLOW | os.O_CLOEXEC
WRITE = os.O_WRONLY | os.O_TRUNC | os.O_CLOEXEC
CREATE = os.O_WRONLY | os.O_CREAT | os.O_EXCL | os.O_NOFOLLOW | os.O_CLOEXEC


class NotPrivate(Exception):
    """Others can change what is at this path."""

    def __init__(self, path: str) -> None:
        super().__init__(f"others can change {path}")


def is_owned(status: os.stat_result) -> bool:
    return status.st_uid in (0, os.geteuid())


def is_written_by_others(status: os.stat_result) -> bool:
    return bool(status.st_mode & 0o022)


class Place:
    """A folder that is open, and its path without links."""

    def __init__(self, descriptor: int, path: str) -> None:
        self.descriptor = descriptor
        self.path = path

    def close(self) -> None:
        os.close(self.descriptor)

    def __enter__(self) -> "Place":
        return self

    def __exit__(self, *_: object) -> None:
        self.close()

    def file(self, name: str) -> str:
        return os.path.join(self.path, name)

    def at(self, name: str) -> str:
        """The path of a file by the descriptor, for this process and those that it starts: it leads into this folder, whatever has its name."""
        return f"/proc/{os.getpid()}/fd/{self.descriptor}/{name}"

    def make_below(self, names: "list[str]") -> None:
        """Makes the folders of these names, each in the one before, where they are missing."""
        for at in range(1, len(names) + 1):
            try:
                with contextlib.suppress(FileExistsError):
                    os.mkdir("/".join(names[:at]), 0o755, dir_fd=self.descriptor)
            except OSError as error:
                raise Refusal(3, f"{self.file('/'.join(names[:at]))} can't be made: {error.strerror}") from None

    def write(self, name: str, data: bytes) -> None:
        """A file of this name, which may stand in a folder below; by the descriptor."""
        try:
            with open(name, "wb", opener=lambda name, flags: os.open(name, flags | os.O_NOFOLLOW, 0o666, dir_fd=self.descriptor)) as file:
                file.write(data)
        except OSError as error:
            raise Refusal(3, f"{self.file(name)} can't be written: {error.strerror}") from None

    def has(self, name: str) -> bool:
        """Whether it has a file of this name that nobody else can change; the folder itself is closed."""
        try:
            status = os.stat(name, dir_fd=self.descriptor, follow_symlinks=False)
        except OSError:
            return False
        return stat.S_ISREG(status.st_mode) and is_owned(status) and not is_written_by_others(status)

    def kept(self, name: str, build: "Callable[[str], None]", remedy: str = "") -> str:
        """The path of a file of this name; BUILD makes it, at another path, where it is not there."""
        if not self.has(name):
            try:
                with self.new_file(name) as new:
                    build(new)
            except OSError as error:
                raise Refusal(3, f"{self.path} can't be written: {error.strerror}{remedy}") from None
        return self.file(name)

    def replace(self, name: str, text: str) -> None:
        """A file of this name, in the place of what has the name, all at once."""
        with self.new_file(name) as new, open(new, "w", encoding="utf-8", errors="surrogateescape") as file:
            file.write(text)

    def fill(self, folder: str) -> None:
        """Copies the files of another folder into it. None may have a name that is taken."""
        for name in os.listdir(folder):
            new = os.open(name, CREATE, 0o644, dir_fd=self.descriptor)
            with open(new, "wb") as copy, open(os.path.join(folder, name), "rb") as source:
                while piece := source.read(1 << 20):
                    copy.write(piece)

    @contextlib.contextmanager
    def new_file(self, name: str) -> "Iterator[str]":
        """The path of a new and empty file. It takes the name at the end, or is removed after an exception."""
        new = f"new.{os.urandom(8).hex()}"
        os.close(os.open(new, CREATE, 0o600, dir_fd=self.descriptor))
        try:
            yield self.file(new)
            os.chmod(new, 0o755, dir_fd=self.descriptor)
            os.rename(new, name, src_dir_fd=self.descriptor, dst_dir_fd=self.descriptor)
        except BaseException:
            with contextlib.suppress(OSError):
                os.unlink(new, dir_fd=self.descriptor)
            raise


def open_folder(path: str, make: bool = False) -> Place:
    """The folder of this path, once each folder and link on the way is tested. With `make`, a folder that is missing is made, for the user
    alone. Raises NotPrivate, or OSError if there is no such folder."""
    waiting = (path if path.startswith("/") else f"{os.getcwd()}/{path}").split("/")[::-1]
    place = check_place(os.open("/", LOOK), "/")
    links = 0
    while waiting:
        name = waiting.pop()
        if name in ("", "."):
            continue
        with place:
            at = os.path.dirname(place.path) if name == ".." else place.file(name)
            step = check_place(entry(place, name, make), at)
            if stat.S_ISLNK(os.fstat(step.descriptor).st_mode):
                links += 1
                with step:
                    target = os.readlink("", dir_fd=step.descriptor)
                if links > MOST_LINKS:
                    raise OSError(errno.ELOOP, os.strerror(errno.ELOOP), path)
                waiting += target.split("/")[::-1]
                step = (
                    check_place(os.open("/", LOOK), "/")
                    if target.startswith("/")
                    else Place(os.dup(place.descriptor), place.path)
                )
        place = step
    return place


def entry(place: Place, name: str, make: bool) -> int:
    try:
        return os.open(name, LOOK, dir_fd=place.descriptor)
    except FileNotFoundError:
        if not make:
            raise
        with contextlib.suppress(FileExistsError):  # another run makes it too
            make_folder(place, name)
        return os.open(name, LOOK, dir_fd=place.descriptor)


def make_folder(place: Place, name: str) -> None:
    mask = os.umask(0o077)
    try:
        os.mkdir(name, 0o700, dir_fd=place.descriptor)
    finally:
        os.umask(mask)


def check_place(descriptor: int, path: str) -> Place:
    """What is open, if it is a folder or a link that nobody else can move or replace."""
    status = os.fstat(descriptor)
    is_folder = stat.S_ISDIR(status.st_mode)
    if not is_owned(status) or (is_folder and is_written_by_others(status) and not status.st_mode & stat.S_ISVTX):
        os.close(descriptor)
        raise NotPrivate(path)
    if not is_folder and not stat.S_ISLNK(status.st_mode):
        os.close(descriptor)
        raise NotADirectoryError(errno.ENOTDIR, os.strerror(errno.ENOTDIR), path)
    return Place(descriptor, path)


def open_private_folder(path: str, make: bool = False) -> Place:
    """The same, and others can't put files into the folder: what it has is the user's or root's."""
    place = open_folder(path, make)
    if is_written_by_others(os.fstat(place.descriptor)):
        place.close()
        raise NotPrivate(place.path)
    return place


def output(path: str, is_new: bool = False) -> Place:
    """A folder that a script is to fill, made if it is missing. It may be in a place that others can change: what stands there is written to
    by the descriptor alone. Raises NotPrivate if it is another user's. One that IS_NEW was not there, and is empty."""
    above, name = os.path.split(os.path.abspath(path))
    name = name or "."  # of the root, which is there
    if not is_new:
        os.makedirs(above, exist_ok=True)
    with Place(os.open(above, os.O_PATH | os.O_DIRECTORY | os.O_CLOEXEC), above) as place:
        try:
            os.mkdir(name, 0o755, dir_fd=place.descriptor)
        except FileExistsError:
            if is_new:
                raise
        made = Place(os.open(name, LIST, dir_fd=place.descriptor), path)
    if not is_owned(os.fstat(made.descriptor)) or is_new and os.listdir(made.descriptor):
        made.close()
        raise NotPrivate(path)
    return made


def output_file(path: str) -> int:
    """A descriptor that writes a file from its begin; it is made if it is missing. Where others can change the folder, what another user put
    there is neither written to nor followed, unless the folder is his own: raises NotPrivate."""
    for _ in range(MOST_LINKS):
        above, name = os.path.split(path)
        with Place(os.open(above or ".", os.O_PATH | os.O_DIRECTORY | os.O_CLOEXEC), above or ".") as place:
            found = written_or_link(place, name or ".", path)
        if isinstance(found, int):
            return found
        path = os.path.join(above, found)
    raise OSError(errno.ELOOP, os.strerror(errno.ELOOP), path)


def written_or_link(place: Place, name: str, path: str) -> "int | str":
    """A descriptor that writes what has this name in a folder; where a link has it, the path that it leads to."""
    try:
        entry = Place(os.open(name, LOOK, dir_fd=place.descriptor), path)
    except FileNotFoundError:
        return os.open(name, CREATE, 0o666, dir_fd=place.descriptor)
    with entry:
        status, folder = os.fstat(entry.descriptor), os.fstat(place.descriptor)
        if is_written_by_others(folder) and not is_owned(status) and status.st_uid != folder.st_uid:
            raise NotPrivate(path)
        if not stat.S_ISLNK(status.st_mode):
            return os.open(f"/proc/self/fd/{entry.descriptor}", WRITE)
        if status.st_dev == os.stat("/proc").st_dev:  # as /dev/stdout, which leads to what is open and may have no path
            return os.open(name, WRITE, dir_fd=place.descriptor)
        return os.readlink("", dir_fd=entry.descriptor)


def is_safe(path: str) -> bool:
    """Whether nobody else can change where this folder is."""
    try:
        open_folder(path).close()
    except (NotPrivate, OSError):
        return False
    return True


def cache(*names: str) -> Place:
    """The folder of compiled libraries, or the one of these names below it. Refuses with the reason if nobody but others has it."""
    base = os.environ.get("XDG_CACHE_HOME", "")
    if not base.startswith("/"):
        home = os.environ.get("HOME", "")
        if not home.startswith("/"):
            raise Refusal(3, f"HOME is {'no absolute path' if home else 'not set'}")
        base = os.path.join(home, ".cache")
    path = os.path.join(base, "mte_tool", *names)
    try:
        return open_private_folder(path, make=True)
    except NotPrivate as found:
        raise Refusal(3, str(found)) from None
    except OSError as error:
        raise Refusal(3, f"{path} can't be made: {error.strerror}") from None


def look_at(path: str, flags: int) -> int:
    """An opener of `open` that waits for no pipe and follows no link in the place of the file."""
    return os.open(path, flags | os.O_NOFOLLOW | os.O_NONBLOCK | os.O_CLOEXEC)


# The names of folders that are to be removed, each with the place where it is.
unremoved: "dict[str, Place]" = {}


class Folder(Place):
    """A new folder of the user's alone. `close` removes what is in it and then itself, by descriptors, unless `keep` was called."""

    def __init__(self, place: Place, name: str) -> None:
        super().__init__(os.open(name, LIST, dir_fd=place.descriptor), place.file(name))
        self.place, self.name, self.is_kept = place, name, False
        status = os.fstat(self.descriptor)
        if status.st_uid != os.geteuid() or status.st_mode & 0o066:
            super().close()
            raise NotPrivate(self.path)

    def __enter__(self) -> "Folder":
        return self

    def open_to_all(self) -> None:
        """Lets every user go through it, to names that he knows. Nobody else can list or change it."""
        os.fchmod(self.descriptor, 0o711)

    def keep(self) -> None:
        self.is_kept = True
        unremoved.pop(self.name, None)

    def close(self) -> None:
        if not self.is_kept:
            before = _signal.pthread_sigmask(_signal.SIG_BLOCK, WAITING)  # a signal waits until all is removed
            try:
                with contextlib.suppress(OSError):
                    empty(self.descriptor)
                    named = os.stat(self.name, dir_fd=self.place.descriptor, follow_symlinks=False)
                    if os.path.samestat(named, os.fstat(self.descriptor)):  # the name is still its own
                        os.rmdir(self.name, dir_fd=self.place.descriptor)
            finally:
                self.keep()
                _signal.pthread_sigmask(_signal.SIG_SETMASK, before)
        super().close()
        self.place.close()


def empty(descriptor: int) -> None:
    """Removes all that is in an open folder. What is mounted there stays, and so does what can't be removed."""
    device = os.fstat(descriptor).st_dev
    for name in os.listdir(descriptor):
        with contextlib.suppress(OSError):
            if not stat.S_ISDIR(os.stat(name, dir_fd=descriptor, follow_symlinks=False).st_mode):
                os.unlink(name, dir_fd=descriptor)
                continue
            below = os.open(name, LIST, dir_fd=descriptor)
            try:
                if os.fstat(below).st_dev == device:
                    empty(below)
            finally:
                os.close(below)
            os.rmdir(name, dir_fd=descriptor)


def new_folder(place: Place) -> Folder:
    """A new folder in a place that was tested."""
    name = f"mte_tool.{os.urandom(8).hex()}"
    unremoved[name] = place
    make_folder(place, name)
    return Folder(place, name)


def remove_left() -> None:
    """Removes, at the end of the process, the folders that nobody closed: a signal may come before a `with` begins or as it ends."""
    if unremoved:
        _signal.pthread_sigmask(_signal.SIG_BLOCK, WAITING)
        for name, place in list(unremoved.items()):
            with contextlib.suppress(NotPrivate, OSError):
                Folder(place, name).close()


def first_closed(path: str) -> str:
    """The first folder, from this one up, that not every user can enter; empty where there is none."""
    path, below = os.path.realpath(path), ""
    while path != below:
        if not os.stat(path).st_mode & stat.S_IXOTH:
            return path
        path, below = os.path.dirname(path), path
    return ""


def temporary_folder() -> Folder:
    """A new folder in TMPDIR, or in /tmp if TMPDIR is missing or can't be written. A TMPDIR that others can change is refused."""
    wanted = os.environ.get("TMPDIR") or "/tmp"
    reason = ""
    for where in dict.fromkeys((wanted, "/tmp")):
        try:
            return new_folder(open_folder(where))
        except NotPrivate as found:
            raise Refusal(
                3,
                f"no folder can be made in {where} that only you can change, since {found}: set TMPDIR to another "
                "place",
            ) from None
        except OSError as error:
            reason = reason or error.strerror
    raise Refusal(3, f"no folder can be made in {wanted}: {reason}: set TMPDIR to another place")


@contextlib.contextmanager
def temporary() -> "Iterator[str]":
    """The path of such a folder, which is removed at the end."""
    with temporary_folder() as folder:
        yield folder.path


def remove_named(path: str) -> None:
    """Removes a folder that `make` printed."""
    above, name = os.path.split(path)
    try:
        Folder(open_folder(above), name).close()
    except (NotPrivate, OSError) as error:
        raise Refusal(3, f"{path} can't be removed: {error}") from None


def main(words: list) -> None:
    if words[:1] == ["make"] and len(words) == 2:
        folder = temporary_folder()
        folder.keep()
        print(folder.path)
    elif words[:1] == ["remove"] and len(words) == 3:
        remove_named(words[2])
    else:
        raise Refusal(2, "it is `make NAME` or `remove NAME FOLDER`")
