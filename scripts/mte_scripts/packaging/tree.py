"""Files as they are installed, and archives of them whose bytes depend on nothing but the files and the commit's time."""

import base64
import gzip
import hashlib
import io
import json
import os
import re
import shutil
import tarfile
import time
import typing
import zipfile
from pathlib import Path

from mte_scripts import text_files
from mte_scripts.entry_point import Refusal
from mte_scripts.places import ROOT



COMMIT = "COMMIT"  # which an sdist has of the clone that it was made of


def run(words: "list[str]", **how: typing.Any) -> str:
    """What a command prints; a failure ends the script."""
    return text_files.output_of(words, **how).decode(errors="replace")


def of_sdist() -> "dict[str, typing.Any] | None":
    """Where an unpacked sdist is from; None of a clone."""
    path = source(COMMIT)
    return json.loads(Path(path).read_bytes()) if os.path.isfile(path) else None


def tracked_files(*paths: str) -> "list[str]":
    """The repository's files below these paths."""
    if of_sdist():
        walks = [(folder, names) for path in paths for folder, _, names in os.walk(source(path))]
        found = [os.path.relpath(os.path.join(folder, name), ROOT) for folder, names in walks for name in names]
        return sorted([*found, *(path for path in paths if os.path.isfile(source(path)))])
    return run(["git", "-C", ROOT, "ls-files", "-z", "--", *paths]).split("\0")[:-1]


def source(name: str) -> str:
    return os.path.join(ROOT, name)


class Tree:
    """Files below the folder `root`, by their names from there on."""

    def __init__(self, root: str) -> None:
        self.root = root

    def path(self, *parts: str) -> str:
        """Where a file is; its folder is made."""
        path = os.path.join(self.root, *parts)
        os.makedirs(os.path.dirname(path), exist_ok=True)
        return path

    def has(self, name: str) -> bool:
        return os.path.lexists(os.path.join(self.root, name))

    def write(self, name: str, data: "str | bytes", mode: int = 0o644) -> None:
        path = Path(self.path(name))
        path.write_bytes(data.encode() if isinstance(data, str) else data)
        path.chmod(mode)

    def copy(self, source: str, name: str, mode: int = 0o644) -> None:
        try:
            shutil.copyfile(source, self.path(name))
        except OSError as error:
            raise Refusal(3, f"{source} can't be read: {error.strerror}") from None
        os.chmod(self.path(name), mode)

    def link(self, name: str, to: str) -> None:
        """A link from one name to another, both below the root; it holds where the whole tree is moved."""
        os.symlink(os.path.relpath(to, os.path.dirname(name)), self.path(name))

    def move(self, name: str, to: "Tree") -> None:
        os.rename(os.path.join(self.root, name), to.path(name))

    def packed(self, name: str, text: str) -> None:
        self.write(f"{name}.gz", gzip.compress(text.encode(), 9, mtime=0))

    def entries(self) -> "list[str]":
        """The names of all folders and files, in one order on each machine."""
        found = []
        for folder, below, names in os.walk(self.root):
            found += [os.path.relpath(os.path.join(folder, name), self.root) for name in [*below, *names]]
        return sorted(found)

    def files(self) -> "list[str]":
        """The names of the files that are no links."""
        return [name for name in self.entries() if os.path.isfile(self.path(name)) and not os.path.islink(self.path(name))]

    def read(self, name: str) -> bytes:
        return Path(self.root, name).read_bytes()

    def stripped(self, name: str) -> None:
        """Takes from an object what only a debugger reads. Its comments stay: the program's name the logic that it was proved in."""
        run(["strip", "-D", "--strip-unneeded", self.path(name)])

    def finish(self, seconds: int) -> None:
        """Modes and times that depend on nothing but the commit."""
        for name in [*self.entries(), "."]:
            path = os.path.join(self.root, name)
            if os.path.isdir(path) and not os.path.islink(path):
                os.chmod(path, 0o755)
            os.utime(path, (seconds, seconds), follow_symlinks=False)

    def has_loader(self, name: str) -> bool:
        """Whether a program names a loader: one that is linked statically does not."""
        return " INTERP " in run(["readelf", "-W", "-l", self.path(name)])

    def least_glibc(self) -> "tuple[int, int]":
        """The version of glibc that the objects here need."""
        needed = [(2, 17)]
        for name in self.files():
            if self.read(name)[:4] == b"\x7fELF":
                versions = re.findall(r"Name: GLIBC_(\d+)\.(\d+)", run(["readelf", "-W", "--version-info", self.path(name)]))
                needed += [(int(major), int(minor)) for major, minor in versions]
        return max(needed)


def write_tar(tree: Tree, path: str, top: str, seconds: int, folders: bool = True) -> None:
    """The tree as a packed tar, below one folder of this name, with entries of its folders or without."""
    def as_root(entry: tarfile.TarInfo) -> tarfile.TarInfo:
        if entry.isreg():
            entry.mode = 0o755 if entry.mode & 0o100 else 0o644
        entry.uid = entry.gid = 0
        entry.uname = entry.gname = "root"
        entry.mtime = seconds
        return entry

    with open(path, "wb") as file, gzip.GzipFile("", "wb", 9, file, seconds) as packed:
        with tarfile.TarFile(mode="w", fileobj=typing.cast(typing.IO[bytes], packed), format=tarfile.GNU_FORMAT) as tar:
            if folders:
                tar.add(tree.root, top, recursive=False, filter=as_root)
            for entry in tree.entries() if folders else tree.files():
                tar.add(os.path.join(tree.root, entry), f"{top}/{entry}", recursive=False, filter=as_root)


def hash_of_record(data: bytes) -> str:
    return "sha256=" + base64.urlsafe_b64encode(hashlib.sha256(data).digest()).decode().rstrip("=")


def write_wheel(tree: Tree, path: str, record: str, seconds: int) -> None:
    """The tree as a wheel. Its files but those of the record's folder come first, and the record last, which this writes."""
    folder = f"{os.path.dirname(record)}/"
    names = sorted(tree.files(), key=lambda name: (name.startswith(folder), name))
    lines = [f"{name},{hash_of_record(tree.read(name))},{len(tree.read(name))}\n" for name in names]
    tree.write(record, "".join([*lines, f"{record},,\n"]))
    kept = io.BytesIO()
    with zipfile.ZipFile(kept, "w") as archive:
        for name in [*names, record]:
            entry = zipfile.ZipInfo(name, time.gmtime(seconds)[:6])
            entry.create_system = 3  # Unix, whose modes follow
            entry.external_attr = (0o100755 if os.access(tree.path(name), os.X_OK) else 0o100644) << 16
            archive.writestr(entry, tree.read(name), zipfile.ZIP_DEFLATED, 9)
    Path(path).write_bytes(kept.getvalue())
