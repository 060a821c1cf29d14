"""The manifest of the built program: a small text beside it, that says of which sources and by which kit it was proved and built. `manifest
--help` has its lines. The list of sources whose SHA-256 it has is what this prints, in the repository's folder:

    find crates.txt crates/*/src crates/*/specs crates/*/proofs -type f | LC_ALL=C sort | xargs sha256sum

scripts/mte_tool writes the manifest after a build, by scripts/step, and says when it compares the program and the
sources with it; a Python script does so at its start."""

import contextlib
import hashlib
import os
import re
import subprocess
from collections import namedtuple

from mte_scripts import entry_point

Manifest = namedtuple("Manifest", "program sources kit proofs verdict", defaults=("",))
LINES = re.compile(r"program ([0-9a-f]{64})\nsources ([0-9a-f]{64})\nkit ([^\n]{1,200})\nproofs (proved|by-project|unproved)\n"
                   r"(?:verdict ([^\n]{1,500})\n)?")


def path_of(program: str) -> str:
    return f"{program}.manifest"


def text_of(manifest: Manifest) -> str:
    return "".join(f"{name} {value}\n" for name, value in manifest._asdict().items() if value)


def read(program: str) -> "Manifest | None":
    """The manifest beside a program, if there is a whole one."""
    try:
        with open(path_of(program), encoding="ascii") as file:
            found = LINES.fullmatch(file.read(2000))
    except (OSError, UnicodeDecodeError):
        return None
    return Manifest(*found.groups("")) if found else None


def hash_of(path: "str | bytes") -> str:
    descriptor = os.open(path, os.O_RDONLY | os.O_CLOEXEC)  # sooner than a file of Python's: there are 1,500 sources
    try:
        return hashlib.sha256(b"".join(iter(lambda: os.read(descriptor, 1 << 20), b""))).hexdigest()
    finally:
        os.close(descriptor)


def files_in(folder: bytes) -> "list[bytes]":
    """The files in a folder, and in those below it; none where it is not there."""
    found = []
    with contextlib.suppress(FileNotFoundError, NotADirectoryError), os.scandir(folder) as entries:
        for each in entries:
            found += files_in(each.path) if each.is_dir(follow_symlinks=False) else [each.path]
    return found


def sources_of(root: str) -> str:
    """The hash of the sources of the repository in this folder."""
    top = os.path.join(os.fsencode(root), b"")
    files = [top + b"crates.txt"]
    for crate in os.listdir(top + b"crates"):
        for part in (b"src", b"specs", b"proofs"):
            files += files_in(os.path.join(top, b"crates", crate, part))
    listed = hashlib.sha256()
    for path in sorted(files):
        listed.update(f"{hash_of(path)}  ".encode() + path[len(top) :] + b"\n")
    return listed.hexdigest()


def verdict_in(log: str, crate: str) -> str:
    """The verdict on a crate in what rt printed: of `rt ci` the last one above the line `rt: CRATE proved`, and of a run of one crate the
    last one. It is empty where there is none, as of a crate that an earlier run has proved."""
    verdict = ""
    ends = 0
    for line in log.splitlines():
        if line.startswith("logic=proved "):
            verdict = line
        elif line == f"rt: {crate} proved":
            return verdict
        elif re.fullmatch(r"rt: \w+ (proved|is kept: .*)", line):
            verdict, ends = "", ends + 1
    return "" if ends else verdict


def put(built: str, before: str, verdict: str, root: str) -> bool:
    """Writes the manifest of what was just proved and built of the sources of the repository in this folder, which had the hash BEFORE. None
    where they have another one now; whether it is there."""
    sources, place = sources_of(root), path_of(built)
    with contextlib.suppress(FileNotFoundError):
        os.remove(place)
    if sources == before:
        kit = subprocess.run(["rt", "version"], stdout=subprocess.PIPE, check=True, text=True).stdout.split("\n")[0]
        with open(f"{place}.new", "w", encoding="ascii") as file:
            file.write(text_of(Manifest(hash_of(built), sources, kit, "proved", verdict)))
        os.replace(f"{place}.new", place)
    return sources == before


def why_unproved(program: str, root: "str | None") -> str:
    """Why this program is not known to be proved, or an empty text. ROOT is the repository of its sources, where there is one."""
    manifest = read(program)
    if manifest is None:
        return "the program has no manifest"
    try:
        if hash_of(program) != manifest.program:
            return "the program is not the one of its manifest"
        if manifest.proofs == "unproved":
            return "its manifest says that the program was not proved"
        if root is not None and sources_of(root) != manifest.sources:
            return "the sources are not those of the program's manifest"
    except OSError as error:
        return f"a file can't be read that its manifest is of: {error.strerror}"
    return ""


def main(words: list[str]) -> None:
    try:
        if words[:1] == ["sources"] and len(words) == 2:
            print(sources_of(words[1]))
        elif words[:1] == ["write"] and len(words) in (4, 5):
            root, program, before, log = [*words[1:], os.devnull][:4]  # the log has what rt printed
            with open(log, encoding="utf-8", errors="replace") as file:
                verdict = verdict_in(file.read(), os.path.basename(program))
            if not put(program, before, verdict, root):
                entry_point.say(
                    "mte_tool",
                    "the sources were changed while the program was built: nothing is proved of what it answers",
                )
        else:
            raise entry_point.Refusal(
                2, "it is `step manifest sources FOLDER`, or `step manifest write FOLDER PROGRAM SOURCES [LOG]`"
            )
    except (OSError, subprocess.CalledProcessError) as error:
        raise entry_point.Refusal(3, f"the manifest can't be made: {error}") from None
