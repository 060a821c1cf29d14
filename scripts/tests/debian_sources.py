"""Debian's sources for the tests that compile them."""

import glob
import os
import shutil
import subprocess
from collections.abc import Iterable

MIRRORS = ("http://deb.debian.org/debian bookworm main", "http://deb.debian.org/debian-security bookworm-security main")


def has_sources(work: str, names: Iterable[str], files: str = "") -> bool:
    """Whether the sources of the packages are in the folder `sources` of WORK, each under its name; apt has its lists in a folder beside it.
    FILES is a pattern of names: then the upstream archive alone is unpacked, and only these files of it."""
    missing = [name for name in names if not os.path.isdir(os.path.join(work, "sources", name))]
    if not missing:
        return True
    apt = os.path.join(work, "apt")
    for each in ("lists/partial", "cache/archives/partial", "unpacked"):
        os.makedirs(os.path.join(apt, each), exist_ok=True)
    with open(os.path.join(apt, "sources.list"), "w") as file:
        signed = "[signed-by=/usr/share/keyrings/debian-archive-keyring.gpg]"
        file.write("".join(f"deb-src {signed} {mirror}\n" for mirror in MIRRORS))
    settings = [("Dir::State::Lists", f"{apt}/lists"), ("Dir::Cache", f"{apt}/cache"), ("Dir::Etc::SourceList", f"{apt}/sources.list"),
                ("Dir::Etc::SourceParts", "/dev/null")]
    words = ["apt-get", "-q", *(f"-o{name}={value}" for name, value in settings)]
    source = ["source", *["--download-only"] * bool(files)]
    how = {"cwd": os.path.join(apt, "unpacked"), "stdin": subprocess.DEVNULL, "capture_output": True, "timeout": 600}
    try:
        if subprocess.run([*words, "update"], **how).returncode:
            return False
        for name in missing:
            # a mirror may lack the latest of the security updates
            if all(subprocess.run([*words, *source, *release, name], **how).returncode for release in ([], ["-t", "bookworm"])):
                return False
    except (OSError, subprocess.TimeoutExpired):
        return False
    for archive in sorted(glob.glob(os.path.join(apt, "unpacked", "*.orig.tar.*"))) if files else []:
        subprocess.run(["tar", "-xf", archive, "--wildcards", files], check=True, **how)
    for name in missing:
        for folder in glob.glob(os.path.join(apt, "unpacked", f"{glob.escape(name)}[-_]*")):
            if os.path.isdir(folder):
                os.makedirs(os.path.join(work, "sources"), exist_ok=True)
                shutil.move(folder, os.path.join(work, "sources", name))
    return all(os.path.isdir(os.path.join(work, "sources", name)) for name in names)


def version(work: str, name: str) -> str:
    """The version of a package whose sources are there."""
    with open(os.path.join(work, "sources", name, "debian", "changelog"), encoding="utf-8") as file:
        return file.readline().split("(")[1].split(")")[0]
