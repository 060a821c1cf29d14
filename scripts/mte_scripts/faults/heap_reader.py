"""The program that asks the proved heap about a log (scripts/shims/reader). A package has it built. In the repository it is compiled with
libmte_tool.a, which scripts/library builds first where that was not done: it stands in the folder `out` of its crate, or MTE_LIBRARY names
another folder of that script."""

import fcntl
import functools
import os
import shutil
import subprocess

from mte_scripts import engines, manifest, private_folder
from mte_scripts.entry_point import Refusal, say
from mte_scripts.faults import compiler_driver
from mte_scripts.places import ROOT
from mte_scripts.recording.shims import SHIMS, compile_alone, sum_of

NAME = "heap_answers"
SOURCE, FLAGS = os.path.join(SHIMS, "reader", f"{NAME}.c"), ["-std=gnu11", "-O2", "-g", "-Wall"]
PACKED = os.path.join(ROOT, "recorders", NAME)
CRATE = os.path.join(ROOT, "crates", "mte_c")


def static(folder: str) -> str:
    return os.path.join(folder, "lib", "libmte_tool.a")


def library() -> str:
    """The folder of the library, built of these sources or named by MTE_LIBRARY."""
    if named := os.environ.get("MTE_LIBRARY"):
        if not os.path.isfile(static(named)):
            raise Refusal(3, f"MTE_LIBRARY names {named}, which is no folder of scripts/library")
        return named
    if not os.path.isdir(CRATE):
        raise Refusal(3, "this package has no library: it was made without one, and nothing can ask the heap")
    folder = os.path.join(CRATE, "out", "heap")
    with open(os.path.join(CRATE, "src", "lib.rt"), "rb") as lock:  # one build at a time; the others wait for it
        fcntl.flock(lock, fcntl.LOCK_EX)
        if not is_current(static(folder)):
            build(folder)
    return folder


def is_current(built: str) -> bool:
    """Whether a library is of these sources, or of the project's engines where these answer."""
    found = manifest.read(built)
    if found and engines.are_answering() and found.sources == engines.read_manifest()["sources"]:
        return manifest.hash_of(built) == found.program
    return not manifest.why_unproved(built, ROOT)


def build(folder: str) -> None:
    if os.environ.get("MTE_TOOL_BUILD") == "no":
        raise Refusal(3, "the library is not built of these sources, and MTE_TOOL_BUILD=no forbids to build it now")
    say(NAME, "the library with the heap is built first; this is done once")
    with private_folder.temporary() as work:
        made = os.path.join(work, "library")
        if subprocess.run([os.path.join(ROOT, "scripts", "library"), made], stdin=subprocess.DEVNULL, stdout=2).returncode:
            raise Refusal(3, "without the heap's library no error can be told; MTE_LIBRARY may name its folder")
        shutil.copytree(made, folder, symlinks=True, dirs_exist_ok=True, ignore=links_in)


def links_in(folder: str, names: "list[str]") -> "list[str]":
    """Below a crate rt takes no link."""
    return [name for name in names if os.path.islink(os.path.join(folder, name))]


@functools.lru_cache(maxsize=None)
def path() -> str:
    """Where the program is, which is compiled once for each version of its source and of the library."""
    if os.access(PACKED, os.X_OK):
        return PACKED
    compiler = compiler_driver.find_c_compiler()  # before the library is built, which wants one too
    folder = library()
    needed = [SOURCE, static(folder)]
    words, says = [compiler, *FLAGS, f"-I{folder}/include", *needed, "-o"], "the reader could not be compiled"
    return compiler_driver.keep_in_cache(f"reader-{sum_of(FLAGS, needed)}", NAME, lambda new: compile_alone([*words, new], says))
