"""The processors that packages are made for, and the tools that make them: this machine's own, or those of a cross compiler."""

import contextlib
import os
import shutil
from collections.abc import Iterator
from typing import NamedTuple

from mte_scripts import private_folder
from mte_scripts.entry_point import Refusal


class Machine(NamedTuple):
    """A kind of processor."""
    name: str  # as `uname -m` and a wheel have it
    debian: str
    triple: str  # of Debian's folder of libraries, and of the cross tools


MACHINES = {each.name: each for each in (Machine("x86_64", "amd64", "x86_64-linux-gnu"), Machine("aarch64", "arm64", "aarch64-linux-gnu"))}
OWN = os.uname().machine
HERE = MACHINES.get(OWN) or Machine(OWN, OWN, f"{OWN}-linux-gnu")
OTHERS = [each for each in MACHINES.values() if each is not HERE]
# what the scripts call, and what the cross tool is called after the triple
TOOLS = {"cc": "gcc", **{name: name for name in "ld ar objcopy ranlib strip readelf".split()}}


def machine_of(name: str) -> Machine:
    if name != HERE.name and name not in MACHINES:
        raise Refusal(2, f"packages are made for {' and '.join(MACHINES)}, and not for {name}")
    return HERE if name == HERE.name else MACHINES[name]


def missing_tool(machine: Machine) -> str:
    """What is missing to build for this machine, as a sentence; empty if nothing is."""
    if machine is HERE:
        return ""
    missing = [each for each in TOOLS.values() if not shutil.which(f"{machine.triple}-{each}")]
    package = f"gcc-{machine.triple.replace('_', '-')}"
    return f"the command {machine.triple}-{missing[0]} is missing (Debian: `apt install {package}`)" if missing else ""


@contextlib.contextmanager
def tools_of(machine: Machine) -> "Iterator[None]":
    """In the block the compiler and binutils are those for this machine, by the names that they always have."""
    if machine is HERE:
        yield
        return
    if missing := missing_tool(machine):
        raise Refusal(3, missing)
    kept = {name: os.environ.pop(name, None) for name in ("CC", "PATH")}
    with private_folder.temporary() as folder:
        for name, own in TOOLS.items():
            os.symlink(shutil.which(f"{machine.triple}-{own}", path=kept["PATH"]) or "", f"{folder}/{name}")
        os.environ["PATH"] = f"{folder}:{kept['PATH'] or os.defpath}"
        try:
            yield
        finally:
            os.environ.pop("PATH")
            os.environ.update({name: value for name, value in kept.items() if value is not None})
