"""The names of calls: the functions and lines of addresses, by llvm-addr2line where it is there, and addr2line and nm of binutils; also of an
object's separate debug file."""

import bisect
import os
import re
import shutil
import subprocess
from collections import defaultdict
from collections.abc import Iterable
from typing import Any, NamedTuple

from mte_scripts.recording.sites import Module

# the first is asked first: of DWARF 5 the other one of binutils 2.40 says a wrong file for what is inline in a header but was not inlined, and
# leaves out callers
TOOLS = ("llvm-addr2line", "addr2line")
PART = re.compile(r"(?s)\boperator(?:\(\)|[-<>=!]+)|\(anonymous namespace\)|.")  # of a function's name: what is whole, or a sign
OPENED = {">": "<", ")": "(", "}": "{"}

Address = tuple[int, int]  # the image that it is of, and the address


class Frame(NamedTuple):
    """A function that was called, and where: FILE is empty where no line is known. Of an unknown function the name is its object's, with the
    place there."""

    function: str
    file: str
    line: int

    def __str__(self) -> str:
        return f"{os.path.basename(self.file)}:{self.line} ({self.function})" if self.file else self.function


class Names:
    """The frames of addresses, the innermost inlined one first."""

    def __init__(self, modules: list[Module]) -> None:
        self.modules = modules
        self.frames: dict[Address, tuple[Frame, ...]] = {}
        self.unsure: set[str] = set()  # objects of which a file or a caller may be wrong

    def learn(self, addresses: Iterable[Address]) -> None:
        """Looks up all of them at once."""
        wanted: dict[str, dict[Address, int]] = defaultdict(dict)
        for image, address in set(addresses) - self.frames.keys():
            module = next((each for each in self.modules if each.image == image and each.low <= address < each.high), None)
            place = address - module.bias if module else address
            where = os.path.basename(module.path) if module else "an unknown object"
            self.frames[image, address] = (Frame(f"{where}+0x{place:x}", "", 0),)
            if module:
                wanted[module.path][image, address] = place
        for path, places in wanted.items():
            if os.path.isfile(path):
                self.ask(path, places)

    def ask(self, path: str, places: dict[Address, int]) -> None:
        """Asks for addresses of one object, as its file has them."""
        unknown = dict(places)
        for tool in filter(shutil.which, TOOLS):
            asked = dict(unknown)
            for each, said in lines_at(tool, path, asked).items():
                if frames := [Frame(plain(function), source, line) for function, source, line in said if line]:
                    self.frames[each] = tuple(frames)
                    del unknown[each]
            if unknown != asked and tool == TOOLS[1] and may_be_of_dwarf_5(path):
                self.unsure.add(os.path.basename(path))
            if not unknown:
                break
        for each, name in function_names(path, unknown).items():
            self.frames[each] = (Frame(f"{name} in {os.path.basename(path)}", "", 0),)


def may_be_of_dwarf_5(path: str) -> bool:
    """Whether an object's lines are in the form of DWARF 5, or in another file."""
    if not shutil.which("readelf"):
        return True
    done = subprocess.run(["readelf", "-SW", "--", path], stdin=subprocess.DEVNULL, stdout=subprocess.PIPE, stderr=subprocess.DEVNULL)
    return b".debug_line_str" in done.stdout or b"debug_line" not in done.stdout


def lines_at(tool: str, path: str, places: dict[Any, int]) -> "dict[Any, list[tuple[str, str, int]]]":
    """What addr2line says of places in an object: of each of which it knows a file the functions, the innermost inlined one first, each with its
    file and line, or 0. Of others it names the symbol before the place, which may end before it."""
    words, given = [tool, "-a", "-f", "-C", "-i", "-e", path], "\n".join(map(hex, places.values())).encode()
    done = subprocess.run(words, input=given, stdout=subprocess.PIPE, stderr=subprocess.DEVNULL)
    found = {}
    for each, text in zip(places, re.split(r"(?m)^0x[0-9a-f]+\n", done.stdout.decode(errors="replace"))[1:]):
        lines, calls = text.splitlines(), []
        for function, place in zip(lines[::2], lines[1::2]):
            source, _, line = place.split(" (")[0].rpartition(":")
            if not source.startswith("??"):
                calls.append((function, source, int(line) if line.isdigit() else 0))
        if calls:
            found[each] = calls
    return found


def function_names(path: str, places: dict[Any, int]) -> dict[Any, str]:
    """The function of each place in an object that one holds, by its symbols."""
    named, found = symbols(path) if places and shutil.which("nm") else [], {}
    for each, place in places.items():
        at = bisect.bisect_right(named, (place, 1 << 64, "")) - 1
        if at >= 0 and place < named[at][0] + named[at][1]:
            found[each] = named[at][2]
    return found


def symbols(path: str) -> list[tuple[int, int, str]]:
    """The functions that an object names, in the order of their addresses, each with its bytes."""
    found = set()
    for table in ("--no-sort", "--dynamic"):
        words = ["nm", table, "-S", "-C", "--defined-only", path]
        done = subprocess.run(words, stdin=subprocess.DEVNULL, stdout=subprocess.PIPE, stderr=subprocess.DEVNULL)
        found |= set(re.findall(r"(?m)^([0-9a-f]+) ([0-9a-f]+) [TtWwiI] ([^@\n]+)", done.stdout.decode(errors="replace")))
    return sorted((int(place, 16), int(size, 16), plain(name)) for place, size, name in found)


def plain(function: str) -> str:
    """A function's name without its parameters; without the values of templates too where it is long."""
    name, depth = "", 0
    if function.startswith("operator") or "::operator" in function:
        return function[:80]
    for each in without_parameters(function) or function:
        depth += each == "<" and len(function) > 60
        name += each if not depth else ""
        depth -= each == ">" and depth > 0
    return name


def without_parameters(function: str) -> str:
    """A function's name without its parameters. Those in a lambda's name stay, which differ only there, and those in the values of templates."""
    name, inside = "", ""
    for part in PART.findall(function):
        if part == "(" and not inside and not name.endswith("decltype "):
            break
        name += part
        if part in OPENED.values():
            inside += part
        elif part in OPENED and (part != ">" or inside.endswith("<")):
            inside = inside[: max(inside.rfind(OPENED[part]), 0)]
    return name
