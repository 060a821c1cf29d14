"""Names the source lines of return addresses, by addr2line, nm and readelf of binutils."""

import itertools
import os
import re
import shutil
import stat
import subprocess
from collections import defaultdict, namedtuple
from collections.abc import Iterable

from mte_scripts.faults.fault_log import Log
from mte_scripts.faults.variables import Variable
from mte_scripts.recording.calls import function_names, lines_at, without_parameters

RUNTIME = "libmte_accesses.so"
SYSTEM = ("/usr/lib/", "/usr/lib64/", "/lib/", "/lib64/", "/usr/include/")
STARTS = ("__libc_start", "_start of ")  # what calls main
LOADED = re.compile(r"(?m)^ +LOAD +0x(\w+) 0x(\w+) 0x\w+ 0x(\w+) ")  # a line of `readelf -l`: offset, address, bytes in the file


class Frame(namedtuple("Frame", "function source line module")):
    """A function that was called: source is its file's path and line a number, both None where they are not known. An inlined one has a
    frame of its own."""

    def is_own(self) -> bool:
        """Whether it is the program's, and not the system's."""
        return bool(self.source) and is_own(self.module) and is_own(self.source)

    def is_nameless(self) -> bool:
        """Whether it is of the program's file, which has no line of it."""
        return not self.source and is_own(self.module) and os.path.basename(self.module) != RUNTIME

    def is_folded(self) -> bool:
        """Whether it tells nothing: it is of the runtime, or of the headers of a system's library, as a template is."""
        return os.path.basename(self.module) == RUNTIME or bool(self.source) and is_own(self.module) and not is_own(self.source)

    def show(self) -> str:
        if not self.source:
            return self.function
        path, here = os.path.normpath(self.source), os.getcwd() + "/"
        return f"{path[len(here):] if path.startswith(here) else os.path.basename(path)}:{self.line} in {self.function}"


class Places:
    def __init__(self, log: Log) -> None:
        self.log = log
        self._frames: dict[int, list[Frame]] = {}  # of an address, the innermost inlined first

    def learn(self, stacks: "Iterable[int]") -> None:
        """Looks up the addresses of these stacks all at once."""
        wanted: dict[str, dict[int, int]] = defaultdict(dict)
        for address in {int(pc, 16) for stack in stacks for pc in self.log.stacks[stack].split(",") if pc} - set(self._frames):
            module = next((module for module in self.log.modules if module.low <= address < module.high), None)
            name = f"{os.path.basename(module.path)}+0x{address - module.low + module.offset:x}" if module else f"0x{address:x}"
            self._frames[address] = [Frame(name, None, None, module.path if module else "")]
            if module:
                wanted[module.path][address] = address - module.low + module.offset
        for path, offsets in wanted.items():
            self._ask(path, offsets)

    def _ask(self, path: str, offsets: dict[int, int]) -> None:
        """Asks for the lines of some offsets of a file. A call's line is that of the byte before the address that it returns to."""
        if not shutil.which("addr2line") or not shutil.which("readelf"):
            return
        segments = loaded_segments(path)
        places = ((address, offset, each) for address, offset in offsets.items() for each in segments)
        asked = {address: offset - begin + virtual - 1 for address, offset, (begin, virtual, size) in places if begin <= offset < begin + size}
        if not asked:
            return
        for address, calls in lines_at("addr2line", path, asked).items():
            self._frames[address] = [Frame(without_parameters(name), source, line, path) for name, source, line in calls]
            del asked[address]
        for address, name in function_names(path, asked).items():
            self._frames[address] = [self._frames[address][0]._replace(function=f"{name} of {os.path.basename(path)}")]

    def at(self, address: int) -> list[Frame]:
        """The frames of an address that was learned, the innermost inlined first."""
        return self._frames.get(address, [])

    def frames(self, stack: int) -> list[Frame]:
        """The frames of a stack of the log, the innermost first. Those that tell nothing are folded, and so are the system's around and between
        the program's; where none is the program's, all are there. Of a program without symbols those of its file are its own."""
        whole = [frame for pc in self.log.stacks[stack].split(",") if pc for frame in self._frames.get(int(pc, 16), [])]
        inside = list(itertools.takewhile(lambda frame: not frame.function.startswith(STARTS), whole))
        own = [at for at, frame in enumerate(inside) if frame.is_own()] or [at for at, frame in enumerate(inside) if frame.is_nameless()]
        if not own:
            return whole
        return [frame for frame in inside[own[0] : own[-1] + 1] if not frame.is_folded() and is_own(frame.module)]

    def resolve(self, variable: Variable) -> Variable:
        """A variable of the log with the function and the source where it is declared, as far as they are known."""
        frames = self.frames(variable.stack)[:1]
        return variable._replace(source=frames[0].source or "", function=frames[0].function) if frames else variable

    def show(self, stack: int, callers: bool = True) -> str:
        """The innermost place of a stack in the program's own sources, and its callers."""
        shown = [frame.show() for frame in self.frames(stack)]
        return ", from ".join(shown if callers else shown[:1]) or "an unknown place"


def is_own(path: str) -> bool:
    """Whether a file is the program's, and not the system's: one of a system's folders, by whatever way, or a header of a C++ library.
    scripts/shims/accesses/tell.c has the same rule."""
    whole = os.path.normpath(path) if path.startswith("/") else path
    return not whole.startswith(SYSTEM) and "/include/c++/" not in whole


def loaded_segments(path: str) -> "list[tuple[int, ...]]":
    """(offset in the file, address, bytes) of what is loaded of an ELF file; nothing where it is none, or a log names a pipe."""
    try:
        if not stat.S_ISREG(os.stat(path).st_mode):
            return []
    except (OSError, ValueError):
        return []
    done = subprocess.run(["readelf", "-lW", "--", path], stdin=subprocess.DEVNULL, stdout=subprocess.PIPE, stderr=subprocess.DEVNULL)
    return [tuple(int(word, 16) for word in words) for words in LOADED.findall(done.stdout.decode(errors="replace"))]
