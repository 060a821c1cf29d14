"""Programs that a recorder could break, or that could break its counts, each by eight modes: its output and status are
as alone, and the counts are those of hostile_truth.c, a library that counts by itself; or it is said what they are not
of, or why there are none.

The programs are those of hostile_programs, which a binary lists, and some in other builds. PROGRAMS has what is not as
of most."""

import collections
import ctypes
import glob
import os
import platform
import re
import shutil
import subprocess
import time
from collections.abc import Callable, Iterable
from typing import NamedTuple

import checks
import commands
from checks import expect
from mte_scripts.places import SCRIPTS

HERE = os.path.dirname(os.path.realpath(__file__))
SHARED = ("-shared", "-fPIC", "-O2")
SOURCES = f"{HERE}/hostile_programs"
LARGE, COUNTERS, OWN = 16369, 16370, "3333"  # the size of most requests of the programs
OWN_WORDS = re.compile(
    "ERROR: ld.so: object .*/(stream|counts|stacks)-.* cannot be preloaded|(MTE_STREAM|LD_PRELOAD)=|"
    "(profile|trace)_program: "
)
SEALED = "began in a program that gave up system calls"
OTHER_PLACE = "can't open the stream from where they are"
GIVEN_UP = "system calls were given up before it (seccomp)"


class Case(NamedTuple):
    """What is said of a program: that some of its processes are not counted, or why nothing is. Where its counts vary,
    those of 3,333 bytes are compared, or none."""

    said: str = ""
    refused: str = ""
    varies: bool = False
    of_service: str = ""  # what is said where something else starts it


PROGRAMS = {
    "strict child": Case(said=SEALED),
    "filtered thread": Case(said=SEALED),
    "filtered storm": Case(said=SEALED),
    "child of a filter": Case(said=SEALED),
    "filtered and spawns": Case(said=GIVEN_UP),
    "filtered and becomes": Case(refused=GIVEN_UP),
    "filtered by hand and becomes": Case(refused=GIVEN_UP),
    "processes of its own": Case(of_service=OTHER_PLACE),
    "another user": Case(said=OTHER_PLACE),
    "another root": Case(said=OTHER_PLACE),
    "no more descriptors": Case(said=OTHER_PLACE),
    **dict.fromkeys(
        # two go on until they are told to end; what is shared by chance; bytes by the number of variables
        ("forks among threads", "threads that load objects", "threads that nobody joins", "many variables")
        + ("chain of programs", "chain of forks and programs", "clears its variables", "shells and pipes"),
        Case(varies=True),
    ),
}
OF_ROOT = {"another user", "another root", "another group", "mounts of its own", "processes of its own"}
# other builds: their sources, and flags; those of a compiler or library that is missing are left out
ALONE = "hostile_programs/alone"
BUILDS = {
    "hostile_static": ("cc", "*", "-static"),
    "hostile_static_pie": ("cc", "*", "-static-pie"),
    "hostile_fixed": ("cc", "*", "-no-pie"),
    "hostile_now": ("cc", "*", "-Wl,-z,now"),
    "hostile_early": ("cc", "*", "-DEARLY", "-no-pie"),
    "hostile_musl": ("musl-gcc", "[fm]*[ns]"),
    "hostile_musl_static": ("musl-gcc", "[fm]*[ns]", "-static"),
    "bare": ("cc", f"{ALONE}/bare.c", "-nostdlib", "-nostartfiles"),
    "start": ("cc", f"{ALONE}/start.c", "-nostartfiles"),
    "replaced": ("c++", f"{ALONE}/replaced.cpp"),
    "boost": ("c++", f"{ALONE}/boost.cpp", "-lboost_context"),
    "pth": ("cc", f"{ALONE}/pth.c", "-lpth"),
    "pcl": ("cc", f"{ALONE}/pcl.c", "-lpcl"),
}
SET_ID = Case(refused="it is set-user-id or set-group-id")
STATIC, OTHER = Case(refused="it is static"), Case(refused="its C library is not this machine's glibc")
NAMES = ("a) R 1 (b", "a name\nof two lines", "a b:c$LIB", "-x", "\033[31m")
OTHERS: "list[tuple[tuple[str, ...], Case]]" = [
    (("./hostile_static", "plain"), STATIC),
    (("./hostile_static_pie", "storm of silent forks"), STATIC),
    (("./hostile_musl", "plain"), OTHER),
    (("./hostile_musl", "all refused"), OTHER),
    (("./hostile_musl_static", "plain"), STATIC),
    (("./hostile_fixed", "all calls"), Case()),
    (("./hostile_fixed", "fibres in the program"), Case()),
    (("./hostile_now", "all calls"), Case()),
    (("./hostile_early", "nothing at all"), Case()),
    (("./hostile_early", "chain of programs"), Case(varies=True)),
    *(((f"./{name}",), Case()) for name in ("bare", "start", "replaced", "boost", "pth", "pcl")),
    *(((f"./{name}", "all calls"), Case()) for name in NAMES),
    (("sh", "-c", "./hostile plain; ./hostile 'all calls'; exit 3"), Case(varies=True)),
    (("env", "-i", "./hostile", "plain"), Case(varies=True)),
    (("setarch", "-R", "./hostile", "what the heap counts"), Case(varies=True)),
    (("setsid", "-w", "./hostile", "plain"), Case(varies=True)),
    (("timeout", "60", "./hostile", "plain"), Case(varies=True)),
    (("stdbuf", "-oL", "./hostile", "plain"), Case(varies=True)),
    (("bash", "-c", "exec -a 'a) R 1 (b' ./hostile plain"), Case(varies=True)),
    (("nice", "./hostile", "storm of silent forks"), Case(varies=True)),
    (("sh", "-c", "exec 0<&- 1>&- 2>&-; ./hostile 'the next descriptor'; :"), Case(varies=True)),
    (("sh", "-c", "ulimit -v 400000; exec ./hostile plain"), Case(varies=True)),
    (("sh", "-c", "ulimit -n 5; exec ./hostile plain"), Case(varies=True)),
    (("sh", "-c", "./hostile_static plain; ./hostile plain"), Case(said="hostile_static (it is static)", varies=True)),
    (("/lib64/ld-linux-x86-64.so.2", "./hostile", "plain"), Case()),
    (("setpriv", "--reuid", "64998", "--clear-groups", "./set_id", "plain"), SET_ID),
]


class Counts(ctypes.Structure):
    """What hostile_truth.c counts: requests that were served, those that were refused, and frees."""

    _fields_ = [
        ("served", ctypes.c_uint64 * COUNTERS),
        ("refused", ctypes.c_uint64 * COUNTERS),
        ("frees", ctypes.c_uint64),
    ]

    def requests(self, are_refused_too: bool = True) -> "collections.Counter[str]":
        found: "collections.Counter[str]" = collections.Counter()
        for each in (self.served, self.refused)[: 1 + are_refused_too]:
            found.update({"large" if at == LARGE else str(at): number for at, number in enumerate(each) if number})
        return found


class Truth(ctypes.Structure):
    _fields_ = [("all", Counts), ("last", Counts), ("requests", ctypes.c_uint64), ("process", ctypes.c_uint64)]


def profile_in(text: str) -> "collections.Counter[str]":
    return collections.Counter({size: int(count) for size, count in map(str.split, text.splitlines())})


def trace_in(text: str) -> "collections.Counter[str]":
    sizes = re.findall("(?m)^(?:malloc|calloc|realloc) [0-9]+ ([0-9]+)$", text)
    return collections.Counter("large" if int(size) >= LARGE else size for size in sizes)


class HostileRuns(commands.Commands):
    library = ""

    @classmethod
    def setup_class(cls):
        checks.need("cc", "hostile programs")
        super().setup_class()
        cls.place = os.path.realpath(cls.place)
        os.chmod(cls.place, 0o711)
        cls.compiled("truth.so", "cc", "hostile_truth.c", *SHARED)
        cls.compiled("hostile_small.so", "cc", f"{ALONE}/object.c", *SHARED)
        cls.compiled("hostile_large.so", "cc", f"{ALONE}/object.c", "-DLARGE", *SHARED)
        cls.compiled("hostile", "cc", "*")
        for name in (*NAMES, "set_id"):
            shutil.copy(f"{cls.place}/hostile", f"{cls.place}/{name}")
        os.chmod(f"{cls.place}/set_id", 0o4755)

    @classmethod
    def compiled(cls, name: str, compiler: str, sources: str, *flags: str) -> bool:
        """Compiles some of the sources; whether that was possible."""
        paths = sorted(glob.glob(f"{HERE}/{sources}" if sources.endswith(("c", "p")) else f"{SOURCES}/{sources}.c"))
        words = [compiler, "-O1", "-w", "-fno-builtin", "-pthread", *paths, "-o", f"{cls.place}/{name}", *flags, "-ldl"]
        for folder in ("/usr/include", f"/usr/include/{platform.machine()}-linux-gnu") * (compiler == "musl-gcc"):
            words += ["-idirafter", folder]
        return (
            bool(shutil.which(compiler))
            and not subprocess.run(words, stdin=subprocess.DEVNULL, stderr=subprocess.DEVNULL).returncode
        )

    def programs(self) -> "list[tuple[tuple[str, ...], Case]]":
        """All programs that can be run here."""
        self.call("./hostile")
        found = [
            (("./hostile", name), PROGRAMS.get(name, Case()))
            for name in self.out.splitlines()
            if not (name in OF_ROOT and os.geteuid())
        ]
        expect(
            "the programs that differ from most are there",
            PROGRAMS.keys() <= {name for (_, name), _ in found} | OF_ROOT,
            PROGRAMS.keys(),
        )
        missing = {name for name, how in BUILDS.items() if not self.compiled(name, *how)}
        if missing:
            checks.skip(f"without compilers or libraries for them: {' '.join(sorted(missing))}")
        for words, case in OTHERS:
            is_there = shutil.which(words[0]) or os.path.exists(self.path(words[0]))
            if (
                is_there
                and not any(f"./{name}" in words for name in missing)
                and not ("setpriv" in words and os.geteuid())
            ):
                found.append((words, case))
        return found

    def alone(self, *program: str) -> "tuple[int, str, Truth]":
        """The status of a program that runs alone, what it prints, and what it counts with the library of the tests."""
        with open(self.write("counts", bytes(ctypes.sizeof(Truth))), "r+b") as file:
            os.chmod(file.name, 0o666)
            status = self.call(*program)
            seen = self.out + self.err
            more = {} if "musl" in program[0] else {"LD_PRELOAD": self.path("truth.so"), "TRUTH": file.name}
            counted = self.call(*program, **more)
            expect(
                f"{program}: with the library of the tests as alone",
                (counted, self.out + self.err) == (status, seen),
                counted,
                self.out,
                self.err,
            )
            return status, seen, Truth.from_buffer_copy(file.read())

    # ---- the modes

    def by_script(self, script: str, *words: str) -> "tuple[int, str]":
        """Runs a program by a script: its status, and what the program prints."""
        status = self.call(os.path.join(SCRIPTS, script), *words)
        return status, "".join(line for line in self.err.splitlines(True) if not OWN_WORDS.match(line))

    def by_stream(self, options: "tuple[str, ...]", program: "tuple[str, ...]", status: int) -> "tuple[int, str]":
        """Follows a stream, and starts a program as a service manager does: the status as a script has it."""
        words = [os.path.join(SCRIPTS, "profile_program"), "--follow", "stream", *options]
        with open(self.path("followed.out"), "wb") as out, open(self.path("followed.err"), "wb") as err:
            follower = subprocess.Popen(
                words, cwd=self.place, env=self.environment, stdin=subprocess.DEVNULL, stdout=out, stderr=err
            )
        while not os.path.exists(self.path("stream")) and follower.poll() is None:
            time.sleep(0.005)
        got = self.call(*program, MTE_STREAM=self.path("stream"), LD_PRELOAD=self.library)
        seen = self.out + self.err
        follower.terminate()
        found = follower.wait()
        self.out, self.err = self.read("followed.out"), self.read("followed.err")
        expect(f"{program}: the status of a service", got == status, got, seen)
        return found or (status != 0), seen

    def compare(
        self, found: "collections.Counter[str]", counted: "collections.Counter[str]", case: Case, is_part: bool
    ) -> None:
        """Compares the requests that are found with those that are counted."""
        if case.varies:
            found, counted = (collections.Counter({OWN: each[OWN]}) for each in (found, counted))
        is_good = all(counted[size] >= number for size, number in found.items()) if is_part else found == counted
        expect(f"{self.name}: its requests", is_good, found - counted, "and not", counted - found)

    def check_profile(self, truth: Truth, case: Case) -> None:
        self.compare(
            profile_in(self.out),
            truth.all.requests(),
            case,
            bool(case.said or case.refused or case.of_service and "are not counted" in self.err),
        )

    def check_timeline(self, truth: Truth, case: Case) -> None:
        events, live = self.out.splitlines()[1:], collections.Counter()
        for event in events:
            live[event.lstrip("-")] += -1 if event[0] == "-" else 1
        found = collections.Counter(event for event in events if event[0] != "-")
        counted = truth.all if case.refused else truth.last
        self.compare(found, counted.requests(False), case, bool(case.refused))
        frees = len(events) - found.total()
        is_good = case.varies or case.refused or frees == truth.last.frees
        expect(
            f"{self.name}: its frees",
            is_good and min(live.values(), default=0) >= 0,
            frees,
            "and not",
            truth.last.frees,
        )

    def check_trace(self, truth: Truth, case: Case) -> None:
        self.compare(trace_in(self.out), truth.last.requests(), case, "cut at" in self.err)

    def check_measured(self, truth: Truth, case: Case) -> None:
        found = {
            name: int(number)
            for name, number in map(str.split, self.read("measured").splitlines())
            if name in ("events", "others")
        }
        if case.varies:
            return
        last, others = truth.last, truth.all.requests().total() - truth.requests
        expect(
            f"{self.name}: its events",
            found.get("events", 0) == last.requests(False).total() + last.frees,
            found,
            last.requests(False).total(),
            last.frees,
        )
        good = found.get("others", 0) <= others if case.said else found.get("others", 0) == others
        expect(f"{self.name}: the requests of others", good, found, others)

    MODES = {
        "profile": (("profile_program",), check_profile),
        "timeline": (("profile_program", "--timeline"), check_timeline),
        "windows": (("profile_program", "--windows", "--measured", "measured"), check_measured),
        "who": (("profile_program", "--timeline", "--stacks", "stacks", "--blocks", "blocks"), check_timeline),
        "trace": (("trace_program",), check_trace),
        "processes": (
            ("profile_program", "--live", "--measured", "measured", "--processes", "processes"),
            check_measured,
        ),
        "stream": (("--timeline",), check_timeline),
        "service": ((), check_profile),
    }

    @staticmethod
    def is_stream(mode: str) -> bool:
        return mode in ("stream", "service")

    def run_by(self, mode: str, program: "tuple[str, ...]", case: Case, alone: "tuple[int, str, Truth]") -> None:
        """Runs a program by a mode, and compares it with what it is alone."""
        words, check = self.MODES[mode]
        status, printed, truth = alone
        is_stream = self.is_stream(mode)
        got, seen = self.by_stream(words, program, status) if is_stream else self.by_script(*words, *program)
        self.name = f"{mode} of {' '.join(program)}"
        expect(f"{self.name}: what it prints", seen == printed, seen, "and not", printed)
        counted = (truth.all if mode in ("profile", "service") else truth.last).requests()
        is_refused = bool(not counted or (case.refused and (not is_stream or "followed" not in self.err)))
        if not expect(f"{self.name}: its status", got == (3 if is_refused else int(status != 0)), got, self.err):
            return
        if is_refused:
            expect(f"{self.name}: why", is_stream or not case.refused or case.refused in self.err, self.err)
        else:
            check(self, truth, case)
        if said := {"profile": case.said, "service": case.said or case.of_service}.get(mode):
            expect(f"{self.name}: what is said", said in self.err, self.err)

    def run_all(self, modes_of: "Callable[[int], Iterable[str]]") -> None:
        """Runs each program by the modes of its number."""
        type(self).library = self.library or self.runs(0, "*", "profile_program", "--library").strip()
        for number, (program, case) in enumerate(self.programs()):
            alone = self.alone(*program)
            for mode in modes_of(number):
                # a service manager gives all that it starts the library, which another C library can't load
                if case != OTHER or not self.is_stream(mode):
                    self.run_by(mode, program, case, alone)
