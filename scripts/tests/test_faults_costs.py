#!/usr/bin/env -S python3 -B
"""Tests what a program pays for traced_cc: its user time, beside that of the same program without.
A loop of byte stores pays at most 6 times its time, by gcc and by clang; and find_faults takes at most 3 times AddressSanitizer's whole
time for five million blocks with an error near their end: 1.6 to 2.1 times, by the machine. A compilation takes at most 0.015 s more than
gcc's. With --all real programs and their own tests have no error but those that it plants; their sources are fetched by apt-get.

It wants the built program, or one that MTE_TOOL names."""

import glob
import os
import re
import resource
import shutil
import subprocess
import tempfile

import checks
import pytest
from checks import fail, skip_without

HERE = os.path.dirname(os.path.realpath(__file__))
SCRIPTS = os.path.dirname(HERE)
FIND = os.path.join(SCRIPTS, "find_faults")
BUILT = checks.PROGRAM
ROUNDS, MOST, TIME = 5, 6.0, "/usr/bin/time"
MOST_OF_BLOCKS = 3.0  # of AddressSanitizer's whole time
MOST_OF_DRIVER = 0.015  # seconds more than the compiler
MOST_OF_FIBERS = 0.3
TRACED = (os.path.join(SCRIPTS, "traced_cc"), os.path.join(SCRIPTS, "traced_c++"))
KINDS = ("plain", "traced", "sanitized")
COMPILERS = {"gcc": ("gcc", "g++"), "clang": ("clang", "clang++")}
LUA = {
    "lua, `fib(32)`, no requests": "local function fib(n) if n < 2 then return n end return fib(n-1) + fib(n-2) end print(fib(32))",
    "lua, 300,000 tables and strings": "local t = {} for i = 1, 300000 do t[i] = {name = 'n' .. i} end print(#t)",
    "lua, sorting and joining": "local t = {} for i = 1, 60000 do t[i] = 'k' .. i * 7919 % 60000 end table.sort(t) print(#table.concat(t))",
}
DEBIAN = "deb-src [signed-by=/usr/share/keyrings/debian-archive-keyring.gpg] http://deb.debian.org/debian bookworm main\n"


def build(kind, sources, to, *flags, by="gcc"):
    """The program, as it is, with traced_cc or with AddressSanitizer."""
    is_cpp = any(name.endswith(".cpp") for name in sources)
    sanitizer = ["-fsanitize=address"] if kind == "sanitized" else []
    words = [TRACED[is_cpp] if kind == "traced" else COMPILERS[by][is_cpp], *sanitizer, "-w", "-g", "-O2", *sources, "-o", to, *flags]
    environment = dict(os.environ, TRACED_CC=COMPILERS[by][0], TRACED_CXX=COMPILERS[by][1])
    done = subprocess.run(words, capture_output=True, text=True, timeout=600, env=environment)
    if done.returncode:
        fail(f"{to} does not build: {done.stderr[-400:]}")
    return to


def builds(sources, to, *flags, by="gcc", kinds=KINDS):
    return {kind: build(kind, sources, f"{to}.{by}.{kind}", *flags, by=by) for kind in kinds}


def cost(words, cwd):
    """(user time in seconds, most memory in MiB) of a run. `time` starts it, since a child of this script begins with its memory."""
    with tempfile.NamedTemporaryFile("r") as file:
        started = subprocess.Popen([TIME, "-f", "%M", "-o", file.name, *words], cwd=cwd, stdout=subprocess.DEVNULL,
                                   stderr=subprocess.DEVNULL, stdin=subprocess.DEVNULL, env=dict(os.environ, ASAN_OPTIONS="detect_leaks=0"))
        _, status, used = os.wait4(started.pid, 0)
        started.returncode = os.waitstatus_to_exitcode(status)
        if started.returncode:
            fail(f"{' '.join(words)} ends with {started.returncode}")
        return used.ru_utime, int((file.read().split() or ["0"])[-1]) / 1024


def compare(name, programs, words, cwd):
    """A row of the table: medians of runs that take turns. The least time of traced_cc's is at most MOST times that of the plain one."""
    runs = {kind: [] for kind in programs}

    def ratio():
        for _ in range(ROUNDS):
            for kind, program in programs.items():
                runs[kind].append(cost([program, *words], cwd))
        return min(runs["traced"])[0] / max(min(runs["plain"])[0], 0.01)

    found = checks.least(ratio, MOST)
    times = {kind: sorted(time for time, _ in each)[len(each) // 2] for kind, each in runs.items()}
    memory = {kind: max(most for _, most in each) for kind, each in runs.items()}
    ratios = {kind: time / max(times["plain"], 0.01) for kind, time in times.items()}
    cells = [f"{times[kind]:.2f}{'' if kind == 'plain' else f' ({ratios[kind]:.1f} times)'}, {memory[kind]:.0f} MB" for kind in times]
    print(f"| {name} | {' | '.join(cells)} |", flush=True)
    if found > MOST:
        fail(f"{name}: {found:.1f} times its time with traced_cc")


def whole(words, wanted):
    """The processor time of a run, with all that it starts."""
    before = resource.getrusage(resource.RUSAGE_CHILDREN)
    done = subprocess.run(words, stdin=subprocess.DEVNULL, capture_output=True, text=True, errors="replace")
    after = resource.getrusage(resource.RUSAGE_CHILDREN)
    if wanted not in done.stdout + done.stderr:
        fail(f"{' '.join(words)}: {done.returncode} {done.stdout[-400:]} {done.stderr[-400:]}")
    return after.ru_utime + after.ru_stime - before.ru_utime - before.ru_stime


def try_blocks(number, work):
    """Many blocks, and an error near their end: the whole time until it is told, and AddressSanitizer's. The least of up to five rounds of each
    decides, since others may use the machine."""
    programs = builds([f"{HERE}/faults_programs/blocks.c"], f"{work}/blocks", kinds=KINDS[1:])
    own, others = [], []

    def ratio():
        own.append(whole([FIND, programs["traced"], str(number)], "blocks.c:17 in main: store of 1 byte"))
        others.append(whole([programs["sanitized"], str(number)], "heap-buffer-overflow"))
        return min(own) / min(others)

    found = checks.least(ratio, MOST_OF_BLOCKS, ROUNDS)
    print(f"{number} blocks, and an error near their end: find_faults {min(own):.1f} s, AddressSanitizer {min(others):.1f} s ({found:.1f} times)", flush=True)
    if found > MOST_OF_BLOCKS:
        fail(f"{number} blocks: {found:.1f} times AddressSanitizer's whole time")


def try_compile(work):
    """The processor time of `traced_cc -c` of an empty file, beside gcc's."""
    empty = os.path.join(work, "empty.c")
    open(empty, "w").close()
    words = ["-c", empty, "-o", os.path.join(work, "empty.o")]
    whole([TRACED[0], *words], "")
    times = {compiler: [] for compiler in (TRACED[0], "gcc")}

    def more():
        for compiler, taken in times.items():
            taken += [whole([compiler, *words], "") for _ in range(20)]
        return min(times[TRACED[0]]) - min(times["gcc"])

    found = checks.least(more, MOST_OF_DRIVER, ROUNDS)
    print(f"an empty file: traced_cc -c {min(times[TRACED[0]]):.3f} s, gcc {min(times['gcc']):.3f} s", flush=True)
    if found > MOST_OF_DRIVER:
        fail(f"traced_cc -c takes {found:.3f} s of the processor more than gcc")


def try_fibers(work):
    """Twenty thousand changes between the stacks of fibers."""
    programs = builds([f"{HERE}/faults_programs/fibers.c"], f"{work}/fibers", kinds=KINDS[1:])
    places = (f"{work}/fibers.{at}" for at in range(ROUNDS))
    own = checks.least(lambda: whole(["env", f"ACCESSES={next(places)}", programs["traced"], "20000"], "fibers.c:16 in work"), MOST_OF_FIBERS, ROUNDS)
    print(f"20000 changes between stacks: {own:.2f} s", flush=True)
    if own > MOST_OF_FIBERS:
        fail(f"20000 changes between stacks take {own:.2f} s of the processor")


def fetch(packages, work):
    """The folders of the packages' sources, by apt's own lists of sources in a folder of the test."""
    apt = os.path.join(work, "apt")
    for each in ("lists/partial", "cache/archives/partial"):
        os.makedirs(os.path.join(apt, each))
    with open(os.path.join(apt, "sources.list"), "w") as file:
        file.write(DEBIAN)
    settings = [("Dir::State::Lists", f"{apt}/lists"), ("Dir::Cache", f"{apt}/cache"), ("Dir::Etc::SourceList", f"{apt}/sources.list"),
                ("Dir::Etc::SourceParts", "-"), ("APT::Sandbox::User", "root")]
    words = ["apt-get", "-q", *(f"-o{name}={value}" for name, value in settings)]
    for command in (["update"], ["source", *packages]):
        if subprocess.run(words + command, cwd=work, capture_output=True).returncode:
            return None
    return [next(folder for folder in glob.glob(f"{work}/{package}-*") if os.path.isdir(folder)) for package in packages]


def find(name, program, words, cwd, status=0, says="errors 0"):
    """find_faults tells what is planted, and else nothing."""
    done = subprocess.run([FIND, program, *words], cwd=cwd, capture_output=True, text=True, errors="replace", timeout=900)
    is_good = done.returncode == status and re.search(says, done.stdout)
    if not is_good:
        fail(f"{name}: {done.returncode} {done.stdout[-600:]} {done.stderr[-200:]}")
    print(f"{name}: {'as expected' if is_good else 'not as expected'}", flush=True)


def try_lua(folder, work):
    sources = [each for each in glob.glob(f"{folder}/src/*.c") if not each.endswith("/luac.c")]
    with open(f"{folder}/src/lua5.4-deb-multiarch.h", "w") as file:
        file.write('#define DEB_HOST_MULTIARCH "none"\n')
    flags = ["-DLUA_USE_LINUX", "-lm", "-ldl", "-Wl,-E"]
    programs = builds(sources, f"{work}/lua", *flags)
    for name, script in LUA.items():
        compare(name, programs, ["-e", script], work)
    if shutil.which("clang"):
        by_clang = builds(sources, f"{work}/lua", *flags, by="clang")
        for name, script in LUA.items():
            compare(f"{name}, by clang", by_clang, ["-e", script], work)
    find("lua5.4, a table of 2,000 strings", programs["traced"], ["-e", LUA["lua, sorting and joining"].replace("60000", "2000")], work)


def try_zlib(folder, work):
    sources, flags = glob.glob(f"{folder}/*.c"), [f"-I{folder}", "-DHAVE_UNISTD_H", "-DHAVE_STDARG_H"]
    with open(f"{work}/text", "w") as file:
        file.writelines(f"line {i * 7919 % 100003} of a text\n" for i in range(200000))
    programs = builds([*sources, f"{folder}/test/minigzip.c"], f"{work}/minigzip", *flags)
    compare("zlib, `minigzip` of 5 MB", programs, ["-c", f"{work}/text"], work)
    find("zlib, its test `example`", build("traced", [*sources, f"{folder}/test/example.c"], f"{work}/example", *flags), [], work)


def try_tinyxml2(folder, work):
    sources = [f"{folder}/tinyxml2.cpp", f"{folder}/xmltest.cpp"]
    programs = builds(sources, f"{work}/xmltest")
    compare("tinyxml2, its test", programs, [], folder)
    find("tinyxml2, its test `xmltest`", programs["traced"], [], folder)
    with open(sources[0]) as file:
        text = file.read()
    planted = text.replace("        delete [] _start;\n", "        delete [] _start; _flags += *(volatile char*)_start & 0;\n", 1)
    line = 1 + next(i for i, pair in enumerate(zip(text.split("\n"), planted.split("\n"))) if pair[0] != pair[1])
    with open(sources[0], "w") as file:
        file.write(planted)
    says = rf"tinyxml2\.cpp:{line} in .*: load of 1 byte, 0 bytes into a block of \d+ bytes that was freed"
    find("tinyxml2, a load planted after a delete", build("traced", sources, f"{work}/planted"), [], folder, 1, says)


def try_cjson(folder, work):
    flags, unity, utils = [f"-I{folder}/tests/unity/src", f"-I{folder}", "-lm"], f"{folder}/tests/unity/src/unity.c", f"{folder}/cJSON_Utils.c"
    for source in sorted(glob.glob(f"{folder}/tests/*.c")):
        name = os.path.basename(source)[:-2]
        if name == "unity_setup":
            continue
        with open(source) as file:
            sources = [source, unity] + [utils] * ("cJSON_Utils.h" in file.read())
        find(f"cjson, its test {name}", build("traced", sources, f"{work}/{name}", *flags), [], f"{folder}/tests")


class Costs(checks.Part):
    @classmethod
    def setup_class(cls):
        checks.need(f"gcc g++ {TIME}", "the costs of traced_cc")
        os.environ["MTE_TOOL"] = checks.with_heap()
        cls.work = os.environ["XDG_CACHE_HOME"] = cls.folder()

    def test_stores(self):
        for by, compilers in COMPILERS.items():
            if not skip_without(" ".join(compilers), f"the cost of traced_cc with {by}"):
                kinds = KINDS if checks.options.all else KINDS[:2]
                stores = builds([f"{HERE}/faults_programs/stores.c"], f"{self.work}/stores", by=by, kinds=kinds)
                compare("a loop of byte stores" + (", by clang" if by == "clang" else ""), stores, ["2000"], self.work)

    def test_compile(self):
        try_compile(self.work)

    def test_fibers(self):
        try_fibers(self.work)

    def test_blocks(self):
        try_blocks(10_000_000 if checks.options.all else 5_000_000, self.work)

    def test_real_programs(self):
        if not checks.options.all:
            return
        packages = {"lua5.4": try_lua, "zlib": try_zlib, "tinyxml2": try_tinyxml2, "cjson": try_cjson}
        folders = fetch(list(packages), self.work)
        if not folders:
            pytest.skip("without Debian's sources: real programs")
        for folder, attempt in zip(folders, packages.values()):
            attempt(folder, self.work)


def add_options(parser):
    parser.add_argument("--all", action="store_true", help="print the figures of docs/MEASUREMENTS.md, and try ten million blocks: some minutes")


if __name__ == "__main__":
    checks.main()
