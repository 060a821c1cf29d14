#!/usr/bin/env -S python3 -B
"""Builds packages of Debian's sources by CC=traced_cc, as their users do, and runs their own tests under `find_faults --children`: no error may be
told, and the tests have to pass. The table of examples/errors/README.md is compared but for versions and numbers. Packages that call
AddressSanitizer's interface build, and a misuse of a pool that one of them poisons is told. A package whose tools are missing is skipped, and
all are without the sources."""

import json
import os
import re
import shutil
import subprocess
import time
from collections import namedtuple

import checks
import pytest
from checks import expect, fail, skip_without
from debian_sources import has_sources, version

HERE = os.path.dirname(os.path.realpath(__file__))
ROOT = os.path.dirname(os.path.dirname(HERE))
SCRIPTS, DOCUMENT = os.path.join(ROOT, "scripts"), os.path.join(ROOT, "examples/errors/README.md")
HEAD = "| Package | Its tests | Processes | Errors |"
TIME = 1800
AUTOTOOLS, CMAKE = ("autoreconf", "libtoolize", "make"), ("cmake", "make")

# A package: how it is built, in a shell; the tests; where they run; the tools that it needs
Package = namedtuple("Package", "name build tests folder tools")
PACKAGES = (
    Package("bzip2", "make CC=$CC bzip2 bzip2recover", "make CC=$CC test", ".", ("make",)),
    Package("cjson", "cmake -S . -B made && cmake --build made", "make -C made test", ".", CMAKE),
    Package("cmark", "cmake -S . -B made && cmake --build made", "make -C made test", ".", (*CMAKE, "python3")),
    Package("expat", "./buildconf.sh && ./configure --without-docbook && make && make -C tests check TESTS=", "make -C tests check", "expat", AUTOTOOLS),
    Package("jansson", "autoreconf -i && ./configure && make && make check TESTS=", "make check", ".", AUTOTOOLS),
    Package("json-c", "cmake -S . -B made && cmake --build made", "env USE_VALGRIND=0 make -C made test", ".", CMAKE),
    Package("libcsv", "autoreconf -i && ./configure && make && make check TESTS=", "make check", ".", AUTOTOOLS),
    Package("libtasn1-6", "./configure --disable-doc --disable-gtk-doc --disable-shared && make && make check TESTS=", "make -C tests check", ".", ("make",)),
    Package("libyaml", "autoreconf -i && ./configure && make && make check TESTS=", "make check", ".", AUTOTOOLS),
    Package("tinyxml2", "$CXX -g -O1 tinyxml2.cpp xmltest.cpp -o xmltest", "./xmltest", ".", ("g++",)),
    Package("yajl", "cmake -S . -B made && cmake --build made", "sh run_tests.sh $PWD/../../made/test/parsing/yajl_test", "test/parsing", CMAKE),
    Package("zlib", "./configure && make", "make check", ".", ("make",)),
)

# a program with abseil's set, and what of abseil it needs
ABSEIL = f"""cmake_minimum_required(VERSION 3.13)
project(tried CXX)
set(CMAKE_CXX_STANDARD 17)
set(ABSL_PROPAGATE_CXX_STD ON)
add_subdirectory(.. absl EXCLUDE_FROM_ALL)
add_executable(set {HERE}/faults_programs/abseil_set.cpp)
target_link_libraries(set absl::flat_hash_set)
"""
# Packages that poison memory by AddressSanitizer's interface: what is to be built, and a file in which it is called
POISONING = (
    Package("nspr", "cd nspr && ./configure --enable-64bit --disable-debug && make", "nspr/dist/lib/libplds4.so", ".", ("make",)),
    Package("libzstd", "make -C lib libzstd.a CFLAGS=-O1 ZSTD_NO_ASM=1", "lib/libzstd.a", ".", ("make",)),
    Package("abseil", "mkdir tried && printf '%s' \"$PROJECT\" > tried/CMakeLists.txt && cmake -S tried -B made && cmake --build made --target set", "made/set", ".",
            CMAKE),
)


def run(command, cwd, **environment):
    """(status, standard output, standard error) of a command of the shell; 124 where it does not end."""
    try:
        done = subprocess.run(["sh", "-c", command], cwd=cwd, capture_output=True, text=True, errors="replace", timeout=TIME,
                              stdin=subprocess.DEVNULL, env={**os.environ, **environment})
    except subprocess.TimeoutExpired:
        return 124, "", "it does not end"
    return done.returncode, done.stdout, done.stderr


def attempt(work, package, shows):
    """The package's row, or None."""
    folder = os.path.join(work, "own_tests", package.name)
    shutil.rmtree(folder, ignore_errors=True)
    shutil.copytree(os.path.join(work, "sources", package.name), folder, symlinks=True)
    folder = os.path.join(folder, package.folder)
    how = {"CC": os.path.join(SCRIPTS, "traced_cc"), "CXX": os.path.join(SCRIPTS, "traced_c++"), "FIND": os.path.join(SCRIPTS, "find_faults")}
    begun = time.monotonic()
    top = os.path.normpath(os.path.join(work, "own_tests", package.name)) if package.folder.startswith("test/") else folder
    status, told, said = run(package.build, top, **how)
    if status:
        return fail(f"{package.name} does not build: {told[-300:]} {said[-600:]}")
    built = time.monotonic()
    status, told, said = run(f"$FIND --children --json - {package.tests}", folder, **how)
    if shows:
        print(f"built in {built - begun:.0f} s, its tests in {time.monotonic() - built:.0f} s\n{told}\n{said}")
    if status or not told:
        titles = re.findall(r'"what": "([^"]*)"', told)
        return fail(f"{package.name}: its tests end with {status}: {titles[:9]} {said[-900:]}")
    answer = json.loads(told)
    expect(f"{package.name}: its tests are recorded", answer["processes"] and not answer["findings"], told)
    return f"| {package.name} {version(work, package.name)} | `{package.tests}` | {len(answer['processes'])} | {answer['findings']} |"


def copy_sources(work, package):
    """A copy of a package's sources."""
    folder = os.path.join(work, "interface", package.name)
    shutil.rmtree(folder, ignore_errors=True)
    shutil.copytree(os.path.join(work, "sources", package.name), folder, symlinks=True)
    return folder


def try_interface(work, package):
    """Whether a package that calls the interface builds."""
    folder = copy_sources(work, package)
    how = {"CC": os.path.join(SCRIPTS, "traced_cc"), "CXX": os.path.join(SCRIPTS, "traced_c++"), "PROJECT": ABSEIL}
    status, told, said = run(package.build, folder, **how)
    return expect(f"{package.name} builds", status == 0 and os.path.exists(os.path.join(folder, package.tests)), status, told[-300:], said[-600:])


def try_set(work):
    """The same of a slot of abseil's set."""
    program = os.path.join(work, "interface", "abseil", "made", "set")
    status, told, said = run(f"{SCRIPTS}/find_faults {program}", work)
    expect("abseil's set, used as it has to be", status == 0 and told.startswith("errors 0\n"), status, told, said)
    status, told, said = run(f"{SCRIPTS}/find_faults {program} wrong", work)
    lines = (r"^abseil_set\.cpp:9 in main: load of 8 bytes of poisoned memory, ", r"^    poisoned at .* abseil_set\.cpp:8 in main: 8 bytes, the access begins 0 bytes into them$")
    expect("a misuse of abseil's set", status == 1 and all(re.search(line, told, re.M) for line in lines), status, told, said)


def try_pool(work):
    """The pool of NSPR: right uses have no error, and a store to a piece that was released is told with its history."""
    dist = os.path.join(work, "interface", "nspr", "nspr", "dist")
    source, program = os.path.join(HERE, "faults_programs", "nspr_arena.c"), os.path.join(work, "nspr_arena")
    words = f"{SCRIPTS}/traced_cc -w -g {source} -I{dist}/include/nspr -L{dist}/lib -lplds4 -lnspr4 -Wl,-rpath,{dist}/lib -o {program}"
    status, told, said = run(words, work)
    if not expect("a program with NSPR's pool", status == 0, told, said):
        return
    status, told, said = run(f"{SCRIPTS}/find_faults {program}", work)
    expect("NSPR's pool, used as it has to be", status == 0 and told.startswith("errors 0\n"), status, told, said)
    status, told, said = run(f"{SCRIPTS}/find_faults {program} wrong", work)
    lines = (r"^nspr_arena\.c:12 in main: store of 1 byte to poisoned memory, 75 bytes into a block of 1024 bytes$", r"^    poisoned at nspr_arena\.c:11 in main: ",
             r"^    unpoisoned before at nspr_arena\.c:9 in main: 24 bytes, the access begins 3 bytes into them$", r"^    allocated at .* in PL_ArenaAllocate, from ")
    expect("a misuse of NSPR's pool", status == 1 and all(re.search(line, told, re.M) for line in lines), status, told, said)


def without_numbers(row):
    return re.sub(r"\| \d+ (?=\| \d+ \|$)", "", re.sub(r"^(\| \S+) [^|]*\|", r"\1 |", row))


class Packages(checks.Part):
    def test_packages(self):
        os.environ["MTE_TOOL"] = checks.with_heap()
        only, work = checks.options.only, os.path.abspath(checks.options.work or self.folder())
        packages = [each for each in PACKAGES if not only or only == each.name]
        packages = [each for each in packages if not skip_without(" ".join(("gcc", "g++", *each.tools)), f"the tests of {each.name}")]
        if not packages or not has_sources(work, [package.name for package in packages]):
            pytest.skip("without the sources of Debian: the tests of its packages")
        rows = [row for row in (attempt(work, package, bool(only)) for package in packages) if row]
        if checks.options.table:
            print("\n".join([HEAD, "|---|---|---|---|", *rows]))
        elif not only:
            with open(DOCUMENT, encoding="utf-8") as file:
                there = set(map(without_numbers, file.read().split("\n")))
            for row in rows:
                expect(f"examples/errors/README.md has {row}", without_numbers(row) in there)


    def test_interface(self):
        os.environ["MTE_TOOL"] = checks.with_heap()
        work, only = os.path.abspath(checks.options.work or self.folder()), checks.options.only
        packages = [each for each in POISONING if not only or only == each.name]
        packages = [each for each in packages if not skip_without(" ".join(("gcc", "g++", *each.tools)), f"the interface in {each.name}")]
        if not packages or not has_sources(work, [package.name for package in packages]):
            pytest.skip("without the sources of Debian: packages that call AddressSanitizer's interface")
        built = [package.name for package in packages if try_interface(work, package)]
        if "nspr" in built:
            try_pool(work)
        if "abseil" in built:
            try_set(work)


def add_options(parser):
    parser.add_argument("--table", action="store_true", help="print the table of examples/errors/README.md")
    parser.add_argument("--only", metavar="NAME", help="this package, with all that find_faults says")
    parser.add_argument("--work", metavar="FOLDER", help="keep the sources there, for the next time")


if __name__ == "__main__":
    checks.main()
