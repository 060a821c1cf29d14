"""Tests the library for C, which scripts/library builds: its answers are the program's, byte for byte, with the input whole, in pieces
and in 16 threads; the calls over arrays give the program's numbers, and the heap its report's lines; valgrind, helgrind and the sanitizers
of addresses, of undefined behaviour and of threads find no error, in the packages for other languages too; a refused growth of memory is
reported. It builds and runs examples/callers, and the packages for C++, Python and Rust.

What a tool is missing for is skipped, with a message. MTE_LIBRARY=DIR tests the library in that folder in place of building one, and
MTE_TOOL=PATH compares with another program."""
import array
import copy
import ctypes
import doctest
import importlib
import itertools
import os
import pickle
import re
import shlex
import shutil
import sys
from pathlib import Path

import checks
import pytest
from checks import expect, skip_without
from library_arrays import error_of, try_array_faults, try_arrays, try_rooms
from library_cases import (
    BAD_OPTION, BORDERS, DONE, EXAMPLES, FAULTY, MISUSE, NO, OPTIONS, REFUSED, SMALL, SMALL_PROFILE, WRAPS, Compiler, with_checks, ending_of, large,
    program, run_command, read, with_answers, write_calls,
)  # fmt: skip
from library_claims import try_claims, try_rust_claims
from library_sanitized import is_hosted, try_helgrind, try_layer, try_packages, try_race
from library_trips import try_rust_trips, try_trips
from mte_scripts import engines, formats
from mte_scripts.builds import static_libraries
from mte_scripts.builds.library import lay_out
from package_callers import CMAKE
from mte_scripts.places import ROOT

STRICT = ["-Wall", "-Wextra", "-Wpedantic", "-Werror"]
SANITIZED = ["-g", "-O1", "-fsanitize=address,undefined", "-fno-sanitize-recover=all"]


@pytest.fixture(scope="module")
def library(place):
    """The library's folder."""
    checks.built_program()
    checks.need("cc", "the library for C")
    if os.environ.get("MTE_LIBRARY"):
        return os.environ["MTE_LIBRARY"]
    if not static_libraries.is_cheap("mte_c") and not engines.are_answering():
        pytest.skip("since no library is kept to build it on (scripts/library keeps them): the library for C")
    made = run_command([f"{ROOT}/scripts/library", f"{place}/library"], 3600)
    if made.returncode:
        raise AssertionError(f"scripts/library: {made.stderr[-2000:].decode()}")
    return f"{place}/library"


@pytest.fixture(scope="module")
def small(library):
    return with_checks(with_answers(SMALL))


@pytest.fixture(scope="module")
def all_calls(small):
    return small + with_checks(with_answers(large()))


@pytest.fixture(scope="module")
def compiler(library, place):
    return Compiler(library, place)


@pytest.fixture(scope="module")
def bindings(library):
    return SharedLibrary(library)


# ---- the shared library

class SharedLibrary:
    """The Python package over the shared library, and its functions of C."""

    def __init__(self, library):
        os.environ["MTE_TOOL_LIBRARY"] = f"{library}/lib/libmte_tool.so"
        sys.dont_write_bytecode = True
        sys.path.insert(0, f"{ROOT}/python")
        self.package = importlib.import_module("mte_tool")
        self.c = importlib.import_module("mte_tool._c")

    def options(self, **options):
        return importlib.import_module("mte_tool._calls").options(**{**OPTIONS, **options})

    def call(self, command, data, **options):
        """How a command ended, with its code and line, and its text."""
        ended, answer = self.answer(command, data, **options)
        return ended[:3], answer

    def answer(self, command, data, **options):
        """The same, with the bytes that a table costs."""
        text, result = self.c.Text(), self.c.Result()
        function = getattr(self.c.library, f"mte_tool_{command.replace('-', '_')}")
        slices = [part for each in (data if isinstance(data, tuple) else (data,)) for part in (each, len(each))]
        end = function(ctypes.byref(self.options(**options)), *slices, ctypes.byref(text), ctypes.byref(result))
        answer = ctypes.string_at(text.bytes, text.length) if text.length else b""
        self.c.library.mte_tool_text_free(ctypes.byref(text))
        return (end, result.code, result.line, result.bytes), answer


def test_shared(bindings, all_calls):
    for (command, options, data), (end, text) in all_calls:
        ending, got = bindings.call(command, data, **options)
        what = f"shared library: {command} {options} of {data[:40]!r}"
        expect(f"{what}: the ending", ending == ending_of(end, text), ending)
        expect(f"{what}: the text", got == text)
    for command, data, code in FAULTY:
        ending, got = bindings.call(command, data, limit=2)
        expect(f"shared library: {command} of {data[:40]}: the code {code}", ending[1] == code and (code == 0) == (ending[0] == DONE))
    for command, data, want, more in BORDERS:
        end, code, line, cost = bindings.answer(command, data, limit=2)[0]
        got = (end, cost) if end == DONE else (end, None) if end == NO else (code, line)
        expect(f"shared library: {command} of {data}: the border", got == (want, more), (end, code, line, cost))
    for command, bad in (("tune", {"limit": 0}), ("tune", {"limit": 33}), ("fit", {"step": 3}), ("fit", {"step": 0}),
                         ("run", {"limit": 0}), ("replay", {"seed": 0}), ("replay", {"granules": 63}), ("run", {"granules": 262145}),
                         ("run", {"quarantine": 4194305}), ("tune", {"limit": 264}), ("fit", {"limit": 2**32 + 8}),
                         ("tune", {"limit": 2**64 + 8}), ("run", {"step": 257}), ("replay", {"seed": 65537})):  # fmt: skip
        data = (b"classes 2", b"") if command == "replay" else SMALL_PROFILE
        expect(f"shared library: {command} {bad} is refused", bindings.call(command, data, **bad) == ((BAD_OPTION, 0, 0), b""))
    too_many, too_long = b"free 1\n" * 1000001, b"a" * 67108865
    for command, data, code, line in (("profile", too_many, 74, 1000001), ("score", (b"", too_long), 80, 0),
                                      ("score", (too_long, b""), 23, 1), ("run", too_long, 80, 0)):  # fmt: skip
        expect(f"shared library: {command}: {code}", bindings.call(command, data)[0] == (REFUSED, code, line))


def test_sentences(bindings):
    """Ends and codes are apart, and each has its own words."""
    numbers, package = importlib.import_module("mte_tool._numbers"), bindings.package
    ends, codes = [it.sentence for it in formats.ENDS.values()], {code: formats.CODES[code].name for code in formats.LIBRARY_CODES}
    for number in (*range(-1, 100), 2**32 - 1):
        wanted = ends[number] if number in range(len(ends)) else "there is no such end"
        expect(f"the sentence of the end {number}", numbers.end_sentence(number) == wanted, numbers.end_sentence(number))
        wanted = formats.code_sentence(number) if number in codes else "there is none" if number == 0 else "there is no such code"
        got = numbers.code_sentence(number), numbers.code_name(number)
        expect(f"the words of the code {number}", got == (wanted, codes.get(number, "")), got)
    expect("the version", package.version() == formats.VERSION, package.version())
    number = sum(int(part) * 100**place for place, part in enumerate(reversed(formats.VERSION.split("."))))
    expect("the version as a number", package.version_number() == number, package.version_number())
    expect("Python: the ends", [(end.name, int(end), end.sentence) for end in package.End] == [(name, n, ends[n]) for n, name in enumerate(formats.ENDS)])
    known = {int(code): (code.name, code.word) for code in package.Code if code}
    expect("Python: the codes", known == {code: (formats.upper_name(code), name) for code, name in codes.items()}, known)
    later = package.Code(4000000000)
    expect("Python: a code of a later library", (later, later.name, later.word) == (4000000000, "CODE_4000000000", ""), later)
    expect("Python: the same code again", pickle.loads(pickle.dumps([later, package.Code(31)])) == [later, 31] and package.Code(4000000000) is later)
    expect("Python: no code", all(isinstance(error_of_call(lambda: package.Code(wrong)), ValueError) for wrong in (-1, 2**32, "31")))


# ---- the static library

def test_static(compiler, place, small, all_calls):
    write_calls(f"{place}/small", small)
    write_calls(f"{place}/all", all_calls)
    source = f"{ROOT}/scripts/tests/library_calls.c"
    calls = compiler.build("library_calls", ["cc", "-std=c99", "-Wall", "-Wextra", "-O2", source, *compiler.flags(), *WRAPS])

    def run(what, words, folder, number):
        made = run_command([*words, f"{place}/{folder}", str(number)])
        expect(f"{what}: {made.stdout[-300:]} {made.stderr[-600:]}", made.returncode == 0)
        return made.stdout

    for piece in (0, 1000):
        run(f"static library, in pieces of {piece}", [calls, str(piece)], "all", len(all_calls))
    for piece in (1, 7):
        run(f"static library, in pieces of {piece}", [calls, str(piece)], "small", len(small))
    run("16 threads", [calls, "threads"], "all", len(all_calls))
    refused = run("refused memory", [calls, "refuse"], "small", len(small)).decode().split("\n")
    expect("some growths are refused in each call",
           all(int(line.split()[1]) > 0 for line in refused if line) and len(refused) == len(small) + 1)
    if not skip_without("valgrind", "the static library under valgrind"):
        words = ["valgrind", "-q", "--leak-check=full", "--error-exitcode=9", calls]
        for mode in ("0", "7", "threads"):
            run(f"valgrind, {mode}", [*words, mode], "small", len(small))
    calls = compiler.build("library_calls_asan", ["cc", "-std=c99", *SANITIZED, source, *compiler.flags(), *WRAPS])
    for mode in ("0", "1000", "threads"):
        run(f"AddressSanitizer, {mode}", [calls, mode], "all", len(all_calls))


# ---- the heap

HEAP_TRACE = b"""malloc 1 40
calloc 2 16
store 1 0 40 ab
load 1 0 40
load 2 0 16
load 1 40 8
addg 3 1 1 1
load 3 0 8
free 1
load 1 0 1
free 1
realloc 2 500
load 2 0 64
free 3
malloc 4 20000
malloc 5 17
free 6
load 6 0 1
realloc 7 30
load 7 -1048576 1
"""


def test_heap(compiler, place):
    """The heap's answers are the lines of `replay`, over the example traces and a small one."""
    source = f"{ROOT}/scripts/tests/library_heap.c"
    flags = ["-std=c99", "-D_POSIX_C_SOURCE=200809L", "-Wall", "-Wextra", source, *compiler.flags(), "-pthread"]
    heap = compiler.build("library_heap", ["cc", "-O2", *flags])
    sanitized = compiler.build("library_heap_asan", ["cc", *SANITIZED, *flags])
    small = f"{place}/small.trace"
    Path(small).write_bytes(HEAP_TRACE)
    tables = [read("scudo.classes").split()[1:], [b"2", b"4", b"33"], [b"3"]]
    for trace, runs in ((small, [heap, sanitized]), *((f"{EXAMPLES}/{name}.trace", [heap]) for name in ("sqlite", "jq", "perl"))):
        for classes in tables:
            for granules, seed, quarantine in ((64, 1, 0), (65536, 7, 65536), (262144, 65535, 4194304)):
                options = {"granules": granules, "seed": seed, "quarantine": quarantine}
                with open(trace, "rb") as file:
                    _, report = program("replay", options, (b"classes " + b" ".join(classes), file.read()))
                want = b"".join(line + b"\n" for line in report.splitlines()[: -len(formats.TOTALS)])
                for command in runs:
                    made = run_command([command, trace, str(granules), str(seed), str(quarantine), *classes])
                    what = f"heap: {os.path.basename(command)} {os.path.basename(trace)} {options}"
                    expect(f"{what}: {made.stdout[:200]} {made.stderr[-600:]}", made.returncode == 0 and made.stdout == want)
    words = ["threads", f"{EXAMPLES}/perl.trace", "65536", "1", "65536", *tables[0]]
    for command in (heap, sanitized):
        expect(f"heap: {os.path.basename(command)} in 8 threads", run_command([command, *words]).returncode == 0)
    if not skip_without("valgrind", "the heap under valgrind"):
        made = run_command(["valgrind", "-q", "--leak-check=full", "--error-exitcode=9", heap, small, "64", "1", "0", "2", "4"])
        expect(f"heap: valgrind {made.stderr[-600:]}", made.returncode == 0)


CLASS_TABLES = ["2", "1024", "2 1024", "2 3 5 9 17 33 65", " ".join(map(str, range(2, 34))), " ".join(map(str, range(32, 1025, 32)))]


def test_classes(compiler, bindings):
    """The class of each size is the one of the heap's slot, and the one with the waste that `score` gives."""
    flags = ["-std=c99", "-Wall", "-Wextra", "-Werror", f"{ROOT}/scripts/tests/library_classes.c", *compiler.flags()]
    tables = [read("scudo.classes").decode().split(maxsplit=1)[1].strip(), *CLASS_TABLES, ""]
    made = run_command([compiler.build("library_classes", ["cc", "-O2", *flags])], input="".join(f"{table}\n" for table in tables).encode())
    is_right = (made.returncode, made.stdout) == (0, b"%d\n" % (len(tables) * (formats.LARGEST_SIZE + 101)))
    expect("the class of each size", is_right, made.stdout, made.stderr)
    for table in ([int(word) for word in line.split()] for line in tables):
        for size in range(0, formats.LARGEST_SIZE + 1, 97):
            number = bindings.package.class_of(table, size)
            cost = bindings.package.score_profile(table, {size: 1})
            # the granules of a chunk, at least one, and the header's
            need = max(1, -(-size // formats.GRANULE_BYTES)) + 1
            wanted = None if not cost.serves else next(n for n, each in enumerate(table) if each >= need)
            expect(f"the class of {size} bytes in {table}", number == wanted, number, wanted)


def test_memory(compiler):
    """All memory is the caller's functions', if these are set before anything is taken."""
    fewest = 1 if is_hosted(compiler.library) else 10  # the memory of the project's engines grows by pages
    words = ["cc", "-std=c99", *STRICT, *SANITIZED, f"-DFEWEST_STOPS={fewest}", f"{ROOT}/scripts/tests/library_memory.c",
             *compiler.flags(), *WRAPS]
    program = compiler.build("library_memory", words)
    for mode in ([], ["late"]):
        made = run_command([program, *mode])
        expect(f"the library's memory {mode}: {made.stderr[-300:]}", made.returncode == 0)


def test_misuses(compiler):
    words = ["cc", "-std=c99", *STRICT, *SANITIZED, f"{ROOT}/scripts/tests/library_misuses.c", *compiler.flags()]
    made = run_command([compiler.build("misuses", words)])
    expect(f"misuses: {made.stderr[-300:]}", made.returncode == 0)


# ---- the callers

def test_c_callers(compiler, place):
    callers, profile = f"{EXAMPLES}/callers", f"{EXAMPLES}/jq.profile"
    strict = ["cc", "-std=c99", *STRICT]
    _, sheet = program("tune", {"limit": 8}, read("jq.profile"))
    Path(f"{place}/sheet").write_bytes(sheet)
    check = compiler.build("check_sheet", [*strict, f"{callers}/check_sheet.c", *compiler.flags()])
    for data, status, said in ((profile, 0, b"optimal\n"), (f"{EXAMPLES}/perl.profile", 1, b"the verdict is no: "),
                               (f"{place}/sheet", 2, b"the input is refused: a line is not "), (f"{place}/none", 2, b""),
                               ("/dev/null", 2, b"")):  # fmt: skip
        made = run_command([check, f"{place}/sheet", data])
        expect(f"check_sheet {data}", made.returncode == status and (made.stdout + made.stderr).startswith(said), made.stdout, made.stderr)
    own = compiler.build("own_counts", [*strict, f"{callers}/own_counts.c", *compiler.flags()])
    for sizes, limit, status, said in ((b"16 32 48 20000", "2", 0, b"32 64 waste 16\n"), (b"", "1", 0, b"waste 0\n"), (b"1", "33", 2, b""),
                                       (b"1", "264", 2, b""), (b"1", "-1", 2, b"")):  # fmt: skip
        made = run_command([own, limit], input=sizes)
        expect(f"own_counts {limit} of {sizes}: {made.stdout}", (made.returncode, made.stdout) == (status, said))
    freed = compiler.build("use_after_free", [*strict, f"{callers}/use_after_free.c", *compiler.flags()])
    made = run_command([freed, "40", "3"])
    expect(f"use_after_free: {made.stdout}", made.returncode in (0, 1) and made.stdout.startswith(b"a tag fault: granule "))


# the blocks of docs/LIBRARY.md that are C: the heading that they are under, what has to be before, and what has to be so after
BLOCKS = [
    ("A call", "", "end == MTE_TOOL_DONE"),
    ("A call", """const char *profile = "16 1\\n"; mte_tool_options options = MTE_TOOL_OPTIONS(1); mte_tool_result result = MTE_TOOL_RESULT;
        mte_tool_text sheet = MTE_TOOL_TEXT, verdict = MTE_TOOL_TEXT;
        int end = mte_tool_tune(&options, profile, strlen(profile), &sheet, &result);""",
     "end == MTE_TOOL_DONE && !strcmp(verdict.bytes, \"optimal\\n\")"),
    ("Without a text", "", "end == MTE_TOOL_DONE && tuned.classes == 2 && classes[1] == 8"),
    ("The heap", "", "end == MTE_TOOL_NO && read.code == MTE_TOOL_CODE_TAG_CHECK && read.granule_kind == MTE_TOOL_GRANULE_DEAD"),
]


def test_document(compiler, place):
    """What docs/LIBRARY.md shows compiles as it stands, and does what it says."""
    with open(f"{ROOT}/docs/LIBRARY.md", encoding="utf-8") as file:
        sections = dict(re.findall(r"(?m)^## (.*)\n((?:(?!## ).*\n)+)", file.read()))
    source, taken = "#include <mte_tool.h>\n#include <stdio.h>\n#include <stdlib.h>\n#include <string.h>\nint main(void) {\n", []
    for heading, before, after in BLOCKS:
        found = [block for block in re.findall(r"(?m)(?:^ {4,}\S.*\n)+", sections[heading]) if block not in taken]
        taken.append(found[0])
        source += f"{{ {before}\n{found[0]} if (!({after})) return {len(taken)}; }}\n"
    with open(f"{place}/document.c", "w", encoding="utf-8") as file:
        file.write(source + "return 0; }\n")
    made = run_command([compiler.build("document", ["cc", "-std=c99", "-Wall", "-Wextra", "-Werror", f"{place}/document.c", *compiler.flags()])])
    is_right = made.returncode == 0 and made.stdout.startswith(b"classes 2 3 8\n")
    expect("the examples of docs/LIBRARY.md", is_right, made.returncode, made.stdout)


GO = """package main

// #cgo pkg-config: mte_tool
// #include <mte_tool.h>
// #include <stdlib.h>
import "C"

// verdict gives what the checker says of a sheet, and whether its table is a best one.
func verdict(sheet, profile []byte) (string, bool) {
	var text C.mte_tool_text
	defer C.mte_tool_text_free(&text)
	first, input := C.CBytes(sheet), C.CBytes(profile)
	defer C.free(first)
	defer C.free(input)
	end := C.mte_tool_check(nil, first, C.size_t(len(sheet)), input, C.size_t(len(profile)), &text, nil)
	return C.GoStringN(text.bytes, C.int(text.length)), end == C.MTE_TOOL_DONE
}

func main() {
	said, isBest := verdict([]byte("classes 2\\nlimit 1\\nwaste 0\\nrow 0\\n"), []byte("16 3\\n"))
	other, isOther := verdict([]byte("x"), nil)
	println(said, isBest, other, isOther)
}
"""


def test_go(library, place):
    """A call over two texts, and the caller."""
    checks.need("go cc pkg-config", "a caller in Go")
    environment = {**os.environ, "PKG_CONFIG_PATH": f"{library}/lib/pkgconfig", "LD_LIBRARY_PATH": f"{library}/lib", "GOCACHE": f"{place}/go"}
    Path(f"{place}/verdict.go").write_text(GO, encoding="utf-8")
    made = run_command(["go", "run", f"{place}/verdict.go"], env=environment)
    wanted = b"optimal\n true 48 BadSheet line 1 false\n"
    expect("a call over two texts in Go", (made.returncode, made.stderr) == (0, wanted), made.returncode, made.stderr)
    for limit, status, answer in (("8", 0, program("tune", {"limit": 8}, read("jq.profile"))[1]), ("33", 1, b"")):
        made = run_command(["go", "run", f"{EXAMPLES}/callers/tune.go", limit], env=environment, input=read("jq.profile"))
        expect(f"tune.go {limit}", (made.returncode, made.stdout) == (status, answer), made.returncode, made.stderr)


def test_cmake(library, place):
    """find_package in a folder of scripts/library, with both libraries, and of another version."""
    checks.need("cmake make cc", "find_package")
    sheet = program("tune", {"limit": 8}, read("jq.profile"))[1]
    Path(place, "jq.sheet").write_bytes(sheet)
    for version, status in (("1.0", 0), ("1.1", 1), ("2.0", 1)):
        folder, text = f"{place}/cmake/{version}", CMAKE.replace("mte_tool 1.0", f"mte_tool {version}").replace("examples/", f"{EXAMPLES}/")
        os.makedirs(folder)
        Path(folder, "CMakeLists.txt").write_text(text, encoding="utf-8")
        made = run_command(["cmake", "-S", folder, "-B", f"{folder}/built", f"-DCMAKE_PREFIX_PATH={library}"])
        expect(f"find_package of the version {version}", made.returncode == status, made.stderr)
    made = run_command(["cmake", "--build", f"{place}/cmake/1.0/built"])
    expect("cmake builds", made.returncode == 0, made.stdout, made.stderr)
    for name in ("check", "check_static"):
        made = run_command([f"{place}/cmake/1.0/built/{name}", f"{place}/jq.sheet", f"{EXAMPLES}/jq.profile"])
        expect(f"what cmake built: {name}", (made.returncode, made.stdout) == (0, b"optimal\n"), made.stderr)


def test_prefixes(library, place):
    """pkg-config in folders whose names a shell, pkg-config or both read otherwise."""
    checks.need("pkg-config", "pkg-config in folders of all names")
    for name in ("plain", "a space", "quo'te", 'dou"ble', "dol$lar", "back\\slash", "all '\"$(x)` &;\\ of them"):
        to = f"{place}/prefixes/{name}"
        shutil.copytree(library, to, symlinks=True)
        lay_out(f"{library}/lib", to, "")
        found = run_command(["pkg-config", "--cflags", "--libs", "mte_tool"], env={**os.environ, "PKG_CONFIG_PATH": f"{to}/lib/pkgconfig"})
        words = [os.path.normpath(word) for word in shlex.split(found.stdout.decode())]
        expect(f"pkg-config in {name}", words == [f"-I{to}/include", f"-L{to}/lib", "-lmte_tool"], words, found.stderr)


def test_cpp(compiler, place):
    """The header for C++ in both standards: its example, a use of each function, and the caller."""
    checks.need("c++", "the header for C++")
    sheet = program("tune", {"limit": 8}, read("jq.profile"))[1]
    with open(f"{ROOT}/include/mte_tool.hpp", encoding="utf-8") as file:
        example = re.search(r"\n((?: {7}.*\n|\n)+)\*/", file.read())[1]
    Path(f"{place}/example.cpp").write_text(example, encoding="utf-8")
    for standard, more in (("17", []), ("20", SANITIZED)):
        words = ["c++", f"-std=c++{standard}", *STRICT, *more]
        made = run_command([compiler.build("example", [*words, f"{place}/example.cpp", *compiler.flags()])])
        is_right = made.stdout.startswith(b"classes 2 8\n") and made.stdout.endswith(b"\nchecked\n")
        expect(f"the example of mte_tool.hpp, C++{standard}", is_right, made.stdout)
        uses = run_command([compiler.build("uses", [*words, f"{ROOT}/scripts/tests/library_uses.cpp", *compiler.flags()])])
        expect(f"each function of mte_tool.hpp, C++{standard}", uses.returncode == 0, uses.stderr)
    make = compiler.build("make_header", ["c++", "-std=c++17", *STRICT, f"{EXAMPLES}/callers/make_header.cpp", *compiler.flags()])
    made = run_command([make, "8"], input=read("jq.profile"))
    classes = [16 * int(word) for word in sheet.split(b"\n")[0].split()[1:]]
    test = f"static_assert(sizeof class_bytes / sizeof *class_bytes == {len(classes)}, \"\");\n"
    test += "".join(f"static_assert(class_bytes[{i}] == {size}, \"\");\n" for i, size in enumerate(classes))
    with open(f"{place}/table.cpp", "wb") as file:
        file.write(made.stdout.replace(b"#pragma once\n", b"") + test.encode() + b"int main() {}\n")
    compiler.build("table", ["c++", "-std=c++17", f"{place}/table.cpp"])
    made = run_command([make, "8"], input=b"x")
    expect("make_header refuses", (made.returncode, made.stderr) == (2, b"make_header: 30 BadLine line 1\n"), made.stderr)


def error_of_call(call):
    try:
        call()
    except Exception as error:
        return error


def test_python(bindings, library):
    for name in ("mte_tool", "mte_tool._arrays", "mte_tool._claims", "mte_tool._heap"):
        found = doctest.testmod(importlib.import_module(name))
        expect(f"the examples of {name}", found.failed == 0 and found.attempted > 0, found)
    package = bindings.package
    for command, data, want, more in BORDERS:
        if command != "replay":
            call = getattr(package, command.replace("-", "_"))
            got = error_of(lambda: call(*data)) if want not in (DONE, NO) else call(*data)
            holds = got[:2] == (REFUSED, want) if want not in (DONE, NO) else not got[0] if want == NO else got.bytes == more
            expect(f"Python: {command} of {data}: the border", holds, got)
    table = package.tune_profile({16: 500, 24: 70, 100: 3}, limit=2)
    expect("Python: a table", package.check_profile(table, {16: 500, 24: 70, 100: 3}, limit=2).is_optimal)
    ragged = [table.rows[0][:-1], [*table.rows[1], 0]]
    large = [[table.rows[0][0] + 2**64, *table.rows[0][1:]], table.rows[1]]
    for wrong in ({"bytes": table.bytes + 2**64}, {"bytes": table.bytes - 2**64}, {"rows": large}, {"rows": ragged},
                  {"rows": [sum(table.rows, [])]}):  # fmt: skip
        got = error_of(lambda: package.check_profile(table._replace(**wrong), {16: 500, 24: 70, 100: 3}, limit=2))
        expect(f"Python: {wrong} is no certificate", got != "no error", got)
    error = error_of_call(lambda: package.tune("16 500\n16 1\n", limit=2))
    again = pickle.loads(pickle.dumps(error))
    expect("Python: an error of another process", (str(again), vars(again)) == (str(error), vars(error)) and again.code == 31, again)
    path = Path(EXAMPLES, "jq.profile")
    expect("Python: a path", package.tune(path, limit=2) == package.tune(path.read_bytes(), limit=2))
    for text in (0, 16, True, 1.5, None, [49, 54], {16: 500}):  # of which bytes() makes zeros, or other bytes
        for call in (lambda: package.tune(text, limit=2), lambda: package.check(package.tune("16 1\n", limit=1), text)):
            expect(f"Python: {text!r} is no text", isinstance(error_of_call(call), TypeError), error_of_call(call))
    for text in (bytearray(b"16 1\n"), memoryview(b"16 1\n"), array.array("B", b"16 1\n"), memoryview(b"1x6x x1x\nx")[::2]):
        expect(f"Python: {text!r} is a text", package.tune(text, limit=1) == package.tune("16 1\n", limit=1))
    sizes, frees = [100, 24, 100, 20000, 24], [0, 0, 1, 0, 1]
    wanted = package.footprint_timeline([2, 8], sizes, frees)
    truths = (bytes(frees), bytes(2 * free for free in frees), memoryview(bytes(frees)).cast("?"), array.array("q", frees), list(map(bool, frees)))
    for letter, flags in itertools.product("HiIqQ", truths):
        got = package.footprint_timeline([2, 8], array.array(letter, sizes), flags)
        expect(f"Python: a timeline of a buffer of {letter}", got == wanted, got)
    got = error_of_call(lambda: package.footprint_timeline([2, 8], memoryview(bytes(4)).cast("B", (2, 2)), [0, 0]))
    expect("Python: two dimensions", isinstance(got, ValueError), got)
    uses_heap(package)
    runs_example(library)


def runs_example(library):
    """The example of a caller in Python."""
    caller = [sys.executable, "-B", f"{EXAMPLES}/callers/tune.py", "8"]
    environment = {**os.environ, "PYTHONPATH": f"{ROOT}/python", "MTE_TOOL_LIBRARY": f"{library}/lib"}
    made = run_command(caller, input=read("jq.profile"), env=environment)
    expect("tune.py", made.stdout == program("tune", {"limit": 8}, read("jq.profile"))[1], made.stderr)
    made = run_command(caller, input=b"x", env=environment)
    expect("tune.py refuses", (made.returncode, made.stderr) == (1, b"tune.py: 30 BadLine line 1\n"), made.stderr)
    made = run_command(caller, input=b"", env={**environment, "MTE_TOOL_LIBRARY": f"{library}/none.so"})
    expect("tune.py without a library", made.returncode == 1 and b"MTE_TOOL_LIBRARY" in made.stderr, made.stderr)


def uses_heap(package):
    """The heap by its functions in Python."""
    heap = package.Heap([2, 4], quarantine=0)
    p = heap.calloc(40)
    expect("Python: the heap", p.is_done and heap.load(p.value, 40).data == bytes(40) and heap.store(p.value, b"data").is_done)
    granule = heap.granule(heap.granule(1).granule + 1)
    expect("Python: a granule", granule.is_done and granule.granule_kind in ("other", "tail") and heap.granule(0).granule_kind == "header")
    expect("Python: what was stored", heap.load(p.value, 4).data == b"data" and heap.realloc(p.value, 10).is_done)
    expect("Python: refusals", heap.malloc(-1).code == 60 and heap.free(p.value + 16).code == 63 and heap.load(0, 1).code == 50)
    expect("Python: a move", heap.addg(p.value, 1, 0).value == p.value + 16)
    q = heap.malloc(16).value
    for call in (lambda: heap.free(q + 2**64), lambda: heap.load(q - 2**64, 1), lambda: heap.store(q + 2**64, b"x"),
                 lambda: heap.realloc(q + 2**64, 1), lambda: heap.addg(q + 2**64, 0, 0)):  # fmt: skip
        expect("Python: no address", error_of(call) != "no error" and heap.load(q, 1).is_done, error_of(call))
    for call in (lambda: heap.addg(p.value, -1, 0), lambda: heap.load(p.value, 65), lambda: heap.store(p.value, b"")):
        expect("Python: a number out of its range", error_of(call)[0] == BAD_OPTION, error_of(call))
    for copied in (copy.copy, copy.deepcopy, pickle.dumps):
        got = error_of_call(lambda: copied(heap))
        expect(f"Python: no {copied.__name__} of a heap, which would be freed twice", type(got) is TypeError and "copied" in str(got), got)
    heap.close()
    expect("Python: a closed heap", error_of(lambda: heap.malloc(1))[0] == MISUSE)
    expect("Python: no heap", error_of(lambda: package.Heap([1]))[:2] == (REFUSED, 21))
    with package.Heap([2, 4]) as heap:
        expect("Python: a heap for a while", heap.malloc(16).is_done and heap.malloc(16).sentence == "done")
    heap.close()
    expect("Python: it is closed then", error_of(lambda: heap.load(0, 1))[0] == MISUSE and error_of(lambda: heap.granule(0))[0] == MISUSE)


# what else is said of the crates, by the tool that it needs
CARGO = {
    "cargo-clippy": "clippy --offline --quiet -j2 --all-targets -- -Dwarnings -Dclippy::pedantic",
    "cargo-fmt": "fmt --check",
    "rustdoc": "doc --offline --quiet --no-deps",
}


def test_rust(library, place):
    """The crates' own examples, as the static library and as the shared one; and their caller."""
    checks.need("cargo", "the crates for Rust")
    shutil.copytree(f"{ROOT}/rust", f"{place}/rust")
    sheet = program("tune", {"limit": 8}, read("jq.profile"))[1]
    for name in (f"{library}/lib", f"{library}/lib/libmte_tool.so"):
        environment = {**os.environ, "MTE_TOOL_LIBRARY": name, "LD_LIBRARY_PATH": f"{library}/lib", "CARGO_TARGET_DIR": f"{place}/target"}
        for crate in ("mte-tool-sys", "mte-tool"):
            made = run_command(["cargo", "test", "--offline", "--quiet", "-j2"], cwd=f"{place}/rust/{crate}", env=environment)
            expect(f"{crate} with {name}", made.returncode == 0, made.stdout, made.stderr)
            for tool, words in CARGO.items():
                if not skip_without(tool, f"cargo {words.split()[0]} on {crate}"):
                    made = run_command(["cargo", *words.split()], cwd=f"{place}/rust/{crate}", env={**environment, "RUSTDOCFLAGS": "-Dwarnings"})
                    expect(f"cargo {words.split()[0]} on {crate}", made.returncode == 0, made.stdout, made.stderr)
        cargo = ["cargo", "run", "--offline", "--quiet", "--example", "tune", "8"]
        made = run_command(cargo, cwd=f"{place}/rust/mte-tool", env=environment, input=read("jq.profile"))
        expect(f"tune.rs with {name}", made.stdout == sheet, made.stderr)
    made = run_command(cargo, cwd=f"{place}/rust/mte-tool", env=environment, input=b"16 1\nx\n")
    expect("tune.rs refuses", made.returncode == 1 and b"30" in made.stderr, made.stderr)
    Path(place, "rust/Cargo.toml").write_text('[workspace]\nmembers = ["mte-tool-sys", "mte-tool"]\nresolver = "2"\n', encoding="utf-8")
    made = run_command(["cargo", "package", "--offline", "--workspace", "--allow-dirty", "-j2"], cwd=f"{place}/rust", env=environment)
    expect("cargo package", made.returncode == 0 and b"warning" not in made.stderr, made.stderr)
    for name in ("/nowhere", f"{place}/rust", f"{place}/none.a"):
        made = run_command(["cargo", "build", "--offline"], cwd=f"{place}/rust/mte-tool-sys", env={**environment, "MTE_TOOL_LIBRARY": name})
        said = f"MTE_TOOL_LIBRARY={name}: no libmte_tool.a or libmte_tool.so is there".encode()
        expect(f"build.rs says that {name} has no library", made.returncode and said in made.stderr, made.stderr)
    try_rust_trips(f"{place}/rust", environment)
    try_rust_claims(f"{place}/rust", environment)


def test_words(work):
    expect("library --help", b"\nUsage: " in run_command([f"{ROOT}/scripts/library", "--help"]).stdout)
    for words in ([], ["--wrong"], [f"{work}/a", f"{work}/b"]):
        expect(f"library {words}", run_command([f"{ROOT}/scripts/library", *words]).returncode == 2)


def test_arrays(bindings):
    try_arrays(bindings.package)


def test_array_faults(bindings):
    try_array_faults(bindings.package)


def test_rooms(bindings):
    try_rooms(bindings)


def test_claims(compiler, bindings):
    try_claims(compiler, bindings, STRICT, SANITIZED)


def test_trips(compiler, bindings):
    try_trips(compiler, bindings, STRICT, SANITIZED)


def test_sanitizers(compiler, place, small):
    checks.need("cc ar objcopy objdump", "the library under sanitizers")
    write_calls(f"{place}/watched", small)
    try_layer(compiler, place, len(small))
    try_race(compiler, place)
    try_helgrind(compiler, place)


def test_watched_packages(compiler, place):
    try_packages(compiler, place, program("tune", {"limit": 8}, read("jq.profile"))[1])
