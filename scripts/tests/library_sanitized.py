"""The library and its packages under the compilers' sanitizers, valgrind and helgrind. scripts/library compiles nothing with a sanitizer, so
the files of library/ are compiled once more, and take the place of those in the library; what is proved stays as it is."""

import os
import shutil
import subprocess
import sys
from pathlib import Path

from checks import expect, skip, skip_without
from library_cases import EXAMPLES, run_command, read
from mte_scripts import engines, manifest
from mte_scripts.builds import library, native_code
from mte_scripts.places import ROOT

THREADS = "thread"
SANITIZERS = ("address,undefined", THREADS)
STRICT = ["-Wl,--wrap=malloc", "-Wl,--wrap=realloc", "-Wl,--wrap=free", "-pthread"]
# what the files of library/ give one another, and what they call of the proved code
SHARED = "mte_c_* mte_heap_* mte_arrays_* layer_*".split()
OWN = "mte_tool_* layer_*".split()
# and what the host gives of the project's engines, and calls of their C
HOST = "wasm_rt_* runtime_* Z_library*".split()
# the flag of library/memory.c, which helgrind does not see to be atomic
ATOMIC = "".join(f"{{\n   {name}\n   Helgrind:Race\n   fun:{name}\n}}\n" for name in ("layer_malloc", "layer_realloc", "layer_has_others"))
# the examples of the package for Python
EXAMPLES_OF_PYTHON = """
import doctest, importlib, sys
modules = map(importlib.import_module, ("mte_tool", "mte_tool._arrays", "mte_tool._heap"))
sys.exit(sum(doctest.testmod(module).failed for module in modules))
"""
# a flag that is read and written in all threads, and is not atomic any more
RACE = {"!__atomic_load_n(&is_in_use, __ATOMIC_RELAXED)": "!is_in_use", "__atomic_store_n(&is_in_use, 1, __ATOMIC_RELAXED)": "is_in_use = 1"}


def is_there(sanitizer: str, work: str) -> bool:
    """Whether the compiler has a sanitizer, and its programs run here."""
    Path(work, "none.c").write_text("int main(void) { return 0; }\n")
    made = run_command(["cc", f"-fsanitize={sanitizer}", f"{work}/none.c", "-o", f"{work}/none"])
    return made.returncode == 0 and run_command([f"{work}/none"]).returncode == 0 or not skip(f"without -fsanitize={sanitizer}: the library under it")


def words_of(sanitizer: str) -> "list[str]":
    return ["cc", "-std=c99", "-D_POSIX_C_SOURCE=200809L", "-g", "-O1", "-fPIC", f"-fsanitize={sanitizer}", "-fno-sanitize-recover=all"]


def proved_object(place: str, work: str) -> str:
    """The object of a static library, whose functions of library/ give way to others of their names; and those of a host."""
    run, own = {"check": True, "cwd": work}, [*OWN, *(each for each in [*SHARED, *HOST] if is_hosted(place))]
    subprocess.run(["ar", "x", f"{place}/lib/libmte_tool.a"], **run)
    subprocess.run(["objcopy", "--wildcard", *(f"--globalize-symbol={it}" for it in [*SHARED, *HOST]), "mte_tool.o"], **run)
    subprocess.run(["objcopy", "--wildcard", *(f"--weaken-symbol={it}" for it in own), "mte_tool.o"], **run)
    return f"{work}/mte_tool.o"


def is_hosted(place: str) -> bool:
    """Whether a library is of the project's engines, which have a host in C."""
    found = manifest.read(f"{place}/lib/libmte_tool.a")
    return bool(found) and found.proofs == "by-project"


def host(sanitizer: str, work: str) -> "list[str]":
    """The objects of that host under a sanitizer."""
    first = native_code.unpack("library", work)
    names, flags = native_code.HOSTS["library"]
    made = [f"{work}/{name}.{sanitizer}.o" for name in names]
    for name, to in zip(names, made):
        words = [*words_of(sanitizer), *flags, f"-DFIRST_PAGES={first}", f"-I{engines.FOLDER}", f"-I{work}/library"]
        subprocess.run([*words, "-c", f"{engines.FOLDER}/{name}", "-o", to], check=True)
    return made


def with_layer(sources: str, sanitizer: str, place: str, work: str) -> "list[str]":
    """What a program is linked with: the files of SOURCES under a sanitizer, and what is proved."""
    includes = [f"-I{place}/include", f"-I{library.SOURCES}"]
    files = [f"{sources}/{name}.c" for name in library.names_of_layer()]
    objects = [f"{work}/{name}.{sanitizer}.o" for name in library.names_of_layer()]
    for file, made in zip(files, objects):
        subprocess.run([*words_of(sanitizer), *includes, "-c", file, "-o", made], check=True)
    objects += host(sanitizer, work) if is_hosted(place) else []
    return [f"-I{place}/include", *objects, proved_object(place, work)]


def try_layer(compiler, work: str, number: int) -> None:
    """Calls, whole, in pieces and in threads, the heap, and misuses: each file of library/ under each sanitizer."""
    tests = f"{ROOT}/scripts/tests"
    for sanitizer in SANITIZERS:
        if not is_there(sanitizer, work):
            continue
        name, linked, words = sanitizer.replace(",", "_"), with_layer(library.SOURCES, sanitizer, compiler.library, work), words_of(sanitizer)
        calls = compiler.build(f"calls_{name}", [*words, f"{tests}/library_calls.c", *linked, *STRICT])
        heap = compiler.build(f"heap_{name}", [*words, f"{tests}/library_heap.c", *linked, "-pthread"])
        misuses = compiler.build(f"misuses_{name}", [*words, f"{tests}/library_misuses.c", *linked])
        code = run_command(["objdump", "-d", "--disassemble=mte_tool_text_append", calls]).stdout
        expect(f"{sanitizer}: mte_tool_text_append is compiled with it", b"_asan_" in code or b"_tsan_" in code)
        for mode in ("0", "7", "threads"):
            made = run_command([calls, mode, f"{work}/watched", str(number)])
            expect(f"{sanitizer}: calls, {mode}", made.returncode == 0, made.stdout[-300:], made.stderr[-600:])
        for run in ([heap, "threads", f"{EXAMPLES}/perl.trace", "65536", "1", "65536", "2", "4", "33"], [misuses]):
            made = run_command(run)
            expect(f"{sanitizer}: {os.path.basename(run[0])}", made.returncode == 0, made.stdout[-300:], made.stderr[-600:])


def try_race(compiler, work: str) -> None:
    """A race that is planted is seen."""
    if not is_there(THREADS, work):
        return
    racy = f"{work}/racy"
    os.mkdir(racy)
    for name in library.names_of_layer():
        text = Path(library.SOURCES, f"{name}.c").read_text()
        for old, new in RACE.items() if name == "memory" else ():
            expect(f"memory.c has {old}", old in text)
            text = text.replace(old, new)
        Path(racy, f"{name}.c").write_text(text)
    words = [*words_of(THREADS), f"{ROOT}/scripts/tests/library_calls.c", *with_layer(racy, THREADS, compiler.library, work), *STRICT]
    made = run_command([compiler.build("racy_calls", words), "threads", f"{work}/watched", "20"])
    expect("a flag that is not atomic is a race", made.returncode != 0 and b"data race" in made.stderr, made.stderr[-600:])


def try_helgrind(compiler, work: str) -> None:
    """Threads of the library as it is, what is proved included."""
    if skip_without("valgrind", "threads under helgrind"):
        return
    Path(work, "atomic").write_text(ATOMIC)
    Path(work, "short.trace").write_bytes(b"".join(read("perl.trace").splitlines(keepends=True)[:400]))
    helgrind = ["valgrind", "-q", "--tool=helgrind", f"--suppressions={work}/atomic", "--error-exitcode=9"]
    plain = ["cc", "-std=c99", "-D_POSIX_C_SOURCE=200809L", "-O2"]
    calls = compiler.build("calls_plain", [*plain, f"{ROOT}/scripts/tests/library_calls.c", *compiler.flags(), *STRICT])
    heap = compiler.build("heap_plain", [*plain, f"{ROOT}/scripts/tests/library_heap.c", *compiler.flags(), "-pthread"])
    for run in ([calls, "threads", f"{work}/watched", "40"], [heap, "threads", f"{work}/short.trace", "65536", "1", "65536", "2", "4", "33"]):
        made = run_command([*helgrind, *run])
        expect(f"helgrind: {os.path.basename(run[0])}", made.returncode == 0, made.stdout[-300:], made.stderr[-600:])


def try_packages(compiler, work: str, sheet: bytes) -> None:
    """The packages of other languages: Python's examples and the caller in Rust under valgrind, that in Go under AddressSanitizer."""
    place, callers = compiler.library, f"{EXAMPLES}/callers"
    valgrind = ["valgrind", "-q", "--error-exitcode=9"]
    environment = {**os.environ, "PYTHONPATH": f"{ROOT}/python", "MTE_TOOL_LIBRARY": f"{place}/lib", "LD_LIBRARY_PATH": f"{place}/lib",
                   "PKG_CONFIG_PATH": f"{place}/lib/pkgconfig", "GOCACHE": f"{work}/go", "CARGO_TARGET_DIR": f"{work}/target"}
    # Python itself reads what nobody set
    python = [*valgrind, "--undef-value-errors=no", sys.executable, "-B", "-c", EXAMPLES_OF_PYTHON]
    rust = ["cargo", "run", "--offline", "--quiet", "--manifest-path", f"{work}/rust_watched/mte-tool/Cargo.toml", "--example", "tune", "8"]
    shutil.copytree(f"{ROOT}/rust", f"{work}/rust_watched")
    runs = {
        "Python": ("valgrind", python, {"PYTHONMALLOC": "malloc"}, b""),
        "Rust": ("valgrind cargo", rust, {"CARGO_TARGET_X86_64_UNKNOWN_LINUX_GNU_RUNNER": f"{' '.join(valgrind)} --leak-check=full"}, sheet),
        "Go": ("go cc pkg-config", ["go", "run", "-asan", f"{callers}/tune.go", "8"], {}, sheet),
    }
    for name, (tools, words, more, wanted) in runs.items():
        if not skip_without(tools, f"the package for {name}, watched"):
            made = run_command(words, input=read("jq.profile"), env={**environment, **more})
            expect(f"{name}, watched", (made.returncode, made.stdout) == (0, wanted), made.returncode, made.stderr[-600:])
    if not skip_without("valgrind c++", "the header for C++ under valgrind"):
        uses = compiler.build("uses_plain", ["c++", "-std=c++17", "-g", "-O1", f"{ROOT}/scripts/tests/library_uses.cpp", *compiler.flags()])
        made = run_command([*valgrind, "--leak-check=full", uses])
        expect("C++, watched", made.returncode == 0, made.stderr[-600:])
