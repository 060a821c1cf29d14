#!/usr/bin/env -S python3 -B
"""Tests what the library's interface promises to stay, and needs nothing that is proved: the header, the names that are exported, and the
structures of Python and Rust agree; the interface is the one of library/abi.xml, or has more (by abidiff of Debian's abigail-tools); and
all have one version.

Usage: interface [--write]

  --write   write library/abi.xml anew, which fixes a new version of the interface
"""
import ctypes
import glob
import importlib
import os
import re
import shutil
import subprocess
import sys
import tempfile
from pathlib import Path

import checks
from checks import expect
from mte_scripts import formats
from mte_scripts.builds import library
from mte_scripts.places import ROOT

DUMP = f"{ROOT}/library/abi.xml"
NODE = f"MTE_TOOL_{formats.INTERFACE}"
HEADER = f"{ROOT}/include/mte_tool.h"


def read(name):
    return Path(ROOT, name).read_text(encoding="utf-8")


def output(words, **how):
    done = subprocess.run(words, capture_output=True, text=True, **how)
    return done.returncode, done.stdout + done.stderr


def declared_functions():
    """The functions of the header."""
    return sorted(re.findall(r"(?m)^(?:MTE_TOOL_CHECKED mte_tool_end|int|uint32_t|void|const char \*) ?(mte_tool_\w+)\(", read("include/mte_tool.h")))


def proved_functions():
    """The proved functions that the files of library/ call."""
    return sorted(re.findall(r"\b(mte_(?:c|arrays|heap)_\w+)\(", read("library/layer.h")))


def exported_symbols(path):
    """The names that a shared library defines, each with the node of its version."""
    found = output(["readelf", "--dyn-syms", "--wide", path])[1]
    return sorted(words[7] for words in map(str.split, found.splitlines()) if len(words) == 8 and words[6] not in ("UND", "ABS", "Ndx"))


def build_library(folder):
    """A shared library of the files of library/ alone: it has the interface, and nothing to call."""
    path = f"{folder}/{library.SHARED}"
    library.link_shared(library.compile_layer(folder, "-g", f"-ffile-prefix-map={ROOT}/="), path)
    return path


def dump(path, to):
    """What abidw says of it, without what differs from machine to machine."""
    status, text = output(["abidw", "--no-corpus-path", "--no-comp-dir-path", "--no-show-locs", path])
    if status:
        raise AssertionError(f"abidw: {text}")
    Path(to).write_text(text, encoding="utf-8")


# one option more, with the default 7: in the header, and on the way to the proved functions
ONE_MORE = [
    (r"(?m)^(\} mte_tool_options;)", r"    uint64_t colour;\n\1"),
    (r"(#define MTE_TOOL_OPTIONS\(limit\) .*)\}", r"\1, 7}"),
    (r"(?m)^(\} narrow_options;)", r"    uint8_t colour;\n\1"),
    (r"(?m)^(    return narrow;)", r"    narrow.colour = (uint8_t)wide->colour;\n\1"),
]

USE = """#include <mte_tool.h>
void use(mte_tool_heap *heap, mte_tool_end end, mte_tool_text *text);
void use(mte_tool_heap *heap, mte_tool_end end, mte_tool_text *text) {
    (void)heap, (void)end, (void)text;
    %s
}
"""
# what no compiler lets pass: what it is, a statement, and what the error says
REFUSED_USES = [
    ("the end of a call is dropped", "mte_tool_text_append(text, 0, 0);", "warn_unused_result|nodiscard"),
    ("a heap is copied", "mte_tool_heap other = *heap;", "incomplete|invalid use"),
    ("a member of a heap is read", "if (heap->live) return;", "incomplete|invalid use"),
]

# what breaks callers: what it is, a pattern of the sources, and what takes its place
BREAKS = [
    ("a function less", r" +mte_tool_text_append;\n", ""),
    ("another argument", r"(mte_tool_end mte_tool_text_append\(mte_tool_text \*text, const void \*piece, )size_t", r"\1uint32_t"),
    ("another result", r"(?m)^void( mte_tool_heap_close)", r"int\1"),
    ("a member before others", r"( +uint64_t granules; +/\*)", r"    uint64_t colour;\n\1"),
    ("a narrower member", r"uint64_t line; +/\*", "uint32_t line; /*"),
]


def build_changed_library(folder, changes, *more):
    """The library of the sources with changes, in a copy, and with more words for the compiler."""
    for part in ("include", "library"):
        os.mkdir(f"{folder}/{part}")
        for name in os.listdir(f"{ROOT}/{part}"):
            text = read(f"{part}/{name}")
            for pattern, by in changes:
                text = re.sub(pattern, by, text)
            Path(f"{folder}/{part}/{name}").write_text(text, encoding="utf-8")
    sources = [f"{folder}/library/{name}.c" for name in library.names_of_layer()]
    path = f"{folder}/{library.SHARED}"
    names = [f"-Wl,--version-script={folder}/library/mte_tool.map", f"-Wl,-soname,{library.SHARED}"]
    status, said = output(["cc", "-std=c99", "-w", "-g", "-shared", "-fPIC", *names, *sources, *more, "-o", path])
    if status:
        raise AssertionError(said)
    return path


class Interface(checks.Part):
    @classmethod
    def setup_class(cls):
        checks.need("cc readelf", "the library's interface")
        cls.work = cls.folder()
        cls.path = build_library(cls.work)

    def test_names(self):
        names = declared_functions()
        expect("the names of library/mte_tool.map", sorted(re.findall(r"(mte_tool_\w+);", read("library/mte_tool.map"))) == names)
        expect("the names that are exported", exported_symbols(self.path) == [f"{name}@@{NODE}" for name in names], exported_symbols(self.path))
        crate = "".join(map(read, sorted(glob.glob(f"{ROOT}/crates/mte_c/src/**/*.rt", recursive=True))))
        missing = set(proved_functions()) - set(re.findall(r'#\[unsafe\(no_mangle\)\]\npub extern "C" fn (mte_\w+)', crate))
        expect("the proved functions that library/layer.h declares are those of mte_c", not missing and len(proved_functions()) > 10, missing)
        rust = sorted(set(re.findall(r"\bfn (mte_tool_\w+)\(", read("rust/mte-tool-sys/src/lib.rs"))))
        expect("the names in Rust", rust == names, set(rust) ^ set(names))
        with open(self.path, "rb") as file:
            expect("its own name", library.SHARED.encode() + b"\0" in file.read())

    def test_headers(self):
        """They compile alone, as strictly as a caller may ask."""
        strict = ["-Wall", "-Wextra", "-Wpedantic", "-Wconversion", "-Wshadow", "-Werror", "-fsyntax-only"]
        for words in (["cc", "-std=c99", "-x", "c"], ["cc", "-std=c17", "-x", "c"], ["c++", "-std=c++98", "-Wno-long-long", "-x", "c++"]):
            status, said = output([*words, *strict, HEADER])
            expect(f"mte_tool.h by {' '.join(words[:2])}", status == 0, said)
        for compiler in ("c++", "clang++"):
            if not checks.skip_without(compiler, f"the header for C++ by {compiler}"):
                for standard in ("17", "20"):
                    status, said = output([compiler, f"-std=c++{standard}", *strict, "-x", "c++", f"{ROOT}/include/mte_tool.hpp"])
                    expect(f"mte_tool.hpp by {compiler}, C++{standard}", status == 0, said)

    def test_refused_uses(self):
        """What a compiler refuses, or warns of, in a function that has a heap, an end and a text."""
        good = ("nothing wrong", "if (mte_tool_text_append(text, 0, 0) == end) (void)heap;", "")
        for name, words in {"C": "cc -std=c99 -x c", "C++98": "c++ -std=c++98 -Wno-long-long -x c++", "C++17": "c++ -std=c++17 -x c++"}.items():
            for what, line, said in (good, *REFUSED_USES):
                source = USE % line
                status, errors = output([*words.split(), "-Wall", "-Wextra", "-Werror", f"-I{ROOT}/include", "-c", "-o", os.devnull, "-"], input=source)
                expect(f"{what} in {name}", bool(status) == bool(said) and re.search(said, errors), status, errors)

    def test_structures(self):
        """Where each member is, in C, in Python and in Rust."""
        sys.path.insert(0, f"{ROOT}/python")
        os.environ["MTE_TOOL_LIBRARY"] = self.with_stand_ins()
        sys.dont_write_bytecode = True
        package = importlib.import_module("mte_tool._c")
        rust = read("rust/mte-tool-sys/src/lib.rs")
        lines = []
        for name in "options result claim outcome text profile_arrays history_arrays timeline_arrays".split():
            structure = getattr(package, name.removesuffix("_arrays").capitalize())
            members = [member for member, _ in structure._fields_]
            body = re.search(rf"pub struct mte_tool_{name} \{{(.*?)\}}", rust, re.S)[1]
            expect(f"Rust: the members of mte_tool_{name}", re.findall(r"pub (\w+):", body) == members, body)
            lines += [f"S(sizeof(mte_tool_{name}), {ctypes.sizeof(structure)})"]
            for member in members:
                field = getattr(structure, member)
                lines.append(f"S(offsetof(mte_tool_{name}, {member}), {field.offset})")
                lines.append(f"S(sizeof(((mte_tool_{name} *)0)->{member}), {field.size})")
        source = "#include <mte_tool.h>\n#define S(a, b) _Static_assert((a) == (b), #a);\n" + "\n".join(lines)
        status, said = output(["cc", "-std=c11", "-fsyntax-only", f"-I{ROOT}/include", "-x", "c", "-"], input=source)
        expect("Python: the places and sizes of the members", status == 0, said)

    def with_stand_ins(self):
        """The library with functions in place of the proved ones, so that it can be loaded."""
        names = proved_functions()
        source, path = f"{self.work}/stand_ins.c", f"{self.work}/stand_ins.so"
        with open(source, "w", encoding="ascii") as file:
            file.write("#include <stdlib.h>\n" + "".join(f"void {name}(void) {{ abort(); }}\n" for name in names))
        expect("the stand-ins", output(["cc", "-shared", "-fPIC", source, self.path, "-o", path])[0] == 0)
        objects = [f"{self.work}/{name}.o" for name in library.names_of_layer()]
        expect("the library with stand-ins", output(["cc", "-shared", "-fPIC", source, *objects, "-o", path])[0] == 0)
        return path

    def test_answers(self):
        """A fit that is not shown to be least, in arrays, and claims: over answers that no input of the tests gives."""
        objects = [f"{self.work}/{name}.o" for name in library.names_of_layer()]
        words = ["cc", "-std=c99", "-Wall", "-Wextra", "-Wl,--unresolved-symbols=ignore-in-object-files", "-no-pie"]
        for name in ("bound", "claims"):
            program, source = f"{self.work}/{name}", f"{ROOT}/scripts/tests/interface_{name}.c"
            status, said = output([*words, f"-I{library.SOURCES}", source, *objects, "-o", program])
            if expect(f"the program over answers of its own: {name}", status == 0, said):
                done = output([program])
                expect(f"answers that no input gives: {name}", done[0] == 0, done)

    def test_later_library(self):
        """A program that was built with this header runs with a library that has one more option."""
        folder, source = f"{self.work}/later", f"{ROOT}/scripts/tests/interface_later.c"
        os.mkdir(folder)
        later = build_changed_library(folder, ONE_MORE, "-DLIBRARY", f"-I{folder}/library", source)
        status, said = output(["cc", "-std=c99", "-Wall", "-Wextra", f"-I{ROOT}/include", source, later, "-Wl,--unresolved-symbols=ignore-in-shared-libs",
                               "-o", f"{folder}/caller"])
        if expect("the caller of a later library", status == 0, said):
            done = output([f"{folder}/caller"], env={**os.environ, "LD_LIBRARY_PATH": folder})
            expect("a library with one more option", done[0] == 0, done)

    def test_versions(self):
        """One version everywhere; the scripts' own is tested with `texts`."""
        version, number = formats.VERSION, formats.VERSION.replace(".", r"\.")
        for name, pattern in {
            "include/mte_tool.h": rf'(?m)^#define MTE_TOOL_VERSION "{number}"$',
            "python/mte_tool/__init__.py": rf'(?m)^__version__ = "{number}"$',
            "rust/mte-tool-sys/Cargo.toml": rf'(?m)^version = "{number}"$',
            "rust/mte-tool/Cargo.toml": rf'(?m)^version = "{number}"\n(?s:.*)^mte-tool-sys = .*, version = "{number}" ',
            "scripts/tests/help.txt": rf"\A\$ mte_tool --version\nmte_tool {number}\n",
            "scripts/tests/plain/main.rs": rf'b"plain {number}\\n"',
            "crates/command_words/src/words.rt": rf'\.version\("{number}"\)',
        }.items():
            expect(f"{name} has the version {version}", re.search(pattern, read(name)))
        expect("pkg-config", library.VERSION == version and "\nVersion: {version}\n" in library.PKG_CONFIG)

    def test_abi(self):
        checks.need("abidw abidiff", "the interface and the one of library/abi.xml")
        status, said = output(["abidiff", DUMP, self.path])
        expect("library/abi.xml is the interface: scripts/tests/test_interface.py --write fixes a new one", status == 0, said)
        for what, pattern, by in BREAKS:
            with tempfile.TemporaryDirectory() as folder:
                status, said = output(["abidiff", DUMP, build_changed_library(folder, [(pattern, by)])])
                expect(f"abidiff sees {what}", status & 4, status, said)


def write_instead(options):
    if not options.write:
        return None
    if not shutil.which("abidw"):
        print("interface: abidw is missing, of Debian's package abigail-tools", file=sys.stderr)
        return 3
    with tempfile.TemporaryDirectory() as folder:
        dump(build_library(folder), DUMP)
    return 0


def add_options(parser):
    parser.add_argument("--write", action="store_true", help="write library/abi.xml anew")


if __name__ == "__main__":
    checks.main(write_instead)
