"""Makes the project's proved engines: the folder `modules`. `modules --help` says all."""

import gzip
import hashlib
import io
import lzma
import os
import re
import shutil
import subprocess
import tarfile
from pathlib import Path

from mte_scripts import engines, manifest, private_folder, text_files
from mte_scripts.builds import static_libraries, webassembly
from mte_scripts.builds.static_libraries import ROOT, run
from mte_scripts.entry_point import Refusal, say

from mte_scripts.words import Words

HELP = """\
Make the project's proved engines in the folder `modules`, by which all commands answer where there is no Rattle kit.

Usage: modules [--check]

  --check  write nothing: build the engines of what was proved, and compare those that are there, byte for byte

  modules/program.wasm.gz   the whole program as WebAssembly, of the LLVM module that its proved build is made of
  modules/library.wasm.gz   all functions of the library for C, likewise
  modules/c.tar.xz          both as C, by wasm2c
  modules/manifest          SHA-256 of each, unpacked, and of the sources; the kit, the tools, and the kit's verdicts

It needs the Rattle kit, wasm-opt and wasm2c (Debian: binaryen and wabt). Prove first, by `scripts/mte_tool --prove` and
`scripts/library --proved FOLDER`: what these have kept is compiled in some minutes. After `rt ci`, set MTE_AFTER_CI=1,
and it takes what that has left.

Exit status:
  0  the engines are made, or are those of these sources
  1  they are others
  2  the words are refused
  3  a tool is missing, or the engines could not be built
  4  they are stale: there is a change in the crates since they were made

Example:
  scripts/modules --check
"""

PROGRAM = os.path.join(ROOT, "web", "program.c")
# the crate of each module, how the names of the functions that it exports begin, and its own C
MADE: "dict[str, tuple[str, str, dict[str, tuple[str, ...]]]]" = {
    "program": ("mte_tool", "main", {PROGRAM: ()}),
    "library": ("mte_c", "mte_", {}),
}
PARTS = 8  # of the C of a module, to be compiled side by side
# the lines of a function on which a compiler's time grows out of hand; it is that of clap, and has no loop of an engine
LONG = 60_000
TOOLS = ("wasm-opt", "wasm2c")


def as_run(text: str) -> None:
    """In a module's text the program's `main` becomes the export `run`: the linker has a `main` of its own."""
    module = Path(text).read_text(encoding="utf-8")
    main = 'define i32 @main() "wasm-export-name"="main"'
    run_ = 'define i32 @mte_run() "wasm-export-name"="run"'
    named, count = re.subn(re.escape(main), run_, module)
    if count != 1:
        raise ValueError("the program's module has not one function `main`")
    Path(text).write_text(named, encoding="utf-8")


def module(name: str) -> "tuple[bytes, str]":
    """A module, and the kit's verdict on its crate, where it said one."""
    crate, prefix, files = MADE[name]
    with private_folder.temporary() as folder:
        said = webassembly.llvm_module(crate, f"{folder}/module.bc", folder)
        text = webassembly.as_wasm64(f"{folder}/module.bc", prefix, folder)
        if name == "program":
            as_run(text)
        wide = webassembly.link_module(text, {webassembly.HEAP: (), **files}, folder)
        return webassembly.lower_to_wasm32(wide, folder), manifest.verdict_in(said, crate)


def parts_of(text: str) -> "list[str]":
    """The C of wasm2c as so many files: functions in turn to the file with the fewest lines, and all else to the
    first."""
    of_module = re.compile(r"(static )?(void|u32|u64) w2c_(f\d+|run|(mte|web)_\w+)\(").match
    lines, functions, rest, at = text.split("\n"), [], [], 0
    first = next(at for at, line in enumerate(lines) if of_module(line) and not line.endswith(");"))
    head = [line.replace("static ", "", 1) if of_module(line) else line for line in lines[:first]]
    at = first
    while at < len(lines):
        if not of_module(lines[at]):
            rest.append(lines[at])
            at += 1
            continue
        end = lines.index("}", at)
        is_long = end - at > LONG
        begin = ('__attribute__((optimize("O0"))) ' if is_long else "") + lines[at].replace("static ", "", 1)
        functions.append([begin, *lines[at + 1 : end + 1]])
        at = end + 1
    bins: "list[list[str]]" = [rest, *([""] for _ in range(PARTS - 1))]
    for body in sorted(functions, key=len, reverse=True):
        min(bins, key=len).extend(body)
    return ["\n".join([*head, *each]) + "\n" for each in bins]


def make_code(modules: "dict[str, bytes]") -> bytes:
    """Both modules as C: a tar whose bytes depend on nothing else."""
    files = {}
    with private_folder.temporary() as folder:
        for name, bytes_ in modules.items():
            Path(folder, f"{name}.wasm").write_bytes(bytes_)
            run(["wasm2c", f"{name}.wasm", "-n", name, "-o", f"{name}.c"], cwd=folder)
            files[f"{name}/{name}.h"] = Path(folder, f"{name}.h").read_text(encoding="utf-8")
            for number, part in enumerate(parts_of(Path(folder, f"{name}.c").read_text(encoding="utf-8"))):
                files[f"{name}/{number}.c"] = part
    made = io.BytesIO()
    with tarfile.TarFile(mode="w", fileobj=made, format=tarfile.GNU_FORMAT) as tar:
        for name, text in sorted(files.items()):
            entry = tarfile.TarInfo(name)
            entry.size = len(text.encode())
            tar.addfile(entry, io.BytesIO(text.encode()))
    return made.getvalue()


def tools() -> str:
    """The versions of the tools, each the first line of what it says."""
    return ", ".join(f"{name} {run([name, '--version']).split(chr(10))[0].split()[-1]}" for name in TOOLS)


def need_tools() -> None:
    packages = {"rt": "", "wasm-opt": " of Debian's package binaryen", "wasm2c": " of Debian's package wabt"}
    for name, package in packages.items():
        if not shutil.which(name):
            raise Refusal(3, f"the command {name}{package} is missing")


def build_files() -> "tuple[dict[str, bytes], dict[str, str]]":
    """The files, unpacked, by their names in the manifest; and the kit's verdicts by the module."""
    need_tools()
    try:
        found = {name: module(name) for name in MADE}
        modules = {name: made for name, (made, _) in found.items()}
        files = {**{f"{name}.wasm": made for name, made in modules.items()}, "c.tar": make_code(modules)}
    except (subprocess.CalledProcessError, OSError, ValueError) as error:
        raise Refusal(3, f"the engines could not be built: {error}") from None
    return files, {name: verdict for name, (_, verdict) in found.items() if verdict}


def write(files: "dict[str, bytes]", sources: str, verdicts: "dict[str, str]") -> None:
    """Writes the folder."""
    lines = [f"{name} {hashlib.sha256(files[name]).hexdigest()}" for name in engines.PACKED]
    kit = run(["rt", "version"]).split("\n")[0]
    lines += [f"sources {sources}", f"kit {kit}", f"tools {tools()}", "proofs proved"]
    lines += [f"{name}-verdict {verdict}" for name, verdict in verdicts.items()]
    for name, (ending, _) in engines.PACKED.items():
        if ending == ".gz":
            packed = gzip.compress(files[name], 9, mtime=0)
        else:
            packed = lzma.compress(files[name], preset=9 | lzma.PRESET_EXTREME)
        text_files.write_file(engines.path_of(name), packed)
    text_files.write_file(engines.MANIFEST, "\n".join(lines) + "\n")


def check(sources: str) -> int:
    """Compares what is there with what is built now."""
    for name in engines.PACKED:
        engines.module_bytes(name)  # refuses one that is not the manifest's
    if engines.read_manifest()["sources"] != sources:
        say("modules", "stale: they are of other sources; once these are proved, `scripts/modules` makes them")
        return 4
    files, _ = build_files()
    differ = [name for name in engines.PACKED if engines.module_bytes(name) != files[name]]
    for name in differ:
        by = engines.read_manifest().get("tools")
        say("modules", f"{name} is another one than is built now, by {tools()}; it was made by {by}")
    return 1 if differ else 0


def make(words: "list[str]") -> int:
    options = Words(HELP).take(words)
    sources = manifest.sources_of(ROOT)
    if options.check:
        return check(sources)
    files, verdicts = build_files()
    if manifest.sources_of(ROOT) != sources:
        raise Refusal(3, "the sources were changed meanwhile: nothing is written")
    write(files, sources, verdicts)
    return 0
