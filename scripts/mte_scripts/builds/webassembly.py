"""The way from a proved static library of this repository to WebAssembly: the LLVM module from which the toolchain compiles the library,
compiled for wasm64, linked with the small heap of web/heap.c, and lowered to 32 bits. What is proved is proved of that module's source;
nothing proves the steps of this file. scripts/tests/test_page.py compares what comes out with the program."""

import os
import re
import shutil
from pathlib import Path

from mte_scripts import private_folder
from mte_scripts.builds import static_libraries
from mte_scripts.builds.static_libraries import ROOT, run

HEAP = os.path.join(ROOT, "web", "heap.c")
CHECKER = os.path.join(ROOT, "web", "checker.c")
HERE = "x86_64-unknown-linux-gnu"
THERE = "wasm64-unknown-unknown"
# LLVM's name for what every engine since 2023 has: multivalue, bulk memory and so on
PROCESSOR = "-mcpu=lime1"

# Stands in for the toolchain's clang: it keeps the module that it is given, and goes on.
KEEPER = """\
#!/bin/sh
for word; do
    case $word in *.bc | *.ll) [ ! -f "$word" ] || cp "$word" '{kept}' ;; esac
done
exec '{clang}' "$@"
"""


class MissingTool(Exception):
    """What this machine lacks for the way, in words."""


def kit() -> str:
    if not static_libraries.kit():
        raise MissingTool("the toolchain's command rt")
    if not shutil.which("wasm-opt"):
        raise MissingTool("wasm-opt of Debian's package binaryen")
    return static_libraries.kit()


def llvm_module(crate: str, kept: str, folder: str) -> str:
    """Proves and builds the static library or the program by a clang that keeps the module in the file KEPT; what the proof printed."""
    toolchain = os.path.join(folder, "toolchain")
    os.makedirs(os.path.join(toolchain, "bin"))
    os.symlink(f"{kit()}/toolchain/lib", f"{toolchain}/lib")
    for name in os.listdir(f"{kit()}/toolchain/bin"):
        os.symlink(f"{kit()}/toolchain/bin/{name}", f"{toolchain}/bin/{name}")
    os.unlink(f"{toolchain}/bin/clang")
    Path(toolchain, "bin/clang").write_text(KEEPER.format(kept=kept, clang=f"{kit()}/toolchain/bin/clang"))
    os.chmod(f"{toolchain}/bin/clang", 0o755)
    return static_libraries.build(crate, f"{folder}/kept", toolchain)


# The one instruction of x86 that the modules have by its name, and what stands for it: of sixteen bytes, for each of sixteen numbers the byte
# at the number's low four bits, or 0 where its highest bit is set.
SHUFFLE, SHUFFLED = "llvm.x86.ssse3.pshuf.b.128", "mte_shuffled"


def shuffle_definition() -> str:
    """The definition of SHUFFLED, a byte at a time."""
    lines = [f"define internal <16 x i8> @{SHUFFLED}(<16 x i8> %bytes, <16 x i8> %numbers) {{"]
    made = "zeroinitializer"
    for at in range(16):
        lines += [
            f"  %number{at} = extractelement <16 x i8> %numbers, i32 {at}",
            f"  %low{at} = and i8 %number{at}, 15",
            f"  %index{at} = zext i8 %low{at} to i32",
            f"  %byte{at} = extractelement <16 x i8> %bytes, i32 %index{at}",
            f"  %none{at} = icmp slt i8 %number{at}, 0",
            f"  %put{at} = select i1 %none{at}, i8 0, i8 %byte{at}",
            f"  %made{at} = insertelement <16 x i8> {made}, i8 %put{at}, i32 {at}",
        ]
        made = f"%made{at}"
    return "\n".join([*lines, f"  ret <16 x i8> {made}", "}"])


def without_x86(module: str) -> str:
    """The module with a function in place of the instruction of x86. Another one of x86 is no module for WebAssembly."""
    if f"@{SHUFFLE}" in module:
        module = re.sub(
            rf"^declare [^\n]*@{re.escape(SHUFFLE)}\(.*$", lambda _: shuffle_definition(), module, flags=re.M
        )
        module = module.replace(f"@{SHUFFLE}", f"@{SHUFFLED}")
    other = re.search(r"@(llvm\.x86\.[\w.]+)", module)
    if other:
        raise ValueError(f"the module has an instruction of x86, {other[1]}")
    return module


def as_wasm64(module: str, prefix: str, folder: str) -> str:
    """The module as text for wasm64: with its data layout, without the attributes of x86; it exports the functions of this prefix, if any."""
    clang, text = f"{kit()}/toolchain/bin/clang", f"{folder}/module.ll"
    as_it_is = ["-O0", "-Xclang", "-disable-llvm-passes"]
    run([clang, f"--target={HERE}", "--no-default-config", "-x", "ir", "-S", "-emit-llvm", *as_it_is, module, "-o", text])
    Path(folder, "none.c").write_text("int none;\n")
    layout = run([clang, f"--target={THERE}", "-S", "-emit-llvm", f"{folder}/none.c", "-o", "-"])
    module = Path(text).read_text(encoding="utf-8")
    module = re.sub(r"^target datalayout = .*$", re.search(r"^target datalayout = .*$", layout, re.M)[0], module, flags=re.M)
    module = re.sub(r"^target triple = .*$", f'target triple = "{THERE}"', module, flags=re.M)
    module = without_x86(module)
    module = re.sub(r' ?"(probe-stack|stack-probe-size|target-cpu|target-features|tune-cpu)"="[^"]*"', "", module)
    if prefix:
        exported = rf"^(define [^@\n]*@({prefix}\w*)\(.*\).*?) (#\d+ \{{|\{{)$"
        module, count = re.subn(exported, r'\1 "wasm-export-name"="\2" \3', module, flags=re.M)
        if not count:
            raise ValueError(f"the module defines no function {prefix}..")
    Path(text).write_text(module, encoding="utf-8")
    return text


def link_module(text: str, files: "dict[str, tuple[str, ...]]", folder: str) -> str:
    """The module with these C files, each with its options, as WebAssembly of 64 bits."""
    clang, tools = f"{kit()}/toolchain/bin/clang", f"{kit()}/toolchain"
    common = [clang, f"--target={THERE}", PROCESSOR, "--no-default-config", "-ffunction-sections", "-c"]
    sound = ["-fdata-sections", "-mllvm", "-trap-unreachable", "-mllvm", "-expand-div-rem-bits=64"]
    objects = [f"{folder}/module.o"]
    run([*common, *sound, "-O3", "-x", "ir", text, "-o", objects[0]])
    for file, options in files.items():
        objects.append(f"{folder}/{os.path.basename(file)}.o")
        run([*common, "-O2", "-ffreestanding", "-nostdlib", "-Wall", "-Werror", *options, file, "-o", objects[-1]])
    run([f"{tools}/bin/llvm-ar", "rcsD", f"{folder}/all.a", *objects])
    run([f"{kit()}/bin/rattle-link", "--target", THERE, "--toolchain", tools, "-o", f"{folder}/wide.wasm", f"{folder}/all.a"])
    return f"{folder}/wide.wasm"


def number_at(data: "bytes | bytearray", at: int) -> "tuple[int, int]":
    """An unsigned number of LEB128, and where it ends."""
    value = shift = 0
    while True:
        byte = data[at]
        value |= (byte & 127) << shift
        at, shift = at + 1, shift + 7
        if byte < 128:
            return value, at


def as_number(value: int) -> bytes:
    data = bytearray()
    while value > 127:
        data.append(value & 127 | 128)
        value >>= 7
    return bytes([*data, value])


def with_narrow_tables(data: bytes) -> bytes:
    """The same module with tables of 32 bits: binaryen lowers memories of 64 bits, and knows no such tables. No code calls through one."""
    out, at = bytearray(data[:8]), 8
    while at < len(data):
        kind = data[at]
        length, begin = number_at(data, at + 1)
        body, at = bytearray(data[begin : begin + length]), begin + length
        if kind == 4:
            tables, place = number_at(body, 0)
            for _ in range(tables):
                flags = body[place + 1]
                body[place + 1] = flags & ~4
                _, place = number_at(body, place + 2)
                if flags & 1:
                    _, place = number_at(body, place)
        out += bytes([kind]) + as_number(len(body)) + body
    return bytes(out)


def lower_to_wasm32(wide: str, folder: str) -> bytes:
    """The bytes of a module of 64 bits as one of 32."""
    Path(folder, "tables.wasm").write_bytes(with_narrow_tables(Path(wide).read_bytes()))
    run(["wasm-opt", "--enable-memory64", "--enable-bulk-memory", "--enable-sign-ext", "--enable-mutable-globals",
         "--enable-nontrapping-float-to-int", "--enable-multivalue", "--enable-extended-const", "--memory64-lowering", "-O2",
         "--strip-debug", "--strip-producers", f"{folder}/tables.wasm", "-o", f"{folder}/small.wasm"])  # fmt: skip
    return Path(folder, "small.wasm").read_bytes()


def modules(crate: str, prefix: str, with_checker: bool) -> "list[bytes]":
    """The bytes of the crate's library as WebAssembly of 32 bits, whose functions that begin with PREFIX are exported; and of the checker,
    where that is asked for."""
    made: "list[tuple[str, dict]]" = [(prefix, {HEAP: ()})]
    if with_checker:
        made.append(("", {HEAP: ("-DCHECKER",), CHECKER: ()}))
    with private_folder.temporary() as folder:
        module = f"{folder}/module.bc"
        llvm_module(crate, module, folder)
        return [
            lower_to_wasm32(link_module(as_wasm64(module, exported, folder), files, folder), folder)
            for exported, files in made
        ]
