"""Native code of the project's engines (mte_scripts/engines.py): their C is compiled, in parts side by side."""

import io
import os
import re
import subprocess
import tarfile
from concurrent.futures import ThreadPoolExecutor
from pathlib import Path

from mte_scripts import engines, private_folder
from mte_scripts.entry_point import Refusal
from mte_scripts.places import GET_GCC, ROOT

# Of these engines the code by -O2 is no faster, and takes twice the time to compile; what it has for them is one store in
# the place of many.
FLAGS = ["-O1", "-ftree-slp-vectorize", "-w", "-fPIC", "-DNDEBUG", "-DWASM_RT_MODULE"]
OWN_FLAGS = ["-std=gnu11", "-O2", "-Wall", "-Wextra", "-fPIC"]
# the C of each host, and the flags of all its files
HOSTS = {
    "program": (engines.PROGRAM, ["-DWASM_RT_MEMCHECK_SIGNAL_HANDLER=1"]),
    "library": (("bridge.c", "library_memory.c", "runtime.c"), [f"-I{os.path.join(ROOT, 'library')}"]),
}
PAGES = re.compile(r"wasm_rt_allocate_memory\(&instance->w2c_memory, (\d+),")


def run(words: "list[str]", folder: str) -> None:
    """Runs a tool, whose own files stand in a folder that nobody else can change."""
    done = subprocess.run(words, cwd=folder, stdin=subprocess.DEVNULL, stdout=subprocess.PIPE, stderr=subprocess.STDOUT,
                          env={**os.environ, "LC_ALL": "C", "TMPDIR": folder}, text=True, errors="replace")
    if done.returncode and re.search(r"\.h: No such file or directory|'\S+\.h' file not found", done.stdout):
        raise Refusal(3, f"the engines can't be compiled: the C library's headers are missing: install them ({GET_GCC})")
    if done.returncode:
        said = done.stdout.strip()[-500:]
        raise Refusal(3, f"the engines can't be compiled: {words[0]} ended with status {done.returncode}: {said}")


def compiler() -> str:
    found = engines.compiler()
    if not found:
        raise Refusal(3, f"the engines can't be compiled: there is no C compiler: install gcc ({GET_GCC})")
    return found


def unpack(name: str, folder: str) -> int:
    """Puts the C of the engines of this name into a folder NAME in this one; how many pages of memory they begin with."""
    with tarfile.open(fileobj=io.BytesIO(engines.module_bytes("c.tar"))) as archive:
        archive.extractall(folder, [each for each in archive.getmembers() if each.name.startswith(f"{name}/")])
    first = PAGES.search(Path(folder, name, "0.c").read_text(encoding="utf-8"))
    if not first:
        raise Refusal(3, f"the C of {name} does not say how many pages it begins with")
    return int(first[1])


def objects(name: str, folder: str) -> "list[str]":
    """The objects, in this folder, of the engines of this name and their host."""
    first, below = unpack(name, folder), os.path.join(folder, name)
    own, flags_of_host = HOSTS[name]
    more = [*flags_of_host, f"-DFIRST_PAGES={first}"]
    sources = [(FLAGS, os.path.join(below, each)) for each in sorted(os.listdir(below)) if each.endswith(".c")]
    sources += [(OWN_FLAGS, os.path.join(engines.FOLDER, each)) for each in own]

    def compile_one(given: "tuple[list[str], str]") -> str:
        flags, source = given
        made = os.path.join(below, os.path.basename(source)[:-1] + "o")
        run([compiler(), *flags, *more, f"-I{engines.FOLDER}", f"-I{below}", "-c", source, "-o", made], folder)
        return made

    with ThreadPoolExecutor(len(os.sched_getaffinity(0))) as pool:
        return list(pool.map(compile_one, sources))


def make_program(to: str) -> None:
    """The program as a file of this path: without a loader, which takes half of its start, where the C library is there for that."""
    with private_folder.temporary() as folder:
        words = [compiler(), *objects("program", folder), "-Wl,-z,relro", "-Wl,-z,now", "-o", to]
        try:
            run([*words, "-static-pie"], folder)
        except Refusal:
            run(words, folder)
