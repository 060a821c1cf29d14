"""What a map saves in the real Scudo: it is built from LLVM's sources, and the program is run with it, with Scudo's default and with glibc."""

import glob
import os
import resource
import shutil
import subprocess
from collections.abc import Iterable
from typing import NamedTuple, Optional

from mte_scripts.entry_point import Refusal
from mte_scripts.places import SCRIPTS
from mte_scripts.recording import programs
from mte_scripts.recording.notes import PAGE, Notes
from mte_scripts.tables import process_tree, scudo_map

CONFIG = "custom_scudo_config.h"
FLAGS = "-std=c++17 -O3 -fPIC -fvisibility=hidden -fno-exceptions -fno-rtti -nostdinc++ -shared -nostdlib++ -pthread".split()
FETCH = (  # on a Debian that has no lines deb-src yet; docs/TUNING.md has it too
    "sed -i 's/^Types: deb$/& deb-src/' /etc/apt/sources.list.d/debian.sources && apt-get update; apt-get source --download-only llvm-toolchain-19; "
    "tar xJf llvm-toolchain-19_19.1.7.orig.tar.xz --wildcards '*/compiler-rt/lib/scudo/standalone/*'"
)
# of other systems, and C++'s `new`, which then goes through malloc
LEFT_OUT = ("fuchsia", "trusty", "bionic", "wrappers_cpp")


class Place(NamedTuple):
    """The sources of Scudo, and the compiler."""

    folder: str
    compiler: str


def place(folder: str) -> Place:
    """The folder of Scudo's sources, as --verify names it; what is missing is told before the program runs."""
    if not os.path.isfile(os.path.join(folder, "wrappers_c.cpp")):
        raise Refusal(2, f"{folder} is not the folder compiler-rt/lib/scudo/standalone of LLVM's sources. On Debian it "
                         f"comes, as root, by: {FETCH}")
    if not any(CONFIG in read(path) for path in glob.glob(os.path.join(glob.escape(folder), "*.h"))):
        raise Refusal(2, f"the Scudo in {folder} takes no {CONFIG}: it has to be LLVM 19's or a later one")
    compiler = os.environ.get("CXX") or "clang++"
    if not shutil.which(compiler):
        raise Refusal(3, f"there is no compiler {compiler} to build Scudo with: install clang, or set CXX")
    return Place(folder, compiler)


def read(path: str) -> str:
    with open(path, encoding="utf-8", errors="replace") as file:
        return file.read()


def build(scudo: Place, to: str, classes: Optional[list], work: str) -> None:
    """Compiles Scudo as a library that LD_PRELOAD takes, with its own map or with that of these classes."""
    sources = sorted(glob.glob(os.path.join(glob.escape(scudo.folder), "*.cpp")))
    sources = [path for path in sources if not any(name in os.path.basename(path) for name in LEFT_OUT)]
    words = [scudo.compiler, *FLAGS, f"-I{scudo.folder}", f"-I{scudo.folder}/include", *(["-msse4.2"] if os.uname().machine == "x86_64" else [])]
    if classes is not None:
        with open(os.path.join(work, CONFIG), "w", encoding="ascii") as file:
            file.write(scudo_map.config(classes))
        words += ["-DSCUDO_USE_CUSTOM_CONFIG", f"-I{work}"]
    compile_with([*words, *sources, "-o", to], work, "Scudo")


def need_loaded(library: str) -> None:
    """Refuses a library that does not come before a program's own: then each run would be one with the present allocator."""
    shown = subprocess.run(["cat", "/proc/self/maps"], stdin=subprocess.DEVNULL, capture_output=True, env={**os.environ, "LD_PRELOAD": library})
    if os.fsencode(library) not in shown.stdout:
        raise Refusal(3, f"{library} is not loaded by LD_PRELOAD, which ends a path at a space or a colon: set TMPDIR "
                         "to another folder")


def keep_input(to: str) -> bool:
    """Keeps standard input in a file, so that each run reads the same. False where there is none, or a person types it."""
    try:
        if os.isatty(0) or os.fstat(0).st_rdev == os.stat(os.devnull).st_rdev:
            return False
        with open(0, "rb", closefd=False) as given, open(to, "wb") as file:
            shutil.copyfileobj(given, file)
    except OSError as error:
        raise Refusal(3, f"standard input can't be kept for further runs: {error.strerror}") from None
    return True


def build_runner(scudo: Place, to: str, work: str) -> None:
    """Compiles the small program that measures others."""
    words = [scudo.compiler, "-x", "c", "-O1", os.path.join(SCRIPTS, "shims", "follow.c"), "-o", to]
    compile_with(words, work, "what measures the program")


def compile_with(words: list, work: str, what: str) -> None:
    done = subprocess.run(words, stdin=subprocess.DEVNULL, capture_output=True, env={**os.environ, "TMPDIR": work})
    if done.returncode:
        why = [line for line in done.stderr.decode(errors="replace").splitlines() if "error" in line] or ["the compiler failed"]
        raise Refusal(3, f"{what} could not be built: {why[0].strip()}")


class Run(NamedTuple):
    """How a run ended, its most resident memory in bytes, and its processor time in seconds."""

    status: int
    peak: int
    spent: float


def place_alike(libraries: "dict[str, Optional[str]]", folder: str) -> "dict[str, Optional[str]]":
    """Copies of these libraries in a folder, with names of the same length: a program may copy its environment, and each byte is then requested."""
    placed: "dict[str, Optional[str]]" = {}
    for at, (name, path) in enumerate(libraries.items()):
        placed[name] = path and os.path.join(folder, f"library_{at:02}.so")
        if path:
            shutil.copyfile(path, placed[name])
            os.chmod(placed[name], 0o755)
    return placed


def preload_value(library: Optional[str], libraries: "Iterable[Optional[str]]", own: bytes) -> bytes:
    """LD_PRELOAD with one of these libraries before the user's own ones, or with none of them: it is equally long with each. The loader skips
    colons."""
    most = max((len(os.fsencode(each)) for each in libraries if each), default=0)
    return b":".join(filter(None, (os.fsencode(library or "").ljust(most, b":"), own)))


def run_once(runner: str, words: list, path: str, library: Optional[str], given: Optional[str],
             scudo_options: Optional[str] = None, libraries: "Iterable[Optional[str]]" = ()) -> Run:
    """One run with a library before all others, or none, and with these options of Scudo after the user's. What the program prints is not kept.
    Its environment is as long as with another one of LIBRARIES, and with options of the same length."""
    found, variables = os.memfd_create("mte_found", 0), programs.environment()
    preload = os.fsdecode(preload_value(library, (library, *libraries), variables.pop(b"LD_PRELOAD", b"")))
    if scudo_options is not None:
        variables[b"SCUDO_OPTIONS"] = b":".join(filter(None, (variables.get(b"SCUDO_OPTIONS"), scudo_options.encode())))
    with open(given or os.devnull, "rb") as file, open(found, "rb") as noted:
        streams: dict = {"stdin": file if given else None, "stdout": subprocess.DEVNULL, "stderr": subprocess.DEVNULL}
        before = resource.getrusage(resource.RUSAGE_CHILDREN)
        process_tree.set_process(process_tree.SUBREAPER, 1)
        try:
            done = subprocess.run([runner, str(found), preload, "none", "", "", "", path, *words], env=variables, close_fds=False, **streams)
        except BaseException:
            process_tree.end_descendants()  # a signal ended this process
            raise
        after = resource.getrusage(resource.RUSAGE_CHILDREN)
        notes = Notes.of_page(noted.read(PAGE))
    if done.returncode or notes.error:
        raise Refusal(3, f"{words[0]} can't be run again")
    return Run(notes.status, notes.resident, after.ru_utime + after.ru_stime - before.ru_utime - before.ru_stime)
