"""The project's proved engines, for whoever has not proved them here. The folder `modules` has the whole program and
the whole library as WebAssembly, and as the C that wasm2c makes of that; scripts/modules makes them of what was proved,
with a manifest. They run as native code, which is compiled once into the user's cache, or by Node. What is not the
manifest's is refused."""

import contextlib
import enum
import fcntl
import functools
import hashlib
import importlib
import os
import shutil
import subprocess
import sys
import time
from collections import namedtuple
from collections.abc import Iterator

from mte_scripts import manifest, private_folder
from mte_scripts.entry_point import Refusal, say
from mte_scripts.places import BUILT, GET_GCC, IS_PACKAGED, ROOT, SCRIPTS, SOURCES

FOLDER = os.path.join(ROOT, "modules")
MANIFEST = os.path.join(FOLDER, "manifest")
# the files, as the manifest names them: how the name of each ends, and the module of Python that unpacks it
PACKED = {"program.wasm": (".gz", "gzip"), "library.wasm": (".gz", "gzip"), "c.tar": (".xz", "lzma")}
HOST = os.path.join(FOLDER, "program_host.js")
PROGRAM = ("program_host.c", "program_memory.c", "runtime.c")  # the C beside that of the program's module
NATIVE = "mte_tool"  # the program in the cache
VERSION = ("-V", "--version")
COMPILERS = ("cc", "gcc", "clang")
REMEDY = f"install gcc or nodejs ({GET_GCC})"


class State(enum.Enum):
    """What is known of what answers, as a sentence begins."""
    PROVED_HERE = "Proved"
    PROVED_BY_PROJECT = "Proved by the project, not on this machine"
    PLAIN = "Not known to be proved"


# what runs the program: the file and its words before those of a command; and what that is called
Engine = namedtuple("Engine", "executable words name")


@functools.lru_cache(maxsize=None)
def read_manifest() -> "dict[str, str]":
    """The lines of the manifest by their first word; empty where there is no whole one."""
    try:
        with open(MANIFEST, encoding="utf-8") as file:
            found = dict(line.rstrip("\n").partition(" ")[::2] for line in file)
    except (OSError, UnicodeDecodeError):
        return {}
    return found if {*PACKED, "sources", "kit"} <= found.keys() and found.get("proofs") == "proved" else {}


def path_of(name: str) -> str:
    return os.path.join(FOLDER, name + PACKED[name][0])


def module_bytes(name: str) -> bytes:
    """The bytes of a module, or of the C of both; refused where they are not the manifest's."""
    try:
        with open(path_of(name), "rb") as file:
            whole = importlib.import_module(PACKED[name][1]).decompress(file.read())
    except Exception as error:  # each way of packing has its own
        raise Refusal(3, f"{path_of(name)} can't be read: {error}") from None
    if hashlib.sha256(whole).hexdigest() != read_manifest().get(name):
        raise Refusal(3, f"{path_of(name)} is not the one of its manifest, and nothing runs it")
    return whole


def states() -> "tuple[str, int]":
    """What changes with any source of the crates or file of the modules, and when one was changed last, in seconds."""
    places, top = [os.path.join(ROOT, "crates.txt"), FOLDER], os.path.join(ROOT, "crates")
    for crate in os.listdir(top):
        places += [os.path.join(top, crate, part) for part in ("src", "specs", "proofs")]
    files = list(places)
    for place in places[1:]:
        for folder, below, names in os.walk(place):
            files += [os.path.join(folder, name) for name in [*below, *names]]
    found = [(file, os.stat(file)) for file in sorted(files) if os.path.lexists(file)]
    whole = "".join(f"{status.st_ino} {status.st_ctime_ns} {file}\n" for file, status in found)
    return hashlib.sha256(os.fsencode(whole)).hexdigest(), max(status.st_ctime_ns for _, status in found) // 10**9


def are_of_sources() -> bool:
    """Whether the modules are of these sources. A look that finds it leaves a stamp in the cache, of sources that
    nobody changed in the last two seconds or during the look, and is spared while their states are the same."""
    name = hashlib.sha256(os.fsencode(ROOT)).hexdigest()[:16]
    with contextlib.suppress(OSError, Refusal), private_folder.cache("looked") as place:
        state, newest = states()
        if place.has(name):
            with open(place.at(name), encoding="ascii") as file:
                if file.read() == state:
                    return True
        if manifest.sources_of(ROOT) != read_manifest().get("sources"):
            return False
        if newest + 2 < time.time() and states()[0] == state:
            place.replace(name, state)
        return True
    return manifest.sources_of(ROOT) == read_manifest().get("sources")


@functools.lru_cache(maxsize=None)
def why_unproved() -> str:
    """Why the modules are not known to be proved engines of these sources, or an empty text."""
    if not read_manifest():
        return "modules/ has no manifest of proved engines"
    return "" if not SOURCES or are_of_sources() else "the modules are of other sources"


@functools.lru_cache(maxsize=None)
def version() -> str:
    """What stands for the native program: it is of the C, of its host's, and of the processor."""
    whole = hashlib.sha256(f"{read_manifest()['c.tar']} {os.uname().machine}".encode())
    for name in (*PROGRAM, "wasm-rt.h"):
        with open(os.path.join(FOLDER, name), "rb") as file:
            whole.update(file.read())
    return whole.hexdigest()[:16]


def cache() -> private_folder.Place:
    return private_folder.cache(f"engines-{version()}")


def native_program() -> "str | None":
    """The path of the native program, where it is there."""
    if not read_manifest():
        return None
    with contextlib.suppress(Refusal), cache() as place:
        return place.file(NATIVE) if place.has(NATIVE) and place.has(manifest.path_of(NATIVE)) else None
    return None


def compiler() -> "str | None":
    """The C compiler, if there is one."""
    return next(filter(None, map(shutil.which, filter(None, (os.environ.get("CC"), *COMPILERS)))), None)


def may_build() -> bool:
    is_able = sys.byteorder == "little" and sys.maxsize > 1 << 32
    return is_able and os.environ.get("MTE_TOOL_BUILD") != "no" and bool(compiler())


def manifest_of(made: str, name: str) -> str:
    """The manifest of a file that was just compiled of the engines of this name."""
    proofs, of = "unproved" if why_unproved() else "by-project", read_manifest()
    its = manifest.Manifest(manifest.hash_of(made), of["sources"], of["kit"], proofs, of.get(f"{name}-verdict", ""))
    return manifest.text_of(its)


@contextlib.contextmanager
def build_lock(place: private_folder.Place, waits: bool) -> "Iterator[bool]":
    """Whether no other process builds in this folder, until the end; or waits for the other one."""
    lock = os.open("lock", os.O_RDWR | os.O_CREAT | os.O_NOFOLLOW | os.O_CLOEXEC, 0o600, dir_fd=place.descriptor)
    try:
        fcntl.flock(lock, fcntl.LOCK_EX | (0 if waits else fcntl.LOCK_NB))
        yield True
    except BlockingIOError:
        yield False
    finally:
        os.close(lock)


def build(waits: bool = True) -> None:
    """Compiles the native program into the cache, unless it is there."""
    from mte_scripts.builds import native_code  # it is needed once

    with cache() as place, build_lock(place, waits) as is_alone:
        if is_alone:
            remedy = ": set XDG_CACHE_HOME to a folder that only you can change"
            made = place.kept(NATIVE, native_code.make_program, remedy)
            place.replace(manifest.path_of(NATIVE), manifest_of(made, "program"))


def start_build() -> None:
    """The same in the background, whatever becomes of this process, unless another one does it."""
    try:
        with cache() as place, build_lock(place, waits=False) as is_alone:
            if not is_alone:
                return
    except (OSError, Refusal):  # nobody but others has the cache, or it can't be written
        return
    say("mte_tool", "Node runs the engines, while they are compiled in the background, once, for the next time")
    words = ["nice", sys.executable, "-ISXutf8", os.path.join(SCRIPTS, "step"), "engines", "build"]
    how: dict = dict.fromkeys(("stdin", "stdout", "stderr"), subprocess.DEVNULL)
    with contextlib.suppress(OSError):
        subprocess.Popen(words, cwd="/", start_new_session=True, **how)


def node_engine(node: str) -> Engine:
    """Node checks the module by the manifest's hash itself."""
    module = "program.wasm"
    return Engine(node, ["node", HOST, path_of(module), read_manifest()[module]], f"Node, of {path_of(module)}")


@functools.lru_cache(maxsize=None)
def choose_engine() -> Engine:
    """What runs the program: native code; or Node, while that is compiled in the background; or native code, which is
    compiled first."""
    if not native_program() and (node := shutil.which("node")):
        if may_build():
            start_build()
        return node_engine(node)
    return Engine(make_native(), ["mte_tool"], f"native code of {path_of('c.tar')}")


def make_native() -> str:
    """The path of the native program, which is compiled first where it is not there."""
    if not (place := native_program()):
        if not may_build():
            raise Refusal(3, "MTE_TOOL_BUILD=no forbids to compile the engines" if compiler() else
                          f"nothing here can run the project's engines: {REMEDY}")
        say("mte_tool", "compiling the project's engines for this machine, once")
        began = time.monotonic()
        build()
        say("mte_tool", f"compiled in {time.monotonic() - began:.0f} seconds")
        place = native_program()
    if not place:
        raise Refusal(3, "the cache has not kept the engines")
    return place


def state_of(path: str) -> "tuple[int, ...]":
    """What changes with a file; nothing where there is none."""
    try:
        status = os.stat(path)
    except OSError:
        return ()
    return status.st_dev, status.st_ino, status.st_size, status.st_mtime_ns, status.st_ctime_ns


@functools.lru_cache(maxsize=None)
def look_at_built() -> "tuple[str, tuple[int, ...]]":
    """Why the program that is built here is not known to be proved of these sources, or an empty text; and the state
    that it was in before it was hashed."""
    state = state_of(BUILT)
    return manifest.why_unproved(BUILT, None if IS_PACKAGED else ROOT), state


@functools.lru_cache(maxsize=None)
def are_answering() -> bool:
    """Whether the project's engines answer: nothing is proved and built here of these sources, and they are of them, or
    nothing here can build others."""
    is_built, has_engines = not look_at_built()[0], bool(read_manifest())
    return not IS_PACKAGED and has_engines and not is_built and not (why_unproved() and shutil.which("rt"))


def proof_state() -> State:
    """Who has proved what answers, if it is proved."""
    found = manifest.read(BUILT)  # a package may have the project's engines
    is_of_project = are_answering() or found and found.proofs == "by-project"
    return State.PROVED_BY_PROJECT if is_of_project else State.PROVED_HERE


def state() -> str:
    """What `-V` says of what answers."""
    is_built = not look_at_built()[0] or IS_PACKAGED
    name, why = (BUILT, look_at_built()[0]) if is_built else (choose_engine().name, why_unproved())
    if not is_built and choose_engine().words[0] == "node":
        module_bytes("program.wasm")  # which Node would refuse after this line
    return f"{State.PLAIN.value}, since {why}: {name}" if why else f"{proof_state().value}: {name}"


def notice(word: str) -> str:
    """What is said before a command whose first word is WORD."""
    if word in VERSION:
        return state()
    if why := why_unproved():
        return f"the engines that answer are not known to be proved, since {why}"
    remedy = "; `scripts/mte_tool --prove` proves them here" if shutil.which("rt") else ""
    return f"the engines that answer are {State.PROVED_BY_PROJECT.value.lower()}{remedy}"


def main(words: "list[str]") -> "int | None":
    if words == ["build"]:
        build(waits=False)
    elif words == ["state"]:
        say("mte_tool", state())
    elif words[:1] == ["find"] and len(words) == 2:
        # a version is asked for, and nothing is built for that
        if not are_answering() and not (read_manifest() and words[1] in VERSION):
            return 1
        engine = choose_engine()
        print("\n".join([notice(words[1]), engine.executable, *engine.words]))
    else:
        raise Refusal(2, "it is `step engines find WORD`, `step engines state` or `step engines build`")
    return None
