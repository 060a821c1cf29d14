"""Tests how every Python script of scripts/, and each step of the shell scripts, ends: by Ctrl-C while modules are imported and later,
by an error that nobody foresaw, and where standard output is closed or full."""

import ast
import contextlib
import glob
import json
import marshal
import os
import queue
import re
import resource
import shutil
import signal
import subprocess
import sys
import time
from collections.abc import Iterator
from concurrent.futures import ThreadPoolExecutor

import checks
from checks import expect

SCRIPTS = os.path.dirname(os.path.dirname(os.path.realpath(__file__)))
STEPS = ("private_folder", "first_build", "manifest")  # of scripts/step
TRIES = 60  # of Ctrl-C at any moment of the first tenth of a second
SECONDS = 60  # for a script in which something is planted: it ends at once

# A script runs this first. It interrupts the script, or raises an error in it: at an import after that of
# `entry_point`, or at the first call of `entry_point.run`.
PLANTED = """
import os, signal, sys

kind, place = os.environ["PLANTED"].split()
WRONG = {"error": RuntimeError("planted\\n\\x1b[31m of a script"), "pipe": BrokenPipeError(32, "Broken pipe"), "memory": MemoryError(),
         "files": OSError(24, "Too many open files")}

def act():
    if kind.startswith("SIG"):
        os.kill(os.getpid(), getattr(signal, kind))
    elif kind.startswith("within:"):
        try:
            os.kill(os.getpid(), getattr(signal, kind[7:]))
        finally:
            raise AttributeError("planted, on the way out")
    else:
        raise WRONG[kind]

class Finder:
    left = None
    def find_spec(self, name, path=None, target=None):
        if name == "mte_scripts.entry_point":
            self.left = int(place)
        elif self.left is not None:
            self.left -= 1
            if self.left == 0:
                act()

def at_call(frame, event, of):
    caller = frame.f_back and frame.f_back.f_code
    if event == "call" and caller and caller.co_name == "run" and caller.co_filename.endswith("/entry_point.py"):
        if frame.f_code.co_filename != caller.co_filename:
            sys.setprofile(None)
            act()

if place == "main":
    sys.setprofile(at_call)
else:
    sys.meta_path.insert(0, Finder())
"""

# Runs scripts one after the other, each in a process and session of its own that has the modules of Python already. A line says what is planted, the
# script and its words; the answer has the status, and what standard error got. What is not ended by what is planted is killed, with its children.
SERVER = f"""
import json, os, runpy, sys
import argparse, contextlib, ctypes, functools, io, itertools, re, shlex, shutil, signal, struct, subprocess, tempfile, textwrap

for line in sys.stdin:
    os.environ["PLANTED"], *words = json.loads(line)
    said = tempfile.TemporaryFile()
    child = os.fork()
    if child == 0:
        os.setsid()
        signal.alarm({SECONDS})
        for descriptor, to in ((0, os.open(os.devnull, os.O_RDWR)), (1, os.open(os.devnull, os.O_RDWR)), (2, said.fileno())):
            os.dup2(to, descriptor)
        os.closerange(3, 100)
        sys.argv = words
        exec(os.environ["TO_PLANT"])
        runpy.run_path(words[0], run_name="__main__")
        sys.exit()
    status = os.waitstatus_to_exitcode(os.waitpid(child, 0)[1])
    with contextlib.suppress(ProcessLookupError):
        os.killpg(child, signal.SIGKILL)
    said.seek(0)
    print(json.dumps([status, said.read().decode(errors="replace")]), flush=True)
"""


class Server:
    """Runs scripts in which something is planted."""

    def __init__(self) -> None:
        how: dict = {"stdin": subprocess.PIPE, "stdout": subprocess.PIPE, "text": True, "env": {**os.environ, "TO_PLANT": PLANTED}}
        self.process = subprocess.Popen([sys.executable, "-S", "-c", SERVER], **how)

    def run(self, planted: str, *words: str) -> tuple[int, str]:
        """The status and standard error of a script."""
        print(json.dumps([planted, *words]), file=self.process.stdin, flush=True)
        status, said = json.loads(self.process.stdout.readline())
        return status, said

    def end(self) -> None:
        self.process.communicate()


class Servers(queue.SimpleQueue):
    """A server for each core."""

    def __enter__(self) -> "Servers":
        self.all = [Server() for _ in range(os.cpu_count() or 1)]
        for server in self.all:
            self.put(server)
        return self

    def __exit__(self, *_: object) -> None:
        for server in self.all:
            server.end()

    @contextlib.contextmanager
    def one(self) -> Iterator[Server]:
        """One that nobody else has meanwhile."""
        server = self.get()
        try:
            yield server
        finally:
            self.put(server)


def scripts() -> list[str]:
    """The scripts that begin with python3."""
    found = []
    for path in sorted(os.path.join(SCRIPTS, name) for name in os.listdir(SCRIPTS)):
        if os.path.isfile(path):
            with open(path, errors="replace") as file:
                if "python3" in file.readline():
                    found.append(path)
    return found


def run(path: str, *words: str, **more) -> tuple[int, str]:
    """The status and standard error of a script."""
    done = subprocess.run([sys.executable, path, *words], stdin=subprocess.DEVNULL, stderr=subprocess.PIPE, timeout=60, **more)
    return done.returncode, done.stderr.decode(errors="replace")


def is_a_line(said: str, path: str, *words: str) -> bool:
    """Whether it is one line that begins with the name of the script or of its step, and moves no cursor."""
    return said.count("\n") == 1 and said.startswith(tuple(f"{name}: " for name in (os.path.basename(path), *words))) and said[:-1].isprintable()


def try_form(path: str) -> None:
    """It imports `entry_point` before all that takes longer, and ends by it."""
    with open(path) as file:
        tree = ast.parse(file.read())
    imports = [name.name for node in tree.body if isinstance(node, (ast.Import, ast.ImportFrom)) for name in node.names]
    first = [name for name in imports if name not in ("os", "sys")]
    calls = [
        node for node in ast.walk(tree) if isinstance(node, ast.Call) and ast.unparse(node.func) == "entry_point.run"
    ]
    what = f"{os.path.basename(path)}: `entry_point` is its first import but os and sys, and runs it once"
    expect(what, first[:1] == ["entry_point"] and len(calls) == 1, imports)


def try_annotations(path: str) -> None:
    """The oldest Python that the package asks for, 3.9, knows no `|` between types."""
    with open(path) as file:
        tree = ast.parse(file.read())
    found = [node.annotation for node in ast.walk(tree) if isinstance(node, (ast.arg, ast.AnnAssign))]
    found += [node.returns for node in ast.walk(tree) if isinstance(node, ast.FunctionDef)]
    wrong = [ast.unparse(each) for each in found if each and any(isinstance(node, ast.BinOp) for node in ast.walk(each))]
    expect(f"{os.path.basename(path)}: its annotations", not wrong, wrong)


def try_planted(servers: Servers, path: str, *words: str) -> None:
    """An interrupt and errors, while modules are imported and in the script's own function."""
    with servers.one() as server:
        try_endings(server, " ".join([os.path.basename(path), *words]), path, *words)


def try_endings(server: Server, name: str, path: str, *words: str) -> None:
    for where in ("1", "main"):
        status, said = server.run(f"SIGINT {where}", path, *words)
        expect(f"{name}, interrupted at import or call {where}", (status, said) == (130, ""), status, said)
        status, said = server.run(f"error {where}", path, *words)
        good = status == 3 and is_a_line(said, path, *words) and "RuntimeError: planted \\x1b[31m of a script" in said
        expect(f"{name}, an error at import or call {where}", good, status, said)
    for kind, wanted in (("SIGTERM", 143), ("SIGHUP", 129), ("within:SIGINT", 130), ("within:SIGTERM", 143)):
        got = server.run(f"{kind} main", path, *words)
        expect(f"{name}, {kind}", got == (wanted, ""), got)
    for kind, says in (("pipe", "standard output can't be written"), ("memory", "not enough memory"), ("files", "too few files may be open at once (ulimit -n)")):
        status, said = server.run(f"{kind} main", path, *words)
        expect(f"{name}, {kind}", status == 3 and is_a_line(said, path, *words) and says in said, status, said)


def try_output(path: str) -> None:
    """Help that goes nowhere."""
    status, said = run(path, "--help", stdout=None, preexec_fn=lambda: os.close(1))
    expect(f"{path} --help >&-", status == 3 and is_a_line(said, path), status, said)
    with open("/dev/full", "wb") as full:
        status, said = run(path, "--help", stdout=full)
    expect(f"{path} --help >/dev/full", status == 3 and is_a_line(said, path), status, said)


def try_interrupt(path: str, delay: float) -> None:
    """Ctrl-C at a moment after the start. Python itself speaks of one that comes before the script's first lines, and may go on after it:
    so the script is asked for what ends soon."""
    with open(path) as file:
        head = next(
            number for number, line in enumerate(file, 1) if line.startswith("from mte_scripts import entry_point")
        )
    with subprocess.Popen([sys.executable, path, "--help"], stdin=subprocess.DEVNULL, stdout=subprocess.DEVNULL, stderr=subprocess.PIPE) as child:
        time.sleep(delay)
        child.send_signal(signal.SIGINT)
        _, said = child.communicate(timeout=60)
    lines = re.findall(rf'File "{re.escape(path)}", line (\d+)', said.decode(errors="replace"))
    own = [line for line in lines if int(line) > head]
    expect(f"{os.path.basename(path)}, Ctrl-C after {delay:.3f} seconds", not own, said.decode(errors="replace"))


# what changes how Python runs; the scripts are the same under it
ODD = {"PYTHONSAFEPATH": "1", "PYTHONINSPECT": "1", "PYTHONUTF8": "0", "PYTHONCOERCECLOCALE": "0", "LC_ALL": "C", "PYTHONHOME": "/nowhere",
       "PYTHONOPTIMIZE": "2", "PYTHONIOENCODING": "ascii", "PYTHONDEVMODE": "1"}


def try_variables(path: str, cache: str) -> None:
    """The script itself, with variables for Python, and by its interpreter; byte code is in the user's cache alone."""
    environment = {**os.environ, "XDG_CACHE_HOME": cache}
    name = os.path.basename(path)
    how: dict = {"stdin": subprocess.DEVNULL, "stdout": subprocess.PIPE, "stderr": subprocess.PIPE}
    plain = subprocess.run([path, "--help"], env=environment, **how)
    odd = subprocess.run([path, "--help"], env={**environment, **ODD}, **how)
    seen = (odd.returncode, odd.stdout, odd.stderr)
    expect(f"{name} --help, with variables for Python", seen == (0, plain.stdout, b"") and plain.stdout, *seen)
    safe = subprocess.run([sys.executable, path, "--help"], env={**environment, "PYTHONSAFEPATH": "1", "PYTHONINSPECT": "1"}, **how)
    expect(f"{name} --help, by its interpreter", (safe.returncode, safe.stdout, safe.stderr) == (0, plain.stdout, b""), safe)


def is_byte_code(path: str) -> bool:
    """Whether it is a whole file of Python's byte code."""
    with open(path, "rb") as file:
        data = file.read()
    try:
        return path.endswith(".pyc") and marshal.loads(data[16:]) is not None
    except (EOFError, ValueError):
        return False


class Endings(checks.Part):
    @classmethod
    def setup_class(cls):
        signal.signal(signal.SIGINT, signal.default_int_handler)  # it may be ignored, and the scripts would ignore it too
        cls.scripts = scripts()

    def side_by_side(self, runs):
        """Runs functions with their words, as many at once as there are cores."""
        with ThreadPoolExecutor(os.cpu_count()) as pool:
            for job in [pool.submit(*words) for words in runs]:
                expect("a test that ran to its end", job.exception() is None, repr(job.exception()))

    def test_annotations(self):
        modules = glob.glob(f"{SCRIPTS}/mte_scripts/**/*.py", recursive=True)
        expect("the scripts and modules", len(self.scripts) > 14 and len(modules) > 50, self.scripts, modules)
        for path in sorted([*self.scripts, *modules]):
            try_annotations(path)

    def test_form(self):
        for path in self.scripts:
            try_form(path)

    def test_planted(self):
        targets = [*((path,) for path in self.scripts), *((os.path.join(SCRIPTS, "step"), name) for name in STEPS)]
        with Servers() as servers:
            self.side_by_side([(try_planted, servers, *target) for target in targets])

    def test_output(self):
        self.side_by_side([(try_output, path) for path in self.scripts])

    def test_variables(self):
        cache = self.folder()
        self.side_by_side([(try_variables, path, cache) for path in self.scripts])
        expect("byte code is in the cache", os.path.isdir(f"{cache}/mte_tool/byte_code"), os.listdir(cache))
        beside = glob.glob(f"{SCRIPTS}/**/__pycache__", recursive=True)
        expect("no byte code is beside the sources", not beside, beside)

    def test_full_disk(self):
        """Where byte code does not fit on the disk, there is none of it, and not a part."""
        for most in (0, 20, 100, 3000):
            cache = self.folder()
            how = {"env": {**os.environ, "XDG_CACHE_HOME": cache}, "stdin": subprocess.DEVNULL, "capture_output": True}
            limited = lambda: resource.setrlimit(resource.RLIMIT_FSIZE, (most, most))
            for limit in (limited, None):
                done = subprocess.run([os.path.join(SCRIPTS, "merge_profiles"), "--help"], preexec_fn=limit, **how)
                expect(f"merge_profiles --help, with files of {most} bytes at most at first", (done.returncode, done.stderr) == (0, b""), done)
                left = [path for path in glob.glob(f"{cache}/**/*", recursive=True) if os.path.isfile(path)]
                expect(f"byte code, with files of {most} bytes at most at first", limit or left and all(map(is_byte_code, left)), left)

    def test_folder(self):
        """A script that is named from a folder whose name begins with `-`, with odd letters."""
        place = os.path.join(self.folder(), "-é")
        shutil.copytree(SCRIPTS, os.path.join(place, "scripts"), ignore=shutil.ignore_patterns("tests"))
        with open(os.path.join(place, "-ä.profile"), "w") as file:
            file.write("16 3\n")
        words = ["-é/scripts/merge_profiles", "--", "-é/-ä.profile", "-é/nowhere"]
        for given, status, out, says in ((words[:3], 0, b"16 3\n", ""), (words, 2, b"", "-é/nowhere can't be read")):
            done = subprocess.run(given, cwd=os.path.dirname(place), stdin=subprocess.DEVNULL, stdout=subprocess.PIPE, stderr=subprocess.PIPE,
                                  env={**os.environ, **ODD})
            expect(f"{given}", (done.returncode, done.stdout) == (status, out) and says in done.stderr.decode(), done)

    def test_folder_left(self):
        """A signal comes after a temporary folder is made and before anything would remove it; and one that is kept."""
        code = (
            "import sys; sys.path[:0] = [{!r}]; from mte_scripts import private_folder, entry_point; {}; "
            "entry_point.run('it', main)"
        )
        made = "folder = private_folder.temporary_folder(); open(folder.file('a file'), 'w').close()"
        for then, status, count in (("raise KeyboardInterrupt", 130, 0), ("sys.exit(143)", 143, 0), ("folder.keep(); raise KeyboardInterrupt", 130, 1)):
            place = self.folder()
            main = f"exec({f'def main(words): {made}; {then}'!r})"
            done = subprocess.run([sys.executable, "-c", code.format(SCRIPTS, main)], env={**os.environ, "TMPDIR": place}, capture_output=True)
            expect(f"{then}: what is left", (done.returncode, len(os.listdir(place)), done.stderr) == (status, count, b""), done)

    def test_interrupt(self):
        self.side_by_side([(try_interrupt, self.scripts[at % len(self.scripts)], at / TRIES / 10) for at in range(TRIES)])
