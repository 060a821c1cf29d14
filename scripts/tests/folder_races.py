"""A second user who races: he moves away what appears in a folder that both may write to, and puts links to your files in its place. What the
tests of the scripts' folders (folders, faults_folders) share."""

import contextlib
import hashlib
import os
import runpy
import shutil
import signal
import subprocess
import sys
import time

import pytest
from checks import expect
from mte_scripts.entry_point import Refusal
from mte_scripts.places import ROOT
from mte_scripts.private_folder import NotPrivate

SCRIPTS = os.path.realpath(os.environ.get("MTE_SCRIPTS") or os.path.join(ROOT, "scripts"))
OTHER, PLAIN = 64_999, 64_998  # users that no account has
TRIES, LANES = 200, 4
TRIES_OF_SCRIPTS = 60  # a script refuses the folder before it makes anything there; one that does not makes something each time
# names of files that the scripts make in their folders
NAMES = ["log", "input", "err", "library.so", "refuse.c", "growths", "mte_tool.pc", "counts", "use.profile"]
AS_ROOT = pytest.mark.skipif(os.geteuid() != 0, reason="without root: a second user who races")
QUIET = [(os.POSIX_SPAWN_OPEN, number, os.devnull, os.O_RDWR, 0) for number in (0, 1, 2)]


def run(words, **options):
    done = subprocess.run(words, capture_output=True, text=True, errors="replace", timeout=120, stdin=subprocess.DEVNULL, **options)
    return done.returncode, done.stdout, done.stderr


def make_folder(path, mode=0o755, owner=None):
    os.mkdir(path)
    os.chmod(path, mode)
    if owner is not None:
        os.chown(path, owner, owner)
    return path


def files_below(folder):
    """All that is below a folder, with its bytes."""
    found = []
    for path, folders, files in os.walk(folder):
        found += [(os.path.join(path, name), "") for name in folders]
        for name in files:
            file = os.path.join(path, name)
            if os.path.islink(file):
                found.append((file, os.readlink(file)))
                continue
            with open(file, "rb") as opened:
                found.append((file, hashlib.sha256(opened.read()).hexdigest()))
    return sorted(found)


@contextlib.contextmanager
def variables(**given):
    kept = dict(os.environ)
    os.environ.update({name: value for name, value in given.items() if value is not None})
    for name in [name for name, value in given.items() if value is None]:
        os.environ.pop(name, None)
    try:
        yield
    finally:
        os.environ.clear()
        os.environ.update(kept)


def refusal_of(function, *words):
    try:
        function(*words)
    except (NotPrivate, Refusal, OSError) as error:
        return str(error) or getattr(error, "text", "refused")
    return None


# ---- the race

def become(user):
    os.setgroups([])
    os.setgid(user)
    os.setuid(user)


@contextlib.contextmanager
def repeat_attack(attack, *words):
    """A process of the second user that repeats the attack until the end."""
    process = os.fork()
    if process == 0:
        try:
            become(OTHER)
            while True:
                attack(*words)
        finally:
            os._exit(1)
    try:
        time.sleep(0.05)
        yield
        expect(f"the second user ran to the end: {attack.__name__}", os.waitpid(process, os.WNOHANG) == (0, 0))
    finally:
        os.kill(process, signal.SIGKILL)
        with contextlib.suppress(ChildProcessError):
            os.waitpid(process, 0)


moves = 0


def swap(folder, victim, how=None):
    """Puts links to the victim's files in the place of what is new in the folder and not this user's: one to his folder, or a folder of such
    links, in turn."""
    global moves
    for name in os.listdir(folder):
        path = f"{folder}/{name}"
        with contextlib.suppress(OSError):
            if name.startswith(".taken") or os.lstat(path).st_uid == OTHER:
                continue
            moves += 1
            os.rename(path, f"{folder}/.taken{moves}")
            if how == "file":
                os.symlink(f"{victim}/log", path)
            elif moves % 2:
                os.symlink(victim, path)
            else:
                os.mkdir(path, 0o777)
                os.chmod(path, 0o777)
                for each in NAMES:
                    os.symlink(f"{victim}/{each}", f"{path}/{each}")


def turn(folder, victim):
    """Makes the names in a folder with the sticky bit, one after the other, a link, a file and a pipe of this user."""
    for name in ("counts", "log", "way"):
        path = f"{folder}/{name}"
        for make in (lambda: os.symlink(f"{victim}/{name}", path), lambda: open(path, "x").close(), lambda: os.mkfifo(path),
                     lambda: os.symlink(victim, path)):
            with contextlib.suppress(OSError):
                make()
            with contextlib.suppress(OSError):
                os.unlink(path)


def start(words):
    """Runs a script in this process, which has no other thing to do: a Python script without a new interpreter."""
    for descriptor, how in ((0, os.O_RDONLY), (1, os.O_WRONLY), (2, os.O_WRONLY)):
        os.dup2(os.open(os.devnull, how), descriptor)
    with open(words[0], "rb") as file:
        is_python = b"python3" in file.readline()
    if not is_python:
        os.execv(words[0], words)
    sys.argv = words
    runpy.run_path(words[0], run_name="__main__")


def child(words):
    """The status of a run."""
    process = os.fork()
    if process == 0:
        status = 99
        try:
            start(words)
        except SystemExit as ended:
            status = ended.code or 0
        finally:
            os._exit(status)
    return os.waitstatus_to_exitcode(os.waitpid(process, 0)[1])


def statuses(words, tries):
    """The statuses of so many runs, some of them side by side."""
    readers = []
    for lane in range(LANES):
        reader, writer = os.pipe()
        if os.fork() == 0:
            for _ in range(lane, tries, LANES):
                os.write(writer, bytes([child(words) & 255]))
            os._exit(0)
        os.close(writer)
        readers.append(open(reader, "rb"))
    found = [status for reader in readers for status in reader.read()]
    for reader in readers:
        reader.close()
        os.wait()
    return found


def victims(work):
    victim = f"{work}/victim"
    shutil.rmtree(victim, ignore_errors=True)
    for folder in (victim, f"{victim}/below"):
        make_folder(folder)
    for name in NAMES:
        with open(f"{victim}/{name}", "w") as file:
            file.write("kept\n")
    return victim


def race(name, work, words, wanted, attack, given):
    """A script, some times, while the second user attacks. WANTED has the statuses that it may end with."""
    victim = f"{work}/victim"
    was = files_below(victim)
    with variables(**given), repeat_attack(*attack):
        found = statuses(words, TRIES_OF_SCRIPTS)
    expect(f"{name}: what the second user points to is as it was", files_below(victim) == was, set(files_below(victim)) ^ set(was))
    expect(f"{name}: its status", len(found) == TRIES_OF_SCRIPTS and set(found) <= set(wanted), sorted(set(found)))


def tools(work, **does):
    """A folder with these commands, which do nothing else, and the interpreter without what this machine's site adds to each start."""
    place = make_folder(f"{work}/tools")
    for name, text in {"python3": f'exec {sys.executable} -S "$@"', **does}.items():
        with open(f"{place}/{name}", "w") as file:
            file.write(f"#!/bin/sh\n{text}\n")
        os.chmod(f"{place}/{name}", 0o755)
    return place


def race_scripts(work, commands, given):
    """Scripts that make a temporary folder, with a TMPDIR that the second user can write to."""
    for words in commands:
        shared = make_folder(f"{work}/shared", 0o777)
        attack = (swap, shared, victims(work))
        race(words[0], work, [f"{SCRIPTS}/{words[0]}", *words[1:]], [3], attack, {"TMPDIR": shared, **given})
        expect(f"{words[0]}: nothing is made there", not os.listdir(shared), os.listdir(shared)[:3])
        shutil.rmtree(shared)


def race_runtime(work, variable, name, program, more):
    """What a program opens itself, the file NAME that a variable names: in a folder that the second user can write to, and in one with the
    sticky bit."""
    for where, mode, attack in (("shared", 0o777, (swap, "file")), ("sticky_race", 0o1777, (turn,))):
        folder, victim = make_folder(f"{work}/{where}", mode), victims(work)
        was = files_below(victim)
        environment = {**os.environ, **more, variable: f"{folder}/{name}"}
        with repeat_attack(attack[0], folder, victim, *attack[1:]):
            ended = set()
            for _ in range(TRIES):
                ended.add(os.waitstatus_to_exitcode(os.waitpid(os.posix_spawn(program, [program], environment, file_actions=QUIET), 0)[1]))
                with contextlib.suppress(OSError):
                    os.unlink(f"{folder}/{name}")
        expect(f"{variable}, {where}: as it was after {TRIES} runs", files_below(victim) == was, set(files_below(victim)) ^ set(was))
        expect(f"{variable}, {where}: the program runs to its end", ended == {0}, ended)
        shutil.rmtree(folder)


def homes_of_others(work):
    """Variables by which the cache is in another user's home, also by a link of his; and that home, which is left as it is."""
    home, sticky = make_folder(f"{work}/home", 0o755, OTHER), make_folder(f"{work}/links", 0o1777)
    os.symlink(home, f"{sticky}/link")
    os.lchown(f"{sticky}/link", OTHER, OTHER)
    named = ({"HOME": home}, {"XDG_CACHE_HOME": home}, {"XDG_CACHE_HOME": f"{sticky}/link"}, {"HOME": f"{sticky}/link/below"})
    return home, [{"XDG_CACHE_HOME": None, **given} for given in named]
