"""The processes below this one: they are found by their parents alone, never by a name. What they take of memory, where they listen, and how all
of them are ended.

A process that is a subreaper gets those below it that lose their parent, so that daemons stay below it. `in_process` calls a function in a
process of its own that is one, below this one that is one too: whichever of the two is killed, the other one ends all."""

import contextlib
import ctypes
import json
import os
import signal
import time
from collections.abc import Callable, Iterable, Iterator
from typing import Any, NamedTuple, NoReturn, Optional

from mte_scripts import private_folder
from mte_scripts.entry_point import Refusal, printable, say

DEATH_SIGNAL, SUBREAPER = 1, 36  # of prctl
WAITING = (signal.SIGINT, signal.SIGTERM, signal.SIGHUP)
PATIENCE = 20  # seconds in which a process that is killed has to be gone
LISTENS, ACCEPTS = b"0A", 0x10000  # the state of a socket of TCP, and a flag of a local one


class EndSignal(BaseException):
    """A signal ended the process of `in_process`."""


class Process(NamedTuple):
    """What /proc/PID/stat has of a process."""

    parent: int
    session: int
    is_gone: bool  # it has ended, and its parent does not know yet


def set_process(option: int, value: int) -> None:
    ctypes.CDLL(None, use_errno=True).prctl(option, value, 0, 0, 0)


def read_of(pid: "int | str", name: str) -> bytes:
    """A file of a process, empty where it is gone or not ours."""
    try:
        with open(f"/proc/{pid}/{name}", "rb") as file:
            return file.read()
    except OSError:
        return b""


def process_of(pid: "int | str") -> Optional[Process]:
    words = read_of(pid, "stat").rpartition(b")")[2].split()
    return Process(int(words[1]), int(words[3]), words[0] in b"ZX") if len(words) > 3 else None


def descendants() -> "dict[int, Process]":
    """The processes below this one that have not ended. Of one that leaves its child to this one meanwhile, neither may be seen."""
    known = {int(name): found for name in os.listdir("/proc") if name.isdigit() and (found := process_of(name))}
    children: "dict[int, list[int]]" = {}
    for pid, found in known.items():
        children.setdefault(found.parent, []).append(pid)
    below, left = {}, [os.getpid()]
    while left:
        for pid in children.get(left.pop(), ()):
            left.append(pid)
            if not known[pid].is_gone:
                below[pid] = known[pid]
    return below


def name_of(pid: int) -> str:
    return printable(os.fsdecode(read_of(pid, "comm")).strip()) or "a process"


def reap_children() -> "Iterator[tuple[int, int, float]]":
    """Each child that has ended, its status, and its processor time with that of those that it waited for, in seconds."""
    with contextlib.suppress(ChildProcessError):
        while True:
            pid, status, used = os.wait4(-1, os.WNOHANG)
            if not pid:
                break
            yield pid, os.waitstatus_to_exitcode(status), used.ru_utime + used.ru_stime


def kill_processes(pids: "Iterable[int]", number: int = signal.SIGKILL) -> None:
    for pid in pids:
        with contextlib.suppress(OSError):
            os.kill(pid, number)


def has_children() -> bool:
    try:
        os.waitid(os.P_ALL, 0, os.WEXITED | os.WNOHANG | os.WNOWAIT)
    except ChildProcessError:
        return False
    return True


def end_descendants() -> None:
    """Kills all processes below this one, until there is none."""
    end = time.monotonic() + PATIENCE
    while has_children():
        kill_processes(left := descendants())
        for _ in reap_children():
            pass
        if time.monotonic() > end:
            say("tune_program", f"{len(left)} processes can't be killed, and are left: {' '.join(map(str, left))}")
            break
        time.sleep(0.005)


# ---- what they take

def fields_of(pid: int, name: str) -> "dict[str, int]":
    """The sizes in a file of a process, in bytes."""
    lines = [line.split() for line in os.fsdecode(read_of(pid, name)).splitlines() if line.endswith(" kB")]
    return {words[0].rstrip(":"): int(words[-2]) * 1024 for words in lines}


class Sizes(NamedTuple):
    """What processes take together, in bytes: the resident and the proportional set, and what of this is no file and no shared memory."""

    resident: int
    proportional: int
    own: int


def sizes_of(pids: "Iterable[int]") -> Sizes:
    found = [fields_of(pid, "smaps_rollup") for pid in pids]
    return Sizes(*(sum(each.get(name, 0) for each in found) for name in ("Rss", "Pss", "Pss_Anon")))


def peak_of(pid: int) -> int:
    return fields_of(pid, "status").get("VmHWM", 0)


# ---- where they listen

def listening_sockets(pid: int) -> "dict[str, str]":
    """The sockets that listen where a process is, and what each is called."""
    found = {}
    for name in ("net/tcp", "net/tcp6"):
        for words in map(bytes.split, read_of(pid, name).splitlines()[1:]):
            if len(words) > 9 and words[3] == LISTENS:
                found[os.fsdecode(words[9])] = f"port {int(words[1].rpartition(b':')[2], 16)}"
    for words in map(bytes.split, read_of(pid, "net/unix").splitlines()[1:]):
        if len(words) > 7 and int(words[3], 16) & ACCEPTS:
            found[os.fsdecode(words[6])] = printable(os.fsdecode(words[7]))
    return found


def listening_place(pids: "Iterable[int]") -> "tuple[int, str]":
    """The first of these processes that listens, and where: `port 6379`, or the path of a socket; 0 and no place if none does."""
    for pid in pids:
        known = listening_sockets(pid)
        with contextlib.suppress(OSError):
            for name in os.listdir(f"/proc/{pid}/fd"):
                with contextlib.suppress(OSError):
                    kind, _, inode = os.readlink(f"/proc/{pid}/fd/{name}").partition(":")
                    if kind == "socket" and inode.strip("[]") in known:
                        return pid, known[inode.strip("[]")]
    return 0, ""


# ---- a process of its own

def in_process(act: "Callable[[], Any]") -> Any:
    """What act() returns, as JSON has it, from a process of its own. None of what that starts is left, however it or this process ends."""
    set_process(SUBREAPER, 1)
    reading, writing = os.pipe()
    own, before = os.getpid(), signal.pthread_sigmask(signal.SIG_BLOCK, WAITING)
    pid = os.fork()
    if not pid:
        answer_parent(act, own, writing)
    os.close(writing)
    try:
        signal.pthread_sigmask(signal.SIG_SETMASK, before)
        with open(reading, "rb") as file:
            answer = file.read()  # to the end of the process
    finally:
        signal.pthread_sigmask(signal.SIG_BLOCK, WAITING)
        end_child(pid)
        signal.pthread_sigmask(signal.SIG_SETMASK, before)
    found = json.loads(answer) if answer else {"refused": [3, "the process that ran the server was killed"]}
    if "refused" in found:
        raise Refusal(*found["refused"])
    return found["found"]


def end_child(pid: int) -> None:
    """Ends the process of `in_process`, which nobody has waited for, and then what it left."""
    with contextlib.suppress(OSError):
        os.kill(pid, signal.SIGTERM)
        end = time.monotonic() + 2 * PATIENCE
        while not os.waitpid(pid, os.WNOHANG)[0] and time.monotonic() < end:
            time.sleep(0.01)
    end_descendants()


def raise_ended(number: int, _: object) -> NoReturn:
    for each in WAITING:
        signal.signal(each, signal.SIG_IGN)
    raise EndSignal(number)


def answer_parent(act: "Callable[[], Any]", parent: int, writing: int) -> NoReturn:
    """Calls act() in the child, answers, and ends it."""
    answer: dict = {}
    try:
        os.setsid()  # what a terminal sends to all of a command reaches the parent alone, which ends this one
        signal.signal(signal.SIGINT, signal.SIG_IGN)
        for each in (signal.SIGTERM, signal.SIGHUP):
            signal.signal(each, raise_ended)
        set_process(SUBREAPER, 1)
        set_process(DEATH_SIGNAL, signal.SIGTERM)
        signal.pthread_sigmask(signal.SIG_UNBLOCK, WAITING)
        if os.getppid() == parent:
            answer = {"found": act()}
    except Refusal as refused:
        answer = {"refused": [refused.status, refused.text]}
    except Exception as error:
        answer = {"refused": [3, f"this was not foreseen, please report it: {type(error).__name__}: {error}"]}
    except BaseException:
        pass
    finally:
        with contextlib.suppress(BaseException):
            end_descendants()
        with contextlib.suppress(BaseException):
            if os.getppid() == parent:
                os.write(writing, json.dumps(answer).encode() if answer else b"")
            else:  # it was killed, and its folders are left to this one
                private_folder.remove_left()
        os._exit(0)


def begin_program() -> None:
    """In a child that is to run a program: no handler of ours, and its end with ours."""
    for each in WAITING:
        signal.signal(each, signal.SIG_DFL)
    set_process(DEATH_SIGNAL, signal.SIGKILL)
