"""One run of a server under a load: it is started in a session of its own, is waited for until it is ready, and is stopped after the load. What its
processes take is read from outside, and none of them is left."""

import contextlib
import os
import re
import signal
import socket
import statistics
import subprocess
import time
from collections.abc import Callable, Iterator
from typing import NamedTuple, Optional

from mte_scripts import text_files
from mte_scripts.entry_point import Refusal, printable, say
from mte_scripts.tables import process_tree

READY, END, SHORT_END = 60, 60, 3  # seconds: for a server to be ready; for its end; and where it was killed before
SCANS = 5  # a daemon is seen in one of so many, whose first process and the next leave their children
LATE = 1  # seconds after which a process that lost its parent gets the signal too
SAMPLES, LOOKS = 0.2, 0.05  # seconds from one reading to the next, and from one look at what is waited for
MINUTE = 60
RATES = (  # what loads print of themselves, for a number without --measure
    r"([\d.]+) requests per second", r"^Requests per second:\s+([\d.]+)", r"^Requests/sec:\s+([\d.]+)", r"tps = ([\d.]+)", r"^Totals\s+([\d.]+)",
)


class Server(NamedTuple):
    """How a server is started, loaded and stopped; the words of the options."""

    words: "list[str]"
    load: str
    ready: Optional[str]
    stop: str
    idle: float
    measure: Optional[str]

    def stop_signal(self) -> Optional[int]:
        """The signal that --stop names; None where it is a command."""
        name = self.stop.upper().removeprefix("SIG")
        return getattr(signal, f"SIG{name}", None) if name.isalnum() and not name.isdigit() else None


class Measurement(NamedTuple):
    """What a run took: in bytes the peak of one process by Linux's own count, the most private bytes of all at a time, and the resident and the
    proportional set after the load and after the idle time; the processor time in seconds; what the load took, and the number that it printed.
    FAILED says how it went wrong, empty where it did not; KILLED whether the server had to be killed after --stop."""

    peak: int
    own: int
    loaded: "tuple[int, int]"
    idle: "tuple[int, int]"
    spent: float
    load: float
    number: Optional[float]
    processes: int
    failed: str
    killed: bool


def last_line(path: str) -> str:
    """The last line of a log, in parentheses; empty if there is none."""
    lines = [line for line in text_files.read(path).decode(errors="replace").splitlines() if line.strip()] if os.path.exists(path) else []
    return f" (`{printable(lines[-1].strip())[:200]}`)" if lines else ""


def number_of(text: str, pattern: Optional[str]) -> Optional[float]:
    """The number that a load printed: the geometric mean where there are several."""
    found = []
    for each in (pattern,) if pattern else RATES:
        for match in re.finditer(each, text.replace("\r", "\n"), re.M):
            with contextlib.suppress(ValueError):
                found.append(float((match[1] if match.re.groups else match[0]).replace(",", "")))
    positive = [each for each in found if each > 0]
    return statistics.geometric_mean(positive) if positive else None


class ServiceRun:
    """The run of a SERVER with these VARIABLES of the environment; its logs are in FOLDER. TAKES is how long it is waited for at its end."""

    def __init__(self, server: Server, variables: "dict[bytes, bytes]", folder: str, takes: Optional[float] = None) -> None:
        self.server, self.variables, self.takes = server, variables, END if takes is None else takes
        self.log, self.load_log = os.path.join(folder, "server.log"), os.path.join(folder, "load.log")
        self.apart: "set[int]" = set()  # the sessions and processes of what is not the server's
        self.ended: "dict[int, int]" = {}
        self.peaks: "dict[int, int]" = {}
        self.spent, self.most_own, self.most_processes = 0.0, 0, 0
        self.kept: "list[subprocess.Popen]" = []
        self.name = os.path.basename(server.words[0])

    # ---- processes

    def start(self, words: "list[str]", output: "str | int", error: int = subprocess.STDOUT, variables: "dict[bytes, bytes] | None" = None) -> int:
        """Starts a program in a session of its own; its process. What it prints goes to OUTPUT, a path or a descriptor."""
        file = os.open(output, os.O_WRONLY | os.O_CREAT | os.O_APPEND | os.O_CLOEXEC, 0o600) if isinstance(output, str) else output
        how: dict = {"stdin": subprocess.DEVNULL, "stdout": file, "stderr": error, "start_new_session": True}
        try:
            one = subprocess.Popen(words, env=variables, preexec_fn=process_tree.begin_program, **how)
        except OSError as wrong:
            raise Refusal(3, f"{words[0]} can't be run: {wrong.strerror}") from None
        finally:
            if isinstance(output, str):
                os.close(file)
        self.kept.append(one)  # one that is given up would be waited for by the next start
        return one.pid

    def reap(self) -> None:
        for pid, status, spent in process_tree.reap_children():
            self.ended[pid] = status
            self.spent += spent * (pid not in self.apart)

    def processes(self) -> "list[int]":
        """The server's processes."""
        for _ in range(SCANS):
            self.reap()
            found = process_tree.descendants()
            self.apart |= {pid for pid, each in found.items() if each.session in self.apart}
            if left := sorted(found.keys() - self.apart):
                return left
        return []

    def read(self) -> process_tree.Sizes:
        """What the server takes now."""
        pids = self.processes()
        for pid in pids:
            self.peaks[pid] = max(self.peaks.get(pid, 0), process_tree.peak_of(pid))
        found = process_tree.sizes_of(pids)
        self.most_own, self.most_processes = max(self.most_own, found.own), max(self.most_processes, len(pids))
        return found

    def run_beside(self, command: str, log: str, each: "Callable[[], None]", limit: "float | None" = None) -> Optional[int]:
        """The status of a command of the shell, which is not the server's; None where it takes longer than LIMIT, and is ended."""
        pid = self.start(["sh", "-c", command], log)
        self.apart.add(pid)
        begin = time.monotonic()
        while pid not in self.ended and (limit is None or time.monotonic() - begin < limit):
            each()
            self.reap()
            if pid not in self.ended:
                time.sleep(LOOKS)
        process_tree.kill_processes(one for one, found in process_tree.descendants().items() if found.session == pid)
        return self.ended.get(pid)

    # ---- its steps

    def wait_until_ready(self) -> None:
        begin = told = time.monotonic()
        while not self.is_ready():
            if not self.processes():
                raise Refusal(3, f"{self.name} ended before it was ready{last_line(self.log)}")
            now = time.monotonic()
            if now - begin > READY:
                remedy = "" if self.server.ready else "; say by --ready PORT, --ready /REGEX/ or --ready 'CMD' when it is ready"
                raise Refusal(3, f"{self.name} is not ready after {READY} s: waited for "
                                 f"{self.awaited_sign()}{last_line(self.log)}{remedy}")
            if now - told > 5:
                told = now
                say("tune_program", f"waiting for {self.name}: {self.awaited_sign()}; {READY - (now - begin):.0f} s are left")
            time.sleep(LOOKS)

    def awaited_sign(self) -> str:
        """What says that the server is ready."""
        ready = self.server.ready
        if ready is None:
            return "a socket of its own that listens"
        if ready.isdigit():
            return f"port {ready} of localhost"
        return f"a line with {ready} in what it prints" if is_pattern(ready) else f"`{ready}`, which has to end with status 0"

    def is_ready(self) -> bool:
        ready = self.server.ready
        if ready is None:
            return process_tree.listening_place(self.processes())[0] > 0
        if ready.isdigit():
            return answers(int(ready))
        if is_pattern(ready):
            return bool(re.search(ready[1:-1], text_files.read(self.log).decode(errors="replace"), re.M))
        return self.run_beside(ready, os.devnull, lambda: None, READY) == 0

    def run_load(self) -> "tuple[float, str]":
        """Runs the load: how long it took, and what went wrong, if something did."""
        begin = sampled = told = time.monotonic()

        def sample() -> None:
            nonlocal sampled, told
            now = time.monotonic()
            if now - sampled >= SAMPLES:
                self.read()
                sampled = time.monotonic()
            if now - told >= MINUTE:
                told = now
                say("tune_program", f"the load has run for {now - begin:.0f} s; Ctrl-C ends it")

        status = self.run_beside(self.server.load, self.load_log, sample)
        took = time.monotonic() - begin
        if status:
            return took, f"the load ended with status {status}{last_line(self.load_log)}"
        return took, "" if self.processes() else f"{self.name} ended under its load{last_line(self.log)}"

    def rest(self) -> None:
        end = time.monotonic() + self.server.idle
        while (left := end - time.monotonic()) > 0:
            time.sleep(min(left, SAMPLES))
            self.read()

    def stop(self) -> bool:
        """Stops the server. Whether it had to be killed."""
        number, begin = self.server.stop_signal(), time.monotonic()
        if number is None:
            self.run_beside(self.server.stop, self.log, lambda: None, self.takes)
        told: "set[int]" = set()
        while pids := self.processes():
            late = time.monotonic() - begin
            if late > self.takes:
                self.kill()
                return True
            if number is not None:
                # its first process; and, where one lost its parent by that, this one
                tops = [pid for pid in pids if (found := process_tree.process_of(pid)) and found.parent == os.getpid()]
                fresh = [pid for pid in tops if pid not in told] if not told or late > LATE else []
                process_tree.kill_processes(fresh, number)
                told.update(fresh)
            time.sleep(LOOKS)
        return False

    @contextlib.contextmanager
    def soft_end(self) -> "Iterator[None]":
        """Where a step fails or a signal comes, the server is stopped as ever, if it does that soon: it may have something to remove."""
        try:
            yield
        except BaseException:
            self.takes = min(self.takes, SHORT_END)
            with contextlib.suppress(Refusal):
                self.stop()
            raise

    def kill(self) -> None:
        while pids := self.processes():
            process_tree.kill_processes(pids)
            time.sleep(LOOKS)

    def need_library(self, library: str) -> None:
        """Refuses a server whose largest process has not the library: a run with it would be one without."""
        largest = max(self.processes(), key=lambda pid: process_tree.sizes_of([pid]).own, default=0)
        maps = process_tree.read_of(largest, "maps")
        if maps and os.fsencode(os.path.basename(library)) not in maps:
            why = "is it static or set-user-id, or is its environment cleared before it?"
            raise Refusal(3, f"{process_tree.name_of(largest)} of the server does not load {os.path.basename(library)} "
                             f"by LD_PRELOAD: {why}")

    def begin(self) -> None:
        """Starts the server, and waits until it is ready."""
        for log in (self.log, self.load_log):
            text_files.write_file(log, "")
        refuse_other(self.server.ready)
        self.start(self.server.words, self.log, variables=self.variables)
        self.wait_until_ready()

    def read_run(self, library: Optional[str]) -> Measurement:
        """The whole run."""
        with self.soft_end():
            self.begin()
            self.read()
            took, failed = self.run_load()
            loaded = self.read()
            if not failed and library:
                self.need_library(library)
            self.rest()
            idle = self.read()
        killed = self.stop()
        self.reap()
        number = number_of(text_files.read(self.load_log).decode(errors="replace"), self.server.measure)
        peak, after_load, at_rest = max(self.peaks.values(), default=0), (loaded.resident, loaded.proportional), (idle.resident, idle.proportional)
        return Measurement(peak, self.most_own, after_load, at_rest, self.spent, took, number, self.most_processes, failed, killed)


def is_pattern(ready: str) -> bool:
    return len(ready) > 2 and ready[0] == ready[-1] == "/"


def answers(port: int) -> bool:
    """Whether something listens on a port of this machine."""
    for family, place in ((socket.AF_INET, "127.0.0.1"), (socket.AF_INET6, "::1")):
        with contextlib.suppress(OSError), socket.socket(family) as one:
            one.settimeout(1)
            if one.connect_ex((place, port)) == 0:
                return True
    return False


def refuse_other(ready: Optional[str]) -> None:
    """Refuses a port on which something else listens already."""
    if ready is not None and ready.isdigit() and answers(int(ready)):
        raise Refusal(3, f"something else listens on port {ready} already: stop it, or give the server another port")
