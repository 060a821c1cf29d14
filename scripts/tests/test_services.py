"""Tests tune_program with --load, on a server of its own that forks workers, changes its user and leaves its terminal: what is ready, loaded and
stopped in each form, what is printed, and that no process is left after any end. Scudo is a stand-in. And redis-server where it is installed.

With --kills N the last part of these tests ends so many runs at random moments."""

import contextlib
import os
import random
import re
import shutil
import signal
import subprocess
import sys
import time

import checks
import scudo_stand_in
from checks import expect
from commands import Commands
from mte_scripts.places import SCRIPTS
from mte_scripts.tables import process_tree, processes, service_runs, verdict
from server_runs import free_ports

HERE = os.path.dirname(os.path.realpath(__file__))
LOAD = r"""
import socket, sys
for number in sys.argv[2:]:
    with socket.create_connection(("127.0.0.1", int(sys.argv[1])), 20) as one:
        one.sendall(number.encode())
        one.recv(10)
print("1,234.5 requests per second and a latency of 7 ms")
"""
# what memcached keeps
KEEP = """
import socket, sys
with socket.create_connection(("127.0.0.1", int(sys.argv[1])), 20) as one:
    for number in range(2000):
        one.sendall(b"set key%d 0 0 100\\r\\n%b\\r\\n" % (number, bytes(100)))
        one.recv(100)
"""
TUNE = os.path.join(SCRIPTS, "tune_program")
# tune_program that waits a second where it waits a minute
IMPATIENT = """
import sys
sys.path.insert(0, sys.argv.pop(1))
from mte_scripts import entry_point
from mte_scripts.tables import service_runs
service_runs.READY = service_runs.END = 1
entry_point.run("tune_program", "tables.tune_program.tune")
"""


def marked_processes(mark, folder):
    """The processes with this text in their environment, or that work in this folder: redis-server writes over its environment."""
    found = []
    for name in filter(str.isdigit, os.listdir("/proc")):
        with contextlib.suppress(OSError), open(f"/proc/{name}/environ", "rb") as file:
            is_ours = mark.encode() in file.read() or os.readlink(f"/proc/{name}/cwd") == os.path.realpath(folder)
            if is_ours and not process_tree.process_of(name).is_gone:
                found.append(f"{name} {process_tree.name_of(int(name))}")
    return found


def numbers_of(line):
    return [float(each.replace(",", "")) for each in re.findall(r"[\d,]+\.?\d*", line)]


class Services(Commands):
    @classmethod
    def setup_class(cls):
        super().setup_class()
        checks.need("cc", "services")
        os.chmod(cls.place, 0o755)  # the server's other user goes through it
        cls.server = os.path.join(cls.place, "services_server")
        subprocess.run(["cc", "-O1", os.path.join(HERE, "services_server.c"), "-o", cls.server], check=True)
        cls.scudo, environment = scudo_stand_in.make(cls.place)
        cls.environment.update(CXX=environment["CXX"], MTE_TEST_MARK=f"services.{os.getpid()}", TMPDIR=os.path.join(cls.place, "temporary"))
        os.mkdir(cls.environment["TMPDIR"])
        for name in ("LD_PRELOAD", "XDG_CACHE_HOME"):  # the engines are in the user's own cache
            cls.environment.pop(name, None)
        cls.environment.update({name: value for name, value in os.environ.items() if name == "XDG_CACHE_HOME"})
        with open(os.path.join(cls.place, "load.py"), "w") as file:
            file.write(LOAD)
        cls.port = str(free_ports(1)[0])

    def load(self, *numbers):
        return f"{sys.executable} {self.path('load.py')} {self.port} {' '.join(numbers or ('4000', '5000'))}"

    def tuned(self, status, *words, server=(), load=None, is_patient=True, **more):
        """Runs tune_program with a load; no process is left."""
        shutil.rmtree(self.path("out"), ignore_errors=True)
        given = ["--load", load or self.load(), *words, "--output", "out", "--", self.server, self.port, *server]
        got = self.call(*([TUNE] if is_patient else [sys.executable, "-c", IMPATIENT, SCRIPTS]), *given, **more)
        expect(f"{self.name}: status {status}", got == status, got, self.out, self.err)
        left = self.left_processes()
        expect(f"{self.name}: no process is left", not left, *left)
        folders = os.listdir(self.path("temporary"))
        expect(f"{self.name}: no folder is left", not folders, *folders)

    def test_forms(self):
        """When it is ready and how it is stopped, in each form; and each kind of server, whose requests all count."""
        ready_command = f"{sys.executable} -c 'import socket; socket.create_connection((\"127.0.0.1\", {self.port}))'"
        stop_command = "for each in /proc/[0-9]*; do grep -qs services_server $each/comm && kill -INT ${each#/proc/}; done; true"
        for server, words in [([], []), ([], ["--ready", self.port, "--stop", "SIGTERM"]),
                              (["stubborn"], ["--ready", "/listens at/", "--stop", "int"]),
                              (["stubborn"], ["--ready", ready_command, "--stop", stop_command]), (["user"], []),
                              (["daemon"], ["--ready", self.port]), (["forks", "user"], ["--ready", "/last$/"]),
                              (["forks", "user", "daemon"], ["--stop", "TERM"])]:
            self.tuned(0, *words, server=server)
            counts = dict(map(int, line.split()) for line in self.read("out/program.profile").splitlines() if line[0].isdigit())
            expect(f"{server}: the blocks that count", counts.get(777, 0) == 6001 and counts.get(1555, 0) == 2999, counts)
            shared = bool({"forks", "daemon"} & {*server})
            expect(f"{server}: one process alone has a timeline", os.path.exists(self.path("out/program.timeline")) != shared)
            expect(f"{server}: what is said of several", ("as with --all" in self.err) == shared, self.err)
            shutil.rmtree(self.path("out"))
        words = ["--load", self.load(), "--output", "shell", "--", "sh", "-c", f"exec {self.server} {self.port}"]
        self.ends(0, "services_server, predicted *", TUNE, *words)  # the name of what runs in the shell's place

    def test_refusals(self):
        """What does not fit is refused before anything runs, or in a line that says what to change."""
        for words, says in [(["--ready", "80", "true"], "--ready goes with --load 'CMD'"),
                            (["--idle", "x", "true"], "--idle takes seconds from 0 to 3600"),
                            (["--load", "x", "--read", "x"], "--read runs no program, so there is no place for --load"),
                            (["--load", "x", "--who", "true"], "--who is for a program that ends by itself"),
                            (["--load", "x", "--measure", "(", "true"], "--measure takes no `(`"),
                            (["--load", "x", "--ready", "/(/", "true"], "--ready takes no `/(/`"),
                            (["--load", "x", "--stop", "FOO", "true"], "there is no signal FOO"),
                            (["--verify", self.scudo, "--only", "x", "true"], "--load 'CMD'")]:
            self.ends(2, "", TUNE, *words)
            self.says(says)
        for words, server, load, says in [
            ([], ["x"], "echo wrong words; exit 3", "while it was recorded, the load ended with status 3 (`wrong words`)"),
            ([], [], self.load("die"), "services_server ended under its load (`it listens at last`)"),
            (["--ready", "false"], [], "true", "is not ready after 1 s: waited for `false`, which has to end with status 0 (`it listens at last`)"),
            (["--ready", "/never/"], [], "true", "is not ready after 1 s: waited for a line with /never/ in what it prints"),
            (["--ready", "1"], [], "true", "is not ready after 1 s: waited for port 1 of localhost"),
        ]:
            self.tuned(3, *words, server=server, load=load, is_patient=False)
            self.says(says)
        self.ends(3, "", TUNE, "--load", "true", "--output", "none", "--", "sh", "-c", "echo no room; exit 1")
        self.says("sh ended before it was ready (`no room`)")
        with subprocess.Popen([self.server, self.port], env={**self.environment, "MTE_TEST_MARK": ""}) as other:
            time.sleep(0.5)
            self.tuned(3, "--ready", self.port)
            self.says(f"something else listens on port {self.port} already")
            other.terminate()
        self.tuned(0, server=["stubborn"], is_patient=False)
        self.says("services_server did not end within 1 s of --stop TERM, and was killed")

    def test_hints(self):
        """A server without a load is told what to add, before it ends and after; and so is a script that starts one beside its load."""
        words = [TUNE, "--verify", self.scudo, "--output", "bare", self.server, self.port]
        with subprocess.Popen(words, cwd=self.place, env=self.environment, stdout=subprocess.PIPE, stderr=subprocess.PIPE, text=True) as run:
            line = next(each for each in run.stderr if "listens on" in each)
            run.send_signal(signal.SIGTERM)
            _, error = run.communicate(timeout=60)
        add = "for a server add what loads it, and ends: --load 'CMD', as in `tune_program --verify SCUDO --load 'CMD' -- services_server ..`"
        expect("a bare server: what to add", f"services_server listens on port {self.port}: {add}" in line, line)
        expect("a bare server: it ends, and is not measured", run.returncode == 3 and "was ended by a signal, so it is not measured" in error, error)
        script = f"{self.server} {self.port} & sleep 0.5; {self.load()}; kill $!; wait"
        self.ends(3, "", TUNE, "--verify", self.scudo, "--output", "both", "sh", "-c", script, PYTHONMALLOC="malloc")
        self.says("--verify measures one program, so name that alone; for a server add what loads it, and ends: --load 'CMD'")
        own = [line for line in self.err.splitlines() if line.startswith("tune_program: ")]
        expect("no hint that leads nowhere", own and "--only" not in "".join(own), *own)
        left = self.left_processes()
        expect("hints: no process is left", not left, *left)

    def test_program_in_a_round(self):
        """A program that ends by itself is ended with the command too, while it is measured."""
        words = [TUNE, "--verify", self.scudo, "--output", "slow", "sleep", "3"]
        with subprocess.Popen(words, cwd=self.place, env=self.environment, stdout=subprocess.PIPE, stderr=subprocess.PIPE, text=True) as run:
            next(each for each in run.stderr if "round 1 of 5" in each)
            time.sleep(1)
            run.send_signal(signal.SIGTERM)
            _, error = run.communicate(timeout=60)
        left = self.left_processes()
        expect("TERM in a round of --verify: it ends, and no process is left", run.returncode == 143 and not left, run.returncode, error, *left)
        expect("TERM in a round of --verify: it says what is kept", "interrupted; what was made until then is in slow" in error, error)

    def verdict_of(self, *words, server=()):
        """Runs it with --verify: the rows of the printed table by allocator, and what is printed in one line."""
        self.tuned(0, "--verify", self.scudo, "--idle", "0.3", *words, server=server)
        rows = {name: numbers_of(rest) for name, rest in re.findall(r"(?m)^(\w+, now|Scudo's default|least \w+) +(\S.*)$", self.out.split("Allocator")[1].split("\n\n")[0])}
        return rows, " ".join(self.out.split())

    def test_verdict(self):
        """What is printed of a server of one process, and of one with workers of another user: the stand-in takes 40 MB, 16 with a map."""
        for server, several in (([], False), (["forks", "user"], True)):
            rows, said = self.verdict_of("--measure", "latency of (\\d+) ms", server=server)
            plain, default, tuned = (rows[name] for name in (next(iter(rows)), "Scudo's default", next(name for name in rows if name.startswith("least"))))
            wanted = [default[0] - plain[0], tuned[0] - plain[0]]
            expect(f"{server}: the peaks", abs(wanted[0] - 40960) < 1500 and abs(wanted[1] - 16384) < 1500, rows)
            expect(f"{server}: what the peak is", ("no file and no shared memory" in said) == several, said)
            sets = re.findall(r"(?m)^(?:glibc|\w+malloc|Scudo's default|least \w+) .*$", self.out.split("0.3 s idle")[1].split("\n\n")[0])
            expect(f"{server}: a row for each allocator", len(sets) == 3 + len(verdict.installed_allocators()),
                   self.out)
            for row in map(numbers_of, sets):
                loaded, proportional, idle, idle_proportional, _, number = row[-6:]
                expect(f"{server}: its sets", loaded >= proportional > 3000 and idle >= idle_proportional > 3000 and abs(loaded - idle) < 3000, row)
                expect(f"{server}: the load's number", number == 7, row)
            first = self.out.splitlines()[0]
            expect(f"{server}: what is measured is the first line", first.startswith(f"services_server: measured, the table saves {wanted[0] - wanted[1]:,.0f} KiB in Scudo"), first)
            expect(f"{server}: what is predicted comes after it", "What was recorded, and is predicted of it:" in said.split("Measured, 5 runs each")[1], said)
            runs = self.read("out/measured.txt").splitlines()
            expect(f"{server}: a line for each run", len(runs) == 1 + 5 * (3 + len(verdict.installed_allocators())),
                   *runs)
            expect("progress with what is left", "round 5 of 5" in self.err and "left" in self.err, self.err)
        self.tuned(3, "--verify", self.scudo, "--measure", "nothing (\\d+)")
        self.says("the load printed no number that --measure `nothing (\\d+)` finds")

    def test_interrupts(self):
        """Ctrl-C while it measures: what is measured is kept, and a verdict is made where there are two rounds."""
        for round_number, says in ((1, "that is too few for a verdict"), (4, "the verdict is of these")):
            shutil.rmtree(self.path("out"), ignore_errors=True)
            words = [TUNE, "--verify", self.scudo, "--load", self.load(), "--idle", "0", "--output", "out", "--", self.server, self.port, "forks"]
            with subprocess.Popen(words, cwd=self.place, env=self.environment, stdout=subprocess.PIPE, stderr=subprocess.PIPE, text=True) as run:
                error = []
                for line in run.stderr:
                    error.append(line)
                    if f"round {round_number} of 5" in line:
                        run.send_signal(signal.SIGINT)
                        break
                out, rest = run.communicate(timeout=60)
            error = "".join([*error, rest])
            expect(f"Ctrl-C in round {round_number}: status 130", run.returncode == 130, run.returncode, error)
            expect(f"Ctrl-C in round {round_number}: it says what is kept", says in error and "out/measured.txt has them" in error, error)
            expect(f"Ctrl-C in round {round_number}: the verdict", ("pays back" in out) == (round_number > 2), out)
            kept = len(self.read("out/measured.txt").splitlines()) - 1
            expect(f"Ctrl-C in round {round_number}: as many are kept as it says", f"{kept} of" in error, kept, error)
            left = self.left_processes()
            expect(f"Ctrl-C in round {round_number}: no process is left", not left, *left)
        shutil.rmtree(self.path("out"))
        words[words.index(self.load())] = f"touch {self.path('begun')}; sleep 60"
        ends = self.path("ends")
        with subprocess.Popen(words, cwd=self.place, env={**self.environment, "MTE_TEST_END": ends}, stderr=subprocess.DEVNULL) as run:
            while not os.path.exists(self.path("begun")) and run.poll() is None:
                time.sleep(0.1)
            run.send_signal(signal.SIGTERM)
        expect("TERM under a load: the server is stopped as ever, and not killed", run.returncode == 143 and os.path.exists(ends), run.returncode)

    def test_counted_programs(self):
        """Which program of a server counts, by its requests."""
        for text, others, only, wanted in [("1 100 0 server\n", 0, None, None),
                                           ("1 5 0 sh\n1 100 0 server\n", 0, None, "server"),
                                           ("3 100 0 server\n", 60, None, ""), ("3 100 0 server\n", 9, None, None),
                                           ("1 50 0 sh\n1 50 0 server\n", 50, None, ""),
                                           ("1 50 0 sh\n1 50 0 server\n", 0, "server", None),
                                           ("1 50 0 sh\n2 50 0 server\n", 30, "server", "")]:
            found = processes.counted_program(text, others, only)
            expect(f"of {text!r} {found!r} counts", found == wanted)

    def test_numbers(self):
        """The number that a load prints."""
        for text, pattern, wanted in [("SET: 100.00 requests per second, p50=0.1 msec\rGET: 400.00 requests per "
                                       "second\n", None, 200),
                                      ("Requests per second:    1234.50 [#/sec] (mean)\n", None, 1234.5),
                                      ("tps = 88.25 (without initial connection time)\n", None, 88.25),
                                      ("12,345 of them\n", r"^([\d,]+) of", 12345), ("nothing\n", None, None)]:
            found = service_runs.number_of(text, pattern)
            expect(f"the number of {text!r}", found == wanted or wanted and abs(found - wanted) < 1e-6, found)

    def test_ends(self):
        """Signals at random moments, to the command and to the process that runs the server; the server ignores TERM, and has workers of its own. No
        process is left."""
        forms = [[], ["user"], ["daemon"], ["stubborn"], ["user", "daemon", "stubborn"]]
        self.end_runs([self.server, self.port, "forks"], self.load() + "; sleep 0.3", forms, checks.options.kills, 6)

    def test_installed_ends(self):
        """The same of servers that are installed."""
        self.write("keep.py", KEEP)
        user = ["-u", "nobody"] if os.geteuid() == 0 else []
        for server, forms, load in (
            (["redis-server", "--port", self.port, "--save", ""], [[], ["--daemonize", "yes"], ["--io-threads", "2"]],
             f"redis-benchmark -p {self.port} -q -n 2000 -d 100 set k v"),
            (["memcached", "-l", "127.0.0.1", "-p", self.port, "-U", "0", *user], [[], ["-t", "1"], ["-d"]],
             f"{sys.executable} {self.path('keep.py')} {self.port}"),
        ):
            if not checks.skip_without(f"{server[0]} {load.split()[0]}", f"signals to runs of {server[0]}"):
                self.end_runs(["--ready", self.port, "--", *server], load, forms, checks.options.server_kills, 12)

    def end_runs(self, server, load, forms, kills, most):
        """Ends so many runs with a server in one of these forms, each within some seconds."""
        words = [TUNE, "--verify", self.scudo, "--load", load, "--idle", "0", "--output", "out", *["--"] * ("--" not in server), *server]
        random_ = random.Random(checks.options.seed)
        for number in range(kills):
            shutil.rmtree(self.path("out"), ignore_errors=True)
            kind, moment = random_.choice(["INT", "TERM", "HUP", "KILL", "KILL below", "KILL group"]), random_.random() * most
            more = random_.choice(forms)
            with subprocess.Popen([*words, *more], cwd=self.place, env=self.environment, stdout=subprocess.DEVNULL, stderr=subprocess.DEVNULL,
                                  start_new_session=True) as run:
                time.sleep(moment)
                self.end(run, kind)
                with contextlib.suppress(subprocess.TimeoutExpired):
                    run.wait(3)
                run.terminate()  # one of which another child was killed goes on
                run.wait(60)
            end = time.monotonic() + 10
            while (left := self.left_processes()) and time.monotonic() < end:
                time.sleep(0.05)
            expect(f"{kind} after {moment:.2f} s to {server} with {more}: no process is left ({number})", not left, *left)

    def left_processes(self):
        return marked_processes(self.environment["MTE_TEST_MARK"], self.place)

    def end(self, run, kind):
        if kind == "KILL group":
            os.killpg(run.pid, signal.SIGKILL)
        elif kind == "KILL below":
            below = [int(name) for name in os.listdir("/proc") if name.isdigit() and (found := process_tree.process_of(name)) and found.parent == run.pid]
            process_tree.kill_processes(below)
        else:
            run.send_signal(getattr(signal, f"SIG{kind}"))

    def test_redis(self):
        checks.need("redis-server redis-benchmark", "redis-server under a load")
        load = f"redis-benchmark -p {self.port} -q -n 3000 -r 1000 -d 100 set k__rand_int__ v"
        words = ["--verify", self.scudo, "--load", load, "--ready", self.port, "--idle", "0", "--output", "redis"]
        self.ends(0, "*", TUNE, *words, "--", "redis-server", "--port", self.port, "--save", "", "--appendonly", "no")
        expect("redis: its verdict", "redis-server" in self.out and "pays back 60%" in " ".join(self.out.split()), self.out)
        expect("redis: the load's number", len(re.findall(r"(?m) [\d.]+ +[\d,.]+$", self.out)) >= 3, self.out)
        left = self.left_processes()
        expect("redis: no process is left", not left, *left)


def add_options(parser):
    parser.add_argument("--kills", type=int, default=40, metavar="N", help="end so many runs at random moments (40)")
    parser.add_argument("--server-kills", type=int, default=5, metavar="N", help="of each server that is installed, end so many (5)")
    parser.add_argument("--seed", type=int, default=1, metavar="N", help="of the moments (1)")


if __name__ == "__main__":
    checks.main()
