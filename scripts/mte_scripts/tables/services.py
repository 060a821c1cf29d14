"""What tune_program does for a server, by --load: it is recorded once under its load, and then run under it some times with each allocator."""

import contextlib
import os
import random
import re
import signal
import time
from statistics import median
from typing import Any, NoReturn, Optional

from mte_scripts import private_folder, text_files, text_layout
from mte_scripts.entry_point import Refusal, say
from mte_scripts.recording import children, programs, recording
from mte_scripts.tables import long_runs, process_tree, processes, service_runs, verdict, verification
from mte_scripts.tables.figures import kibibytes
from mte_scripts.tables.result_folder import Folder, Folders
from mte_scripts.tables.service_runs import Measurement, Server

RUNS_FILE = "measured.txt"
IDLE, MOST_IDLE = 6.0, 3600  # seconds: Scudo gives memory back each 5 s at most
LOOKS = 0.5  # seconds from one look for a server to the next
STREAM_WAIT = 60  # seconds for a recorder to begin
SPELLED = {"stop": "--stop", "ready": "--ready", "idle": "--idle", "measure": "--measure"}
COLUMNS = "peak own loaded_resident loaded_proportional idle_resident idle_proportional processor_seconds load_seconds number processes failed"


def agree(options: Any) -> None:
    """Refuses options of a server that don't fit."""
    if options.load is None:
        if given := [name for dest, name in SPELLED.items() if getattr(options, dest) is not None]:
            raise Refusal(2, f"{given[0]} goes with --load 'CMD', the load of a server")
        return
    if options.read is not None:
        raise Refusal(2, "--read runs no program, so there is no place for --load")
    for name in ("who", "settings"):
        if getattr(options, name):
            raise Refusal(2, f"--{name} is for a program that ends by itself: leave it out, or --load")
    for pattern, name in ((options.measure, "--measure"), (options.ready, "--ready")):
        try:
            re.compile(pattern or "")
        except re.error as error:
            if name == "--measure" or service_runs.is_pattern(pattern):
                raise Refusal(2, f"{name} takes no `{pattern}`: {error}") from None
    server = server_of(options)
    if server.stop_signal() is None and re.fullmatch("(SIG)?[A-Z0-9]+", server.stop):
        raise Refusal(2, f"--stop takes a signal such as TERM, or a command: there is no signal {server.stop}")


def server_of(options: Any) -> Server:
    idle = IDLE if options.idle is None else options.idle
    return Server(options.words, options.load, options.ready, options.stop or "TERM", idle, options.measure)


def hint(word: str) -> str:
    """What to add for a server."""
    return f"for a server add what loads it, and ends: --load 'CMD', as in `tune_program --verify SCUDO --load 'CMD' -- {word} ..`"


def remedy(options: Any, name: str = "NAME") -> str:
    """What to do where a program starts the one that is meant."""
    if options.verify is None:
        return f"take --only {name}"
    return f"--verify measures one program, so name {'that' if name == 'NAME' else name} alone; {hint('redis-server')}"


def watch(options: Any) -> "contextlib.AbstractContextManager[None]":
    """While a program is recorded that is to be measured without a load: says at once if it is a server."""
    def look() -> bool:
        pid, place = process_tree.listening_place(process_tree.descendants())
        if is_port := place.startswith("port"):
            name = process_tree.name_of(pid)
            say("tune_program", f"{name} listens on {place}: {hint(name)}; Ctrl-C ends this one")
        return is_port

    is_watched = options.verify is not None and options.load is None
    return children.call_each(LOOKS, look) if is_watched else contextlib.nullcontext()


def refuse_ended(options: Any, runs: "long_runs.Runs | None") -> None:
    """Refuses to measure a program that did not end by itself."""
    if options.load is None and runs is not None and runs.signals:
        raise Refusal(3, f"{options.words[0]} was ended by a signal, so it is not measured: {hint(options.words[0])}")


# ---- the record

class ServiceRuns(long_runs.Runs):
    """The runs of a server under its load that are recorded. SHARED is a folder for what it reads."""

    def __init__(self, options: Any, work: private_folder.Folder, shared: private_folder.Folder) -> None:
        self.server, self.shared = server_of(options), shared
        self.stream, self.recorder_log = shared.file(f"stream.{os.urandom(8).hex()}"), work.file("recorder.log")
        only = [] if options.only is None else ["--only", options.only]
        super().__init__([*only, *["--as-scudo"] * (not options.all), "--follow", self.stream], work, os.devnull)

    def run_recorder(self, command: "list[str]", to: int, again: "int | None") -> int:
        from mte_scripts.recording import profile_program  # it takes its time, which other runs are spared

        library = profile_program.install_library(recording.make("stream", self.work), self.shared.path)
        say("tune_program", f"recording {self.server.words[0]} under its load")
        return process_tree.in_process(lambda: self.record_run(command, to, library))

    def record_run(self, command: "list[str]", to: int, library: str) -> int:
        """The status of the recorder COMMAND, which prints to the descriptor TO."""
        variables = programs.environment()
        variables[b"MTE_STREAM"] = os.fsencode(self.stream)
        variables[b"LD_PRELOAD"] = b":".join(filter(None, (os.fsencode(library), variables.get(b"LD_PRELOAD"))))
        run = service_runs.ServiceRun(self.server, variables, self.work.path)
        text_files.write_file(self.recorder_log, "")
        with open(self.recorder_log, "wb") as log:  # where it is killed, its folders go with this one
            recorder = run.start(command, to, log.fileno(), {**programs.environment(), b"TMPDIR": os.fsencode(self.work.path)})
        run.apart.add(recorder)
        end = time.monotonic() + STREAM_WAIT
        while not os.path.exists(self.stream) and recorder not in run.ended:
            run.reap()
            time.sleep(service_runs.LOOKS)
            if time.monotonic() > end:
                raise Refusal(3, f"the recorder made no {self.stream} in {STREAM_WAIT} s")
        if recorder in run.ended:
            return run.ended[recorder]
        os.chmod(self.stream, 0o666)  # of a server that changes its user, which alone knows the name
        with run.soft_end():
            run.begin()
            _, failed = run.run_load()
            if failed:
                raise Refusal(3, f"while it was recorded, {failed}")
        if run.stop():
            say("tune_program", f"{run.name} did not end within {service_runs.END} s of --stop {self.server.stop}, and was killed")
        process_tree.kill_processes([recorder], signal.SIGTERM)
        while recorder not in run.ended:
            run.reap()
            time.sleep(service_runs.LOOKS)
        return run.ended[recorder]


def count(options: Any, folders: Folders, others: list) -> "tuple[Any, long_runs.RunRecord, ServiceRuns]":
    """Records the server: the process that makes nine tenths of its requests over time, or else all requests of all its processes. The options
    by which that is, the record, and how it is made again."""
    while True:
        runs, folder = ServiceRuns(options, folders.work, folders.shared), folders.new
        words = runs.words
        beside = [] if options.all else ["--processes", runs.file("processes"), "--blocks", runs.file("blocks")]
        runs.words = [*beside, *words]
        recorded, runs.words, blocks = record_once(options, folder, runs, others), words, runs.take_text("blocks")
        name, started = None, os.fsdecode(runs.take_text("processes"))
        if not options.all:
            rest = recorded.measured.get("others", 0) if recorded else 0
            name = processes.counted_program(started, rest, options.only, recorded is not None)
        if name is None and recorded:
            if started and not options.only:
                options = options.with_values(ran=processes.last_program(started, options.words))
            has = f"{options.name()} has"
            notes = [re.sub("^the service has", lambda _: has, note) for note in recorded.notes]
            return options, recorded._replace(notes=notes, blocks=blocks), runs
        folder.drop_record()
        if name is None:
            raise Refusal(3, f"there is no profile of {options.words[0]}{service_runs.last_line(runs.recorder_log)}")
        if name:
            say("tune_program", f"{processes.tell_most(name)}: it is recorded again for that, as with --only {name}")
            options = options.with_values(only=name)
        else:
            say("tune_program", "its processes share the requests: it is recorded again for all requests of all of them, as with --all")
            if options.objective == "footprint" and options.is_objective_given:
                raise Refusal(3, "of several processes there is no footprint: take --objective waste")
            options = options.with_values(all=True, objective="waste")


def record_once(options: Any, folder: Folder, runs: ServiceRuns, others: list) -> "long_runs.RunRecord | None":
    """None where the process that is followed requested nothing, or there is no record."""
    try:
        return long_runs.count(options, folder, runs, others)
    except Refusal:
        if not os.path.isfile(runs.recorder_log) or not text_files.read(runs.recorder_log):
            raise
        return None


# ---- what is measured

class Rounds:
    """The runs of a server with each of the LIBRARIES, None for the present allocator; in FOLDER there is a line for each."""

    def __init__(self, server: Server, libraries: "dict[str, Optional[str]]", folder: Folder, work: str) -> None:
        self.server, self.libraries, self.folder, self.work = server, libraries, folder, work
        self.readings: "dict[str, list[Measurement]]" = {name: [] for name in libraries}
        self.takes, self.stopped = float(service_runs.END), ""
        self.lines = ["\t".join(["allocator", *COLUMNS.split()])]

    def measure(self) -> Optional[BaseException]:
        """Runs all rounds. Where a signal ends them, this; what was measured is kept."""
        order, done, begin, most = random.Random(verdict.SEED), 0, time.monotonic(), verdict.RUNS * len(self.libraries)
        say("tune_program", f"{most} runs of {self.server.words[0]} under its load, with {', '.join(self.libraries)}; Ctrl-C keeps what is measured")
        try:
            for made in range(verdict.RUNS):
                for name in order.sample(sorted(self.libraries), len(self.libraries)):
                    reading = self.read_once(name)
                    done += 1
                    left = (time.monotonic() - begin) / done * (most - done)
                    say("tune_program", f"round {made + 1} of {verdict.RUNS}, {name}: {measured_text(reading)}; {time_text(left)} left")
        except (KeyboardInterrupt, SystemExit) as ended:
            self.stopped = f"{done} of {most} runs were made"
            return ended
        return None

    def read_once(self, name: str) -> Measurement:
        library = self.libraries[name]
        run = service_runs.ServiceRun(self.server, self.variables(library), self.work, self.takes)
        found = process_tree.in_process(lambda: list(run.read_run(library)))
        reading = Measurement._make([*found[:2], tuple(found[2]), tuple(found[3]), *found[4:]])
        first = next(iter(self.libraries))
        if reading.failed and name == first:
            raise Refusal(3, reading.failed)
        if self.server.measure and reading.number is None and not reading.failed:
            raise Refusal(3, f"the load printed no number that --measure `{self.server.measure}` "
                             f"finds{service_runs.last_line(run.load_log)}")
        if reading.killed and self.takes > service_runs.SHORT_END:
            self.takes = service_runs.SHORT_END
            say("tune_program", f"it did not end by --stop {self.server.stop}, and was killed: so are the next ones after {self.takes:.0f} s")
        self.readings[name].append(reading)
        number = "" if reading.number is None else f"{reading.number:.6g}"
        cells = [*reading[:2], *reading.loaded, *reading.idle, *(f"{each:.3f}" for each in reading[4:6]), number, *reading[7:9]]
        self.lines.append("\t".join([name, *map(str, cells)]))
        self.folder.write(RUNS_FILE, "".join(f"{line}\n" for line in self.lines))
        return reading

    def variables(self, library: Optional[str]) -> "dict[bytes, bytes]":
        """The environment of a run. It is equally long for each."""
        found = programs.environment()
        return {**found, b"LD_PRELOAD": verification.preload_value(library, self.libraries.values(), found.get(b"LD_PRELOAD", b""))}

    def has_rows(self) -> bool:
        return min(map(len, self.readings.values())) > 1

    def is_several(self) -> bool:
        """Whether the server has several processes."""
        return any(reading.processes > 1 for each in self.readings.values() for reading in each)

    def rows(self) -> "list[verdict.Row]":
        several = self.is_several()
        found = []
        for name, readings in self.readings.items():
            sound = [each for each in readings if not each.failed] or readings
            peaks, times = sorted(each.own if several else each.peak for each in sound), sorted(each.spent for each in sound)
            found.append(verdict.Row(name, peaks, times, sum(bool(each.failed) for each in readings)))
        return found

    def further_lines(self) -> "list[str]":
        """What else was measured, and in which way."""
        several = self.is_several()
        how = "of all processes together what is no file and no shared memory, sampled" if several else "the resident set, as Linux counts it"
        said = f"The peak is {how}. After the load, and after {self.server.idle:g} s without one: the resident and the proportional set; the load's time and number."
        failed = {name: next(each.failed for each in readings if each.failed) for name, readings in self.readings.items() if any(each.failed for each in readings)}
        lines = [line for name, why in failed.items() for line in text_layout.wrap_text(f"! With {name}: {why}", indent="  ")]
        stopped = [f"! {self.stopped}: what is said is of these."] if self.stopped else []
        return ["", *text_layout.wrap_text(said), *self.rest_lines(), *lines, *stopped]

    def rest_lines(self) -> "list[str]":
        """A line for each allocator: what the server takes after its load and after some time without one, and what the load printed."""
        rows: "list[tuple]" = [("KiB", "loaded", "proport.", f"{self.server.idle:g} s idle", "proport.", "load, s", "number")]
        for name, readings in self.readings.items():
            sets = [[each.loaded[0] for each in readings], [each.loaded[1] for each in readings], [each.idle[0] for each in readings],
                    [each.idle[1] for each in readings]]
            numbers = [each.number for each in readings if each.number is not None]
            number = f"{median(numbers):,.6g}" if numbers else ""
            rows.append((name, *(f"{int(median(each)) // 1024:,}" for each in sets), f"{median(each.load for each in readings):.2f}", number))
        return text_layout.columns(rows, most=80)


def measured_text(reading: Measurement) -> str:
    if reading.failed:
        return reading.failed
    number = "" if reading.number is None else f", the load says {reading.number:,.6g}"
    return f"peak {kibibytes(reading.own if reading.processes > 1 else reading.peak)}, {reading.spent:.2f} s of processor time{number}"


def time_text(seconds: float) -> str:
    return f"about {seconds:.0f} s are" if seconds < 120 else f"about {seconds / 60:.0f} minutes are"


def refuse_end(folder: Folder, rounds: Rounds, ended: BaseException) -> NoReturn:
    """Says what is kept of rounds that a signal ended, and goes on with its end."""
    kept = "the verdict is of these" if rounds.has_rows() else "that is too few for a verdict"
    say("tune_program", f"{rounds.stopped}: {kept}; {folder.file(RUNS_FILE)} has them")
    raise ended
