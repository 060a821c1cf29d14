"""Compare mte_tool with scripts/tests/plain, which does the same in plain Rust, and print a table in Markdown.

Usage: bench [--instructions] [--branches] [--runs N] [--seed N] [--keep FOLDER] [ROW..]
       bench --growth [--seed N]

A row is start, score, tune, check, footprint, fit, check-fit, peaks, profile, replay or run; or footprint-over, fit-over or
check-fit-over, the same over a timeline; or `run` over a trace that allocates much: run-fifo, run-fragmented, run-whole or
run-realloc; or over an example: run-jq, run-perl or run-sqlite. All of them where none is named.

  --instructions  print instructions alone, no times and no memory
  --branches      print also how many branches were mispredicted, by callgrind's model of a processor
  --runs N        take the least time of N runs, 1 to 10000; 20 where it is left out
  --seed N        make the inputs from this seed, 1 to 65535; 1 where it is left out
  --growth        print how the cost of mte_tool grows with events, granules, quarantine, classes, live blocks and sizes
  --keep FOLDER   leave the inputs, the outputs and the plain program in FOLDER

It builds the two programs, makes the inputs and runs both programs on them. Their outputs and statuses have to be the same; the
outputs of the row start, which is `--version`, are not compared.

A row of the table of growth has the instructions before the first event or size, those for each of them, and the most memory.

Each row has the instructions of the whole run in millions, as callgrind counts them, and how many times ours are the plain ones;
the least processor time of a run, user's and system's; and the most memory that was resident. The columns `plain` are the plain
program's. Instructions repeat but for some thousands. Other work on the machine makes times longer.

Exit status:
  0  the table is printed
  1  two outputs or statuses differ
  2  the words are refused
  3  a program or a write failed, or rustc, valgrind or GNU time is missing

Example:
  bench --instructions score tune check
"""

import contextlib
import os
import random
import re
import shutil
import subprocess
from collections.abc import Callable
from pathlib import Path

from mte_scripts import formats, places, private_folder, program_runs, text_files
from mte_scripts.entry_point import Refusal
from mte_scripts.gate import growth
from mte_scripts.words import Words, number_between

ROOT = Path(places.ROOT)
OURS = ROOT / "crates/mte_tool/out/mte_tool"
RUSTC = os.environ.get("RUSTC", "rustc")
GNU_TIME = "/usr/bin/time"

# the proved program is compared, and no other one
os.environ.pop("MTE_TOOL", None)

# the same for each run, since the start of a program reads it
ENVIRONMENT = {"LC_ALL": "C"}

SCORED = (ROOT / "examples/scudo.classes").read_text()  # the class line of `score`

# what needs a large region
RUN = ["run", "--limit", "32", "--granules", "262144"]

# each row: its words, its input, and what the table says of it
ROWS: "dict[str, tuple]" = {
    "start": (["--version"], None, "the start alone, `--version`"),
    "score": (["score"], "score.in", "`score`, all sizes, 32 classes ({size})"),
    "tune": (["tune", "--limit", "32"], "tune.in", "`tune --limit 32`, 1,023 needs ({size})"),
    "check": (["check"], "check.in", "`check` of its sheet ({size})"),
    "footprint": (["footprint"], "footprint.in", "`footprint`, all sizes at 64 snapshots, 32 classes ({size})"),
    "fit": (["fit", "--limit", "32"], "fit.in", "`fit --limit 32`, 1,023 needs at 64 snapshots ({size})"),
    "check-fit": (["check-fit"], "check-fit.in", "`check-fit` of its fit ({size})"),
    "footprint-over": (["footprint"], "footprint-over.in", "`footprint` of a timeline, a million events ({size})"),
    "fit-over": (["fit", "--limit", "32"], "run.timeline", "`fit --limit 32` of it"),
    "check-fit-over": (["check-fit"], "check-fit-over.in", "`check-fit` of its fit"),
    "peaks": (["peaks"], "footprint-over.in", "`peaks` of it, 32 classes"),
    "profile": (["profile"], "events.trace", "`profile`, a million mixed events ({size})"),
    "replay": (["replay"], "replay.in", "`replay` of them, eight classes"),
    "run": (["run", "--limit", "8"], "events.trace", "`run --limit 8` of them"),
    "run-fifo": (RUN, "fifo.trace", "`run` of 300,000 blocks, first in first out ({size})"),
    "run-fragmented": (RUN, "fragmented.trace", "`run` of 300,000 events, 1,024 blocks of four sizes, all freed in turn ({size})"),
    "run-whole": (RUN, "whole.trace", "`run` of 150,000 times malloc and free of the largest request ({size})"),
    "run-realloc": (RUN, "realloc.trace", "`run` of 300,000 reallocs of one block, of 16 and 16,000 bytes ({size})"),
    "run-jq": (RUN, ROOT / "examples/jq.trace", "`run` of examples/jq.trace ({size})"),
    "run-perl": (RUN, ROOT / "examples/perl.trace", "`run` of examples/perl.trace ({size})"),
    "run-sqlite": (RUN, ROOT / "examples/sqlite.trace", "`run` of examples/sqlite.trace ({size})"),
}


def options_of(words: "list[str]") -> dict:
    seed = number_between(1, formats.OPTIONS["seed"].most)
    options = vars(
        Words(__doc__, "rows", {"runs": 20, "seed": 1}, runs=number_between(1, 10_000), seed=seed).take(words)
    )
    if unknown := [row for row in options["rows"] if row not in ROWS]:
        raise Refusal(2, f"there is no row {unknown[0]}; --help says what there is")
    if options["growth"] and (options["rows"] or options["keep"] or options["instructions"] or options["branches"]):
        raise Refusal(2, "--growth takes no row and no option but --seed")
    return options


def check_tools(options: dict) -> None:
    tools = [(RUSTC, "the plain program"), ("valgrind", "the count of instructions")]
    if not options["instructions"]:
        tools.append((GNU_TIME, "the memory"))
    for tool, purpose in tools:
        if not shutil.which(tool):
            raise Refusal(3, f"there is no {tool}, which is needed for {purpose}")


def build(folder: Path) -> "dict[str, Path]":
    """The two programs, built."""
    if subprocess.run([ROOT / "scripts/mte_tool", "--version"], stdout=subprocess.DEVNULL).returncode != 0:
        raise Refusal(3, "mte_tool could not be built")
    plain = folder / "plain"
    source = ROOT / "scripts/tests/plain/main.rs"
    if subprocess.run([RUSTC, "-O", "--edition", "2021", source, "-o", plain]).returncode != 0:
        raise Refusal(3, "rustc could not build scripts/tests/plain")
    return {"mte_tool": OURS, "plain": plain}


def output_of(command: list, source: Path) -> bytes:
    with open(source, "rb") as given:
        return text_files.output_of(command, stdin=given)


def make_inputs(folder: Path, seed: int, plain: Path) -> None:
    """Writes the inputs of all rows."""
    chance = random.Random(seed)

    def line(size: int) -> str:
        return f"{size} {chance.randint(1, 10**9)}\n"

    sizes = "".join(line(size) for size in range(1, formats.LARGEST_SIZE + 1))
    (folder / "score.in").write_bytes(program_runs.join_texts(SCORED, sizes))
    needs = "".join(line(chance.randint(16 * need - 31, 16 * need - 16)) for need in range(2, 1025))
    (folder / "tune.in").write_text(needs)
    sheet = output_of([plain, "tune", "--limit", "32"], folder / "tune.in")
    (folder / "check.in").write_bytes(program_runs.join_texts(sheet, needs))
    counts = ("".join(f" {chance.randint(0, 10**6)}" for _ in range(63)) + f" {chance.randint(1, 10**6)}" for _ in range(formats.LARGEST_SIZE))
    history = "snapshots 64\n" + "".join(f"{size}{numbers}\n" for size, numbers in enumerate(counts, 1))
    (folder / "footprint.in").write_bytes(program_runs.join_texts(SCORED, history))
    (folder / "fit.in").write_text(history)
    fit = output_of([plain, "fit", "--limit", "32"], folder / "fit.in")
    (folder / "check-fit.in").write_bytes(program_runs.join_texts(fit, history))
    events = text_files.output_of([plain, "events", "--seed", str(seed)])
    (folder / "events.trace").write_bytes(events)
    (folder / "replay.in").write_bytes(program_runs.join_texts(growth.TABLE, events))
    make_traces(folder, chance)
    timeline = timeline_of(chance)
    (folder / "run.timeline").write_text(timeline)
    (folder / "footprint-over.in").write_bytes(program_runs.join_texts(SCORED, timeline))
    fit = output_of([plain, "fit", "--limit", "32"], folder / "run.timeline")
    (folder / "check-fit-over.in").write_bytes(program_runs.join_texts(fit, timeline))


def timeline_of(chance: random.Random) -> str:
    """A timeline of a million events: blocks of 300 sizes, of which others are live in each of ten phases."""
    sizes = [chance.randint(1, chance.choice([200, 1_000, 16_000])) for _ in range(300)]
    lines, live = ["timeline"], list[int]()
    for _ in range(10):
        favoured = chance.sample(sizes, 40)
        for event in range(100_000):
            if live and chance.random() > (0.8 if event < 60_000 else 0.2):
                at = chance.randrange(len(live))
                live[at], live[-1] = live[-1], live[at]
                lines.append(f"-{live.pop()}")
            else:
                live.append(chance.choice(favoured))
                lines.append(str(live[-1]))
    return "\n".join(lines) + "\n"


def make_traces(folder: Path, chance: random.Random) -> None:
    """Writes the traces that allocate much, of 300,000 events each."""

    def write(name: str, event: "Callable[[int], str]") -> None:
        (folder / name).write_text("".join(event(number) + "\n" for number in range(300_000)))

    write("fifo.trace", lambda e: f"free {(e // 2 + 1) % 1000}" if e % 2 else f"malloc {e // 2 % 1000} {chance.randrange(1, 600)}")
    sizes = (16, 32, 4000, 16_000)
    write("fragmented.trace", lambda e: f"free {e % 1024}" if e // 1024 % 2 else f"malloc {e % 1024} {chance.choice(sizes)}")
    write("whole.trace", lambda e: "free 0" if e % 2 else f"malloc 0 {formats.LARGEST_SIZE}")
    write("realloc.trace", lambda e: f"realloc 0 {16_000 if e % 2 else 16}")


def run(command: "list[str]", source: Path, target: "Path | str") -> "tuple[int, str]":
    """Runs a command from file to file: its status and its standard error."""
    with open(source, "rb") as given, open(target, "wb") as taken:
        done = subprocess.run(command, stdin=given, stdout=taken, stderr=subprocess.PIPE, env=ENVIRONMENT)
    return done.returncode, done.stderr.decode()


def instructions(command: "list[str]", source: Path, target: Path, branches: bool = False) -> "tuple[int, int, int]":
    """How many instructions a command takes, how many branches are mispredicted (0 where they are not counted), and its status."""
    valgrind = [shutil.which("valgrind"), "--tool=callgrind", "--callgrind-out-file=/dev/null"]
    status, errors = run(valgrind + ["--branch-sim=yes"] * branches + command, source, target)
    collected = re.search(r"Collected : ([\d ]+)", errors)
    if not collected:
        raise Refusal(3, f"valgrind did not count {' '.join(command)}: {errors.strip()}")
    # instructions; with branches: conditional ones, mispredicted, indirect ones, mispredicted
    numbers = [int(number) for number in collected[1].split()]
    return numbers[0], sum(numbers[2::2]), status


def milliseconds(command: "list[str]", source: Path) -> float:
    """The processor time that a command takes, its own and the system's."""
    files = [(os.POSIX_SPAWN_OPEN, 0, source, os.O_RDONLY, 0), (os.POSIX_SPAWN_OPEN, 1, os.devnull, os.O_WRONLY, 0)]
    _, _, usage = os.wait4(os.posix_spawn(command[0], command, ENVIRONMENT, file_actions=files), 0)
    return 1000 * (usage.ru_utime + usage.ru_stime)


def memory(command: "list[str]", source: Path) -> int:
    """The most bytes that a command has resident."""
    _, errors = run([GNU_TIME, "-f", "%M"] + command, source, os.devnull)
    return 1024 * int(errors.split()[-1])


def measure(name: str, options: dict, programs: "dict[str, Path]", folder: Path) -> str:
    """One line of the table, after the outputs were compared."""
    words, given, title = ROWS[name]
    source = folder / given if given else Path(os.devnull)
    commands = [[str(program)] + words for program in programs.values()]
    targets = [folder / f"{name}.{program}.out" for program in programs]
    counted = [instructions(command, source, target, options["branches"]) for command, target in zip(commands, targets)]
    compare(" ".join(words), [status for _, _, status in counted], targets if name != "start" else [])
    ours, plain = (count for count, _, _ in counted)
    cells = [f"{ours / 1e6:.2f} M", f"{plain / 1e6:.2f} M", f"{ours / plain:.2f}"]
    if options["branches"]:
        cells += [f"{missed / 1e3:.0f} k" for _, missed, _ in counted]
    if not options["instructions"]:
        turns = [[milliseconds(command, source) for command in commands] for _ in range(options["runs"])]
        cells += [f"{min(times):.1f} ms" for times in zip(*turns)]
        cells += [f"{memory(command, source) / 2**20:.1f} MiB" for command in commands]
    title = title.format(size=size_of(source))
    return "| " + " | ".join([title] + cells) + " |"


def size_of(file: Path) -> str:
    size = file.stat().st_size
    return f"{size / 1e6:.1f} MB" if size >= 1e6 else f"{size / 1e3:.0f} KB"


def compare(words: str, statuses: "list[int]", targets: "list[Path]") -> None:
    """Ends the script where the two programs disagree."""
    if statuses != [0, 0]:
        raise Refusal(
            1, f"`{words}` ended with status {statuses[0]} of mte_tool and {statuses[1]} of the plain program"
        )
    if len({target.read_bytes() for target in targets}) > 1:
        raise Refusal(1, f"`{words}`: the outputs of mte_tool and of the plain program differ")


def print_table(options: dict, folder: Path) -> None:
    programs = build(folder)
    make_inputs(folder, options["seed"], programs["plain"])
    heads = ["What", "instructions", "plain", "ratio"] + ["mispredicted", "plain"] * options["branches"]
    if not options["instructions"]:
        heads += ["time", "plain", "memory", "plain"]
    print("| " + " | ".join(heads) + " |")
    print("|---" + "|---:" * (len(heads) - 1) + "|")
    for name in options["rows"] or ROWS:
        print(measure(name, options, programs, folder), flush=True)


def print_growth(options: dict, folder: Path) -> None:
    programs = build(folder)
    events = text_files.output_of([programs["plain"], "events", "--seed", str(options["seed"])]).decode().splitlines(keepends=True)

    print("| What grows | values | before | for each | instructions | memory in MiB |")
    print("|---|---:|---:|---|---:|---:|")
    for series in growth.all_series(events, options["seed"]):
        rows = [growth_of(str(programs["mte_tool"]), trial, folder) for trial in series.trials]
        before, each, resident = (" / ".join(cells) for cells in zip(*rows))
        values = " / ".join(f"{value:,}" for value in series.values)
        print(f"| {series.title} | {values} | {before} | {series.unit} | {each} | {resident} |", flush=True)


def growth_of(program: str, trial: growth.Trial, folder: Path) -> "tuple[str, str, str]":
    """The instructions before what is counted, those for each of that, and the most memory."""
    command, counts = [program, *trial.words], []
    for text in (trial.without, trial.given):
        (folder / "given").write_text(text)
        count, _, status = instructions(command, folder / "given", folder / "out")
        if status != 0:
            raise Refusal(3, f"{' '.join(command)} ended with status {status}")
        counts.append(count)
    before, whole = counts
    return f"{before / 1e6:.2f} M", f"{(whole - before) / trial.count:,.0f}", f"{memory(command, folder / 'given') / 2**20:.1f}"


def bench(words: "list[str]") -> None:
    options = options_of(words)
    check_tools(options)
    try:
        if options["keep"]:
            os.makedirs(options["keep"], exist_ok=True)
        with contextlib.nullcontext(os.path.realpath(options["keep"])) if options["keep"] else private_folder.temporary() as folder:
            (print_growth if options["growth"] else print_table)(options, Path(folder))
    except OSError as error:
        raise Refusal(3, f"{error.filename or 'standard output'}: {error.strerror or error}")
