"""The programs in Scudo: its libraries with the tables, the runs with each, and what these come to."""

import functools
import math
import os
import random
import statistics
import subprocess
from collections.abc import Iterable, Iterator
from typing import NamedTuple, Optional

import histories
import programs
from histories import ANDROID, MANY, OWN
from mte_scripts import private_folder, text_files
from mte_scripts.recording import recording
from mte_scripts.tables import scudo_map, verdict, verification

MEASURED = os.path.join(programs.FOLDER, "measured.tsv")
DEFAULT, AGAIN = "default", "default_again"  # beside the others, and beside a program's own table
ANDROID_MAP = scudo_map.CONFIG.replace("MAP\n", "", 1).replace("GranuleClassMap<TunedClasses>", "AndroidSizeClassMap")
STUDENT = 2.3060041  # Student's t with 2 * 5 - 2 degrees of freedom, which 95% do not exceed to either side
NOTICED = 0.2  # percent


def build_library(scudo: verification.Place, to: str, header: "Optional[str]", work: str) -> None:
    """Scudo with the map of a header, or its own. Its map is seen by one file; what the others come to is kept in
    WORK."""
    flags = [*verification.FLAGS, f"-I{scudo.folder}", f"-I{scudo.folder}/include", "-msse4.2"]
    rest = os.path.join(work, "rest.o")
    names = sorted(
        each
        for each in os.listdir(scudo.folder)
        if each.endswith(".cpp") and not any(one in each for one in verification.LEFT_OUT)
    )
    if not os.path.exists(rest):
        objects = []
        for name in names:
            if name != "wrappers_c.cpp":
                objects.append(os.path.join(work, f"{name}.o"))
                verification.compile_with(
                    [scudo.compiler, *flags, "-c", os.path.join(scudo.folder, name), "-o", objects[-1]], work, "Scudo"
                )
        subprocess.run(["ld", "-r", *objects, "-o", rest], check=True)
    own = os.path.join(work, f"{os.path.basename(to)}.include")
    os.makedirs(own, exist_ok=True)
    if header is not None:
        text_files.write_file(os.path.join(own, verification.CONFIG), header)
        flags += ["-DSCUDO_USE_CUSTOM_CONFIG", f"-I{own}"]
    verification.compile_with(
        [scudo.compiler, *flags, os.path.join(scudo.folder, "wrappers_c.cpp"), rest, "-o", to], work, "Scudo"
    )


def libraries(work: str, folder: str, owned: "Iterable[programs.Program]") -> "dict[str, str]":
    """The libraries of all tables, built where they are not there yet; those of a program's own table by its name."""
    scudo, place = verification.place(folder), os.path.join(work, "libraries")
    os.makedirs(place, exist_ok=True)
    many = scudo_map.config(histories.table_in(histories.CLASSES))
    headers: "dict[str, Optional[str]]" = {DEFAULT: None, ANDROID: ANDROID_MAP, MANY: many}
    for each in owned:
        headers[f"{OWN}.{each.name}"] = scudo_map.config(histories.own_table(each, work))
    found = {}
    for at, (name, header) in enumerate(headers.items()):
        found[name] = os.path.join(place, f"{name}.so")
        if not os.path.exists(found[name]):
            build_library(scudo, found[name], header, place)
    if not os.path.exists(runner_of(work)):
        verification.build_runner(scudo, runner_of(work), place)
    return found


def runner_of(work: str) -> str:
    return os.path.join(work, "libraries", "runner")


def build_many(given: "list[str]") -> None:
    with private_folder.temporary() as short:
        verification.build(
            verification.place(given[0]),
            os.path.abspath(given[1]),
            histories.table_in(histories.CLASSES),
            short,
        )


def measure(each: programs.Program, work: str, tables: "dict[str, str]") -> str:
    """The lines of a program: for each table the peaks, the processor times and the statuses of its runs, in a
    random order in each round."""
    order = random.Random(f"{programs.SEED} {each.name}")
    runs: "dict[str, list[verification.Run]]" = {name: [] for name in tables}
    path = recording.find_program(each.words()[0])
    with private_folder.temporary() as short:
        placed = verification.place_alike(dict(tables), short)
        for _ in range(verdict.RUNS):
            for name in order.sample(sorted(tables), len(tables)):
                os.chdir(programs.enter_folder(each, work))
                runs[name].append(
                    verification.run_once(
                        runner_of(work), each.words(), path, placed[name], each.given(), None, placed.values()
                    )
                )
    lines = []
    for name, found in runs.items():
        cells = [
            ",".join(str(run.peak // 1024) for run in found),
            ",".join(f"{run.spent:.3f}" for run in found),
            ",".join(str(run.status) for run in found),
        ]
        lines.append("\t".join([each.name, name, *cells]))
    return "\n".join(lines)


def measure_all(work: str, folder: str, names: "list[str]") -> None:
    """Adds to measured.tsv what it has not yet: of the held-out programs also their own tables."""
    done = {line.split("\t")[0] for line in read_lines(MEASURED)}
    given = [each for each in programs.programs(names) if each.name not in done]
    held = [each for each in given if each.name in programs.read_held_out()]
    found = libraries(work, folder, held)
    plain = {name: path for name, path in found.items() if not name.startswith(OWN)}
    act = functools.partial(measure_with, work, found, plain)
    with open(MEASURED, "a", encoding="ascii") as file:
        for lines in programs.in_turn(act, held + [each for each in given if each not in held]):
            file.write(f"{lines}\n")
            file.flush()


def measure_with(work: str, found: "dict[str, str]", plain: "dict[str, str]", each: programs.Program) -> str:
    """The lines of a program, and where it has a library of its own a second series with the default."""
    own = found.get(f"{OWN}.{each.name}")
    both = [measure(each, work, {AGAIN: plain[DEFAULT], OWN: own})] if own else []
    return "\n".join([measure(each, work, plain), *both])


def read_lines(path: str) -> "list[str]":
    if not os.path.exists(path):
        return []
    with open(path, encoding="ascii") as file:
        return file.read().splitlines()


class MeasuredRuns(NamedTuple):
    """The runs of a program with a table: peaks in KiB, and processor times in seconds."""

    peaks: "list[int]"
    times: "list[float]"
    statuses: "list[str]"

    def peak(self) -> float:
        return statistics.median(self.peaks)

    def time(self) -> float:
        return statistics.median(self.times)

    def change(self, before: "MeasuredRuns") -> float:
        """By how many percent the middle peak differs."""
        return 100 * (self.peak() / before.peak() - 1)

    def interval(self, before: "MeasuredRuns") -> "tuple[float, float]":
        """Where the change lies (95%, by Student's t of two means, for normally distributed peaks)."""
        middle = statistics.fmean(self.peaks) - statistics.fmean(before.peaks)
        half = STUDENT * math.sqrt(
            (statistics.variance(self.peaks) + statistics.variance(before.peaks)) / len(self.peaks)
        )
        whole = statistics.fmean(before.peaks) / 100
        return (middle - half) / whole, (middle + half) / whole


def read_measured() -> "dict[str, dict[str, MeasuredRuns]]":
    """What was measured of each program, by tables. One that did not end the same each time is left out."""
    found: "dict[str, dict[str, MeasuredRuns]]" = {}
    for line in read_lines(MEASURED):
        name, table, peaks, times, statuses = line.split("\t")
        found.setdefault(name, {})[table] = MeasuredRuns(
            list(map(int, peaks.split(","))), list(map(float, times.split(","))), statuses.split(",")
        )
    return {
        name: tables
        for name, tables in found.items()
        if len({each for one in tables.values() for each in one.statuses}) == 1
    }


def mean_interval(values: "list[float]") -> "tuple[float, float]":
    """Where the mean over other programs such as these lies (95%, bootstrap over the programs)."""
    draw = random.Random(programs.SEED)
    means = sorted(statistics.fmean(draw.choices(values, k=len(values))) for _ in range(4000))
    return means[100], means[-101]


def figure_line(table: str, before: str, found: "dict[str, dict[str, MeasuredRuns]]") -> str:
    """By how many percent the peak differs from that with the table before: the mean, the worst and how many are above;
    and the processor time."""
    both = {name: (tables[table], tables[before]) for name, tables in found.items() if {table, before} <= tables.keys()}
    if not both:
        return f"{table} by {before}: nothing was measured"
    changes = {name: new.change(old) for name, (new, old) in both.items()}
    low, high = mean_interval(list(changes.values()))
    worst = max(changes, key=lambda name: changes[name])
    ends = both[worst][0].interval(both[worst][1])
    times = [math.log(new.time() / old.time()) for new, old in both.values() if new.time() and old.time()]
    spent = [math.exp(each) for each in (statistics.fmean(times), *mean_interval(times))]
    return (
        f"{table} by {before}: {len(both)} programs, mean {statistics.fmean(changes.values()):+.2f}% ({low:+.2f} to "
        f"{high:+.2f}), worst {changes[worst]:+.2f}% ({worst}, {ends[0]:+.2f} to {ends[1]:+.2f}), above by more than "
        f"{NOTICED}%: {sum(change > NOTICED for change in changes.values())}, processor time {spent[0]:.3f} "
        f"({spent[1]:.3f} to {spent[2]:.3f})"
    )


def print_figures() -> None:
    found, held = read_measured(), programs.read_held_out()
    for title, of_set in (("Held out", True), ("Corpus", False)):
        print(title)
        of_title = {name: tables for name, tables in found.items() if (name in held) == of_set}
        for table, before in ((ANDROID, DEFAULT), (MANY, DEFAULT), (OWN, AGAIN), (MANY, ANDROID)):
            print(" ", figure_line(table, before, of_title))
    print("Held out, each: peak in KiB with the default, and by how many percent the others differ (95%)")
    for name in sorted(held.keys() & found.keys()):
        tables, cells = found[name], []
        for table, before in ((ANDROID, DEFAULT), (MANY, DEFAULT), (OWN, AGAIN)):
            if table in tables:
                low, high = tables[table].interval(tables[before])
                cells.append(f"{tables[table].change(tables[before]):+.1f} ({low:+.1f} to {high:+.1f})")
        print(f"| {name} | {tables[DEFAULT].peak():,.0f} | {' | '.join(cells)} |")
