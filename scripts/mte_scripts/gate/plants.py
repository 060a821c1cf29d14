"""Tries wrong bodies in the functions of crates: which of them do the contracts let through?

Usage: plants [--jobs N] [--log FILE] [--part N] [--minutes N] [CRATE..]
       plants --tool [--minutes N] [CRATE..]
       plants --definitions [--jobs N] [--write]
       plants --check | --table | --write

The wrong bodies are crates/CRATE/plants/*.plant. Many are tried in one check of a copy of the crate, one in each function. With no CRATE it is
each crate that has some. The last line of a crate has how many were tried, how many were refused, and with one job the processor time. Before
it a line is printed for

  THROUGH  a wrong body that is proved, and has no line `passes:` with a reason
  GONE     one that is refused, and has such a line
  BAD      one that can't be tried: it does not compile, or a proof names what it took away

  --part N      those that name what they break, and of the others one part of the checks, for about five minutes of processor time: the Nth
                from 0 on, and the first one again after the last one. It prints which part it is, and of how many
  --jobs N      so many crates are tried side by side, 1 if left out
  --log FILE    what the checks said
  --tool        tries the wrong bodies of `rt plant` instead. What it lets through is compared with scripts/mte_scripts/gate/plants.txt, where
                each has a reason: a line `NEW` has one that is not there, and `GONE` one that is there and is refused
  --minutes N   what is not tried after so many minutes is counted, and left; with --tool so many in a crate, 10 if left out
  --definitions  tries changes of definitions in agreement with the code, scripts/tests/definition_changes.txt, in the plain program, and
                 prints for each which answer shows it, and their table; with --write also into docs/MUST_FAIL.md
  --check       tries nothing, and says of each wrong body that could not be tried what is wrong
  --table       prints the table of docs/MUST_FAIL.md and the list below it
  --write       writes them

Exit status:
  0  each wrong body that is let through has a reason, and each change that no answer shows
  1  a line was printed that has a wrong body, or `WRONG`
  2  the words are refused
  3  a crate can't be tried, or the changed program can't be compiled
"""

import collections
import math
import os
import re
import subprocess
import sys
import time
from collections import namedtuple
from collections.abc import Iterator
from concurrent.futures import ThreadPoolExecutor

from mte_scripts import entry_point
from mte_scripts.builds.crate_list import CrateList
from mte_scripts.gate import definition_changes, plant_files, plant_rounds, planted_functions
from mte_scripts.gate.plant_files import Plant
from mte_scripts.places import ROOT
from mte_scripts.words import Words, number_between

KNOWN = os.path.join(os.path.dirname(os.path.realpath(__file__)), "plants.txt")
ROW = re.compile(r"^(proves|no-ensures) +(\S+?):\d+ (.*?)(?:  \(and in \d+ more impls\))?$")
FIGURES = ("refused", "proves", "same", "not-judged", "not-run")
SECONDS, CHECK_SECONDS = 300, 90  # of processor time, which a part and a check of it are estimated to take at most
WORDS = {plant_rounds.PASSES: "THROUGH", plant_rounds.REFUSED: "GONE", plant_rounds.BAD: "BAD"}
DOCUMENT = os.path.join(ROOT, "docs", "MUST_FAIL.md")
HEAD = "| Crate | Planted | Refused | Equivalent | Open |\n|---|---:|---:|---:|---:|\n"

Known = namedtuple("Known", "figures seconds reasons")


def read_known() -> Known:
    """Of each crate the figures of `rt plant` and the processor time that one of our wrong bodies takes, and the reason of each wrong body of
    `rt plant` that is known, by crate and body."""
    figures, seconds, reasons = {}, {}, {}
    with open(KNOWN, encoding="utf-8") as file:
        for line in file:
            crate, _, rest = line.rstrip("\n").partition("  ")
            if rest.startswith("figures "):
                figures[crate] = dict(zip(FIGURES, map(int, rest.split()[1:])))
            elif rest.startswith("seconds "):
                seconds[crate] = float(rest.split()[1])
            elif rest:
                body, _, reason = rest.partition("  -- ")
                reasons[crate, body] = reason
    return Known(figures, seconds, reasons)


def run_rt_plant(crate: str, minutes: int) -> "tuple[list[str], list[str]]":
    """What `rt plant` says of a crate: the wrong bodies that are proved, and its figures."""
    command = ["rt", "plant", "--minutes", str(minutes), "--max", "2000", "--jobs", "1"]
    done = subprocess.run(command, cwd=os.path.join(ROOT, "crates", crate), stdout=subprocess.PIPE, stderr=subprocess.STDOUT, text=True)
    last = re.search(r"(?m)^plants crate=.*$", done.stdout)
    if done.returncode or not last:
        raise entry_point.Refusal(3, f"{crate}: `rt plant` gave no figures: {done.stdout.strip()[-300:]}")
    figures = dict(it.split("=", 1) for it in last[0].split()[1:])
    bodies = [f"{found[2]} {found[3]}" for found in map(ROW.match, done.stdout.split("\n")) if found]
    return bodies, [figures[it] for it in FIGURES]


def by_tool(names: "list[str]", minutes: int) -> int:
    its, new = read_known(), 0
    for crate in names:
        bodies, figures = run_rt_plant(crate, minutes)
        for body in bodies:
            if (crate, body) not in its.reasons:
                new += 1
                print(f"NEW   {crate}  {body}")
        for of, body in its.reasons:
            if of == crate and body not in bodies:
                print(f"GONE  {crate}  {body}")
        print(f"{crate}  figures {' '.join(figures)}", flush=True)
    return int(new > 0)


def by_hand(plants: "dict[str, list[Plant]]", jobs: int, log: "str | None", until: float) -> int:
    """Tries these wrong bodies of each crate, and prints those whose verdict is not what their lines say."""
    wrong, before = 0, plant_rounds.seconds_used()
    for crate, found in verdicts(plants, jobs, log, until):
        for plant, (kind, why) in found.items():
            if kind == plant_rounds.BAD or (kind == plant_rounds.PASSES) != bool(plant.kind):
                wrong += 1
                more = f" ({why[:300]})" if kind == plant_rounds.BAD else ""
                print(f"{WORDS[kind]:8} {crate}, {plant.name} of {plant.of}: {plant.what}{more}")
        refused = sum(it.kind == plant_rounds.REFUSED for it in found.values())
        used = plant_rounds.seconds_used()
        left = len(plants[crate]) - len(found)
        print(f"{crate}: {len(found)} tried, {refused} refused{f', {left} left for lack of time' if left else ''}"
              f"{f', {used - before:.0f} s' if jobs == 1 else ''}", flush=True)
        before = used
    return int(wrong > 0)


def verdicts(plants: "dict[str, list[Plant]]", jobs: int, log: "str | None", until: float) -> "Iterator[tuple[str, dict]]":
    """The verdicts on the wrong bodies of each crate. One job is done in this thread, which an interrupt ends at once."""
    if jobs == 1:
        yield from ((crate, plant_rounds.judge_plants(crate, its, log, until)) for crate, its in plants.items())
        return
    with ThreadPoolExecutor(max_workers=jobs) as pool:
        try:
            yield from zip(plants, pool.map(lambda it: plant_rounds.judge_plants(it, plants[it], log, until), plants))
        except BaseException:
            plant_rounds.ENDED.set()
            pool.shutdown(wait=False, cancel_futures=True)
            raise


def parts_of(plants: "dict[str, list[Plant]]", seconds: "dict[str, float]") -> "list[dict[str, list[Plant]]]":
    """All checks in parts that are estimated to take about the same time, at most SECONDS: the longest check first, each into the part that
    has the least. The checks of a crate go into parts of their own as far as there are some, since they are done one after the other."""
    other, turns = max(seconds.values(), default=1.0), []
    for crate, its in plants.items():
        each = seconds.get(crate, other)
        # a check by itself takes about as long as two wrong bodies
        turns += [(each * (len(turn) + 2), crate, turn) for turn in plant_rounds.rounds(its, max(1, int(CHECK_SECONDS / each)))]
    parts: list[dict[str, list[Plant]]] = [{} for _ in range(math.ceil(sum(cost for cost, _, _ in turns) / SECONDS))]
    costs = [0.0] * len(parts)
    for cost, crate, turn in sorted(turns, key=lambda it: -it[0]):
        least = min(range(len(parts)), key=lambda it: (crate in parts[it], costs[it]))
        parts[least].setdefault(crate, []).extend(turn)
        costs[least] += cost
    return parts


def part_of(plants: "dict[str, list[Plant]]", number: int) -> "dict[str, list[Plant]]":
    """The wrong bodies of one part, which it prints, and those that each part has."""
    always = {crate: found for crate, its in plants.items() if (found := [it for it in its if it.breaks])}
    parts = parts_of({crate: [it for it in its if not it.breaks] for crate, its in plants.items()}, read_known().seconds)
    number %= len(parts)
    print(f"part {number} of 0 to {len(parts) - 1}: {', '.join(f'{crate} {len(its)}' for crate, its in parts[number].items())}; "
          f"and {sum(map(len, always.values()))} that each part has", flush=True)
    return {crate: found for crate in plants if (found := always.get(crate, []) + parts[number].get(crate, []))}


def is_to_try(crate: str) -> bool:
    """Whether a crate has functions that are no laws, texts of errors or tests."""
    names = []
    for place, _, files in os.walk(os.path.join(ROOT, "crates", crate, "src")):
        for name in files:
            with open(os.path.join(place, name), encoding="utf-8") as file:
                names += [it.name for it in plant_files.functions(file.read())]
    return any(not re.match(r"law_|fmt$", it) for it in names) and not re.search(r"_(tests|trials)$", crate)


def sums(rows: "list[list[int]]") -> "list[int]":
    return [sum(column) for column in zip(*rows)]


def text() -> str:
    """The table of the crates of which a wrong body is let through, and of all others, and a line for each that is open."""
    its, open_ones = read_known(), []
    rows: list[tuple[str, list[int]]] = []
    for crate in sorted(CrateList(ROOT).stands_on):
        plants = plant_files.plants_of(crate)
        tool = collections.Counter(its.figures.get(crate, {}))
        let = [(it.kind, f"{it.name}, {it.what}", it.why) for it in plants if it.kind]
        let += [(reason.partition(": ")[0], body, reason.partition(": ")[2]) for (of, body), reason in its.reasons.items() if of == crate]
        alike = sum(kind in ("equivalent", "speed") for kind, _, _ in let) + tool["same"]
        count = len(plants) + tool["refused"] + tool["proves"] + tool["same"]
        left = sum(kind in ("memory", "open") for kind, _, _ in let)
        if count == 0 and is_to_try(crate):
            rows.append((f"`{crate}`, not tried", [0, 0, 0, 0]))
        elif count:
            rows.append((f"`{crate}`", [count, count - alike - left, alike, left]))
        open_ones += [f"- `{crate}`, {body.replace('|', '&#124;')}: {why}.\n" for kind, body, why in let if kind in ("memory", "open")]
    whole = [counts for _, counts in rows if counts[0] and counts[0] == counts[1]]
    rows = [row for row in rows if row[1] not in whole] + [(f"the {len(whole)} others", sums(whole))]
    rows.append(("all", sums([counts for _, counts in rows])))
    table = "".join(f"| {name} | " + " | ".join(f"{it:,}" for it in counts) + " |\n" for name, counts in rows)
    functions = planted_functions.summary(sorted(CrateList(ROOT).stands_on))
    return f"{HEAD}{table}\n{functions}\nOpen:\n\n{''.join(open_ones)}" if open_ones else f"{HEAD}{table}\n{functions}"


def write() -> int:
    with open(DOCUMENT, encoding="utf-8") as file:
        before = file.read().partition(HEAD)[0]
    with open(DOCUMENT, "w", encoding="utf-8") as file:
        file.write(before + text())
    return 0


def check(names: "list[str]") -> int:
    seconds = read_known().seconds
    found = [fault for crate in names for fault in (*plant_files.faults(crate), *planted_functions.faults(crate))]
    found += [
        f"{it}: plants.txt has no seconds for it" for it in names if it not in seconds and plant_files.plants_of(it)
    ]
    for fault in found:
        print(f"plants: {fault}", file=sys.stderr)
    return int(bool(found))


def plants(words: "list[str]") -> int:
    parser = Words(
        __doc__,
        "crates",
        {"jobs": 1},
        minutes=number_between(1, 10_000),
        jobs=number_between(1, 64),
        part=number_between(0, 10_000_000),
    )
    options = parser.take(words)
    crates = CrateList(ROOT)
    if unknown := [it for it in options.crates if it not in crates.stands_on]:
        raise entry_point.Refusal(2, f"there is no crate {unknown[0]} (--help says more)")
    if options.definitions:
        return definition_changes.run(options.jobs, options.write)
    if options.table:
        print(text(), end="")
        return 0
    if options.write:
        return write()
    if options.check:
        return check(options.crates or list(crates.stands_on))
    if options.tool:
        libraries = [it for it in crates.stands_on if os.path.exists(os.path.join(crates.folder(it), "src", "lib.rt"))]
        return by_tool(options.crates or libraries, options.minutes or 10)
    try:
        plants = {crate: its for crate in options.crates or crates.stands_on if (its := plant_files.plants_of(crate))}
        until = time.monotonic() + 60 * options.minutes if options.minutes else math.inf
        return by_hand(plants if options.part is None else part_of(plants, options.part), options.jobs, options.log, until)
    except plant_files.Unread as unread:
        raise entry_point.Refusal(3, str(unread)) from None
