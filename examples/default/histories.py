"""The histories of the corpus: what decides the fit of the recorded runs, and what tables take there."""

import itertools
import lzma
import os
import statistics
from collections.abc import Iterable
from typing import Optional

import programs
import search
from mte_scripts import certificate_texts, text_files
from mte_scripts.places import EXAMPLES
from mte_scripts.recording import timelines
from mte_scripts.tables import figures

HISTORIES, CLASSES = (os.path.join(programs.FOLDER, name) for name in ("corpus.histories.xz", "many.classes"))
LIMIT, LIMITS = 32, (24, 32, 40)
LEAST = 1 << 20  # bytes of blocks with the default table, below which a program does not count
ANDROID, MANY, OWN = "android", "many", "own"


def table_in(path: str) -> "list[int]":
    return certificate_texts.class_line(path) or []


def default_table() -> "list[int]":
    return table_in(os.path.join(EXAMPLES, "scudo.classes"))


def android_table() -> "list[int]":
    return table_in(os.path.join(EXAMPLES, "scudo_android.classes"))


def own_table(each: programs.Program, work: str) -> "list[int]":
    """The table of least footprint over a program's own timeline."""
    answer = figures.run(["fit", *figures.options(LIMIT, 1, True)], text_files.read(programs.timeline_of(each, work)))[
        1
    ]
    return certificate_texts.parse_class_line(answer.split("\n")[0])


def by_needs(moments: "list[dict]") -> search.History:
    """The live blocks of these moments, each by size, as a history of needs."""
    rows: "dict[int, list[int]]" = {}
    for at, live in enumerate(moments):
        for size, blocks in live.items():
            if size != timelines.LARGE:
                rows.setdefault(timelines.need_of(size), [0] * len(moments))[at] += blocks
    needs = sorted(rows)
    return search.History(needs, [rows[need] for need in needs])


class RecordedRun:
    """The events of a program's run, and those of its moments that are known so far."""

    def __init__(self, each: programs.Program, work: str) -> None:
        self.name = each.name
        self.run = timelines.read(text_files.read(programs.timeline_of(each, work)))
        self.run.text = b""
        self.moments: "dict[int, dict]" = {}

    def footprint(self, classes: "list[int]") -> int:
        """What a table takes over the run; the moments at which its classes have the most blocks are known from now
        on."""
        live, most, at = (timelines.zeros("q", len(classes) + 2) for _ in range(3))
        groups = timelines.by_code("h", timelines.place_in(classes), self.run.codes)
        timelines.pass_over("raise_most", self.run.events, 0, len(self.run.events), groups, live, most, at)
        if new := {*at[1:-1]} - {0} - self.moments.keys():
            self.moments.update(timelines.live_at(self.run.events, self.run.codes, sorted(new)))
        return sum(search.GRANULE * each * blocks for each, blocks in zip(classes, most[1:-1]))

    def history(self) -> search.History:
        return by_needs([self.moments[at] for at in sorted(self.moments)])


def fit_table(histories: "Iterable[search.History]", limit: int = LIMIT) -> "list[int]":
    """The table of the least sum of footprints by the default's."""
    default = default_table()
    low = search.lowest(default, search.ABOVE)
    costs = search.no_costs(low)
    for history in histories:
        costs = costs.plus(search.costs_of(history, search.weight_of(history, default), low))
    return search.least(costs, limit)[0]


def reduce(work: str) -> None:
    """Takes the moments at which the tables that are fitted have their peaks, until a fit comes again: then it is
    that over all moments."""
    recorded = [RecordedRun(each, work) for each in programs.corpus()]
    tables = [default_table(), android_table()]
    while True:
        for table, each in itertools.product(tables, recorded):
            each.footprint(table)
        fitted = fit_table(each.history() for each in recorded)
        print("classes", *fitted, flush=True)
        if fitted in tables:
            break
        tables = [fitted]
    write_histories({each.name: each.history() for each in recorded})


def is_large(each: programs.Program, work: str) -> bool:
    """Whether a program has a timeline with enough blocks to count."""
    path = programs.timeline_of(each, work)
    is_whole = os.path.exists(path) and text_files.read(path).startswith(b"timeline\n")
    return is_whole and RecordedRun(each, work).footprint(default_table()) >= LEAST


def choose(work: str) -> None:
    rows = [programs.Program._fields, *(each for each in programs.programs() if is_large(each, work))]
    text_files.write_file(programs.TABLE, "".join("\t".join(each) + "\n" for each in rows))


def write_histories(given: "dict[str, search.History]") -> None:
    """A line for each program, and one for each need: the need, and its blocks at each moment as differences."""
    lines = []
    for name, history in given.items():
        lines.append(f"{name} {len(history.counts[0])}")
        for need, row in zip(history.needs, history.counts):
            lines.append(" ".join(map(str, [need, *(now - before for before, now in zip([0, *row], row))])))
    with lzma.open(HISTORIES, "wt", encoding="ascii", preset=9) as file:
        file.write("".join(f"{line}\n" for line in lines))


def read_histories() -> "dict[str, search.History]":
    found: "dict[str, search.History]" = {}
    with lzma.open(HISTORIES, "rt", encoding="ascii") as file:
        for line in file:
            first, *rest = line.split()
            if not first.isdigit():
                last = found[first] = search.History([], [])
                continue
            last.needs.append(int(first))
            last.counts.append(list(itertools.accumulate(map(int, rest))))
    return found


def weigh(limits: "Iterable[int]") -> None:
    """What tables that were fitted without a kind come to on the programs of that kind, by the default's footprint."""
    kinds, histories = {each.name: each.kind for each in programs.corpus()}, read_histories()
    default = {name: search.footprint(each, default_table()) for name, each in histories.items()}
    whole, parts = costs_by_kind(histories, kinds, search.ABOVE)
    for limit in limits:
        tables = {kind: search.least(whole.plus(part, -1), limit)[0] for kind, part in parts.items()}
        taken = {name: search.footprint(each, tables[kinds[name]]) for name, each in histories.items()}
        print(f"{limit} classes: {summary_of({name: taken[name] / default[name] for name in taken})}", flush=True)
    taken = {name: search.footprint(each, android_table()) for name, each in histories.items()}
    print(f"Android's: {summary_of({name: taken[name] / default[name] for name in taken})}")


def costs_by_kind(
    histories: "dict[str, search.History]", kinds: "dict[str, str]", above: "Optional[tuple[int, int]]"
) -> "tuple[search.Costs, dict[str, search.Costs]]":
    """The costs of all programs, and of those of each kind."""
    low = search.lowest(default_table(), above)
    whole, parts = search.no_costs(low), {kind: search.no_costs(low) for kind in kinds.values()}
    for name, history in histories.items():
        costs = search.costs_of(history, search.weight_of(history, default_table()), low)
        whole, parts[kinds[name]] = whole.plus(costs), parts[kinds[name]].plus(costs)
    return whole, parts


def model(work: str) -> None:
    """What the tables take of each program's blocks over its run, by the default's footprint."""
    held, many = programs.read_held_out(), table_in(CLASSES)
    ratios: "dict[str, dict[str, float]]" = {ANDROID: {}, MANY: {}, OWN: {}}
    for each in programs.programs():
        recorded = RecordedRun(each, work)
        default = recorded.footprint(default_table())
        for table, classes in ((ANDROID, android_table()), (MANY, many), (OWN, own_table(each, work))):
            ratios[table][each.name] = recorded.footprint(classes) / default
    for table, found in ratios.items():
        print(
            f"{table}, programs.corpus: {summary_of({name: each for name, each in found.items() if name not in held})}"
        )
        print(f"{table}, held out: {summary_of({name: each for name, each in found.items() if name in held})}")


def summary_of(ratios: "dict[str, float]") -> str:
    worst = max(ratios, key=lambda name: ratios[name])
    above = sum(each > 1 for each in ratios.values())
    return (
        f"mean {100 * (statistics.fmean(ratios.values()) - 1):+.1f}%, worst {100 * (ratios[worst] - 1):+.1f}% ("
        f"{worst}), above in {above} of {len(ratios)}"
    )
