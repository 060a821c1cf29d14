"""A table for a run that is longer than a timeline may be, and the interval in which its footprint lies: the run is recorded as two
histories, and where it can be made again, tables are counted over it until the interval is narrow."""

import bisect
import math
import operator
import os
import stat
import sys
from collections.abc import Callable, Iterable
from typing import Any, NamedTuple, Optional

from mte_scripts import certificate_texts, claim_words, count_texts, private_folder, text_files
from mte_scripts.entry_point import Refusal, say
from mte_scripts.formats import LARGEST_CLASS, MOST_CLASSES, MOST_SNAPSHOTS
from mte_scripts.places import SCRIPTS
from mte_scripts.recording import TABLES, children, timelines
from mte_scripts.tables import figures

MOST_RUNS = 8
WINDOWS = 64
MOST_MADE = 24  # tables that are counted over a run, beside those that are compared
MOST_OTHERS = TABLES - MOST_MADE
MOST_HELD = MOST_SNAPSHOTS - 300  # moments of a run that the next one has too: there is room for the peaks of new tables
GUESSES = 10  # tables that are made for the next run
SPREAD = 8  # those that are counted before there is a fit
Span = tuple[int, int]


class RunRecord(NamedTuple):
    """A run: its status, 0 or 1; what profile_program said of it; what it measured, by name; and what tables take over it, None where one of
    them does not serve a size. `upper` is the upper history, empty where there is a timeline; `moments` are those of the lower one, by the
    number of events before them; `blocks` is the record of blocks beside a timeline, empty where there is none."""

    status: int
    notes: list[str]
    measured: dict[str, int]
    counted: dict[figures.Classes, Optional[int]]
    upper: bytes
    moments: tuple[int, ...] = ()
    blocks: bytes = b""


class Runs:
    """The runs of a program under profile_program, or of a timeline. WORDS are how that is called: options, and the program. GIVEN is a file
    for its standard input, if that was kept."""

    def __init__(self, words: list[str], work: private_folder.Folder, given: "str | None") -> None:
        self.words, self.work, self.given = words, work, given
        self.number = 0
        self.signals: list[int] = []
        self.offset = None if given else offset_of_input()

    def file(self, name: str) -> str:
        return self.work.file(f"run-{name}")

    def record(self, kind: list[str], tables: list[figures.Classes], to: str, moments: Iterable[int] = ()) -> RunRecord:
        """Runs it once; with these moments in its lower history, if it has them. What is printed goes to the file TO, and the profile at the
        peak to self.file("peak"). The status may be a refusal's."""
        words = [*kind, "--upper", self.file("upper"), "--peak", self.file("peak"), "--measured", self.file("measured")] if kind else []
        for at, table in enumerate(tables):
            text_files.write_file(self.file(f"{at}.classes"), figures.class_text(list(table)) + "\n")
            words += ["--classes", self.file(f"{at}.classes")]
        if moments:
            text_files.write_file(self.file("again"), "".join(f"moment {each}\n" for each in moments))
            words += ["--again", self.file("again")]
        command = [sys.executable, "-ISXutf8", "--", os.path.join(SCRIPTS, "profile_program"), *words, "--said", self.file("said"), *self.words]
        self.number += 1
        if self.number > 1 and self.offset is not None:
            os.lseek(0, self.offset, os.SEEK_SET)
        with open(to, "wb") as file, open(self.given or os.devnull, "rb") as again:
            status = self.run_recorder(command, file.fileno(), again.fileno() if self.given else None)
        measured = [line.split() for line in self.take_text("measured").decode().splitlines()]
        taken = [None if value == "none" else int(value) for name, value in measured if name == "footprint"]
        found = {name: int(value) for name, value in measured if name not in ("footprint", "moment")}
        seen = tuple(int(value) for name, value in measured if name == "moment")
        said = [line for line in self.take_text("said").decode(errors="replace").splitlines() if line]
        return RunRecord(status, said, found, dict(zip(tables, taken)), self.take_text("upper"), seen)

    def run_recorder(self, command: list[str], to: int, again: "int | None") -> int:
        """The status of the recorder, which runs the program; what it prints goes to a descriptor."""
        return children.run(command, signals=self.signals, stdout=to, stdin=again)

    def take_text(self, name: str) -> bytes:
        """The text of a file that is no longer needed, empty where there is none."""
        path = self.file(name)
        if not os.path.isfile(path):
            return b""
        text = text_files.read(path)
        os.remove(path)
        return text

    def why_not(self, last: RunRecord, most: int) -> str:
        """Why it is not run again; empty where it can be."""
        if last.status or self.signals:
            return "it did not end by itself, with status 0"
        if self.given is None and self.offset is None:
            return "standard input can't be read again"
        return f"{most} run{'s were' if most > 1 else ' was'} made" if self.number >= most else ""


def offset_of_input() -> "int | None":
    """Where standard input is in its file, and 0 where there is none; None where it can't be read again."""
    try:
        status = os.fstat(0)
        if stat.S_ISREG(status.st_mode):
            return os.lseek(0, 0, os.SEEK_CUR)
        return 0 if status.st_rdev == os.stat(os.devnull).st_rdev and stat.S_ISCHR(status.st_mode) else None
    except OSError:
        return 0


def is_within(lower: count_texts.History, upper: bytes) -> bool:
    """Whether each moment of a lower history is in a window of this upper one, which has at least as many blocks of every size."""
    windows, none = count_texts.parse_history(upper), [0] * MOST_SNAPSHOTS
    most = list(zip(*(windows.counts.get(size, none[: windows.snapshots]) for size in lower.counts)))
    return all(any(all(map(operator.le, moment, each)) for each in most) for moment in zip(*lower.counts.values()))


def interval_of(timed: figures.OverTime, run: RunRecord) -> "figures.Interval | None":
    """That of a fit over the lower history of a run: of its table and of those that join what was counted, the one that takes least. None where
    nothing bounds one."""
    fitted = tuple(timed.fit.classes)
    taken = run.counted[fitted] if fitted in run.counted else figures.footprint(timed.fit.classes, run.upper)
    above = {} if taken is None else {fitted: taken}
    if not is_within(timed.history, run.upper):
        raise Refusal(2, "the two histories are of different runs: a moment is in no window")
    cost, classes = join_spans(Spans(by_need(timed.history)), run.counted, timed.fit)
    counted = {**run.counted, **({classes: cost} if classes else {})}
    above |= {classes: cost} if classes else {}
    if not above:
        return None
    chosen = min(above, key=lambda table: (above[table], table != fitted))
    if above[chosen] < timed.fit.footprint:
        raise Refusal(2, "the two histories are of different runs")
    return figures.Interval(list(chosen), timed.fit.footprint, above[chosen], run.measured.get("events", 0), counted)


def by_need(history: count_texts.History) -> count_texts.History:
    """The same to every table, with one size for each need, and no large blocks."""
    rows: dict[int, list] = {}
    for size, counts in history.counts.items():
        if size != "large":
            largest = figures.GRANULE * (timelines.need_of(size) - 1)
            rows[largest] = list(map(operator.add, rows[largest], counts)) if largest in rows else counts
    return count_texts.History(history.snapshots, rows)


class Spans:
    """Of a history by needs, the most blocks that spans of these have at one snapshot. A span is the needs above the first of two up to the
    second."""

    def __init__(self, history: count_texts.History) -> None:
        self.snapshots = history.snapshots
        self.rows = sorted((timelines.need_of(size), counts) for size, counts in history.counts.items())
        self.needs = [need for need, _ in self.rows]
        self.known: dict[Span, tuple[int, int]] = {}

    def floor(self, need: int) -> int:
        """The greatest need that is counted, up to this one; 0 where there is none."""
        at = bisect.bisect_right(self.needs, need)
        return self.needs[at - 1] if at else 0

    def peak(self, span: Span) -> tuple[int, int]:
        """The most blocks, and the first snapshot that has them."""
        if span not in self.known:
            begin, end = (bisect.bisect_right(self.needs, need) for need in span)
            sums = list(map(sum, zip(*(counts for _, counts in self.rows[begin:end])))) or [0]
            self.known[span] = max(sums), sums.index(max(sums))
        return self.known[span]

    def spans_of(self, classes: Iterable[int]) -> list[Span]:
        """Those that the classes of a table serve, from a need that is counted."""
        ends = list(classes)
        return [(self.floor(begin), end) for begin, end in zip([0, *ends], ends)]

    def cost(self, span: Span) -> int:
        return figures.GRANULE * span[1] * self.peak(span)[0]


def spread_tables(step: int) -> list[figures.Classes]:
    """Tables whose classes grow by the same share, each from another class on."""
    found = []
    for first in range(SPREAD):
        blocks = (2 * 512 ** ((at + first / SPREAD) / (MOST_CLASSES - 2)) for at in range(MOST_CLASSES - 2))
        found.append(tuple(sorted({*(math.ceil(block / step) * step for block in blocks), LARGEST_CLASS})))
    return list(dict.fromkeys(found))


def join_spans(spans: Spans, counted: dict[figures.Classes, Optional[int]],
               fit: certificate_texts.Fit) -> "tuple[int, figures.Classes]":
    """Of the tables that join spans of tables that were counted, and may be that of this fit, the one that takes least, and what it takes over
    the run; no classes where there is none. A span's peak is in the history where its table takes there what was counted."""
    usable = [table for table, taken in counted.items() if sum(map(spans.cost, spans.spans_of(table))) == taken]
    edges = {span for table in usable for span in spans.spans_of(table) if span[1] % fit.step == 0 and spans.floor(span[1]) > span[0]}
    best: dict[Span, tuple[int, figures.Classes]] = {(0, 0): (0, ())}  # up to a need, with so many classes
    for begin, end in sorted(edges, key=operator.itemgetter(1)):
        for number in range(fit.limit):
            if (begin, number) in best:
                cost, classes = best[begin, number]
                found, at = (cost + spans.cost((begin, end)), (*classes, end)), (spans.floor(end), number + 1)
                best[at] = min(found, best.get(at, found))
    whole = [found for (need, number), found in best.items() if number and need == spans.needs[-1]]
    if fit.forced:
        whole = [(cost, tuple(sorted({*classes, LARGEST_CLASS}))) for cost, classes in whole]
    return min((found for found in whole if len(found[1]) <= fit.limit), default=(0, ()))


def with_guesses(history: count_texts.History, classes: figures.Classes) -> count_texts.History:
    """A history with a snapshot more for each class of a table: its blocks at its peak, and as many more as the root of their number."""
    spans, counts = Spans(history), {size: list(each) for size, each in history.counts.items()}
    for span in spans.spans_of(classes):
        peak, at = spans.peak(span)
        share, whole = 1 + 1 / math.sqrt(peak or 1), 0.0
        for size, each in counts.items():
            before, whole = whole, whole + each[at] * share * (span[0] < timelines.need_of(size) <= span[1])
            each.append(round(whole) - round(before))
    return count_texts.History(history.snapshots + len(classes), counts)


class IntervalNarrower:
    """Narrows the interval of a run. FIT makes the fit of a history with at most so many classes, or with those of the options for 0. TAKE puts
    the files of another run in the place of those before, OTHERS are tables that are compared, and most so many runs are made.

    The next run counts tables that took least over parts of what is known of the run, and has the moments that are known: so where it is an
    equal run, the lower end of its interval is at least as high, but for moments that there is no room for."""

    def __init__(self, runs: Runs, fit: Callable[[bytes, int], figures.OverTime], take: Callable[[bytes, bytes], None],
                 others: list[figures.Classes], most: int) -> None:
        self.runs, self.fit, self.take, self.others, self.most = runs, fit, take, others[:MOST_OTHERS], most
        self.needed: set[int] = set()  # moments at which a class of a fit's table has the most blocks

    def narrow(self, first: RunRecord, lower: bytes) -> tuple[figures.OverTime, RunRecord]:
        """The fit with its interval, and the run that both are of: the last one."""
        run = first
        made = [table for table in first.counted if table not in self.others]
        while True:
            timed = self.fit(lower, 0)
            interval = interval_of(timed, run)
            timed = timed._replace(interval=interval)
            if (interval and interval.is_narrow()) or tuple(timed.fit.classes) in run.counted:
                return timed, run
            if why := self.runs.why_not(run, self.most):
                return timed, run._replace(notes=[*run.notes, f"The bounds of the footprint differ by more than 1%: {why}."])
            made = self.with_tables(made, timed, run)
            say("tune_program", f"run {self.runs.number} is too long for a timeline, and is made again to count what a table takes over it")
            again = self.runs.record([f"--windows={WINDOWS}"], [*self.others, *made], self.runs.file("history"), self.choose_moments(run.moments))
            if again.status or self.runs.signals:
                return self.keep_earlier(timed, run)
            lower = self.runs.take_text("history")
            run = with_difference(again, run, self.runs.number)
            self.take(lower, self.runs.take_text("peak"))

    def with_tables(self, made: list[figures.Classes], timed: figures.OverTime,
                    run: RunRecord) -> list[figures.Classes]:
        """The tables to count next: that of the fit; what would be fitted next if each class of those before had some more blocks than are seen;
        and those of fewer classes and of the upper history. The peaks of their classes are in the next lower history."""
        history, found = by_need(timed.history), [tuple(timed.fit.classes)]
        spans = Spans(history)
        while len(found) < GUESSES and history.snapshots + len(found[-1]) <= MOST_SNAPSHOTS:
            history = with_guesses(history, found[-1])
            found.append(tuple(self.fit(count_texts.history_text(history).encode(), 0).fit.classes))
        if len(run.moments) == spans.snapshots:
            self.needed |= {run.moments[spans.peak(span)[1]] for table in found for span in spans.spans_of(table)}
        more = [(run.upper, 0), *[(timed.text, len(found[0]) * 3 // 4)] * (len(found[0]) > 2)]
        found += [tuple(self.fit(text, limit).fit.classes) for text, limit in more]
        return list(dict.fromkeys([*made, *reversed(found)]))[-MOST_MADE:]

    def choose_moments(self, moments: tuple[int, ...]) -> list[int]:
        """The moments of a run that the next one is to have: those that a fit needs, and of the others as many as there is room for."""
        needed = [each for each in moments if each in self.needed]
        others = [each for each in moments if each not in self.needed]
        room = MOST_HELD - len(needed)
        spread = others if len(others) <= room else [others[at * len(others) // room] for at in range(max(room, 0))]
        return sorted([*needed[-MOST_HELD:], *spread])

    def keep_earlier(self, timed: figures.OverTime, run: RunRecord) -> tuple[figures.OverTime, RunRecord]:
        """What there was, where another run failed."""
        note = f"Run {self.runs.number} ended otherwise: what is said is of the one before."
        return timed, run._replace(notes=[*run.notes, note])


def with_difference(run: RunRecord, before: RunRecord, number: int) -> RunRecord:
    """The run, with a note where it did something else than the one before."""
    events, others = run.measured.get("events", 0), before.measured.get("events", 0)
    if events == others:
        return run
    note = f"Run {number} has {events:,} events, and the one before {others:,}: what is said is of the last one alone."
    return run._replace(notes=[*run.notes, note])


# ---- of tune_program: its options, and its folder


def runs_of(options: Any, work: private_folder.Folder, kept: "str | None") -> Runs:
    """How profile_program is called: with the program, or with a timeline that is too long to be read at once."""
    if options.read is not None:
        return Runs(["--import", options.read], work, os.devnull)
    words = [] if options.only is None else ["--only", options.only]
    return Runs([*words, *([] if options.all else ["--as-scudo"]), "--", *options.words], work, kept)


def count(options: Any, folder: Any, runs: Runs, others: list) -> RunRecord:
    """Runs the program, and writes its profile, and its timeline or its two histories."""
    name = "program.profile" if options.all else "program.timeline"
    printed, shown = folder.at(name), folder.file(name)
    kind = [] if options.all else ["--timeline"] if options.read is None else ["--windows"]
    tables = [] if options.all else list(dict.fromkeys([*[tuple(classes) for _, classes in others][:MOST_OTHERS], *spread_tables(options.step)]))
    try:
        found = runs.record(kind, tables, printed)
        if not options.all and count_texts.is_history(text_files.read(printed, 100)):
            os.rename(printed, folder.at("program.history"))
    except OSError as error:
        raise Refusal(3, f"{shown} can't be made: {error.strerror}") from None
    if found.status not in (0, 1):
        # it said why on standard error itself
        kept = f"; what it wrote is in {shown}" if os.path.exists(printed) and os.path.getsize(printed) else ""
        raise Refusal(2 if found.status == 2 else 3,
                      f"there is no profile of {options.name()}, and nothing to tune{kept}")
    if not options.all:
        folder.write("program.profile", runs.take_text("peak"))
    return found


def narrow_interval(options: Any, folder: Any, runs: "Runs | None", found: RunRecord,
                    others: list) -> "tuple[figures.OverTime | None, RunRecord]":
    """Of a run that is longer than a timeline may be, the fit of its moments with its interval; and the run that this is of."""
    if not found.upper or not folder.has("program.history"):
        return None, found

    def fit(text: bytes, limit: int) -> figures.OverTime:
        name, how = folder.file("program.history"), claim_words.divisor_words(options.divisor)
        return figures.over_time("history", text, options.largest, limit or options.limit, options.step, name, how)

    def take(history: bytes, peak: bytes) -> None:
        folder.write("program.history", history)
        folder.write("program.profile", peak)

    lower = text_files.read(folder.at("program.history"))
    if runs:
        narrowing = IntervalNarrower(runs, fit, take, [tuple(classes) for _, classes in others], options.runs)
        timed, found = narrowing.narrow(found, lower)
    else:
        timed = fit(lower, 0)
        timed = timed._replace(interval=interval_of(timed, found))
    folder.write("upper.history", found.upper)
    return timed, found
