"""What a profile, its sheet and other tables come to: the figures that tune_program and report show.

The program itself scores, checks and tunes; here is only what its outputs mean for memory."""

import bisect
import functools
import os
import re
from collections.abc import Callable, Iterator
from typing import NamedTuple, Optional

from mte_scripts import certificate_texts, claims, count_texts, program_runs, text_files, text_layout
from mte_scripts.certificate_texts import tuner_options as options
from mte_scripts.claim_words import GRANULE  # a block begins with a header of one
from mte_scripts.entry_point import Refusal
from mte_scripts.formats import CODES, LARGEST_CLASS, LARGEST_SIZE, MOST_CLASSES, MOST_COUNT
from mte_scripts.places import EXAMPLES
from mte_scripts.recording import timelines
from mte_scripts.tables import release_model, scudo_map, scudo_memory

WORTH, LEAST = 0.005, 1 << 19  # a saving that is worth a word: as a share of the process, and in bytes
NO_HELP = "a table is not worth it here; "
NARROW = 100  # an interval is narrow where its width is at most a hundredth of its lower end
Classes = tuple[int, ...]
NOTHING = f"no bytes are counted in requests of at most {LARGEST_SIZE:,} bytes: there is nothing to tune"
OTHERS = [("Scudo's default", "scudo.classes"), ("Scudo's for Android", "scudo_android.classes")]


def at_peak(history: count_texts.History) -> dict:
    """The snapshot of the most requested bytes, large ones left out, as a profile."""
    sizes = history.counts.keys() - {"large"}
    most = max(range(history.snapshots), key=lambda at: sum(size * history.counts[size][at] for size in sizes))
    return {size: counts[most] for size, counts in history.counts.items()}


def class_text(classes: list[int]) -> str:
    return " ".join(["classes", *map(str, classes)])


def run(words: list[str], text: "str | bytes", classes: "list[int] | None" = None) -> tuple[int, str]:
    """The output of the program over a text, which comes after the line of these CLASSES; and its status, 0 or 1: a verdict. Any other ends the
    script."""
    border, line = program_runs.border(class_text(classes)) if classes is not None else ([], b"")
    status, out, error = program_runs.answer_once((*words, *border), *filter(None, (line, os.fsencode(text))))
    if status not in (0, 1):
        raise Refusal(2 if status == 2 else 3,
                      f"`mte_tool {' '.join(words)}` failed: {error or f'its status is {status}'}")
    return status, out.decode("ascii", "replace").strip()


def footprint(classes: "list[int]", text: bytes) -> "int | None":
    """What a table takes over a history or a timeline; None where it does not serve a size."""
    status, answer = run(["footprint"], text, classes)
    return int(answer.split()[-1]) if status == 0 else None


class Peaks(NamedTuple):
    """What the blocks of a table come to over a timeline: for each class the most that are live, and the first moment of so many; the most bytes
    of all live ones, and the most that are freed and not yet given out again."""

    most: list[int]
    moments: list[int]
    live: int
    freed: int

    def moments_of_peaks(self) -> list[int]:
        """The moments at which some class first has its most blocks, in the order of time."""
        return sorted({moment for most, moment in zip(self.most, self.moments) if most})


def peaks(classes: list[int], text: bytes) -> Optional[Peaks]:
    """What a table comes to over a timeline; None where it does not serve a size. A class above the largest one counts as that."""
    status, answer = run(["peaks"], text, [min(each, LARGEST_CLASS) for each in classes])
    if status:
        return None
    most, moments, (live,), (freed,) = ([int(word) for word in line.split()[1:]] for line in answer.split("\n"))
    return Peaks(most, moments, live, freed)


def refuse_timeline(data: bytes, name: str, command: str = "footprint", classes: "Classes | list[int]" = (LARGEST_CLASS,)) -> None:
    """Refuses a timeline at its first faulty line, which the program finds: by what it says of a table, which may be asked again later."""
    border, line = program_runs.border(class_text(list(classes)))
    status, _, error = program_runs.answer_once((command, *border), line, data)
    if match := re.fullmatch(r"error (\d+) (\w+) line (\d+)", error):
        at = int(match[3]) - 1
        line = text_files.lines_of(data)[at - 1]
        forms = ", `SIZE`, `-SIZE`, `large` and `-large`" if match[2] == "BadTimeline" else ""
        why = count_texts.encoding(line, at) or CODES[int(match[1])].words + forms
        raise Refusal(2, f"{name}: {match[1]} {match[2]} line {at}: {why}: {text_layout.shorten_line(line)}")
    if status not in (0, 1):
        raise Refusal(2 if status == 2 else 3,
                      f"`mte_tool {command}` of {name} failed: {error or f'its status is {status}'}")


class Interval(NamedTuple):
    """Over a run no table takes less than `low`; the one of these classes takes at most `high`."""

    classes: list[int]
    low: int
    high: int
    events: int  # 0 where it is not known how many
    counted: dict[Classes, Optional[int]]  # what tables take over the run

    def is_narrow(self) -> bool:
        return (self.high - self.low) * NARROW <= self.low


class OverTime(NamedTuple):
    """What was recorded over time, a history or a timeline, and its fit, with what is claimed of it."""

    kind: str
    text: bytes
    fit: certificate_texts.Fit
    fit_text: str  # or what `fit` printed in place of one
    claim: claims.Claim
    history: count_texts.History  # what was recorded, or of a timeline the moments that its fit names: at these each class has its most blocks
    interval: Optional[Interval] = None  # of a run that is longer than a timeline may be, of which the history has some moments


def over_time(kind: str, text: bytes, largest: bool, limit: int, step: int, name: str = "", how: str = "") -> OverTime:
    """The fit of a text of this name, with class 1024 in its table if it is wanted. A timeline may have none: then the claim is the bound that
    `fit` proves."""
    answer, claim = claims.fit_counts(text, name or f"the {kind}", (limit, step, largest), how)
    if claim.is_bound:
        fit = certificate_texts.Fit(certificate_texts.parse_class_line(answer.split("\n")[0]), limit, step, largest, claim.numbers["takes"], [], [])
        moments = peaks(fit.classes, text).moments_of_peaks()
    else:
        fit = certificate_texts.parse_fit(answer)
        moments = fit.moments or []
    history = count_texts.parse_history(text) if kind == "history" else timelines.history_at(text, moments)
    return OverTime(kind, text, fit, answer, claim, history)


class Table:
    """A class table with its score: its WASTE, which a claim may have told, or the least counted size that it does not serve."""

    def __init__(self, name: str, classes: list[int], profile: dict, waste: Optional[int] = None) -> None:
        self.name, self.classes, self.waste = name, classes, waste
        self.unserved: Optional[int] = None
        if waste is None:
            status, answer = run(["score"], count_texts.profile_text(profile), classes)
            number = int(answer.split()[-1])
            self.waste, self.unserved = (number, None) if status == 0 else (None, number)
        # over a history or a timeline whose sizes it serves: what it takes there, and over the run, of which a history may have some moments
        self.seen: Optional[int] = None
        self.footprint: Optional[int] = None
        self.is_known = ""  # how the two differ: it takes that over the run, "at least" that, or "at most"

    def take_record(self, timed: OverTime, has_peaks: bool, is_chosen: bool) -> None:
        """What it takes over time: of the fit's table its claim says it. By its peaks, which take longer, where these are asked for later. Of a
        run that is longer than its history, what was counted, or what it takes at least, over the moments; the one that IS_CHOSEN takes at most
        what bounds it."""
        if self.classes == timed.fit.classes and (timed.claim.holds or timed.claim.is_bound):
            self.seen = timed.fit.footprint
        elif timed.kind == "timeline" and has_peaks:
            found = peaks(self.classes, timed.text)
            self.seen = found and sum(GRANULE * each * most for each, most in zip(self.classes, found.most))
        else:
            self.seen = footprint(self.classes, timed.text)
        self.footprint = self.seen
        if timed.interval and tuple(self.classes) in timed.interval.counted:
            self.footprint = timed.interval.counted[tuple(self.classes)]
        elif timed.interval:
            self.footprint, self.is_known = (timed.interval.high, "at most") if is_chosen else (self.seen, "at least")


def block_of(classes: list[int], size: int) -> int:
    """The block of a table for a size, in bytes; 0 where no class serves it."""
    at = bisect.bisect_left(classes, timelines.need_of(size))
    return GRANULE * classes[at] if at < len(classes) else 0


class Figures:
    """The figures of a profile, a sheet of it as text, and other tables as [(name, classes)]; with a record over time, those of its fit's table
    too, and each table's footprint. The objective is waste or footprint: `first` is the table that is the first by it, and what is said of
    savings, of the curve and of the classes is of this one. GIVEN is what the profile is called, and HOW it came of that."""

    def __init__(self, profile: dict, sheet: str, others: list[tuple[str, list[int]]], timed: Optional[OverTime] = None, objective: str = "waste",
                 given: str = "the profile", how: str = "") -> None:
        self.counts = {size: profile[size] for size in sorted(profile.keys() - {"large"}) if profile[size]}
        self.large = profile.get("large", 0)
        self.requests = sum(self.counts.values())
        self.bytes = sum(size * count for size, count in self.counts.items())
        if not self.bytes:
            raise Refusal(3, NOTHING)
        found = certificate_texts.parse_sheet(sheet)
        claim = claims.check_certificate(sheet, count_texts.profile_text(profile).encode(), given, how, "the sheet")
        self.best = Table(claim.table(), found.classes, profile, claim.cost if claim.holds else None)
        if self.best.waste is None:
            unserved = f"the sheet's table does not serve {self.best.unserved} bytes, which the profile counts"
            raise Refusal(2, f"{unserved}: is it the sheet of another profile?")
        self.profile = profile
        self.others = [Table(name, classes, profile) for name, classes in others]
        self.timed = timed
        self.fitted: Optional[Table] = None
        self.simulated: Optional[release_model.Saving] = None  # what the map saves in Scudo as it is set
        self.objective = objective
        certified: list = [(found, claim)]
        if timed is not None:
            self.take_fit(timed, profile)
            certified.append((timed.fit, timed.claim))
        # of the tables that are made, in their order; and the sheet or the fit of the first
        certified = certified[::-1] if objective == "footprint" else certified
        self.claims: list[claims.Claim] = [each for _, each in certified]
        self.certificate = certified[0][0]
        self.first, *self.rest = self.order_made() + self.others
        self.least = self.least_by_classes()

    def take_fit(self, timed: OverTime, profile: dict[int, int]) -> None:
        """The table of the fit, and the footprint of each."""
        classes = timed.interval.classes if timed.interval else timed.fit.classes
        self.fitted = Table(timed.claim.table(), classes, profile, self.best.waste if classes == self.best.classes else None)
        for table in (self.best, self.fitted, *self.others):
            table.take_record(timed, table in (self.order_made()[0], *self.others[:1]), table.classes == self.fitted.classes)

    def order_made(self) -> list[Table]:
        """The tables that were made, the first by the objective before the other one."""
        made = [table for table in (self.best, self.fitted) if table]
        return made[::-1] if self.objective == "footprint" else made

    def least_by_classes(self) -> list[int]:
        """The least cost of at most 1, 2, .. classes that serve what is given, and have the classes that are forced. A timeline is seen at the
        moments of its fit."""
        words = options(MOST_CLASSES, self.certificate.step, self.certificate.forced)
        if self.objective == "waste":
            rows = certificate_texts.parse_sheet(run(["tune", *words], count_texts.profile_text(self.profile))[1]).rows
        elif self.timed.fit.limit == MOST_CLASSES and self.timed.fit.rows:
            rows = self.timed.fit.rows
        else:
            rows = certificate_texts.parse_fit(run(["fit", *words], count_texts.history_text(self.timed.history))[1]).rows
        return [row[0] if row else 0 for row in rows]

    def cost(self, table: Table) -> "int | None":
        """The waste or the footprint of a table, None where it does not serve all sizes."""
        return table.footprint if self.objective == "footprint" else table.waste

    def cost_over_record(self, table: Table) -> "int | None":
        """The same, of the footprint over what was recorded, which all tables are known over."""
        return table.seen if self.objective == "footprint" else table.waste

    def blocks(self, table: Table) -> int:
        """The bytes of the blocks that the counted requests take: headers, requests and waste."""
        return GRANULE * self.requests + self.bytes + table.waste

    def base_of_share(self, table: Table) -> int:
        """Of what a saving against this table is a share."""
        return table.footprint if self.objective == "footprint" else self.blocks(table)

    def saving(self, table: Table) -> "int | None":
        """By how many bytes the first table costs less than this one; None where that does not serve all sizes, or is known in another way."""
        if self.objective == "footprint":
            return self.saved_footprint(table)
        return None if table.waste is None else self.saved_waste(table)

    def saved_waste(self, table: Table) -> int:
        """By how many bytes the first table wastes less than this one, of what is counted at one moment."""
        return table.waste - self.first.waste

    def saved_footprint(self, table: Table) -> "int | None":
        """By how many bytes the first table takes less than this one over time; None where one of the two does not serve all sizes, or one is
        known over the run, and the other in part."""
        is_alike = table.is_known == self.first.is_known
        return table.footprint - self.first.footprint if is_alike and None not in (table.footprint, self.first.footprint) else None

    def most_at_a_moment(self, amount: Callable[[int], int]) -> int:
        """The most of all live blocks together at a moment, each with an amount of its size."""
        if self.timed.kind == "timeline":
            return timelines.peak_of(self.timed.text, amount)[0]
        amounts = {size: amount(size) for size in self.timed.history.counts.keys() - {"large"}}
        rows = [[each * count for count in self.timed.history.counts[size]] for size, each in amounts.items() if each]
        return max(map(sum, zip(*rows)), default=0)

    def most_live(self, table: Table) -> int:
        """The most bytes of all its live blocks together: what it takes where each block that is freed is given back at once."""
        if self.timed.kind == "timeline":
            return peaks(table.classes, self.timed.text).live
        return self.most_at_a_moment(lambda size: block_of(table.classes, size))

    def heights(self, parts: int) -> list[list[int]]:
        """The most live blocks of each class of the first table in each of so many equal parts of a timeline, or at each moment of a
        history."""
        if self.timed.kind == "timeline":
            return timelines.heights(self.timed.text, self.first.classes, parts)
        return self.at_moments(self.first.classes)

    def at_moments(self, classes: list[int]) -> list[list[int]]:
        """The live blocks of each class of a table at each moment of a history. What the table does not serve is left out."""
        rows = [[0] * len(classes) for _ in range(self.timed.history.snapshots)]
        for size, counts in self.timed.history.counts.items():
            if size != "large" and (block := block_of(classes, size)):
                place = classes.index(block // GRANULE)
                for row, count in zip(rows, counts):
                    row[place] += count
        return rows

    def in_scudo(self, classes: list[int]) -> int:
        """The bytes that Scudo is predicted to take with a map of these classes while it gives nothing back."""
        if self.timed.kind == "timeline":
            found = peaks(classes, self.timed.text)
            return scudo_memory.bytes_taken(classes, found.most, found.freed)
        most, freed = [0] * len(classes), 0
        for row in self.at_moments(classes):
            most = [max(pair) for pair in zip(most, row)]
            freed = max(freed, sum(most) - sum(row))
        return scudo_memory.bytes_taken(classes, most, freed)

    @functools.cached_property
    def saved_in_scudo(self) -> int:
        """By how many bytes Scudo is predicted to take less with the map of the first table than with its default, the first of the others,
        while it gives nothing back."""
        return self.in_scudo(self.others[0].classes) - self.in_scudo(scudo_map.in_map(self.first.classes))

    def predicted_saving(self) -> "int | None":
        """By how many bytes Scudo is predicted to take less with the map than with its default: as it is set, where that was
        simulated, and else while it gives nothing back; None without a record over time."""
        if self.simulated:
            return (self.simulated.low + self.simulated.high) // 2
        return self.saved_in_scudo if self.timed else None

    def count_requests(self) -> dict:
        """How often each size was requested over time; of a history, which has not all, how many blocks it has."""
        if self.timed.kind == "timeline":
            return timelines.requests_of(self.timed.text)
        return {size: sum(counts) for size, counts in self.timed.history.counts.items()}

    def find_larger_blocks(self, other: Table) -> tuple[list[tuple[int, int, int]], int, int]:
        """The sizes that get a larger block of the first table than of the other one, as (size, block, the other block), and what that costs at
        a moment at most. Sizes that one of the two does not serve are left out."""
        sizes = sorted(size for size in self.count_requests() if size != "large")
        found = {size: (block_of(self.first.classes, size), block_of(other.classes, size)) for size in sizes}
        found = {size: blocks for size, blocks in found.items() if 0 < blocks[1] < blocks[0]}
        cost = self.most_at_a_moment(lambda size: found[size][0] - found[size][1] if size in found else 0)
        return [(size, *blocks) for size, blocks in found.items()], len(sizes), cost

    def wastes_over_time(self, other: Table) -> "list[int]":
        """The waste of all requests of a timeline, a sum over time, of the first table and of the other one, where the first one's is more;
        empty where it is not, one of the two does not serve a size, or not all requests are known."""
        if self.timed.kind != "timeline":
            return []
        requests, tables = {size: min(times, MOST_COUNT) for size, times in self.count_requests().items()}, (self.first, other)
        blocks = [(times, *(block_of(table.classes, size) for table in tables)) for size, times in requests.items() if size != "large"]
        if min(map(min, blocks), default=0) == 0 or sum(times * (own - its) for times, own, its in blocks) <= 0:
            return []  # so there is nothing to ask the program
        return [Table(table.name, table.classes, requests).waste for table in tables]

    def classes(self) -> Iterator[tuple[int, int, int, int, int]]:
        """For each class of the first table: its block in bytes, the least and the greatest size it serves, and by the objective its requests
        and the bytes lost, or the most of its blocks live at once and their bytes."""
        below = -1
        for granules in self.first.classes:
            most = GRANULE * granules - GRANULE
            if self.objective == "footprint":
                rows = [counts for size, counts in self.timed.history.counts.items() if size != "large" and below < size <= most]
                count = max(map(sum, zip(*rows)), default=0)
                cost = GRANULE * granules * count
            else:
                served = {size: count for size, count in self.counts.items() if below < size <= most}
                count, cost = sum(served.values()), sum((most - size) * count for size, count in served.items())
            yield GRANULE * granules, below + 1, most, count, cost
            below = most

    def state_findings(self) -> list[str]:
        """What is known of the table that is the first by the objective, and of the other one that is made."""
        return [each.sentence() for each in self.claims]

    def interval(self) -> "list[str]":
        """What is known of the footprint over a run that is longer than its history: in a sentence, and on what that rests."""
        timed = self.timed
        if not timed or not timed.interval or not timed.claim.holds:
            return []
        return list(claims.interval(timed.claim, timed.interval.high, timed.interval.events))

    def state_refusals(self) -> list[str]:
        """What `check` and `check-fit` say where nothing follows."""
        return [each.sentence() for each in self.claims if not each.holds and not each.is_bound]


def other_tables(paths: list[str]) -> list[tuple[str, list[int]]]:
    """Scudo's tables and those of the files, each with a name."""
    named = [(name, os.path.join(EXAMPLES, file)) for name, file in OTHERS]
    named += [(without_ending(path, ".classes"), path) for path in paths]
    return [(name, certificate_texts.class_line(path)) for name, path in named]


def without_ending(path: str, *endings: str) -> str:
    """The name of a file, without its folder and such an ending."""
    name = os.path.basename(path)
    return next((name[: -len(ending)] for ending in endings if name.endswith(ending) and name != ending), name)


def helps(saving: int, process: int) -> bool:
    """Whether so many bytes less of a process are worth a word."""
    return saving >= max(LEAST, WORTH * process)


def number(value: int) -> str:
    return f"{value:,}"


def percent(part: int, whole: int) -> str:
    # no share is -0.0%
    return f"{round(100 * part / whole, 1) + 0.0:.1f}%" if whole else "0.0%"


def kibibytes(count: int) -> str:
    return f"{count / 1024:,.{1 if abs(count) < 102_400 else 0}f} KiB"


def byte_text(value: float) -> str:
    """So many bytes, in the unit that suits."""
    for unit, size in (("PiB", 1 << 50), ("TiB", 1 << 40), ("GiB", 1 << 30), ("MiB", 1 << 20), ("KiB", 1 << 10)):
        if value >= size:
            return f"{value / size:.3g} {unit}" if value < 999.5 * size else f"{value / size:,.0f} {unit}"
    return f"{value:.3g} byte{'' if value == 1 else 's'}"
