"""What hardening costs a program, and how much of that a table takes back: runs of the program with its present allocator and with others."""

import math
import os
import random
import re
import statistics
import subprocess
from collections.abc import Callable, Iterable
from typing import Any, NamedTuple, Optional

from mte_scripts import text_layout
from mte_scripts.entry_point import Refusal, say
from mte_scripts.tables import verification
from mte_scripts.tables.figures import helps, kibibytes, percent

GLIBC, DEFAULT = "glibc", "Scudo's default"
OTHERS = (  # an allocator and its file
    ("jemalloc", "libjemalloc.so.2"),
    ("mimalloc", "libmimalloc.so.2"),
    ("tcmalloc", "libtcmalloc_minimal.so.4"),
    ("hardened_malloc", "libhardened_malloc.so"),
)
LINKED = re.compile(r"lib(jemalloc|mimalloc|tcmalloc|tbbmalloc|hardened_malloc)[^ /]*\.so")
RUNS, SEED = 5, 1
STUDENT = 2.7764451  # Student's t with RUNS - 1 degrees of freedom, which 95% do not exceed to either side
STUDENTS = (12.7062047, 4.3026527, 3.1824463, STUDENT)  # with 1, 2, 3 and 4
COUNTED = 32 * 4096  # bytes of a process that one processor may have counted apart from the others when Linux is asked for the peak
SHORTEST = 0.05  # seconds of processor time, of which a share is worth a word


class Row(NamedTuple):
    """What the runs with one allocator took: the peaks of the resident set in bytes, and the processor times in seconds, ascending."""

    name: str
    peaks: list[int]
    times: list[float]
    strange: int  # the runs that ended otherwise than with the present allocator

    def peak(self) -> int:
        return int(statistics.median(self.peaks))

    def time(self) -> float:
        return statistics.median(self.times)

    def interval(self) -> tuple[int, int]:
        """A prediction interval: where the peak of one further run lies with 95%, if peaks are normally distributed, and at least as wide as
        Linux counts."""
        middle, spread = statistics.fmean(self.peaks), statistics.stdev(self.peaks) * math.sqrt(1 + 1 / len(self.peaks))
        half = max(STUDENTS[len(self.peaks) - 2] * spread, COUNTED)
        return max(math.floor(middle - half), 0), math.ceil(middle + half)

    def is_below(self, other: "Row") -> bool:
        """Whether it takes clearly less: no run took as much as any of the other's, and the middle ones differ by what is worth a word."""
        return self.peaks[-1] < other.peaks[0] and helps(other.peak() - self.peak(), other.peak())


class Price(NamedTuple):
    """What hardening costs over the present allocator, and what of it the table takes back."""

    plain: Row
    default: Row
    tuned: Row

    def cost(self) -> int:
        return self.default.peak() - self.plain.peak()

    def bytes_back(self) -> int:
        return self.default.peak() - self.tuned.peak()

    def range(self) -> Optional[tuple[float, float]]:
        """The least and the most share that is paid back, over all peaks in the three intervals; None where these allow that there is no price."""
        ends = [row.interval() for row in self]
        if ends[1][0] <= ends[0][1]:
            return None
        corners = [(default - tuned) / (default - plain) for plain in ends[0] for default in ends[1] for tuned in ends[2]]
        return min(corners), max(corners)


def installed_allocators() -> dict[str, str]:
    """The other allocators that are there, and their files."""
    try:
        known = subprocess.run(["/sbin/ldconfig", "-p"], capture_output=True, text=True, stdin=subprocess.DEVNULL).stdout
    except OSError:
        return {}
    found = {}
    for name, file in OTHERS:
        lines = [line for line in known.splitlines() if line.split()[:1] == [file] and " => " in line]
        lines = [line for line in lines if os.uname().machine.replace("_", "-") in line] or lines
        if lines:
            found[name] = lines[0].split(" => ")[1]
    return found


def present(path: str) -> str:
    """The allocator that a program is linked with."""
    try:
        done = subprocess.run(["ldd", path], capture_output=True, text=True, stdin=subprocess.DEVNULL, timeout=20)
    except (OSError, subprocess.TimeoutExpired):
        return GLIBC
    linked = LINKED.search(done.stdout)
    return linked[1] if linked else GLIBC


def run_rounds(names: "Iterable[Any]", run: "Callable[[Any], Any]", what: str) -> "dict[Any, list]":
    """What some runs with each of these return, each round of them in a random order; WHAT says of which."""
    order, found = random.Random(SEED), dict[Any, list]((name, []) for name in names)
    for made in range(RUNS):
        say("tune_program", f"round {made + 1} of {RUNS}: {what}")
        for name in order.sample(sorted(found), len(found)):
            found[name].append(run(name))
    return found


def measure_allocators(runner: str, words: list, path: str, libraries: dict[str, Optional[str]],
                       given: Optional[str]) -> list[Row]:
    """Runs the program some times with each library. The first is the present allocator: no library."""
    def run(name: str) -> verification.Run:
        return verification.run_once(runner, words, path, libraries[name], given, None, libraries.values())

    found = run_rounds(libraries, run, f"{words[0]} with {', '.join(libraries)}")
    statuses = {run.status for run in found[next(iter(libraries))]}
    if len(statuses) > 1:
        raise Refusal(3, f"{words[0]} does not end the same each time: with status "
                         f"{' or '.join(map(str, sorted(statuses)))}")
    return [Row(name, sorted(run.peak for run in each), sorted(run.spent for run in each),
                sum(run.status not in statuses for run in each)) for name, each in found.items()]


def price_of(rows: list[Row], tuned: str) -> Optional[Price]:
    """None where the program ended otherwise with one of the three."""
    sound = {row.name: row for row in rows if not row.strange}
    return Price(rows[0], sound[DEFAULT], sound[tuned]) if DEFAULT in sound and tuned in sound else None


def is_worth(rows: list[Row], tuned: str) -> bool:
    """Whether the table takes clearly less than Scudo's default."""
    price = price_of(rows, tuned)
    return price is not None and price.tuned.is_below(price.default)


def verdict(rows: list[Row], tuned: str) -> str:
    """What the table saves or that it is not worth it, what hardening costs in memory, what of that the table pays back, and processor time."""
    now, price = rows[0], price_of(rows, tuned)
    takes = f"It takes {kibibytes(now.peak())} with {now.name}, as now"
    if price is None:
        return f"measured, and nothing follows for Scudo, with which it ended otherwise. {takes}."
    share = f"in Scudo, {percent(abs(price.bytes_back()), price.default.peak())} of the peak"
    if is_worth(rows, tuned):
        said = f"measured, the table saves {kibibytes(price.bytes_back())} {share}."
    else:
        saved = f"saves {kibibytes(price.bytes_back())}" if price.bytes_back() >= 0 else f"takes {kibibytes(-price.bytes_back())} more"
        said = f"this table is not worth it: take Scudo as it is. Measured, it {saved} {share}."
    takes += f"; {kibibytes(price.default.peak())} with {DEFAULT}; and {kibibytes(price.tuned.peak())} with the table."
    return f"{said} {payback_text(price, is_worth(rows, tuned))} {takes} {processor_time(price)}"


def payback_text(price: Price, is_worth_it: bool) -> str:
    """What hardening costs in memory, and what of that the table pays back."""
    now = price.plain
    if not now.is_below(price.default):
        return "Hardening has no price here that can be told from chance."
    cost = f"Hardening costs {kibibytes(price.cost())}, {percent(price.cost(), now.peak())}"
    if not is_worth_it:
        return f"{cost}."
    ends = price.range()
    sure = f" ({math.floor(100 * ends[0])} to {math.ceil(100 * ends[1])}%)" if ends else ", as the middle of runs that differ much"
    left = "so that it costs no memory" if not now.is_below(price.tuned) else f"so that it costs {kibibytes(price.tuned.peak() - now.peak())}"
    return f"{cost}; the table pays back {100 * price.bytes_back() / price.cost():.0f}% of that{sure}, {left}."


def processor_time(price: Price) -> str:
    """What the middle runs took of processor time, as a sentence."""
    times = [row.time() for row in price]
    more = [f" ({100 * (each / times[0] - 1):+.0f}%)" if times[0] >= SHORTEST else "" for each in times]
    return f"Its processor time is {times[0]:.2f} s now, {times[1]:.2f} s in Scudo{more[1]}, and {times[2]:.2f} s with the table{more[2]}."


def lines(rows: list[Row]) -> list[str]:
    """A line for each allocator: its peak with the interval of a further one, the change against the present one, and its processor time."""
    now = rows[0]
    cells: list[tuple] = [("Allocator", "peak, KiB", "from", "to", "change", "time, s")]
    for row in rows:
        low, high = row.interval()
        sizes = (f"{each:,}" for each in (row.peak() // 1024, low // 1024, -(-high // 1024)))
        change = "" if row is now else f"{100 * (row.peak() / now.peak() - 1):+.1f}%"
        cells.append((f"{row.name}, now" if row is now else row.name, *sizes, change, f"{row.time():.2f}"))
    return text_layout.columns(cells, most=80)
