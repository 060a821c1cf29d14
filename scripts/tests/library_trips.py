"""Drawn arrays that each language's package tunes and then checks, forced and not, against the program's texts."""

import random
from pathlib import Path

from checks import expect, skip_without
from library_arrays import history_text, profile_text, timeline_text
from library_cases import DONE, NO, parts_of, program, run_command
from mte_scripts import formats
from mte_scripts.places import ROOT

KINDS = ("profile", "history", "timeline")
WRONG_COST = {"profile": 42, "history": 49, "timeline": 49}
TESTS = f"{ROOT}/scripts/tests"


class Trip:
    """An input and its options."""

    def __init__(self, kind, sizes, counts, limit, step=1, forced=0, snapshots=1):
        self.kind, self.sizes, self.counts = kind, sizes, counts
        self.limit, self.step, self.forced, self.snapshots = limit, step, forced, snapshots

    def line(self):
        """As the callers read it."""
        head = [KINDS.index(self.kind), self.limit, self.step, self.forced, self.snapshots, len(self.sizes)]
        return " ".join(map(str, [*head, *self.sizes, *self.counts]))

    def data(self):
        """As the functions of Python take it."""
        if self.kind == "profile":
            return (dict(zip(self.sizes, self.counts)),)
        if self.kind == "timeline":
            return self.sizes, self.counts
        rows = (self.counts[at * self.snapshots : (at + 1) * self.snapshots] for at in range(len(self.sizes)))
        return dict(zip(self.sizes, rows)), self.snapshots

    def wanted(self):
        """What the program says of its text, as the callers print it."""
        text_of = {"profile": profile_text, "history": history_text, "timeline": timeline_text}[self.kind]
        options = {"limit": self.limit, "step": self.step, "largest_class": self.forced}
        end, text = program("tune" if self.kind == "profile" else "fit", options, text_of(*self.data()))
        parts = parts_of(text)
        return line_of(end, parts, [DONE, 0, NO, WRONG_COST[self.kind]])


def line_of(end, table, checks):
    """What is printed of a table and of its two checks."""
    words = [end, table["bytes"], table["bound"], "classes", *table["classes"]]
    if end == DONE:
        words += ["rows", *sum(table["rows"], []), "moments", *table["moments"], "checks", *checks]
    return " ".join(map(str, words))


def counts_of(draw, kind, sizes, snapshots):
    if kind == "profile":
        return [draw.choice((1, 7, 1000, draw.randint(1, formats.MOST_COUNT))) for _ in sizes]
    rows = [[draw.choice((0, 1, draw.randint(0, 10**6))) for _ in range(snapshots)] for _ in sizes]
    return [int(count or not any(row)) for row in rows for count in row]


def drawn_timeline(draw):
    sizes, frees, live = [], [], []
    for _ in range(draw.randint(0, 40)):
        is_free = bool(live) and draw.random() < 0.4
        any_size = draw.choice((16, 40, 100, 1000, 20000, draw.randint(0, formats.LARGEST_SIZE)))
        size = live.pop(draw.randrange(len(live))) if is_free else any_size
        sizes.append(size)
        frees.append(int(is_free))
        live += [] if is_free else [size]
    return sizes, frees


def draw_trips(seed, number):
    """The shortest inputs, those with the most needs, and NUMBER drawn ones, each with class 1024 and without."""
    draw, most = random.Random(seed), formats.LARGEST_SIZE
    whole = list(range(0, most + 1, formats.GRANULE_BYTES))
    found = [Trip("profile", [16, 24, 100], [500, 70, 3], 2), Trip("profile", [], [], 1), Trip("timeline", [], [], 1),
             Trip("history", [], [], 3, snapshots=2), Trip("profile", [most], [1], 1), Trip("profile", [0], [9], 32),
             Trip("timeline", [20000], [0], 2), Trip("profile", whole, [1] * len(whole), 3),
             Trip("profile", whole[:-1], [2] * (len(whole) - 1), 32)]
    for _ in range(number):
        kind, limit, step = draw.choice(KINDS), draw.choice((1, 2, 3, 8, 32)), draw.choice((1, 1, 2, 4, 8))
        snapshots = draw.randint(1, 5) if kind == "history" else 1
        sizes = sorted(draw.sample(range(most + 1), draw.randint(0, 12)))
        sizes, counts = drawn_timeline(draw) if kind == "timeline" else (sizes, counts_of(draw, kind, sizes, snapshots))
        found.append(Trip(kind, sizes, counts, limit, step, snapshots=snapshots))
    return [Trip(it.kind, it.sizes, it.counts, it.limit, it.step, forced, it.snapshots)
            for it in found for forced in (0, 1)]


def line_of_python(package, trip):
    """What the package for Python gives."""
    tune, check = ("tune", "check") if trip.kind == "profile" else ("fit", "check_fit")
    options = {"limit": trip.limit, "step": trip.step, "largest_class": trip.forced}
    table, checks = getattr(package, f"{tune}_{trip.kind}")(*trip.data(), **options), []
    for each in (table, table._replace(bytes=table.bytes + 1)) if table.is_least else ():
        verdict = getattr(package, f"{check}_{trip.kind}")(each, *trip.data(), **options)
        checks += [DONE if verdict.is_optimal else NO, int(verdict.code)]
    return line_of(DONE if table.is_least else NO, table._asdict(), checks)


def compare(name, trips, wanted, lines):
    expect(f"{name}: a line for each trip", len(lines) == len(trips), len(lines), len(trips))
    for trip, want, line in zip(trips, wanted, lines):
        expect(f"{name}: tuned and checked: {trip.line()[:100]}", line == want, line, want)


def try_trips(compiler, shared, strict, sanitized, seed=84, number=300):
    """By C under the sanitizers, by C++ and by Python."""
    trips = draw_trips(seed, number)
    wanted, lines = [trip.wanted() for trip in trips], "".join(f"{trip.line()}\n" for trip in trips).encode()
    expect("most of the drawn inputs have a certificate", sum(" checks " in line for line in wanted) > len(trips) / 2)
    compare("Python", trips, wanted, [line_of_python(shared.package, trip) for trip in trips])
    for name, tool, standard, ending in (("C", "cc", "c99", "c"), ("C++", "c++", "c++17", "cpp")):
        if not skip_without(tool, f"the trips by {name}"):
            source = f"{TESTS}/library_trips.{ending}"
            words = [tool, f"-std={standard}", *strict, *sanitized, source, *compiler.flags()]
            caller = compiler.build(f"trips_{tool}", words)
            made = run_command([caller], input=lines)
            expect(f"{name}: the trips end", made.returncode == 0, made.stderr[-600:])
            compare(name, trips, wanted, made.stdout.decode().splitlines())


def try_rust_trips(crates, environment, seed=84, number=300):
    """By the crate, whose copy gets the caller as an example."""
    trips = draw_trips(seed, number)
    lines = "".join(f"{trip.line()}\n" for trip in trips).encode()
    Path(crates, "mte-tool/examples/trips.rs").write_bytes(Path(TESTS, "library_trips.rs").read_bytes())
    words = ["cargo", "run", "--offline", "--quiet", "--example", "trips"]
    made = run_command(words, cwd=f"{crates}/mte-tool", env=environment, input=lines)
    expect("Rust: the trips end", made.returncode == 0, made.stderr[-600:])
    compare("Rust", trips, [trip.wanted() for trip in trips], made.stdout.decode().splitlines())
