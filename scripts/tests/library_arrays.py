"""The tests of the library's calls over arrays, by its Python package, which is the argument."""

import ctypes
import importlib

from checks import expect
from library_cases import BAD_OPTION, DONE, MISUSE, NO, REFUSED, ending_of, parts_of, program, read
from mte_scripts import formats


def profile_text(profile):
    return b"".join(b"%d %d\n" % entry for entry in sorted(profile.items()))


def history_text(history, snapshots):
    lines = [" ".join(map(str, (size, *counts))) for size, counts in sorted(history.items())]
    return "\n".join([f"snapshots {snapshots}", *lines, ""]).encode()


def timeline_text(sizes, frees):
    lines = [("-" if free else "") + ("large" if size > formats.LARGEST_SIZE else str(size)) for size, free in zip(sizes, frees)]
    return "\n".join(["timeline", *lines, ""]).encode()


def table_parts(table):
    return {name: getattr(table, name) for name in ("classes", "bytes", "rows", "moments", "bound")}


def class_line(classes):
    return b" ".join([b"classes", *(b"%d" % size for size in classes)]) + b"\n"


def certificate_text(table, cost, limit, step):
    """The text of a table with its certificate."""
    lines = [["classes", *table.classes], ["limit", limit], *([["step", step]] if step > 1 else []), [cost, table.bytes]]
    lines += [["row", *row] for row in table.rows] + ([["moments", *table.moments]] if table.moments else [])
    return "".join(" ".join(map(str, line)) + "\n" for line in lines).encode()


def spoiled_tables(table):
    """The table with each part changed."""
    yield table._replace(classes=table.classes[:-1])
    yield table._replace(classes=[*table.classes[:-1], 1024])
    yield table._replace(bytes=table.bytes + 1)
    if table.rows and table.rows[0]:
        yield table._replace(rows=[[table.rows[0][0] + 1, *table.rows[0][1:]], *table.rows[1:]])
        yield table._replace(rows=[row[:-1] for row in table.rows])
    if table.moments:
        yield table._replace(moments=[*table.moments[:-1], 999999999])
        yield table._replace(moments=[])


class Series:
    """The calls of the package over one kind of data, and the program's commands over its text."""

    def __init__(self, package, kind, data, text):
        self.data, self.text = data, text
        names = ("score", "tune", "check") if kind == "profile" else ("footprint", "fit", "check_fit")
        self.score, self.tune, self.check = (getattr(package, f"{name}_{kind}") for name in names)
        self.commands = [*(name.replace("_", "-") for name in names), "waste" if kind == "profile" else "footprint"]

    def compare(self, what, tables, limits):
        score, tune, check, cost = self.commands
        for classes in tables:
            end, text = program(score, {}, (class_line(classes), self.text))
            number = int(text.split()[-1])
            want = (end == DONE, number if end == DONE else 0, number if end == NO else 0)
            expect(f"{what}: {score} by {classes}", self.score(classes, *self.data) == want)
        for limit, step in limits:
            end, text = program(tune, {"limit": limit, "step": step}, self.text)
            table = self.tune(*self.data, limit=limit, step=step)
            is_same = table_parts(table) == parts_of(text) and table.is_least == (end == DONE)
            expect(f"{what}: {tune} for {limit} and {step}", is_same, table_parts(table))
            for number, each in enumerate([table, *spoiled_tables(table)]):
                self.compare_check(f"{what}: {check} for {limit} and {step}, table {number}", check, each, limit, step, cost)

    def compare_check(self, what, check, table, limit, step, cost):
        end, said = program(check, {}, (certificate_text(table, cost, limit, step), self.text))
        try:
            got = (DONE if (verdict := self.check(table, *self.data, limit=limit, step=step)).is_optimal else NO, verdict.code, 0)
        except Exception as error:
            got = (error.end, error.code, 0)
        expect(what, got == (*ending_of(end, said)[:2], 0), got, said)


def example_profiles():
    found = {name: dict(tuple(map(int, line.split())) for line in read(name).decode().splitlines() if line[0] != "l")
             for name in ("sqlite.profile", "jq.profile", "perl.profile")}  # fmt: skip
    return {**found, "small": {16: 1, 32: 1, 48: 1}, "none": {}, "one": {0: 1000000000}, "most": {formats.LARGEST_SIZE: 1}}


def run_of(trace, events):
    """The requests and frees of a trace's first events as a timeline: sizes, and whether they are freed."""
    live, sizes, frees = {}, [], []
    for line in trace.decode().splitlines()[:events]:
        word, variable, *rest = line.split()
        if word in ("malloc", "calloc", "realloc", "free") and variable in live:
            sizes.append(live.pop(variable))
            frees.append(True)
        if word in ("malloc", "calloc", "realloc"):
            live[variable] = int(rest[0])
            sizes.append(live[variable])
            frees.append(False)
    return sizes, frees


def try_arrays(package):
    tables, limits = ([], [2], [2, 4, 1024]), ((1, 1), (8, 1), (32, 1), (32, 2), (3, 8))
    for name, profile in example_profiles().items():
        Series(package, "profile", (profile,), profile_text(profile)).compare(f"arrays: {name}", tables, limits)
    large_history = read("sqlite_large.history").decode().splitlines()
    snapshots = int(large_history[0].split()[1])
    lines = [list(map(int, line.split())) for line in large_history[1:] if line[0] != "l"]
    histories = {"sqlite_large": ({line[0]: line[1:] for line in lines}, snapshots), "small": ({16: [4, 0, 1], 40: [2, 3, 0]}, 3),
                 "none": ({}, 1), "most": ({0: [10**9] * 1024, formats.LARGEST_SIZE: [0] * 1023 + [1]}, 1024)}  # fmt: skip
    for name, (history, snapshots) in histories.items():
        series = Series(package, "history", (history, snapshots), history_text(history, snapshots))
        series.compare(f"arrays: history {name}", tables, limits)
    timelines = {"small": ([16, 40, 16, 20000, 16, 0, 0, 40, 20000], [0, 0, 1, 0, 0, 0, 1, 0, 1]), "none": ([], []),
                 "jq": run_of(read("jq.trace"), 3000)}  # fmt: skip
    for name, (sizes, frees) in timelines.items():
        Series(package, "timeline", (sizes, frees), timeline_text(sizes, frees)).compare(f"arrays: timeline {name}", tables, limits)


def error_of(call):
    """The end, the code and the place that a call is refused with."""
    try:
        call()
    except Exception as error:  # of whatever kind: the numbers say whether it is the right one
        return getattr(error, "end", None), getattr(error, "code", error), getattr(error, "at", None)
    return "no error"


def try_array_faults(package):
    """Each fault, with its code and the index of the first faulty entry."""
    most, most_count = formats.LARGEST_SIZE, formats.MOST_COUNT
    table = package.Table([2], 0, [[], []], [], True, 0)
    for sizes, counts, code, at in (([most + 1, 20000], [1, 1], 30, 0), ([16, 32, 4294967295], [1, 1, 1], 30, 2), ([16, 32], [1, 0], 32, 1),
                                    ([16, 17], [1, most_count + 1], 32, 1), ([16, 32, 48], [1, 4294967295, 0], 32, 1)):  # fmt: skip
        profile = dict(zip(sizes, counts))
        history = {size: [0, count] for size, count in profile.items()}
        for name, call in {
            "score": lambda: package.score_profile([2], profile),
            "tune": lambda: package.tune_profile(profile, limit=2),
            "check": lambda: package.check_profile(table, profile, limit=2),
            "footprint": lambda: package.footprint_history([2], history, 2),
            "fit": lambda: package.fit_history(history, 2, limit=2),
            "check-fit": lambda: package.check_fit_history(table, history, 2, limit=2),
        }.items():
            expect(f"arrays: {name} of {profile}", error_of(call) == (REFUSED, code, at), error_of(call))
    for sizes, frees, at in (([16], [1], 0), ([16, 24, 16, 16], [0, 0, 1, 1], 3), ([0, 0, 0], [0, 1, 1], 2)):
        for name, call in {
            "footprint": lambda: package.footprint_timeline([2], sizes, frees),
            "fit": lambda: package.fit_timeline(sizes, frees, limit=2),
            "check-fit": lambda: package.check_fit_timeline(table._replace(moments=[0]), sizes, frees, limit=2),
        }.items():
            expect(f"arrays: {name} of {sizes} and {frees}", error_of(call) == (REFUSED, 38, at), error_of(call))
    for classes, code in ((list(range(2, 35)), 20), ([1], 21), ([2, 1025], 21), ([2, 70000], 21), ([3, 2], 22), ([2, 2], 22)):
        wrong = table._replace(classes=classes)
        for name, call in {
            "score": lambda: package.score_profile(classes, {1: 0}),
            "footprint": lambda: package.footprint_history(classes, {1: [0]}, 1),
            "timeline": lambda: package.footprint_timeline(classes, [1], [1]),
            "check": lambda: package.check_profile(wrong, {1: 0}, 2),
            "check-fit": lambda: package.check_fit_history(wrong, {1: [0]}, 1, 2),
        }.items():
            expect(f"arrays: {name} of the classes {classes}", error_of(call) == (REFUSED, code, 0), error_of(call))
    array_options(package, table)


def array_options(package, table):
    """Numbers of snapshots and moments, limits and steps out of their ranges."""
    for snapshots in (0, 1025, 2**32, 2**63):
        history = {} if snapshots > 2000 else {16: [1] * snapshots}
        for call in (lambda: package.footprint_history([2], history, snapshots), lambda: package.fit_history(history, snapshots, limit=2)):
            expect(f"arrays: {snapshots} snapshots", error_of(call) == (REFUSED, 34, 0), error_of(call))
    for limit, step in ((0, 1), (33, 1), (1, 0), (1, 3), (255, 255), (-1, 1)):
        for call in (lambda: package.tune_profile({16: 1}, limit, step), lambda: package.fit_history({16: [1]}, 1, limit, step),
                     lambda: package.fit_timeline([16], [0], limit, step), lambda: package.check_profile(table, {16: 1}, limit, step),
                     lambda: package.check_fit_history(table, {16: [1]}, 1, limit, step)):  # fmt: skip
            expect(f"arrays: a limit of {limit} and a step of {step}", error_of(call) == (BAD_OPTION, 0, 0), error_of(call))
    for moments in ([2, 1], [10**9 + 1], list(range(1025))):
        wrong = table._replace(moments=moments)
        got = error_of(lambda: package.check_fit_timeline(wrong, [16], [0], limit=2))
        expect(f"arrays: the moments {moments[:3]}", got == (REFUSED, 36, 0), got)


TWO_CLASSES = [16, 24, 16, 100, 16, 0, 0], [0, 0, 1, 0, 0, 0, 1]  # a timeline that wants as many as the limit


def rooms_for(shared, room, rows, moments):
    """A fit over a timeline into arrays of these lengths, which hold 7 before: its end, its result and what the arrays hold."""
    c = shared.c
    arrays = importlib.import_module("mte_tool._arrays")
    timeline, result = arrays.timeline_of(*TWO_CLASSES), c.Result()
    filled = [arrays.numbers_of(kind, [7] * n) for kind, n in ((ctypes.c_uint16, room), (ctypes.c_uint64, rows), (ctypes.c_uint32, moments))]
    given = [each for one in filled for each in (one, len(one))]
    end = c.library.mte_tool_fit_timeline(ctypes.byref(shared.options(limit=2)), ctypes.byref(timeline), *given, ctypes.byref(result))
    return end, result, *map(list, filled)


def try_rooms(shared):
    """What is put into arrays of each length, and that it is no more."""
    want = shared.package.fit_timeline(*TWO_CLASSES, limit=2)
    flat = [number for row in want.rows for number in row]
    expect("arrays: too little room for the classes", rooms_for(shared, 1, 9, 9)[0] == MISUSE)
    counts = (ctypes.c_uint32 * (1024 * 7000))()
    ctypes.memset(counts, 255, ctypes.sizeof(counts))
    history, result = shared.c.History((ctypes.c_uint32 * 7000)(*range(7000)), counts, 7000, 1024), shared.c.Result()
    end = shared.c.library.mte_tool_footprint_history(None, None, 0, ctypes.byref(history), ctypes.byref(result))
    expect("arrays: a history that is too long", (end, result.code, result.at) == (REFUSED, 80, 0), end, result.code)
    parts = [want.classes, flat, want.moments]
    lengths = [len(part) for part in parts]
    for more in ((0, -len(flat), -len(want.moments)), (1, 0, 0), (0, -1, 2), (2, 3, -len(want.moments))):
        rooms = [length + by for length, by in zip(lengths, more)]
        end, result, *got = rooms_for(shared, *rooms)
        filled = [(part + [7] * by) if by >= 0 else [7] * room for part, by, room in zip(parts, more, rooms)]
        expect(f"arrays: rooms of {rooms}", (end, got) == (DONE, filled), got, filled)
        expect("arrays: the lengths are told", [result.classes, 2 * result.places, result.moments] == lengths)
