"""The calls that scripts/tests/test_library.py makes, with what the program answers to them."""

import os
import re
import subprocess

import checks
from checks import expect
from mte_scripts import formats
from mte_scripts.places import ROOT

EXAMPLES = f"{ROOT}/examples"
DEFAULTS = {name: 1 if option.default is None else option.default for name, option in formats.OPTIONS.items()}
OPTIONS = {name: DEFAULTS[name] for name in formats.LIBRARY_OPTIONS}
OPTIONS_OF = {name.replace("_", "-"): command.options for name, command in formats.COMMANDS.items()}
DONE, NO, REFUSED, OUT_OF_MEMORY, BAD_OPTION, MISUSE = range(len(formats.ENDS))
SECONDS = 600
WRAPS = ["-Wl,--wrap=malloc", "-Wl,--wrap=realloc", "-Wl,--wrap=free", "-pthread"]
CODES_OF_FIRST = (20, 21, 22, 23, 36, 48)  # the faults of a first text


def run_command(words, seconds=SECONDS, **given):
    return subprocess.run(words, capture_output=True, timeout=seconds, **given)


def read(name):
    with open(f"{EXAMPLES}/{name}", "rb") as file:
        return file.read()


SMALL_PROFILE = b"16 1\n32 1\n48 1\n"
SMALL_SHEET = b"classes 2 4\nlimit 2\nwaste 16\nrow 48 16 0\nrow 16 0 0\n"
SMALL_HISTORY = b"snapshots 2\n16 3 0\n40 0 1\n"
SMALL_TIMELINE = b"timeline\n16\n40\n-16\nlarge\n16\n40\n-large\n-40\n"
SMALL_FIT = b"classes 2 4\nlimit 2\nfootprint 160\nrow 192 64\nrow 160 64\n"
SMALL_TRACE = b"malloc 1 16\nstore 1 16 1 aa\nmalloc 2 0\nload 1 32 1\nfree 1\nload 1 0 1\n"

# inputs that are refused, with the code of the fault; of a command over two texts these are two
FAULTY = [
    ("score", (b"", b""), 23), ("score", (b"classes" + b" 2" * 33, b""), 20), ("score", (b"classes 1", b""), 21),
    ("score", (b"classes 3 2\n", b""), 22), ("score", (b"classes 2\n", b"16 1\n16 1\n"), 31),
    ("tune", b"16 0\n", 32), ("tune", b"x\n", 30), ("tune", SMALL_PROFILE + b"\n", 30),
    ("check", (b"classes 2\nlimit 0\n", b""), 48), ("check", (SMALL_SHEET, b"1 1\n0 1\n"), 31),
    ("fit", b"", 34), ("fit", b"snapshots 2\n16 1\n", 35), ("fit", b"timeline\nx\n", 37),
    ("footprint", (b"classes 2\n", b"timeline\n-16\n"), 38), ("fit", b"snapshots 1\n16 x\n", 30),
    ("footprint", (b"classes 2\n", b"snapshots 1025\n"), 34), ("footprint", (b"classes 0\n", b""), 21),
    ("peaks", (b"classes 2\n", SMALL_HISTORY), 37),
    ("check-fit", (SMALL_SHEET, SMALL_HISTORY), 36), ("check-fit", (SMALL_FIT, b"snapshots 1\n5 1\n4 1\n"), 31),
    ("profile", b"malloc 1\n", 70), ("profile", b"malloc 1 x\n", 71), ("replay", (b"classes 2\n", b"free 1024\n"), 72),
    ("run", b"free 1\n" + b"x" * 81, 73), ("replay", (b"classes 2", b""), 0), ("profile", b"", 0), ("tune", b"", 0),
]

# a sheet of waste 10,009,790 on the profile of requests of 16 bytes alone: without its newline it goes on in this one's first line
FUSED_SHEET = b"classes 64 1001\nlimit 2\nwaste 10009790\nrow 10234670 10075000 10000000\nrow 10009790 1"
FUSED_PROFILE = b"16 1000000\n33 10\n1000 5\n15990 1000000\n"
# lines of a profile after the rows: the sum is over these counts too
LONG_SHEET = b"classes 2 64\nlimit 2\nwaste 18000\nrow 1029000 18000 0 0\nrow 18000 0 0 0\n"

# two texts that were once one input of another meaning, and the code and the line of the fault
BORDERS = [
    ("check", (FUSED_SHEET, FUSED_PROFILE), NO, None), ("check", (LONG_SHEET + b"0 1000000000\n", b"33 1000\n1000 1000\n"), 48, 6),
    ("score", (b"classes 2 8", b"9 1000\n24 70\n"), DONE, 13160), ("score", (b"classes 2 8\n9 1000\n", b"24 70\n"), 23, 1),
    ("footprint", (b"classes 2 8\nsnapshots 1\n", b"16 1\n"), 23, 1), ("replay", (b"classes 2\nmalloc 1 16\n", b"free 1\n"), 23, 1),
    ("check-fit", (SMALL_FIT + b"snapshots 2\n", b"16 3 0\n40 0 1\n"), 36, 6),
    ("check-fit", (SMALL_FIT, b"moments 1\ntimeline\n16\n"), 34, 1),
    ("check-fit", (SMALL_FIT + b"moments 5\nmoments 5\n", SMALL_TIMELINE), 36, 7), ("check", (SMALL_SHEET, b"row 1\n16 1\n"), 30, 1),
    ("check-fit", (SMALL_FIT + b"moments 5\n", SMALL_HISTORY), 37, 1), ("check-fit", (SMALL_FIT, SMALL_TIMELINE), 34, 1),
]  # fmt: skip

# smaller than a page, but for all rules of the engines
SMALL = [
    ("score", {}, (b"classes 4\n", b"16 3\n40 1\n")), ("score", {}, (b"classes 2\n", b"17 1\n")),
    ("check", {}, (SMALL_SHEET, SMALL_PROFILE)), ("check", {}, (SMALL_SHEET.replace(b"16\n", b"15\n", 1), SMALL_PROFILE)),
    ("footprint", {}, (b"classes 4\n", SMALL_HISTORY)), ("footprint", {}, (b"classes 2\n", SMALL_HISTORY)),
    ("footprint", {}, (b"classes 4\n", SMALL_TIMELINE)), ("check-fit", {}, (SMALL_FIT, SMALL_HISTORY)),
    ("peaks", {}, (b"classes 2 4\n", SMALL_TIMELINE)), ("peaks", {}, (b"classes 2\n", SMALL_TIMELINE)),
    ("check-fit", {}, (SMALL_FIT.replace(b"160\n", b"159\n", 1), SMALL_HISTORY)),
    ("profile", {}, SMALL_TRACE),
] + [
    (command, {"limit": limit, "step": step}, data)
    for command, data in (("tune", SMALL_PROFILE), ("fit", SMALL_HISTORY), ("fit", SMALL_TIMELINE))
    for limit in (1, 2, 32) for step in (1, 2, 4, 8)
] + [
    ("replay", {"granules": 64, "seed": seed, "quarantine": 64}, (b"classes 2\n", SMALL_TRACE)) for seed in (1, 2, 65535)
] + [
    ("run", {"limit": 2, "granules": granules, "quarantine": quarantine}, SMALL_TRACE)
    for granules in (64, 262144) for quarantine in (0, 4194304)
] + [(command, {"limit": 2}, data) for command, data, _ in FAULTY]  # fmt: skip


def large():
    """The example files."""
    history = read("sqlite_large.history")
    found = [("fit", {"limit": limit, "step": step}, history) for limit, step in ((1, 1), (8, 1), (32, 1), (8, 4))]
    found += [("footprint", {}, (read(f"{table}.classes"), history)) for table in ("scudo", "scudo_android")]
    first, second = read("worked_score.input").split(b"\n", 1)
    found.append(("score", {}, (first, second)))
    for name in ("sqlite", "jq", "perl"):
        profile, trace = read(f"{name}.profile"), read(f"{name}.trace")
        found += [("tune", {"limit": limit, "step": step}, profile) for limit, step in ((1, 1), (8, 1), (32, 1), (32, 2), (16, 8))]
        found += [("score", {}, (read(f"{table}.classes"), profile)) for table in ("scudo", "scudo_android")]
        found += [("profile", {}, trace), ("replay", {"seed": 7}, (read("scudo.classes"), trace))]
        found.append(("run", {"limit": 8, "granules": 262144}, trace))
    return found


def program(command, options, data):
    """How the program ends with these options, and the text that it writes; a refusal without its word `error`. The program reads two texts
    as one: where the second one is faulty, the lines of the first are counted off."""
    words = [f"--{name.replace('_', '-')}={options.get(name, DEFAULTS[name])}" for name in OPTIONS_OF.get(command, [])]
    first, second = data if isinstance(data, tuple) else (b"", data)
    first += b"\n" if first and not first.endswith(b"\n") else b""
    run = run_command([checks.PROGRAM, command, *words], input=first + second)
    if run.returncode == REFUSED:
        said = run.stderr.removeprefix(b"error ").removesuffix(b"\n")
        if match := re.fullmatch(rb"(\d+) (\w+) line (\d+)", said):
            line = int(match[3]) - (0 if int(match[1]) in CODES_OF_FIRST else first.count(b"\n"))
            said = b"%s %s line %d" % (match[1], match[2], line)
        return REFUSED, said
    return run.returncode, run.stdout


def ending_of(end, text):
    """The end with the code and the line in the text of a fault; a refusal of a sheet has its code."""
    words = text.split(b"\n", 1)[0].split()
    if end == REFUSED:
        return end, int(words[0]), int(words[3]) if len(words) == 4 else 0
    return end, int(words[1]) if end == NO and words[0] == b"refused" else 0, 0


def with_answers(calls):
    return [(call, program(*call)) for call in calls]


def with_checks(calls):
    """The same with the checks of fits and sheets that the program wrote, good and spoiled."""
    more = []
    for (command, _, data), (end, text) in calls:
        if end == DONE and command in ("tune", "fit"):
            check = {"tune": "check", "fit": "check-fit"}[command]
            lines = text.split(b"\n")
            spoiled = b"\n".join([*lines[:-2], lines[-2] + (b"1" if lines[-2][-1:].isdigit() else b" 1"), b""])
            more += [(check, {}, (text, data)), (check, {}, (spoiled, data))]
    return calls + with_answers(more)


def write_calls(folder, calls):
    os.mkdir(folder)
    for number, ((command, options, data), (end, text)) in enumerate(calls):
        numbers = [options.get(name, OPTIONS[name]) for name in OPTIONS]
        words = [command, *numbers, *ending_of(end, text)]
        first, second = data if isinstance(data, tuple) else (b"", data)
        for ending, what in (("call", " ".join(map(str, words)).encode()), ("first", first), ("input", second), ("want", text)):
            with open(f"{folder}/{number}.{ending}", "wb") as file:
                file.write(what)


def parts_of(text):
    """The parts of a sheet or a fit: its classes, cost, rows and moments, and the bound of a fit that is not shown to be least."""
    parts = {"classes": [], "bytes": 0, "rows": [], "moments": [], "bound": 0}
    for line in text.decode().splitlines():
        word, *rest = line.split()
        numbers = [int(each) for each in rest if each.isdigit()]
        if word in ("classes", "moments"):
            parts[word] = numbers
        elif word in ("waste", "footprint"):
            parts["bytes"] = numbers[0]
        elif word == "row":
            parts["rows"].append(numbers)
        elif word == "not":
            parts["bound"] = numbers[0]
    return parts


class Compiler:
    """Builds callers with the static library."""

    def __init__(self, library, work):
        self.library, self.work = library, work

    def flags(self):
        return [f"-I{self.library}/include", f"{self.library}/lib/libmte_tool.a"]

    def build(self, name, words):
        made = run_command([*words, "-o", f"{self.work}/{name}"])
        expect(f"{name} compiles: {made.stderr[:300]}", made.returncode == 0)
        return f"{self.work}/{name}"
