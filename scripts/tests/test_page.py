#!/usr/bin/env -S python3 -B
"""Tests the page of scripts/page: its engines in node against the program, and the page itself in a headless Chromium. What needs node, a
Chromium, wasm-opt or the toolchain is skipped without it, with a word.

  page [--cases N] [--keep FOLDER]    N cases of each command (200 if left out); pictures of both views in both themes go to FOLDER"""

import base64
import contextlib
import glob
import http.server
import itertools
import json
import os
import random
import re
import shutil
import subprocess
import tempfile
import threading
import zlib
from unittest import mock
from pathlib import Path

import browser
import checks
import page_heap
import pytest
from checks import expect
from library_cases import BORDERS, CODES_OF_FIRST, DONE, NO
from mte_scripts import certificate_texts, claims, count_texts, html_safe, manifest, program_runs, text_files
from mte_scripts.builds import static_libraries, web_page, webassembly
from mte_scripts.entry_point import Refusal
from mte_scripts.formats import LARGEST_SIZE, MOST_INPUT
from mte_scripts.places import EXAMPLES
from mte_scripts.recording import timelines
from mte_scripts.tables import scudo_map

ROOT = os.path.dirname(os.path.dirname(os.path.dirname(os.path.realpath(__file__))))

DEFAULTS = {"granules": 65536, "seed": 1, "quarantine": 65536}
TUNING, HEAP = ("limit", "step"), ("granules", "seed", "quarantine")
OWN = "larger sizes get Scudo's own classes, from 16,384 bytes on"  # what is said of a table without class 1024
WORDS = {"tune": TUNING, "fit": TUNING, "replay": HEAP, "run": TUNING + HEAP}


# ---- random inputs


def spoil_text(chance, text):
    """The text, or at this chance one that something was done to."""
    if not text or chance.random() > 0.3:
        return text
    at = chance.randrange(len(text))
    what = chance.choice(["", "0", " ", "\n", "x", "-", "99999999999", "\t", "row 1 2\n", "large 3\n"])
    return text[:at] + what + text[at + chance.randrange(2) :]


def class_line(chance):
    classes = sorted(chance.sample(range(2, 1025), chance.randrange(0, 20)))
    return f"classes {' '.join(map(str, [*classes, 1024]))}\n".replace("1024 1024", "1024")


def profile(chance):
    sizes = sorted(chance.sample(range(LARGEST_SIZE + 1), chance.randrange(0, 30)))
    return "".join(f"{size} {chance.randrange(1, 10 ** chance.randrange(1, 10))}\n" for size in sizes)


def history(chance):
    moments, text = chance.randrange(1, 6), ""
    for size in sorted(chance.sample(range(LARGEST_SIZE + 1), chance.randrange(0, 20))):
        counts = [chance.randrange(0, 1000) for _ in range(moments)]
        text += f"{size} {' '.join(map(str, [*counts[1:], counts[0] + 1]))}\n"
    return f"snapshots {moments}\n{text}"


def timeline(chance, sizes=(), most=40):
    """A timeline of these sizes, or of any."""
    sizes = sizes or sorted(chance.sample(range(LARGEST_SIZE + 1), chance.randrange(1, 8)))
    live, lines = [], ["timeline"]
    for _ in range(chance.randrange(1, most)):
        if live and chance.random() < 0.45:
            lines.append(f"-{live.pop(chance.randrange(len(live)))}")
        else:
            live.append("large" if chance.random() < 0.05 else chance.choice(sizes))
            lines.append(str(live[-1]))
    return "\n".join(lines) + "\n"


def event(chance):
    v, w = chance.randrange(6), chance.randrange(6)
    off, length = chance.choice([0, 0, 8, 40, -16, 100, 4096, -1048576]), chance.randrange(1, 65)
    return chance.choice(
        [
            f"malloc {v} {chance.choice([0, 16, 40, 100, 17000, 500])}",
            f"calloc {v} {chance.randrange(200)}",
            f"realloc {v} {chance.choice([10, 30, 60, 300, 20000])}",
            f"free {v}",
            f"free {v}",
            f"load {v} {off} {length}",
            f"store {v} {off} {length} {chance.randrange(256):02x}",
            f"addg {v} {w} {chance.randrange(4)} {chance.randrange(16)}",
            f"subg {v} {w} {chance.randrange(4)} {chance.randrange(3)}",
        ]
    )


def trace(chance, most=60):
    return "".join(f"{event(chance)}\n" for _ in range(chance.randrange(most)))


def heap(chance):
    granules, quarantine = chance.choice([64, 65, 200, 1000]), chance.choice([0, 64, 300, 65536])
    return {"granules": granules, "seed": chance.randrange(1, 65536), "quarantine": quarantine}


def case(chance, command):
    """A case of a command. The first text of a check is what the program tuned for the counts, or another; either may be spoiled."""
    options = {**heap(chance), "limit": chance.randrange(1, 33), "step": chance.choice([1, 1, 2, 4, 8, 3])}
    over_time = command in ("footprint", "fit", "check-fit")
    counts = profile(chance) if not over_time else history(chance) if chance.random() < 0.5 else timeline(chance)
    made = {
        "score": lambda: (class_line(chance), counts),
        "footprint": lambda: (class_line(chance), counts),
        "peaks": lambda: (class_line(chance), timeline(chance)),
        "tune": lambda: (counts,),
        "fit": lambda: (counts,),
        "check": lambda: (answer("tune", {**options, "step": 1}, counts)[1], counts),
        "check-fit": lambda: (answer("fit", {**options, "step": 1}, counts)[1], counts),
        "profile": lambda: (trace(chance),),
        "run": lambda: (trace(chance),),
        "replay": lambda: (class_line(chance), trace(chance)),
    }
    *before, given = made[command]()
    first = {"first": spoil_text(chance, before[0])} if before else {}
    return {"command": command, "options": options, "input": spoil_text(chance, given), **first}


def answer(command, options, given, first=""):
    """What the program answers, over two texts by the border: its status and its text."""
    words = [text for name in WORDS.get(command, ()) for text in (f"--{name}", str(options[name]))]
    words += ["--largest-class", "1"] if options.get("largest_class") else []
    border, before = program_runs.border(first) if first else ([], b"")
    if first and command == "replay":  # it has no such option: its first text is one line
        if border[1] != "1":
            raise Refusal(2, "the first text is no class line")
        border = []
    status, out, error = program_runs.mte_tool([command, *words, *border], before, given.encode())
    return status, f"{error}\n" if status == 2 else out.decode()


def answer_apart(command, options, first, given):
    """The same over two texts, in whose second one the lines are counted from 1; None if the program can't be asked."""
    try:
        status, text = answer(command, options, given, first)
    except Refusal:
        return None
    if (match := re.fullmatch(r"error (\d+) (\w+) line (\d+)\n", text)) and int(match[1]) not in CODES_OF_FIRST:
        return status, f"error {match[1]} {match[2]} line {int(match[3]) - len(text_files.lines_of(first.encode()))}\n"
    return status, text


def borders_stay(page):
    """What the first text lacks, or has too much, moves nothing of it to the other."""
    cases = [{"command": command, "options": {**DEFAULTS, "limit": 2, "step": 1}, "first": first.decode(), "input": given.decode()}
             for command, (first, given), _, _ in BORDERS]  # fmt: skip
    for (command, data, want, more), got in zip(BORDERS, in_node(page, cases)):
        said = {DONE: (DONE, f"waste {more}\n"), NO: (NO, got["text"])}.get(want)
        is_fault = got["status"] == 2 and re.fullmatch(rf"error {want} \w+ line {more}\n", got["text"])
        expect(f"{command} of {data}: the border", (got["status"], got["text"]) == said if said else bool(is_fault), got)


def in_node(page, cases):
    words = ["node", os.path.join(ROOT, "scripts/tests/page_engines.js"), page]
    done = subprocess.run(words, input=json.dumps(cases).encode(), stdout=subprocess.PIPE)
    expect("the engines end in node", done.returncode == 0, done.returncode)
    return json.loads(done.stdout) if done.returncode == 0 else []


def engines_equal_the_program(page, number):
    chance = random.Random(41)
    commands = ["score", "tune", "check", "footprint", "fit", "check-fit", "peaks", "profile", "replay", "run"]
    cases = [case(chance, command) for command in commands for _ in range(number)]
    cases += [{"command": "run", "options": {**DEFAULTS, "limit": 8, "step": 1}, "input": web_page.example("perl.trace")}]
    statuses = {}
    for it, got in zip(cases, in_node(page, cases)):
        given = it["command"], it["options"], *([it["first"]] if "first" in it else []), it["input"]
        status, text = (answer_apart if "first" in it else answer)(*given) or (2, got["text"])
        # the library has an end of its own for an option out of its range
        holds = got["status"] == 4 if status == 2 and text.startswith("error 83") else (got["status"], got["text"]) == (status, text)
        expect(f"{it['command']} {it['options']} of {it.get('first')!r}, {it['input'][:200]!r}", holds, f"{got} is not {status} {text!r}")
        statuses.setdefault(it["command"], set()).add(got["status"])
    for command, seen in statuses.items():
        expect(f"{command}: its cases have answers and faults", 0 in seen and 2 in seen, seen)


def pictures_equal_the_model(page, number):
    """Over large classes, and over small ones, among whose slots moved pointers often lead from one to the next."""
    chance = random.Random(42)
    cases = [{"line": class_line(chance).strip(), "trace": trace(chance, 200), "options": heap(chance)} for _ in range(number)]
    for _ in range(number):
        line = " ".join(map(str, ["classes", *sorted(chance.sample(range(2, 12), chance.randrange(1, 5)))]))
        cases.append({"line": line, "trace": trace(chance, 200), "options": heap(chance)})
    for it, got in zip(cases, in_node(page, cases)):
        wrong = page_heap.difference(**it, got=got)
        expect(f"the pictures of {it}", not wrong, wrong)


# what the page frames at the last event of a trace: the first and the last granule; of a fault that it is one, and both tags
FRAMES = [
    ("classes 4", "malloc 0 40", "1 3"),
    ("classes 4", "malloc 0 40; load 0 8 16", "1 2"),
    ("classes 4", "malloc 0 16; load 0 8 16", "2 2 fault 0 1"),
    ("classes 4", "malloc 0 16; load 0 2048 1", "none"),
    ("classes 8", "malloc 0 100; realloc 0 70", "1 5"),
    ("classes 2 4", "malloc 0 16; realloc 0 40", "33 35"),
    ("classes 4", "malloc 0 40; realloc 0 100", "1 3 fault"),  # no class: the block stays
    ("classes 4", "malloc 0 40; free 0", "1 3"),
    ("classes 4", "malloc 0 40; free 0; free 0", "1 3 fault"),
    ("classes 4", "malloc 0 40; addg 1 0 0 1; realloc 1 40", "1 3 fault"),
    ("classes 4", "malloc 0 40; addg 1 0 1 0; free 1", "none"),
    # a slot that was never given out is not live, and has no chunk: where the pointer leads to
    ("classes 4", "malloc 0 40; addg 1 0 4 0; free 1", "5 5 fault"),
    ("classes 4", "malloc 0 40; addg 1 0 4 0; realloc 1 40", "5 5 fault"),
    ("classes 4", "free 0", "none"),
]


def frames_are_right(page):
    cases = [{"line": line, "trace": events.replace("; ", "\n") + "\n", "options": {**DEFAULTS, "granules": 64}} for line, events, _ in FRAMES]
    for (line, events, frame), got in zip(FRAMES, in_node(page, cases)):
        expect(f"the frame of {events} over {line}", got["after"][-1]["frame"] == frame, got["after"][-1])


# ---- the page in a browser


@contextlib.contextmanager
def open_page(page, seconds, ready="document.body && document.body.dataset.ready"):
    """A page in the browser, once it is ready: its text, or its address."""
    with tempfile.TemporaryDirectory() as folder:
        if not page.startswith("file:"):
            Path(folder, "page.html").write_text(page, encoding="utf-8")
            page = f"file://{folder}/page.html"
        with browser.Page(page, seconds=seconds) as it:
            it.until(ready)
            yield it


def says(it, name, element, *words):
    """An element of the page has these words."""
    told = it.value(f"$('{element}').textContent")
    for each in words:
        expect(f"{name}: {each}", each in told, told)


def wait_for_status(it, words):
    it.until(f"document.getElementById('status').textContent.includes({json.dumps(words)})")


def is_whole(it, name):
    """Nothing stands out of the window, nothing was thrown or loaded, and everything that is used has a name."""
    expect(f"{name}: nothing is wider than the window", it.value("document.documentElement.scrollWidth <= innerWidth"))
    expect(f"{name}: nothing is thrown", not it.errors, it.errors)
    loaded = it.value("performance.getEntriesByType('resource').map(e => e.name).filter(n => !n.startsWith('blob:'))")
    expect(f"{name}: nothing is loaded", not loaded, loaded)
    roles = ("button", "textbox", "slider", "spinbutton", "combobox", "checkbox", "tab", "image", "img", "tabpanel")
    for node in it.send("Accessibility.getFullAXTree")["nodes"]:
        if not node.get("ignored") and node.get("role", {}).get("value") in roles:
            expect(f"{name}: each {node['role']['value']} has a name", node.get("name", {}).get("value"), node)


def tuning_works(it):
    given = web_page.example("sqlite.profile")
    for limit in (1, 8, 16, 32):
        sheet = answer("tune", {"limit": limit, "step": 1}, given)[1]
        it.value(f"$('limit').value = {limit}; tune()")
        expect(f"the sheet for {limit} classes", it.value("$('sheet').value") == sheet)
        waste = certificate_texts.parse_sheet(sheet).waste
        expect(f"the waste of {limit} classes", f"{waste:,} byte" in it.value("$('lead').textContent"), it.value("$('lead').textContent"))
        column = "[...document.querySelectorAll('#classes tbody tr')].map(row => row.cells[3].textContent)"
        lost = sum(int(cell.replace(",", "")) for cell in it.value(column))
        expect(f"the classes' losses for {limit} classes", lost == waste, lost)
    least = it.value("tuner.least")
    expect("the curve has 32 points", least == [row[0] for row in certificate_texts.parse_sheet(sheet).rows], least)
    for name, file in (("Scudo's default", "scudo.classes"), ("Scudo's for Android", "scudo_android.classes")):
        wanted = int(answer("score", {}, web_page.example(file) + given)[1].split()[1])
        shown = it.value(f"tuner.tables.find(t => t.name === {json.dumps(name)}).total")
        expect(name, shown == wanted, shown)
    own_table(it, given)
    sheets(it)
    maps(it)


def own_table(it, given):
    it.value("$('own').value = 'classes 4 64 1024'; compare()")
    wanted = int(answer("score", {}, f"classes 4 64 1024\n{given}")[1].split()[1])
    expect("a table of one's own", f"{wanted:,}" in it.value("$('tables').textContent"))
    it.value("$('own').value = 'classes 4'; compare()")
    says(it, "a table that does not serve", "tables", "does not serve")
    it.value("$('own').value = 'classes 4 4'; compare()")
    says(it, "a faulty table", "own-told", "22 NotAscending")
    it.value("$('own').value = ''; compare()")


def sheets(it):
    it.value("checkSheet()")
    says(it, "the best sheet is optimal", "verdict", "check says optimal, so")
    edits = [
        ("/^waste (.*)/m, 'waste 1$1'", "42 WasteWrong"),
        ("/^classes \\d+ /, 'classes '", "nothing is shown of this table for"),
        ("'row', 'rows'", "48 BadSheet"),
        ("/^limit.*\\n/m, 'limit 33\\n'", "48 BadSheet"),
    ]
    for edit, wanted in edits:
        it.value(f"$('sheet').value = tuner.sheet.replace({edit}); checkSheet()")
        says(it, f"the sheet edited by {edit}", "verdict", wanted)
    it.click("#restore")
    expect("the best sheet is back", it.value("$('sheet').value === tuner.sheet"))


def scudo_classes(text):
    """What the script makes of a sheet, or None where it refuses it; and what it says."""
    done = subprocess.run([os.path.join(ROOT, "scripts/scudo_classes")], input=text.encode(), capture_output=True)
    return done.stdout.decode() if done.returncode == 0 else None, done.stderr.decode()


def saved_map(it, sheet):
    """What the page saves of a sheet as a map, or None, and what it says."""
    it.value("window.kept = []; save = (text, name) => kept.push([name, text])")
    it.value(f"$('sheet').value = {json.dumps(sheet)}; saveMap()")
    kept = it.value("kept")
    expect("one file at most is saved", len(kept) < 2 and all(name == "tuned_map.inc" for name, _ in kept), kept)
    return (kept[0][1] if kept else None), it.value("$('verdict').textContent")


def without_notes(text):
    """A map without the comment after its first line."""
    return re.sub(r"\A(// A table of .*\n)(//.*\n)*", r"\1", text)


def maps(it):
    """A map is saved only of what the engine took, in its numbers; what is not shown to be the best says so in its comment."""
    best = it.value("tuner.sheet")
    for sheet in ("classes 5 3 900", "hello", "classes 4 x 2", "classes 3 3 3", "1.5, -7", "", "classes", "classes 1024", "classes 4 ", "classes 04",
                  "classes 4 1025", re.sub("^classes.*", "classes 5 3 900", best), best + "row 1\n", best.replace("limit", "limits")):  # fmt: skip
        text, told = saved_map(it, sheet)
        expect(f"no map of {sheet[:60]!r} is saved", text is None and told.startswith("Nothing is saved. "), (text, told))
    text, told = saved_map(it, best)
    expect("the map of the best sheet is that of scudo_classes", text == scudo_classes(best)[0], text)
    expect("its last class is told", scudo_map.warnings(certificate_texts.parse_sheet(best).classes)[0] in told, told)
    for sheet, note in (
        (re.sub("waste (.*)", r"waste 1\1", best), "check says refused 42 WasteWrong: nothing is shown of this table"),
        (re.sub(r"^classes \d+ ", "classes ", best), "nothing is shown of this table"),
        ("classes 2 3 7", "No certificate came with this table."),
        ("classes 2 3 7 1024\n", "No certificate came with this table."),
    ):
        text, told = saved_map(it, sheet)
        made, error = scudo_classes(sheet)
        expect(f"a map of {sheet[:40]!r} is saved", text and without_notes(text) == without_notes(made), text)
        comment = " ".join(re.findall(r"(?m)^// (.*)$", text.split("struct")[0])).replace("`", "")
        expect(f"the map of {sheet[:40]!r} says so", note in comment and note in told, (comment, told))
        last = [warning for warning in scudo_map.warnings(certificate_texts.parse_class_line(sheet.split("\n")[0]))]
        expect(f"the last class of {sheet[:40]!r}", all(words in comment and words in told and words in error for words in last), comment)
        expect(f"a warning of {sheet[:40]!r}", bool(last) == (OWN in told) == (OWN in error) == (OWN in comment), told)
    it.value("$('sheet').value = tuner.sheet; $('verdict').textContent = ''")


# ---- what the page says of its table, against all tables of small cases


def all_tables(step, largest):
    """Each table of multiples of the step that can matter to sizes up to 96 bytes, by its number of classes."""
    candidates = [c for c in (*range(2, 9), 40) if c % step == 0]
    for number in range(len(candidates) + 1):
        for classes in itertools.combinations(candidates, number):
            yield [*classes, 1024] if largest else list(classes)


def moments_of(text):
    """A timeline as a history of all its moments: for each size the live blocks after each event."""
    live, found = {}, []
    for line in text.split("\n")[1:-1]:
        if not line.endswith("large"):
            live[abs(int(line))] = live.get(abs(int(line)), 0) + (-1 if line.startswith("-") else 1)
        found.append(dict(live))
    return {size: [moment.get(size, 0) for moment in found] for size in sorted(live)}


def cost_of(classes, counts):
    """By the definition: what a table wastes on a profile, or takes over a history; None where it does not serve it."""
    rooms = [16 * c - 16 for c in classes]
    served = {size: next((room for room in rooms if room >= size), None) for size in counts}
    if None in served.values():
        return None
    if not isinstance(next(iter(counts.values())), list):
        return sum(count * (served[size] - size) for size, count in counts.items())
    most = {}
    for room in set(served.values()):
        moments = zip(*(numbers for size, numbers in counts.items() if served[size] == room))
        most[room] = max(map(sum, moments)) * (room + 16)
    return sum(most.values())


def small_counts(chance, kind):
    """A small text of this kind, and its counts by size."""
    sizes = sorted(chance.sample(range(1, 97), chance.randrange(1, 6))) + [LARGEST_SIZE] * (chance.random() < 0.1)
    if kind == "timeline":
        text = timeline(chance, sizes)
        return (text, moments_of(text)) if moments_of(text) else small_counts(chance, kind)
    moments = 3 if kind == "history" else 0
    numbers = [[chance.randrange(1, 9) for _ in range(moments or 1)] for _ in sizes]
    text = f"snapshots {moments}\n" * bool(moments) + "".join(f"{size} {' '.join(map(str, of))}\n" for size, of in zip(sizes, numbers))
    text += f"large {' '.join(['5'] * (moments or 1))}\n" * (chance.random() < 0.5)
    return text, {size: of if moments else of[0] for size, of in zip(sizes, numbers)}


def claims_hold(it):
    """The claim and the curve of random small counts, with class 1024 forced and not, for each step."""
    chance = random.Random(43)
    for at in range(72):
        kind, step, largest, limit = ("profile", "history", "timeline")[at % 3], (1, 2, 4, 8)[at // 3 % 4], at // 12 % 2, chance.choice((1, 2, 3, 5, 32))
        text, counts = small_counts(chance, kind)
        options = f"$('limit').value = {limit}; $('step').value = {step}; $('largest').checked = {str(bool(largest)).lower()}"
        it.value(f"{options}; takeText({json.dumps(text)}, 'it')")
        shown = it.value("[$('claim').textContent, tuner.classes, tuner.total, tuner.least, $('curve-told').textContent]")
        name = f"the claim of {text!r}, limit {limit}, step {step}, largest {largest}"
        said, classes, total, curve, told = shown
        forced = [1024] * largest
        costs = {}
        for table in all_tables(step, forced or LARGEST_SIZE in counts):
            if table and (cost := cost_of(table, counts)) is not None:
                costs[len(table)] = min(cost, costs.get(len(table), cost))
        least = [min((cost for number, cost in costs.items() if number <= most), default=None) for most in range(1, 33)]
        expect(f"{name}: the total is the least", least[limit - 1] == total == cost_of(classes, counts), (least, total, classes))
        if kind == "timeline":
            # over the moments of the fit: below the least, which it reaches at the limit
            below = all(of is None or at_moments <= of for at_moments, of in zip(curve, least))
            expect(f"{name}: the curve is below the least", below and curve[min(limit, len(curve)) - 1] == total, (least, curve))
            rows = it.value("tuner.sheet.match(/^row \\d+/gm).map(row => Number(row.slice(4)))")
            expect(f"{name}: the curve begins with the fit's rows", curve[: len(rows)] == rows, (rows, curve))
        else:
            expect(f"{name}: the curve is the least", least[: len(curve)] == curve and len(set(least[len(curve) - 1 :])) == 1, (least, curve))
        claim = claims.check_certificate(it.value("tuner.sheet"), text.encode(), "it")
        expect(f"{name}: what is said", said == claim.state_verdict().replace("`", ""), (said, claim.state_verdict()))
        expect(f"{name}: its cost", claim.holds and claim.cost == least[limit - 1], claim.state_verdict())
        wanted = claims.curve(claim, step, 1024 * largest)
        expect(f"{name}: what the curve says", told == wanted, (told, wanted))
        column = "[...document.querySelectorAll('#classes tbody tr')].map(row => row.cells[3].textContent)"
        costs = [int(cell.replace(",", "")) for cell in it.value(column)]
        expect(f"{name}: the classes' costs", sum(costs) == total, costs)
    it.value("$('limit').value = 8; $('step').value = 1; $('largest').checked = false")


def largest_works(it):
    """Class 1024 is forced as tune_program forces it."""
    for name in ("sqlite.profile", "sqlite_large.history"):
        given = web_page.example(name)
        it.value(f"$('largest').checked = true; $('limit').value = 4; takeText({json.dumps(given)}, 'it')")
        wanted = answer("fit" if name.endswith(".history") else "tune", {"limit": 4, "step": 1, "largest_class": 1}, given)[1]
        expect(f"class 1024 forced in {name}", it.value("$('sheet').value") == wanted, it.value("$('sheet').value")[:200])
        it.value("checkSheet()")
        says(it, f"its sheet of {name} is right", "verdict", "and have class 1024")
        text, told = saved_map(it, wanted)
        expect(f"its map of {name}", text == scudo_classes(wanted)[0] and OWN not in told, told)
        it.value("$('sheet').value = tuner.sheet; $('largest').checked = false; checkSheet()")
        says(it, f"it is right without the mark too: {name}", "verdict", "and have class 1024")
    it.value("$('limit').value = 8; $('largest').checked = false")


def layers_are_drawn(it, name, classes, columns):
    """The live blocks over time, of which there are so many of each class in each column: what is drawn of them, and the footprint."""
    taken = [[16 * each * count for each, count in zip(classes, column)] for column in columns]
    most = [max(bytes_, default=0) for bytes_ in zip(*taken)] or [0] * len(classes)
    order = sorted((at for at in range(len(classes)) if most[at]), key=lambda at: -most[at])
    wanted = [[f"blocks of {16 * classes[at]:,} bytes", [column[at] for column in taken], most[at]] for at in order[:5]]
    if rest := order[5:]:
        words = f"{len(rest)} other class{'es' * (len(rest) > 1)}"
        wanted.append([words, [sum(column[at] for at in rest) for column in taken], sum(most[at] for at in rest)])
    got = it.value("layersOf(tuner.classes, tuner.counts.heights(tuner.classes, PARTS)).map(({ words, bytes, most }) => [words, bytes, most])")
    expect(f"{name}: the layers", got == wanted, got, wanted)
    titles = it.value("[...document.querySelectorAll('#layers title')].map(title => title.textContent)")
    said = [f"{words}: at most {bytes_:,} byte{'s' * (bytes_ != 1)}" for words, _, bytes_ in wanted]
    expect(f"{name}: their titles", titles == [*said, f"footprint: {sum(most):,} byte{'s' * (sum(most) != 1)}"], titles)
    keys = it.value("[...document.querySelectorAll('#layers-key li')].map(item => item.textContent)")
    expect(f"{name}: their key", keys == [words for words, *_ in wanted], keys)
    inside = it.value("""[...document.querySelectorAll('#layers path[fill], #layers .bars')].every(path => path.getBBox().y
        >= document.querySelector('#layers .level').getBBox().y - 0.1)""")
    expect(f"{name}: no layer is above the footprint", inside and it.value("!$('over-time').hidden"))


def histories_work(it):
    it.value("takeText(data.examples['the live blocks of sqlite3 over time'], 'a history')")
    given = web_page.example("sqlite_large.history")
    it.value("$('limit').value = 8; tune()")
    fit = answer("fit", {"limit": 8, "step": 1}, given)[1]
    expect("the fit of a history", it.value("$('sheet').value") == fit)
    expect("its footprint", f"{certificate_texts.parse_fit(fit).footprint:,} bytes" in it.value("$('lead').textContent"))
    history, classes = count_texts.parse_history(given.encode()), certificate_texts.parse_fit(fit).classes
    columns = [[0] * len(classes) for _ in range(history.snapshots)]
    for size, counts in history.counts.items():
        if size != "large":
            place = next(at for at, each in enumerate(classes) if 16 * each - 16 >= size)
            for column, count in zip(columns, counts):
                column[place] += count
    layers_are_drawn(it, "a history", classes, columns)
    it.value("checkSheet()")
    says(it, "the fit is optimal", "verdict", "check-fit says optimal, so")


def timelines_work(it):
    """Fits of timelines are the program's, and are checked over every moment; a fit that is no best one says what is known."""
    chance = random.Random(44)
    it.value("$('limit').value = 3; $('step').value = 1; $('largest').checked = false")
    for _ in range(6):
        given = timeline(chance)
        it.value(f"takeText({json.dumps(given)}, 'a timeline')")
        sheet = answer("fit", {"limit": 3, "step": 1}, given)[1]
        expect(f"the fit of {given!r}", it.value("$('sheet').value") == sheet, it.value("$('sheet').value"))
        classes = it.value("tuner.classes")
        layers_are_drawn(it, f"{given!r}", classes, timelines.heights(given.encode(), classes, 120) if given.count("\n") > 1 else [])
        it.value("checkSheet()")
        says(it, f"the fit of {given!r} is optimal", "verdict", "check-fit says optimal, so")
        for edit, wanted in (("/^footprint (.*)/m, 'footprint 1$1'", "49 FootprintWrong: nothing is shown"), ("/^moments.*/m, 'moments 999999'", "53 NotMoments")):
            it.value(f"$('sheet').value = tuner.sheet.replace({edit}); checkSheet()")
            says(it, f"the fit edited by {edit}", "verdict", wanted)
    it.value("takeText('timeline\\n40\\n-40\\n-40\\n', 'it')")
    says(it, "a faulty timeline", "status", "Line 4: a free of a size of which no block is live")
    # the engine answers so where its rounds are over
    it.value("""window.askOld = ask; ask = async (what, words, ...more) => {
        const answer = await askOld(what, words, ...more), text = 'classes 4 8\\nfootprint 192\\nnot shown least: no table takes less than 128\\n'
        return words.command === 'fit' ? { status: 1, text } : answer }""")
    it.value("takeText('timeline\\n40\\n100\\n', 'it')")
    made = 1, b"classes 4 8\nfootprint 192\nnot shown least: no table takes less than 128\n", ""
    with mock.patch.object(program_runs, "mte_tool", lambda words, *given: made):
        wanted = claims.fit_counts(b"timeline\n40\n100\n", "it", (3, 1, False))[1].state_verdict().replace("`", "")
    expect("a fit that is not shown to be a best one", it.value("$('claim').textContent") == wanted, it.value("$('claim').textContent"))
    it.value("checkSheet()")
    expect("its check says the same", it.value("[$('verdict').textContent, $('verdict').className]") == [wanted, "bad"])
    it.value("ask = askOld; $('limit').value = 8")


def pairs_work(it):
    """What each table costs on both of two, and which of the two is looked at."""
    first, second = web_page.example("sqlite.profile"), web_page.example("sqlite_large.history")
    it.value(f"takeText({json.dumps(first)}, 'the first')")
    it.click("#beside")
    it.value(f"takeText({json.dumps(second)}, 'the second')")
    tables = {slot: it.value(f"'classes ' + slots[{at}].classes.join(' ')") for at, slot in enumerate("AB")}
    rows = it.value("[...document.querySelectorAll('#pair-tables tbody tr')].map(row => [...row.cells].map(cell => cell.textContent))")
    scudo = [web_page.example(name).strip() for name in ("scudo.classes", "scudo_android.classes")]
    lines = [tables["A"], tables["B"], *scudo]
    for row, line in zip(rows, lines):
        wanted = []
        for command, given in (("score", first), ("footprint", second)):
            words = answer(command, {}, f"{line}\n{given}")[1].split()
            wanted.append(f"does not serve {int(words[2]):,} bytes" if words[0] == "not" else f"{int(words[1]):,}")
        expect(f"side by side: {row[0]}", len(rows) == 4 and all(text in row for text in wanted), (row, wanted))
    for slot, name in (("A", "the first"), ("B", "the second")):
        it.click(f"#look-{slot}")
        shown = it.value("[tuner.name, $('sheet').value === tuner.sheet, $('lead').textContent]")
        expect(f"{slot} is looked at", shown[:2] == [name, True] and f"{it.value('tuner.total'):,} bytes" in shown[2], shown)
        told = it.value(f"[$('pair-claim-{slot}').textContent, $('claim').textContent]")
        expect(f"the claim of {slot}", told[0] == told[1], told)
    it.click("#drop-B")
    it.until("tuner.slot === 'A' && $('pair').hidden")
    expect("B is gone", it.value("[filledSlots().length, $('slots').hidden, comesTo]") == [1, True, 0])


def typing_works(it):
    """Counts are taken while they are written, other texts by the button; what is pasted comes whole."""
    it.click("#tab-tune")
    it.click("#type")
    it.until("document.activeElement === $('text')")
    expect("the editor has what is looked at", it.value("$('text').value === tuner.counts.text"))
    it.value("$('text').select()")
    it.send("Input.insertText", text="40 3\n100 5\n")
    it.until("tuner.name === 'your text' && tuner.counts.sizes.length === 2")
    it.send("Input.insertText", text="50 2\n")
    it.until("$('text-told').textContent.startsWith('Line 3: ')")
    expect("what was written stays", it.value("$('text').value") == "40 3\n100 5\n50 2\n")
    it.value("$('text').select()")
    it.send("Input.insertText", text="timeline\n40\n40\n-40\n100\n")
    it.until("tuner.kind === 'timeline' && $('text-told').textContent === ''")
    expect("a typed timeline", it.value("tuner.counts.sizes") == [[40, 2], [100, 1]])
    it.value("$('text').value = 'malloc 0 40\\nfree 0\\n'")
    it.click("#take")
    wait_for_status(it, "your text: a trace of 2 events")
    it.click("#tab-tune")
    it.click("#type")
    for text, wanted in (
        ("snapshots 2\r\n16 1 2\r\n", "what was pasted: a history of 1 size"),
        ("16 3\n\n", "what was pasted is refused. Line 2"),
        ("<img src=x onerror=alert(1)>", 'its first word is "<img"'),
        ("malloc 0 8\nfree 0\nfree 0\n", "what was pasted: a trace of 3 events"),
    ):
        it.value(f"""{{ const data = new DataTransfer(); data.setData('text/plain', {json.dumps(text)});
            document.body.dispatchEvent(new ClipboardEvent('paste', {{ clipboardData: data, bubbles: true }})) }}""")
        wait_for_status(it, wanted)


def made_link(it):
    it.value("makeLink()")
    return it.value("$('link').value"), it.value("$('link-told').textContent")


def letters_of(value):
    """The letters of a link with this text, or this value in JSON, made by other code than the page's."""
    text = value if isinstance(value, bytes) else json.dumps(value).encode()
    made = zlib.compressobj(9, zlib.DEFLATED, -15)
    return base64.urlsafe_b64encode(made.compress(text) + made.flush()).decode().rstrip("=")


def value_of(link):
    """What a link carries, read by other code than the page's."""
    letters = link.partition("#mte_tool=")[2]
    return json.loads(zlib.decompress(base64.urlsafe_b64decode(letters + "=" * (-len(letters) % 4)), -15))


def links_work(path):
    """A link that one browser made opens in another, which checks what came. A link that was changed, or is none, is told and does nothing."""
    links = {}
    with open_page(f"file://{path}", 120) as it:
        it.value("$('limit').value = 5; $('step').value = 2; $('largest').checked = true; tune()")
        links["profile"] = made_link(it)
        it.value(f"$('limit').value = 4; $('step').value = 1; $('largest').checked = false; takeText({json.dumps(timeline(random.Random(45)))}, 'runs <b>')")
        links["timeline"] = made_link(it)
        it.click("#beside")
        it.value(f"takeText({json.dumps(web_page.example('sqlite_large.history'))}, 'over time')")
        links["pair"] = made_link(it)
        it.value("takeText(EXAMPLES['a use after free'], 'a use <i>')")
        it.value("go(5)")
        links["trace"] = made_link(it)
        shown = it.value("[$('told').innerText, watched.name]")
        it.value(f"takeFile(new File([{json.dumps(web_page.example('sqlite.trace'))}], 'sqlite.trace'))")
        links["file"] = made_link(it)
        it.value("takeFile(new File(['malloc 0 9\\nfree 0\\n'.repeat(300000)], 'a long one'))")
        link, told = made_link(it)
        expect("a long trace makes no link, and this is told", link == "" and "far too long" in told and "at most 64,000" in told, told)
        noise = "".join(f"{size} {random.Random(size).randrange(1, 10**9)}\n" for size in range(LARGEST_SIZE))
        it.value(f"takeText({json.dumps(noise)}, 'noise')")
        link, told = made_link(it)
        expect("long counts make no link, and this is told", link == "" and "a link has at most 64,000" in told, told)
    for name, (link, told) in links.items():
        expect(f"the link of a {name}: its length is told", f"{len(link):,} characters" in told and link.startswith(f"file://{path}#mte_tool="), told)
        expect(f"the link of a {name} has no letter that programs change", re.fullmatch(r"[\w-]+", link.partition("#mte_tool=")[2]), link)
    sheet = answer("tune", {"limit": 5, "step": 2, "largest_class": 1}, web_page.example("sqlite.profile"))[1]
    expect("a link carries the sheet and the counts", value_of(links["profile"][0])["tune"]["slots"] == [
        {"name": "the requests of sqlite3", "text": web_page.example("sqlite.profile"), "sheet": sheet}], value_of(links["profile"][0]))  # fmt: skip
    with open_page(links["profile"][0], 180) as it:
        told = it.value("[$('from-link').textContent, $('from-link').className, $('sheet').value, $('limit').value, $('step').value]")
        expect("the profile of a link is checked anew", "checked it again: check says optimal, so" in told[0] and "and have class 1024" in told[0], told)
        expect("its sheet and its options are there", told[1:] == ["good", sheet, "5", "2"], told)
        expect("a link throws nothing", not it.errors, it.errors)
        open_links(it, links, shown)
        spoiled_links(it, links)
        is_whole(it, "a page by a link")


def open_links(it, links, shown):
    """The other links, by their hash and by pasting."""
    it.value(f"location.hash = {json.dumps(links['timeline'][0].partition('#')[2])}")
    wait_for_status(it, "runs <b>: a timeline of")
    it.until("!$('from-link').hidden && $('from-link').textContent.includes('check-fit says optimal')")
    it.value(f"takeText({json.dumps(links['pair'][0])}, 'it')")
    told = it.value("[slots.map(slot => slot.name), tuner.slot, $('from-link').className, $('pair').hidden]")
    expect("a link of two", told == [["runs <b>", "over time"], "B", "good", False], told)
    it.value(f"takeText({json.dumps('https://elsewhere.example/p.html' + links['trace'][0].partition('.html')[2])}, 'it')")
    told = it.value("[$('told').innerText, watched.name]")
    expect("a link of a trace shows the same event", told == shown and "a use <i>" in told[1], (told, shown))
    it.value(f"openLink({json.dumps('#' + links['file'][0].partition('#')[2])})")
    expect("a link of a file's trace", it.value("[watched.name, watched.events]") == ["sqlite.trace", web_page.example("sqlite.trace").count("\n")])
    it.click("#tab-tune")


def spoiled_links(it, links):
    value = value_of(links["timeline"][0])

    def with_slot(**fields):
        return {**value, "tune": {**value["tune"], "slots": [{**value["tune"]["slots"][0], **fields}]}}

    sheet = value["tune"]["slots"][0]["sheet"]
    spoiled_sheet = with_slot(sheet=re.sub(r"(?m)^row (\d+)", lambda found: f"row {int(found[1]) + 1}", sheet))
    it.value(f"openLink('#mte_tool={letters_of(spoiled_sheet)}')")
    told = it.value("[$('from-link').textContent, $('from-link').className]")
    expect("a sheet that was changed in the link is refused", "nothing is shown" in told[0] and told[1] == "bad", told)
    before = it.value("[tuner.name, tuner.total]")
    letters = links["timeline"][0].partition("#mte_tool=")[2]
    tune = value["tune"]
    bomb = letters_of(b'{"version": 1, "tune": "' + b"0" * (MOST_INPUT + 1) + b'"}')
    for what, of, wanted in (
        ("cut", letters[: len(letters) // 2], "can't be decompressed"),
        ("nothing", "", "can't be decompressed"),
        ("no letters", "%00<script>", "other characters"),
        ("no JSON", letters_of(b"{"), "not of a page of mte_tool"),
        ("null", letters_of(None), "another version"),
        ("a later version", letters_of({**value, "version": 2}), "another version"),
        ("no slots", letters_of({**value, "tune": {**tune, "slots": []}}), "not of a page"),
        ("a limit of 33", letters_of({**value, "tune": {**tune, "limit": 33}}), "not of a page"),
        ("a limit in words", letters_of({**value, "tune": {**tune, "limit": "<b>"}}), "not of a page"),
        ("no counts", letters_of(with_slot(text="hello")), "not of a page"),
        ("a heap of nothing", letters_of({"version": 1, "heap": {}}), "not of a page"),
        ("a bomb", bomb, "holds more than 67,108,864 bytes"),
    ):
        it.value(f"openLink({json.dumps('#mte_tool=' + of)})")
        told = it.value("$('status').textContent")
        expect(f"a link with {what} is refused", told.startswith("The link is refused: ") and wanted in told, told)
    expect("links that are refused change nothing", it.value("[tuner.name, tuner.total]") == before)
    it.value(f"openLink('#mte_tool={letters_of(with_slot(text='timeline' + chr(10) + '-3' + chr(10)))}')")
    says(it, "counts that the engine refuses are told", "status", "is refused. Line 2")


def begins_at_the_default(it):
    """At first no table that is compared costs less than the tuned one, whatever the example."""
    scudo = len(certificate_texts.parse_class_line(web_page.example("scudo.classes").strip()))
    expect("at first there are as many classes as in Scudo's default", it.value("Number($('limit').value)") == scudo)
    for name in it.value("Object.keys(data.examples)"):
        it.value(f"takeText(data.examples[{json.dumps(name)}], {json.dumps(name)})")
        tables = it.value("tuner.tables.map(table => table.total ?? Infinity)")
        expect(f"{name}: no table costs less", len(tables) == 3 and min(tables) == tables[0], tables)
    it.value("takeText(Object.values(data.examples)[0], Object.keys(data.examples)[0])")


def files_are_taken(it, folder):
    def file(name, data):
        Path(folder, name).write_bytes(data)
        return os.path.join(folder, name)

    data = "scripts/tests/imports_data"
    is_gone = checks.skip_without(data, "what the page says of a file of DHAT")
    dhat = [] if is_gone else [(os.path.join(ROOT, data, "dhat.json"), "the profile that `profile_program --import` makes of it")]
    large = file("large.profile", b"")
    os.truncate(large, MOST_INPUT + 1)
    chosen = [
        (large, "an input has at most 67,108,864"),
        (file("binary", bytes(range(256))), "it has bytes other than"),
        (file("windows.profile", b"16 3\r\n32 4\r\n"), "its lines end with a carriage return, as on Windows (CRLF)"),
        (file("marked.profile", b"\xef\xbb\xbf16 3\n"), "it begins with a byte order mark"),
        (file("wide.profile", "16 3\n".encode("utf-16")), "it is UTF-16"),
        (file("words", b"hello there\n"), "its first word"),
        *dhat,
        (file("packed.zst", b"\x28\xb5\x2f\xfd\0\0"), "packed.zst is packed, as heaptrack and Go write their files"),
        (file("faulty.profile", b"16 3\n16 4\n"), "Line 2: a size is not above the one before it"),
        (os.path.join(EXAMPLES, "jq.profile"), "jq.profile: a profile of"),
        (os.path.join(EXAMPLES, "sqlite_large.history"), "sqlite_large.history: a history of"),
        (file("empty", b""), "empty: a profile of 0 sizes"),
        (file("run.timeline", b"timeline\n40\n-40\n"), "run.timeline: a timeline of 1 size."),
        (os.path.join(EXAMPLES, "perl.profile"), "perl.profile: a profile of"),
    ]
    for path, wanted in chosen:
        it.choose_file("#file", path)
        wait_for_status(it, wanted)
    it.value("$('status').textContent = ''")
    it.drop_file(file("own.trace", b"malloc 0 10\nfree 0\nfree 0\n"))
    wait_for_status(it, "own.trace: a trace of 3 events")
    it.drop_file(file("own.sheet", answer("tune", {"limit": 2, "step": 1}, "10 1\n")[1].encode()))
    wait_for_status(it, "own.sheet: a sheet")
    it.until("$('verdict').textContent.includes('says optimal')")
    full = file("full.profile", b"")
    os.truncate(full, MOST_INPUT)
    it.drop_file(full)
    wait_for_status(it, "is no text")


LAWS = {
    "an overflow": "law_bookkeeping",
    "a use after free": "law_freed",
    "a use after the slot is given out again": "law_freed",
    "a double free": "law_own_pointer",
    "a realloc that moves": "law_freed",
}


def heap_works(it):
    it.click("#tab-heap")
    for name in it.value("Object.keys(EXAMPLES)"):
        it.value(f"takeTrace(EXAMPLES[{json.dumps(name)}], 'it')")
        events, laws = it.value("watched.events"), []
        for k in [*range(events + 1), *reversed(range(events))]:
            it.value(f"go({k})")
            shown = it.value("[watched.k, watched.shown.k]")
            expect(f"{name}, event {k}", shown == [k, k], shown)
            laws.append(it.value("$('law').hidden ? '' : $('law').textContent"))
        if name in LAWS:
            expect(f"{name}: the sentence names {LAWS[name]}", any(LAWS[name] in law for law in laws), laws)
        else:
            expect(f"{name}: the reason is told", any("last granule" in law for law in laws), laws)
    keys_work(it)
    own_trace_is_named(it)
    editor_works(it)


def keys_work(it):
    it.value("takeTrace(EXAMPLES['a use after free'], 'it')")
    it.value("document.activeElement.blur()")
    for key, wanted in (("n", 1), ("n", 2), ("f", 5), ("f", 6), ("b", 5), ("p", 4), ("p", 3)):
        it.key(key)
        it.until(f"watched.k === {wanted}")
    it.value("$('at').focus()")
    it.key("ArrowRight")
    it.until("watched.k === 4")
    it.value("$('grid').focus()")
    for _ in range(2):
        it.key("ArrowRight")
    it.until("/^Granule 1: of a dead chunk.*variable 0.*40 bytes.*Event 4 freed it/.test($('granule').textContent)")
    it.click("#faults button")
    it.until("watched.k === 5")


def own_trace_is_named(it):
    """The line above the view speaks of the trace that is replayed."""
    it.click("#tab-heap")
    it.value("takeTrace(EXAMPLES['a use after free'], 'a use after free')")
    it.click("#run")
    it.until("$('status').textContent === 'a use after free: a trace of 7 events.'")
    it.value("$('trace').value = 'malloc 0 40\\nfree 0\\n'; $('trace').dispatchEvent(new Event('input'))")
    it.click("#run")
    it.until("$('status').textContent === 'your own trace: a trace of 2 events.'")
    it.value("$('trace').value = 'malloc\\n'")
    it.click("#run")
    it.until("$('status').textContent.startsWith('your own trace is not replayed')")
    says(it, "the editor says why", "trace-told", "Line 1")
    it.value("takeText('malloc 0 1\\nfree\\n', 'a file')")
    told = it.value("$('status').textContent")
    expect("a refused file is named", told.startswith("a file is not replayed") and told.endswith("still of your own trace."), told)


def editor_works(it):
    it.value("$('trace').value = 'malloc 0 40\\nfree 0\\nfree zero\\n'; replayTrace()")
    chosen = "$('trace').value.slice($('trace').selectionStart, $('trace').selectionEnd)"
    told = it.value(f"[$('trace-told').textContent, {chosen}]")
    expect("an error of the editor stands at its line", told[0].startswith("Line 3: ") and told[1] == "free zero", told)
    for field in ("granules", "seed", "quarantine"):
        it.value(f"$('{field}').value = 99999999; replayTrace()")
        says(it, f"{field} out of its range", "trace-told", "whole number from")
        it.value(f"$('{field}').value = $('{field}').min")
    it.value("$('seed').value = 1; $('tuned').checked = false; $('line').value = 'classes 2 2'")
    it.value("$('trace').value = 'malloc 0 1\\n'; replayTrace()")
    says(it, "a faulty table", "trace-told", "22 NotAscending")
    it.value("$('tuned').checked = true")


def take_million(it):
    """Takes a file of a million events: the seconds until the first picture, and until its report and its table, and how much of the report
    was there at the first picture."""
    it.value("window.shots = []; window.showOld = showHeap; showHeap = () => { showOld(); shots.push([performance.now(), watched.totals.length]) }")
    text = "'malloc 1 99\\n' + 'malloc 0 9\\nstore 0 0 1 11\\nfree 0\\n'.repeat(333333)"
    took = f"const file = new File([{text}], 'a long one'), begun = performance.now(); await takeFile(file)"
    begun, ended = it.value(f"(async () => {{ {took}; return [begun, performance.now()] }})()")
    (first, totals), *_ = it.value("shots")
    it.value("showHeap = showOld")
    return (first - begun) / 1000, (ended - begun) / 1000, totals


def seconds_of(it, words):
    """The seconds that an action of the page takes."""
    return it.value(f"(async () => {{ const begun = performance.now(); await ({words}); return (performance.now() - begun) / 1000 }})()")


def large_traces_work(it):
    """A file of a million events is shown before its report is read. Any event is shown in seconds, on the way back too."""
    first, ended, totals = take_million(it)
    expect("a million events: the first picture comes before the report", totals == 0 and it.value("watched.totals.length") > 0, totals)
    expect(f"a million events are taken in {first:.1f} and {ended:.1f} s", first < 10 and ended < 60)
    expect("a trace of a million events", it.value("[watched.events, watched.name]") == [1000000, "a long one"])
    for k in (1000000, 999999, 999990, 500000, 1):
        seconds = seconds_of(it, f"go({k})")
        shown = it.value("[watched.k, watched.shown.k, $('event-words').textContent.includes('not there yet')]")
        expect(f"event {k} of a million is shown in {seconds:.1f} s", shown == [k, k, False] and seconds < 20, (shown, seconds))


# texts to measure with, made in the page: sizes of different needs, some in use at 64 moments, and a run
MEASURED = """
    window.chance = (() => { let x = 1; return (n) => (x = (48271 * x) % 2147483647) % n })();
    window.measured = {
      sizes: Array.from({ length: LARGEST_SIZE }, (_, i) => `${i + 1} ${1 + chance(10000)}\\n`).join('') + 'large 1\\n',
      profile: Array.from({ length: 1023 }, (_, i) => `${16 * i + 1} ${1 + chance(10000)}\\n`).join(''),
      history: 'snapshots 64\\n' + Array.from({ length: 1023 }, (_, i) => `${16 * i + 1} ${Array.from({ length: 64 }, () => 1 + chance(10000)).join(' ')}\\n`).join(''),
      timeline: (() => { const live = [], lines = ['timeline'];
        for (let i = 0; i < 1000000; i++) {
          if (live.length > 50 && chance(1000) < 500) lines.push(`-${live.splice(chance(live.length), 1)[0]}`);
          else lines.push(live[live.push(1 + 24 * chance(100)) - 1]);
        }
        return lines.join('\\n') + '\\n' })(),
    }; 0"""


# what a user changes of a table and of a heap, and what the page then does
TUNE_CONTROLS = {
    "the most classes": "$('limit').value = 8, $('limit').oninput()",
    "the step": "$('step').value = 2, $('step').onchange()",
    "class 1024": "$('largest').checked = true, $('largest').onchange()",
    "a table of one's own": "$('own').value = 'classes 2 1024', $('own').onchange()",
    "the check of the sheet": "$('check').onclick()",
    "the link": "$('share').onclick()",
}
HEAP_CONTROLS = {
    "the last event": "$('last').onclick()",
    "the first": "$('first').onclick()",
    "one in the middle": "$('at').value = 500000, $('at').oninput()",
    "one event back": "$('back').onclick()",
    "one event on": "$('on').onclick()",
    "the fault before": "$('fault-before').onclick()",
}


def slowest(it, controls, what):
    """The control that takes longest, in words, and its seconds."""
    seconds, name = max((seconds_of(it, words), name) for name, words in controls.items())
    return f"{what}: {name}", seconds


def print_figures(path):
    """Prints the rows of the table of docs/PERFORMANCE.md: what the page takes, in seconds."""
    with open_page(f"file://{path}", 240) as it:
        found = [("from the page's opening to its first table", it.value("performance.getEntriesByName('ready')[0].startTime") / 1000)]
        it.value(MEASURED)
        for name, what in (
            ("profile", "a profile of 1,023 sizes: tuned, checked, compared and shown"),
            ("sizes", "a profile of all sizes: the same"),
            ("history", "a history of 1,023 sizes at 64 snapshots: fitted, checked, compared and shown"),
            ("timeline", "a timeline of a million events: the same"),
        ):
            found.append((what, seconds_of(it, f"takeText(measured.{name}, 'it')")))
        found.append(slowest(it, TUNE_CONTROLS, "the slowest control then"))
        first, ended, _ = take_million(it)
        found += [("a file of a million events, until the first picture", first), ("until its report and its table are there too", ended)]
        found.append(slowest(it, HEAP_CONTROLS, "the slowest control of its heap"))
        it.value("go(1000000)")
        found.append(("one event back from its last", seconds_of(it, "go(999999)")))
    for what, seconds in found:
        print(f"page: | {what} | {seconds:.2f} |")


def looks(it, keep):
    """Both views in both themes, wide and narrow."""
    it.value("takeText(data.examples['the requests of sqlite3'], 'the requests of sqlite3')")
    it.value("takeTrace(EXAMPLES['a use after free'], 'a use after free')")
    it.value("go(5)")
    for dark in (False, True):
        for width in (1100, 360):
            for view in ("tune", "heap"):
                it.theme(dark)
                it.resize(width, 1000)
                it.click(f"#tab-{view}")
                it.value("scrollTo(0, 0); new Promise(done => requestAnimationFrame(() => setTimeout(done, 100)))")
                name = f"{view}_{'dark' if dark else 'light'}_{width}"
                is_whole(it, name)
                if keep:
                    it.picture(os.path.join(keep, f"{name}.png"))


LONG_WORK = """(async () => {
  const looks = () => [...["lead", "work"].map((id) => getComputedStyle($(id)).visibility), $("work").hidden, $("steps").value];
  const done = takeText("timeline\\n" + "24\\n48\\n-24\\n-48\\n".repeat(600000), "a long one");
  const seen = [[...looks(), $("work-told").textContent]];
  const timer = setInterval(() => seen.push(looks()), 20);
  await done;
  clearInterval(timer);
  const after = looks();
  await takeText("timeline\\nx\\n", "a refused one");
  return { seen, after, refused: looks() };
})()"""


def long_work_is_shown(it):
    """While the engines work, a bar stands in place of what they answered before; not for a moment only, and not any more once they are done."""
    found = it.value(LONG_WORK)
    first, *seen = found["seen"]
    expect("a work that begins", first[0] == "visible" and first[2:] == [False, 0, "The engines work on a long one."], first)
    expect("a long work", any(look[:3] == ["hidden", "visible", False] for look in seen), seen[:20])
    expect("its steps", [look[3] for look in seen] == sorted(look[3] for look in seen) and found["after"] == ["visible", "hidden", True, 4], found["after"])
    expect("a work that was refused", found["refused"][:1] + found["refused"][2:3] == ["visible", True], found["refused"])


def page_works(path, keep):
    with tempfile.TemporaryDirectory() as folder, open_page(f"file://{path}", 240) as it:
        expect("the page begins", it.value("document.body.dataset.ready") == "yes", it.value("document.body.innerText"))
        begins_at_the_default(it)
        tuning_works(it)
        histories_work(it)
        largest_works(it)
        claims_hold(it)
        timelines_work(it)
        long_work_is_shown(it)
        pairs_work(it)
        typing_works(it)
        files_are_taken(it, folder)
        heap_works(it)
        large_traces_work(it)
        looks(it, keep)
        keeps_to_itself(it, "page.html")


# ---- a page keeps to itself


@contextlib.contextmanager
def server():
    """A server on the loopback address that lets any page read it: its address, and the paths that were asked for."""
    asked = []

    class Handler(http.server.BaseHTTPRequestHandler):
        def do_GET(self):
            asked.append(self.path)
            self.send_response(200)
            self.send_header("Access-Control-Allow-Origin", "*")
            self.end_headers()

        do_POST = do_OPTIONS = do_GET

        def log_message(self, *_):
            pass

    with http.server.ThreadingHTTPServer(("127.0.0.1", 0), Handler) as listening:
        threading.Thread(target=listening.serve_forever, daemon=True).start()
        try:
            yield f"http://127.0.0.1:{listening.server_port}", asked
        finally:
            listening.shutdown()


# Each way out of a page that a script in it could try.
WAYS = {
    "fetch": "fetch(at).catch(() => 0)",
    "request": "new Promise(done => { const r = new XMLHttpRequest(); r.onloadend = done; r.open('GET', at); r.send() }).catch(() => 0)",
    "beacon": "navigator.sendBeacon(at, 'x')",
    "socket": "new Promise(done => { try { new WebSocket(at.replace('http', 'ws')).onerror = done } catch { done() } })",
    "events": "new Promise(done => { new EventSource(at).onerror = done })",
    "image": "new Promise(done => { const i = new Image(); i.onload = i.onerror = done; i.src = at })",
    "script": "new Promise(done => { const s = document.createElement('script'); s.onload = s.onerror = done; s.src = at; document.body.append(s) })",
    "style": "new Promise(done => { const s = document.createElement('link'); s.rel = 'stylesheet'; s.onload = s.onerror = done; s.href = at; "
    "document.body.append(s) })",
    "frame": "new Promise(done => { const f = document.createElement('iframe'); f.onload = f.onerror = done; f.src = at; document.body.append(f); "
    "setTimeout(done, 300) })",
    "form": "new Promise(done => { const f = document.createElement('form'); f.target = '_blank'; f.action = at; document.body.append(f); "
    "f.submit(); setTimeout(done, 300) })",
    "worker": "new Promise(done => { const w = new Worker(URL.createObjectURL(new Blob([`fetch('${at}').finally(() => postMessage(1))`]))); "
    "w.onmessage = w.onerror = done; setTimeout(done, 2000) })",
}


def keeps_to_itself(it, name):
    """No way out of the page reaches a server, and no script but its own runs."""
    with server() as (at, asked):
        for way, words in WAYS.items():
            it.value(f"(async () => {{ const at = '{at}/{way}'; try {{ await {words} }} catch {{}} }})()")
        inline = '<img src="data:," onerror="window.ran = 1"><p style="color: #010203" id=styled>'
        it.value(f"document.body.insertAdjacentHTML('beforeend', {json.dumps(inline)})")
        it.value("{ const s = document.createElement('script'); s.textContent = 'window.ran = 2'; document.body.append(s) }")
        it.value("new Promise(done => setTimeout(done, 100))")
        expect(f"{name}: nothing leaves the page", not asked, asked)
        expect(f"{name}: no other script runs", it.value("window.ran === undefined"), it.value("window.ran"))
        expect(f"{name}: no other style counts", it.value("getComputedStyle(document.getElementById('styled')).color") != "rgb(1, 2, 3)")
    expect(f"{name}: fetch is refused by the policy", it.value("""new Promise(done => {
        addEventListener('securitypolicyviolation', event => event.effectiveDirective === 'connect-src' && done(true));
        fetch('http://127.0.0.1:9/').catch(() => setTimeout(() => done(false), 2000)) })"""))  # fmt: skip


def another_module_is_not_taken(folder):
    """A module that another file was put in place of, or without its manifest, has to be built anew."""
    kept, newest = os.path.join(folder, "page.wasm"), web_page.newest_source()
    shutil.copy2(web_page.module_path("steps"), kept)
    expect("a module without a manifest is old", web_page.is_old(kept, newest))
    shutil.copy2(manifest.path_of(web_page.module_path("steps")), manifest.path_of(kept))
    expect("a module with its manifest is kept", not web_page.is_old(kept, newest))
    shutil.copy(web_page.module_path("tool"), kept)
    expect("another module with that manifest is old", web_page.is_old(kept, newest))


def options_are_kept(modules):
    """The page of tune_program begins with its table: with its limit and its step, and with class 1024 kept."""
    given = web_page.example("sqlite.profile")
    wanted = answer("tune", {"limit": 5, "step": 2, "largest_class": 1}, given)[1]
    with open_page(web_page.page(modules, profile=("it", given), options={"limit": 5, "step": 2, "largest": True}), 30) as it:
        expect("the page begins with the options that it was made with", it.value("$('sheet').value") == wanted, it.value("$('sheet').value"))


HOSTILE = "<!--<script>\x01</script>\udcff&\u2028"


def changed_engines_are_refused(modules):
    """A page whose engine has one other byte says so, and answers nothing."""
    whole = web_page.page(modules)
    for name in web_page.MODULES:
        engine = base64.b64encode(modules[name]).decode()
        changed = base64.b64encode(modules[name][:-1] + bytes([modules[name][-1] ^ 1])).decode()
        expect(f"the page has its engine {name} once", whole.count(engine) == 1)
        with open_page(whole.replace(engine, changed), 60) as it:
            told = it.value("[document.body.dataset.ready, $('status').textContent, $('lead').textContent]")
            wanted = ["failed", "The page could not start: an engine has other bytes than the page was made with.", ""]
            expect(f"a changed engine {name} is refused", told == wanted, told)


def hostile_texts_are_shown(modules):
    """A text that begins a comment or a script in the page's data, or a name that does, does not stop the page."""
    for what, given in (("profile", {"profile": (HOSTILE, "<!--<script>\n16 3\n")}), ("trace", {"trace": (HOSTILE, "malloc 0 1\n<!--<script>\n")})):
        with open_page(web_page.page(modules, **given), 30) as it:
            expect(f"the page with a hostile {what} begins", it.value("document.body.dataset.ready") == "yes")
            told = it.value("document.body.innerText")
            shown = html_safe.escape_unprintable(HOSTILE) in told or "Line 2" in it.value("$('trace-told').textContent")
            expect(f"the page with a hostile {what} shows it", shown, told)
            expect(f"the page with a hostile {what} throws nothing", not it.errors, it.errors)
    for value in ("<!--", "<script>", "</script>", HOSTILE):
        expect("no data has a tag", "<" not in html_safe.data(value) and json.loads(html_safe.data(value)) == value, value)
    for source in ("a = '<!--'", "b = `<script>`", "c = '<SCRIPT'"):
        with pytest.raises(ValueError):
            html_safe.code(source)


def report_keeps_to_itself(folder):
    """report.html shows a hostile name, has no byte that is no text, and has the same policy."""
    counts, sheet, path = (os.path.join(folder, name) for name in ("it's \x01\udcff\\\n.profile", "jq.sheet", "report.html"))
    shutil.copy(os.path.join(EXAMPLES, "jq.profile"), counts)
    Path(sheet).write_text(answer("tune", {"limit": 8, "step": 1}, web_page.example("jq.profile"))[1], encoding="utf-8")
    with open(path, "wb") as out:
        done = subprocess.run([f"{ROOT}/scripts/report", "--title", os.fsencode(HOSTILE), counts, sheet], stdout=out)
    page = Path(path).read_bytes()
    expect("report.html is made", done.returncode == 0, done)
    expect("report.html is all text", page.decode(errors="replace").encode() == page and not re.search(rb"[^\n\x20-\x7e\x80-\xff]", page), page[:400])
    with open_page(f"file://{path}", 30, "document.readyState === 'complete'") as it:
        title = it.value("document.querySelector('h1').textContent")
        expect("report.html shows a hostile name", title == f"Size classes for {html_safe.escape_unprintable(HOSTILE)}", title)
        check = it.value("document.getElementById('check').textContent")
        done = subprocess.run(["bash", "-c", check], cwd=ROOT, capture_output=True)
        told = done.stdout.decode(errors="replace").splitlines()
        is_right = done.returncode == 0 and told[-1:] and told[-1].startswith(f"{checks.OPTIMAL}: of the tables ")
        expect("its command to check the sheet is right for any name", is_right, (check, done))
        expect("report.html has its style", it.value("getComputedStyle(document.querySelector('h1')).fontSize") == "24px")
        is_whole(it, "report.html")
        keeps_to_itself(it, "report.html")


def faults_are_shown():
    """The page of find_faults: a note at each error, whether the heap catches it or not."""
    if checks.skip_without("gcc scripts/find_faults", "find_faults --page"):
        return
    checks.with_heap()
    with tempfile.TemporaryDirectory() as folder:
        source, program, path = os.path.join(ROOT, "examples/errors/cwe122_loop_bound.c"), f"{folder}/loop", f"{folder}/page.html"
        subprocess.run([f"{ROOT}/scripts/traced_cc", "-O0", source, "-o", program], check=True, stdout=subprocess.DEVNULL)
        done = subprocess.run([f"{ROOT}/scripts/find_faults", "--page", path, program], stdout=subprocess.PIPE, cwd=ROOT)
        expect("find_faults --page", done.returncode == 1 and os.path.exists(path), done)
        with open_page(f"file://{path}", 60) as it:
            stops = it.value("watched.stops.map(k => [k, watched.notes.get(k)])")
            wanted = ["Not caught: it is inside the last granule", "Caught: tag fault"]
            expect("both errors have notes", len(stops) == 2 and all(of in note for (_, note), of in zip(stops, wanted)), stops)
            expect("the notes name the line", all("cwe122_loop_bound.c:9 in main: store of 4 bytes" in note for _, note in stops), stops)
            it.value(f"go({stops[0][0]})")
            shown = it.value("$('note').hidden || !$('view-heap').hidden && $('law').textContent")
            expect("the reason is shown", "An error that the heap lets pass" in str(shown), shown)


def words_are_refused():
    script = os.path.join(ROOT, "scripts/page")
    for words, wanted in ((["--help"], 0), (["--wrong"], 2), (["--profile"], 2), (["--trace", "nowhere"], 2), (["--trace", "/bin/sh"], 2)):
        done = subprocess.run([script, *words], stdin=subprocess.DEVNULL, stdout=subprocess.PIPE, stderr=subprocess.PIPE)
        expect(f"page {' '.join(words)}", done.returncode == wanted and bool(done.stdout) == (wanted == 0), done)
        expect(f"page {' '.join(words)}: no line has more than 140 columns", max(map(len, done.stdout.splitlines()), default=0) <= 140)


class Words(checks.Part):
    def test_words(self):
        words_are_refused()

    def test_other_tools(self):
        """What the page says of files of other tools, without its engines."""
        checks.need("node scripts/tests/imports_data", "what the page says of files of other tools")
        files = sorted(glob.glob(os.path.join(ROOT, "scripts/tests/imports_data/*.*")))
        begins = {os.path.basename(path): begin_of(path) for path in files if not path.endswith((".c", ".go", ".jeprof"))}
        none = {"jq.profile": begin_of(os.path.join(EXAMPLES, "jq.profile")), "bytes": "\0\1\2", "words": "heap profiles\n"}
        said = answers_of_node(f"const data = {{ importer: 'IMPORTER' }}; {web_page.source('words.js')}", "otherTool", {**begins, **none})
        unknown = {"glibc.xml", "massif.out", *none}  # of those, no profile can be made
        for name, says in said.items():
            good = says is None if name in unknown else says.startswith(f"{name} ") and says.endswith("`IMPORTER` makes of it.")
            expect(f"the page on {name}", good, says)
        expect("there are files of each tool", len(begins) > 12, begins.keys())


    def test_large_costs(self):
        """Costs that a Number would round are shown as they are."""
        checks.need("node", "how the page shows costs")
        digits = ["0", "1234", "9007199254740991", "9007199254740993", "133963895866036104", "18446744073709551615"]
        said = answers_of_node(web_page.source("words.js"), "(_, digits) => bytesText(exactly(digits))", {each: each for each in digits})
        for each in digits:
            expect(f"the page shows {each}", said[each] == f"{int(each):,} bytes", said[each])
        rows = {"most": [[16352, 10**9]] * 7}
        source = web_page.source("formats.js") + web_page.source("words.js") + web_page.source("counts.js")
        said = answers_of_node(source, "(_, pairs) => grouped(sumOfProducts(pairs))", rows)
        expect("the page sums exactly", said["most"] == f"{7 * 16352 * 10**9:,}", said)


def begin_of(path):
    """The first bytes of a file, each as a character."""
    data = Path(path).read_bytes()
    return (base64.b64decode(data) if path.endswith(".base64") else data)[:4096].decode("latin-1")


def answers_of_node(source, function, cases):
    """What a function of the page's sources gives for each name and its text."""
    code = f"{source}\nconst cases = {json.dumps(cases)};\n" \
        f"console.log(JSON.stringify(Object.fromEntries(Object.entries(cases).map(([name, text]) => [name, ({function})(name, text)]))));"
    done = subprocess.run(["node", "-"], input=code, stdout=subprocess.PIPE, text=True, check=True)
    return json.loads(done.stdout)


class Page(checks.Part):
    @classmethod
    def setup_class(cls):
        if not all(map(static_libraries.is_cheap, ("mte_c", "mte_step"))):
            pytest.skip("since no library is kept that the page's engines could be built on (scripts/page keeps them): the page")
        try:
            cls.modules = web_page.engines()
        except webassembly.MissingTool as missing:
            pytest.skip(f"without {missing}: the page")
        cls.place = cls.folder()
        cls.path = os.path.join(cls.place, "page.html")
        Path(cls.path).write_text(web_page.page(cls.modules), encoding="utf-8")

    def test_another_module(self):
        another_module_is_not_taken(self.folder())

    def test_engines(self):
        checks.need("node", "the engines of the page against the program")
        engines_equal_the_program(self.path, checks.options.cases)
        borders_stay(self.path)
        pictures_equal_the_model(self.path, checks.options.cases // 2)
        frames_are_right(self.path)

    def test_browser(self):
        if not browser.browser():
            pytest.skip("without chromium: the page in a browser")
        try:
            page_works(self.path, checks.options.keep)
            links_work(self.path)
            print_figures(self.path)
            options_are_kept(self.modules)
            changed_engines_are_refused(self.modules)
            hostile_texts_are_shown(self.modules)
            report_keeps_to_itself(self.place)
            faults_are_shown()
        except browser.BrowserError as failed:
            expect("the page in a browser", False, failed)


def add_options(parser):
    parser.add_argument("--cases", type=int, default=200, metavar="N", help="so many random inputs of the engines (200)")
    parser.add_argument("--keep", metavar="FOLDER", help="keep pictures of the page there")


if __name__ == "__main__":
    checks.main()
