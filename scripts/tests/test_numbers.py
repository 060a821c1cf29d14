"""The numbers that users read, each computed otherwise: by a replay of the events, or by counting, of what tune_program prints and of its page.

The inputs are drawn timelines and profiles. What is compared: each cell of the summary's and of the page's tables, the sentences on what a map
of Scudo saves, on sizes with larger blocks and on sizes that a table serves not; the sections of a page; and how many bytes are written."""

import collections
import html
import os
import random
import re
import subprocess
from typing import NamedTuple

import checks
import pytest
from checks import expect
from mte_scripts.formats import LARGEST_SIZE
from mte_scripts.places import ROOT
from mte_scripts.tables import figures, settings, verification

EXAMPLES = os.path.join(ROOT, "examples")
# what a page has, in this order; the third only of what was recorded over time
SECTIONS = ["Each table", "How many classes?", "The blocks over time", "What was requested", "The classes of the table of {}", "Check it again"]
UNITS = {"bytes": 1, "byte": 1, "KiB": 1 << 10, "MiB": 1 << 20, "GiB": 1 << 30, "TiB": 1 << 40, "PiB": 1 << 50}
AMOUNT = r"(-?[\d,.]+) (bytes?|KiB|MiB|GiB|TiB|PiB)"
MAP = rf"against Scudo's default the peak (falls|rises) by {AMOUNT} where it gives nothing back, in whole pages, and (falls|rises) by {AMOUNT}"
LARGER = rf"Of ([\d,]+) requested sizes ([\d,]+) have a larger block than with Scudo's default: together at most {AMOUNT} more at a moment"
UNSERVED = rf"serves none above ([\d,]+) bytes, of which {AMOUNT} were live"


@pytest.fixture(scope="module", autouse=True)
def program(tmp_path_factory):
    path = checks.any_program(str(tmp_path_factory.mktemp("program")))
    if path == "":
        pytest.skip("without a built program and rustc: the numbers that users read")
    if path:
        os.environ["MTE_TOOL"] = path


def block_of(table, size):
    """The bytes of the block that a table of granules gives for a size; None where it has none."""
    return next((16 * each for each in table if size <= 16 * each - 16), None)


class Events(NamedTuple):
    """The live blocks of each size after each event, and how often each size was requested."""

    moments: "list[collections.Counter]"
    requests: collections.Counter

    def footprint(self, table):
        """The most live blocks of each class, at any moments; None where a size has no block."""
        if any(block_of(table, size) is None for size in self.requests):
            return None
        most = collections.Counter()
        for live in self.moments:
            blocks = collections.Counter()
            for size, count in live.items():
                blocks[block_of(table, size)] += count
            most |= blocks
        return sum(block * count for block, count in most.items())

    def most(self, cost):
        return max(sum(cost(size) * count for size, count in live.items()) for live in self.moments)

    def peak(self):
        """The blocks that are live where the most bytes are requested; the first such moment."""
        return max(self.moments, key=lambda live: sum(size * count for size, count in live.items()))


def events_of(text):
    live, moments, requests = collections.Counter(), [], collections.Counter()
    for word in text.split()[1:]:
        size = int(word.lstrip("-"))
        live[size] += -1 if word.startswith("-") else 1
        requests[size] += not word.startswith("-")
        moments.append(+live)
    return Events(moments, requests)


def draw_timeline(draw, sizes, number):
    """A timeline in which blocks of these sizes come and go, and most stay."""
    live, lines = [], ["timeline"]
    for _ in range(number):
        if live and draw.random() < 0.4:
            lines.append(f"-{live.pop(draw.randrange(len(live)))}")
        else:
            live.append(draw.choice(sizes))
            lines.append(str(live[-1]))
    return "\n".join([*lines, ""])


def waste_of(table, counts):
    """What rounding loses of these blocks; None where a size has no block."""
    blocks = {size: block_of(table, size) for size in counts}
    return None if None in blocks.values() else sum((blocks[size] - 16 - size) * count for size, count in counts.items())


def class_line(path):
    with open(path) as file:
        return next([int(each) for each in line.split()[1:]] for line in file if line.startswith("classes"))


def read(*path):
    with open(os.path.join(*path), encoding="utf-8") as file:
        return file.read()


def words_of(page):
    """The text of a page, without its pictures."""
    page = re.sub(r"(?s)<(style|script|svg)\b.*?</\1>", "", page)
    return " ".join(html.unescape(re.sub(r"<[^>]*>", " ", page)).split())


def is_amount(number, unit, value):
    """Whether what is written is the value, to its last place."""
    places = len(number.partition(".")[2])
    return abs(float(number.replace(",", "")) - value / UNITS[unit]) <= 0.5000001 * 10**-places


def is_percent(text, part, whole):
    return abs(float(text.rstrip("%")) - (100 * part / whole if whole else 0)) <= 0.0500001


def tune(work, text, kind, *words):
    """The folder that tune_program makes of a text, and what it prints."""
    given, folder = os.path.join(work, f"app.{kind}"), os.path.join(work, f"{kind}.tuned")
    with open(given, "w") as file:
        file.write(text)
    done = subprocess.run([os.path.join(ROOT, "scripts/tune_program"), "--read", given, "--output", folder, *words], capture_output=True, text=True)
    expect(f"tune_program --read app.{kind}", done.returncode == 0, done.stderr)
    return folder, done.stdout


def tables_of(folder, first, *others):
    """The classes of each table by its name, the first one first."""
    made = {name: os.path.join(folder, path) for name, path in (("least footprint", "fitted.fit"), ("least waste", "tuned.sheet"))}
    made = {name: path for name, path in made.items() if os.path.exists(path)}
    made = {first: made[first], **made}
    given = {"Scudo's default": f"{EXAMPLES}/scudo.classes", "Scudo's for Android": f"{EXAMPLES}/scudo_android.classes"}
    given |= {os.path.basename(path).removesuffix(".classes"): path for path in others}
    return {name: class_line(path) for name, path in {**made, **given}.items()}


def cells_of(summary, name):
    """The cells of a table's line in a summary."""
    line = re.search(rf"(?m)^{re.escape(name)}  +(.*)$", summary)
    return re.split(r"  +", line[1].strip()) if line else []


def compare_summary(summary, tables, events):
    peak = events.peak()
    requested, first = sum(size * count for size, count in peak.items()), events.footprint(next(iter(tables.values())))
    for at, (name, table) in enumerate(tables.items()):
        cells, takes = cells_of(summary, name), events.footprint(table)
        if takes is None:
            found = re.fullmatch(UNSERVED, " ".join(cells))
            live = events.most(lambda size: size if block_of(table, size) is None else 0)
            right = found and int(found[1].replace(",", "")) == 16 * table[-1] - 16 and is_amount(found[2], found[3], live)
            expect(f"{name}: which sizes it serves not, {live} live", right, cells)
            continue
        wasted = waste_of(table, peak)
        saving = [] if at == 0 else [is_amount(*cells[1].split(), takes - first), is_percent(cells[2], takes - first, takes)]
        last = cells[3:] if at else cells[1:]
        right = [is_amount(*cells[0].split(), takes), *saving, last[0] == str(len(table)), is_percent(last[1], wasted, requested)]
        expect(f"{name}: takes {takes}, saves {takes - first}, loses {wasted} of {requested}", all(right), right, cells)


def compare_cells(page, tables, events):
    """The page's first table: what its cells say, and the numbers that they are of."""
    body = re.search(r"(?s)<h2>Each table</h2>.*?<tbody>(.*?)</tbody>", page)
    rows = re.findall(r"(?s)<tr .*?</tr>", body[1]) if body else []
    expect("the page has a row for each table", len(rows) == len(tables), rows)
    peak, first = events.peak(), next(iter(tables.values()))
    for at, (row, (name, table)) in enumerate(zip(rows, tables.items())):
        takes, wasted = events.footprint(table), waste_of(table, peak)
        wanted = {"classes": len(table), "footprint": takes, "waste": wasted}
        if takes is None:
            wanted = {"classes": len(table), "unserved": next((size for size in sorted(peak) if block_of(table, size) is None), None)}
        elif at:
            wanted |= {"saved": takes - events.footprint(first), "saving": wasted - waste_of(first, peak)}
        found = {key: int(value) for key, value in re.findall(r'data-name="(\w+)" data-value="(-?\d+)"', row)}
        shown = dict(re.findall(r'data-name="(\w+)"[^>]*>([^<]*)', row))
        told = {key: re.match(AMOUNT, shown[key].strip()) for key in ("footprint", "saved", "saving") if key in found}
        right = all(match and is_amount(match[1], match[2], found[key]) for key, match in told.items())
        right = right and all(int(shown[key].replace(",", "")) == found[key] for key in ("classes", "waste") if key in found)
        expect(f"the page: {name}", found == {key: value for key, value in wanted.items() if value is not None} and right, found, wanted, shown)


def compare_map(text, tables, events):
    """What a map of Scudo saves: where each block is given back at once, what is live; where nothing is, near what the classes take."""
    found = re.search(MAP, text)
    if not expect("what a map of Scudo saves is said", found, text[:2000]):
        return
    first, default = next(iter(tables.values())), tables["Scudo's default"]
    kept, at_once = (float(found[at + 1].replace(",", "")) * UNITS[found[at + 2]] * (1 if found[at] == "falls" else -1) for at in (1, 4))
    live = events.most(lambda size: block_of(default, size)) - events.most(lambda size: block_of(first, size))
    expect(f"given back at once: {live}", is_amount(found[5], found[6], abs(live)) and (at_once >= 0) == (live >= 0), found[0])
    takes = events.footprint(default) - events.footprint(first)
    # a class begins a page; of the pages at its end not all are in use, and the free blocks have a list
    expect(f"nothing given back: near {takes}", abs(kept - takes) <= 0.1 * abs(takes) + 4096 * (len(first) + len(default)), found[0])


def compare_larger(text, tables, events):
    first, default = next(iter(tables.values())), tables["Scudo's default"]
    blocks = {size: (block_of(first, size), block_of(default, size)) for size in events.requests}
    larger = {size: one - other for size, (one, other) in blocks.items() if one and other and one > other}
    if not larger:
        expect("no size has a larger block", "No requested size has a larger block than with Scudo's default." in text, text[:2000])
        return
    found, cost = re.search(LARGER, text), events.most(lambda size: larger.get(size, 0))
    right = found and [int(found[at].replace(",", "")) for at in (1, 2)] == [len(events.requests), len(larger)]
    expect(f"{len(larger)} sizes have a larger block, {cost} more", right and is_amount(found[3], found[4], cost), found and found[0])


def sections_of(page):
    return [html.unescape(each) for each in re.findall(r"<h2[^>]*>(.*?)</h2>", page)]


@pytest.mark.parametrize("seed", range(4))
def test_timeline(work, seed):
    draw, short = random.Random(seed), os.path.join(work, "short.classes")
    with open(short, "w") as file:
        file.write("classes 2 4 8 20\n")
    few = [[24, 100, 5000, 5200], [40, 700, 800, 4100, 9000], [200, 2200, 2600, 12000, LARGEST_SIZE], [16, 17, 3000]][seed]
    text = draw_timeline(draw, few, 3000)
    folder, summary = tune(work, text, "timeline", "--limit", str(draw.randrange(2, 6)), "--against", short)
    tables, events, page = tables_of(folder, "least footprint", short), events_of(text), read(folder, "report.html")
    compare_summary(summary, tables, events)
    compare_cells(page, tables, events)
    for said in (words_of(page), " ".join(read(folder, "summary.txt").split())):
        if "Predicted of Scudo" in said:
            compare_map(said, tables, events)
    compare_larger(words_of(page), tables, events)
    expect("the page says what a map saves", "Predicted of Scudo" in page)
    lead = re.search(r"A table of (\d+) size classes takes ([\d,]+) bytes over every moment of the run. Scudo's default takes ([\d,]+) bytes", words_of(page))
    wanted = [len(tables["least footprint"]), *(events.footprint(tables[name]) for name in ("least footprint", "Scudo's default"))]
    expect(f"the page begins with {wanted}", lead and [int(each.replace(",", "")) for each in lead.groups()] == wanted, lead and lead[0])
    expect("the page's sections", sections_of(page) == [each.format("least footprint") for each in SECTIONS], sections_of(page))
    drawn, block = page.partition("<h2>The blocks over time</h2>")[2].partition("<h2>")[0], max(16 * each for each in tables["least footprint"][:-1])
    expect("it draws the blocks of each class", f"blocks of {block:,} bytes" in drawn or f"blocks of {16384:,} bytes" in drawn, words_of(drawn)[:400])


def test_profile(work):
    draw = random.Random(9)
    counts = collections.Counter({size: draw.randrange(1, 1000) for size in draw.sample(range(LARGEST_SIZE + 1), 30)})
    text = "".join(f"{size} {count}\n" for size, count in sorted(counts.items()))
    folder, summary = tune(work, text, "profile", "--all", "--limit", "5")
    tables, requested = tables_of(folder, "least waste"), sum(size * count for size, count in counts.items())
    wasted = {name: waste_of(table, counts) for name, table in tables.items()}
    for at, (name, table) in enumerate(tables.items()):
        cells, saving = cells_of(summary, name), wasted[name] - wasted["least waste"]
        blocks = sum(block_of(table, size) * count for size, count in counts.items())
        right = [cells[0] == str(len(table)), cells[1] == f"{wasted[name]:,}", is_percent(cells[2], wasted[name], requested)]
        right += [is_amount(*cells[3].split(), saving), is_percent(cells[4], saving, blocks)] if at else []
        expect(f"{name}: loses {wasted[name]}, saves {saving} of {blocks}", all(right), right, cells)
    wanted = [each.format("least waste") for each in SECTIONS if each != "The blocks over time"]
    expect("the page's sections", sections_of(read(folder, "report.html")) == wanted, sections_of(read(folder, "report.html")))


def test_settings(monkeypatch):
    """The peaks and times with each setting, their change against none, and a warning of the one with which the program ended otherwise."""
    peaks = dict(zip(settings.SETTINGS, ([1000, 800], [900, 700], [2000, 1200], [1100, 960], [1500, 1000], [1020, 808])))
    strange = list(settings.SETTINGS)[2]

    def once(runner, words, path, library, given, options, libraries):
        expect("the options of Scudo are as long with each setting", len(options) == max(map(len, settings.SETTINGS.values())), options)
        setting = next(name for name, each in settings.SETTINGS.items() if each == options.rstrip(":"))
        peak = peaks[setting][["default", "tuned"].index(library)] << 10
        return verification.Run(3 if setting == strange and library == "tuned" else 0, peak, peak / (1 << 20))

    monkeypatch.setattr(verification, "run_once", once)
    text = "\n".join(
        settings.lines(settings.measure_settings("", ["app"], "", ["default", "tuned"], None), ["default", "tuned"])
    )
    for setting, both in peaks.items():
        cells = cells_of(text, setting)
        wanted = [(f"{peak:,}", peak / usual - 1, f"{peak / 1024:.2f}") for peak, usual in zip(both, peaks[settings.AS_IT_IS])]
        if setting == settings.AS_IT_IS:
            right = cells == [word for peak, _, time in wanted for word in (peak, time)]
        else:
            right = [(cells[at], cells[at + 2]) for at in (0, 3)] == [(peak, time) for peak, _, time in wanted]
            right = right and all(cells[at][0] in "+-" and is_percent(cells[at], change, 1) for at, (_, change, _) in zip((1, 4), wanted))
        expect(f"{setting}: {wanted}", right, cells)
    warned = [setting for setting in peaks if f"! With {setting} the program ended otherwise" in " ".join(text.split())]
    expect("which settings are warned of", warned == [strange], warned)


def test_units():
    """Bytes are written in the unit that suits, to three places."""
    for unit, size in UNITS.items():
        for count in (1, 1.5, 3, 17.25, 640, 999, 1000, 1023):
            value = count * size
            number, _, said = figures.byte_text(value).partition(" ")
            right = said == (unit if unit not in ("byte", "bytes") else "byte" if value == 1 else "bytes")
            near = abs(float(number.replace(",", "")) * UNITS[said] - value) <= 0.005 * value
            expect(f"{count} {unit}", right and near, figures.byte_text(value))
