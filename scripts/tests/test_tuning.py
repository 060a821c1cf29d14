"""Tests of tune_program and report, over the built program. What they print is compared with wastes computed here by the definition.
What needs cc, rustc or chromium is skipped without it, with a word."""

import collections
import hashlib
import html
import html.parser
import json
import math
import os
import random
import re
import resource
import shutil
import signal
import subprocess
import tempfile
import time
import xml.dom.minidom

import checks
import pytest
import claims_cases
import scudo_stand_in
from checks import expect, skip
from claims_cases import footprint, waste
from library_cases import FUSED_PROFILE, FUSED_SHEET, LONG_SHEET
from mte_scripts import certificate_texts
from mte_scripts.builds import web_page
from mte_scripts.formats import LARGEST_SIZE
from mte_scripts.recording import timelines
from mte_scripts.tables import scudo_memory, verdict, verification

ROOT = os.path.dirname(os.path.dirname(os.path.dirname(os.path.realpath(__file__))))
BUILT = checks.PROGRAM
EXAMPLES = os.path.join(ROOT, "examples")
FILES = "claims.txt program.profile report.html summary.txt tuned.sheet tuned_map.inc waste.svg".split()
TIMED = sorted([*FILES, "program.history", "fitted.fit"])  # where there is a history
RECORDED = sorted([*FILES, "program.timeline", "fitted.fit", "moments.history"])  # where there is a timeline
DEFAULT = "2 4 6 8 10 12 14 16 20 24 28 32 40 48 56 64 80 96 112 128 160 192 224 256 320 384 448 512 640 768 896 1024"
DEFAULT_NAME = "Scudo's default"
ANDROID = "2 3 4 5 6 7 9 11 12 14 18 22 28 37 50 69 103 131 161 195 257 289 445 545 729 889 1024"
JOB = r"""
#include <stdio.h>
#include <stdlib.h>
#include <string.h>
#include <unistd.h>
int main(int words, char **word) {
  static char line[100];
  static void *kept[5000];
  for (int i = 0; i < 5000; i++) kept[i] = malloc(i < 3000 ? 777 : 1555);
  for (int i = 0; i < 7000; i++) free(malloc(40));
  if (fgets(line, sizeof line, stdin)) fprintf(stdout, "read %s", line);
  for (int i = 1; i < words; i++) fprintf(stderr, "word %s\n", word[i]);
  if (words > 1 && !strcmp(word[1], "wait")) sleep(60);
  return words > 1 && !strcmp(word[1], "fail") ? 5 : 0;
}
"""


def run(script, *words, given=b"", **more):
    """Runs a script: its status, and its output and standard error as text."""
    done = subprocess.run([os.path.join(ROOT, "scripts", script), *words], input=given, capture_output=True, timeout=300, **more)
    return done.returncode, done.stdout.decode(), done.stderr.decode()


def refuses(status, reason, script, *words, **more):
    """A run that ends with this status and this reason, and prints nothing."""
    got, out, error = run(script, *words, **more)
    expect(f"{script} {words}: the status is {got}, not {status}: {error}", got == status)
    expect(f"{script} {words}: '{reason}' is not in '{error}', or it prints '{out[:80]}'", reason in error and not out)
    expect(f"{script} {words}: {error}", "Traceback" not in error)


def works(name, script, *words, **more):
    """What a run prints on standard output and on standard error that ends with status 0."""
    status, out, error = run(script, *words, **more)
    expect(f"{name}: the status is {status}: {error}", status == 0, out)
    return out, error


def read(*path):
    with open(os.path.join(*path), encoding="utf-8") as file:
        return file.read()


def write(text, *path, mode=0o644):
    with open(os.path.join(*path), "w", encoding="utf-8") as file:
        file.write(text)
    os.chmod(os.path.join(*path), mode)


def counts_of(text):
    """The counts of a profile by size, and its large requests."""
    pairs = dict(line.split() for line in text.splitlines())
    large = int(pairs.pop("large", 0))
    return {int(size): int(count) for size, count in pairs.items()}, large


def least_waste(counts, limit, step=1):
    """The least wastes of 1, 2, .. LIMIT classes, by trying each class after each other: no certificate, and no law of the tuner."""
    needs = {}
    for size, count in counts.items():
        need = -(-(size + 16) // (16 * step)) * step
        needs.setdefault(need, []).append((size, count))
    ends = sorted(needs)
    # lost[i][j]: what class ends[j] loses on the needs from i to j
    lost = [[0] * len(ends) for _ in ends]
    for j, end in enumerate(ends):
        total = 0
        for i in range(j, -1, -1):
            total += sum((16 * end - 16 - size) * count for size, count in needs[ends[i]])
            lost[i][j] = total
    best = [lost[0][j] for j in range(len(ends))]
    found = [best[-1]]
    for _ in range(limit - 1):
        best = [min([best[j]] + [best[i - 1] + lost[i][j] for i in range(1, j + 1)]) for j in range(len(ends))]
        found.append(best[-1])
    return found


def bytes_of(counts):
    return sum(size * count for size, count in counts.items())


def number(text):
    return int(text.replace(",", ""))


def rows_of(summary):
    """The tables of a summary: by name, the classes, the waste and the saving in KiB."""
    found = {}
    for line in summary.splitlines():
        if match := re.fullmatch(r"(.*?) +(\d+)  +([0-9,]+)  +\S+%(?:  +(-?[0-9,.]+) KiB  +\S+%)?", line):
            found[match[1]] = int(match[2]), number(match[3]), match[4] and float(match[4].replace(",", ""))
    return found


class Numbers(html.parser.HTMLParser):
    """The numbers of a page: each data-value, under the row that it is in and its name."""

    def __init__(self, text):
        super().__init__()
        self.found, self.tags, self.row, self.links, self.words = {}, set(), "", [], []
        self.feed(text)

    def handle_starttag(self, tag, attributes):
        given = dict(attributes)
        self.tags.add(tag)
        self.links += [value for name, value in attributes if name in ("src", "href", "srcset", "data", "action", "xlink:href")]
        if tag == "tr":
            self.row = "".join(f"{name[5:]} {value} " for name, value in attributes if name.startswith("data-"))
        if "data-value" in given:
            self.found[(self.row if tag == "td" else "") + (given.get("data-name") or given["id"])] = int(given["data-value"])
        if given.get("id") == "proof":
            self.proved = given["data-proved"], given["data-verdict"]

    def handle_data(self, data):
        self.words.append(data)


def history_of(text):
    """The counts of a history by size, without its large blocks."""
    first, *lines = text.splitlines()
    rows = {size: [int(each) for each in counts] for size, *counts in map(str.split, lines)}
    expect("a history: the length of a line", all(len(counts) == int(first.split()[1]) for counts in rows.values()))
    rows.pop("large", None)
    return {int(size): counts for size, counts in rows.items()}


def least_footprint(history, limit):
    """The least footprint of at most LIMIT classes, by trying each class after each other."""
    needs = {}
    for size, counts in history.items():
        need = -(-size // 16) + 1
        needs[need] = [one + other for one, other in zip(needs.get(need, [0] * len(counts)), counts)]
    ends = sorted(needs)
    best = [0] + [float("inf")] * len(ends)
    for _ in range(limit):
        found = list(best)
        for i in range(len(ends)):
            total = [0] * len(needs[ends[0]])
            for j in range(i, len(ends)):
                total = [one + other for one, other in zip(total, needs[ends[j]])]
                found[j + 1] = min(found[j + 1], best[i] + 16 * ends[j] * max(total))
        best = found
    return best[-1]


def history_of_timeline(text):
    """The counts of a timeline by size, without its large blocks, at those moments after which a block is freed, and at the last one."""
    first, *events = text.splitlines()
    expect(f"a timeline begins with {first}", first == "timeline")
    now, columns = {}, {}
    for event, follows in zip(events, [*events[1:], "-"]):
        if not event.endswith("large"):
            size = int(event)
            now[abs(size)] = now.get(abs(size), 0) + (1 if size > 0 or event == "0" else -1)
        if follows.startswith("-") and not event.startswith("-"):
            columns[tuple(sorted(each for each in now.items() if each[1]))] = None
    columns = list(map(dict, columns))
    return {size: [column.get(size, 0) for column in columns] for size in sorted(now)}


def compare_page(text, counts, large, classes, name, limit=32, step=1, forced=True, fitted=None, history=None):
    """The numbers of a page with those computed here. With a fitted table, that is the first."""
    page = Numbers(text)
    got = page.found
    first, wanted = numbers_of_page(large, limit, counts, fitted, classes, history, forced, step)
    for key, value in wanted.items():
        expect(f"{name}: {key} is {got.get(key)}, not {value}", got.get(key) == value)
    expect(f"{name}: other numbers: {sorted(got.keys() ^ wanted.keys())[:5]}", got.keys() == wanted.keys())
    if fitted:
        compare_layers(text, [wanted[f"block {16 * each} taken"] for each in first], first, name)
    elsewhere = [link for link in page.links if link != "page.html"]  # which is beside it
    elsewhere += [tag for tag in page.tags if tag in ("script", "link", "iframe", "object", "embed", "base")]
    elsewhere += re.findall(r"url\([^#].*|@import.*", text)
    expect(f"{name}: it takes something from elsewhere: {elsewhere}", not elsewhere)
    return page


def numbers_of_page(large, limit, counts, fitted, classes, history, forced, step):
    """What a page has to show, and the fitted or the tuned table, which is first."""
    wanted = {"requests": sum(counts.values()), "bytes": bytes_of(counts), "large": large, "limit": limit}
    first, *rest = [fitted, classes] if fitted else [classes]
    for at, table in enumerate([*rest, table_of(DEFAULT), table_of(ANDROID)]):
        wanted[f"table other-{at} saving"] = waste(table, counts) - waste(first, counts)
        if fitted:
            wanted[f"table other-{at} saved"] = footprint(table, history) - footprint(first, history)
    for row, table in enumerate([first, *rest, table_of(DEFAULT), table_of(ANDROID)], -1):
        row = "first" if row < 0 else f"other-{row}"
        wanted[f"table {row} classes"], wanted[f"table {row} waste"] = len(table), waste(table, counts)
        if fitted:
            wanted[f"table {row} footprint"] = footprint(table, history)
    if fitted:
        with_block = {**history, LARGEST_SIZE: history.get(LARGEST_SIZE, [1] * len(history[min(history)]))} if forced else history
        more = footprint([1024], with_block) - footprint([1024], history)
        least = [least_footprint(with_block, number) - more for number in range(1, 33)]
    else:
        least = least_waste({**counts, LARGEST_SIZE: 1} if forced else counts, 32, step)
    for number_, each in enumerate(least, 1):
        wanted[f"classes {number_} lowest"] = each
    below = -1
    for each in first:
        if fitted:
            served = [blocks for size, blocks in history.items() if below < size <= 16 * each - 16]
            most = max(map(sum, zip(*served)), default=0)
            wanted[f"block {16 * each} blocks"], wanted[f"block {16 * each} taken"] = most, 16 * each * most
        else:
            served = {size: count for size, count in counts.items() if below < size <= 16 * each - 16}
            wanted[f"block {16 * each} requests"] = sum(served.values())
            wanted[f"block {16 * each} lost"] = waste([each], served)
        below = 16 * each - 16
    return first, wanted


def compare_layers(text, taken, classes, name):
    """What the picture of the live blocks says of its layers: five classes that take most, and all others. No layer is above the footprint,
    nor below the axis, and each is as wide as the run."""
    order = sorted((-bytes_, 16 * each) for each, bytes_ in zip(classes, taken) if bytes_)
    wanted = sorted((f"blocks of {block:,} bytes", -bytes_) for bytes_, block in order[:5])
    if order[5:]:
        wanted.append((f"{len(order) - 5} other class{'es' * (len(order) > 6)}", -sum(bytes_ for bytes_, _ in order[5:])))
    pictures = re.findall(r'<svg [^>]*aria-label="The bytes of the live blocks[^>]*>.*?</svg>', text, re.S)
    expect(f"{name}: {len(pictures)} pictures of the live blocks", len(pictures) == 2)
    for picture in pictures:
        found = re.findall(r'd="M(\S+) ([0-9.]+)(H[^"]*)Z"><title>(.*?): at most ([0-9,]+) bytes?</title>', picture)
        said = sorted((words, number(most)) for _, _, _, words, most in found)
        expect(f"{name}: the layers {said}, and not {sorted(wanted)}", said == sorted(wanted))
        level = float(re.search(r'class="level" d="M\S+ (\S+)H', picture)[1])
        said = number(re.search(r"<title>footprint: ([0-9,]+) bytes?</title>", picture)[1])
        expect(f"{name}: the level is of {said}, and not of {sum(taken)} bytes", said == sum(taken))
        axis = float(re.search(r'class="axis" d="M\S+ (\S+)H', picture)[1])
        right = float(re.search(r'class="level" d="\S+ \S+H(\S+?)"', picture)[1])
        for left, bottom, path, words, _ in found:
            heights = [float(y) for y in re.findall(r"V([0-9.]+)", path)]
            widths = [float(x) for x in re.findall(r"H([0-9.]+)", path)]
            good = level - 0.1 <= min(heights) and max(*heights, float(bottom)) <= axis
            good = good and float(left) <= min(widths) and max(widths) == right
            expect(f"{name}: the layer of {words} is drawn elsewhere: {min(heights)} to {max(heights)}, {level}, {axis}", good)


@pytest.fixture(autouse=True)
def place(monkeypatch):
    """Each test has a folder and a cache of its own, and the built program."""
    checks.built_program()
    monkeypatch.delenv("MTE_TOOL", raising=False)
    with tempfile.TemporaryDirectory() as folder:
        monkeypatch.setenv("XDG_CACHE_HOME", os.path.join(folder, "cache"))
        yield folder


def test_scudo_memory():
    """Numbers worked by hand from the constants of LLVM 19's Scudo: a thread takes min(14, 1024 / block) blocks at once, at least one; eight times
    as many are cut at once; 256 KiB are mapped at once, or as many times that as hold the blocks that a thread takes."""
    for block, wanted in ((32, 14), (73, 14), (80, 12), (96, 10), (128, 8), (512, 2), (1024, 1), (16400, 1)):
        expect(f"a thread takes {scudo_memory.cached_blocks(block)} blocks of {block} bytes",
               scudo_memory.cached_blocks(block) == wanted)
    # 51 blocks of 5,120 bytes have room in 256 KiB: six sets of 8, and one of 3. Of 48 bytes 5,461 have: 48 sets of 112, and one of 85, as 14 of
    # them still have room
    for (block, blocks), wanted in (
        ((64, 1), (0, 112)), ((64, 112), (0, 112)), ((64, 113), (112, 112)), ((16384, 17), (16, 8)), ((5120, 49), (48, 3)), ((5120, 52), (51, 8)),
        ((48, 5376), (5264, 112)), ((48, 5377), (5376, 85)), ((48, 5462), (5461, 112)), ((128, 0), (0, 0)),
    ):
        got = scudo_memory.cut(block, blocks)
        expect(f"of {block} bytes, {blocks} blocks: cut are {got}, and not {wanted}", got == wanted)
    for block in (32, 1040, 16400):
        before, last = scudo_memory.cut(block, 10**9)
        expect(f"of {block} bytes, a billion blocks: {before}, {last}", before < 10**9 <= before + last and 0 < last <= 112)
    # 112 blocks of 64 bytes: 64 of them in the first page, 48 in the second. Of two drawn, both are in the first in 2,016 of 6,216 cases, and
    # in the second in 1,128. Four of eight blocks of 1,024 bytes are those of one page in 1 of 70
    for (block, blocks), wanted in (((64, 0), 0), ((64, 1), 1), ((64, 2), 2 - (2016 + 1128) / 6216), ((64, 112), 2),
                                    ((4096, 3), 3), ((16384, 9), 36), ((1024, 8), 2), ((1024, 12), 4 - 2 / 70),
                                    ((5120, 50), 60 + 2 / 3 + 1 + 1 + 2 / 3)):
        got = scudo_memory.pages(block, blocks)
        expect(f"of {block} bytes, {blocks} blocks: {got} pages, and not {wanted}", abs(got - wanted) < 1e-9)
    # the group of a class begins two batches of 128 bytes, of which 64 are cut, 32 in a page; 868 free blocks fill 62 more
    for freed, pages in ((0, 2 + 2 - 2 * 496 / 2016), (868, 2 + 2), (869, 2 + 3)):
        got = scudo_memory.bytes_taken([2, 4], [0, 112], freed)
        expect(f"with {freed} free blocks it takes {got} bytes, and not {4096 * pages}", got == round(4096 * pages))
    expect("nothing takes no memory", scudo_memory.bytes_taken([2, 4], [0, 0], 0) == 0)
    # two groups of 2 MiB: 512 pages of 4,096 bytes fill the first, and eight blocks more are cut then. Four batches
    pages = 512 + 1 + 2 - 2 * 35960 / 635376
    expect("the lists of two groups", scudo_memory.bytes_taken([256], [513], 0) == round(4096 * pages))


def random_timelines(chance):
    """Timelines by chance: the events of each as words, and its text."""
    for _ in range(200):
        events, live = [], []
        for _ in range(chance.randint(1, 60)):
            if live and chance.random() < 0.45:
                events.append("-" + live.pop(chance.randrange(len(live))))
            else:
                live.append("large" if chance.random() < 0.05 else str(chance.choice([chance.randint(0, 700), LARGEST_SIZE])))
                events.append(live[-1])
        yield events, ("timeline\n" + "\n".join(events) + "\n" * chance.randint(0, 1)).encode()


def test_heights():
    """The most blocks of each class in each part of a timeline, by the definition; the most of a part and of another are that of both."""
    chance = random.Random(5)
    for turn, (events, text) in enumerate(random_timelines(chance)):
        classes = sorted(chance.sample(range(2, 40), chance.randint(1, 6)))
        now, counts = [0] * len(classes), []
        for event in events:
            size = event.removeprefix("-")
            serving = [at for at, each in enumerate(classes) if size != "large" and 16 * each - 16 >= int(size)]
            if serving:
                now[serving[0]] += -1 if event.startswith("-") else 1
            counts.append(list(now))
        for parts in (1, 2, 7, 100):
            got, whole = timelines.heights(text, classes, parts), min(parts, len(events))
            ends = [len(events) * part // whole for part in range(whole + 1)]
            pieces = [[counts[begin - 1] if begin else [0] * len(classes), *counts[begin:end]] for begin, end in zip(ends, ends[1:])]
            wanted = [[max(column) for column in zip(*part)] for part in pieces]
            expect(f"heights {turn} in {parts} parts: {got}, and not {wanted}", got == wanted)


def test_moments():
    """The live blocks at moments, the most that amounts of them come to and when first, and all requests, by the definition."""
    chance = random.Random(6)
    for turn, (events, text) in enumerate(random_timelines(chance)):
        live, at = collections.Counter(), [{}]
        for event in events:
            live[event.removeprefix("-")] += -1 if event.startswith("-") else 1
            at.append({size if size == "large" else int(size): count for size, count in live.items() if count})
        moments = sorted(chance.sample(range(len(at)), min(len(at), 5)))
        wanted = [at[moment] for moment in moments if at[moment]]
        got = timelines.history_at(text, moments)
        seen = [{size: row[place] for size, row in got.counts.items() if row[place]} for place in range(got.snapshots)]
        expect(f"moments {turn}: {seen}, and not {wanted}", seen == wanted)
        sums = [sum(count * (size % 97 - 20) for size, count in each.items() if size != "large") for each in at]
        most = timelines.peak_of(text, lambda size: size % 97 - 20)
        expect(f"most {turn}: {most}, and not {max(sums)}", most == (max(sums), sums.index(max(sums))))
        wanted = collections.Counter(event if event == "large" else int(event) for event in events if not event.startswith("-"))
        expect(f"requests {turn}", timelines.requests_of(text) == wanted, timelines.requests_of(text), wanted)
    for line in ("", "1 ", "16369", "larg", "-", "large1", "1large", "--1", "99999999999"):
        try:
            taken = timelines.parse_events(f"timeline\n{line}\n2\n".encode())
        except ValueError:
            taken = None
        expect(f"the line '{line}' is no event", taken is None, taken)


def most_and_freed(text, classes):
    """The most live blocks of each class, and the most freed ones of all: a class keeps as many blocks as it ever had at once."""
    now, most, freed = [0] * len(classes), [0] * len(classes), 0
    for event in text.splitlines()[1:]:
        size = event.removeprefix("-")
        if size != "large":
            place = min(at for at, each in enumerate(classes) if 16 * each - 16 >= int(size))
            now[place] += -1 if event.startswith("-") else 1
        most = list(map(max, most, now))
        freed = max(freed, sum(most) - sum(now))
    return most, freed


def table_of(words):
    return [int(word) for word in words.split()]


def tuned_table(folder):
    return table_of(read(folder, "tuned.sheet").split("\n")[0].removeprefix("classes"))


def check_claims(folder, file, cost, limit=32, largest=True):
    """The summary, the page and the folder each have the claim on this file, with its digest. (scripts/tests/test_claims.py compares such sentences with all
    tables.)"""
    with open(os.path.join(folder, file), "rb") as counted:
        digest = hashlib.sha256(counted.read()).hexdigest()
    wanted = str(limit), "16", "1024" if largest else None, f"{cost:,}"
    for name in ("summary.txt", "report.html", "claims.txt"):
        text = " ".join(html_text(re.sub(r"<[^>]*>", "", read(folder, name))).split())
        found = [match for match in claims_cases.CLAIM.finditer(text) if match[3].endswith(f'{file}" (SHA-256 {digest[:16]})')]
        told = [(match[1], match[2], match[4], match[claims_cases.COST]) for match in found]
        expect(f"{folder}: {name} claims {told}, and not {wanted}, of {file}", told == [wanted])
        expect(f"{folder}: {name} has the whole digest", name == "summary.txt" or digest in text)


def checks_again(name, command, place):
    """A command that checks a certificate says what it shows."""
    done = subprocess.run(["bash", "-c", html_text(command)], cwd=place, capture_output=True)
    told = done.stdout.decode().splitlines()
    expect(f"{name}: its command to check is {command}", "check_sheet" in command and " | mte_tool" not in command)
    expect(f"{name}: its command to check says {done.stdout} {done.stderr}", done.returncode == 0 and told and told[-1].startswith(f"{checks.OPTIMAL}: of the tables "))


def map_of(folder):
    """The tuned classes of its map: Scudo's own follow them."""
    words = re.search(r"Granules\[\] = \{(.*?)\}", read(folder, "tuned_map.inc"), re.S)[1].split(",")
    return [int(word) for word in words if int(word) < 1024]


def compare_fit(folder, name, history, limit=32, largest=True, is_map=True):
    """Its fit with the least footprint as computed here: its table. The history is of a timeline where the folder has one."""
    # a block more at each moment that class 1024 alone serves, which takes as much in each table with that class
    more = {**history, LARGEST_SIZE: history.get(LARGEST_SIZE, [1] * len(next(iter(history.values()))))} if largest else history
    least = least_footprint(more, limit) - footprint([1024], more) + footprint([1024], history)
    fit, begins = read(folder, "fitted.fit").split("\n"), [f"limit {limit}", *["forced 1024"] * largest, f"footprint {least}"]
    expect(f"{name}: its fit is {fit[:4]}, and the least footprint {least}", fit[1 : 1 + len(begins)] == begins)
    table = table_of(fit[0].removeprefix("classes"))
    expect(f"{name}: the table of the fit has not the least footprint", footprint(table, history) == least)
    page = Numbers(read(folder, "report.html"))
    expect(f"{name}: the page has not the table of the fit", "classes " + " ".join(map(str, table)) in page.words)
    check = re.search(rf'<pre id="check{"" if is_map else "-other"}">(.*?)</pre>', read(folder, "report.html"))[1]
    checks_again(name, check, ROOT if os.path.isabs(folder) and folder in html_text(check) else os.path.dirname(folder))
    return table


def test_history(place):
    """A history from a file: its peak is the profile, and the map is of the fitted table."""
    source = os.path.join(EXAMPLES, "sqlite_large.history")
    history = history_of(read(source))
    at = max(range(len(history[16])), key=lambda at: sum(size * counts[at] for size, counts in history.items()))
    counts = {size: counts[at] for size, counts in history.items() if counts[at]}
    for words, limit, largest in (([], 32, True), (["--limit", "7", "--no-largest"], 7, False)):
        folder = os.path.join(place, f"history {limit}")
        given = read(source).encode() if largest else b""
        status, out, error = run("tune_program", *words, "--output", folder, "--read", "-" if largest else source, given=given)
        expect(f"a history: {status}: {error}", status == 0 and re.match(r"\S+, predicted \(a run with --verify SCUDO measures it\): least footprint, ", " ".join(out.split())), out)
        whole(folder, "a history", TIMED)
        expect("a history: program.history is another one", read(folder, "program.history") == read(source))
        expect("a history: the profile is not its peak", counts_of(read(folder, "program.profile"))[0] == counts)
        fitted = compare_fit(folder, "a history", history, limit, largest)
        expect("a history: the map is not of the fitted table", map_of(folder) == [each for each in fitted if each < 1024])
        check_claims(folder, "program.history", footprint(fitted, history), limit, largest)
        if largest:
            compare_page(read(folder, "report.html"), counts, 1, tuned_table(folder), "a history", fitted=fitted, history=history)
    status, out, error = run("tune_program", "--objective", "waste", "--read", source, cwd=place)
    folder = os.path.join(place, "sqlite_large.tuned")
    expect(f"a history, --objective waste: {status}: {error}", status == 0 and map_of(folder) == tuned_table(folder)[:-1])
    compare_fit(folder, "a history, --objective waste", history, is_map=False)
    refuses(2, "this has the live blocks", "tune_program", "--all", "--output", "no", "--read", source, cwd=place)
    refuses(2, "line 2 has not 2 counts", "tune_program", "--output", "no", "--read", "-", given=b"snapshots 2\n16 1\n",
            cwd=place)
    refuses(3, "nothing to tune", "tune_program", "--output", "large", "--read", "-", given=b"snapshots 1\nlarge 7\n", cwd=place)
    expect("a refused history leaves a folder", not os.path.exists(os.path.join(place, "no")))


def whole(folder, name, files=FILES):
    """All files are there, and the program itself says of the sheet that its table is a best one."""
    there = sorted(os.listdir(folder))
    links = re.findall(r'href="([^"]*)"', read(folder, "report.html"))
    if "page.html" in there:
        there.remove("page.html")
        page = json.loads(re.search(r'id="data"[^>]*>(.*?)</script>', read(folder, "page.html"), re.S)[1])["given"]
        given = page["profile"]["text"]
        timed = "moments.history" if "moments.history" in there else "program.history"
        first = " ".join(read(folder, "summary.txt").split("\nTable")[0].split())
        kind = timed if "least footprint" in first else "program.profile"
        limit = certificate_texts.parse_sheet(read(folder, "tuned.sheet")).limit
        expect(f"{name}: page.html begins with {page['options']}, and not with a limit of {limit}", page["options"]["limit"] == limit)
        expect(f"{name}: page.html has not what was counted, or {links} are linked", links == ["page.html"] and given == read(folder, kind))
    else:
        expect(f"{name}: there is no page.html, or {links} are linked", not web_page.at_hand() and not links)
    expect(f"{name}: the files are {there}", there == files)
    given = read(folder, "tuned.sheet") + read(folder, "program.profile")
    done = subprocess.run([BUILT, "check"], input=given.encode(), capture_output=True)
    expect(f"{name}: check of its sheet says {done.stdout} {done.stderr}", done.stdout == b"optimal\n")


def test_read(place):
    """A profile from a file: each number of summary and page."""
    for name in ("perl", "sqlite", "jq"):
        source = os.path.join(EXAMPLES, f"{name}.profile")
        status, out, error = run("tune_program", "--read", source, cwd=place)
        folder = os.path.join(place, f"{name}.tuned")
        expect(f"{name}: the status is {status}: {error}", status == 0 and not error)
        whole(folder, name)
        expect(f"{name}: program.profile is another one", read(folder, "program.profile") == read(source))
        counts, large = counts_of(read(source))
        expect(f"{name}: summary.txt is not what was printed", read(folder, "summary.txt") == out)
        lines = out.splitlines()
        widest = max(map(len, lines))
        expect(f"{name}: the summary has {len(lines)} lines, the longest of {widest}", len(lines) <= 24 and widest <= 80)
        expect(f"{name}: what was counted", f"{sum(counts.values()):,} requests of {bytes_of(counts):,} bytes" in out)
        expect(f"{name}: large requests", f" {large:,} large request" in out)
        expect(f"{name}: it does not say what is proved of the table", f"{checks.PROVED}: `check` says `optimal`" in " ".join(out.split()))
        best = least_waste({**counts, LARGEST_SIZE: 1}, 32)[31]
        check_claims(folder, "program.profile", best)
        first = f"{name}, predicted (a run with --verify SCUDO measures it): least waste, "
        expect(f"{name}: the summary begins with {lines[0]}", " ".join(out.split()).startswith(first))
        compares_tables(best, folder, counts, out, name)
        page = compare_page(read(folder, "report.html"), counts, large, tuned_table(folder), f"{name}: report.html")
        expect(f"{name}: report.html says of the proof {page.proved}", page.proved == ("1", "optimal"))
        expect(f"{name}: waste.svg", xml.dom.minidom.parse(os.path.join(folder, "waste.svg")).documentElement.tagName == "svg")
        granules = ", ".join(str(each) for each in tuned_table(folder) if each < 1024)
        expect(f"{name}: tuned_map.inc has another table", granules in " ".join(read(folder, "tuned_map.inc").split()))

    # a folder that is there stays as it is
    before = {file: read(folder, file) for file in os.listdir(folder)}
    refuses(3, "jq.tuned is there already", "tune_program", "--output", "jq.tuned", "--read", source, "--limit", "4", cwd=place)
    refuses(3, "--output", "tune_program", "--output", folder, "--read", os.path.join(EXAMPLES, "perl.profile"),
            cwd=place)
    after = {file: read(folder, file) for file in os.listdir(folder)}
    expect("a folder that was there is another one now", before == after)


def compares_tables(best, folder, counts, out, name):
    """The summary's tables, with their classes, wastes and savings."""
    wanted = {"least waste": (len(tuned_table(folder)), best, None)}
    for table, words in (("Scudo's default", DEFAULT), ("Scudo's for Android", ANDROID)):
        lost = waste(table_of(words), counts)
        wanted[table] = (len(table_of(words)), lost, (lost - best) / 1024)
    got = rows_of(out)
    expect(f"{name}: the tables are {list(got)}", got.keys() == wanted.keys())
    for table, (classes, lost, saving) in wanted.items():
        row = got.get(table, (None, None, None))
        expect(f"{name}: {table} is {row}, not {classes}, {lost}", row[:2] == (classes, lost))
        near = row[2] is None if saving is None else row[2] is not None and abs(row[2] - saving) <= 0.5
        expect(f"{name}: {table} saves {row[2]} KiB, not {saving}", near)


def test_asked_once(place):
    """The program runs once for the same words and bytes, and at most six times over a timeline."""
    fake, given = os.path.join(place, "fake"), os.path.join(place, "given")
    write(f'#!/bin/sh\ncat > {given}; echo "$(wc -c < {given}) $* $(md5sum < {given})" >> asked; exec {BUILT} "$@" < {given}\n', fake, mode=0o755)
    text = "timeline\n" + "".join(f"{size}\n" * 900 for size in (40, 100, 3000, -100, 5000))
    works("what is asked", "tune_program", "--output", "made", "--read", "-", given=text.encode(), cwd=place, env={**os.environ, "MTE_TOOL": fake})
    asked = read(place, "asked").splitlines()
    expect("something is asked twice", len(asked) == len(set(asked)) <= 14, *asked)
    expect("the timeline is read in other runs", sum(int(each.split()[0]) > len(text) for each in asked) in (4, 5), *asked)


def test_long_name(place):
    """The longest name that a file can have is that of the curve, and its label fits the picture."""
    name = "n" * 255
    shutil.copy(os.path.join(EXAMPLES, "perl.profile"), os.path.join(place, name))
    status, _, error = run("tune_program", "--output", "long", "--read", name, cwd=place)
    expect(f"a name of 255 bytes: the status is {status}: {error}", status == 0)
    picture = xml.dom.minidom.parse(os.path.join(place, "long", "waste.svg"))
    words = {kind: [each.firstChild.data for each in picture.getElementsByTagName(kind)] for kind in ("title", "text")}
    expect("a name of 255 bytes: the curve has another one", any(each.startswith(f"{name}, 32: ") for each in words["title"]))
    expect(f"a name of 255 bytes: the labels are {words['text']}", "n" * 58 + ".." in words["text"] and name not in words["text"])


def test_options(place):
    counts, large = counts_of(read(EXAMPLES, "perl.profile"))
    for limit, step, largest in ((8, 2, True), (5, 8, False), (1, 1, False), (32, 4, True)):
        folder = os.path.join(place, f"options {limit}")
        words = ["--limit", str(limit), "--step", str(step), "--largest" if largest else "--no-largest"]
        given = read(EXAMPLES, "perl.profile").encode()
        out, error = works(words, "tune_program", *words, "--output", folder, "--all", "--read", "-", given=given)
        whole(folder, words)
        table, taken = tuned_table(folder), {**counts, LARGEST_SIZE: 1} if largest else counts
        expect(f"{words}: the table is {table}", len(table) <= limit and all(each % step == 0 for each in table))
        expect(f"{words}: class 1024 is not kept", (table[-1] == 1024) or not largest)
        expect(f"{words}: the table does not waste least", waste(table, counts) == least_waste(taken, limit, step)[limit - 1])
        expect(f"{words}: it does not say that all requests count", "all requests" in out and "sums over time" in out)
        compare_page(read(folder, "report.html"), counts, large, table, words, limit, step, largest)

    # other tables: one that does not serve, and one that does, whose name is no markup
    write("classes 4 8 1024\n", place, "<b>&.classes")
    write("classes 2 10\n", place, "few")
    unserved = min(size for size in counts if size > 144)
    folder = os.path.join(place, "against")
    words = ["--against", "<b>&.classes", "--against", "few", "--output", folder, "--read", os.path.join(EXAMPLES, "perl.profile")]
    out, error = works("--against", "tune_program", *words, cwd=place)
    expect(f"--against: its waste: {rows_of(out)}", rows_of(out).get("<b>&", (0, 0))[:2] == (3, waste([4, 8, 1024], counts)))
    expect("--against: the table that does not serve", re.search(rf"^few +2  does not serve {unserved} bytes$", out, re.M))
    page = Numbers(read(folder, "report.html"))
    expect("--against: its waste in the page", page.found.get("table other-2 waste") == waste([4, 8, 1024], counts))
    expect("--against: the page", page.found.get("table other-3 unserved") == unserved and "<b>&" in page.words)

    # profiles in any order, merged, with counts of 0
    mixed = os.path.join(place, "mixed.profile")
    write("".join(f"{line}\n" for line in sorted(read(EXAMPLES, "perl.profile").splitlines(), reverse=True)) + "5000 0\n", mixed)
    out, error = works("a profile in another order", "tune_program", "--read", mixed, "--output", os.path.join(place, "mixed"))
    expect("a profile in another order: its counts", read(place, "mixed", "program.profile") == read(EXAMPLES, "perl.profile"))


def test_warnings(place):
    def told(name, text, *words):
        folder = os.path.join(place, f"warned {name}")
        out, error = works(name, "tune_program", *words, "--output", folder, "--read", "-", given=text.encode())
        expect(f"{name}: the summary has {len(out.splitlines())} lines", len(out.splitlines()) <= 24)
        return [line[2:] for line in out.splitlines() if line.startswith("! ")]

    expect("warnings of an ample profile", told("none", "1040 20000\nlarge 100\n") == [])
    expect("no warning of a small saving", any("saving" in line and "below 1 MiB" in line for line in told("small saving", "1008 5000\n")))
    expect("no warning of less than 1 MiB", any("Less than 1 MiB" in line for line in told("little", "1000 1048\n")))
    expect("not each of three warnings", len(told("three", "10 5\nlarge 20\n")) == 3)
    expect("a warning of less than 1 MiB, where all requests count", told("little of all", "1000 1048\n", "--all") == [])
    expect("no warning of few requests", any("Only 999 requests counted" in line for line in told("few", "16000 999\n")))
    warned = told("large", "1040 20000\nlarge 20001\n")
    expect(f"large requests: {warned}", len(warned) == 1 and "half of the requests and of the bytes" in warned[0])
    warned = told("large bytes", "1040 20000\nlarge 1271\n")
    expect(f"the bytes of large requests: {warned}", len(warned) == 1 and "half of the bytes are" in warned[0])


def test_refusals(place):
    perl = os.path.join(EXAMPLES, "perl.profile")
    write("classes 4 2\n", place, "bad.classes")
    for name in ("--limit", "--step", "--only", "--against", "--output", "--read", "--objective"):
        refuses(2, f"{name} takes a value", "tune_program", name, cwd=place)
    for words, reason in (([], "wants a program"), (["--wrong", "true"], "no option --wrong"),
                          (["--limit", "0", "true"], "1 to 32"), (["--limit", "33", "true"], "1 to 32"),
                          (["--limit", "8x", "true"], "1 to 32"), (["--step", "3", "true"], "1, 2, 4 or 8"),
                          (["--limit", "1", "true"], "--no-largest"),
                          (["--read", perl, "true"], "--read runs no program"),
                          (["--only", "x", "--read", perl], "--read runs no program"),
                          (["--against", "nowhere", "true"], "nowhere can't be read"),
                          (["--against", "bad.classes", "true"], "do not ascend"),
                          (["--objective", "both", "true"], "footprint or waste, and not both"),
                          (["--objective", "footprint", "--all", "true"], "wants a history"),
                          (["--objective", "footprint", "--read", perl], "wants a history"),
                          (["--read", "nowhere"], "nowhere can't be read"),
                          (["--read", os.path.join(EXAMPLES, "perl.trace")], "of a trace")):
        refuses(2, reason, "tune_program", *words, cwd=place)
    with open(os.path.join(place, "empty"), "w"):
        pass
    refuses(3, "empty", "tune_program", "--read", "empty", cwd=place)
    refuses(2, "more than the 67,108,864 bytes", "tune_program", "--read", "/dev/zero", cwd=place)  # it never ends
    refuses(3, "can't be made", "tune_program", "--read", perl, "--output", "/proc/no/such/place", cwd=place)
    expect(f"refused words leave a folder: {os.listdir(place)}", not any(name.endswith(".tuned") for name in os.listdir(place)))

    refuses_locked(place, perl)

    keeps_the_profile(place, perl)


def refuses_locked(place, perl):
    """Where the user may not write."""
    locked = os.path.join(place, "locked")
    os.mkdir(locked, 0o555)
    user = {"user": 65534} if os.geteuid() == 0 else {}
    if not user or subprocess.run(["test", "-x", BUILT], user=65534, cwd="/").returncode == 0:
        os.chmod(place, 0o755)
        refuses(3, "can't be made: Permission denied", "tune_program", "--read", perl, cwd=locked, **user)
    else:
        skip("since nobody can't run the program here: a folder that the user may not write")


def keeps_the_profile(place, perl):
    """What a step could not use stays in the folder."""
    refuses(3, "nothing to tune", "tune_program", "--read", "-", "--output", "only_large", given=b"large 7\n",
            cwd=place)
    expect("a profile that could not be tuned is lost", read(place, "only_large", "program.profile") == "large 7\n")
    fake = os.path.join(place, "fake")
    denying = f'[ "$1" = check ] || exec {BUILT} "$@"; echo refused 47 NotTight; exit 1'
    for name, answer, reason in (("failing", "exit 3", "there is no program to tune with"), ("denying", denying, "47 NotTight")):
        write(f"#!/bin/sh\n{answer}\n", fake, mode=0o755)
        status, out, error = run("tune_program", "--read", perl, "--output", name, cwd=place, env={**os.environ, "MTE_TOOL": fake})
        expect(f"{name}: {status}: {error}", status == 3 and reason in error and "Proved" not in out)
        kept = [read(place, name, "program.profile")] if os.path.exists(os.path.join(place, name)) else []
        expect(f"{name}: what stays", kept == [read(perl)] * (name == "denying"), *kept)
    limit = {"preexec_fn": lambda: resource.setrlimit(resource.RLIMIT_FSIZE, (4096, 4096))}
    refuses(3, "tuned.sheet can't be written: File too large", "tune_program", "--read", perl, "--output", "limited",
            cwd=place, **limit)
    left = sorted(os.listdir(os.path.join(place, "limited")))
    expect(f"a file that could not be written stays: {left}", left == ["program.profile"])
    if os.path.exists("/dev/full"):
        with open("/dev/full", "w") as full:
            words = [os.path.join(ROOT, "scripts/tune_program"), "--read", perl, "--output", "full"]
            done = subprocess.run(words, cwd=place, stdout=full, stderr=subprocess.PIPE)
        expect(f"a full output: {done}", done.returncode == 3 and b"No space left" in done.stderr)
        whole(os.path.join(place, "full"), "a full output")


def test_program(place):
    """A program is run: its words, its input, its output and its status are its own."""
    checks.need("cc", "a program that is run")
    write(JOB, place, "job.c")
    subprocess.run(["cc", "-O0", "job.c", "-o", "./job"], cwd=place, check=True)
    status, out, error = run("tune_program", "./job", "a b", "--all", given=b"one line\n", cwd=place)
    folder = os.path.join(place, "job.tuned")
    expect(f"a program: the status is {status}: {error}", status == 0)
    expect(f"a program: its input or its words: {error}", "read one line\n" in error and "word a b\nword --all\n" in error)
    whole(folder, "a program", RECORDED)
    counts, large = counts_of(read(folder, "program.profile"))
    expect(f"a program: live at the peak are {counts}", (counts.get(777), counts.get(1555), counts.get(40, 0)) == (3000, 2000, 0))
    expect("a program: it does not say what counts", "the blocks live at the peak" in out)
    history = history_of_timeline(read(folder, "program.timeline"))
    expect(f"a program: its timeline is {history}", max(history[777]) == 3000 and max(history[1555]) == 2000 and max(history[40]) == 1)
    compare_timed(folder, "a program", out, history, counts, large)
    events = len(read(folder, "program.timeline").splitlines()) - 1
    expect("a program: what was recorded", f"Recorded: each moment of the run, {events:,} events." in out)
    resident = re.search(r"^the process now +([0-9.,]+) KiB$", out, re.M)
    expect(f"a program: its resident set: {resident and resident[0]}", resident and 1000 < float(resident[1].replace(",", "")) < 20000)
    status, out, error = run("tune_program", "--objective", "waste", "--output", "waste", "./job", cwd=place)
    first = "job, predicted (--verify SCUDO measures it): least waste, "
    expect(f"--objective waste: {status}: {error}", status == 0 and " ".join(out.split()).startswith(first), out[:200])
    whole(os.path.join(place, "waste"), "--objective waste", RECORDED)
    expect("--objective waste: another map", map_of(os.path.join(place, "waste")) == tuned_table(os.path.join(place, "waste"))[:-1])
    try_timeline(place, folder, counts)
    status, out, error = run("tune_program", "--all", "--output", "all", "--", "./job", "fail", cwd=place)
    expect(f"a program that fails: {status}: {out}{error}", status == 1 and "ended with status 5" in " ".join(out.split()))
    whole(os.path.join(place, "all"), "a program that fails")
    counts, _ = counts_of(read(place, "all", "program.profile"))
    expect(f"--all: the counts are {counts}", (counts.get(777), counts.get(1555), counts.get(40)) == (3000, 2000, 7000))

    tunes_one_of_many(place)

    ends_with_a_signal(place)

    # nothing is left of what counted nothing
    refuses(3, "no program no_such_program", "tune_program", "no_such_program", cwd=place)
    expect("no program, but a folder", not os.path.exists(os.path.join(place, "no_such_program.tuned")))


def ends_with_a_signal(place):
    """An interrupt ends the program, and not the tuning; so does a SIGTERM for the script alone."""
    for name, send in (("interrupted", lambda child: os.killpg(child.pid, signal.SIGINT)), ("ended", lambda child: child.terminate())):
        words = [os.path.join(ROOT, "scripts/tune_program"), "--output", name, "./job", "wait"]
        streams = {"stdin": subprocess.DEVNULL, "stdout": subprocess.PIPE, "stderr": subprocess.PIPE}
        child = subprocess.Popen(words, cwd=place, start_new_session=True, **streams)
        while child.stderr.readline() not in (b"word wait\n", b""):
            pass
        time.sleep(0.2)
        send(child)
        out, error = child.communicate(timeout=120)
        expect(f"an {name} program: {child.returncode}: {error}", child.returncode == 1 and b"Proved" in out)
        whole(os.path.join(place, name), f"an {name} program", RECORDED)


def tunes_one_of_many(place):
    """Of a wrapper's processes, the one that --only names."""
    status, out, error = run("tune_program", "--only", "job", "--output", "only", "sh", "-c", "./job; true", cwd=place)
    counts, _ = counts_of(read(place, "only", "program.profile"))
    expect(f"--only: {status}: {error}", status == 0 and (counts.get(777), counts.get(1555)) == (3000, 2000))
    expect("--only: the summary and the page name it", out.startswith("job of sh, predicted (--verify SCUDO measures it): ") and "job of sh" in read(place, "only", "report.html"), out)
    script = os.path.join(place, "a script")
    write("#!/bin/sh\nexec ./job\n", script, mode=0o755)
    for name, words in (("job", ["sh", "-c", "exec ./job"]), ("a script", [script])):
        status, out, error = run("tune_program", "--output", f"of {name}", *words, cwd=place)
        is_named = out.startswith(f"{name}, predicted ") and f"<h1>Size classes for {name}</h1>" in read(place, f"of {name}", "report.html")
        expect(f"what runs in the place of {words} has its name: {error}", status == 0 and is_named, out[:200])
    status, out, error = run("tune_program", "--output", "wrapper", "sh", "-c", "./job; true", cwd=place)
    expect(f"a wrapper, whose input is a pipe: {status}: {error}", status == 3 and "take --only job" in error)


def compare_timed(folder, name, out, history, counts, large):
    """The footprints of a summary and a page with those computed here."""
    fitted = compare_fit(folder, name, history)
    default, least = footprint(table_of(DEFAULT), history), footprint(fitted, history)
    expect(f"{name}: the map is not of the table of least footprint", map_of(folder) == fitted[:-1])
    shown = re.search(r"^Scudo's default +([0-9,.]+) KiB +(-?[0-9,.]+) KiB", out, re.M)
    near = [abs(float(text.replace(",", "")) - bytes_ / 1024) <= 0.5 for text, bytes_ in zip(shown.groups(), (default, default - least))]
    first = " ".join((out.split("\n\n")[0] if "\n\n" in out else " ".join(out.splitlines()[:3])).split())
    shares = re.search(r"KiB (less|more) than Scudo's default, (-?[0-9.]+ to )?[0-9.]+% of the process", first)
    expect(f"{name}: its first line is no share of the process: {first}", bool(shares) or "the process now" not in out)
    expect(f"{name}: the footprints in its summary: {shown and shown[0]}, and not {default}, {least}", all(near))
    expect(f"{name}: it does not say that the table is proved", f"{checks.PROVED}: `check-fit` says `optimal`" in " ".join(out.split()))
    compare_page(read(folder, "report.html"), counts, large, tuned_table(folder), name, fitted=fitted, history=history)
    # the range: what is live at once of each table, at a moment, and the footprints
    live = [most_live(table, history) for table in (table_of(DEFAULT), fitted)]
    moved = r"(falls|rises) by ([0-9,.]+) KiB where it gives"
    said = html.unescape(read(folder, "report.html"))  # the summary has it too where there is room
    words = re.search(rf"{moved} nothing back, .{{0,40}} and {moved} back each", " ".join(said.split()))
    timeline = read(folder, "program.timeline")
    scudo = [scudo_memory.bytes_taken(table, *most_and_freed(timeline, table)) for table in (table_of(DEFAULT), fitted)]
    near = [abs(float(text.replace(",", "")) - bytes_ / 1024) <= 0.5 for text, bytes_ in zip(words.groups()[1::2], (abs(scudo[0] - scudo[1]), abs(live[0] - live[1])))]
    near += [is_less == (way == "falls") for way, is_less in zip(words.groups()[::2], (scudo[0] >= scudo[1], live[0] >= live[1]))]
    expect(f"{name}: it predicts {words and words[0]}, and not {scudo}, {live}", all(near))


def most_live(classes, history):
    """The most bytes of the blocks that are live at one moment."""
    rows = [[16 * min(each for each in classes if 16 * each - 16 >= size) * count for count in counts] for size, counts in history.items()]
    return max(map(sum, zip(*rows)))


def try_timeline(place, recorded, counts):
    """A timeline from a file, and from standard input; its faults; a fit that finds no certificate."""
    source = os.path.join(recorded, "program.timeline")
    given = read(source).encode()
    for words, more in ((["--read", source], {}), (["--read", "-"], {"given": given})):
        folder = os.path.join(place, f"timeline {len(more)}")
        status, out, error = run("tune_program", "--output", folder, *words, cwd=place, **more)
        expect(f"a timeline: {status}: {error}", status == 0 and "Recorded: each moment of the run" in out)
        whole(folder, "a timeline", RECORDED)
        expect("a timeline: program.timeline is another one", read(folder, "program.timeline") == read(source))
        expect("a timeline: the profile is not its peak", counts_of(read(folder, "program.profile"))[0] == counts)
        expect("a timeline: another fit", read(folder, "fitted.fit") == read(recorded, "fitted.fit"))
    # a table of 3 classes without class 1024: what the fit's moments are, and what it takes at any
    small = "timeline\n" + "".join(f"{size}\n" for size in (0, 24, 100, 24)) + "-24\n-100\nlarge\n300\n100\n-large\n0\n-0\n200\n-24\n"
    folder, history = os.path.join(place, "few"), history_of_timeline(small)
    out, error = works("a small timeline", "tune_program", "--limit", "3", "--no-largest", "--output", folder, "--read", "-", given=small.encode())
    fitted = compare_fit(folder, "a small timeline", history, 3, False)
    moments = history_of(read(folder, "moments.history"))
    expect(f"a small timeline: its moments are {moments}", footprint(fitted, moments) == footprint(fitted, history))
    check_claims(folder, "program.timeline", footprint(fitted, history), 3, False)
    for text, reason in ((b"timeline\n16\n-17\n", "38 NotLive line 3"), (b"timeline\n16\nx\n", "37 BadTimeline line 3: a line of the timeline is none of its four forms, `SIZE`, `-SIZE`, `large` and `-large`: x"), (b"timeline \n1\n", "standard input: ")):
        refuses(2, reason, "tune_program", "--output", "no", "--read", "-", given=text, cwd=place)
    refuses(3, "nothing to tune", "tune_program", "--output", "of large", "--read", "-", given=b"timeline\nlarge\n", cwd=place)
    refuses(2, "this has the live blocks", "tune_program", "--all", "--output", "no", "--read", source, cwd=place)
    expect("a refused timeline leaves a folder", not os.path.exists(os.path.join(place, "no")))
    # where `fit` ends with a bound
    fake = os.path.join(place, "bounded")
    bounded = "classes 2 60 1024\\nfootprint 5000000\\nnot shown least: no table takes less than 4000000\\n"
    write(f'#!/bin/sh\n[ "$1 $3" = "fit 3" ] || exec {BUILT} "$@"; cat > /dev/null; printf "{bounded}"; exit 1\n', fake, mode=0o755)
    folder = os.path.join(place, "bounded.tuned")
    words = ["tune_program", "--limit", "3", "--output", folder, "--read", "-"]
    status, out, error = run(*words, given=b"timeline\n" + 5000 * b"800\n", env={**os.environ, "MTE_TOOL": fake})
    expect(f"a fit without a certificate: {status}: {error}", status == 0 and "Nothing is proved" in out)
    check_claims(folder, "program.timeline", 4_000_000, 3)
    expect(f"a fit without a certificate: its map is {map_of(folder)}", map_of(folder) == [2, 60])


VERIFIED = r"""
#define _GNU_SOURCE
#include <stdio.h>
#include <stdlib.h>
#include <string.h>
#include <unistd.h>
int main(int words, char **word) {
  static void *kept[3000];
  long bytes = 0, room = 0;
  for (char **each = environ; *each; each++) room += strncmp(*each, "TAKES=", 6) ? strlen(*each) + 1 : 0;
  while (getchar() != EOF) bytes++;
  for (int i = 0; i < 3000; i++) kept[i] = malloc(1000);
  fprintf(fopen("seen", "a"), "%ld %d %ld\n", bytes, words, room);
  return words > 2 && getenv("TAKES");
}
"""


def test_verify(place):
    """--verify, over a compiler that makes a library of its own for Scudo's: how it is called, what runs, and what is printed of it."""
    checks.need("cc", "--verify")
    scudo, environment = scudo_stand_in.make(place, is_current=False)
    write(VERIFIED, place, "verified.c")
    subprocess.run(["cc", "-O0", "-w", "verified.c", "-o", "./verified"], cwd=place, check=True)
    how = {"cwd": place, "env": environment}
    refuses_to_verify(scudo, how, place)
    for words in ([], ["a", "b"]):
        folder = os.path.join(place, f"verified {len(words)}")
        status, out, error = run("tune_program", "--verify", scudo, "--output", os.path.basename(folder), "./verified", *words, given=b"some input", **how)
        expect(f"--verify: {status}: {error}", status == 0 and read(folder, "summary.txt") == out)
        says_verdict(out, words, folder, place, error)
    how["env"]["SCUDO_OPTIONS"] = "a=b"
    called = [line for line in read(place, "called").splitlines() if "wrappers_c.cpp" in line]
    refuses(2, "--settings goes with --verify", "tune_program", "--settings", "./verified", **how)
    status, out, error = run("tune_program", "--verify", scudo, "--settings", "--output", os.path.join(place, "set"), "./verified", **how)
    measures_settings(out, status, error)
    expect(f"--verify: the compiler is called as {called}", len(called) == 4 and all("wrappers_cpp" not in line and "fuchsia" not in line and f"-I{scudo}/include" in line for line in called))
    classes = [int(each) for each in re.search(r"Granules\[\] = \{(.*?)\}", read(place, "custom_scudo_config.h"), re.S)[1].split(",") if int(each) < 1024]
    expect(f"--verify: the tuned Scudo has the classes {classes}", classes == map_of(folder))
    status, out, error = run("tune_program", "--verify", scudo, "--output", "shell", "sh", "-c", "exec ./verified", **how)
    is_named = out.startswith("verified: measured, ") and os.path.exists(os.path.join(place, "shell", "libscudo_verified.so"))
    expect(f"--verify: what runs in the place of a shell has its name: {status}: {error}", status == 0 and is_named, out[:200])
    open(os.path.join(place, "broken"), "w").close()
    status, out, error = run("tune_program", "--verify", scudo, "--output", "no", "./verified", **how)
    expect(f"--verify, a failing compiler: {status}: {error}", status == 3 and "Scudo could not be built: x.cpp: error: broken" in error and "Measured" not in out)


def measures_settings(out, status, error):
    names = "as it is|given back at once|nothing given back|zero fill|a quarantine of 256 KiB|given back each 100 ms"
    found = re.finditer(rf"^({names}) +([\d,]+) +(?:[-+][\d.]+%)? +[\d.]+ +([\d,]+) ", out, re.M)
    rows = {row[1]: [number(row[2]), number(row[3])] for row in found}
    more = [one - other for one, other in zip(rows.get("zero fill", []), rows.get("as it is", []))]
    expect(f"--settings: {status}: {rows} {error}", status == 0 and len(rows) == 6 and len(more) == 2 and all(abs(each - 8192) < 600 for each in more))


def refuses_to_verify(scudo, how, place):
    """What --verify refuses before it runs anything."""
    refuses(2, "takes no custom_scudo_config.h", "tune_program", "--verify", scudo, "./verified", **how)
    refuses(2, "is not the folder compiler-rt/lib/scudo/standalone", "tune_program", "--verify", place, "./verified",
            **how)
    refuses(2, verification.FETCH, "tune_program", "--verify", place, "./verified", **how)
    commands = re.split(" && |; ", verification.FETCH)
    expect("--verify: where the sources come from stands in TUNING.md too", all(each in read(ROOT, "docs/TUNING.md") for each in commands), commands)
    write('#include "custom_scudo_config.h"\n', scudo, "allocator_config.h")
    for words in (["--read", "x"], ["--all", "./verified"], ["--only", "x", "./verified"]):
        refuses(2, "--verify runs the program itself", "tune_program", "--verify", scudo, *words, **how)
    refuses(3, "no compiler no_such", "tune_program", "--verify", scudo, "./verified", cwd=place,
            env={**os.environ, "CXX": "no_such"})
    expect("--verify: the program ran before it was refused", not os.path.exists(os.path.join(place, "seen")))


def says_verdict(out, words, folder, place, error):
    """What is printed and left of a run with --verify."""
    first, told = out.splitlines()[0], " ".join(out.split())
    peaks = {name: number(size) for name, size in re.findall(r"^(glibc, now|Scudo's default|least footprint) +([0-9,]+) ", out.split("Measured, 5 runs")[1].split("Predicted")[0], re.M)}
    expect(f"--verify: the peaks are {peaks}", len(peaks) == 3 and 3000 < peaks["glibc, now"] < 16000)
    for name, takes in (("Scudo's default", 40), ("least footprint", 16)):
        expect(f"--verify: the peaks are {peaks}", abs(peaks[name] - peaks["glibc, now"] - 1024 * takes) < 2000)
    cost, back = peaks["Scudo's default"] - peaks["glibc, now"], peaks["Scudo's default"] - peaks["least footprint"]
    if not words:
        share = f"{100 * back / peaks[DEFAULT_NAME]:.1f}% of the peak"
        expect(f"--verify: the first line is what is measured: {first}", first == f"verified: measured, the table saves {back:,} KiB in Scudo, {share}. Hardening"[: len(first)])
        paid = f"Hardening costs {cost:,} KiB, {100 * cost / peaks['glibc, now']:.1f}%; the table pays back {100 * back / cost:.0f}% of that"
        expect(f"--verify: {told}", paid in told and f"so that it costs {cost - back:,} KiB." in told)
        expect("--verify: processor time is in the verdict", re.search(r"Its processor time is [\d.]+ s now, [\d.]+ s in Scudo( \([-+]\d+%\))?, and", told), told)
    else:
        expect(f"--verify: {told}", "nothing follows for Scudo, with which it ended otherwise." in told)
    expect("--verify: it does not say what was predicted", told.count("Predicted of Scudo from each moment of the run, and not proved") == 1)
    expect("--verify: what is measured comes before what is predicted", told.index("Measured, 5 runs each") < told.index("What was recorded, and is predicted of it:"))
    expect("--verify: the library is left, with its header, and named where it is worth it",
           (f"LD_PRELOAD='{folder}/libscudo_verified.so' ./verified .." in told) == (not words) and os.path.exists(os.path.join(folder, "libscudo_verified.so")))
    expect("--verify: the header is the one that was compiled", read(folder, "custom_scudo_config.h") == read(place, "custom_scudo_config.h"))
    expect("--verify: what is compiled is said", error.count("compiling Scudo with") == 2 and "round 5 of 5: ./verified with glibc" in error)
    page = read(folder, "report.html")
    shown = html.unescape(re.search(r'</h1>\s*<p class="lead" id="verdict">(.*?)</p>', page)[1])
    expect(f"--verify: report.html has another verdict, or has it later: {shown}", told.startswith(shown))
    expect("--verify: report.html has no bar for each allocator",
           page.split('<h2>Each table')[0].count('<rect') == 2 * (3 + len(verdict.installed_allocators())))
    strange = [line for line in out.splitlines() if line.startswith("! With ")]
    expect(f"--verify: other statuses: {strange}", len(strange) == 2 * bool(words))
    seen = read(place, "seen").splitlines()
    os.remove(os.path.join(place, "seen"))
    runs, rooms = [line.rpartition(" ")[0] for line in seen], {line.split()[-1] for line in seen[1:]}
    expect(f"--verify: the runs are {seen}",
           runs == (1 + 5 * (3 + len(verdict.installed_allocators()))) * [f"10 {1 + len(words)}"])
    expect("--verify: the environment is as long in each run", len(rooms) == 1, *rooms)


def row(name, *peaks, strange=0):
    return verdict.Row(name, [int(each * 2**20) for each in peaks], [1.0], strange)


def evenly(name, low, high, strange=0):
    """Five runs, evenly spaced from one to the other."""
    return row(name, *(low + (high - low) * part / 4 for part in range(5)), strange=strange)


def test_verdicts():
    """What a verdict says of figures that are given."""
    now, default, tuned = evenly("glibc", 40, 42), evenly(verdict.DEFAULT, 50, 52), evenly("tuned", 43, 44)
    for name, rows, says in [
        ("three quarters are paid back", [now, default, tuned], "measured, the table saves 7,680 KiB in Scudo, 14.7% of the peak. Hardening costs 10,240 KiB, 24.4%; the table pays back 75% of that (38 to 122%), so that it costs 2,560 KiB."),
        ("all is paid back", [now, default, row("tuned", 38, 38, 39, 40, 41)], "so that it costs no memory."),
        ("more in one order of rows", [now, evenly("jemalloc", 1, 3), default, tuned], "the table pays back 75%"),
        ("no price", [now, evenly(verdict.DEFAULT, 39, 42), evenly("tuned", 40, 42)], "this table is not worth it: take Scudo as it is. Measured, it takes 512 KiB more in Scudo, 1.2% of the peak. Hardening has no price here that can be told from chance."),
        ("no price, and less", [now, evenly(verdict.DEFAULT, 39, 42), evenly("tuned", 30, 32)], "measured, the table saves 9,728 KiB in Scudo, 23.5% of the peak. Hardening has no price here"),
        ("no table helps", [now, default, evenly("tuned", 49, 52)], "this table is not worth it: take Scudo as it is. Measured, it saves 512 KiB in Scudo, 1.0% of the peak. Hardening costs 10,240 KiB, 24.4%. It takes"),
        ("too little to tell", [now, default, row("tuned", 49.5, 49.6, 49.8, 49.8, 49.9)], "the table pays back 12% of that (-32 to 42%)"),
        ("an odd run", [now, row(verdict.DEFAULT, 44.5, 51, 51, 51, 51), tuned], "the table pays back 75% of that, as the middle of runs that differ much"),
        ("it ended otherwise", [now, default, evenly("tuned", 43, 44, strange=1)], "nothing follows for Scudo, with which it ended otherwise. It takes 41,984 KiB with glibc, as now."),
        ("the time", [now, default._replace(times=[1.1]), tuned._replace(times=[1.25])], "Its processor time is 1.00 s now, 1.10 s in Scudo (+10%), and 1.25 s with the table (+25%)."),
    ]:
        said = verdict.verdict(rows, "tuned")
        expect(f"{name}: {said}", says in said)


def draw_peak(random_, middle, spread):
    """A peak as Linux counts it, in whole pages, of so many MiB."""
    return round(random_.gauss(middle, spread) * 256) / 256


def test_intervals():
    """How often a further run of simulated ones lies in the interval of five."""
    ratio = verdict.STUDENT / math.sqrt(1 + verdict.STUDENT**2 / 4)
    expect("95% of Student's t of four degrees", math.isclose(3 / 8 * ratio * (1 - ratio**2 / 12), 0.95 / 2, abs_tol=1e-8))
    expect("five equal runs", row("glibc", *[40] * 5).interval() == (40 * 2**20 - verdict.COUNTED, 40 * 2**20 + verdict.COUNTED))
    expect("no peak is below 0", evenly("glibc", 1, 9).interval()[0] == 0)
    random_, rounds, within, shares = random.Random(7), 20000, 0, 0
    for _ in range(rounds):
        middles = {"glibc": 40, verdict.DEFAULT: 50, "tuned": 45}
        rows = [row(name, *sorted(draw_peak(random_, middle, 0.3) for _ in range(5))) for name, middle in middles.items()]
        plain, default, tuned = further = [int(draw_peak(random_, middle, 0.3) * 2**20) for middle in (40, 50, 45)]
        within += sum(low <= peak <= high for peak, (low, high) in zip(further, (row_.interval() for row_ in rows)))
        low, high = verdict.Price(*rows).range()
        shares += low <= (default - tuned) / (default - plain) <= high
    expect("95 of 100 further runs lie in the interval", abs(within / (3 * rounds) - 0.95) < 0.004, within / (3 * rounds))
    expect("and at least as many shares", shares / rounds > 0.95, shares / rounds)


SHRINKS = """
#include <malloc.h>
#include <stdio.h>
#include <stdlib.h>
int main(void) {
  static const size_t sizes[] = {5000, 3000, 4000, 5000, 905, 5001, 905, 905, 20000, 16000, 12000, 7904, 0};
  char *block = NULL, *volatile kept = malloc(100);
  for (const size_t *size = sizes; *size; size++) {
    block = realloc(block, *size);
    for (size_t i = 0; i < *size; i++) block[i] = 1;
    if (malloc_usable_size(block) < *size) return 1;
  }
  free(block);
  free(realloc(malloc(16368), 12273));
  return !kept;
}
"""


def test_as_scudo(place):
    """What a realloc records with --as-scudo, and so under tune_program: nothing where Scudo leaves the block as it is."""
    write(SHRINKS, place, "shrinks.c")
    subprocess.run(["cc", "-O0", "shrinks.c", "-o", "./shrinks"], cwd=place, check=True)
    # 905 is 4,095 bytes less than 5,000, and 4,096 less than 5,001; 7,904 is 4,096 less than 12,000, and 12,273 is 4,095 less than 16,368
    wanted = "100 5000 -5000 5001 -5001 905 -905 large -large 7904 -7904 16368 -16368".split()
    status, out, error = run("profile_program", "--timeline", "--as-scudo", "./shrinks", cwd=place)
    expect(f"--as-scudo: {status}: {out.split()} {error}", status == 0 and out.split() == ["timeline", *wanted])
    status, out, error = run("profile_program", "--timeline", "./shrinks", cwd=place)
    expect(f"without --as-scudo: {status}: {out.split()}", status == 0 and len(out.split()) == 2 + 2 * 12 + 4)
    status, out, error = run("profile_program", "--live", "--as-scudo", "./shrinks", cwd=place)
    expect(f"--live --as-scudo: {status}: {out} {error}", status == 0 and out == "100 1\nlarge 1\n")
    status, out, error = run("tune_program", "./shrinks", cwd=place)
    found = read(place, "shrinks.tuned", "program.timeline").split()
    expect(f"tune_program: {status}: {found} {error}", status == 0 and found == ["timeline", *wanted])
    refuses(2, "--as-scudo goes with --live", "profile_program", "--as-scudo", "./shrinks", cwd=place)
    refuses(2, "--import reads a file, and --as-scudo is for a run", "profile_program", "--live", "--as-scudo",
            "--import", "x", cwd=place)


def test_unproved(place):
    checks.need("rustc", "the plain program")
    plain = checks.compiled_plain(place)
    folder = os.path.join(place, "unproved")
    words = ["--read", os.path.join(EXAMPLES, "jq.profile"), "--output", folder]
    status, out, error = run("tune_program", *words, env={**os.environ, "MTE_TOOL": plain})
    expect(f"the plain program: {status}: {error}", status == 0 and "nothing is proved" in error)
    expect(f"the plain program: it does not say that nothing is proved: {out}", "Nothing is proved" in out and "Proved" not in out)
    expect("the plain program: the page says that it is proved", Numbers(read(folder, "report.html")).proved == ("0", "optimal"))
    whole(folder, "the plain program")
    run("tune_program", *words[:2], "--output", os.path.join(place, "proved"))
    expect("the plain program: another sheet", read(folder, "tuned.sheet") == read(place, "proved", "tuned.sheet"))


def test_report(place):
    perl = os.path.join(EXAMPLES, "perl.profile")
    counts, large = counts_of(read(perl))
    sheet = os.path.join(place, "perl.sheet")
    with open(sheet, "wb") as file:
        subprocess.run([BUILT, "tune", "--limit", "12"], stdin=open(perl), stdout=file, check=True)
    table = table_of(read(sheet).split("\n")[0].removeprefix("classes"))
    status, out, error = run("report", perl, sheet)
    expect(f"report: the status is {status}: {error}", status == 0 and not error)
    page = compare_page(out, counts, large, table, "report", 12, 1, False)
    checks_again("report", re.search(r'<pre id="check">(.*?)</pre>', out)[1], ROOT)
    expect("report: the class line", "classes " + " ".join(map(str, table)) in page.words)

    names_with_dashes(place)

    # the same from a profile in another order, and a sheet with class 1024 forced; the command in the page checks these
    odd = os.path.join(place, "<i>odd'.profile")
    write("".join(f"{line}\n" for line in reversed(read(perl).splitlines())), odd)
    forced = os.path.join(place, "forced.sheet")
    with open(forced, "wb") as file:
        subprocess.run([BUILT, "tune", "--limit", "12", "--largest-class", "1"], input=read(perl).encode(), stdout=file, check=True)
    status, out, error = run("report", "--against", os.path.join(EXAMPLES, "scudo.classes"), "--", odd, forced)
    page = Numbers(out)
    expect(f"report of a forced sheet: {status}: {error}", status == 0)
    expect("report of a forced sheet: the waste of Scudo's table", page.found["table other-2 waste"] == waste(table_of(DEFAULT), counts))
    expect("report: a file name is markup", "Size classes for <i>odd'" in page.words and "i" not in page.tags)
    checks_again("report of a forced sheet", re.search(r'<pre id="check">(.*?)</pre>', out)[1], ROOT)

    reports_no_proof(place, counts, perl, sheet)


def reports_no_proof(place, counts, perl, sheet):
    """A sheet that shows nothing, one of another profile, no sheet, no words."""
    write(f"classes {DEFAULT}\nlimit 32\nwaste {waste(table_of(DEFAULT), counts)}\n", place, "loose.sheet")
    status, out, error = run("report", perl, os.path.join(place, "loose.sheet"))
    expect(f"report of a loose sheet: {status}: {error}", status == 1 and Numbers(out).proved == ("0", "refused 43 Shape"))
    # sheets that would be right over what the end of one joined to the counts makes of them
    places = {name: os.path.join(place, f"border.{name}") for name in ("sheet", "profile")}
    for cut, profile in ((FUSED_SHEET, FUSED_PROFILE), (LONG_SHEET + b"0 1000000000\n", b"33 1000\n1000 1000\n")):
        for name, data in (("sheet", cut), ("profile", profile)):
            with open(places[name], "wb") as file:
                file.write(data)
        if profile == FUSED_PROFILE:
            status, out, error = run("report", places["profile"], places["sheet"])
            expect(f"report of a sheet without its newline: {status}: {error}", status == 1 and Numbers(out).proved[1].startswith("refused "))
        else:
            refuses(2, "line 6 is no line of a sheet", "report", places["profile"], places["sheet"])
    refuses(2, "another profile", "report", "-", sheet, given=b"%d 1\n" % LARGEST_SIZE)
    refuses(2, "line 1 is of a profile", "report", perl, perl)
    refuses(2, "nowhere can't be read", "report", perl, "nowhere")
    refuses(2, "wants a profile and a sheet", "report", perl)
    refuses(2, "standard input is named twice", "report", "-", "-")
    refuses(2, "no option --wrong", "report", "--wrong", perl, sheet)
    refuses(3, "nothing to tune", "report", "-", sheet, given=b"large 1\n")


def names_with_dashes(place):
    """Names that no command takes for options."""
    folder = os.path.join(place, "dashes")
    os.mkdir(folder)
    for name in ("scripts", "examples"):
        os.symlink(os.path.join(ROOT, name), os.path.join(folder, name))
    status, out, error = run("tune_program", "--read=examples/jq.profile", "--output=-x", cwd=folder)
    expect(f"a folder -x: {status}: {error}", status == 0 and " ./-x/tuned_map.inc " in out)
    check = next(line for line in read(folder, "-x", "claims.txt").split("\n") if line.startswith("    "))
    checks_again("a folder -x", check, folder)


def html_text(text):
    return "".join(Numbers(text).words)


def test_browser(place):
    """The page as a browser has it."""
    browser = shutil.which("chromium") or shutil.which("chromium-browser") or shutil.which("google-chrome")
    if not browser:
        skip("without chromium: report.html in a browser")
        return
    folder = os.path.join(place, "browser")
    run("tune_program", "--read", os.path.join(EXAMPLES, "sqlite.profile"), "--output", folder)
    words = [browser, "--headless", "--disable-gpu", f"--user-data-dir={place}/chromium", "--timeout=20000", "--dump-dom"]
    words += ["--no-sandbox"] * (os.geteuid() == 0)
    done = subprocess.run([*words, f"file://{folder}/report.html"], capture_output=True, timeout=120)
    counts, large = counts_of(read(folder, "program.profile"))
    dom = done.stdout.decode()
    expect(f"the browser shows nothing: {done.stderr[-300:]}", "</html>" in dom)
    compare_page(dom, counts, large, tuned_table(folder), "in the browser")


def test_words():
    for script in ("tune_program", "report"):
        status, out, error = run(script, "--help")
        parts = [part for part in ("\nUsage: ", "\nExit status:\n", "\nExample:\n") if part not in out]
        expect(f"{script} --help: {error}, without {parts}", status == 0 and not error and not parts)
        expect(f"{script} --help: a line has more than 132 columns", max(map(len, out.splitlines())) <= 132)
