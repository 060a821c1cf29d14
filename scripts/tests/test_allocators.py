"""Tests of tune_allocator: each model against all tables of small records, played by what an allocator is; its sizes
against installed libraries; and the command over records and programs. Needs a program, the plain one where none is
built."""

import ctypes
import itertools
import os
import random
import re
import subprocess
import sys
from unittest import mock

import checks
import claims_cases
import commands
import pytest
from checks import expect
from mte_scripts.allocators import models, parts, records
from mte_scripts.allocators.models import MODELS
from mte_scripts.entry_point import Refusal
from mte_scripts.places import EXAMPLES, ROOT
from mte_scripts.tables import figures

TRIALS = 12  # of each model, and kind of record
JEMALLOC = MODELS["jemalloc"]
BLOCKS = r"""
#include <stdlib.h>
int main(int words, char **word) {
  for (int n = 0; n < 4000; n++) if (!malloc(1030)) return 1;
  for (int n = 0; n < 9000; n++) if (!malloc(520)) return 1;
  return words > 1 ? atoi(word[1]) : 0;
}
"""
# what an allocator that is preloaded says of all requests up to the largest
ASKED = """
import ctypes, sys
of = getattr(ctypes.CDLL(None), sys.argv[1])
of.restype, of.argtypes, size = ctypes.c_size_t, [ctypes.c_size_t, ctypes.c_int], 0
while size < int(sys.argv[2]):
    size = of(size + 1, 0)
    print(size)
"""
LIBRARIES = {"jemalloc": ("libjemalloc.so.2", "nallocx"), "gperftools": ("libtcmalloc_minimal.so.4", "tc_nallocx")}
CLAIM = re.compile(
    r"of the tables of at most (\d+) block sizes? of (.+?), from ([\d,]+) to ([\d,]+) bytes, its own or multiples of "
    r"\d+, .*? among them, that serve .*?, none takes less than ([\d,]+) bytes?\."
)
# the status, what is said, and the words
REFUSED = (
    (2, "it wants the name of an allocator first, jemalloc, "),
    (2, "and dlmalloc is none", "dlmalloc", "--read", "a.history"),
    (2, "it wants a program to run, or --read FILE", "jemalloc"),
    (2, "no place for ls", "jemalloc", "--read", "a.history", "ls"),
    (2, "no process that --only could name", "jemalloc", "--only", "ls", "--read", "a.history"),
    (2, "no malloc of a program: give a record of what the kernel requests of it, by --read", "kmalloc", "ls"),
    (2, "which a timeline can't say: give a history or a profile", "kmalloc", "--read", "a.timeline"),
    (2, "a number from 1 to 28 for jemalloc 5.3.0, and not 29", "jemalloc", "--limit", "29", "--read", "a.history"),
    (2, "a number from 2 to 64 for Go 1.19, and not 1", "go", "--limit", "1", "--read", "a.history"),
    (2, "takes a number from 1 to 64, and not 0", "jemalloc", "--limit", "0", "--read", "a.history"),
    (2, "takes sizes as 16,32,48, and not 16;32", "jemalloc", "--against", "16;32", "--read", "a.history"),
    (2, "8 bytes are not above 8 and up to 4,096", "jemalloc", "--against", "8,16", "--read", "a.history"),
    (2, "no block of 24 bytes that costs less", "jemalloc", "--against", "24", "--read", "a.history"),
    (2, "no block of 4,080 bytes that costs less", "jemalloc", "--against", "4080", "--read", "a.history"),
    (2, "nowhere can't be read", "jemalloc", "--output", "new", "--read", "nowhere"),
    (3, "empty is empty", "jemalloc", "--read", "empty"),
    (3, "there is nothing to tune", "jemalloc", "--read", "large.profile"),
    (2, "huge.profile: a count is above 1,000,000,000", "jemalloc", "--read", "huge.profile"),
    (2, "32 CountOutOfRange", "aset", "--read", "many.profile"),
    (2, "wrong.timeline: ", "jemalloc", "--read", "wrong.timeline"),
    (3, "no_such_program", "jemalloc", "no_such_program"),
    (3, "is there already", "jemalloc", "--output", ".", "--read", "a.history"),
)


# ---- what an allocator is


def sizes_above(model, low, top):
    """The block sizes that there may be."""
    multiples = range(low // model.unit * model.unit + model.unit, top + 1, model.unit)
    return sorted({*multiples, *(size for size in model.own if low < size <= top)})


def cost_of(model, table, moments, low, top):
    """The sum over the sizes of a table of the most of their blocks at once, each at its cost."""
    most = dict.fromkeys(table, 0)
    for live in moments:
        blocks = dict.fromkeys(table, 0)
        for request, count in live.items():
            wanted = max(request, 1) + model.header
            if low < wanted <= top:
                blocks[min(size for size in table if size >= wanted)] += count
        most = {size: max(most[size], blocks[size]) for size in table}
    return sum(model.cost(size) * count for size, count in most.items())


def lowest(model, low, top, limit, moments):
    """The least of all tables of at most so many sizes: of those that a request needs, or that are little larger."""
    legal, kept = sizes_above(model, low, top), {top, *(size for size in model.forced if low < size < top)}
    wanted = {max(request, 1) + model.header for live in moments for request in live}
    needs = {min(size for size in legal if size >= each) for each in wanted if low < each <= top}
    near = {size for need in needs for size in legal[legal.index(need) :][:3]} - kept
    extra = (more for count in range(limit - len(kept) + 1) for more in itertools.combinations(sorted(near), count))
    return min(cost_of(model, sorted(kept | {*more}), moments, low, top) for more in extra)


def saved_bytes(moments):
    """What the least table of jemalloc takes less than its own."""
    return cost_of(JEMALLOC, JEMALLOC.own, moments, 8, 4096) - lowest(JEMALLOC, 8, 4096, 6, moments)


def random_record(chosen, model, kind):
    """A small record, and what is live at each of its moments."""
    top = chosen.choice([300, 2000, model.ends[-1]]) - model.header
    sizes = [chosen.randrange(0, top) for _ in range(chosen.randrange(1, 6))]
    if kind != "timeline":
        number = chosen.randrange(1, 4) if kind == "history" else 1
        moments = [{size: chosen.randrange(0, 50) for size in sizes} for _ in range(number)]
        moments[0][sizes[0]] = 3
        rows = {size: [live[size] for live in moments] for size in moments[0]}
        return history_of({size: counts for size, counts in rows.items() if any(counts)}, kind), moments
    events, moments, live = ["timeline"], [], []
    for _ in range(chosen.randrange(1, 30)):
        if live and chosen.random() < 0.4:
            events.append(f"-{live.pop(chosen.randrange(len(live)))}")
        else:
            live.append(chosen.choice(sizes))
            events.append(str(live[-1]))
        moments.append({size: live.count(size) for size in sizes})
    return records.Record(kind, "small", "\n".join([*events, "large", "-large"]).encode(), {}), moments


def history_of(rows, kind="history"):
    return records.Record(kind, "small", b"", rows)


class Truth(claims_cases.WithProgram):
    def test_models(self):
        """A model's own sizes are among those that there may be, each with a number of a class, by its cost."""
        with open(os.path.join(ROOT, "docs/ALLOCATORS.md"), encoding="utf-8") as file:
            page = file.read()
        for name, model in MODELS.items():
            row = f"| `{name}` | {sum(size > model.ends[0] for size in model.own)} | {model.ends[-1]:,} |"
            expect(f"{name}: its row of docs/ALLOCATORS.md", row in page, row)
        parted = [(name, model, low) for name, model in MODELS.items() for low in model.ends[:-1]]
        for name, model, low in parted:
            top = model.ends[model.ends.index(low) + 1]
            part, what = parts.Part(model, low, top), f"{name} to {top}"
            missing = [size for size in (*part.own, *part.held) if size not in part.number]
            expect(f"{what}: its own sizes", top in part.own and not missing, *missing)
            numbers = [part.number[size] for size in part.sizes]
            is_right = numbers == sorted({*numbers}) and 2 <= numbers[0] and numbers[-1] <= 1024
            expect(f"{what}: numbers ascend", is_right, numbers[0], numbers[-1])
            costs = [size for size in part.sizes if part.number[size] * part.grain != part.times * model.cost(size)]
            expect(f"{what}: costs", not costs, *costs)
            left = [size for size in sizes_above(model, low, top) if size not in part.number]
            above = {size: min(model.cost(each) for each in part.sizes if each > size) for size in left}
            wrong = [size for size in left if model.cost(size) < above[size]]
            expect(f"{what}: what is left out costs no less than a larger one", not wrong, *wrong)

    def test_small_records(self):
        """Against all tables, of histories, timelines and profiles."""
        chosen, compared, kinds = random.Random(5), 0, ("history", "timeline", "profile")
        for (name, model), kind, trial in itertools.product(MODELS.items(), kinds, range(TRIALS)):
            if kind == "timeline" and model.forced or kind == "profile" and trial > 2:
                continue
            record, moments = random_record(chosen, model, kind)
            fits = parts.fit_parts(model, record, len(model.forced) + len(model.ends) - 1 + chosen.randrange(0, 3))
            for fit in fits:
                self.compare(f"{name}, {kind} {trial}", fit, record, moments)
            compared += len(fits)
            ends = [(fit.part.low, fit.part.top) for fit in fits]
            own = [[size for size in model.own if low < size <= top] for low, top in ends]
            costs = sum(cost_of(model, sizes, moments, *each) for sizes, each in zip(own, ends))
            got = sum(fit.part.footprint(sum(own, []), fit.text) for fit in fits)
            expect(f"{name}, {kind} {trial}: what its own sizes take", costs == got, costs, got)
        expect(f"{compared} fits are compared", compared > 200)

    def compare(self, name, fit, record, moments):
        """A fit of a part, and what is said of it, with all tables."""
        part, limit = fit.part, fit.claim.numbers["limit"]
        least = lowest(part.model, part.low, part.top, limit, moments)
        got, what = cost_of(part.model, fit.sizes, moments, part.low, part.top), f"{name}, to {part.top}, {limit} sizes"
        is_least = fit.claim.holds and least == got == part.cost_of(fit.claim.cost)
        expect(f"{what}: the least of all tables", is_least, least, got, fit.sizes)
        said = fit.sentence(record)
        found, wanted = CLAIM.search(said), (str(limit), part.model.title, f"{part.top:,}", f"{least:,}")
        expect(f"{what}: what is said", found and found.group(1, 2, 4, 5) == wanted, said)

    def test_most(self):
        """What is live at one moment."""
        chosen = random.Random(6)
        for trial in range(TRIALS):
            record, moments = random_record(chosen, JEMALLOC, chosen.choice(["timeline", "history"]))
            amount = {size: chosen.randrange(0, 99) for size in record.sizes[1:]}
            wanted = max(sum(amount.get(size, 0) * count for size, count in live.items()) for live in moments)
            expect(f"{record.kind} {trial}: the most live", record.most(amount) == wanted, record.most(amount), wanted)

    def test_filled(self):
        """jemalloc gets as many sizes as it has to have; what is added costs nothing where no request needs it."""
        record = history_of({24: [9], 1030: [4], 3000: [2]})
        [fit] = parts.fit_parts(JEMALLOC, record, 28)
        sizes = parts.filled_sizes(JEMALLOC, fit.sizes, record)
        expect("27 sizes", len(sizes) == 27 and {*fit.sizes} <= {*sizes, 4096} and max(sizes) < 4096, *sizes)
        expect("what is added costs nothing", fit.part.footprint(sizes, fit.text) == fit.part.cost_of(fit.claim.cost))
        many = history_of({size: [size % 7 + 1] for size in range(16, 4097, 16)})
        for limit in (2, 28):
            sizes = parts.filled_sizes(JEMALLOC, parts.fit_parts(JEMALLOC, many, limit)[0].sizes, many)
            expect(f"27 sizes of {limit} that are fitted", len(sizes) == 27 and max(sizes) < 4096, *sizes)

    def test_shares(self):
        """Both parts together have no more sizes than they may, and take no more where there may be more."""
        chosen, before = random.Random(7), None
        record = history_of({chosen.randrange(1, 16000): [chosen.randrange(9) + 1] for _ in range(40)})
        for limit in range(2, 40, 6):
            fits = parts.fit_parts(MODELS["musl"], record, limit)
            cost, number = sum(fit.part.cost_of(fit.claim.cost) for fit in fits), sum(len(fit.sizes) for fit in fits)
            is_less = before is None or cost <= before
            expect(f"at most {limit} sizes", number <= limit and is_less, number, cost, before)
            before = cost

    def test_long_text(self):
        """A record that is too long in numbers is refused."""
        with mock.patch.object(parts, "MOST_INPUT", 20), pytest.raises(Refusal, match="and mte_tool reads 20"):
            parts.fit_parts(JEMALLOC, history_of({24: [9], 1030: [4]}), 28)

    def test_libraries(self):
        """jemalloc's and gperftools' sizes are those of the installed libraries."""
        for name, (library, function) in LIBRARIES.items():
            words = [sys.executable, "-c", ASKED, function, str(MODELS[name].ends[-1])]
            done = subprocess.run(words, env={**os.environ, "LD_PRELOAD": library}, capture_output=True, text=True)
            if "cannot be preloaded" in done.stderr:
                checks.skip(f"without {library}: the sizes of {name}")
                continue
            sizes = [each for each in map(int, done.stdout.split()) if each > 8]
            expect(f"{name}: {done.stderr}", sizes == [each for each in MODELS[name].own if each > 8], *sizes)

    def test_slabs(self):
        """The model's slabs are those of the patch."""
        checks.need("gcc", "the slabs of examples/jemalloc/classes.diff")
        with open(os.path.join(EXAMPLES, "jemalloc/classes.diff")) as file:
            added = "".join(line[1:] for line in file.read().splitlines(True) if line.startswith("+"))
        loop = re.search(r"unsigned long chosen = 1, n;.*?\n\t\t\}\n", added, re.S)[0]
        begin = "#define PAGE 4096ul\n#define BITMAP_MAXBITS 512\nint pages(unsigned long size)"
        library, how = os.path.join(self.folder(), "slabs.so"), {"text": True, "check": True}
        words = ["gcc", "-shared", "-fPIC", "-x", "c", "-", "-o", library]
        subprocess.run(words, input=f"{begin} {{ {loop} return chosen; }}\n", **how)
        pages = ctypes.CDLL(library).pages
        wrong = [size for size in range(16, 4096, 16) if pages(ctypes.c_ulong(size)) != models.slab_pages(size)]
        expect("the pages of slabs", not wrong, *wrong)
        costs = [size for size in JEMALLOC.own if models.slab_share(size) != size]
        expect("jemalloc's own slabs have no rest", not costs, *costs)


class Command(commands.Commands):
    @classmethod
    def setup_class(cls):
        super().setup_class()
        program = checks.any_program(cls.place)
        if program == "":
            pytest.skip("without a program and rustc: tune_allocator")
        cls.environment |= {"MTE_TOOL": program} if program else {}

    def tune(self, *words, status=0, **more):
        """What tune_allocator prints, in one line."""
        return " ".join(self.runs(status, "*", "tune_allocator", *words, **more).split())

    def test_words(self):
        self.helped("tune_allocator")
        for name, text in {
            "a.history": "snapshots 2\n24 5 9\n100 2 1\nlarge 1 1\n", "a.timeline": "timeline\n24\n100\n-24\n",
            "large.profile": "large 3\n", "huge.profile": "24 1000000001\n", "many.profile": "1020 900000000\n",
            "wrong.timeline": "timeline\n24\n-25\n", "empty": "",
        }.items():  # fmt: skip
            self.write(name, text)
        for status, says, *words in REFUSED:
            self.runs(status, "", "tune_allocator", *words)
            self.says(says)
        expect("no folder is left of what is refused", not os.path.exists(self.path("new")))
        self.unwritten("tune_allocator", "jemalloc", "--read", self.path("a.history"))

    def test_records(self):
        """What is said where there is nothing to gain, where a program grows, and where it does not."""
        self.write("small.profile", "24 5\n100 2\n")
        text = self.tune("jemalloc", "--read", "small.profile")
        begins = text.startswith("small.profile in jemalloc 5.3.0, blocks above 8 and up to 4,096 bytes Table sizes")
        none = "Nothing to gain: jemalloc 5.3.0 as it is takes 0.4 KiB, and with other sizes 0.4 KiB."
        expect("nothing to gain", begins and none in text and "To build" not in text, text)
        self.write("large.profile", "1030 4000\n3000 900\n")
        for name in ("jemalloc", "aset"):
            text = self.tune(name, "--read", "large.profile")
            expect(f"{name}: a profile has no moments", "No saving is predicted: one moment does not show" in text and "Predicted" not in text, text)
        every = "".join(f"{size} 1000\n" for size in range(16, 4097, 16))
        self.write("every.profile", every)
        text = self.tune("jemalloc", "--limit", "27", "--read", "every.profile")
        expect("the table that is built has 28 sizes", re.search(r"with 28 sizes, as there have to be +28 ", text), text)
        self.write("falls.history", "snapshots 2\n1030 4000 0\n3000 0 900\n")
        text = self.tune("jemalloc", "--read", "falls.history")
        none = "No saving is predicted: blocks of the sizes peak at different moments"
        expect("no saving is predicted", none in text, text)
        text = self.tune("aset", "--read", "falls.history")
        expect("what no other size gets", "less. What blocks of one size have taken, no other size gets." in text, text)
        text = self.tune("musl", "--read", "-", given="timeline\n24\n2000\n")
        expect("two parts", len(CLAIM.findall(text)) == 2 and "How many sizes are up to 2,032 bytes" in text, text)

    def test_folder(self):
        """What a program that grows is told, and what is left in the folder."""
        self.write("grows.history", "snapshots 2\n1030 2000 4000\n3000 100 900\n5 0 7\n9000 1 2\n")
        text = self.tune("jemalloc", "--read", "grows.history", "--output", "made", "--against", "1056,2048")
        saved = figures.kibibytes(saved_bytes([{1030: 2000, 3000: 100}, {1030: 4000, 3000: 900}]))
        expect("what is predicted", f"Predicted: {saved} less. The program grows. Live" in text, saved, text)
        expect("what is left alone", "of requests with 17.6 KiB live at most" in text, text)
        expect("what is compared", re.search(r"--against 3 [\d,.]+ KiB -", text), text)
        line = self.runs(0, "*", "tune_allocator", "jemalloc", "--read", "grows.history", "--line").strip()
        is_built = f"in examples/jemalloc: {line}" in text and self.read("made/sizes.txt") == f"{line}\n"
        expect("the sizes to build", is_built and len(line.split(",")) == 27 and "1056" in line, line, text)
        names = ["part1.fit", "part1.history", "record.history", "sizes.txt"]
        expect("the folder", sorted(os.listdir(self.path("made"))) == names)
        text = self.runs(0, "*", "check_sheet", "made/part1.fit", "made/part1.history")
        expect("the fit is checked", "\noptimal" in text, text)

    def test_refused_fits(self):
        """Nothing is claimed of a fit that is refused, or of a part whose sizes do not stay; a bound is told."""
        self.write("a.timeline", "timeline\n24\n")
        program = self.environment.get("MTE_TOOL") or checks.PROGRAM
        bound, words = "footprint 16512\\nnot shown least: no table takes less than 16500", ("--read", "a.timeline")
        for status, command, answer in (
            (3, "check-fit", "refused 47 NotTight"), (3, "fit", f"classes 9 1024\\n{bound}"),
            (3, "fit", f"classes 4\\n{bound}"), (3, "fit", "classes 9\\nlimit 28\\nfootprint 0"),
            (0, "fit", f"classes 8 1024\\n{bound}"),
        ):  # fmt: skip
            answers = f'if [ "$1" = {command} ]; then cat >/dev/null; printf "{answer}\\n"; exit 1; fi'
            path = self.write("refusing", f'#!/bin/sh\n{answers}\nexec {program} "$@"\n', 0o755)
            text = self.runs(status, "*" * (not status), "tune_allocator", "jemalloc", *words, MTE_TOOL=path)
        text = " ".join(text.split())
        is_said = "none takes less than 29 bytes." in text and " the fit 2 " in text and "least footprint" not in text
        expect("a bound is told, and no certificate", is_said, text)

    def test_program(self):
        """A program is recorded, and its status is told."""
        checks.need("cc", "tune_allocator over a program")
        subprocess.run(["cc", "-O0", "-x", "c", "-", "-o", self.path("blocks")], input=BLOCKS, text=True, check=True)
        wanted = saved_bytes([{1030: 4000, 520: 9000}]) / 1024
        for status in (0, 1):
            text = self.tune("jemalloc", "./blocks", *["7"] * status, status=status)
            found = re.search(r"least footprint \d+ [\d,]+ KiB ([\d,.]+) KiB", text)
            close = found and abs(float(found[1].replace(",", "")) - wanted) < 8
            expect(f"what two sizes save, with status {status}", close and "The program grows" in text, wanted, text)
