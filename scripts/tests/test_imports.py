#!/usr/bin/env -S python3 -B
"""Tests `profile_program --import` on files that the tools themselves wrote (imports_data/make), against what profile_program records of
the same program, and on files that are cut off, damaged or made to harm."""

import base64
import contextlib
import gzip
import json
import math
import os
import random
import subprocess
import sys
import tempfile
import tracemalloc
from collections import Counter
from unittest import mock
from pathlib import Path

import checks
from checks import expect, expect_equal, skip_without
from mte_scripts import count_texts, program_runs
from mte_scripts.entry_point import Refusal
from mte_scripts.formats import LARGEST_SIZE, MOST_COUNT
from mte_scripts.places import EXAMPLES
from mte_scripts.recording import timelines
from mte_scripts.recording.imports import heap_text, heaptrack, heaptrack_stacks, import_result, importers, json_text, source

HERE = os.path.dirname(os.path.realpath(__file__))
DATA = os.path.join(HERE, "imports_data")
SCRIPT = os.path.join(os.path.dirname(HERE), "profile_program")
MOST_MEMORY = 300 << 20  # of an import that is refused

# what requests.c requests, and what is live at its peak; a block of 200 bytes at a multiple of 64 counts as 248
MIXED = {100 + 10 * i: 1 for i in range(10)}
GROWN = {16: 1, 32: 1, 64: 1, 128: 1, 256: 1, 512: 1, 1024: 1}
LIVE = {24: 100, **MIXED, 330: 20, 1024: 1, 248: 1, "large": 3}
ALL = {**LIVE, **GROWN, 40: 100}
# C++'s library, which some tools bring, requests a large block before the program begins
POOL = 1


def count_aligned(counts, size, more_large=0):
    """The same where an aligned block counts as so many bytes, and with so many large blocks more."""
    made = Counter({each: count for each, count in counts.items() if each != 248})
    made[size] += 1
    made["large"] += more_large
    return dict(made)


def sum_of(counts):
    """How many blocks there are, and the bytes of those that are not large."""
    return sum(counts.values()), sum(size * count for size, count in counts.items() if size != "large")


def data_of(name):
    """The bytes of a file that a tool wrote."""
    path = os.path.join(DATA, name)
    if os.path.exists(path):
        return Path(path).read_bytes()
    with open(f"{path}.base64", "rb") as file:
        return base64.b64decode(file.read())


def profile_of(text):
    return count_texts.parse_profile(text, "what was imported")


class Files(checks.Part):
    """Tests with files in a folder of their own."""

    @classmethod
    def setup_class(cls):
        cls.place = cls.folder()

    def file(self, name, data):
        path = os.path.join(self.place, name)
        Path(path).write_bytes(data)
        return path

    def given(self, data):
        """A file with these bytes, or those of a tool's file of this name."""
        return self.file(data, data_of(data)) if isinstance(data, str) else self.file("given", data)

    def imported(self, data, wanted=import_result.ALL, form=None, snapshots=32):
        """What is imported, and its text."""
        got = importers.import_file(self.given(data), form, wanted, snapshots)
        return got, b"".join(got.text)

    def counts(self, data, wanted=import_result.ALL, form=None):
        return profile_of(self.imported(data, wanted, form)[1])

    def told(self, data, wanted=import_result.ALL):
        return "\n".join(self.imported(data, wanted)[0].told)

    def refused(self, data, wanted=import_result.ALL, form=None):
        """Why a file is refused."""
        try:
            got, text = self.imported(data, wanted, form)
            return f"not refused: {text[:200]!r}, {got.told}"
        except Refusal as refused:
            return refused.text

    def refuses(self, *cases, form=None):
        """Each of these is refused, with these words."""
        for data, says in cases:
            said = self.refused(data, form=form)
            expect(f"{data[:60]!r} is refused: {says}", says in said, said)


class RecordedFiles(Files):
    """What the tools saw of requests.c, against what it requests, and what profile_program records of it."""

    def test_recorder(self):
        if skip_without("cc", "what profile_program records of the program"):
            return
        program = os.path.join(self.place, "requests")
        subprocess.run(["cc", "-O1", "-fno-builtin", os.path.join(DATA, "requests.c"), "-o", program, "-ldl"], check=True)
        for words, counts in (([], ALL), (["--live"], LIVE)):
            done = subprocess.run([SCRIPT, *words, program], stdin=subprocess.DEVNULL, capture_output=True, check=True)
            expect(f"profile_program {' '.join(words)} records what the program requests", profile_of(done.stdout) == counts, done.stdout)
        done = subprocess.run([SCRIPT, "--timeline", program], stdin=subprocess.DEVNULL, capture_output=True, check=True)
        _, text = self.imported("heaptrack.gz", import_result.TIMELINE)
        wanted = done.stdout.replace(b"timeline\n", b"timeline\nlarge\n").replace(b"248\n", b"200\n") + b"-large\n"
        expect("the timeline of heaptrack is the recorded one", text == wanted, text, wanted)

    def test_heaptrack(self):
        packed = [] if skip_without("zstd", "heaptrack's files that are packed by it") else ["heaptrack.zst", "heaptrack.raw.zst"]
        for name in ["heaptrack.gz", *packed]:
            for what, counts in ((import_result.ALL, ALL), (import_result.LIVE, LIVE)):
                expect_equal(f"{name}: {what} are exact", self.counts(name, what), count_aligned(counts, 200, POOL))
            got, text = self.imported(name, import_result.TIMELINE)
            expect_equal(f"{name}: the timelines are the same", text, self.imported("heaptrack.gz", import_result.TIMELINE)[1])
            expect(f"{name}: the peak beside the timeline", profile_of(got.peak.encode()) == count_aligned(LIVE, 200, POOL), got.peak)
            expect(f"{name}: nothing is left to say but that sizes are exact", len(got.told) == 1 and "exact" in got.told[0], got.told)

    def test_histories(self):
        _, text = self.imported("heaptrack.gz", import_result.HISTORY, snapshots=5)
        history = count_texts.parse_history(text)
        timeline = self.imported("heaptrack.gz", import_result.TIMELINE)[1]
        events = timeline.split()[1:]
        live = timelines.history_at(timeline, [round(len(events) * each / 5) for each in range(1, 5)])
        columns = set(zip(*(history.counts.get(size, [0] * history.snapshots) for size in sorted(ALL, key=str))))
        wanted = set(zip(*(live.counts.get(size, [0] * live.snapshots) for size in sorted(ALL, key=str))))
        expect("the history has the peak and four moments, or fewer where two are one", 4 <= history.snapshots <= 5, text)
        expect("its moments are evenly spaced", wanted <= columns, wanted - columns)
        with mock.patch.object(timelines, "MOST_TEXT", 1000):
            got, text = self.imported("heaptrack.gz", import_result.TIMELINE)
        history = count_texts.parse_history(text)
        classes = {timelines.need_of(size): 0 for size in ALL if size != "large"}
        for place in range(history.snapshots):
            now: Counter = Counter()
            for size, row in history.counts.items():
                now[0 if size == "large" else timelines.need_of(size)] += row[place]
            classes = {each: max(most, now[each]) for each, most in classes.items()}
        peaks = [timelines.peak_of(timeline, lambda size, each=each: timelines.need_of(size) == each)[0] for each in classes]
        expect("a timeline that is too long is a history", got.what == "the history" and "would have more than" in got.told[-1], got.told)
        expect("of each class's peak", list(classes.values()) == peaks, classes, peaks)

    def test_dhat(self):
        exact = {size: count for size, count in ALL.items() if size not in MIXED and size not in GROWN}
        grown = sum(GROWN) / len(GROWN)
        wanted = {**count_aligned(exact, 200), 145: 10, int(grown): 5, int(grown) + 1: 2}
        expect_equal("DHAT: each stack at its average", self.counts("dhat.json"), wanted)
        expect("DHAT: as many blocks and bytes as there are", sum_of(wanted) == sum_of(count_aligned(ALL, 200)))
        live = {24: 100, 145: 10, 330: 20, 1024: 1, 200: 1, "large": 3}
        expect_equal("DHAT: live blocks", self.counts("dhat.json", import_result.LIVE), live)
        told = self.told("dhat.json")
        for says in ("at least 7 blocks, 2.9%, are not", "221 blocks are exact"):
            expect(f"DHAT says: {says}", says in told, told)

    def test_gperftools(self):
        # it takes 256 bytes for the aligned block; the last 50 of 40 bytes come after the peak
        wanted = {24: 100, 40: 50, 145: 10, 330: 20, 16: 1, 336: 6, 256: 1, "large": 3}
        for name in ("gperftools.heap", "gperftools.pb.gz"):
            expect_equal(f"{name}: each stack at its average", self.counts(name), wanted)
            live = {24: 100, 145: 10, 330: 20, 1024: 1, 256: 1, "large": 3}
            expect_equal(f"{name}: live blocks", self.counts(name, import_result.LIVE), live)
        requests = {**count_aligned(ALL, 256), 40: 50, 256: 2}
        expect_equal("gperftools: as many blocks and bytes as there are", sum_of(wanted), sum_of(requests))

    def test_jemalloc_heap(self):
        classes = classes_of_jemalloc()
        requests = in_classes(count_aligned({**ALL, 40: 50}, 256, POOL), classes)
        counts = self.counts("jemalloc.heap")
        expect("a dump of jemalloc: as many blocks, and the bytes of their classes", sum_of(counts) == sum_of(requests), counts, requests)
        stacks = {32: 100, 48: 50, 384: 20, 16: 1, 336: 6, 256: 1, "large": 3 + POOL}
        expect("each stack at its average", {**stacks, 156: 2, 157: 8} == counts, counts)
        expect("the mixed stack has the sum of its classes", 156 * 2 + 157 * 8 == sum_of(in_classes(MIXED, classes))[1])

    def test_jemalloc_sampled(self):
        lines = data_of("jemalloc_sampled.jeprof").decode().split("\n")
        total = int(lines[0].split()[1])
        counts = self.counts("jemalloc_sampled.heap", import_result.LIVE)
        expect("a sampled dump is scaled up as jeprof does", abs(sum(counts.values()) - total) <= len(counts), counts, lines[0])
        small = next(int(line.split()[0]) for line in lines if line.endswith(" small"))
        expect("by stacks too", abs(counts[32] - small) <= 1, counts, small)
        told = self.told("jemalloc_sampled.heap")
        expect("it is told that it is sampled", "sampled, a block in about 2,048 bytes" in told and "jemalloc's classes" in told, told)

    def test_jemalloc_stats(self):
        wanted = in_classes(count_aligned(ALL, 256), classes_of_jemalloc())
        counts = self.counts("jemalloc.json.gz")
        wanted["large"] = counts["large"]
        expect("jemalloc's statistics: each request at the size of its class", counts == wanted, counts, wanted)
        expect("and the large ones", counts["large"] >= 3 + POOL, counts)
        live = self.counts("jemalloc.json.gz", import_result.LIVE)
        expect("live blocks, with those that threads keep", live[32] >= 100 and all(live[size] >= 0 for size in live), live)
        expect("that it is a bound is told", "upper bound" in self.told("jemalloc.json.gz"), self.told("jemalloc.json.gz"))
        expect("and what threads keep", "keep for reuse" in self.told("jemalloc.json.gz", import_result.LIVE))

    def test_scudo(self):
        for wanted in (import_result.ALL, import_result.LIVE):
            expect_equal("Scudo's malloc_info is exact", self.counts("scudo.xml", wanted), count_aligned(LIVE, 200))
        expect("without an option it is told that only live blocks are there", "! it has no count of all" in self.told("scudo.xml"))
        told = self.told("scudo.xml", import_result.LIVE)
        expect("and with --live nothing", "!" not in told, told)
        classes = [16, 48, 80, 112, 144, 176, 208, 240, 304, 368, 432, 496, 624, 752, 880, 1008, 1264]
        counts = self.counts("scudo.stats")
        expect("Scudo's statistics have its classes alone", set(counts) - {"large"} <= set(classes), counts)
        requests = in_classes({size: count for size, count in LIVE.items() if size != 248}, classes)
        expect("and at least the live blocks in each", all(counts[size] >= count for size, count in requests.items()), counts, requests)
        expect("that it is a bound is told", "upper bound" in self.told("scudo.stats"), self.told("scudo.stats"))

    def test_go(self):
        # Go's classes for 25 and 200 bytes are 32 and 208
        for wanted, blocks in ((import_result.ALL, 20000), (import_result.LIVE, 10000)):
            counts = self.counts("go.pb.gz", wanted)
            expect(f"Go, {wanted}: the program's blocks are there", counts[208] == blocks and counts[32] >= 1000, counts)
        expect("that the sizes are classes is told", "Go's are those of its classes" in self.told("go.pb.gz"))
        sampled = self.counts("go_sampled.pb.gz")
        by_text = self.counts("go_sampled.heap")
        near = all(abs(sampled[size] - by_text[size]) <= 1 for size in sampled)
        expect("a sample in two forms has the same sizes and counts", set(sampled) == set(by_text) and near, sampled, by_text)
        expect("and is near what was requested", 5000 < sampled[208] < 80000 and "sampled" in self.told("go_sampled.pb.gz"), sampled)

    def test_sampling(self):
        """The number of blocks that a sample stands for, in each of the texts' forms; Go writes twice its bytes."""
        wanted = {32: round(3 / (1 - math.exp(-32 / 1024))), 4096: round(2 / (1 - math.exp(-4096 / 1024)))}
        counts = "heap profile: 5: 8288 [ 5: 8288] @ {}\n 3: 96 [ 3: 96] @ 0x1 0x2\n 2: 8192 [ 2: 8192] @ 0x3\n"
        dump = "heap_v2/1024\n  t*: 5: 8288 [0: 0]\n@ 0x1\n  t*: 3: 96 [0: 0]\n  t0: 3: 96 [0: 0]\n@ 0x2\n  t*: 2: 8192 [0: 0]\n"
        for text in (counts.format("heap_v2/1024"), counts.format("heapz_v2/1024"), counts.format("heap/2048"), dump):
            expect_equal(f"the sample {text[:60]!r}", self.counts(text.encode()), wanted)
        expect_equal("and what is no sample", self.counts(counts.format("heapprofile").encode()), {32: 3, 4096: 2})


def classes_of_jemalloc():
    """Its small classes (jemalloc(3)): multiples of 16 up to 128, and then four in each octave."""
    found_so_far, step = [8, *range(16, 129, 16)], 32
    while found_so_far[-1] < 14336:
        found_so_far += [found_so_far[-1] + step * each for each in range(1, 5)]
        step *= 2
    return found_so_far


def in_classes(counts, classes):
    """The same blocks, each counted as its class."""
    made = Counter()
    for size, count in counts.items():
        made[size if size == "large" else next(each for each in classes if each >= size)] += count
    return dict(made)


FILES = """dhat.json go.pb.gz go_sampled.pb.gz go_sampled.heap gperftools.heap gperftools.pb.gz heaptrack.gz jemalloc.heap
    jemalloc_sampled.heap jemalloc.json.gz scudo.stats scudo.xml""".split()


def unpack_data(name):
    data = data_of(name)
    return gzip.decompress(data) if name.endswith(".gz") else data


class DamagedFiles(Files):
    """Files that are cut off, damaged, or made to harm."""

    def test_cut(self):
        for name in FILES:
            for data, what in ((data_of(name), "as it is"), (unpack_data(name), "unpacked")):
                counts, silent = self.counts(data), []
                for length in sorted({round(len(data) * part / 60) for part in range(1, 60)} | {len(data) - 1}):
                    with contextlib.suppress(Refusal):
                        got, text = self.imported(data[:length])
                        if profile_of(text) != counts and not any(line.startswith("!") for line in got.told):
                            silent.append((length, got.told))
                expect(f"{name}, {what}: where it is cut off, it is refused, or that is told, or nothing is missing", not silent, silent)

    def test_bytes_without_blocks(self):
        """What is left out of the counts is told, and how much."""
        data = b"heap profile: 2: 540 [ 2: 540] @ heapprofile\n 2: 40 [ 2: 40] @ 0x1\n 0: 500 [ 0: 500] @ 0x2\n"
        expect_equal("the blocks of the other stack", self.counts(data), {20: 2})
        expect("what is left out", "! 500 bytes are at stacks without" in self.told(data), self.told(data))

    def test_spoiled(self):
        """Whatever is in a file, it is imported or refused."""
        chance = random.Random(1)
        for name in FILES:
            data = unpack_data(name)
            form = self.counts(data) and form_of(data)
            for _ in range(60):
                made = bytearray(data)
                for _ in range(chance.choice([1, 1, 3, 20])):
                    at = chance.randrange(len(made))
                    made[at : at + chance.randrange(3)] = bytes(chance.randrange(256) for _ in range(chance.randrange(3)))
                with contextlib.suppress(Refusal):
                    self.counts(bytes(made), chance.choice([import_result.ALL, import_result.LIVE]), form)

    def test_refusals(self):
        point = b'{"dhatFileVersion":2,"mode":"heap","pps":[%s]}'
        self.refuses(
            (data_of("glibc.xml"), "free chunk"),
            (b'<malloc version="1">\n<size from="33" to="48" total="96" count="2"/>\n</malloc>\n', "its 2 free chunks are"),
            (data_of("massif.out"), "take `valgrind --tool=dhat`"),
            (b"___ Begin jemalloc statistics ___\nVersion: ..\n", "stats_print_opts:J"),
            (b"16 3\n", "profile of mte_tool already"),
            (b"snapshots 1\n16 3\n", "history of mte_tool already"),
            (b"timeline\n16\n", "timeline of mte_tool already"),
            (b"hello there\n", "no format that --help lists"),
            (b"", "is empty"),
            (b"\x00\x01\x02", "no number of Protocol Buffers"),
            (b"v 10400 3\na 18 0\n- 0\n", "line 3 is no event of heaptrack"),
            (b"v 10400 3\na 18 0\n+ 1\n", "line 3 is no event of heaptrack"),
            (b"v 10400 3\na 1ffffffffffffffffffffff 0\n", "line 2 is no event of heaptrack"),
            (b"v 10400 3\na 18 0\n", "it has no request"),
            (b"v 10400 3\na 18 0\n+ 0", "it was cut off"),
            (b"heap profile: 1: 2 [ 1: 2] @ growthz\n", "a profile of another kind, `growthz`"),
            (b"heap profile: 2: 40 [ 2: 40] @ heapprofile\n 1: 20 [ 1: 20] @ 0x1\n", "other sums than its first line"),
            (b"heap profile: 1: 20 [ 1: 20] @ heapprofile\nhello\n", "line 2 is no line of a stack"),
            (b"heap_v2/1\n  t*: 1: 20 [0: 0]\n@ 0x1\n", "a stack has no counts"),
            (b"heap_v2/1\n", "it has no stack"),
            (point % b'{"tb":3}', "it has no `tbk` that is a number"),
            (point % b'{"tb":3,"tbk":-1}', "-1 where a number"),
            (point % b'{"tb":3,"tbk":true}', "True where a number"),
            (point % (b'{"tb":' + b"9" * 5000 + b',"tbk":1}'), "a number that nothing counts"),
            (point.replace(b"2", b"1") % b"", "of version 1"),
            (point.replace(b'"heap"', b'"ad-hoc"') % b"", "mode ad-hoc"),
            (b'{"jemalloc":{"stats.arenas":{}}}', "the option g"),
            (b'{"jemalloc":{"arenas":{"bin":[{"size":8}]},"stats.arenas":{"merged":{}}}}', "it has no `bins`"),
            (b'{"jemalloc":{"arenas":{"bin":[{"size":8}]},"stats.arenas":{"merged":{"bins":[{"nrequests":1}]}}}}', "the options b and l"),
            (b'<malloc version="scudo-1">\n<alloc size="8" count="1"/>\n', "it was cut off"),
            (b'<malloc version="scudo-1">\nhello\n</malloc>\n', "none of Scudo's"),
            (b"Stats: SizeClassAllocator64: 1M\n  01 (    32): mapped:  1K popped: 1 pushed: 0 inuse: 1 total: 1\n", "it was cut off"),
            (point % b"", "it counts nothing"),
        )

    def test_messages(self):
        """Messages of Protocol Buffers that are no heap profile."""
        types = message(1, {1: 1, 2: 2}) + message(1, {1: 3, 2: 4})
        names = ["", "alloc_objects", "count", "alloc_space", "bytes"]
        strings = b"".join(b"\x32" + bytes([len(name)]) + name.encode() for name in names)
        sample = message(2, {2: (3, 60)})
        profile = types + sample + strings
        expect_equal("a profile made by hand", self.counts(profile), {20: 3})
        labels = b"\x32\x07request\x32\x05bytes"
        of_request = message(2, {2: (3, 60), 3: {1: 5, 3: 19}}) + message(2, {2: (1, 33), 3: {1: 6, 3: 32}})
        got, text = self.imported(types + of_request + strings + labels)
        expect_equal("the label `request` has the size, and `bytes` is but an average", profile_of(text), {19: 3, 33: 1})
        expect("it is told", any("3 blocks have their size as a label `request`" in line for line in got.told), got.told)
        self.refuses(
            (types + strings + message(2, {2: (3,)}), "a sample has 1 values, and there are 2 types"),
            (types + strings + message(2, {2: (3, 60, 1)}), "more values than there are types"),
            (types + strings + message(2, {2: ((1 << 64) - 1, 60)}), "difference of two profiles"),
            (types.replace(b"\x10\x04", b"\x10\x02") + sample + strings, "not a count and bytes"),
            (types + sample + strings.replace(b"alloc_objects", b"cpu_time_used"), "it has no number of blocks"),
            (sample + strings, "it has no types of samples"),
            (types * 40 + strings, "more than 64 types"),
            (types + strings + b"\x12\xff\x01\x00", "goes on after the end"),
            (types + strings + b"\x10" + b"\xff" * 11, "no number of Protocol Buffers"),
            (types + strings + b"\x13", "no field of Protocol Buffers"),
            (types + strings + b"\x12\x80\x80\x80\x80\x80\x80\x80\x80\x80\x02", "no number of Protocol Buffers"),
            form="pprof",
        )
        says = self.refused(profile, import_result.LIVE)
        expect("live blocks that are not there", "it has no live blocks" in says, says)

    def test_packed(self):
        data = data_of("heaptrack.gz")
        self.refuses(
            (data[:-9], "gzip data is cut off"),
            (data[:-8] + b"\0" * 8, "gzip data is damaged"),
            (data[:100] + b"\xff" * 20 + data[120:], "gzip data is damaged"),
        )
        parts = [gzip.compress(part) for part in (unpack_data("heaptrack.gz")[:500], unpack_data("heaptrack.gz")[500:])]
        expect_equal("gzip data of two parts is one", self.counts(b"".join(parts)), self.counts("heaptrack.gz"))
        if not skip_without("zstd", "damaged files of zstd"):
            packed = data_of("heaptrack.zst")
            self.refuses(*((each, "zstd data is cut off or damaged") for each in (packed[:400], packed[:300] + b"\0\0\0\0" + packed[304:])))
        with mock.patch.dict(os.environ, PATH=self.place):
            self.refuses((data_of("heaptrack.zst"), "there is no command zstd"))

    def test_harm(self):
        """What takes time or memory without end is refused, and takes little."""
        begin = b'{"dhatFileVersion":2,"mode":"heap","pps":['
        for name, data, says in (
            ("zeros", gzip.compress(b"\0" * (1 << 29), 1), "it has more than 67,108,864 bytes"),
            ("a line without end", gzip.compress(b"v 1 3\n+" + b"1" * (1 << 28), 1), "a line has more than 1,048,576 bytes"),
            ("numbers without end", b"heap_v2/1\n@ 0x1\n  t*: " + b"1" * (1 << 19) + b": 1 [0: 0]\n", "more than 19 digits"),
            ("deep JSON", begin + b"[" * 1_000_000, "too deep"),
            ("many values", begin + b"0," * (json_text.MOST_VALUES + 1), "more than 3,000,000 values"),
            ("deep messages", b"\x0a\xff\xff\xff\xff\x0f" * 1000, "goes on after the end"),
        ):
            path = self.file("harm", data)
            done, memory = self.measured(path)
            good = done.returncode == 2 and says in done.stderr and done.stderr.count("\n") == 1 and not done.stdout
            expect(f"{name}: refused in one line", good, done.returncode, done.stderr)
            expect(f"{name}: at most {MOST_MEMORY >> 20} MiB", memory <= MOST_MEMORY, memory >> 20)
        with open("/dev/zero", "rb") as zeros:
            done, memory = self.measured("-", stdin=zeros)
            good = done.returncode == 2 and "more than" in done.stderr and memory <= MOST_MEMORY
            expect("zeros without end", good, done.stderr, memory >> 20)

    def measured(self, path, stdin=subprocess.DEVNULL):
        """How an import ends, and the most memory that it had; of a process that starts no other before."""
        code = "import resource, subprocess, sys; done = subprocess.run(sys.argv[1:]); " \
            "print(resource.getrusage(resource.RUSAGE_CHILDREN).ru_maxrss, file=sys.stderr); sys.exit(done.returncode)"
        words = [sys.executable, "-c", code, SCRIPT, "--import", path]
        done = subprocess.run(words, stdin=stdin, capture_output=True, text=True, timeout=120)
        *lines, memory = done.stderr.splitlines(keepends=True)
        done.stderr = "".join(lines)
        return done, int(memory) << 10

    def test_limits(self):
        text = unpack_data("heaptrack.gz")
        raw = b"v 10400 3\n" + b"".join(b"+ 18 1 %x\n" % (at * 32) for at in range(1, 20))
        heap = b"heap profile: 20: 400 [0: 0] @ heapprofile\n" + b"1: 20 [0: 0] @ 0x1\n" * 20
        for module, name, most, given, says in (
            (heaptrack, "MOST_EVENTS", 100, text, "more than 100 requests and frees"), (source, "MOST_STREAMED", 1000, text, "it has more than 1,000 bytes"),
            (heaptrack, "MOST_ALLOCATIONS", 10, text, "more than 10 sizes with a stack"),
            (heaptrack, "MOST_LIVE", 10, raw, "more than 10 of its blocks are live at once"), (heap_text, "MOST_STACKS", 10, heap, "it has more than 10 stacks"),
        ):  # fmt: skip
            with mock.patch.object(module, name, most):
                self.refuses((given, says))
        with mock.patch.object(heaptrack, "MOST_KNOWN", 10):
            counts = self.counts(text)
        expect_equal("lines that are not kept", counts, self.counts("heaptrack.gz"))

    def nested(self, number):
        """A record of heaptrack with so many traces, each called from the one before, and an allocation at each."""
        lines = ["v 10500 3", "s 1 m", "s 1 f", "s 1 g", "i 10 1 2 3 4", *(f"t 1 {at:x}" for at in range(number))]
        lines += [f"a {16 + at % 1000:x} {at + 1:x}" for at in range(number)]
        lines += [f"{mark} {at:x}" for mark in "+-" for at in range(number)]
        return self.file("nested", "\n".join([*lines, "# strings: 3", ""]).encode())

    def test_nested_stacks(self):
        """What is kept of a record does not grow faster than its text, and no stack is deeper than is kept."""
        took = []
        for number in (1000, 20_000):
            path = self.nested(number)
            tracemalloc.start()
            record = heaptrack_stacks.read(path)
            depths = [len(stack) for stack in record.stacks(range(number)).values()]
            took.append(tracemalloc.get_traced_memory()[1] / os.path.getsize(path))
            tracemalloc.stop()
            expect(f"{number} nested traces: their depths", depths == [min(at + 1, heaptrack_stacks.DEEP) for at in range(number)], depths[:9])
            expect(f"{number} nested traces: the innermost call is kept", record.frames(number - 1)[0].function == "f", record.frames(number - 1)[:2])
        expect("nested traces: bytes for a byte of the record", took[1] <= 12 and took[1] <= took[0], took)
        for name, says in (("MOST_ALLOCATIONS", "more than 10 sizes with a stack, calls or names"), ("MOST_EVENTS", "more than 10 requests and frees")):
            with mock.patch.object(heaptrack, name, 10):
                expect(f"{name}: what is said", says in refusal_of(heaptrack_stacks.read, path), refusal_of(heaptrack_stacks.read, path))
        for name in ("MOST_TEXT", "MOST_FRAMES"):
            with mock.patch.object(heaptrack_stacks, name, 0):
                expect(f"{name}: what is said", "its names have more than" in refusal_of(heaptrack_stacks.read, path))

    def test_small_pieces(self):
        """Lines are the same however the bytes come."""
        text = unpack_data("heaptrack.gz")[:5000]
        for size in (1, 7, 5000):
            with source.Source(self.file("pieces", b"")) as pieces:
                pieces.pieces = (text[at : at + size] for at in range(0, len(text), size))
                lines = [line for some in pieces.lines() for line in some]
            expect(f"pieces of {size} bytes", lines == text.split(b"\n")[: len(lines)] and b"\n".join(lines) == text.removesuffix(b"\n"), lines[-2:])
            expect(f"pieces of {size} bytes: whether it ends in a line", pieces.ends_in_line == (text[-1:] != b"\n"))

    def test_attached(self):
        """A record of a process that ran already, raw, with frees of what is not in it."""
        raw = b"v 10400 3\nA\n+ 18 1 7f00\n- 7e00\n- 7f00\n+ 10 1 7f00\n"
        expect_equal("an attached record", self.imported(raw, import_result.TIMELINE)[1], b"timeline\n24\n-24\n16\n")
        told = self.told(raw, import_result.TIMELINE)
        expect("what is missing is told", "ran already" in told and "1 free of blocks" in told, told)

    def test_left_out(self):
        """Stacks that gperftools had no room for."""
        lines = data_of("gperftools.heap").split(b"\n")
        told = self.told(b"\n".join(lines[:1] + lines[2:]))
        expect("blocks of stacks that are missing are told", "! 3 of 191 blocks are at stacks that the file has not" in told, told)


def refusal_of(function, *words):
    """What is refused of a call."""
    try:
        function(*words)
    except Refusal as refused:
        return refused.text
    return "nothing"


def form_of(data):
    """The name of the format that a file is found to be of."""
    return next((form.NAME for form in importers.FORMATS if form.BEGIN.search(data[: importers.HEAD])), "pprof")


def varint(value):
    found_bytes = bytearray()
    while value >= 128:
        found_bytes.append(value & 127 | 128)
        value >>= 7
    return bytes([*found_bytes, value])


def message(number, members):
    """A message as a field of this number. Its members are numbers, messages, or lists of numbers, which are packed."""
    data = b""
    for name, value in members.items():
        if isinstance(value, tuple):
            packed = b"".join(map(varint, value))
            data += varint(name << 3 | 2) + varint(len(packed)) + packed
        elif isinstance(value, dict):
            data += message(name, value)
        else:
            data += varint(name << 3) + varint(value)
    return varint(number << 3 | 2) + varint(len(data)) + data


BPFTRACE = b"""Attaching 3 probes...
a line of the program @ itself
@[24]: 100

@[0]: 1
@sizes[24]: 5
@[16369]: 2
@[18446744073709551615]: 1
"""


class Bpftrace(Files):
    """The maps of bpftrace, in the form of its manual."""

    def test_maps(self):
        got, text = self.imported(BPFTRACE)
        expect_equal("the sums over all maps", profile_of(text), {0: 1, 24: 105, "large": 3})
        expect("what is said of them", got.told[0].startswith("bpftrace: 109 requests in 2 maps") and len(got.told) == 1, got.told)
        got, text = self.imported(BPFTRACE + b"@[24]: 150\nLost 3 events\n")
        expect_equal("what is printed again counts once", profile_of(text)[24], 155)
        expect("and is said", "came again" in got.told[1] and "were lost" in got.told[2], got.told)

    def test_refused(self):
        bad = "is not `@[SIZE]: COUNT`"
        more = {b"@[24]: 1": "was cut off", b"@h:\n[16, 32)             5 |@@@@@     |\n": "a histogram"}
        lines = (b"@[16, 32)  5 |@@@ |\n", b"@[1]                      5 |@@@@@     |\n", b"@[redis, 24]: 5\n", b"@[-1]: 5\n")
        for line, says in {**more, **{line: bad for line in lines}}.items():
            said = self.refused(BPFTRACE + line)
            expect(f"{line} is refused", says in said, said)
        self.refuses((b"nothing\n", "it has no line as `@[24]: 100`"), form="bpftrace")


class Command(Files):
    """The command itself."""

    def run_script(self, *words, **more):
        done = subprocess.run([SCRIPT, *words], capture_output=True, stdin=more.pop("stdin", subprocess.DEVNULL), **more)
        return done.returncode, done.stdout, done.stderr.decode()

    def test_words(self):
        path = self.given("dhat.json")
        for words, says in (
            (["--as", "dhat"], "--as goes with --import"),
            (["--import", path, "--as", "hat"], "--as takes "),
            (["--import", path, "true"], "there is no place for true"),
            (["--import"], "--import takes a value"),
            (["--import", path, "--only", "x"], "--only is for a run"),
            (["--import", path, "--live", "--measured", "x"], "--measured is for a run"),
            (["--import", path, "--timeline", "--history"], "take one of"),
            (["--import", path, "--peak", "x"], "--peak goes with"),
            (["--import", path, "--timeline"], "has no order of requests and frees"),
            (["--import", path, "--history=4"], "has no moments"),
            (["--import", path, "--as", "heaptrack"], "it has no request"),
            (["--import", os.path.join(self.place, "none")], "can't be read"),
            (["--import", self.place], "can't be read"),
        ):
            status, out, err = self.run_script(*words)
            expect(f"{' '.join(words)} is refused", (status, out) == (2, b"") and says in err and err.count("\n") == 1, status, out, err)
        status, out, err = self.run_script("--import", "/dev/null")
        expect("an empty file", (status, out) == (3, b"") and "is empty" in err, status, err)

    def test_files(self):
        said, peak = os.path.join(self.place, "said"), os.path.join(self.place, "peak")
        status, out, err = self.run_script("--said", said, "--import", self.given("dhat.json"), "--as", "dhat")
        expect("a file that is named with its format", status == 0 and profile_of(out) == self.counts("dhat.json"), status, err)
        with open(said) as file:
            expect("--said has what is said", err.replace("profile_program: ", "") == file.read(), err)
        with open(self.given("heaptrack.gz"), "rb") as file:
            status, out, err = self.run_script("--timeline", "--peak", peak, "--import", "-", stdin=file)
        expect_equal("standard input", (status, out), (0, self.imported("heaptrack.gz", import_result.TIMELINE)[1]), err)
        with open(peak, "rb") as file:
            expect_equal("--peak has the live blocks", profile_of(file.read()), self.counts("heaptrack.gz", import_result.LIVE))
        if not skip_without("zstd", "packed standard input"):
            with subprocess.Popen(["cat", self.given("heaptrack.zst")], stdout=subprocess.PIPE) as cat:
                status, out, err = self.run_script("--import", "-", stdin=cat.stdout)
            expect("packed standard input", status == 0 and profile_of(out) == self.counts("heaptrack.gz"), status, err)
        merge = os.path.join(os.path.dirname(SCRIPT), "merge_profiles")
        for name in FILES:
            done = subprocess.run([merge, self.given(name)], stdin=subprocess.DEVNULL, capture_output=True, text=True)
            good = done.returncode == 2 and "`profile_program --import`" in done.stderr
            expect(f"merge_profiles {name} names --import", good, done.stderr)
        with open("/dev/full", "wb") as full:
            done = subprocess.run([SCRIPT, "--import", self.given("dhat.json")], stdout=full, stderr=subprocess.PIPE)
            expect("standard output that is full", done.returncode == 3 and b"could not be written" in done.stderr, done.stderr)

    def test_help(self):
        status, out, _ = self.run_script("--help")
        expect("the help lists each format", status == 0 and all(f"\n  {name} " in out.decode() for name in importers.NAMES), out)


# ---- what a table tuned for an imported profile saves


def jobs(folder):
    """The programs: their words, and their standard input."""
    rows = Path(EXAMPLES, "sqlite_large.sql").read_text().replace("200000", "20000").encode()
    chance, path = random.Random(1), os.path.join(folder, "documents.json")
    with open(path, "w") as file:
        for at in range(4000):
            tags = [f"t{chance.randrange(100)}" for _ in range(chance.randrange(7))]
            print(json.dumps({"id": at, "name": "n" * chance.randint(1, 40), "tags": tags, "v": chance.random()}), file=file)
    code = 'my %h; for my $i (1..10000) { $h{"key$i"} = [$i, "v" x ($i % 97)]; }'
    return {"sqlite3": (["sqlite3", ":memory:"], rows), "jq": (["jq", "-cs", ".", path], b""), "perl": (["perl", "-e", code], b"")}


def record_program(words, given, folder, **variables):
    """Runs a program with a tool; what it writes on standard error goes to a file `said`."""
    with open(os.path.join(folder, "said"), "wb") as said:
        environment = {**os.environ, "PERL_HASH_SEED": "0", **variables}
        subprocess.run(words, input=given, cwd=folder, env=environment, stdout=subprocess.DEVNULL, stderr=said, check=True)


def files_of_tool(folder, begin):
    return sorted(name for name in os.listdir(folder) if name.startswith(begin))


def by_jemalloc(words, given, folder, options):
    record_program(words, given, folder, LD_PRELOAD="libjemalloc.so.2", MALLOC_CONF=options)
    return files_of_tool(folder, "j.") or ["said"]


SAMPLED = "prof:true,prof_accum:true,prof_final:true,prof_prefix:./j,lg_prof_sample:{}"
RECORDERS = {
    "heaptrack": lambda *job: record_program(["heaptrack", "--raw", "-o", "file", *job[0]], *job[1:]) or ["file.raw.zst"],
    "DHAT": lambda *job: record_program(["valgrind", "--tool=dhat", "--dhat-out-file=file", *job[0]], *job[1:]) or ["file"],
    "gperftools": lambda *job: record_program(*job, LD_PRELOAD="libtcmalloc.so", HEAPPROFILE="./file") or files_of_tool(job[2], "file"),
    "jemalloc's dump of each block": lambda *job: by_jemalloc(*job, SAMPLED.format(0)),
    "of a block in 4 KiB": lambda *job: by_jemalloc(*job, SAMPLED.format(12)),
    "of a block in 512 KiB": lambda *job: by_jemalloc(*job, SAMPLED.format(19)),
    "jemalloc's statistics": lambda *job: by_jemalloc(*job, "stats_print:true,stats_print_opts:Jdaxe"),
}


def waste_of(counts, tuned_for):
    """What a profile loses with the table that is tuned for another, of 32 classes and with class 1024."""
    forced = count_texts.profile_text({**tuned_for, LARGEST_SIZE: MOST_COUNT}).encode()
    line = program_runs.mte_tool(["tune", "--limit", "32"], forced)[1].split(b"\n")[0]
    return score_of(line, counts)


def score_of(line, counts):
    return int(program_runs.mte_tool(["score"], line + b"\n" + count_texts.profile_text(counts).encode())[1].split()[1])


def print_table(options):
    """How much of what the best table saves, against Scudo's default, a table tuned for each tool's file saves."""
    if not options.table:
        return None
    shares = {name: [] for name in RECORDERS}
    default = Path(EXAMPLES, "scudo.classes").read_bytes().strip()
    with tempfile.TemporaryDirectory() as folder:
        for words, given in jobs(folder).values():
            done = subprocess.run([SCRIPT, *words], input=given, capture_output=True, env={**os.environ, "PERL_HASH_SEED": "0"}, check=True)
            counts = profile_of(done.stdout)
            most = score_of(default, counts) - waste_of(counts, counts)
            for name, recorder in RECORDERS.items():
                with tempfile.TemporaryDirectory() as place:
                    path = os.path.join(place, recorder(words, given, place)[-1])
                    got = importers.import_file(path, None, import_result.ALL, 1)
                saved = score_of(default, counts) - waste_of(counts, profile_of(b"".join(got.text)))
                shares[name].append(f"{100 * saved / most:.0f}%")
    for name, row in shares.items():
        print(f"| {name} | {' | '.join(row)} |")
    return 0


def add_options(parser):
    parser.add_argument("--table", action="store_true", help="print what tables tuned for imported profiles save; with all tools installed")


if __name__ == "__main__":
    checks.main(print_table)
