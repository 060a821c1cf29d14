#!/usr/bin/env -S python3 -B
"""Tests of what Scudo is simulated to take (shims/release_model.c): its rules of release on records made by hand; drawn
records against a plain model, which looks at every page anew; records that are none, with the compiler's checks; and
the recorder's blocks, and what tune_program says of them. Needs a C compiler."""

import random
import re
import resource
import subprocess
from unittest import mock

import checks
import pytest
import release_model_plain as plain
from checks import expect
from mte_scripts import certificate_texts, count_texts, entry_point
from mte_scripts.places import SCRIPTS
from mte_scripts.tables import figures, release_model, scudo_map, simulated_words
from release_model_plain import cycle, record, request_blocks

DEFAULT = release_model.default_map(dict(figures.other_tables([]))["Scudo's default"])
MAPS = (DEFAULT, release_model.tuned_map([2, 5, 9, 66, 1024]), release_model.android_map([2, 4, 16, 32, 700]))
COMPILE = ["cc", "-O0", "-w", "-xc", "-", "-o"]
RECORD = [f"{SCRIPTS}/profile_program", "--timeline", "--as-scudo"]
FLAGS = {"model": ["-O2", "-Wall", "-Wextra", "-Werror"], "checked": ["-O1", "-g", "-fsanitize=address,undefined"]}


@pytest.fixture(scope="module")
def programs(tmp_path_factory):
    """The model, and the same with the compiler's checks."""
    checks.need("cc", "the model of release")
    place = tmp_path_factory.mktemp("release")
    for name, flags in FLAGS.items():
        subprocess.run(["cc", *flags, f"{SCRIPTS}/shims/release_model.c", "-o", place / name], check=True)
    return {name: str(place / name) for name in FLAGS}


def simulated_size(program, calls, interval=5000, of=DEFAULT, share=64):
    """The KiB for these calls."""
    return release_model.simulate(program, record(calls), [of], interval, shares=(share,))[0][0] // 1024


def test_rules(programs):
    """What each rule says. 9,000 blocks of 200 bytes take 1,970 KiB, 1,200 of 1,500 bytes 1,800, 2,000 of 10,000 bytes
    20,000; the lists of free ones 80. Of small ones a release is when 85% are free, of others when a page is."""
    small, more = cycle(200, 9000), request_blocks(1500, 1200)
    for name, calls, wanted in (
        ("the first release is at once", [*small, *more], (3850, 2150)),
        ("the second waits", [*small, ("clock", 4999, 0), *small, *more], (3850, 3850)),
        ("5 s later it comes", [*small, ("clock", 5001, 0), *small, *more], (3850, 2150)),
        ("of others the first is of a page", [*cycle(1000, 2000), *more], (3820, 3820)),
        ("above a page none waits", [*(2 * cycle(10000, 2000)), *request_blocks(14000, 1400)], (39600, 20000)),
        ("what is not dense stays", [*cycle(48, 40000)[:40000], *cycle(48, 40000)[40000::2], *more], (4400, 4400)),
        ("what files take counts", [("clock", 0, 3000), *cycle(1000, 2000)], (5000, 5000)),
    ):
        found = [simulated_size(programs["model"], calls, interval) for interval in (-1, 5000)]
        near = [abs(got - each) < 0.06 * each for got, each in zip(found, wanted)]
        expect(f"{name}: it takes {found} KiB, and not about {wanted}", all(near))
    some, zeros = request_blocks(10000, 2000), [("zeroed", 10000)] * 2000
    moved = [*request_blocks(9000, 2000), *(("resize", block, 11000) for block in range(2000))]
    for name, calls, wanted in (("one page of each block", some, 8000), ("zeros are written to all of it", zeros, 20000),
                                ("a realloc copies", moved, 32000)):
        found = simulated_size(programs["model"], calls, -1, share=0)
        expect(f"where no more is written, {name}: {found} KiB", abs(found - wanted) < 0.06 * wanted)
    kept, last = cycle(300_000, 1), ("request", 1_000_000)  # 296 and 980 KiB
    found = [simulated_size(programs["model"], [*kept, last], each) for each in (-1, 5000, 0)]
    expect("a larger block is kept", found == [1276, 1276, 980], found)
    aged = [*kept, ("clock", 6000, 0), *cycle(200_000, 1), last]
    found = [simulated_size(programs["model"], aged, each) for each in (-1, 5000)]
    expect("a kept block is given back after 5 s", found[0] - found[1] == 296, found)


def test_large_blocks(programs):
    """1,000 blocks above 16 KiB: a page at the end that is not written is not resident with the map either; and a power of
    two and its header, which reach a page more by default, take no more than their bytes."""
    for size, share, by_default, wanted in ((16414, 63, 16000, 16000), (16414, 64, 20000, 20000), (16384, 64, 20000, 16016),
                                            (131072, 64, 132000, 128016)):
        found = [simulated_size(programs["model"], request_blocks(size, 1000), -1, of, share) for of in MAPS[:2]]
        near = [abs(got - each) < 0.005 * each for got, each in zip(found, (by_default, wanted))]
        expect(f"blocks of {size} bytes, {share}/64 written: {found} KiB", all(near))


def test_against_plain_model(programs):
    """The same as the plain model, to the page, for three maps and three settings."""
    for seed in range(12):
        calls, name = plain.draw_calls(seed), "model" if seed % 5 else "checked"
        of, at = MAPS[seed % 3], seed // 3
        for interval in (-1, 0, 5000):
            got = [each // 1024 for each in release_model.simulate(programs[name], record(calls), [of], interval)[0]]
            wanted = plain.Model(of, interval, release_model.SHARES[at]).replay(calls)
            expect(f"drawn {seed} at {interval}: {got[at]} and {wanted} KiB", got[at] == wanted)
            alone = [simulated_size(programs[name], calls, interval, of, share) for share in release_model.SHARES]
            expect(f"drawn {seed}: {got} together, {alone} alone", got == alone)


def test_several_at_once(programs):
    """For each order and each map a line, as each of them alone gives it; and faults of each are told once."""
    timeline, _ = plain.drawn_timeline(-1)
    together = release_model.simulate(programs["checked"], timeline, list(MAPS), 0, release_model.ORDERS)
    alone = [release_model.simulate(programs["model"], timeline, [of], 0, (order,))[0] for order in release_model.ORDERS for of in MAPS]
    expect(f"{together} together, {alone} alone", together == alone)
    with pytest.raises(entry_point.Refusal, match="simulated: release_model: the timeline frees no live block$"):
        release_model.simulate(programs["model"], b"timeline\n-9\n", list(MAPS), 0, release_model.ORDERS)


def test_orders(programs):
    """A timeline, of whose blocks of a size the last or the first is freed: what a record with these blocks takes."""
    for order, place in (("last", -1), ("first", 0)):
        timeline, calls = plain.drawn_timeline(place)
        got = release_model.simulate(programs["checked"], timeline, [DEFAULT], 5000, (order,), (64,))[0][0] // 1024
        expect(f"the {order} of a size: {got}", got == simulated_size(programs["model"], calls))


def test_time(programs):
    """Eight million events in about a second, and twice as many in twice the time."""
    chosen, frees = random.Random(2), list(range(1000))
    chosen.shuffle(frees)
    piece = record([("request", chosen.randrange(3000)) for _ in frees] + [("free", each) for each in frees])

    def spent(number):
        before = resource.getrusage(resource.RUSAGE_CHILDREN).ru_utime
        release_model.simulate(programs["model"], number * piece, [DEFAULT], 0)
        return resource.getrusage(resource.RUSAGE_CHILDREN).ru_utime - before

    few = min(spent(2000) for _ in range(3))
    many = checks.least(lambda: spent(4000), min(2.6 * few, 4))
    expect(f"4 million events take {few} s, and 8 million {many}", many <= min(2.6 * few, 4))


def test_hostile_records(programs):
    """What is no record, and words that are none: refused, with no word of the compiler's checks."""
    for data, is_faulty in plain.hostile_records():
        done = subprocess.run([programs["checked"], *"5000 40 14:10:2,9,1024".split()], input=data, capture_output=True)
        is_plain = done.returncode in (0, 2) and done.stderr.count(b"\n") == (done.returncode == 2)
        expect(f"{data[:20]!r}: {done}", is_plain and done.returncode >= 2 * is_faulty)
    for words in plain.HOSTILE_WORDS:
        status = subprocess.run([programs["checked"], *words.split()], input=b"x", capture_output=True).returncode
        expect(f"{words}: {status}", status == 2)


def test_record(tmp_path, monkeypatch):
    """The blocks of a program that is recorded, beside the same timeline; and the interval of SCUDO_OPTIONS."""
    subprocess.run([*COMPILE, "./calls"], cwd=tmp_path, check=True, input=plain.CALLS, text=True)
    runs = [[*RECORD, *more, "./calls"] for more in (["--blocks", "blocks"], [])]
    out = [subprocess.run(run, cwd=tmp_path, capture_output=True, check=True).stdout for run in runs]
    expect("the timeline is the same without the blocks", out[0] == out[1] and count_texts.is_timeline(out[0]))
    whole = plain.calls_of((tmp_path / "blocks").read_bytes())
    calls = [call for call in whole if call[0] != "clock"]
    a, b, c = (calls.index(call) for call in (("request", 3001), ("zeroed", 5002), ("request", 7003)))
    number = plain.numbers_of(calls)
    rest = [("resize", number[b], 90004), ("free", number[c]), ("free", number[b])]
    is_right = calls[a + 2] == ("free", number[a]) and calls[c + 1 : c + 4] == rest and number[c] == number[a]
    expect(f"the calls are {calls}", is_right)
    expect("a clock comes first, with the files", whole[1][0] == "clock" and whole[1][2] > 500, whole[:3])
    monkeypatch.setenv("SCUDO_OPTIONS", "a=1:release_to_os_interval_ms=-7,b=2")
    expect("the interval of SCUDO_OPTIONS", release_model.interval_asked_for() == -1)


def test_first_line(tmp_path):
    """What tune_program predicts of a run: what the plain model says of its blocks."""
    checks.built_program()
    subprocess.run([*COMPILE, "./job"], cwd=tmp_path, check=True, input=plain.JOB, text=True)
    how = {"cwd": tmp_path, "capture_output": True, "check": True, "text": True}
    out = " ".join(subprocess.run([f"{SCRIPTS}/tune_program", "./job"], **how).stdout.split())
    subprocess.run([*RECORD, "--blocks", "blocks", "./job"], **how)
    calls = plain.calls_of((tmp_path / "blocks").read_bytes())
    maps = (DEFAULT, release_model.tuned_map(certificate_texts.class_line(str(tmp_path / "job.tuned" / "fitted.fit"))))
    sizes = [[plain.Model(of, 5000, share).replay(calls) for of in maps] for share in release_model.SHARES]
    saved = [default - tuned for default, tuned in sizes]
    wanted = [end + way * max(256, abs(end) / 20) for way, end in ((-1, min(saved)), (1, max(saved)))]
    said = re.search(r"least footprint, ([0-9.,]+) to ([0-9.,]+) KiB less than Scudo's default", out)
    ends = [float(each.replace(",", "")) for each in said.groups()] if said else [1 << 60]
    expect("the first line", all(abs(end - each) <= 8 for end, each in zip(ends, wanted)), ends, saved, out[:200])


def test_words():
    """What is said of a range that was simulated, in KiB: each end is moved by its twentieth, and by 256 at least. And
    whether it has to be measured: it may be less and more, or is wide, which is above a tenth, and 256."""
    for low, high, wanted, is_unsure in (
            (8, 8, "from 248 KiB more to 264 KiB less", True), (-300, 200, "from 556 KiB more to 456 KiB less", True),
            (-900, -200, "from 1,156 KiB more to 56.0 KiB less", True), (300, 500, "44.0 to 756 KiB less", False),
            (300, 600, "44.0 to 856 KiB less", True), (9216, 9700, "8,755 to 10,185 KiB less", False),
            (-9700, -9216, "8,755 to 10,185 KiB more", False), (6000, 6800, "5,700 to 7,140 KiB less", True)):
        saved = release_model.Saving(1024 * low, 1024 * high, None, 5000)
        expect(f"{saved}", (simulated_words.difference(saved), saved.is_unsure()) == (wanted, is_unsure))


def test_worth():
    """What the first line says of these ranges in KiB, of a process of 50,000: no more than 512 or 0.5% is not worth it."""
    found = mock.Mock(first=mock.Mock(), others=[mock.Mock()])
    found.first.name, found.others[0].name = "least footprint", "Scudo's default"
    for low, high, begins, ends in ((0, 200, "a table is not worth it here; ", "-0.5 to 0.9% of the process"),
                                    (0, 300, "least", "-0.5 to 1.1% of the process: measure"),
                                    (9000, 9200, "least", "17.1 to 19.3% of the process")):
        saved = release_model.Saving(1024 * low, 1024 * high, None, 5000)
        said = simulated_words.first_line(found, saved, 1024 * 50_000)
        expect(f"{low} to {high}: {said}", said.startswith(begins) and said.endswith(ends))


def test_maps():
    """The map that is simulated is the one that is printed; above 16 KiB Scudo's default has these."""
    for classes in ([2, 5, 9, 66, 1024], [2, 700]):
        printed = re.search(r"Granules\[\] = \{(.*?)\}", scudo_map.as_default(classes), re.S)[1]
        expect(f"{classes}", release_model.tuned_map(classes).classes == [int(each) for each in printed.split(",")])
    larger = [64 * kibibytes for kibibytes in (16, 20, 24, 28, 32, 40, 48, 56, 64, 80, 96, 112, 128)]
    expect("Scudo's own", DEFAULT.classes[-13:] == larger and DEFAULT.classes[-14] < 1024, DEFAULT.classes)
