"""Histories of blocks, with wrong accesses and frees after each: what scripts/tests/test_real_heaps.py plays in the real Scudo and glibc, and what the
odds say of them. The events are those of scripts/shims/real_heaps/driver.h.

heap_rows.tsv has what `scripts/tests/test_real_heaps.py --rows` measured: of each question, in how many runs each heap caught it."""

import os
import re
from collections import namedtuple

from mte_scripts.faults import histories, other_heaps
from mte_scripts.faults.fault_log import Error

ROWS = os.path.join(os.path.dirname(os.path.realpath(__file__)), "heap_rows.tsv")
ON = {"Scudo": other_heaps.on_scudo, "glibc": other_heaps.on_glibc}
PITCH = 224  # of two blocks of 200 bytes, side by side, in either heap
LARGE = 200_000

Case = namedtuple("Case", "name heaps events questions")


def case(name, events, questions, heaps=("Scudo", "glibc")):
    return Case(name, heaps, events.split("; "), questions.split("; "))


def stores(block, *places):
    """Stores of a byte at some places, or of (place, size)."""
    sized = (place if isinstance(place, tuple) else (place, 1) for place in places)
    return "; ".join(f"S {block} {at} {size}" for at, size in sized)


def frees(block, *offsets):
    return "; ".join(f"x {block} {offset}" for offset in offsets)


def overflows():
    for size in (1, 40, 48, 200, 4000, 16000):
        sizes = [(size, each) for each in (1, 2, 4, 8, 9, 15, 16, 17, 24, 32, 48, 64)]
        yield case(f"malloc({size})", f"m 1 {size}", stores(1, *sizes, size + 16, size + 32, size + 48, size + 100))
    yield case("calloc(40)", "c 1 40", stores(1, 40, 48, 64, 80, -1))
    yield case("malloc(0)", "m 1 0", stores(1, 0, 15, 16, 32, -1))
    yield case("before malloc(200)", "m 1 200", stores(1, -1, -8, -16, -17, -32, -33, -48, -64, (-100, 90)))
    for name, times in (("next to", 1), ("before", -1), ("two after", 2), ("three after", 3)):
        at = times * PITCH
        yield case(f"the block {name} malloc(200)", f"m 1 200; p 1 2 200 {at} 600", stores(1, (at, 8), (at + 100, 8), (at + 190, 8), (at - 16, 8)),
                   ("Scudo", "glibc")[: 1 + (times > 0)])


def freed_cases():
    for reuses in range(9):
        again = "".join(f"; m {n + 2} 200; = 1 {n + 2} 0; f {n + 2}" for n in range(reuses))
        asked = stores(1, (0, 8), (96, 8), (192, 8), (-8, 8), (208, 8), (240, 8))
        yield case(f"free(200), {reuses} users after it, the last freed", "m 1 200; f 1" + again, f"{asked}; {frees(1, 0, 8, 16, 208)}")
        if reuses:
            again = again.rpartition("; f ")[0]
            yield case(f"free(200), {reuses} users after it, the last live", "m 1 200; f 1" + again, f"{asked}; {frees(1, 0)}")
    many = "; ".join(f"m {n} 40" for n in range(2, 302))
    yield case("free(40), 300 requests of 40", f"m 1 40; f 1; {many}", f"{stores(1, 0, 39, 48, -1)}; x 1 0")
    yield case("free(40), another's free", "m 1 40; m 2 40; f 1; f 2", f"{stores(1, 0, 39, 48, 64, -1)}; x 1 0; R 1 0 50")
    yield case("free(0), malloc(10) there", "m 1 0; f 1; m 2 10; = 1 2 0", stores(1, 0, 9, -1))


def resized_cases():
    short = "m 1 4000; r 1 2 40; = 1 2 0"
    yield case("realloc(4000 to 40)", short, stores(2, 48, 63, 64, 100, 2000, 3999, 4000, 4015, 4016, (56, 64), (64, 64), (64, 4000)))
    yield case("realloc(4000 to 40), the old pointer", short, f"{stores(1, 0, 39, 47, 48, 64, 100, 3999, (0, 40), (0, 49))}; {frees(1, 0, 16)}")
    yield case("realloc(4000 to 40), freed", f"{short}; f 2", f"{stores(2, 0, 39, 48, 63, 64, 100, 3999)}; {frees(2, 0, 16)}")
    yield case("realloc(4000 to 40), freed, and another's free", f"m 5 4000; {short}; f 2; f 5", stores(2, 0, 48, 64, 100))
    yield case("realloc(4000 to 40), a request since", f"{short}; m 3 100", stores(2, 48, 64, 100, 3999))
    yield case("realloc(4000 to 40), freed, malloc(4000) there", f"{short}; f 2; m 3 4000; = 2 3 0", stores(2, 0, 39, 48, 100, 3999), ("Scudo",))
    yield case("realloc(4000 to 40), freed, another malloc", f"{short}; f 2; m 3 64", stores(2, 0, 39, 48, 64, 100, 3999))
    yield case("realloc(4000 to 3000 to 40)", "m 1 4000; r 1 2 3000; r 2 3 40; = 1 3 0", stores(3, 48, 64, 2999, 3008, 3023, 3024, 3999, (2990, 40)))
    yield case("realloc(4000 to 40 to 3000)", "m 1 4000; r 1 2 40; r 2 3 3000; = 1 3 0", stores(3, 3000, 3008, 3024, 3500, 3999, 4016))
    yield case("realloc(40 to 44), the old pointer", "m 1 40; r 1 2 44", f"{stores(1, 0, 39, 43, 48)}; {frees(1, 0)}")
    yield case("realloc(900 to 1000), the old pointer", "m 1 900; r 1 2 1000", stores(1, 0, 899, 912, 999, 1008, 1100))
    yield case("realloc(900 to 1000), freed, the old pointer", "m 1 900; r 1 2 1000; f 2", f"{stores(1, 0, 899, 912, 1008)}; x 1 0")
    yield case("realloc(40 to 4000), the old pointer", "m 1 40; r 1 2 4000", f"{stores(1, 0, 39, 48, -1)}; {frees(1, 0)}")
    yield case("realloc(60000 to 100), the old pointer", "m 1 60000; r 1 2 100", f"{stores(1, 0, 99, 112, 30000, -1)}; {frees(1, 0)}", ("Scudo",))
    yield case("realloc(40 to 4000), a request since", "m 1 40; r 1 2 4000; m 3 40", stores(1, 0, 39, 48, -1))


def reused_cases():
    smaller = "m 1 1000; f 1; m 2 900; = 1 2 0"
    smallest = f"{smaller}; f 2; m 3 800; = 1 3 0"
    for name, events, asked in (
        ("free(1000), malloc(900) there", smaller, stores(2, 900, 912, 927, 928, 950, 999, 1008, 1088, 1100)),
        ("free(1000), malloc(900) there, the first pointer", smaller, stores(1, 0, 912, 950, 999, 1008, -1)),
        ("free(1000), malloc(900) there, freed", f"{smaller}; f 2", stores(2, 0, 899, 912, 928, 950, 999, 1008)),
        ("malloc(1000), malloc(900) and malloc(800) there", smallest, stores(3, 800, 816, 850, 912, 950, 999, 1024)),
    ):
        yield case(name, events, asked, ("Scudo",))
        yield case(name.replace(" there", ""), re.sub("; = [0-9 ]*", "", events), asked, ("glibc",))
    yield case("free(40), malloc(900)", "m 1 40; f 1; m 2 900", stores(2, 900, 912, 928, 1000, 1088))
    yield case("free(900), malloc(900) there, realloc to 200", "m 1 900; f 1; m 2 900; = 1 2 0; r 2 3 200; = 2 3 0", stores(3, 208, 224, 500, 911, 912, 928))


def wrong_frees():
    yield case("a free inside, and before", "m 1 200", frees(1, 8, 16, 32, 96, 192, 208, -16, -8, 224))
    yield case("a second free", "m 1 200; f 1", frees(1, 0, 16, 96, 200, 208))
    yield case("a realloc of what was freed", "m 1 200; f 1", "R 1 0 300; R 1 0 100")
    yield case("a free of the stack", "m 1 200", "n")


def aligned_cases():
    for alignment, size in ((32, 100), (64, 100), (256, 40), (4096, 100), (64, 1000)):
        name = f"memalign({alignment}, {size})"
        yield case(name, f"a 1 {size} {alignment}", f"{stores(1, -1, -16, -17, -40, size, size + 16, size + 32, size + 48, size + 64)}; x 1 16")
        yield case(f"{name}, freed", f"a 1 {size} {alignment}; f 1", f"{stores(1, -1, -17, 0, size - 1, size + 16)}; x 1 0")
    yield case("memalign(64, 100), freed, malloc(150) in its place", "a 1 100 64; f 1; m 2 150; / 1 2", stores(1, -1, 0, 50, -16, -17), ("Scudo",))
    yield case("malloc(150), freed, memalign(64, 100) in its place", "m 1 150; f 1; a 2 100 64; / 1 2", stores(2, -1, -17, 100, 112, 128), ("Scudo",))
    yield case("memalign(64, 900), freed, memalign(64, 40) there", "a 1 900 64; f 1; a 2 40 64", stores(2, 40, 48, 64, 100, 800))


def large():
    yield case(f"malloc({LARGE})", f"m 1 {LARGE}", stores(1, LARGE, LARGE + 15, LARGE + 4095, -1, -16, (-17, 2), -64), ("Scudo",))
    yield case(f"malloc({LARGE - 8})", f"m 1 {LARGE - 8}", stores(1, *((LARGE - 8, each) for each in (1, 8, 9, 64))), ("Scudo",))
    yield case(f"malloc({LARGE}), freed", f"m 1 {LARGE}; f 1", f"{stores(1, 0, 100, 100000, -1)}; x 1 0; x 1 8", ("Scudo",))
    again = "; ".join(f"m {n} {LARGE}; f {n}" for n in range(2, 34))
    yield case(f"malloc({LARGE}), freed, another there", f"m 1 {LARGE}; f 1; {again}; p 1 99 {LARGE} 0 80", stores(1, 0, 100, 100000), ("Scudo",))
    shrunk = f"m 1 {LARGE}; r 1 2 {LARGE - 2000}; = 1 2 0"
    yield case(f"realloc({LARGE} to {LARGE - 2000})", shrunk, f"{stores(2, LARGE - 2000, LARGE - 1, LARGE)}; S 1 0 8; x 1 0", ("Scudo",))
    yield case(f"realloc({LARGE} to 100)", f"m 1 {LARGE}; r 1 2 100", stores(1, 0, 99, 1000), ("Scudo",))


CASES = [each for group in (overflows, freed_cases, resized_cases, reused_cases, wrong_frees, aligned_cases, large) for each in group()]


def shares_of(heap, events, questions):
    """What the odds of a heap are for each question."""
    seen, sizes, states = histories.Histories(), {}, {}
    for event in events:
        letter, *numbers = event.split()
        one, two, three = [*map(int, numbers), 0, 0, 0][:3]
        if letter in "mca":
            sizes[one], states[one] = two, "live"
            seen.request(one, two, three if letter == "a" else histories.GRANULE)
        elif letter == "r":
            sizes[two], states[one], states[two] = three, "resized", "live"
            seen.resize(one, two, sizes[one], three)
        elif letter == "f":
            states[one] = "freed"
            seen.free(one, sizes[one])
        elif letter == "p":
            sizes[two], states[two] = three, "live"
            seen.request(two, three)
    return [share_of(heap, seen, sizes, states, question.split()) for question in questions]


def share_of(heap, seen, sizes, states, words):
    block, offset, size = [*map(int, words[1:]), 0, 0, 0][:3]
    letter = words[0] if words[0] in "LSn" else "x"
    error = Error(letter, block, offset, size if letter in "LS" else 0, 0, states.get(block, "live"))
    return ON[heap](error, sizes.get(block, 0), seen.past(block))


def rows():
    """Of heap_rows.tsv: (in how many runs it was caught, how many runs there were), by heap, case and question."""
    with open(ROWS, encoding="utf-8") as file:
        split = [line.rstrip("\n").split("\t") for line in file if not line.startswith("#")]
    return {(heap, name, asked): (int(caught), int(runs)) for heap, name, asked, caught, runs in split}


def is_true(share, caught, runs):
    """Whether a share agrees with so many runs: nothing is said where it is not derived or has a condition."""
    least = float(share.least)
    spread = 4 * (least * (1 - least) * runs) ** 0.5
    return caught >= least * runs - spread and (not share.is_exact or caught <= least * runs + spread)
