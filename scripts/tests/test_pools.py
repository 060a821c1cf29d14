#!/usr/bin/env -S python3 -B
"""Tests of scripts/pools against the definition of pools, over all pools of small runs.

Compare the pools that scripts/pools finds for small runs with all pools, by what pools are: each run is played over them, and each request
takes a block of the pool with the smallest blocks that hold it. Spoil pools and their certificates, and play runs over one block less.
Then compile what it prints for each system against a stub of that system, and count the blocks. The program is the one that MTE_TOOL
names, else the proved one. Without one the sentences alone are tested, over the plain program, and it says so.
"""

import itertools
import os
import random
import re
import subprocess
import tempfile
from collections import Counter
from concurrent.futures import ProcessPoolExecutor

import checks
import claims_cases
import pytest
from checks import expect
from mte_scripts import claim_words, count_texts, entry_point, program_runs, text_files
from mte_scripts.formats import LARGEST_SIZE
from mte_scripts.pools import pool_forms, pool_runs, pool_sets
from mte_scripts.tables import figures

HERE = os.path.dirname(os.path.realpath(__file__))
ROOT = os.path.dirname(os.path.dirname(HERE))
SCRIPT = os.path.join(ROOT, "scripts/pools")
CLAIM = re.compile(
    r"of the sets of at most (\d+) pools? that serve (.+?) at every moment, with blocks of a multiple of (\d+) bytes of which (\d+) hold no "
    r"request, none takes less than ([\d,]+) bytes?\."
)


class Trial:
    def __init__(self):
        self.count, self.failures, self.refused = 0, [], Counter()

    def expect(self, holds, what):
        self.count += 1
        if not holds:
            self.failures.append(what)


# ---- what pools are


def block_of(size, unit, overhead, blocks):
    """The smallest of these blocks, in bytes, that holds a request of so many."""
    return min((block for block in blocks if block >= max(size + overhead, 1)), default=None)


def play_run(run, blocks, unit, overhead):
    """The most blocks live at once of each size, and what has no block."""
    live, most, unserved = Counter(), Counter(), 0
    for event in run:
        if event.endswith("large"):
            continue
        block = block_of(int(event.lstrip("-")), unit, overhead, blocks)
        unserved += block is None
        live[block] += -1 if event.startswith("-") else 1
        most[block] = max(most[block], live[block])
    return most, unserved


def refused_requests(run, pools, unit, overhead):
    """How many requests find no free block, of pools as {block: number}; the frees of such blocks count for nothing."""
    free, missed, without = dict(pools), Counter(), 0
    for event in run:
        if event.endswith("large"):
            continue
        size = event.lstrip("-")
        block = block_of(int(size), unit, overhead, pools)
        if not event.startswith("-"):
            if block is None or not free[block]:
                without, missed[size] = without + 1, missed[size] + 1
            else:
                free[block] -= 1
        elif missed[size]:
            missed[size] -= 1
        else:
            free[block] += 1
    return without


def bytes_of(runs, blocks, unit, overhead):
    """What pools with these blocks take so that they serve each run; None where a request has no block."""
    need = Counter()
    for run in runs:
        most, unserved = play_run(run, blocks, unit, overhead)
        if unserved:
            return None
        need |= most
    return sum(block * number for block, number in need.items())


def all_sets(runs, unit, overhead, limit):
    """All sets of at most so many blocks, up to the largest that a request takes and one above."""
    sizes = [int(event) for run in runs for event in run if event.isdigit()]
    top = -(-(max(sizes) + overhead) // unit) + 2
    blocks = [unit * each for each in range(1, max(top, 3))]
    return itertools.chain.from_iterable(itertools.combinations(blocks, many) for many in range(1, limit + 1))


def least_bytes(*given):
    """The least that pools of runs take, by their unit, overhead and limit."""
    runs, unit, overhead, _ = given
    takes = (bytes_of(runs, blocks, unit, overhead) for blocks in all_sets(*given))
    return min(each for each in takes if each is not None)


# ---- the trials


def timeline(run):
    return "".join(f"{line}\n" for line in ["timeline", *run])


def random_run(rng, sizes):
    live, run, up = [], [], rng.choice([0.5, 0.7, 0.9])
    for _ in range(rng.choice([1, 6, 12, 25])):
        if live and rng.random() > up:
            run.append("-" + live.pop(rng.randrange(len(live))))
        else:
            live.append(rng.choice(sizes))
            run.append(live[-1])
        if rng.random() < 0.1:
            up = 1 - up
    return run


def random_runs(rng, unit):
    """Some runs, of which one requests something."""
    top = rng.choice([2, 4, 9])
    sizes = [str(rng.randint(0, unit * top)) for _ in range(rng.randint(1, 6))] + ["large"] * rng.randint(0, 1)
    runs = [random_run(rng, sizes) for _ in range(rng.choice([1, 1, 2, 3]))]
    return runs if any(event.isdigit() for run in runs for event in run) else [["8"], *runs]


def of_timelines(runs):
    return [pool_runs.Timeline(f"{at}.timeline", timeline(run).encode()) for at, run in enumerate(runs)]


def table_footprint(lines, classes):
    """Of the text for the program, by the definition of footprints: classes are granules of 16 bytes, the first of them a header."""
    live, most = Counter(), Counter()
    for line in lines:
        if line.endswith("large"):
            continue
        need = 1 + max(1, -(-int(line.lstrip("-")) // 16))
        its = min((each for each in classes if each >= need), default=None)
        if its is None:
            return None
        live[its] += -1 if line.startswith("-") else 1
        most[its] = max(most[its], live[its])
    return sum(16 * each * number for each, number in most.items())


def try_small_runs(trial, rng):
    unit, overhead, limit = rng.choice(pool_runs.UNITS), rng.choice([0, 0, 4, 8, 13]), rng.randint(1, 3)
    runs = random_runs(rng, unit)
    given, block = of_timelines(runs), pool_runs.Block(unit, overhead)
    what = f"--limit {limit} --unit {unit} --overhead {overhead} of {runs}"
    # each set of pools takes as much in units as in bytes
    text = pool_runs.join_runs(given, block)
    least = None
    for blocks in all_sets(runs, unit, overhead, limit):
        takes = bytes_of(runs, blocks, unit, overhead)
        in_units = table_footprint(text.text.decode().split("\n")[1:-1], [text.scale * (each // unit) for each in blocks])
        is_same = in_units == (None if takes is None else takes * 16 * text.scale // unit)
        trial.expect(is_same, f"{what}: {blocks} take {takes}, and in units {in_units}")
        if takes is not None and (least is None or takes < least):
            least = takes
    # and no set takes less than what is found
    found = pool_sets.find_pools(given, block, limit)
    pools = dict(found.pools)
    trial.expect(found.fit and found.bytes == least, f"{what}: {found.pools} of {found.bytes} bytes, and some pools take {least}")
    trial.expect(len(pools) <= limit and all(each % unit == 0 for each in pools), f"{what}: {found.pools}")
    trial.expect(not any(refused_requests(run, pools, unit, overhead) for run in runs), f"{what}: {found.pools} refuse a request")
    for each in pools:
        fewer = {**pools, each: pools[each] - 1}
        trial.expect(any(refused_requests(run, fewer, unit, overhead) for run in runs), f"{what}: {found.pools} have a block of {each} too many")
    try_verdict(trial, rng, given, found, what)


def with_text(text):
    """The pools of a text, as a file of it is read."""
    with tempfile.NamedTemporaryFile("w", suffix=".pools") as file:
        file.write(text)
        file.flush()
        return pool_sets.read_pools(file.name)


def try_verdict(trial, rng, given, found, what):
    """What was found is right for its runs; spoiled it is refused, unless it says the same."""
    text = found.text()
    verdict = pool_sets.judge_pools(with_text(text), given)
    is_right = not verdict.why and verdict.claim.holds and found.given.bytes_of(verdict.claim.cost, found.block) == found.bytes
    trial.expect(is_right, f"{what}: {text!r} is refused: {verdict.why}")
    lines = text.split("\n")
    at = rng.randrange(len(lines) - 1)
    words = lines[at].split(" ")
    place = rng.randrange(len(words))
    words[place] = rng.choice(["0", "1", "8", str(int(words[place]) + rng.choice([-1, 1, 8, 16])) if words[place].isdigit() else "pool"])
    other = rng.choice([lines[:at] + lines[at + 1 :], lines[:at] + [" ".join(words)] + lines[at + 1 :], lines[: at + 1] + lines[at:]])
    if other == lines:
        return
    try:
        spoiled = with_text("\n".join(other))
        why = pool_sets.judge_pools(spoiled, given).why
    except entry_point.Refusal as problem:
        why = problem.text
    trial.refused[why.split(":")[0][:40] if why else "none"] += 1
    if not why:
        # what is changed still says what is so, perhaps of another overhead
        runs = [run.data.decode().split("\n")[1:-1] for run in given]
        shape = (spoiled.block.unit, spoiled.block.overhead)
        limit = int(next(line for line in other if line.startswith("limit ")).split()[1])
        least, accepted = least_bytes(runs, *shape, limit), f"{what}: {other} is taken for right"
        trial.expect(spoiled.bytes == least, f"{accepted}, and some pools take {least}")
        is_served = not any(refused_requests(run, dict(spoiled.pools), *shape) for run in runs)
        trial.expect(is_served, f"{accepted}, and refuses a request")


def part_of(seed, whole, part, parts):
    rng, trial = random.Random(f"{seed} {part}"), Trial()
    for _ in range((2000 if whole else 120) // parts):
        try_small_runs(trial, rng)
    return trial


# ---- histories


def of_histories(trial, rng):
    """The pools for sampled runs serve the snapshots of all of them, and none take less."""
    for _ in range(40):
        unit, overhead, limit = rng.choice(pool_runs.UNITS), rng.choice([0, 4, 8]), rng.randint(1, 3)
        histories = []
        for at in range(rng.randint(1, 2)):
            counts = {rng.randint(0, 60): [rng.randint(0, 3) for _ in range(3)] for _ in range(3)}
            histories.append(count_texts.History(3, {size: each if any(each) else [1, 0, 0] for size, each in counts.items()}))
        given = [pool_runs.History(f"{at}.history", each) for at, each in enumerate(histories)]
        # a snapshot is the run of its requests
        runs = [[str(size) for size, its in each.counts.items() for _ in range(its[at])] for each in histories for at in range(3)]
        found = pool_sets.find_pools(given, pool_runs.Block(unit, overhead), limit)
        what = f"--limit {limit} --unit {unit} --overhead {overhead} of {histories}"
        trial.expect(found.bytes == least_bytes(runs, unit, overhead, limit), f"{what}: {found.pools}")
        trial.expect(not any(refused_requests(run, dict(found.pools), unit, overhead) for run in runs), f"{what}: {found.pools} refuse a request")
        trial.expect(
            not pool_sets.judge_pools(with_text(found.text()), given).why, f"{what}: they are refused"
        )


# ---- the script


def run(words, status, says=(), given=None, folder=None, both=False):
    """Runs the script; what it prints, and with BOTH what it says on standard error too."""
    words = words.split() if isinstance(words, str) else words
    done = subprocess.run([SCRIPT, *words], input=given, capture_output=True, text=True, cwd=folder, timeout=120)
    shown = f"{words}: status {done.returncode}: {done.stdout[-900:]} {done.stderr[-600:]}"
    expect(f"{shown}, and not {status}", done.returncode == status and "not foreseen" not in done.stderr)
    said = done.stdout + done.stderr
    for text in [says] if isinstance(says, str) else says:  # a long name of a folder may break a line elsewhere
        expect(f"{shown}: it does not say `{text}`", text in said or text in " ".join(said.split()))
    return said if both else done.stdout


LEFT = "timeline\n24\n100\n24\n-24\n60\n"  # its blocks are live at the end
OTHER = "timeline\n60\n60\n60\n-60\n-60\n-60\n8\n"


def write(folder, name, text):
    path = os.path.join(folder, name)
    with open(path, "w") as file:
        file.write(text)
    return path


def cells_in(made):
    return [line.split() for line in made.split("\n")]


def words_and_files(work):
    """What the script prints of runs, and what it refuses."""
    one, _ = write(work, "one.timeline", LEFT), write(work, "other.timeline", OTHER)
    shown = run("--help", 0, ["Usage: ", "Exit status:", "What is proved: "])
    expect("--help: a line has more than 132 columns", max(map(len, shown.split("\n"))) <= 132)
    wanted = ["Needed by", "none takes less than 280 bytes"]
    made = run("--limit 2 --unit 4 one.timeline other.timeline", 0, wanted, folder=work)
    # 24 twice and 100 in the one, 60 three times in the other: by hand
    for row in (["60", "60", "3", "180", "other.timeline"], ["100", "100", "1", "100", "one.timeline"]):
        expect(made, row in cells_in(made))
    run(f"--limit 1 --unit 4 {one} {one}", 0, "one.timeline and 1 more")
    run(f"--limit=2 --unit=4 -- {one}", 0, "none takes less than 220 bytes")
    run("--limit 2 -", 0, "standard input", given=LEFT)
    # today's pools, by hand: 24 takes 32, 60 and 100 take 128
    today = ["Today's pools take 1,184 bytes", "short of blocks: those of 32 by 1"]
    made = run(f"--limit 3 --today 32x1,128x9 {one}", 0, today)
    expect(made, ["32", "1", "2", "32"] in cells_in(made))
    run(f"--limit 3 --today 32x2 {one}", 0, "no block for a request of 60 bytes")
    # a reserve is rounded up for each pool: three blocks of 60 for two, and two of 100 for one
    reserve = ["With reserve", "With a reserve of 10% they take 380 bytes, 160 more."]
    run(f"--limit 2 --unit 4 --reserve 10 {one}", 0, reserve)
    made = run(f"--limit 3 --unit 4 --each {one}", 0, "holds of each number")
    # one pool of 100 for three blocks; 60 and 100; 24, 60 and 100: by hand
    expect(made, cells_in(made)[1:4] == [["1", "300"], ["2", "220"], ["3", "208"]])
    large = write(work, "large.timeline", LEFT + "large\n-large\n")
    run(f"--limit 2 {large}", 0, f"more than {LARGEST_SIZE:,} bytes, which have no pool")
    history = write(work, "app.history", "snapshots 2\n24 2 1\n60 0 3\n")
    run(f"--limit 2 {history}", 0, "sampled")
    run(f"--limit 2 --as c {history}", 0, "sampled")
    run(f"--limit 2 {history} {one}", 2, "timelines alone, or histories alone")
    refused_words(one)
    refused_texts(one, work)


def refused_words(one):
    for words, says in (
        ("", "name a timeline"), (one, "--limit K is wanted"), (f"--limit 0 {one}", "from 1 to 32"),
        (f"--limit 33 {one}", "from 1 to 32"), (f"--limit 2 --each --as c {one}", "alone"),
        ("--limit", "takes a value"), ("--wrong", "no option"), (f"--limit 2 --unit 12 {one}", "4, 8, 16 or 32"),
        (f"--limit 2 --overhead -1 {one}", "from 0 to"), (f"--limit 2 --today 8 {one}", "128x156"),
        (f"--limit 2 --today 8x1,8x2 {one}", "twice"), (f"--limit 2 --as ada {one}", "takes c,"),
        (f"--limit 2 --name 1 {one}", "name in C"), ("--limit 2 - -", "once"), (f"--units=1 {one}", "takes no value"),
        (f"--limit 2 --reserve 1001 {one}", "from 0 to 1000"), (f"--check p --as c {one}", "no place"),
        (f"--read p {one}", "by --as FORM"), (f"--read p --as c {one}", "by --as FORM"),
        ("--limit 2 nowhere", "No such file"),
    ):
        run(words, 2, says)


def refused_texts(one, work):
    """What is refused of texts, units and files."""
    for text, status, says in (
        ("", 2, "is empty"), ("timeline\n", 3, "no request"), ("timeline\nlarge\n", 3, "no request"),
        ("timeline\n-8\n", 2, "line 2: a free"), ("timeline\n8\n-9\n", 2, "line 3: a free"),
        ("timeline\n08\n", 2, "line 2: a line of the timeline"), ("timeline\n8\n\n8\n", 2, "line 3:"),
        ("timeline\r\n8\r\n", 2, "CRLF"), ("timeline\n8\r\n", 2, "CRLF"), ("\ufefftimeline\n8\n", 2, "BOM"),
        ("16 4\n", 2, "a profile"), ("malloc 1 16\n", 2, "`timeline`"), ("timeline 8\n8\n", 2, "`timeline`"),
        ("snapshots 2\n8 1\n", 2, "2 counts"), ("snapshots 1\n", 3, "no request"), ("timeline\n16369\n", 2, "line 2:"),
    ):
        run(["--limit", "2", write(work, "given", text)], status, says)
    # the range of units, and where it ends
    above = ["takes 1,025 units of 4 bytes, and the limit is 1,024", "take --unit 16"]
    by_one = ["513 units", "the limit is 512 units where a request takes one unit", "take --unit 8"]
    for unit, text, says in (
        ("4", "5\n4096", ()), ("4", "5\n4097", above), ("4", "4\n2048", ()), ("4", "4\n2049", by_one),
        ("32", f"4\n{LARGEST_SIZE}", ()),
    ):
        run(["--limit", "2", "--unit", unit, write(work, "wide", f"timeline\n{text}\n")], 2 if says else 0, says)
    wide = os.path.join(work, "wide")
    run(f"--limit 2 --unit 32 --overhead 17 {wide}", 2, "memory of their own")
    run(f"--limit 2 --unit 32 --overhead 16 {wide}", 0)
    many = write(work, "many.history", "snapshots 99\n24 " + " ".join(["1"] * 99) + "\n")
    run(["--limit", "2", *[many] * 11], 2, "1,089 snapshots")
    counted = write(work, "counted.history", "snapshots 1\n17 900000000\n18 900000000\n")
    run(f"--limit 2 {counted}", 2, "1,800,000,000 blocks")
    for output in ("/dev/full", work + "/no/folder"):
        run(f"--limit 2 --certificate {output} {one}", 3, "can't be written")


def try_serve(work):
    """--serve says which pools are short for a run, by how much, and which requests have none."""
    pools, runs = os.path.join(work, "served.pools"), {}
    for name, text in {
        "base.timeline": "timeline\n16\n16\n64\n-16\n16\n", "less.timeline": "timeline\n8\n-8\n8\n60\n-60\n60\n",
        "greater.timeline": "timeline\n16\n12\n9\n64\n40\n", "wide.timeline": "timeline\n65\n",
        "large.timeline": "timeline\n16\nlarge\n", "a.history": "snapshots 2\n16 2 1\n",
        "b.history": "snapshots 2\n16 2 3\n",
    }.items():
        runs[name.split(".")[0]] = write(work, name, text)
    base, less, more = (runs[name] for name in ("base", "less", "greater"))
    run(f"--limit 2 --certificate {pools} {base}", 0)
    out = run(f"--serve {pools} {base}", 0, "base.timeline is served.")
    expect(f"--serve prints {out}", cells_in(out)[1:3] == [["16", "2", "2"], ["64", "1", "1"]])
    short = "greater.timeline is not served: short are the pools of 16 bytes by 1 and 64 bytes by 1."
    no_pool = "for which there is no pool"
    for words, status, says in (
        (f"{base} {less}", 0, "less.timeline is served."),
        (f"{less} {more}", 1, [short, "does not serve", "less.timeline is served."]),
        (f"--reserve 100 {more}", 0, "greater.timeline is served."), (f"--reserve 50 {more}", 0, ()),
        (runs["wide"], 1, f"it has requests of more than 64 bytes, {no_pool}"), (runs["large"], 1, no_pool),
        (runs["a"], 0, "is served at its 2 snapshots"), (runs["b"], 1, "of 16 bytes by 1"),
        (f"--limit 2 {base}", 2, "--limit has no place"), ("", 2, "name a timeline"),
    ):
        run(f"--serve {pools} {words}", status, says)


def certificates(work):
    """A certificate is checked by this script and by the program alone; of other runs, or with other options, it is
    refused."""
    one, other = write(work, "one.timeline", LEFT), write(work, "other.timeline", OTHER)
    pools, options = os.path.join(work, "app.pools"), "--limit 2 --unit 4 --overhead 4"
    more = write(work, "more.timeline", "timeline\n100\n100\n")
    history = write(work, "one.history", "snapshots 1\n24 2\n")
    run(f"{options} --certificate {pools} {one} {other}", 0)
    run(f"--check {pools} {one} {other}", 0, ["the pools are 2", "none takes less"])
    run(f"--check {pools} {options} {one} {other}", 0)
    for option in ("--limit 3", "--unit 8", "--overhead 0"):
        run(f"--check {pools} {option} {one} {other}", 1, f"and not for {option}")
    run(f"--check {pools} {one}", 1, "app.pools: ")
    run(f"--check {pools} {one} {other} {more}", 1, "app.pools: ")
    run(f"--check {pools} {history}", 2, "are of timelines")
    with open(pools) as file:
        text = file.read()
    fit = text[text.index("classes") :]
    for name, spoiled, status, says in (
        ("more.pools", text.replace(" 1\nclasses", " 2\nclasses"), 1, "has 2 blocks, and the runs need 1"),
        ("cut.pools", text.removesuffix(fit), 2, "no whole pools"),
        ("moved.pools", text.split("\n", 1)[1], 2, "line 1 is no line of pools, `unit BYTES`: overhead"),
    ):
        run(["--check", write(work, name, spoiled), one, other], status, says)
    in_units = run(f"--units --unit 4 --overhead 4 {one} {other}", 0)
    status, out, _ = program_runs.mte_tool(["check-fit"], (fit + in_units).encode())
    expect(f"the program says {out} of the fit and the runs in units", (status, out) == (0, b"optimal\n"))
    orders_of_runs(work, one, other, pools)
    try_serve(work)
    run(f"{options} --certificate {pools} {one} {other}", 0)
    # the same C from the certificate as from the runs, but for its comment
    for form in pool_forms.FORMS:
        made = run(f"--read {pools} --as {form} --reserve 50", 0)
        again = run(f"{options} --reserve 50 --as {form} {one} {other}", 0)
        expect(f"--as {form}: {made} and {again}", made.split("*/\n", 1)[1] == again.split("*/\n", 1)[1])


def orders_of_runs(work, one, other, pools):
    """The runs in another order have the same certificate; one of an earlier release, in the order that was given then,
    is still right."""
    third = write(work, "third.timeline", "timeline\n100\n9\n9\n-9\n")
    orders = [list(order) for order in itertools.permutations((one, other, third))]
    made, said = set(), 0
    for order in orders:
        run(["--limit", "2", "--certificate", pools, *order], 0)
        made.add(text_files.read(pools))
        for again in orders:
            out = run(["--check", pools, *again], 0, "none takes less", both=True)
            expect(f"{order} and {again}: their order is said", "another order" not in out)
    expect(f"the order of the runs shows in {len(made)} certificates", len(made) == 1)
    for order in orders:
        runs, block = pool_runs.read_runs(order), pool_runs.Block(8, 0)
        given = pool_runs.join_runs(runs, block)
        step = ["--step", str(given.scale)] if given.scale > 1 else []
        _, fit = figures.run(["fit", "--limit", "2", *step], given.text)
        its = pool_sets.find_pools(runs, block, 2)._replace(fit=f"{fit}\n")
        older = write(work, "older.pools", its.text())
        out = run(["--check", older, *orders[0]], 0, "none takes less", both=True)
        listed = claim_words.join_words(map(str, order))
        said += f"in another order, as an earlier release wrote it: {listed}" in out
    expect("no order of an earlier release is said", said)


# ---- C

STUBS = {
    "zephyr/kernel.h": """
#include <stddef.h>
#define BUILD_ASSERT(what, says) _Static_assert(what, says)
struct k_mem_slab { const char *buffer; size_t block, number, align; };
#define WB_UP(n) (((n) + sizeof(void *) - 1) / sizeof(void *) * sizeof(void *))
#define K_MEM_SLAB_DEFINE(name, block, number, align) \\
    static _Alignas(align) char buffer_##name[(number) * WB_UP(block)]; \\
    struct k_mem_slab name = {buffer_##name, WB_UP(block), number, align}
""",
    # what ThreadX's guide says of tx_block_pool_create: block_size is rounded up to ULONG, and each block has a pointer before it
    "tx_api.h": """
#include <stddef.h>
typedef unsigned char UCHAR; typedef char CHAR; typedef unsigned UINT; typedef unsigned long ULONG;
#define VOID void
#define TX_SUCCESS 0
typedef struct { ULONG total, block_size, pool_size; } TX_BLOCK_POOL;
static UINT tx_block_pool_create(TX_BLOCK_POOL *pool, CHAR *name, ULONG block_size, VOID *start, ULONG size)
{
    if (!pool || !name || !start) return 1;
    block_size = (block_size + sizeof(ULONG) - 1) / sizeof(ULONG) * sizeof(ULONG);
    *pool = (TX_BLOCK_POOL){size / (block_size + sizeof(UCHAR *)), block_size, size};
    return pool->total ? TX_SUCCESS : 2;
}
""",
    "FreeRTOS.h": "#include <stddef.h>\n#include <stdint.h>\n",
    "queue.h": """
typedef struct { unsigned length, used; void **items; } StaticQueue_t;
typedef StaticQueue_t *QueueHandle_t;
static QueueHandle_t xQueueCreateStatic(unsigned length, unsigned size, uint8_t *storage, StaticQueue_t *queue)
{
    *queue = (StaticQueue_t){length, 0, (void **)storage};
    return size == sizeof(void *) ? queue : NULL;
}
static int xQueueSend(QueueHandle_t queue, const void *item, unsigned ticks)
{
    if (queue->used == queue->length || ticks) return 0;
    queue->items[queue->used++] = *(void *const *)item;
    return 1;
}
""",
}
# prints `block number` for each pool, and then the bytes of all
PROGRAMS = {
    "c": """
#include "made.h"
#include <stdio.h>
#define STORAGE(block, number, holds) static _Alignas(APP_POOL_UNIT) char pool_##block[number][block];
APP_POOLS(STORAGE)
#define SHOW(block, number, holds) \\
    printf("%d %zu\\n", block, sizeof pool_##block / block); total += sizeof pool_##block; right &= holds == block - APP_POOL_OVERHEAD; count++;
int main(void)
{
    unsigned long total = 0;
    int right = 1, count = 0;
    APP_POOLS(SHOW)
    printf("%lu\\n", total);
    return !(right && total == APP_POOL_BYTES && count == APP_POOL_COUNT);
}
""",
    # as lwIP's memp_std.h and mem.c do: the helper is added, and the size rounded up to MEM_ALIGNMENT
    "lwip": """
#include <stdio.h>
#define LWIP_MALLOC_MEMPOOL_START enum {
#define LWIP_MALLOC_MEMPOOL(num, size) POOL_##size,
#define LWIP_MALLOC_MEMPOOL_END POOLS };
#include "made.h"
#undef LWIP_MALLOC_MEMPOOL_START
#undef LWIP_MALLOC_MEMPOOL
#undef LWIP_MALLOC_MEMPOOL_END
#define ALIGN(n) (((n) + 7) / 8 * 8)
#define LWIP_MALLOC_MEMPOOL_START
#define LWIP_MALLOC_MEMPOOL(num, size) printf("%d %d\\n", ALIGN(size + ALIGN(8)), num); total += ALIGN(size + ALIGN(8)) * num;
#define LWIP_MALLOC_MEMPOOL_END
int main(void)
{
    unsigned long total = 0;
#include "made.h"
    printf("%lu\\n", total);
}
""",
}
LISTED = """
#include "made.h"
#include <stdio.h>
int main(void)
{
    unsigned long total = 0;
    FIRST
    for (size_t at = 0; at < sizeof app_pools / sizeof *app_pools; at++) {
        size_t block = BLOCK, number = NUMBER;
        printf("%zu %zu\\n", block, number);
        total += BYTES;
        if (!(RIGHT)) return 1;
    }
    printf("%lu\\n", total);
}
"""
APART = "(size_t)((char *)app_pools[at]->items[1] - (char *)app_pools[at]->items[0])"
# of the systems that have a list: what comes first; the bytes of a block, the blocks and the bytes of a pool; what is so
SYSTEMS = {
    "zephyr": ("", "app_pools[at]->block", "app_pools[at]->number", "block * number", "app_pool_holds[at] + 8 == block"),
    "threadx": (
        "if (app_pools_create() != TX_SUCCESS) return 1;", "app_pools[at].block_size + sizeof(UCHAR *)",
        "app_pools[at].total", "app_pools[at].pool_size", "app_pools[at].block_size == app_pool_holds[at]",
    ),
    "freertos": (
        "app_pools_create();", f"(app_pools[at]->used > 1 ? {APART} : app_pool_holds[at]) + sizeof(void *)",
        "app_pools[at]->used", "block * number",
        "number == app_pools[at]->length && block == app_pool_holds[at] + sizeof(void *)",
    ),
}
for system, parts in SYSTEMS.items():
    words = dict(zip(("FIRST", "BLOCK", "NUMBER", "BYTES", "RIGHT"), parts))
    PROGRAMS[system] = re.sub("|".join(words), lambda match: words[match[0]], LISTED)


def compile_program(work, form, *words):
    """What the compiler says of the program of a form."""
    words = ["gcc", "-std=c11", *words, "-I", work, os.path.join(work, f"{form}.c")]
    return subprocess.run(words, capture_output=True, text=True)


def compile_forms(work):
    """Each form is compiled against a stub of its system. The program that results has the blocks that were found."""
    for name, text in {**STUBS, **{f"{form}.c": text for form, text in PROGRAMS.items()}}.items():
        os.makedirs(os.path.dirname(os.path.join(work, name)), exist_ok=True)
        write(work, name, text)
    events = "24\n" * 7 + "100\n24\n" + "-24\n" * 8 + "60\n61\n" * 3 + "1000\n"
    run_of, pools = write(work, "app.timeline", f"timeline\n{events}"), os.path.join(work, "app.pools")
    run(f"--limit 3 --unit 8 --overhead 8 --certificate {pools} {run_of}", 0)
    strict = ["-Wall", "-Wextra", "-Werror", "-Wno-unused-function", "-o"]
    for form, reserve in itertools.product(pool_forms.FORMS, ("0", "25")):
        write(work, "made.h", run(f"--read {pools} --as {form} --reserve {reserve}", 0))
        program = os.path.join(work, f"{form}.run")
        made = compile_program(work, form, *strict, program)
        expect(f"--as {form} does not compile: {made.stderr[:1500]}", made.returncode == 0)
        done = subprocess.run([program], capture_output=True, text=True) if made.returncode == 0 else made
        its = pool_sets.read_pools(pools).with_reserve(int(reserve))
        wanted = "".join(f"{pool.block} {pool.number}\n" for pool in its) + f"{pool_sets.bytes_of(its)}\n"
        got = done.returncode, done.stdout
        expect(f"--as {form}: {got!r}, and not {wanted!r}", got == (0, wanted))
    # what a system takes for granted is asserted, or refused before
    for form, unit, overhead, says in (
        ("zephyr", "4", "4", ""), ("threadx", "8", "4", ""), ("freertos", "4", "4", ""),
        ("threadx", "8", "0", "4 or 8"), ("freertos", "8", "0", "4 or 8"), ("freertos", "8", "4", "a multiple of"),
    ):
        words = f"--limit 3 --unit {unit} --overhead {overhead} --as {form} {run_of}"
        write(work, "made.h", run(words, 2 if says else 0, says))
        if not says:
            made = compile_program(work, form, "-fsyntax-only")
            is_refused = made.returncode and "static assertion failed" in made.stderr
            expect(f"--as {form} with pointers of 8 bytes: {made.stderr[:500]}", is_refused)
    # a name of a file cannot end the comment
    os.mkdir(os.path.join(work, "a*"))
    odd = write(os.path.join(work, "a*"), "b", LEFT)
    made = run(["--limit", "2", "--as", "c", odd], 0)
    expect(made, "a* /b" in made and made.count("*/") == 2)


class Pools(checks.Part):
    @classmethod
    def setup_class(cls):
        if not os.access(checks.PROGRAM, os.X_OK):
            pytest.skip("without a program: pools")
        program_runs.program()

    def test_small_runs(self):
        parts, own, seed = os.cpu_count() or 1, Trial(), checks.options.seed
        with ProcessPoolExecutor(parts) as jobs:
            started = [jobs.submit(part_of, seed, checks.options.all, part, parts) for part in range(parts)]
            of_histories(own, random.Random(seed))
            trials = [own, *(each.result() for each in started)]
        for trial in trials:
            checks.add_outcomes(trial.count, trial.failures)
        refusals = sum((trial.refused for trial in trials), Counter())
        expect("spoiled pools are refused in eight ways", len(refusals) >= 8, dict(refusals))

    def test_words_and_files(self):
        words_and_files(self.folder())

    def test_certificates(self):
        certificates(self.folder())

    def test_compiled(self):
        checks.need("gcc", "the forms of scripts/pools")
        compile_forms(self.folder())


class Sentences(claims_cases.WithProgram):
    def test_small_runs(self):
        """What is said of small runs, in the summary, in the C and of a certificate, is compared with all pools."""
        chosen, place = random.Random(5), self.folder()
        for at in range(12):
            unit, overhead, limit = chosen.choice([4, 8, 16, 32]), chosen.choice([0, 4, 8]), chosen.randrange(1, 4)
            runs = random_runs(chosen, unit)
            files = [write(place, f"{at}.{number}.timeline", timeline(each)) for number, each in enumerate(runs)]
            options = ["--limit", str(limit), "--unit", str(unit), "--overhead", str(overhead)]
            certificate = os.path.join(place, f"{at}.pools")
            ways = ([*options, "--certificate", certificate], [*options, "--as", "c"], ["--check", certificate])
            names = claim_words.join_words(map(claim_words.quote_name, files))
            wanted = [(str(limit), names, str(unit), str(overhead), f"{least_bytes(runs, unit, overhead, limit):,}")]
            for words in ways:
                done = claims_cases.run(SCRIPT, *words, *files)
                said = " ".join(done.stdout.replace("\n * ", " ").split())
                found = [match.groups() for match in CLAIM.finditer(said)]
                is_right = found == wanted and done.returncode == 0
                expect(f"{done.args}: {found}, and not {wanted}: {said} {done.stderr}", is_right)
                is_proved = program_runs.trust().is_proved
                expect(f"{done.args}: what is proved: {said}", ("Proved" in said) == is_proved)


def add_options(parser):
    parser.add_argument("--all", action="store_true", help='2,000 small runs; without it 120')
    parser.add_argument("--seed", type=int, default=1, metavar="N", help="the seed of what is random (1)")


if __name__ == "__main__":
    checks.main()
