#!/usr/bin/env -S python3 -B
"""Tries scripts/pools with lwIP from Debian's sources. The job of examples/lwip is recorded, and lwIP is then built with the lwippools.h of
the pools that are found: its own statistics must say that each block was used, and that nothing was refused; with one block less it refuses
a request.
The row is compared with docs/MEASUREMENTS.md, and the recorded runs with those of examples/lwip.

It wants the built program, or the one that MTE_TOOL names. It fetches the sources by apt-get, and is skipped, with a message, where it
can't."""

import glob
import os
import re
import subprocess

import checks
import debian_sources
import pytest
from checks import expect, fail
from mte_scripts.pools import pool_sets

HERE = os.path.dirname(os.path.realpath(__file__))
ROOT = os.path.dirname(os.path.dirname(HERE))

EXAMPLE, SCRIPT = os.path.join(ROOT, "examples/lwip"), os.path.join(ROOT, "scripts/pools")
DOCUMENT = os.path.join(ROOT, "docs/MEASUREMENTS.md")
LWIP = ["--unit", "8", "--overhead", "8"]
# the runs of examples/lwip, with the words of the job
RUNS = {"small": ["40", "0", "5"], "large": ["40", "5", "5"]}


def run(words, folder, status=0):
    done = subprocess.run(words, cwd=folder, capture_output=True, text=True, stdin=subprocess.DEVNULL, timeout=600)
    if done.returncode != status:
        fail(f"{' '.join(words)}: status {done.returncode}: {done.stderr[-600:]}")
    return done.stdout


def build_job(work, name, *words):
    """The job with lwIP, built; `lwippools.h` is of the folder WORK."""
    lwip = os.path.join(work, "sources", "lwip")
    sources = [*sorted(glob.glob(f"{lwip}/src/core/*.c")), *sorted(glob.glob(f"{lwip}/src/core/ipv4/*.c"))]
    folders = [f"-I{each}" for each in (work, EXAMPLE, f"{lwip}/src/include", f"{lwip}/port/include")]
    run(["gcc", "-O1", "-w", *words, *folders, f"{EXAMPLE}/job.c", *sources, "-o", name], work)
    return os.path.join(work, name)


def record_timeline(work, recorder, name, words):
    path = os.path.join(work, f"{name}.timeline")
    with open(path, "w") as file:
        file.write(run([recorder, *words], work))
    return path


def statistics(work, text):
    """What lwIP says of these pools: a row of the bytes of a block, the number of blocks, the most used, and the refused requests."""
    with open(os.path.join(work, "lwippools.h"), "w") as file:
        file.write(text)
    said = run([build_job(work, "with_pools")], work)
    rows = [tuple(map(int, row)) for row in re.findall(r"pool (\d+) x (\d+), most used (\d+), refused (\d+)", said)]
    if not rows:
        fail(f"lwIP says nothing of its pools: {said}")
    return rows


def pool_bytes(work, what, text):
    """The bytes of the pools that lwIP has, of which each block has to be used, and no request refused."""
    rows = statistics(work, text)
    if any(number != used or refused for _, number, used, refused in rows):
        fail(f"lwIP with {what}: {rows}")
    return sum(block * number for block, number, _, _ in rows)


def find_pools(work, limit, timeline):
    """The pools that are found, checked as by another person."""
    path = os.path.join(work, f"{limit}.pools")
    run([SCRIPT, "--limit", str(limit), *LWIP, "--certificate", path, timeline], work)
    checked = run([SCRIPT, "--check", path, timeline], work)
    if "none takes less than" not in checked:
        fail(f"pools --check says {checked}")
    return path


def fewer(text):
    """The first pool with one block less."""
    return re.sub(r"MEMPOOL\((\d+)", lambda match: f"MEMPOOL({int(match[1]) - 1}", text, count=1)


def powers_of_two(work, timeline):
    """Five pools of powers of two, with as many blocks as are used."""
    said = run([SCRIPT, "--limit", "1", *LWIP, "--today", "128x0,256x0,512x0,1024x0,2048x0", timeline], work)
    rows = [[int(word.replace(",", "")) for word in row] for row in re.findall(r"(?m)^ *([\d,]+) +0 +([\d,]+) +0$", said)]
    pools = "".join(f"LWIP_MALLOC_MEMPOOL({number}, {block - 8})\n" for block, number in rows)
    return f"LWIP_MALLOC_MEMPOOL_START\n{pools}LWIP_MALLOC_MEMPOOL_END\n"


def row_of(work):
    recorder = build_job(work, "recorder", "-DRECORD")
    for name, words in RUNS.items():
        made = record_timeline(work, recorder, name, words)
        with open(made, "rb") as one, open(f"{EXAMPLE}/{name}.timeline", "rb") as other:
            if one.read() != other.read():
                fail(f"examples/lwip/{name}.timeline is not what the job records")
    timeline = record_timeline(work, recorder, "job", [])
    with open(timeline) as file:
        events = sum(1 for _ in file) - 1
    today = pool_bytes(work, "powers of two", powers_of_two(work, timeline))
    cells = [f"{events:,}", f"{today:,}"]
    for limit in (4, 8):
        path = find_pools(work, limit, timeline)
        text = run([SCRIPT, "--read", path, "--as", "lwip"], work)
        takes = pool_bytes(work, f"{limit} pools", text)
        if takes != pool_sets.read_pools(path).bytes:
            fail(f"lwIP's {limit} pools take {takes} bytes, and pools says {pool_sets.read_pools(path).bytes}")
        if not statistics(work, fewer(text))[0][3]:
            fail(f"lwIP with one block less than {limit} pools refuses nothing")
        cells.append(f"{takes:,} ({100 * (takes - today) / today:+.1f}%)")
    return f"| {' | '.join(cells)} |"


class Lwip(checks.Part):
    def test_pools(self):
        checks.need("gcc", "lwIP's pools")
        work = os.path.abspath(checks.options.work or self.folder())
        if not debian_sources.has_sources(work, ["lwip"]):
            pytest.skip("without the sources of Debian: lwIP's pools")
        row = row_of(work)
        if checks.options.table:
            print(row)
        else:
            with open(DOCUMENT, encoding="utf-8") as file:
                expect(f"docs/MEASUREMENTS.md has {row}", row in file.read().split("\n"))


def add_options(parser):
    parser.add_argument("--table", action="store_true", help="print the row of docs/MEASUREMENTS.md, and compare nothing")
    parser.add_argument("--work", metavar="FOLDER", help="keep the sources there, for the next time")


if __name__ == "__main__":
    checks.main()
