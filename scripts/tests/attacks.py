"""Attacks on what takes inputs of others, in rounds of a seed each: drawn texts, right and spoiled, against the plain program and against a second
opinion that was written from docs/FORMATS.md alone (oracle.py); certificates that are crafted to be believed, by the program, by the library,
and as arrays; files that no script expects; signals at any moment; disks that are full. What fails is told with the seed of its round."""

import argparse
import os
import random
import re
import resource
import shutil
import signal
import subprocess
import sys
import tempfile
import time
from collections import Counter
from typing import Any

import checks
import drawn_inputs
import oracle
from checks import expect
from mte_scripts.places import ROOT, SCRIPTS

EXAMPLES = os.path.join(ROOT, "examples")
EACH = 10  # attacks on the engines, in a round of one on each script
ENDED = {signal.SIGINT: 130, signal.SIGTERM: 143, signal.SIGHUP: 129}
tried: "Counter[str]" = Counter()


def run(words: "list[str]", given: bytes = b"", **how) -> "tuple[int, bytes, bytes]":
    done = subprocess.run(words, input=given, capture_output=True, timeout=300, **how)
    return done.returncode, done.stdout, done.stderr


def answer_of(program: str, words: str, given: bytes) -> "tuple[int, str, str]":
    status, out, said = run([program, *words.split()], given)
    return status, out.decode(errors="replace"), said.decode(errors="replace")


def options_of(words: str) -> "tuple[str, dict[str, int]]":
    command, *rest = words.split()
    return command, {name.lstrip("-").replace("-", "_"): int(value) for name, value in zip(rest[::2], rest[1::2])}


def is_of_timeline(text: bytes) -> bool:
    return any(row == b"timeline" or row.startswith(b"moments") for row in text.split(b"\n"))


def sheet_text(found: oracle.Sheet, word: str) -> bytes:
    head = [("classes", *found.classes), ("limit", found.limit), *[("step", found.step)] * (found.step > 1), *[("forced", 1024)] * found.is_forced]
    rows = [("row", *row) for row in found.rows]
    return drawn_inputs.lines(*head, (word, found.cost), *rows)


# ---- the engines

def craft_sheet(draw: random.Random, found: oracle.Sheet, counts: oracle.Counts) -> oracle.Sheet:
    """A sheet that is not what `tune` or `fit` wrote: of another table with its own cost, or with other numbers, or both."""
    rows = [list(row) for row in found.rows]
    needs = oracle.Needs(counts, found.step, found.is_forced).needs
    kind = draw.randrange(6)
    if kind < 3 and needs:
        chosen = sorted({needs[-1], *draw.sample(needs, min(len(needs), draw.randrange(found.limit + 1)))})[-found.limit :]
        found = found._replace(classes=chosen, cost=oracle.cost_of(counts, chosen)[0] or 0)
        if rows[-1]:
            rows[-1][0] = found.cost
    if kind in (0, 3) and rows[0]:
        for _ in range(draw.randrange(1, 4)):
            row = draw.choice(rows)
            at = draw.randrange(len(row))
            row[at] = draw.choice((row[at] + 1, max(0, row[at] - 1), 0, found.cost, 2**64 - 1, row[at] * 2 % 2**64, draw.choice(draw.choice(rows))))
    if kind == 4:
        found = found._replace(limit=max(1, min(32, found.limit + draw.choice((-1, 1)))))
        rows = rows[: found.limit] + [list(rows[-1]) for _ in range(found.limit - len(rows))]
    if kind == 5:
        found = found._replace(step=draw.choice((1, 2, 4, 8)), is_forced=draw.random() < 0.5)
    return found._replace(rows=rows)


def attack_answers(draw: random.Random, program: str, plain: str, seed: str) -> None:
    """A drawn input has one answer: the program's, the plain program's, and where it can be said, the second opinion."""
    for words, text in drawn_inputs.draw_inputs(draw, 1, lambda words, given: answer_of(program, words, given)[1].encode()):
        got = answer_of(program, words, text)
        tried["drawn inputs"] += 1
        expect(f"{seed}: {words}: the plain program's answer", not plain or answer_of(plain, words, text) == got, text, got)
        command, options = options_of(words)
        if command not in ("replay", "run") and not (command in ("fit", "check-fit") and is_of_timeline(text)):
            wanted = oracle.answer(command, text, **options)
            expect(f"{seed}: {words}: the second opinion", wanted == got, text, wanted, got)


def attack_certificates(draw: random.Random, program: str, _: str, seed: str) -> None:
    """What is called optimal is least, whatever certificate says so."""
    is_profile = draw.random() < 0.5
    word, command = ("waste", "check") if is_profile else ("footprint", "check-fit")
    text = (drawn_inputs.profile if is_profile else drawn_inputs.history)(draw)
    counts = (oracle.profile if is_profile else oracle.history)(oracle.lines_of(text), 1)
    step, is_forced = draw.choice((1, 1, 2, 4, 8)), draw.random() < 0.2
    _, made, _ = oracle.tune_answer(counts, draw.choice((1, 2, 3, 5)), step, is_forced)
    true = oracle.sheet(oracle.lines_of(made.encode()), word)
    for found in (true, craft_sheet(draw, true, counts), craft_sheet(draw, craft_sheet(draw, true, counts), counts)):
        given = sheet_text(found, word) + text
        wanted, got = oracle.answer(command, given), answer_of(program, command, given)
        tried["certificates"] += 1
        expect(f"{seed}: {command}: the verdict", got == wanted and (found is not true or got[0] == 0), given, wanted, got)
        cost, _ = oracle.cost_of(counts, found.classes)
        is_least = got[0] or cost == oracle.least(counts, found.limit, found.step, found.is_forced)
        expect(f"{seed}: {command}: what is optimal is least", is_least, given)


def attack_timelines(draw: random.Random, program: str, _: str, seed: str) -> None:
    """The same of timelines, over every moment."""
    text = drawn_inputs.timeline(draw)
    counts = oracle.timeline(oracle.lines_of(text), 1)
    limit, step = draw.choice((1, 2, 3)), draw.choice((1, 1, 2, 8))
    least = oracle.least(counts, limit, step)
    status, out, said = answer_of(program, f"fit --limit {limit} --step {step}", text)
    tried["timelines"] += 1
    table = list(map(int, out.split("\n")[0].split()[1:]))
    cost, _ = oracle.cost_of(counts, table)
    stated = re.search(r"^footprint (\d+)$", out, re.M)
    expect(f"{seed}: fit of a timeline: its footprint", stated and int(stated[1]) == cost, text, out, said)
    if status:
        bound = re.search(r"no table takes less than (\d+)\n", out)
        expect(f"{seed}: fit of a timeline: the bound", status == 1 and bound and int(bound[1]) <= least <= cost, text, out, said)
        return
    expect(f"{seed}: fit of a timeline is least", cost == least, text, out, least)
    fit = out.encode()
    for _ in range(3):
        verdict = answer_of(program, "check-fit", fit + text)
        tried["timelines"] += 1
        rows = oracle.lines_of(fit)
        if verdict[0] == 0:
            found = oracle.sheet(rows, "footprint")
            is_least = oracle.cost_of(counts, found.classes)[0] == oracle.least(counts, found.limit, found.step, found.is_forced)
            expect(f"{seed}: check-fit of a timeline: what is optimal is least", verdict[1] == "optimal\n" and is_least, fit, text)
        fit = drawn_inputs.spoil_text(draw, fit)


def attack_library(draw: random.Random, program: str, _: str, seed: str) -> None:
    """The library's verdict is the program's, on texts and on arrays."""
    library = library_of()
    if library is None:
        return
    text = drawn_inputs.profile(draw)
    counts = oracle.profile(oracle.lines_of(text), 1)
    limit, step = draw.choice((1, 2, 5)), draw.choice((1, 2, 8))
    true = oracle.sheet(oracle.lines_of(oracle.tune_answer(counts, limit, step, False)[1].encode()), "waste")
    found = draw.choice((true, craft_sheet(draw, true, counts)))
    given = sheet_text(found, "waste")
    tried["calls of the library"] += 2
    status, out, said = answer_of(program, "check", given + text)
    try:
        verdict = library.check(given, text)
    except library.Error as error:
        expect(f"{seed}: the library's refusal", status == 2 and said == f"error {error}\n", given, text, error, said)
        return
    expect(f"{seed}: the library's verdict", (verdict.is_optimal, status) in ((True, 0), (False, 1)), given, text, verdict, out)
    if not found.is_forced and len({len(row) for row in found.rows}) == 1 and len(found.rows) == found.limit:
        numbers = dict(zip(counts.sizes, (each[0] for each in counts.numbers)))
        table = library.Table(found.classes, found.cost, found.rows, [], True, 0)
        told_so = library.check_profile(table, numbers, found.limit, found.step)
        expect(f"{seed}: the library's verdict on arrays", told_so.is_optimal == (status == 0), given, text, told_so, out)


def library_of() -> Any:
    """The wrapper for Python, where there is a library."""
    folder = os.environ.get("MTE_LIBRARY", "")
    if not os.path.exists(os.path.join(folder, "lib", "libmte_tool.so")):
        return None
    os.environ["MTE_TOOL_LIBRARY"] = os.path.join(folder, "lib")
    if (python := os.path.join(ROOT, "python")) not in sys.path:
        sys.path.append(python)
    import mte_tool

    return mte_tool


# ---- the scripts

def spoiled_file(draw: random.Random, folder: str, name: str, text: bytes) -> str:
    for _ in range(draw.randrange(4)):
        text = drawn_inputs.spoil_text(draw, text)
    if draw.random() < 0.1:
        text = text[: draw.randrange(len(text) + 1)] + draw.randbytes(draw.randrange(200))
    path = os.path.join(folder, name)
    with open(path, "wb") as file:
        file.write(text)
    return path


def forms(draw: random.Random, folder: str) -> "list[list[str]]":
    """A script and its words, which name files that may have any text; of the scripts that this copy has (parts_alone.py)."""
    profile = drawn_inputs.profile(draw)
    counts = draw.choice((drawn_inputs.profile, drawn_inputs.history, drawn_inputs.timeline))(draw)
    sheet = oracle.answer("tune", profile, limit=3)[1].encode()
    a, b = (spoiled_file(draw, folder, name, text) for name, text in (("profile", profile), ("sheet", sheet)))
    c = spoiled_file(draw, folder, "counts", counts)
    rows = f"machine\tprogram\tday\tload\tsize\tcount\nm1\tp\t2026-01-05\t1\t16\t{draw.randrange(99)}\n".encode()
    d = spoiled_file(draw, folder, "rows", rows)
    log = os.path.join(folder, "kept")
    os.makedirs(log, exist_ok=True)
    spoiled_file(draw, log, "log", draw.choice((profile, draw.randbytes(500))))
    every = [["check_sheet", b, a], ["draw_waste", a], ["merge_profiles", a, c], ["report", a, b], ["scudo_classes", b], ["pools", c],
             ["tune_allocator", "jemalloc", "--read", c], ["scudo_classes", "--config", b], ["tune_program", "--output", os.path.join(folder, "tuned"), "--read", c], ["fleet_profiles", d],
             ["find_faults", "--read", log]]
    return [words for words in every if not checks.missing_tools(f"scripts/{words[0]}")]


def expect_end(seed: str, words: "list[str]", ends: "tuple[int, ...]", done: "tuple[int, bytes, bytes]") -> None:
    """How a script may end: with one of these statuses, and with a reason that was foreseen."""
    # a signal came before a script's first lines; Python forgets one that comes as it looks at the script's path
    is_early = done[0] < 0 or b"Python runtime state" in done[2] or done[2].startswith(b"Failed checking if argv[0]")
    is_foreseen = b"not foreseen" not in done[2] and b"Traceback" not in done[2] and (done[0] not in (2, 3) or done[2])
    expect(f"{seed}: {' '.join(words)}: its end", is_early or done[0] in ends and is_foreseen, done[0], done[1][-300:], done[2][-500:])


def attack_files(draw: random.Random, folder: str, seed: str) -> None:
    words = draw.choice(forms(draw, folder))
    tried["files"] += 1
    expect_end(seed, words, (0, 1, 2, 3), run([os.path.join(SCRIPTS, words[0]), *words[1:]], cwd=folder))


LONG = (  # what takes long enough to be interrupted
    ["tune_program", "--output", "tuned", "--read", f"{EXAMPLES}/sqlite_large.history"],
    ["report", f"{EXAMPLES}/sqlite.profile", "sheet"],
    ["draw_waste", f"{EXAMPLES}/sqlite.profile", f"{EXAMPLES}/jq.profile"],
    ["merge_profiles", f"{EXAMPLES}/sqlite_large.history", f"{EXAMPLES}/php.history"],
)


def environment_of(folder: str) -> "dict[str, str]":
    """An environment whose temporary folder is empty, and the files that LONG needs."""
    temporary = os.path.join(folder, "temporary")
    os.makedirs(temporary, exist_ok=True)
    with open(os.path.join(folder, "sheet"), "wb") as file, open(f"{EXAMPLES}/sqlite.profile", "rb") as given:
        file.write(run([checks.PROGRAM, "tune", "--limit", "8"], given.read())[1])
    return {**os.environ, "TMPDIR": temporary}


def attack_signals(draw: random.Random, folder: str, seed: str) -> None:
    words, number = draw.choice(LONG), draw.choice(list(ENDED))
    environment = environment_of(folder)
    process = subprocess.Popen([os.path.join(SCRIPTS, words[0]), *words[1:]], cwd=folder, env=environment, stdin=subprocess.DEVNULL,
                               stdout=subprocess.PIPE, stderr=subprocess.PIPE)
    time.sleep(draw.random() * 0.7)
    process.send_signal(number)
    out, said = process.communicate(timeout=300)
    tried["signals"] += 1
    expect_end(seed, [number.name, *words], (0, ENDED[number], -number), (process.returncode, out, said))
    left = os.listdir(environment["TMPDIR"])
    # before its handlers stand a script has made nothing
    expect(f"{seed}: {number.name} {' '.join(words)}: nothing is left behind", not left, left)


def attack_disk(draw: random.Random, folder: str, seed: str) -> None:
    """A disk that is full: files end at some byte, and what could not be written is said."""
    words, environment = draw.choice(LONG), environment_of(folder)
    most = draw.choice((0, 1, 100, draw.randrange(5000), draw.randrange(100_000)))
    path = os.path.join(folder, "output")
    with open(path, "wb") as file:
        limit = lambda: resource.setrlimit(resource.RLIMIT_FSIZE, (most, most))
        done = subprocess.run([os.path.join(SCRIPTS, words[0]), *words[1:]], cwd=folder, env=environment, stdin=subprocess.DEVNULL, stdout=file,
                              stderr=subprocess.PIPE, timeout=300, preexec_fn=limit)
    tried["full disks"] += 1
    expect_end(seed, [f"{most} bytes", *words], (0, 3), (done.returncode, b"", done.stderr))
    if done.returncode == 0:
        shutil.rmtree(os.path.join(folder, "tuned"), ignore_errors=True)
        whole = run([os.path.join(SCRIPTS, words[0]), *words[1:]], cwd=folder, env=environment)
        with open(path, "rb") as file:
            expect(f"{seed}: {most} bytes: {' '.join(words)}: all is written", file.read() == whole[1], most)
    left = os.listdir(environment["TMPDIR"])
    expect(f"{seed}: {most} bytes: {' '.join(words)}: nothing is left behind", not left, left)


class Attacks(checks.Part):
    """Rounds, so many or for so many minutes; another number of a seed may be given."""

    of_scripts = (attack_files, attack_disk)  # a signal at any moment comes in the long tests alone

    def attack(self, rounds: int, minutes: float) -> None:
        program, begun = checks.built_program(), time.monotonic()
        os.environ["MTE_TOOL"] = program
        plain = "" if checks.skip_without("rustc", "the plain program beside the proved one") else checks.compiled_plain(self.folder())
        first = seed = checks.options.seed or (random.randrange(10**9) if minutes else 1)
        while time.monotonic() - begun < 60 * minutes or seed - first < rounds:
            self.round(program, plain, seed)
            seed += 1
        counts = ", ".join(f"{count:,} {name}" for name, count in sorted(tried.items()))
        print(f"{sum(tried.values()):,} attacks, from seed {first} on: {counts}", flush=True)

    def round(self, program: str, plain: str, seed: int) -> None:
        draw = random.Random(seed)
        for _ in range(EACH):
            for attack in (attack_answers, attack_certificates, attack_timelines, attack_library):
                attack(draw, program, plain, f"seed {seed}")
        for of_script in type(self).of_scripts:
            with tempfile.TemporaryDirectory() as folder:
                of_script(draw, folder, f"seed {seed}")


def add_options(parser: "argparse.ArgumentParser") -> None:
    parser.add_argument("--seed", type=int, default=0, metavar="N", help="begin with the round of this seed")
