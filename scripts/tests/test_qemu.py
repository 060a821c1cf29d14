#!/usr/bin/env -S python3 -B
"""Compares the rules of docs/MACHINE.md, the machine of `tag_machine`, and the reports of `mte_tool replay` with QEMU's Memory Tagging
Extension.

A program on a bare machine in QEMU (qemu_machine/) runs a list of operations with the real instructions, and says what each answered. The
list is made at random; heap_model.py, which states the two pages, says what is expected of each. The program of `machine_trials` runs the same
list on `tag_machine`, and QEMU's answers are compared with its answers too, but for those marked *. Three parts:

    draws      IRG from each seed*, with each mask*, and draw after draw; ADDG and SUBG with each tag and each number; GMI
    machine    sequences of all instructions, loads and stores; after each operation all tags, all bytes and RGSR_EL1 are compared too
    traces     traces of the heap; the report is made of what QEMU answered, and must have the bytes of the program's

The environment names other tools than these: QEMU, the program
qemu-system-aarch64; AARCH64_CC, aarch64-linux-gnu-gcc."""

import itertools
import os
import random
import struct
import subprocess
import sys
import zlib
from collections import Counter, namedtuple
from pathlib import Path

import checks
import pytest
from checks import fail
from heap_model import ALIGNMENT, BASE, EXCLUDE, MASK, NOTHING, OK, TAG_CHECK, UNMAPPED, Heap, Machine, Memory, choose, draw, place_of, tag_of, with_tag
from mte_scripts import formats
from report_totals import report

HERE = os.path.join(os.path.dirname(os.path.realpath(__file__)), "qemu_machine")
ROOT = os.path.realpath(os.path.join(HERE, "../../.."))
PROGRAM = os.path.join(ROOT, "crates/mte_tool/out/mte_tool")
TRIALS = os.path.join(ROOT, "crates/machine_trials/out/machine_trials")
EXAMPLES = os.path.join(ROOT, "examples")

QEMU = os.environ.get("QEMU", "qemu-system-aarch64")
COMPILER = os.environ.get("AARCH64_CC", "aarch64-linux-gnu-gcc")
COMPILED = ("-O2 -Wall -Wextra -ffreestanding -nostdlib -static -fno-pic -no-pie -mgeneral-regs-only -mstrict-align -fno-stack-protector "
            "-march=armv8.5-a+memtag+crc -Wl,--build-id=none,--no-warn-rwx-segments").split()
STARTED = ("-M virt,mte=on -cpu max -m 1G -nodefaults -nographic -serial none -monitor none "
           "-semihosting-config enable=on,target=native -kernel").split()

# The operations, their flags and the two structures are those of operations.c.
OPERATIONS = "RESET IRG ADDG SUBG GMI LDG STG ST2G STZG LOAD STORE TAGS ZERO COPY DUMP SEEDS MASKS".split()
CODES = {name: code for code, name in enumerate(OPERATIONS)}
SUMS, ALIKE = 1, 2
OPERATION = struct.Struct("<BBHIQQ")
RESULT = struct.Struct("<IIIIQQ")
Result = namedtuple("Result", "esr rgsr tags bytes value far")
UNTOUCHED = b"\xa5"

MOST_SHOWN = 20
TRACES_A_RUN = 10
counts = Counter()


def operation(name, a=0, b=0, n=0, length=0, flags=0):
    return OPERATION.pack(CODES[name], flags, length, n, a & MASK, b & MASK)


def stored_bytes(n, length):
    """The bytes of a STORE without ALIKE."""
    return bytes(n + 37 * i & 255 for i in range(length))


def trial(name, a=0, b=0, n=0, length=0):
    """The line that spells an operation for `machine_trials`."""
    word = name.lower()
    if name == "RESET":
        return f"machine {n:x} {a >> 8:x}"
    if name in ("ADDG", "SUBG"):
        return f"{word} {a:x} {b >> 4:x} {b & 15:x}"
    if name in ("IRG", "GMI"):
        return f"{word} {a:x} {b:x}"
    if name in ("LOAD", "STORE"):
        return f"{word} {a:x} {length:x}" + f" {n:x}" * (name == "STORE")
    return f"{word} {b:x} {a:x}"


def machine_answers(lines):
    """What `tag_machine` answers to each of these lines."""
    done = subprocess.run([TRIALS], input="".join(line + "\n" for line in lines), stdout=subprocess.PIPE, text=True, check=True)
    answers = done.stdout.splitlines()
    assert len(answers) == len(lines), "an operation has no answer"
    return answers


def answer_text(answer, rgsr):
    """An answer of QEMU as `machine_trials` writes it."""
    fault, what = answer
    if fault == TAG_CHECK:
        text = "tag %x %x %x" % what
    elif fault != OK or what is None:
        text = fault
    else:
        text = f"ok {what.hex() if isinstance(what, bytes) else format(what, 'x')}"
    return f"{text} seed {rgsr >> 8} tag {rgsr & 15}"


def differ(text):
    counts["differences"] += 1
    if counts["differences"] <= MOST_SHOWN:
        fail(text)


class Qemu:
    """Runs operations, and hands out their results one after the other."""

    def __init__(self, folder):
        self.folder, self.machine = folder, os.path.join(folder, "machine.elf")
        sources = [os.path.join(HERE, name) for name in ("start.S", "operations.c")]
        subprocess.run([COMPILER, *COMPILED, "-T", os.path.join(HERE, "link.ld"), "-o", self.machine, *sources], check=True)
        self.data, self.at = b"", 0

    def run(self, operations):
        assert self.at == len(self.data), "results were left"
        Path(self.folder, "operations.bin").write_bytes(b"".join(operations))
        done = subprocess.run([QEMU, *STARTED, self.machine], cwd=self.folder, stdin=subprocess.DEVNULL, stdout=subprocess.PIPE,
                              stderr=subprocess.STDOUT, timeout=600)
        if done.returncode:
            sys.exit(f"qemu: {QEMU} ended with {done.returncode}: {done.stdout.decode(errors='replace')[-500:]}")
        with open(os.path.join(self.folder, "results.bin"), "rb") as file:
            self.data, self.at = file.read(), 0

    def take(self, length):
        self.at += length
        return self.data[self.at - length : self.at]

    def result(self):
        return Result(*RESULT.unpack(self.take(RESULT.size)))


def answer_of(result):
    """A result in the model's words. Of a tag check fault the granule is that of FAR, and its tag is what LDG then read there."""
    if not result.esr:
        return OK, result.value
    status = result.esr & 63
    if result.esr >> 26 != 0x25:  # no data abort of this level
        return f"exception {result.esr:#x}", None
    if status == 0x11:
        return TAG_CHECK, ((place_of(result.far) - BASE) // 16, result.value, tag_of(result.far))
    return {4: UNMAPPED, 5: UNMAPPED, 6: UNMAPPED, 7: UNMAPPED, 0x21: ALIGNMENT}.get(status, f"status {status:#x}"), None


def a_tag_for_each_granule(qemu):
    """Whether this QEMU keeps one. Debian 12's own, 7.2.22, keeps two tags for a page."""
    qemu.run([operation("RESET", 1 << 8, n=256), operation("STG", BASE + 0x600, 7 << 56), operation("DUMP")])
    for _ in range(3):
        qemu.result()
    tags = qemu.take(256)
    qemu.take(4096)
    return tags == bytes(96) + bytes([7]) + bytes(159)


# --- draws


def compare_draws(qemu, rng, long):
    masks = [(0, 0x5555), (3, 0xAAAB), (9, 0), (15, 0xFFFF)]
    if long:
        masks = list(itertools.product(range(16), (0x0000, 0x5555, 0xAAAB, 0xFFFF)))
    masks += [(rng.randrange(16), rng.randrange(65536)) for _ in range(64 if long else 4)]
    after = [draw(seed) for seed in range(1, 65536)]
    seed_of = {offset: seed for seed, (offset, _) in enumerate(after, 1)}
    starts = list(itertools.product(range(16), range(16)))
    if not long:
        starts = rng.sample(starts, 16)
    sums = [(name, with_tag(rng.choice((BASE, 0, MASK, rng.getrandbits(64))), tag), numbers)
            for name in ("ADDG", "SUBG") for tag in range(16) for numbers in range(1024)]
    sums += [("GMI", rng.getrandbits(64), rng.choice((0, MASK, 1 << rng.randrange(64), rng.getrandbits(64)))) for _ in range(2000)]
    qemu.run([operation("SEEDS", start, mask) for start, mask in masks]
             + [operation("MASKS", seed_of[offset] << 8 | start) for start, offset in starts]
             + [operation(name, a, b) for name, a, b in sums])
    ours = iter(machine_answers([trial(name, a, b) for name, a, b in sums]))
    for start, mask in masks:
        qemu.result()
        chosen = [choose(start, offset, mask | EXCLUDE) for offset in range(16)]
        wanted = [seed << 8 | chosen[offset] for offset, seed in after]
        for seed, (want, got) in enumerate(zip(wanted, struct.unpack("<65535I", qemu.take(4 * 65535))), 1):
            if want != got:
                differ(f"IRG from TAG {start}, SEED {seed}, with Xm {mask:#x}: RGSR_EL1 is {want:#x} by the rules, {got:#x} in QEMU")
    compare_masks(starts, qemu)
    compare_sums(sums, qemu, ours)
    return 65535 * len(masks) + 65536 * len(starts) + len(sums) + compare_turns(qemu, rng, 65535 if long else 4096)


def compare_masks(starts, qemu):
    chosen = {}
    for start, offset in starts:
        qemu.result()
        for mask, got in enumerate(qemu.take(65536)):
            key = start, offset, mask | EXCLUDE
            if key not in chosen:
                chosen[key] = choose(*key)
            if chosen[key] != got:
                differ(f"IRG from TAG {start} by {offset}, with Xm {mask:#x}: tag {chosen[key]} by the rules, {got} in QEMU")
        chosen.clear()


def compare_sums(sums, qemu, ours):
    machine = Machine(64, 1)
    for name, a, b in sums:
        want = machine.gmi(a, b) if name == "GMI" else (machine.addg if name == "ADDG" else machine.subg)(a, b >> 4, b & 15)
        result = qemu.result()
        got = answer_of(result)
        if want != got:
            differ(f"{name} of {a:#x} and {b:#x}: {want} by the rules, {got} in QEMU")
        compare_trial(trial(name, a, b), got, machine.rgsr(), next(ours))


def compare_turns(qemu, rng, number):
    """IRG after IRG, so often. In 65,535 draws SEED has each value once, and then its first one again."""
    words = [(rng.getrandbits(64), rng.choice((0, 0xFFFF, rng.getrandbits(16), rng.getrandbits(64)))) for _ in range(number)]
    machine, first = Machine(256, 1), operation("RESET", 1 << 8, n=256)
    qemu.run([first] + [operation("IRG", *pair) for pair in words])
    qemu.result()
    ours = machine_answers([trial("RESET", 1 << 8, n=256)] + [trial("IRG", *pair) for pair in words])
    for pair, answer in zip(words, ours[1:]):
        want, result = machine.irg(*pair), qemu.result()
        if (want, machine.rgsr()) != (answer_of(result), result.rgsr):
            differ(f"{trial('IRG', *pair)}: {want} by the rules, {answer_of(result)} in QEMU, or RGSR_EL1 is another one")
        compare_trial(trial("IRG", *pair), answer_of(result), result.rgsr, answer)
    if number == 65535 and machine.seed != 1:
        differ("after 65,535 draws SEED is not the first one")
    return number


def compare_trial(line, got, rgsr, answer):
    """Compares QEMU's answer with what the program of `machine_trials` answered to this line."""
    counts["tried"] += 1
    if answer_text(got, rgsr) != answer:
        differ(f"{line}: {answer_text(got, rgsr)} in QEMU, {answer} of tag_machine")


# --- machine


def some_address(rng, machine):
    """An address in the region or near its ends, most often near the border of a granule or of a page, and often with the right tag."""
    end, kind = 16 * machine.granules, rng.random()
    if kind < 0.25:
        at = rng.choice((0, end, end, 4096 * rng.randrange(machine.granules // 256 + 1))) + rng.randint(-80, 80)
    elif kind < 0.9:
        at = 16 * rng.randrange(machine.granules) + rng.choice((0, 0, 0, rng.randint(-15, 15)))
    else:
        at = rng.randint(-4096, end + 4096)
    granule = at // 16
    known = 0 <= granule < machine.granules and rng.random() < 0.7
    return with_tag(BASE + at, machine.tags[granule] if known else rng.choice((0, 0, rng.randrange(16))))


def some_operation(rng, machine, pointers):
    """An operation, and what the model answers to it: the bytes, its line, the length of a load, and the answer."""
    names = ("IRG", "ADDG", "SUBG", "GMI", "LDG", "STG", "ST2G", "STZG", "LOAD", "STORE")
    name = rng.choices(names, (8, 4, 4, 3, 8, 14, 8, 5, 26, 26))[0]
    a = rng.choice(pointers) if rng.random() < 0.15 else some_address(rng, machine)
    if a >> 60 and name in ("LDG", "STG", "ST2G", "STZG", "LOAD", "STORE"):
        a &= (1 << 60) - 1  # where they are not 0 docs/MACHINE.md is stricter than the architecture
    b = n = length = 0
    if name == "IRG":
        b = rng.choice((0, 0x5555, 0xAAAB, 0xFFFF, 0xFFFE, MASK ^ 1 << rng.randrange(16), rng.getrandbits(16), rng.getrandbits(64)))
        answer = machine.irg(a, b)
    elif name in ("ADDG", "SUBG"):
        b = rng.randrange(1024)
        answer = (machine.addg if name == "ADDG" else machine.subg)(a, b >> 4, b & 15)
    elif name in ("GMI", "LDG"):
        b = rng.choice((0, MASK, rng.getrandbits(64)))
        answer = (machine.gmi if name == "GMI" else machine.ldg)(a, b)
    elif name in ("STG", "ST2G", "STZG"):
        a = a & ~15 if rng.random() < 0.8 else a
        b = with_tag(rng.getrandbits(64), rng.choice((tag_of(a), 0, rng.randrange(16))))
        answer = {"STG": machine.stg, "ST2G": machine.st2g, "STZG": machine.stzg}[name](a, b)
    else:
        length = rng.choice((1, 2, 4, 8, 16, 32, 48, 64, rng.randint(1, 64)))
        if rng.random() < 0.15:  # to end at a border, or to cross it by little
            a = with_tag(a + rng.choice((1, 15, 16, -length, 1 - length)), tag_of(a)) & (1 << 60) - 1
        if name == "STORE":
            n = rng.randrange(256)
        answer = machine.load(a, length) if name == "LOAD" else machine.store(a, stored_bytes(n, length))
    if name in ("IRG", "ADDG", "SUBG"):
        pointers.append(answer[1])
        del pointers[:-8]
    return operation(name, a, b, n, length, SUMS), trial(name, a, b, n, length), length if name == "LOAD" else 0, answer


def compare_machine(qemu, rng, number):
    done = 0
    while done < number:
        steps = []  # of operations: the bytes, the line, the length of a load, the answer, and the state afterwards
        while len(steps) < min(100_000, number - done):
            granules = 256 * rng.choice((1, 1, 2, 3))  # whole pages: QEMU maps no less
            machine = Machine(granules, rng.randrange(1, 65536))
            first = operation("RESET", machine.rgsr(), n=granules, flags=SUMS), trial("RESET", machine.rgsr(), n=granules)
            steps.append((*first, 0, NOTHING, state_of(machine)))
            pointers = [0, BASE]
            for _ in range(rng.choice((20, 200, 2000))):
                step = some_operation(rng, machine, pointers)
                steps.append((*step, state_of(machine)))
        qemu.run([step[0] for step in steps])
        ours = iter(machine_answers([line for step in steps for line in (step[1], "sums")]))
        for number_of, (_, text, length, want, state) in enumerate(steps):
            result = qemu.result()
            got = answer_of(result)
            if length:
                buffer = qemu.take(64)
                moved = length if got[0] == OK else 0
                if buffer[moved:] != UNTOUCHED * (64 - moved):
                    differ(f"operation {number_of}, {text}: a load changed more than its bytes")
                got = (OK, buffer[:length]) if got[0] == OK else got
            elif got[0] == OK and want == NOTHING:
                got = NOTHING
            if got != want:
                differ(f"operation {number_of}, {text}: {want} by the rules, {got} in QEMU")
            if (result.rgsr, result.tags, result.bytes) != state:
                differ(f"operation {number_of}, {text}: RGSR_EL1, or the sums of all tags and bytes, are other ones in QEMU")
            compare_trial(text, got, result.rgsr, next(ours))
            if next(ours) != f"ok {result.tags:x} {result.bytes:x} seed {result.rgsr >> 8} tag {result.rgsr & 15}":
                differ(f"operation {number_of}, {text}: RGSR_EL1, or the sums of all tags and bytes, are other ones of tag_machine")
        done += len(steps)
    return done


def state_of(machine):
    return machine.rgsr(), zlib.crc32(machine.tags), zlib.crc32(machine.bytes)


def compare_ignored(qemu, rng, number):
    """Addresses whose bits 63 to 60 are not all 0: docs/MACHINE.md says that they are unmapped here, and that QEMU ignores these bits."""
    machine, steps, lines = Machine(512, 1), [], [trial("RESET", 1 << 8, n=512)]
    for _ in range(number):
        low = with_tag(BASE + 16 * rng.randrange(511), rng.choice((0, rng.randrange(16))))
        high, tag = low | rng.randrange(1, 16) << 60, rng.randrange(16) << 56
        name = rng.choice(("LDG", "STG", "ST2G", "STZG"))
        call = {"LDG": machine.ldg, "STG": machine.stg, "ST2G": machine.st2g, "STZG": machine.stzg}[name]
        if call(high, tag) != (UNMAPPED, None):
            differ(f"{name} of {high:#x} is mapped by the rules")
        lines.append(trial(name, high, tag))
        steps.append((operation(name, high, tag), name, high, call(low, tag)))
    qemu.run([operation("RESET", machine.rgsr(), n=512)] + [step[0] for step in steps])
    qemu.result()
    for _, name, high, want in steps:
        got = answer_of(qemu.result())
        if got != (want if name == "LDG" else (OK, 0)):
            differ(f"{name} of {high:#x}: {got} in QEMU, which ignores bits 63 to 60 by docs/MACHINE.md")
    for line, answer in zip(lines[1:], machine_answers(lines)[1:]):
        if answer != "unmapped seed 1 tag 0":
            differ(f"{line}: {answer} of tag_machine, and unmapped by the rules")
    return number


# --- traces


class Recorder(Memory):
    """The machine under the model's heap: each operation changes the model, and is noted for QEMU with the answer that is expected."""

    def __init__(self, granules, seed):
        super().__init__(granules, seed)
        self.noted, self.count = [], 0
        self.note(operation("RESET", self.machine.rgsr(), n=granules), None)

    def note(self, op, wanted, count=1):
        self.noted.append((op, wanted, self.machine.rgsr()))
        self.count += count

    def irg(self, xn, xm):
        pointer = super().irg(xn, xm)
        self.note(operation("IRG", xn, xm), (OK, pointer))
        return pointer

    def move(self, word, xn, u6, u4):
        pointer = (self.machine.addg if word == "addg" else self.machine.subg)(xn, u6, u4)[1]
        self.note(operation(word.upper(), xn, 16 * u6 + u4), (OK, pointer))
        return pointer

    def tags(self, first, count, tag):
        super().tags(first, count, tag)
        self.note(operation("TAGS", BASE + 16 * first, tag << 56, count), (OK, 0), count)

    def zero(self, first, count, tag):
        super().zero(first, count, tag)
        self.note(operation("ZERO", BASE + 16 * first, tag << 56, count), (OK, 0), count)

    def copy(self, to, source, n):
        super().copy(to, source, n)
        self.note(operation("COPY", to, source, n), (OK, 0), 2 * n)


Trace = namedtuple("Trace", "name table granules seed quarantine lines")


def qemu_operations(trace):
    """What QEMU is to run of a trace, and the events of its report: a number and a text, or a number, which noted operation the access is,
    the length of a load, and the kind of the granule that it faults on."""
    recorder = Recorder(trace.granules, trace.seed)
    heap = Heap(recorder, trace.table, trace.granules, trace.quarantine)
    variables, events = [0] * 1024, []
    for number, line in enumerate(trace.lines, 1):
        word, *rest = line.split(" ")
        v, said = int(rest[0]), None
        if word in ("malloc", "calloc", "realloc"):
            n = int(rest[1])
            if word == "realloc":
                said, variables[v] = heap.realloc(variables[v], n)
            else:
                said, variables[v] = (heap.malloc if word == "malloc" else heap.calloc)(n)
        elif word == "free":
            said = heap.free(variables[v])
        elif word in ("addg", "subg"):
            variables[v] = recorder.move(word, variables[int(rest[1])], int(rest[2]), int(rest[3]))
        else:
            said = record_access(recorder, heap, events, number, variables[v] + int(rest[1]) & MASK, int(rest[2]), rest[3:])
        if said:
            events.append((number, said))
    recorder.note(operation("DUMP"), None)
    return recorder, events


def record_access(recorder, heap, events, number, address, length, byte):
    """Notes a load, or a store of this byte. QEMU maps whole pages: an access that is unmapped for passing the end of a region that ends
    inside a page can't fault there, so its text is given as the rules have it."""
    machine = recorder.machine
    fill = int(byte[0], 16) if byte else 0
    want = machine.store(address, bytes([fill]) * length) if byte else machine.load(address, length)
    end = BASE + (machine.granules + 255) // 256 * 4096
    if want[0] == UNMAPPED and address >> 60 == 0 and BASE <= place_of(address) and place_of(address) + length <= end:
        counts["accesses past a region that ends inside a page, which QEMU does not see"] += 1
        events.append((number, "fault unmapped"))
        return None
    kind = heap.kind(want[1][0]) if want[0] == TAG_CHECK else None
    events.append((number, len(recorder.noted), 0 if byte else length, kind))
    recorder.note(operation("STORE" if byte else "LOAD", address, 0, fill, length, ALIKE), None)
    return None


def report_of(trace, recorder, events, qemu):
    """The report of a trace, made of what QEMU answered."""
    accesses = {}
    for index, (op, wanted, rgsr) in enumerate(recorder.noted):
        result, name = qemu.result(), OPERATIONS[op[0]]
        got = answer_of(result)
        accesses[index] = got, qemu.take(64) if name == "LOAD" else b""
        if wanted is not None and got != wanted:
            differ(f"{trace.name}, operation {index}, {name}: {wanted} by the rules, {got} in QEMU")
        if result.rgsr != rgsr:
            differ(f"{trace.name}, operation {index}, {name}: RGSR_EL1 is {rgsr:#x} by the rules, {result.rgsr:#x} in QEMU")
    if qemu.take(trace.granules) != recorder.machine.tags or qemu.take(16 * trace.granules) != recorder.machine.bytes:
        differ(f"{trace.name}: the tags or the bytes at the end are other ones in QEMU")
    lines = []
    for number, *rest in events:
        if len(rest) == 1:
            text = rest[0]
        else:
            index, length, kind = rest
            (fault, what), buffer = accesses[index]
            if fault == OK and not length:
                continue
            text = f"data {buffer[:length].hex()}" if fault == OK else f"fault {fault}"
            if fault == TAG_CHECK:
                text += " granule %d memory %d pointer %d in %s" % (*what, kind)
        lines.append(f"{number} {text}\n")
    return report(trace.table, "\n".join(trace.lines), "".join(lines)).splitlines()


def program_report(trace):
    """The report of the program."""
    text = "".join(line + "\n" for line in [" ".join(map(str, ["classes", *trace.table])), *trace.lines])
    words = ["--granules", str(trace.granules), "--seed", str(trace.seed), "--quarantine", str(trace.quarantine)]
    done = subprocess.run([PROGRAM, "replay", *words], input=text, stdout=subprocess.PIPE, text=True, check=True)
    return done.stdout.splitlines()


def compare_traces(qemu, traces):
    """Compares the traces, some in one run of QEMU; how many operations and how many events there were."""
    operations = events = 0
    traces = iter(traces)
    while some := list(itertools.islice(traces, TRACES_A_RUN)):
        made = [(trace, *qemu_operations(trace)) for trace in some]
        qemu.run([op for _, recorder, _ in made for op, _, _ in recorder.noted])
        for trace, recorder, said in made:
            theirs, ours = report_of(trace, recorder, said, qemu), program_report(trace)
            if theirs != ours:
                at = next((at for at, pair in enumerate(zip(theirs, ours)) if pair[0] != pair[1]), min(len(theirs), len(ours)))
                differ(f"{trace.name}, classes {trace.table}, granules {trace.granules}, seed {trace.seed}, quarantine {trace.quarantine}: "
                       f"line {at + 1} of the report is {theirs[at : at + 1]} with QEMU, {ours[at : at + 1]} of mte_tool")
            operations += recorder.count
            events += len(trace.lines)
            counts["tag faults"] += sum(" fault tag " in line for line in theirs)
            counts["unmapped"] += sum(line.endswith(" fault unmapped") for line in theirs)
    return operations, events


def random_trace(rng, name, length):
    granules = rng.choice((64, 256, 256, 512, 1024, 2048, rng.randrange(64, 2000)))
    number = rng.choice((1, 1, 2, 2, 3, 4, 8)) if rng.random() < 0.95 else rng.choice((0, 32))
    table = sorted(rng.sample(range(2, rng.choice((4, 6, 10, 40, 200)) + number), number))
    quarantine = rng.choice((0, 0, 32, 64, 100, 2 * granules, 65536))
    most = 16 * max(table, default=2) - 16
    sizes = [n for c in table for n in (16 * c - 16, 16 * c - 17, 16 * c - 24, 16 * c - 31, 16 * c - 32) if n >= 0]
    sizes += [n for n in (0, 1, 16, 17, 33) if n <= most]
    few = rng.choice((2, 4, 12))
    lines = [f"malloc {v} {rng.choice(sizes)}" for v in range(few)]
    while len(lines) < length:
        v, w = (rng.randrange(few) if rng.random() < 0.99 else rng.randrange(1024) for _ in range(2))
        words = ("malloc", "calloc", "realloc", "free", "load", "store", "addg", "subg")
        word = rng.choices(words, (12, 4, 6, 8, 30, 28, 4, 3))[0]
        if word in ("malloc", "calloc", "realloc"):
            n = rng.choice(sizes) if rng.random() < 0.97 else rng.choice((most + 1, formats.LARGEST_SIZE, formats.LARGEST_SIZE + 1, formats.LARGEST_REQUEST, rng.randrange(20000)))
            if word != "realloc" and rng.random() < 0.8:
                lines.append(f"free {v}")  # else the slot is lost, and soon all are
            lines.append(f"{word} {v} {n}")
        elif word == "free":
            lines.append(f"free {v}")
        elif word in ("addg", "subg"):
            u6, u4 = rng.choice((0, 0, 1, 1, 2, rng.randrange(64))), rng.choice((0, 0, 1, 14, 15, rng.randrange(16)))
            lines.append(f"{word} {v} {w} {u6} {u4}")
        else:
            n, size = rng.choice((1, 2, 4, 8, 16, 24, 32, 48, 64, rng.randint(1, 64))), rng.choice(sizes)
            off = rng.choice((0, 0, 0, 8, size // 2, rng.randint(0, size), rng.randint(-16, 96), size - n, size - n + 1, size, -n, -16, -17,
                              16 * rng.randint(-4, 20) - rng.randrange(n), 16 * rng.randint(-granules, granules) - rng.randrange(n),
                              rng.randint(-1048576, 1048576)))
            lines.append(f"{word} {v} {off} {n}" + f" {rng.randrange(256):02x}" * (word == "store"))
    return Trace(name, table, granules, rng.randrange(1, 65536), quarantine, lines)


def plant_faults(rng, lines):
    """The trace of a program with faults put in: accesses before, across and after the ends of chunks, and after a free; second frees."""
    more, last = [], []
    for line in lines:
        more.append(line)
        words = line.split(" ")
        last = (last + [words])[-12:]
        if rng.random() < 0.25:
            near = rng.choice(last)
            size = int(near[2]) if near[0] in ("malloc", "calloc", "realloc") else 0
            n = rng.choice((1, 8, 16, 32, 64, rng.randint(1, 64)))
            off = rng.choice((0, size - 1, size, size - n, size + 16, -1, -16, -n, rng.randint(-64, size + 64)))
            store = f"store {near[1]} {off} {n} {rng.randrange(256):02x}"
            more.append(rng.choice((f"load {near[1]} {off} {n}", store, f"free {near[1]}")))
    return more


def example_traces(rng):
    for name in ("jq", "perl", "sqlite"):
        lines = Path(f"{EXAMPLES}/{name}.trace").read_text().splitlines()
        with open(f"{EXAMPLES}/scudo.classes") as file:
            scudo = [int(word) for word in file.read().split()[1:]]
        for table, *setting in ((scudo, 262144, 1, 65536), ([2, 3, 4, 5, 6, 8, 12, 20], 4096, 40000, 1000), ([8], 256, 12345, 64)):
            yield Trace(name, table, *setting, lines)
            yield Trace(f"{name}, spoiled", table, *setting, plant_faults(rng, lines))


class Comparison(checks.Part):
    @classmethod
    def setup_class(cls):
        checks.need(f"{QEMU} {COMPILER}", "the machine and the heap compared with QEMU")
        checks.built_program()
        if not os.access(TRIALS, os.X_OK):
            raise FileNotFoundError(f"{TRIALS} is not built: run `rt run` in crates/machine_trials")
        cls.qemu = Qemu(cls.folder())
        if not a_tag_for_each_granule(cls.qemu):
            version = subprocess.run([QEMU, "--version"], stdout=subprocess.PIPE, text=True).stdout.split("\n")[0]
            pytest.skip(f"since {version} keeps no tag for each granule: the machine and the heap compared with QEMU")
        cls.seed, cls.long = checks.options.seed, checks.options.long

    def compared(self, number):
        """Counts what was compared, but for what differed and is counted."""
        checks.add_outcomes(number - counts["differences"], [])
        counts["differences"] = 0

    def test_draws(self):
        self.compared(compare_draws(self.qemu, random.Random(self.seed), self.long))

    def test_machine(self):
        self.compared(compare_machine(self.qemu, random.Random(self.seed + 1), 2_000_000 if self.long else 20_000))
        self.compared(compare_ignored(self.qemu, random.Random(self.seed + 3), 1000))

    def test_traces(self):
        rng, lengths = random.Random(self.seed + 2), (20, 100, 500, 2000)
        traces = [random_trace(rng, f"trace {number}", lengths[number % len(lengths)]) for number in range(2000 if self.long else 40)]
        below, events = compare_traces(self.qemu, itertools.chain(traces, example_traces(rng) if self.long else []))
        self.compared(below)
        print(f"qemu: {events} events of traces; of these {counts['tag faults']} tag faults and {counts['unmapped']} unmapped; "
              f"{counts['tried']} of the operations compared with tag_machine itself")


def add_options(parser):
    parser.add_argument("--long", action="store_true", help="some minutes in place of fifteen seconds, and the traces of examples/ too")
    parser.add_argument("--seed", type=int, default=1, metavar="N", help="of what is made at random (1)")


if __name__ == "__main__":
    checks.main()
