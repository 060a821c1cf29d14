"""Tests `find_faults --read` on text reports of other tools (sanitizer_reports_data/make wrote them): what is read of
each, what the heap makes of it against a model of its slots, and logs that are cut off, or made to harm."""

import itertools
import json
import os
import pathlib
import random
import re
import subprocess
import sys
import time

import pytest
import slot_model
import test_findings
from checks import expect
from mte_scripts import certificate_texts
from mte_scripts.entry_point import Refusal
from mte_scripts.faults import report_verdicts, sanitizer_reports
from mte_scripts.faults.fault_log import Error
from mte_scripts.faults.heap_answers import Verdict
from mte_scripts.places import EXAMPLES

HERE = pathlib.Path(__file__).resolve().parent
DATA, FIND = HERE / "sanitizer_reports_data", HERE.parent / "find_faults"
LOGS = {name: DATA / f"{name}.log" for name in ("gcc", "clang", "hwasan", "valgrind")}
LAYOUT = report_verdicts.Layout(certificate_texts.class_line(os.path.join(EXAMPLES, "scudo_android.classes")), 262144)
# what a tool does not see, or tells otherwise than errors.c: clang 14 a free by its tail, valgrind a copy by its words
CALL, NAMELESS = ("overflow", "40", "caught, not caught"), ("access of no block", "2", "not replayed")
OTHERWISE = {
    "hwasan": {0: CALL, 20: None, 22: NAMELESS, **dict.fromkeys((15, 16, 21, 22, 23, 24))},
    "valgrind": {15: CALL, 24: CALL, 22: None, 23: None},
}
# a runner's prefix, a terminal's colours, the words of later versions, and line ends of Windows
CHANGES = (b"\n", b"\n17: "), (b"==", b"\x1b[1m\x1b[31m=="), (b" to the right of 40-", b" after 40-"), (b"\n", b"\r\n")


def judge_log(data):
    return [(each, report_verdicts.judge_report(each, LAYOUT)) for each in sanitizer_reports.read_reports(data, "a")[0]]


def find(*words, data=None, **more):
    words, more = [sys.executable, "-B", FIND, *words], {**os.environ, **more}
    done = subprocess.run(words, input=data, capture_output=True, timeout=300, env=more)
    return done.returncode, done.stdout.decode(errors="replace"), done.stderr.decode(errors="replace")


def test_reports():
    """Each report has the line, the kind and the offset that its source has; prefixes and colours change nothing."""
    source = enumerate((DATA / "errors.c").read_text().split("\n"), 1)
    errors = {line: found.groups() for line, text in source if (found := re.search(r"; +// (.*) (.*): (.*)", text))}
    for name in LOGS:
        told = {}
        for report, judged in judge_log(LOGS[name].read_bytes()):
            results = ", ".join(sorted({case.result for case in judged.cases}))
            line = report.frames[-1].line if report.frames else 0
            told.setdefault(line, (judged.kind, str(judged.error.offset), results))
        wanted = {line: each for line, each in {**errors, **OTHERWISE.get(name, {})}.items() if each}
        expect(f"{name}: what it tells", told == wanted, sorted(told.items() ^ wanted.items()))
    for name, (old, new) in itertools.product(LOGS, CHANGES):
        log = LOGS[name].read_bytes()
        expect(f"{name}: with {new}", judge_log(log.replace(old, new)) == judge_log(log))


def random_report(chance, size, state):
    """A wrong access of a block, or a free of a place in it; None where it would be right."""
    act, length = chance.choice((sanitizer_reports.STORE, sanitizer_reports.FREE)), chance.choice((1, 8, 40))
    offset = chance.choice((-17, -16, -1, 0, 15, 16, size, size + 15, size + 16, size + 40, -40))
    is_right = state == "live" and (0 <= offset and offset + length <= size if act == "store" else not offset)
    is_asked = not is_right and (act == "store" or offset % 16 == 0)
    return is_asked and sanitizer_reports.Report("", "", act, (), "", length, "heap", offset, size, state)


def compare_with_model(slots, layout, pointer, report):
    """What the model promises has to be among the cases, and the answer where there is one."""
    is_free = report.act == "free"
    error = Error("x" if is_free else "S", 1, report.offset, 0 if is_free else report.length, 0, report.state)
    access = error.window(report.size)
    promise = slots.freeing(pointer, error.offset // 16) if is_free else slots.access(pointer, *access)
    model = report_verdicts.outcome(Verdict("asked", promise, 1, is_free))[0]
    told = report_verdicts.judge_report(report, layout)
    results = {case.result for case in told.cases}
    # what is by chance may be caught by a law too, where the slot's later user leaves the place free
    expect(f"{report.act} {error}: {model}", model in results or model == "caught" and "by chance" in results, told)
    return model


def test_laws():
    """In random heaps, what the model of the slots says of an error is what is said of its report."""
    chance, seen = random.Random(4), set()
    for _ in range(40):
        table, granules = [*sorted(chance.sample(range(2, 40), chance.randint(1, 5))), 400], chance.choice((2000, 9999))
        slots = slot_model.Slots(table, granules, chance.choice((0, 400)))
        layout, blocks = report_verdicts.Layout(table, granules), {"live": [], "freed": []}
        for _ in range(100):
            size = chance.choice((0, 1, 16, 17, 40, 100, 1000, 5000))
            if chance.random() < 0.55 and (address := slots.malloc(size)[1]):
                blocks["live"].append((size, address, slots.pointer(address)))
            elif blocks["live"]:
                blocks["freed"].append(blocks["live"].pop(chance.randrange(len(blocks["live"]))))
                slots.free(blocks["freed"][-1][1])
            for state, (size, _, pointer) in [(state, chance.choice(its)) for state, its in blocks.items() if its]:
                if report := random_report(chance, size, state):
                    seen.add(compare_with_model(slots, layout, pointer, report))
    expect("each outcome came", seen == {"caught", "not caught", "by chance"}, seen)


def test_refused():
    """What is no report, or a part of one, is refused; a run without an error is none."""
    for name in LOGS:
        text = LOGS[name].read_bytes()
        begin = text.index(b"Invalid write" if name == "valgrind" else b"ERROR: ")
        whole = text.index(b"== \n", begin) if name == "valgrind" else text.index(b"SUMMARY: ") + 10
        for cut in range(begin + 45, whole, 97):
            with pytest.raises(Refusal, match="cut off"):
                sanitizer_reports.read_reports(text[:cut], "a log")
    for data, says in ((b"", "is empty"), (bytes(range(256)), "no report"), (b"==1== Invalid free()", "cut off")):
        status, told, said = find("--read", "-", data=data)
        expect(f"refused: {data[:20]}", status == 2 and not told and says in said and said.count("\n") == 1, said)
    expect("no error", find("--read", "-", data=b"==7== ERROR SUMMARY: 0 errors from 0 contexts\n")[0] == 0)
    expect("--children", find("--children", "--read", LOGS["gcc"])[0] == 2)


def test_answers(tmp_path):
    """Several logs: each cause once, without a compiler; the files for other programs; another table; a baseline."""
    logs, (json_file, sarif, table) = [LOGS["gcc"], LOGS["clang"], LOGS["gcc"]], (tmp_path / name for name in "jst")
    status, told, said = find("--annotations", "--json", json_file, "--sarif", sarif, "--read", *logs, PATH="/none")
    expect("three logs", status == 1 and "\nreports 45\nerrors 15\n" in told and told.count("\n::error ") == 15, said)
    document = json.loads(sarif.read_text())
    wrong = test_findings.wrong(document, "sarif_log") or test_findings.rules_of_sarif(document)
    expect("SARIF", not wrong and [len(run["results"]) for run in document["runs"]] == [15], wrong)
    expect("a baseline", find("--baseline", json_file, "--read", *logs)[0] == 0)
    table.write_text("classes 2\n")
    expect("a table", "no class of the table serves its block" in find("--table", table, "--read", logs[0])[1])


def test_hostile():
    """Control characters and much of everything: no line is forged, and it ends."""
    report = LOGS["gcc"].read_bytes().partition(b"SUMMARY")[0] + b"SUMMARY: AddressSanitizer: x\n"
    evil = report.replace(b"store /src/errors.c", "\x1b[2Jo\x00\x07re\u202e\u2028 /src/er\x08\r rors.c".encode())
    plain, told = (find("--annotations", "--read", "-", data=each)[1] for each in (report, evil))
    expect("control characters", told.replace("\n", "").isprintable() and told.count("\n") == plain.count("\n"), told)
    for name, data in (
        ("marks", b"==1" * (1 << 21)), ("heads", b"==1==ERROR: AddressSanitizer: " * (1 << 18)),
        ("many reports", report * 1000), ("brackets", report.replace(b"in store", b"in " + b"(<" * (1 << 20))),
        ("frames", report.replace(b"    #0", b"    #0 0x1 in f /a.c:1\n" * (1 << 17) + b"    #0", 1)),
    ):
        begin, (status, told, said) = time.monotonic(), find("--read", "-", data=data)
        is_quick = time.monotonic() - begin < 40
        expect(f"much of {name}", is_quick and status in (1, 2) and len(told + said) < 9999, status, said)
