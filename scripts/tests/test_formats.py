#!/usr/bin/env -S python3 -B
"""Compares the table of the formats, scripts/mte_scripts/formats.py, with all that has its numbers and words.

Usage: formats [--write]

The table has to agree with the laws and definitions that have the numbers, with the texts of the codes that contracts cite, with the exit
statuses of `mte_tool`, with the help and with the documents. The built program has to allow each limit, and to refuse one more. The parts
that the table writes have to be what it writes.

  --write   write these parts anew; the numbers of totals in examples are those of the plain program, which rustc compiles for it

Exit status: 0 all agrees, or is written; 1 something does not, or is not, and it is listed; 2 the words are refused.
"""
import os
import re
import shutil
import subprocess
import sys

import checks
import parts_alone
import pytest
from checks import expect, skip
from mte_scripts import formats
from mte_scripts import helps
from mte_scripts.gate import statements, written_parts
from mte_scripts.gate.crate_texts import CRATES, name_of
from mte_scripts.gate.written_parts import hyphenate_name, read
from mte_scripts.places import BUILT, ROOT


# ---- what the crates prove

LAWS = ("mte_engine/src/laws.rt", "machine_theory/src/laws/addresses.rt", "handed_text/src/laws.rt")
DEFINITIONS = ("byte_streams/specs/Transfer.antt",)
# what the contracts of the crates call a number, where it is not its name in the table
PROVED_NAMES = {
    "MOST_INPUT": "most_input",
    "LARGEST_SIZE": "largest_counted",
    "MOST_COUNT": "greatest_count",
    "MOST_EVENTS": "most_events",
    "LONGEST_LINE": "longest_line",
    "REGION_START": "region_start",
}


def test_numbers():
    """Each number of the table is the one of a law, or of a definition that contracts cite; and each number there is in the table."""
    proved = {}
    for name in LAWS:
        for it, number, power in re.findall(r"\b([A-Za-z]\w+) ≡ (\d+)(?: \^ (\d+))?(?=[) ])", read(f"crates/{name}")):
            proved[it] = int(number) ** int(power or 1)
    for name in DEFINITIONS:
        for it, value in re.findall(r"(?m)^(\w+) = (\d+)$", read(f"crates/{name}")):
            proved[it] = int(value)
    wanted = {PROVED_NAMES.get(name, name): value for name, value in formats.NUMBERS.items()}
    wanted |= {name: number for number, name in enumerate(formats.ENDS)}
    for name in sorted({*wanted, *proved}):
        expect(f"the number {name} and the one that is proved", wanted.get(name) == proved.get(name), (wanted.get(name), proved.get(name)))


def test_codes():
    """The codes and names are those in the texts of errors, in the definitions that contracts cite or, where there is none, in the code."""
    found = {}
    for below, ending, pattern in (("specs", ".antt", r'codes "(\d+) (\w+)"'), ("src", ".rt", r'"(\d+) ([A-Z]\w+)(?: line \{\w+\})?"')):
        for path in sorted(path for path in CRATES.glob(f"*/{below}/**/*{ending}") if "tests" not in path.parts[len(CRATES.parts) :]):
            for code, said in re.findall(pattern, path.read_text(encoding="utf-8")):
                expect(f"{name_of(path)}: code {code}", found.setdefault(int(code), said) == said, said)
    table = {code: it.name for code, it in formats.CODES.items()}
    for code in sorted({*table, *found}):
        expect(f"code {code} and its name in the crates", table.get(code) == found.get(code), (table.get(code), found.get(code)))


def test_statuses():
    """Of `status_of`: done 0, no 1, refused 2, failed 3."""
    statuses = dict(re.findall(r"(?m)^status_of \(?(?:Ended \((?:Ok|Err) )?\(?(\w+).*\) = (\d)$", read("crates/mte_tool/specs/Exit.antt")))
    by_name = {it.name: it.status for it in formats.CODES.values()}
    wanted = {"Done": 0, "No": by_name["OffStep"], "Input": by_name["BadLine"]}
    wanted |= {name: by_name[name] for name in ("OutOfMemory", "ReadFault", "WriteFault")}
    expect("the exit statuses", {name: int(status) for name, status in statuses.items()} == wanted, (statuses, wanted))


# ---- what the program does at each limit, and one beyond it

def at_limits():
    """Each command with an input that a limit allows, one that it does not, and the code of that."""
    f = formats

    def beyond(command, form, most, code, least=None):
        yield command, form(most), form(most + 1), code
        if least is not None:
            yield command, form(least), form(least - 1), code

    events = [
        (lambda n: f"malloc {n} 1\n", f.LAST_VARIABLE), (lambda n: f"malloc 0 {n}\n", f.LARGEST_REQUEST),
        (lambda n: f"load 0 {n} 1\n", f.FARTHEST_ACCESS), (lambda n: f"load 0 -{n} 1\n", f.FARTHEST_ACCESS),
        (lambda n: f"load 0 0 {n}\n", f.LONGEST_ACCESS), (lambda n: f"addg 0 0 {n} 0\n", f.FARTHEST_MOVE),
        (lambda n: f"addg 0 0 0 {n}\n", f.LARGEST_TAG_STEP),
    ]
    for form, most in events:
        yield from beyond("profile", form, most, 72)
    yield from beyond("score", lambda n: f"classes {' '.join(map(str, range(2, n + 2)))}\n", f.MOST_CLASSES, 20)
    yield from beyond("score", lambda n: f"classes {n}\n", f.LARGEST_CLASS, 21, f.SMALLEST_CLASS)
    yield from beyond("score", lambda n: f"classes {f.LARGEST_CLASS}\n{n} 1\n", f.LARGEST_SIZE, 30)
    yield from beyond("tune --limit 1", lambda n: f"{f.LARGEST_SIZE} {n}\n", f.MOST_COUNT, 32, 1)
    yield from beyond("fit --limit 1", lambda n: f"snapshots 1\n{f.LARGEST_SIZE} {n}\n", f.MOST_COUNT, 32, 1)
    yield from beyond("fit --limit 1", lambda n: f"snapshots {n}\n", f.MOST_SNAPSHOTS, 34, 1)
    yield from beyond("check", lambda n: f"classes\nlimit 1\nwaste 0\nrow{' 0' * n}\n", f.MOST_NEEDS, 48)
    yield from beyond("profile", lambda n: f"{'x' * n}\n", f.LONGEST_LINE, 73)
    yield from beyond("profile", lambda n: "free 0\n" * n, f.MOST_EVENTS, 74)
    yield from beyond("score", lambda n: "x" * n, f.MOST_INPUT, 80)


def run(words, text):
    done = subprocess.run([BUILT, *words.split()], input=text.encode(), capture_output=True)
    return done.returncode, done.stderr.decode().removeprefix("error ").split(" line ")[0].strip()


def test_limits():
    if not os.path.exists(BUILT):
        pytest.skip("without the built program: its limits")
    for words, allowed, refused, code in at_limits():
        it = formats.CODES[code]
        expect(f"{words} of {refused[:40]!r}", run(words, refused) == (it.status, f"{code} {it.name}"), run(words, refused))
        expect(f"{words} of {allowed[:40]!r}", run(words, allowed)[1] != f"{code} {it.name}")
    sheet = "classes\nlimit 1\nwaste 0\nrow\n"
    for name, option in formats.OPTIONS.items():
        if name in formats.CHECKER:
            words, text = "check", sheet
        else:
            command, it = [each for each in formats.COMMANDS.items() if name in each[1].options][-1]
            words = command.replace("_", "-") + " --limit 1" * (name != "limit" and "limit" in it.options)
            text = "classes\n" * ("classes" in it.inputs) + "snapshots 1\n" * ("history" in it.inputs)
        for value, is_refused in ((option.least, False), (option.most, False), (option.least - 1, True), (option.most + 1, True)):
            status, said = run(f"{words} --{hyphenate_name(name)}={value}", text)
            expect(
                f"{words} --{hyphenate_name(name)} {value}",
                (status == 2 and said.startswith("error: invalid value")) == is_refused,
                said,
            )
            ends = (name, value) != ("first_lines", option.most)  # of which no sheet has so many
            expect(
                f"{words} --{hyphenate_name(name)} {value}: it ends",
                (status == 0) == (ends and not is_refused),
                status,
                said,
            )
    trace = f"classes {formats.LARGEST_CLASS}\nmalloc 0 {formats.LARGEST_SIZE}\nmalloc 1 {formats.LARGEST_SIZE + 1}\n"
    report = subprocess.run([BUILT, "replay"], input=trace.encode(), capture_output=True).stdout
    expect("the largest request, and one byte more", report.startswith(b"2 null large\nevents 2\n"), report)


# ---- what the program and the documents say

def test_help():
    """The codes with their words, and the options, in the texts that scripts/tests/test_program.py compares with the program's."""
    said = {code: set() for code in formats.CODES}
    for name, text in helps.sessions(read("scripts/tests/help.txt")).items():
        if name.endswith("-h"):
            options = {term.split()[0][2:].replace("-", "_"): words for term, words in helps.Help(text).terms("OPTIONS") if term.startswith("--")}
            for option, words in options.items():
                expect(f"{name}: --{option}", is_said(formats.OPTIONS[option], words), words)
            command = formats.COMMANDS.get(name.split()[0].replace("-", "_"))
            expect(f"{name}: its options", command is None or set(options) == set(command.options), options)
        for code, word, words in re.findall(r"(?m)^  (\d\d) (\w+) +(.*(?:\n {23}.*)*)", text):
            said[int(code)].add((word, " ".join(words.split())))
    for code, words in said.items():
        it = formats.CODES[code]
        wanted = {(it.name, it.words)} if it.words else {(it.name, text) for _, text in words}
        expect(f"the help on code {code}", words <= wanted and (bool(words) or it.status in (None, 3)), words)


def is_said(option, words):
    default = "" if option.default is None else f" [default: {option.default}]"
    return words.endswith(f"{option.values or f'{option.least} to {option.most}'}{default}")


# Each text with sentences that have numbers of the table, and rows that have them.
SENTENCES = {
    "docs/FORMATS.md": """at most {MOST_INPUT:,} bytes / granules of {GRANULE_BYTES} bytes, from {SMALLEST_CLASS} to {LARGEST_CLASS}
        / above {LARGEST_SIZE:,} bytes is called large / At most {MOST_CLASSES} classes / size in bytes (0 to {LARGEST_SIZE:,})
        / requested (1 to {MOST_COUNT:,}) / snapshots, 1 to {MOST_SNAPSHOTS:,} / at each snapshot (0 to {MOST_COUNT:,}
        / at most {MOST_NEEDS:,} numbers each / at most {MOST_EVENTS:,} lines / the number of a variable | 0 to {LAST_VARIABLE}
        / the bytes of a request | 0 to {LARGEST_REQUEST:,} / -{FARTHEST_ACCESS:,} to {FARTHEST_ACCESS:,}
        / the bytes of an access | 1 to {LONGEST_ACCESS} / by how many granules an address is moved | 0 to {FARTHEST_MOVE}
        / 0 to {LARGEST_TAG_STEP} / more than {LONGEST_LINE} bytes without its newline""",
    "docs/HEAP.md": """R granules, {FEWEST_GRANULES} to {MOST_GRANULES:,} / a limit of Q bytes, 0 to {MOST_QUARANTINE:,}
        / more than {GRANULE_BYTES} · {LARGEST_CLASS} - {GRANULE_BYTES} bytes
        / loads and stores 1 to {LONGEST_ACCESS} bytes, at most {FARTHEST_ACCESS:,}""",
    "docs/MACHINE.md": "A memory has R granules, R from {FEWEST_GRANULES} to {MOST_GRANULES:,} / accesses 1 to {LONGEST_ACCESS} bytes",
    "README.md": "at most {LARGEST_SIZE:,} bytes",
    "docs/CONTRIBUTING.md": "A class is a block size in granules, {SMALLEST_CLASS} to {LARGEST_CLASS};",
    "docs/DECISIONS.md": """A table has at most {MOST_CLASSES} classes from {SMALLEST_CLASS} to {LARGEST_CLASS} granules
        / A count is at most {MOST_COUNT:,}""",
    "docs/LIBRARY.md": "Loads and stores of 1 to {LONGEST_ACCESS} bytes",
    "docs/POOLS.md": "A block has at most {LARGEST_CLASS:,} units",
    "scripts/mte_scripts/faults/fault_options.py": """{FEWEST_GRANULES} to {MOST_GRANULES} ({MOST_GRANULES}) / 0 to {MOST_QUARANTINE} (65536)""",
    "scripts/mte_scripts/recording/trace_program.py": "never more than {MOST_EVENTS:,} / A request above {LARGEST_REQUEST:,} bytes",
}


def test_documents():
    for path, sentences in SENTENCES.items():
        if parts_alone.is_gone(path):
            continue
        text = " ".join(read(path).split())
        for sentence in " ".join(sentences.split()).split(" / "):
            sentence = sentence.format(**formats.NUMBERS)
            expect(f"{path} does not say: {sentence}", sentence in text)
    for name, option in formats.OPTIONS.items():
        if name in formats.HEAP:
            row = rf"\| `--{name} \w` \| .* \| {option.least:,} to {option.most:,} \| {option.default:,} \|"
            expect(f"docs/FORMATS.md: the option --{name}", re.search(row, read("docs/FORMATS.md")))
        elif name not in formats.TUNER:  # in a sentence
            said = (
                rf"`--{hyphenate_name(name)}`"
                if option.values
                else rf"`--{hyphenate_name(name)} \w` \(1 to {option.most}\)"
            )
            expect(f"docs/FORMATS.md: the option --{name}", re.search(said, read("docs/FORMATS.md")))
        if name in formats.LIBRARY_OPTIONS and name not in formats.TUNER:
            words = re.search(rf"uint64_t {name}; +/\* (.*) \*/", read("include/mte_tool.h"))
            expect(f"include/mte_tool.h: the option {name}", words and words[1].endswith(f"{option.least} to {option.most}"))
    listed = set()
    for path in ("docs/FORMATS.md", "docs/CERTIFICATES.md"):
        for code, name, status in re.findall(r"(?m)^\| (\d+) \| (\w+) \|.*?(?:\| (\d) \|)?$", read(path)):
            it = formats.CODES.get(int(code))
            expect(f"{path}: code {code} {name}", it and it.name == name and status in ("", str(it.status)))
            listed.add(int(code))
    wanted = {code for code, it in formats.CODES.items() if it.status}
    expect("the codes in docs/FORMATS.md", listed == wanted, listed ^ wanted)


# Numbers of docs/FORMATS.md that are none of the table's: a status of a shell, the sums of an example, the line after the last.
OTHER_NUMBERS = {153, 320, 384, formats.MOST_EVENTS + 1}


def test_spelled_numbers():
    """So a row with a wrong number fails, whatever else stands in it. The numbers of examples and up to 10 are left out."""
    bounds = {bound for option in formats.OPTIONS.values() for bound in (option.least, option.most, option.default)}
    known = {*formats.NUMBERS.values(), *formats.CODES, *bounds, *OTHER_NUMBERS}
    text = re.sub(r"(?m)^    .*$", "", read("docs/FORMATS.md"))
    spelled = {int(word.replace(",", "")) for word in re.findall(r"(?<![\w.,])(\d[\d,]*)(?:rd|st|th)?(?!\w)", text)}
    wrong = {number for number in spelled if number > 10 and number not in known}
    expect("docs/FORMATS.md: each number is of the table", len(spelled) > 50 and not wrong, wrong)


# The files in which the largest size may be spelled, so that the rest goes by its names. The first two have musl's, which is the same.
HOMES = """docs/ALLOCATORS.md scripts/mte_scripts/allocators/models.py
    README.md crates/command_words/src/commands/shared_help.rt crates/engine_tests/src/tests/engines/profile_texts.rt
    crates/engine_tests/src/tests/tuner/sizes_and_profiles.rt crates/mte_engine/src/laws.rt docs/FORMATS.md
    crates/definition_examples/proofs/TheoryExamples.antt docs/PROOFS.md
    docs/TUNING.md docs/page.html include/mte_tool.h library/sentences.h python/mte_tool/_arrays.py
    rust/mte-tool-sys/src/lib.rs rust/mte-tool/src/arrays.rs rust/mte-tool/src/codes.rs scripts/mte_scripts/formats.py
    scripts/shims/formats.h scripts/tests/definition_changes.txt scripts/tests/hand_answers.py scripts/tests/help.txt
    scripts/tests/test_tuning.py web/formats.js"""


def test_homes():
    spelled = "[,_]?".join(f"{formats.LARGEST_SIZE:,}".split(","))
    found = subprocess.run(["git", "grep", "-lIE", rf"\b{spelled}\b"], cwd=ROOT, capture_output=True, text=True)
    if found.returncode > 1:
        skip("without git: where the largest size is spelled")
    for name in sorted(set(found.stdout.split()) - set(HOMES.split())):
        expect(f"{name} spells the largest size, and is none of its homes: name it", False)


def test_parts():
    if not shutil.which("rustc"):
        skip("without rustc: the numbers of the totals in crates/mte_tool/stdout, crates/heap_tests and README.md")
    for name in written_parts.PARTS:
        try:
            is_written = written_parts.text_to_write(name) == read(name)
        except LookupError as lacking:
            expect(str(lacking), False)
        else:
            expect(f"{name} is not what the table writes: scripts/tests/test_formats.py --write", is_written)


def write_instead(options):
    if not options.write:
        return None
    try:
        written_parts.write()
    except (statements.UnresolvedName, subprocess.CalledProcessError, LookupError) as error:
        print(f"formats: the last parts are not written, {', '.join(written_parts.PARTS_OF_RUNS)}: {error}", file=sys.stderr)
        return 1
    return 0


def add_options(parser):
    parser.add_argument("--write", action="store_true", help="write the parts of other files that are made of the table")


if __name__ == "__main__":
    checks.main(write_instead)
