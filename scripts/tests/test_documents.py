#!/usr/bin/env -S python3 -B
"""Runs the sessions of the documents: each command that begins with `$` must print the lines that follow it. Then it
computes the figures of the two tables of figures in examples/README.md, and draws docs/waste.svg and docs/prices.svg.
The numbers of other sentences are those that the commands of document_numbers.txt print.

  documents [--write]    --write writes docs/prices.svg of the table of docs/MEASUREMENTS.md, and tests nothing"""

import difflib
import os
import re
import subprocess
from typing import NamedTuple

import checks
from checks import expect
from mte_scripts import count_texts, engines, manifest, text_files
from mte_scripts.entry_point import Refusal
from mte_scripts.places import ROOT, SCRIPTS
from mte_scripts.reports import prices as drawn_prices

DOCUMENTS = ["README.md", *(f"docs/{name}.md" for name in "TUNING ALLOCATORS POOLS CERTIFICATES FORMATS FAULTS HEAP".split())]
DOCUMENTS += [f"examples/{name}/README.md" for name in ("build", "fleet", "memcached")]
FEWEST = 20  # commands
NEEDED = ((r"(scripts/tune_program )?sqlite3 ", "sqlite3"), (r"(scripts/traced_c|gc)c ", "gcc"))  # of a command
TABLES = ("scudo", "scudo_android")
WORDS = "none one two three four five six seven eight nine ten eleven twelve thirteen".split()
DRAWN = ("php", "sqlite3", "jq", "xmllint", "perl")  # in docs/prices.svg


class Session(NamedTuple):
    line: int
    command: str
    prints: str


def sessions(text: str) -> "list[Session]":
    """The commands of a document, and what they print: the lines after them that are indented as much, with the empty ones between."""
    found = []
    indent, lines = None, text.split("\n")
    for at, line in enumerate(lines, 1):
        if match := re.match(r"( +)\$ (.*)", line):
            indent, empty = len(match[1]), ""
            found.append([at, match[2], ""])
        elif indent is not None and not line.strip(" "):
            empty += "\n"
        elif indent is not None and line.startswith(" " * indent):
            found[-1][2] += f"{empty}{line[indent:]}\n"
            empty = ""
        else:
            indent = None
    return [Session(*each) for each in found]


class Sentence(NamedTuple):
    document: str
    text: str  # with `{}` for each number
    command: str
    may_be_missing: bool


def sentences(text: str) -> "list[Sentence]":
    """The rows of document_numbers.txt."""
    found, document, said = [], "", ""
    for line in text.splitlines():
        if match := re.fullmatch(r" +([$?]) (.*)", line):
            found.append(Sentence(document, said, match[2], match[1] == "?"))
        elif re.fullmatch(r"\S+\.md", line):
            document = line
        elif line and not line.startswith("#"):
            said = line
    return found


def numbers_in(document: str, text: str) -> "list[list[str]]":
    """The numbers of each place of a document that has this sentence, without commas; spelled ones too."""
    pattern = r"\s+".join(re.escape(word).replace(re.escape("{}"), r"([\d.,]*\d|[A-Za-z]+)") for word in text.split())
    places = re.findall(f"{pattern}()", document)
    spelled = lambda word: str(WORDS.index(word.lower())) if word.lower() in WORDS else word.replace(",", "")
    return [[spelled(word) for word in place[:-1]] for place in places]


def program(*words: str, given: bytes) -> int:
    """The number in the first line with one that the program prints, of its waste or its footprint."""
    done = subprocess.run([checks.built_program(), *words], input=given, stdout=subprocess.PIPE, check=True)
    return int(re.search(rb"(?m)^(?:waste|footprint) (\d+)$", done.stdout)[1])


def read(*names: str) -> bytes:
    return text_files.read(os.path.join(ROOT, *names))


def prices() -> bytes:
    """The picture of some rows of the table of what hardening costs."""
    document = read("docs", "MEASUREMENTS.md").decode()
    rows = []
    for name in DRAWN:
        match = re.search(rf"(?m)^\| `(?:\w+=\w+ )?{name} .*?` \| ([\d,]+) ±[\d,]+ \| ([\d,]+) ±[\d,]+ \| ([\d,]+) ±[\d,]+ \|", document)
        rows.append((name, tuple(int(cell.replace(",", "")) for cell in match.groups())))
    return drawn_prices.picture(rows).encode()


def row(name: str, first: int, values: "list[int]", whole: int, start: int) -> str:
    """A row of figures, each with the share of the whole by which it is above START."""
    cells = [f"{value:,} ({100 * (value - start) / whole:.1f}%)" for value in values]
    return " | ".join([f"| `{name}`", f"{first:,}", *cells]) + " |"


def strip_state(out: str) -> str:
    """What a command prints, without what the project's engines say of themselves."""
    if not checks.ENGINES:
        return out
    by = engines.State.PROVED_BY_PROJECT.value
    lines = [line for line in out.splitlines(keepends=True) if not line.startswith(f"mte_tool: the engines that answer are {by.lower()}")]
    return "".join(lines).replace(f" ({by})", "").replace(f"{by}:", f"{engines.State.PROVED_HERE.value}:")


class Documents(checks.Part):
    @classmethod
    def setup_class(cls):
        checks.built_program()
        try:
            cls.heap = not checks.missing_tools("scripts/find_faults") and bool(checks.with_heap())
        except Refusal:
            cls.heap = False
        cls.place = cls.folder()
        cls.rows = read("examples", "README.md").decode().splitlines()

    def expect_row(self, wanted: str) -> None:
        expect("a row of examples/README.md", wanted in self.rows, wanted)

    def test_sessions(self):
        count = 0
        for document in DOCUMENTS:
            place = os.path.join(self.place, document.replace("/", "."))
            os.mkdir(place)
            for name in ("scripts", "examples", "docs"):
                os.symlink(os.path.join(ROOT, name), os.path.join(place, name))
            for each in sessions(read(document).decode()):
                if checks.skip_without(" ".join(re.findall(r"\bscripts/[\w+]+", each.command)), f"{document}, from line {each.line} on"):
                    break  # what follows may take what it makes
                tools = " ".join(tool for begin, tool in NEEDED if re.match(begin, each.command))
                if checks.skip_without(tools, f"{document}, line {each.line}"):
                    continue
                if checks.ENGINES and "check_sheet" in each.command and "cut -c" in each.command:
                    checks.skip(f"with the project's engines, of which the line says more: {document}, line {each.line}")
                    continue
                if "find_faults" in each.command and not self.heap:
                    checks.skip(f"without the library: {document}, line {each.line}")
                    continue
                count += 1
                command = ["bash", "-o", "pipefail", "-c", each.command]
                done = subprocess.run(command, cwd=place, stdin=subprocess.DEVNULL, stdout=subprocess.PIPE, stderr=subprocess.STDOUT)
                out = strip_state(done.stdout.decode(errors="replace"))
                differs = list(difflib.ndiff(each.prints.splitlines(), out.splitlines()))[:5]
                expect(f"{document}, line {each.line}: {each.command}", out == each.prints, *differs)
        expect("the commands of the documents", count >= FEWEST, count)

    def test_numbers(self):
        place = os.path.join(self.place, "numbers")
        os.mkdir(place)
        for name in os.listdir(ROOT):
            os.symlink(os.path.join(ROOT, name), os.path.join(place, name))
        rows = sentences(read("scripts", "tests", "document_numbers.txt").decode())
        for each in rows:
            parts = re.findall(r"\b(?:scripts|examples)/[\w/.+-]+(?![\w*/.+-])", each.command)
            tools = [tool for begin, tool in NEEDED if re.match(begin, each.command)]
            if checks.skip_without(" ".join(parts + tools), f"{each.document}: {each.text}"):
                continue
            command = ["bash", "-o", "pipefail", "-c", each.command]
            done = subprocess.run(command, cwd=place, stdin=subprocess.DEVNULL, capture_output=True, text=True)
            if each.may_be_missing and not done.stdout:
                checks.skip(f"since the command prints nothing: {each.document}: {each.text}")
                continue
            printed, said = re.findall(r"\d+(?:\.\d+)?", done.stdout), numbers_in(read(each.document).decode(), each.text)
            holds = said and printed and not done.returncode and all(numbers == printed for numbers in said)
            expect(f"{each.document}: {each.text}: {each.command}", holds, said, "and not", printed, done.stderr)
        expect("document_numbers.txt", len(rows) >= FEWEST, len(rows))

    def test_rows_of_waste(self):
        for name in ("sqlite", "jq", "perl"):
            given = read("examples", f"{name}.profile")
            requested = sum(size * count for size, count in count_texts.parse_profile(given, name).items() if size != "large")
            wastes = [program("score", given=read("examples", f"{table}.classes") + given) for table in TABLES]
            wastes += [program("tune", "--limit", limit, given=given) for limit in ("32", "16")]
            self.expect_row(row(name, requested, wastes, requested, 0))

    def test_rows_of_footprints(self):
        for name in ("sqlite_large", "jq_large", "perl_large", "php"):
            path, made = os.path.join(ROOT, "examples", f"{name}.history"), os.path.join(self.place, f"{name}.tuned")
            done = subprocess.run([os.path.join(SCRIPTS, "tune_program"), "--read", path, "--output", made], stdout=subprocess.DEVNULL)
            expect(f"tune_program of {name}.history", done.returncode == 0, done.returncode)
            given = read(path)
            tuned = read(made, "tuned.sheet").split(b"\n")[0] + b"\n"
            default, android = (program("footprint", given=read("examples", f"{table}.classes") + given) for table in TABLES)
            others = [android, program("footprint", given=tuned + given)]
            others += [program("fit", "--limit", limit, given=given) for limit in ("32", "16")]
            self.expect_row(row(name, default, others, default, default))

    def test_picture(self):
        names = [os.path.join(ROOT, "examples", f"{name}.profile") for name in ("sqlite", "jq", "perl")]
        done = subprocess.run([os.path.join(SCRIPTS, "draw_waste"), *names], stdout=subprocess.PIPE)
        expect("docs/waste.svg is what draw_waste prints", done.stdout == read("docs", "waste.svg"))

    def test_prices(self):
        expect("docs/prices.svg is of the table in docs/MEASUREMENTS.md: documents --write", prices() == read("docs", "prices.svg"))

    def test_made(self):
        """What a reader opens without an installation is of the sources that are there."""
        for name in ("page.html", "checker.wasm"):
            why = manifest.why_unproved(os.path.join(ROOT, "docs", name), ROOT)
            expect(f"docs/{name}: {why}: scripts/tests/test_checker.py --write makes it anew", not why)


def write_instead(options):
    if not options.write:
        return None
    text_files.write_file(os.path.join(ROOT, "docs", "prices.svg"), prices())
    return 0


def add_options(parser):
    parser.add_argument("--write", action="store_true", help="write docs/prices.svg anew")


if __name__ == "__main__":
    checks.main(write_instead)
