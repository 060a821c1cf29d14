#!/usr/bin/env -S python3 -B
"""Tests the checker in WebAssembly: in node, gjs and jsc, and as C that wasm2c makes of it, for this processor and for arm64 in QEMU. Each
says what the program does. What is not installed is skipped, with a word.

  checker [--cases N] [--write]    N drawn cases of each command (150 if left out); with --write nothing is tested, and docs/page.html and
                                   docs/checker.wasm are made anew, with their manifests"""

import base64
import functools
import json
import os
import re
import shutil
import subprocess
from pathlib import Path

import checks
import drawn_certificates
import library_cases
import pytest
from checks import expect
from mte_scripts import manifest, text_files
from mte_scripts.builds import static_libraries, web_page, webassembly
from mte_scripts.places import ROOT

EXAMPLES = os.path.join(ROOT, "examples", "checker")
C = "/usr/share/wabt/wasm2c"
MADE = {"page.html": lambda modules: web_page.page(modules).encode(), "checker.wasm": lambda modules: modules[web_page.CHECKER]}

# Calls in one instance, each a command and two texts in base64; the end and the answer of each, and how large the memory was in the end.
MANY = """
const [path] = process.argv.slice(2);
const fs = require("fs");
const checker = new WebAssembly.Instance(new WebAssembly.Module(fs.readFileSync(path)), {}).exports;
const put = (text) => {
  const bytes = Buffer.from(text, "base64");
  const place = checker.take(bytes.length) >>> 0;
  new Uint8Array(checker.memory.buffer, place, bytes.length).set(bytes);
  return [place, bytes.length];
};
const answers = JSON.parse(fs.readFileSync(0)).map(([command, ...given]) => {
  const places = given.map(put);
  const end = checker[command.replaceAll("-", "_")](...places.flat());
  for (const [place] of places) checker.give(place);
  return [end, Buffer.from(checker.memory.buffer, checker.answer() >>> 0, checker.answer_length()).toString("base64")];
});
console.log(JSON.stringify([answers, checker.memory.buffer.byteLength]));
"""
ASTRAY = """
const fs = require("fs");
for (const words of [[-16, 8, 16, 4], [0, 0, 1 << 30, 1 << 30], [1 << 30, 4, 16, 4]]) {
  const checker = new WebAssembly.Instance(new WebAssembly.Module(fs.readFileSync(process.argv[2])), {}).exports;
  try { console.log("end", checker.check(...words)); } catch (error) { console.log(error instanceof WebAssembly.RuntimeError ? "trap" : error); }
}
"""

# Calls of which the last call's answer is a text, after one that gives it: the commands, texts, ends and answers.
OWN_ANSWER = """
const fs = require("fs");
const checker = new WebAssembly.Instance(new WebAssembly.Module(fs.readFileSync(process.argv[2])), {}).exports;
const put = (text) => {
  const place = checker.take(text.length) >>> 0;
  new Uint8Array(checker.memory.buffer, place, text.length).set(Buffer.from(text));
  return [place, text.length];
};
const read = (place, length) => Buffer.from(checker.memory.buffer, place >>> 0, length).toString("base64");
const own = () => [checker.answer(), checker.answer_length()];
const made = [];
for (const [sheet, counts] of JSON.parse(fs.readFileSync(0))) {
  for (const are of [() => [own(), put(counts)], () => [put(sheet), own()], () => [own(), own()]]) {
    checker.check(...put("classes 2"), ...put(counts));
    const [first, input] = are();
    const given = [read(...first), read(...input)];
    made.push([...given, checker.check(...first, ...input), read(...own())]);
  }
}
console.log(JSON.stringify(made));
"""


def answer_of(command: str, first: bytes, counts: bytes, claim: int = 0) -> "tuple[int, bytes] | None":
    """What the program says, which knows no empty second text that is apart."""
    return drawn_certificates.answer_of(command, first, counts, claim) if counts else (library_cases.MISUSE, b"")


def is_told(case: "tuple[str, bytes, bytes]", end: int, answer: bytes, claim: int = 0) -> bool:
    """Whether an answer is the program's; where that can't be asked, a fault."""
    wanted = answer_of(*case, claim)
    return (end, answer.strip()) == (wanted[0], wanted[1].strip()) if wanted else end == 2 and bool(re.match(rb"\d\d \w+ line \d+$", answer))


def hosts(folder: str, path: str) -> "dict[str, list[str]]":
    """The words before a command, by the name of what runs the module."""
    script = os.path.join(EXAMPLES, "check.js")
    known = {"node": ["node", script], "gjs": ["gjs", script], "jsc": ["jsc", script, "--"]}
    return {name: words for name, words in known.items() if not checks.skip_without(name, "the checker in it")} | c_answers(folder, path)


def c_answers(folder: str, path: str) -> "dict[str, list[str]]":
    """The same of the programs that a C compiler makes of it."""
    if checks.skip_without("wasm2c gcc", "the checker as C"):
        return {}
    shutil.copyfile(path, f"{folder}/checker.wasm")
    subprocess.run(["wasm2c", "checker.wasm", "-o", "checker.c"], cwd=folder, check=True)
    sources = [f"{EXAMPLES}/check.c", "checker.c", f"{C}/wasm-rt-impl.c"]
    made = {"C": ["gcc"], "C on arm64": ["aarch64-linux-gnu-gcc", "-static"]}
    if checks.skip_without("aarch64-linux-gnu-gcc qemu-aarch64", "the checker as C for arm64"):
        del made["C on arm64"]
    for name, words in made.items():
        program = f"{folder}/{name}"
        subprocess.run([*words, "-O1", "-I.", f"-I{C}", *sources, "-lm", "-o", program], cwd=folder, check=True)
        made[name] = ["qemu-aarch64", program] if "arm64" in name else [program]
    return made


class Checker(checks.Part):
    @classmethod
    def setup_class(cls):
        if not all(map(static_libraries.is_cheap, ("mte_c", "mte_step"))):
            pytest.skip("since no library is kept that the engines could be built on (scripts/page keeps them): the checker")
        try:
            cls.modules = web_page.engines()
        except webassembly.MissingTool as missing:
            pytest.skip(f"without {missing}: the checker")
        cls.path = os.path.join(cls.folder(), "module.wasm")
        Path(cls.path).write_bytes(cls.modules[web_page.CHECKER])

    def in_node(self, script: str, given: bytes = b"") -> bytes:
        place = os.path.join(self.folder(), "run.js")
        Path(place).write_text(script)
        return subprocess.run(["node", place, self.path], input=given, stdout=subprocess.PIPE, check=True).stdout

    def called(self, calls: "list[tuple]") -> "tuple[list[tuple[int, bytes]], int]":
        """How each of these calls of one instance ends, with its answer; and how large the memory was in the end."""
        encoded = [[command, *(base64.b64encode(text).decode() for text in given)] for command, *given in calls]
        answers, memory = json.loads(self.in_node(MANY, json.dumps(encoded).encode()))
        return [(end, base64.b64decode(answer)) for end, answer in answers], memory

    def test_it_imports_nothing(self):
        checks.need("wasm-objdump", "what the checker imports and exports")
        said = subprocess.run(["wasm-objdump", "-x", self.path], stdout=subprocess.PIPE, check=True, text=True).stdout
        expect("the checker imports nothing", "\nImport[" not in said)
        exports = re.findall(r'(?m)^ - \w+\[\d+\](?: <\S+>)? -> "(\w+)"$', said)
        checks_of = ["check", "check_claim", "check_fit", "check_fit_claim"]
        wanted = ["__heap_base", "answer", "answer_length", *checks_of, "give", "memory", "take"]
        expect("it exports what web/checker.c says", sorted(exports) == wanted, exports)

    def test_drawn_cases(self):
        checks.need("node", "drawn cases of the checker")
        made, ends = drawn_certificates.draw_certificates(checks.options.cases), {}
        for claim in (0, 1):
            calls = [(f"{command}{'-claim' * claim}", *data) for command, *data in made]
            answers, memory = self.called(calls)
            for case, (end, answer) in zip(made, answers):
                expect(f"{'--claim ' * claim}{case}", is_told(case, end, answer, claim), end, answer, answer_of(*case, claim))
                ends.setdefault((case[0], claim), set()).add(end)
            once = self.called(calls[:40])[1]
            expect(f"the memory does not grow with the calls: {once} and {memory}", memory <= 4 * once)
        expect("each command says yes, no and refuses", all(seen >= {0, 1, 2} for seen in ends.values()) and len(ends) == 4, ends)

    def test_borders(self):
        checks.need("node", "the border of two texts")
        made = [(command, data, want, more) for command, data, want, more in library_cases.BORDERS if command.startswith("check")]
        answers, _ = self.called([(command, *data) for command, data, _, _ in made])
        for (command, data, want, more), (end, answer) in zip(made, answers):
            is_fault = end == 2 and re.fullmatch(rf"{want} \w+ line {more}", answer.decode())
            expect(f"{command} of {data}: the border", end == want if want in (0, 1) else bool(is_fault), end, answer)

    def test_own_answer(self):
        checks.need("node", "an answer that is a text of the next call")
        texts_of = [(f"classes 2\nlimit 1\nwaste 0\nrow {0:0{digits}}\n", "16 1\n" * digits) for digits in range(1, 40)]
        for *given, end, answer in json.loads(self.in_node(OWN_ANSWER, json.dumps(texts_of).encode())):
            first, counts, answer = (base64.b64decode(each) for each in (*given, answer))
            expect("an answer is read as a text of the next call", is_told(("check", first, counts), end, answer), first, counts, end, answer)

    def test_empty(self):
        checks.need("node", "an empty second text")
        sheet, fit = library_cases.SMALL_SHEET, library_cases.SMALL_FIT
        firsts = (b"", b"x", b"classes\nlimit 1\nwaste 0\nrow\n", b"classes\nlimit 1\nfootprint 0\nrow\n", sheet, fit)
        calls = [(command, first, b"") for command in ("check", "check-fit") for first in firsts]
        for words, answer in zip(calls, self.called(calls)[0]):
            expect(f"{words}: an empty second text is refused", answer == (library_cases.MISUSE, b""), answer)

    def test_astray(self):
        checks.need("node", "places outside of the memory")
        expect("a place outside of the memory is a trap", self.in_node(ASTRAY) == b"trap\n" * 3, self.in_node(ASTRAY))

    def test_hosts(self):
        folder = self.folder()
        for name, words in hosts(folder, self.path).items():
            for case in drawn_certificates.draw_certificates(6):
                files = [os.path.join(folder, each) for each in ("first", "counts")]
                for file, text in zip(files, case[1:]):
                    Path(file).write_bytes(text)
                for claim in (0, 1):
                    call = [*words, case[0], *["--claim"] * claim, *self.module_of(name), *files]
                    done = subprocess.run(call, stdout=subprocess.PIPE)
                    end = done.returncode
                    if name == "jsc" and end == 3:  # it has no other but 0
                        end = (answer_of(*case, claim) or (2,))[0] or 3
                    end = library_cases.MISUSE if end == 2 and not case[2] else end
                    expect(f"{name}: {claim}: {case}", is_told(case, end, done.stdout.strip(), claim), done)
            self.hosts_refuse(name, words, folder)

    def module_of(self, host: str) -> "list[str]":
        return [] if host.startswith("C") else [self.path]

    def hosts_refuse(self, name: str, words: "list[str]", folder: str) -> None:
        """What is no call, or can't be read, is never a verdict."""
        sheet, counts, none, large = (os.path.join(folder, it) for it in ("sheet", "profile", "none", "large"))
        Path(sheet).write_bytes(library_cases.SMALL_SHEET)
        for path in (counts, large):
            Path(path).write_bytes(library_cases.SMALL_PROFILE)
        os.truncate(large, (4 << 30) + len(library_cases.SMALL_PROFILE))  # without a block on the disk
        module = self.module_of(name)
        # without words, and with too few, too many and another command; then with what is no text
        refused = [[], ["check"], ["check", *module, sheet], ["check", *module, sheet, counts, counts],
                   ["chek", *module, sheet, counts], ["check", *module, sheet, "/dev/null"],
                   ["check", *module, sheet, "/proc/version"], ["check", *module, "/dev/null", counts]]
        unread = [["check", *module, none, counts], ["check", *module, sheet, none], ["check", *module, sheet, folder]]
        if module:
            unread += [["check", none, sheet, counts], ["check", sheet, sheet, counts]]
        refused.append(["check", *module, sheet, large])
        good = [*words, "check", *module, sheet, counts]
        run = functools.partial(subprocess.run, stderr=subprocess.PIPE)
        expect(f"{name}: the sheet", run(good, stdout=subprocess.PIPE).stdout == b"optimal\n")
        faults = (b"48 BadSheet line 1\n", b"30 BadLine line 1\n", b"80 InputTooLong\n")
        for status, each in [*((2, each) for each in refused), *((3, each) for each in unread)]:
            done = run([*words, *each], stdout=subprocess.PIPE)
            is_said = bool(done.stderr) or done.stdout in faults
            wanted = 3 if name == "jsc" else status
            expect(f"{name} {each}: ends with {wanted}", done.returncode == wanted and is_said, done)
        if name in ("node", "C", "C on arm64"):
            with open("/dev/full", "wb") as full:
                done = run(good, stdout=full)
            expect(f"{name}: an answer that can't be written", done.returncode == 3 and done.stderr, done)

    def test_documents(self):
        for name, of in MADE.items():
            expect(f"docs/{name} is of these sources: scripts/tests/test_checker.py --write", text_files.read(os.path.join(ROOT, "docs", name)) == of(self.modules))


class Copies(checks.Part):
    """docs/checker.wasm in a copy, with its manifest."""

    def answers(self, data: bytes, name: str, host: "list[str]") -> subprocess.CompletedProcess:
        folder = self.folder()
        Path(folder, name).write_bytes(data)
        shutil.copy(os.path.join(ROOT, "docs", "checker.wasm.manifest"), folder)
        Path(folder, "sheet").write_bytes(library_cases.SMALL_SHEET)
        Path(folder, "profile").write_bytes(library_cases.SMALL_PROFILE)
        return subprocess.run([*host, "check", name, "sheet", "profile"], cwd=folder, capture_output=True, text=True)

    def test_changed(self):
        """A module with one changed byte is not that of its manifest; jsc can't see that, and C is compiled of what is given."""
        data = text_files.read(os.path.join(ROOT, "docs", "checker.wasm"))
        changed = bytearray(data)
        changed[len(data) // 2] ^= 1
        for name in ("node", "gjs"):
            if checks.skip_without(name, "a changed checker in it"):
                continue
            host = [name, os.path.join(EXAMPLES, "check.js")]
            good, other = self.answers(data, "checker.wasm", host), self.answers(bytes(changed), "checker.wasm", host)
            expect(f"{name}: the module of the manifest", (good.returncode, good.stdout) == (0, "optimal\n"), good)
            is_refused = (other.returncode, other.stdout) == (3, "") and "not the one of its manifest" in other.stderr
            expect(f"{name}: a module with one changed byte is refused", is_refused, other)
            apart = self.answers(data, "apart.wasm", host)
            expect(f"{name}: a module without a manifest", (apart.returncode, apart.stdout) == (0, "optimal\n"), apart)


def write_instead(options):
    if not options.write:
        return None
    modules = web_page.build_engines("checker")
    engine = manifest.read(web_page.module_path("tool"))
    for name, of in MADE.items():
        place = os.path.join(ROOT, "docs", name)
        Path(place).write_bytes(of(modules))
        Path(manifest.path_of(place)).write_text(manifest.text_of(engine._replace(program=manifest.hash_of(place))))
    return 0


def add_options(parser):
    parser.add_argument("--cases", type=int, default=150, metavar="N", help="so many drawn cases of each command (150)")
    parser.add_argument("--write", action="store_true", help="make docs/page.html and docs/checker.wasm anew, with their manifests")


if __name__ == "__main__":
    checks.main(write_instead)
