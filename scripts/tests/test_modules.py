#!/usr/bin/env -S python3 -B
"""Tests the project's engines (the folder `modules`) as native code and in Node: what they answer is what the program
answers that is proved and built here, or the plain one; at hostile ends too. And that nothing runs a module that is not
its manifest's.

  test_modules.py [--cases N]    N drawn inputs, and half as many command lines (500 if left out)
  test_modules.py --rebuild      the modules are built anew too, where `rt ci` has left what they stand on"""

import fcntl
import gzip
import lzma
import os
import random
import shutil
import subprocess
from pathlib import Path

import checks
import drawn_inputs
import part_runs
import pytest
from checks import expect
from mte_scripts import engines, manifest
from mte_scripts.builds import library, modules, web_page
from mte_scripts.formats import MOST_INPUT
from mte_scripts.places import BUILT, ROOT

SHARED = {"stdin": subprocess.DEVNULL, "capture_output": True}
MODULES_ARE = engines.why_unproved()
PACKAGES = "apt install gcc libc6-dev"


def hosts() -> "dict[str, engines.Engine]":
    """What runs the program, by its name."""
    found = {}
    if not checks.skip_without("gcc", "the engines as native code"):
        found["native"] = engines.Engine(engines.make_native(), ["mte_tool"], "")
    if not checks.skip_without("node", "the engines in Node"):
        found["node"] = engines.node_engine(shutil.which("node"))
    return found


def answer(host: engines.Engine, words: "list[str]", text: "bytes | None" = None, **how) -> tuple:
    """The status of a program, its output and what it says."""
    given = {"stdin": subprocess.DEVNULL} if text is None else {"input": text}
    words = [*host.words, *map(os.fsencode, words)]
    done = subprocess.run(words, executable=host.executable, **{"stdout": -1, "stderr": -1, **given, **how})
    return done.returncode, done.stdout, done.stderr


class Hosts(checks.Part):
    @classmethod
    def setup_class(cls):
        if MODULES_ARE:
            pytest.skip(f"stale, since {MODULES_ARE}: the project's engines")
        os.environ["MTE_TOOL_BUILD"] = "yes"  # of the native code
        cls.hosts = hosts()
        cls.is_built = not engines.look_at_built()[0]
        path = BUILT if cls.is_built else checks.compiled_plain(cls.folder())
        cls.program = engines.Engine(path, ["mte_tool"], "")
        # the plain program has other words for what it refuses, and other ends where a stream fails
        cls.exact = cls.program if cls.is_built else next(iter(cls.hosts.values()))

    def expect_same(self, what: str, *given, **how) -> None:
        """All hosts answer as the program does."""
        wanted = answer(self.exact, *given, **how)
        for name, host in self.hosts.items():
            got = answer(host, *given, **how)
            expect(f"{name}: {what}", got == wanted, got, wanted)

    def test_inputs(self):
        tuned = lambda words, text: answer(self.program, words.split(), text)[1]
        kinds = set()
        for words, text in drawn_inputs.draw_inputs(random.Random(86), checks.options.cases, tuned):
            wanted = answer(self.program, words.split(), text)
            kinds.add((words.split()[0], wanted[0], *wanted[2].split()[1:2]))
            for name, host in self.hosts.items():
                got = answer(host, words.split(), text)
                expect(f"{name}: {words} {text}", got == wanted, got, wanted)
        expect(f"{checks.options.cases} inputs have many kinds of answers", len(kinds) > 10, kinds)

    def test_words(self):
        draw = random.Random(87)
        for words in (drawn_inputs.words(draw) for _ in range(checks.options.cases // 2)):
            self.expect_same(f"{words}", words, b"")

    def test_no_text(self):
        """Words that are no UTF-8 are refused, and their bytes are the program's to see."""
        for word in (b"\xff", b"\xc3", b"--limit=\xed\xa0\x80", b"\xef\xbb\xbf", "é".encode(), b"x" * 5000):
            self.expect_same(f"{word}", ["score", os.fsdecode(word)], b"")

    def test_full(self):
        with open("/dev/full", "wb") as full:
            self.expect_same("standard output is full", ["score"], b"classes 2\n16 1\n", stdout=full)
            much = b"classes 2\n" + b"malloc 0 16\nfree 0\n" * 9000
            self.expect_same("standard output is full, and much", ["replay"], much, stdout=full)
            self.expect_same("standard error is full", ["score"], b"x\n", stderr=full)

    def test_closed(self):
        """The launcher tells Node which streams are closed; each of them alone and all."""
        for closed in ((0,), (1,), (2,), (1, 2), (0, 1, 2)):
            def close(closed=closed):
                for each in closed:
                    os.close(each)

            environment = {**os.environ, "MTE_TOOL_CLOSED": "".join(map(str, closed))}
            self.expect_same(f"{closed} are closed", ["score"], b"classes 2\n16 1\n", preexec_fn=close, env=environment)
            what = f"{closed} are closed, a refusal"
            self.expect_same(what, ["score"], b"classes x\n", preexec_fn=close, env=environment)

    def test_unread(self):
        """What reads the answer has gone."""
        for words, text in ((["score"], b"classes 2\n16 1\n"), (["score"], b"x\n")):
            for where in ("stdout", "stderr"):
                read, write = os.pipe()
                os.close(read)
                self.expect_same(f"{where} is not read", words, text, **{where: write})
                os.close(write)

    def test_no_wait(self):
        """A pipe that does not block, and has nothing yet."""
        read, write = os.pipe()
        fcntl.fcntl(read, fcntl.F_SETFL, os.O_NONBLOCK)
        self.expect_same("a pipe that does not block", ["score"], stdin=read)
        os.close(read)
        os.close(write)

    def test_long(self):
        """An input of the most bytes, and one of more."""
        line = b"16 1\n"
        for size in (MOST_INPUT - 1, MOST_INPUT, MOST_INPUT + 1):
            self.expect_same(f"{size} bytes", ["tune", "--limit", "2"], (line * (size // len(line) + 1))[:size])
        self.expect_same("a folder as the input", ["score"], None, stdin=os.open("/", os.O_RDONLY))


class Refusals(checks.Part):
    """A copy of the scripts and the modules, to be spoiled."""

    def setup_method(self):
        self.place = self.folder()
        for name in ("scripts", "modules", "library"):
            shutil.rmtree(f"{self.place}/{name}", ignore_errors=True)
            ignored = shutil.ignore_patterns("tests")
            shutil.copytree(f"{ROOT}/{name}", f"{self.place}/{name}", symlinks=True, ignore=ignored)
        shutil.copy(f"{ROOT}/crates.txt", self.place)
        for crate in os.listdir(f"{ROOT}/crates"):  # without what is built of it
            os.makedirs(f"{self.place}/crates/{crate}", exist_ok=True)
            for part in ("src", "specs", "proofs"):
                place = f"crates/{crate}/{part}"
                if os.path.isdir(f"{ROOT}/{place}") and not os.path.lexists(f"{self.place}/{place}"):
                    os.symlink(f"{ROOT}/{place}", f"{self.place}/{place}")
        self.cache = f"{self.place}/cache"
        shutil.rmtree(self.cache, ignore_errors=True)

    def launch(self, *words: str, tools: str = "", script: str = "mte_tool", **more: str) -> tuple:
        """What the launcher or another script answers, with these commands alone where they are named."""
        variables = {name: value for name, value in os.environ.items() if name not in ("MTE_TOOL", "CC")}
        if tools:
            folder = f"{self.place}/tools"
            shutil.rmtree(folder, ignore_errors=True)
            os.mkdir(folder)
            for name in tools.split():
                os.symlink(shutil.which(name), f"{folder}/{name}")
            variables["PATH"] = folder
        variables = {**variables, "XDG_CACHE_HOME": self.cache, "MTE_TOOL_BUILD": "no", **more}
        done = subprocess.run([f"{self.place}/scripts/{script}", *words], **SHARED, text=True, env=variables)
        return done.returncode, done.stdout, done.stderr

    def spoil(self, name: str, pack) -> None:
        """Changes one byte of a module."""
        path = Path(f"{self.place}/modules/{name}{engines.PACKED[name][0]}")
        data = bytearray(engines.module_bytes(name))
        data[len(data) // 2] ^= 1
        path.write_bytes(pack(bytes(data)))

    def expect_runs(self, what: str, got: tuple, says: str, out: str = "mte_tool 1.0.0\n") -> None:
        expect(what, got[:2] == (0, out) and says in got[2], *got)

    def expect_refused(self, what: str, got: tuple, why: str) -> None:
        expect(f"{what}: it is refused", got[:2] == (3, "") and why in got[2], *got)

    TOOLS = "sh bash env readlink python3 nice"

    def test_changed_module(self):
        checks.need("node", "a module with a changed byte")
        node = f"{self.TOOLS} node"
        self.expect_runs("Node runs the module", self.launch("--version", tools=node), "Node")
        self.spoil("program.wasm", gzip.compress)
        got = {word: self.launch(word, tools=node) for word in ("score", "--version")}
        for word, each in got.items():
            self.expect_refused(f"one changed byte in Node, {word}", each, "not the one of its manifest")
        expect("one changed byte in Node: it is called nothing else", got["--version"][2].count("\n") == 1, got)

    def test_changed_code(self):
        checks.need("gcc", "the C of a module with a changed byte")
        how = {"tools": f"{self.TOOLS} gcc as ld nproc", "MTE_TOOL_BUILD": "yes"}
        self.spoil("c.tar", lambda data: lzma.compress(data, preset=0))
        self.expect_refused("one changed byte of C", self.launch("--version", **how), "not the one of its manifest")
        Path(f"{self.place}/modules/c.tar.xz").write_bytes(b"no xz")
        self.expect_refused("what is no archive", self.launch("--version", **how), "can't be read")
        kept = [name for _, _, names in os.walk(self.cache) for name in names if name == engines.NATIVE]
        expect("nothing is kept", not kept, kept)

    def test_changed_page(self):
        """Without the kit scripts/page takes the engines of docs, if they are those of their manifests."""
        for name in web_page.DOCUMENTS:
            shutil.rmtree(f"{self.place}/docs", ignore_errors=True)
            os.mkdir(f"{self.place}/docs")
            for each in web_page.DOCUMENTS:
                for path in (f"{ROOT}/docs/{each}", manifest.path_of(f"{ROOT}/docs/{each}")):
                    shutil.copy(path, f"{self.place}/docs")
            path = Path(f"{self.place}/docs/{name}")
            data = bytearray(path.read_bytes())
            data[len(data) // 2] ^= 1
            path.write_bytes(data)
            got = self.launch("--checker", script="page", tools=self.TOOLS)
            self.expect_refused(f"{name} with a changed byte", got, f"docs/{name}: the program is not the one of its manifest")

    def test_changed_manifest(self):
        """A manifest without a line is none: the launcher asks for the kit."""
        path = Path(f"{self.place}/modules/manifest")
        path.write_text(path.read_text().replace("proofs proved\n", ""))
        got = self.launch("--version", tools=self.TOOLS)
        self.expect_refused("a manifest that says nothing of proofs", got, "the program is not built")

    def test_nothing_runs(self):
        self.expect_refused("without Node and a compiler", self.launch("--version", tools=self.TOOLS), PACKAGES)
        got = self.launch(f"{self.place}/made", script="library", tools=self.TOOLS)
        self.expect_refused("the library without a compiler", got, PACKAGES)
        expect("it is one line, and there is no library", got[2].count("\n") == 1 and not os.path.exists(f"{self.place}/made"), got)

    def test_no_headers(self):
        """A compiler without the C library's headers, as gcc of Debian is without what it recommends."""
        compiler = Path(f"{self.place}/cc")
        compiler.write_text('#!/bin/sh\necho "0.c:2:10: fatal error: assert.h: No such file or directory" >&2\nexit 1\n')
        compiler.chmod(0o755)
        got = self.launch("--version", tools=self.TOOLS, CC=str(compiler), MTE_TOOL_BUILD="yes")
        self.expect_refused("without headers", got, PACKAGES)
        expect("without headers: no word of the compiler's", "fatal" not in got[2], got)

    def test_states(self):
        """What -V says in each of the three states."""
        plain = f"{self.place}/plain"
        Path(plain).write_text("#!/bin/sh\necho plain\n")
        os.chmod(plain, 0o755)
        self.expect_runs("another program", self.launch("-V", MTE_TOOL=plain), "nothing is proved", "plain\n")
        if not checks.skip_without("node", "-V of the project's engines"):
            status, out, said = self.launch("-V", tools=f"{self.TOOLS} node")
            state = engines.State.PLAIN if MODULES_ARE else engines.State.PROVED_BY_PROJECT
            expect("the project's engines", status == 0 and state.value in said, status, out, said)
        if not engines.look_at_built()[0]:
            done = subprocess.run([f"{ROOT}/scripts/mte_tool", "-V"], **SHARED, text=True)
            said = f"mte_tool: {engines.State.PROVED_HERE.value}: {BUILT}\n"
            expect("the program that is built here", done.returncode == 0 and said in done.stderr, done)

    def test_open_cache(self):
        """A cache that others can write to keeps no native code, and Node runs the module."""
        checks.need("node", "a cache that others can write to")
        os.mkdir(self.cache)
        os.chmod(self.cache, 0o777)
        got = self.launch("--version", tools=f"{self.TOOLS} node gcc", MTE_TOOL_BUILD="yes")
        self.expect_runs("an open cache", got, "Node")
        expect("nothing is put there", os.listdir(self.cache) == [], os.listdir(self.cache))


class Library(checks.Part):
    PARTS = "shared sentences arrays rooms static heap misuses memory sanitizers python".split()

    def test_library(self):
        """Tests of the library for C over the project's engines."""
        checks.need("gcc ar objcopy", "the library of the project's engines")
        if MODULES_ARE:
            pytest.skip(f"stale, since {MODULES_ARE}: the library of the project's engines")
        place = self.folder()
        library.build(place, False)
        found = {manifest.read(path).proofs for path in (f"{place}/lib/libmte_tool.a", f"{place}/lib/{library.SHARED}")}
        expect("its manifests", found == {"by-project"}, found)
        words = part_runs.command(part_runs.interpreter(), f"{ROOT}/scripts/tests/test_library.py", self.PARTS)
        environment = {**os.environ, "MTE_LIBRARY": place, "MTE_TOOL": engines.make_native()}
        done = subprocess.run(words, **SHARED, text=True, env=environment)
        expect("the tests of the library", done.returncode == 0, done.stdout[-900:], done.stderr[-900:])


class Engines(checks.Part):
    def test_current(self):
        """A change of a crate is followed by new modules."""
        expect("the modules are of these sources: once these are proved, scripts/modules makes them", not MODULES_ARE, MODULES_ARE)

    def test_parts(self):
        """The C is that of the modules, by wasm2c."""
        checks.need("wasm2c", "that the C is that of the modules")
        if modules.tools().split(", ")[1] not in engines.read_manifest()["tools"]:
            pytest.skip("with another wasm2c: that the C is that of the modules")
        made = {name: engines.module_bytes(f"{name}.wasm") for name in modules.MADE}
        expect("the C is that of the modules", modules.make_code(made) == engines.module_bytes("c.tar"))

    def test_check(self):
        """The modules are those of these sources, byte for byte: ten minutes."""
        if not checks.options.rebuild and not os.environ.get("MTE_AFTER_CI"):
            pytest.skip("without --rebuild, and not after rt ci: that the modules are what is built")
        if MODULES_ARE:
            pytest.skip(f"stale, since {MODULES_ARE}: that the modules are what is built")
        checks.need("rt wasm-opt wasm2c", "that the modules are what is built")
        if not all(map(modules.static_libraries.is_cheap, ("mte_tool", "mte_c"))):
            pytest.skip("since nothing is kept to build the modules on: that they are what is built")
        expect("scripts/modules --check", modules.check(manifest.sources_of(ROOT)) == 0)


def add_options(parser):
    parser.add_argument("--cases", type=int, default=500, metavar="N", help="so many drawn inputs (500)")
    parser.add_argument("--rebuild", action="store_true", help="build the modules anew, and compare their bytes")


if __name__ == "__main__":
    checks.main()
