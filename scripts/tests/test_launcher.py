"""Tests of scripts/mte_tool, over a toolchain that proves nothing and says which crates it would. On a first build
the launcher numbers them, after a change it names them; it builds no more than once, runs no program but that of its
manifest, whatever times say, and leaves nothing of a build that was cut off."""

import contextlib
import hashlib
import os
import pty
import shutil
import signal
import subprocess
import time
from pathlib import Path

import checks
from checks import expect
from mte_scripts.builds import first_build
from mte_scripts.builds.crate_list import CrateList
from mte_scripts.places import SCRIPTS
from stand_in import BELOW, PROVED, Repository, alive, wait_for

ANOTHER = "#!/bin/sh\necho another\n"


def digest(data: bytes) -> str:
    return hashlib.sha256(data).hexdigest()


class Launcher(Repository):
    def tools(self, names: str) -> str:
        """A folder with these commands alone."""
        folder = self.path("tools")
        shutil.rmtree(folder, ignore_errors=True)
        os.mkdir(folder)
        for name in names.split():
            os.symlink(shutil.which(name), os.path.join(folder, name))
        return folder

    def refuses(self, what: str, tools: str, *words: str, **more) -> None:
        status = self.call(self.launcher, *(words or ("score",)), PATH=tools, **more)
        expect(f"mte_tool {what}: nothing is run", (status, self.out) == (3, ""), status, self.out, self.err)

    def test_first_build(self):
        self.write("refused", "")
        self.launched(3, "score", "score", says="high: not proved")
        os.remove(self.path("refused"))
        for crate in BELOW:
            shutil.rmtree(self.path("repo", "crates", crate, "out"), ignore_errors=True)
        self.launched(0, "score", "score")
        lines = self.err.splitlines()
        counted = (sum(" of 7 " in line for line in lines), "mte_tool: 6 of 7 high, about 2 minutes left" in lines, lines.count("mte_tool: mte_tool"))
        expect("the crates are counted", counted == (6, True, 1), self.err)
        # each crate is proved once, after those below it, and what was kept of it is in its place; no other crate is proved
        proofs = [line.split(" ")[:2] for line in self.read("proofs").splitlines()]
        order = [proofs[at] for at in (0, 1, -1)]
        expect("each crate is proved once", tuple(sorted(crate for crate, _ in proofs)) == PROVED, proofs)
        expect("the crates are proved one above the other", order == [["low", "lib"], ["middle", "lib"], ["high", "lib"]], proofs)
        kept = [self.path("repo", "crates", crate, "out", name) for crate in PROVED for name in ("rlib/made", "incremental/kept")]
        missing = [path for path in kept if not os.path.exists(path)]
        expect("what the first proof keeps is in its place", not missing, missing)
        expect("nothing else is kept", not os.path.exists(self.path("repo", "crates", "mte_tool", "out", "first_build")))
        self.launched(0, "score", "score")
        expect("a built program is not built again", not self.err, self.err)

    def test_minutes(self):
        """Where memory has room for fewer proofs side by side, the first build takes longer."""
        for lanes, minutes in ((1, "3 minutes"), (2, "2 minutes"), (4, "2 minutes")):
            told = first_build.Build(CrateList(self.path("repo")), "mte_tool", lanes).minutes()
            expect(f"the minutes of a first build, {lanes} at a time", told == minutes, told)

    def test_changes(self):
        self.launched(0, "score", "score")
        self.edit("crates", "mte_tool", "src", "main.rt")
        self.launched(0, "score", "score")
        expect("after a change a crate is named", "mte_tool: mte_tool" in self.err.splitlines(), self.err)
        os.utime(self.path("repo", "crates", "mte_tool", "src", "main.rt"))
        self.launched(0, "score", "score")
        expect("a source that was touched alone changes nothing", not self.err, self.err)
        # a source that is changed while the program is built
        self.edit("crates", "mte_tool", "src", "main.rt")
        self.write("edit", "")
        self.launched(0, "score", "score")
        self.launched(0, "score", "score", says="mte_tool: mte_tool")

    def spoils(self):
        """What makes a program another one than that of its manifest, with a word for each."""
        def rewritten(old: bytes, new: bytes):
            with open(f"{self.program}.manifest", "r+b") as file:
                text = file.read().replace(old, new, 1)
                file.seek(0)
                file.truncate()
                file.write(text)

        def another():
            Path(self.program).write_text(ANOTHER)

        yield "another program", another
        yield "no manifest", lambda: os.remove(f"{self.program}.manifest")
        yield "an empty manifest", lambda: os.truncate(f"{self.program}.manifest", 0)
        yield "an unproved one", lambda: rewritten(b"proofs proved\n", b"proofs unproved\n")
        yield "another checksum", lambda: rewritten(self.manifest[:10], b"program 00")

    def contents(self, *paths: str) -> "list[bytes]":
        found = []
        for path in paths:
            with open(path, "rb") as file:
                found.append(file.read())
        return found

    def test_manifest(self):
        """The manifest says of which sources the program is; one that is not that of its manifest is built anew, and no other is run."""
        self.write("repo/crates/low/src/lib.rt", "")
        self.launched(0, "score", "score")
        sources = ["crates.txt", "crates/low/src/lib.rt"]
        texts = self.contents(*(self.path("repo", name) for name in sources))
        listed = "".join(f"{digest(text)}  {name}\n" for name, text in zip(sources, texts))
        program, self.manifest = self.contents(self.program, f"{self.program}.manifest")
        wanted = f"program {digest(program)}\nsources {digest(listed.encode())}\nkit kit-of-the-test logic 1234\nproofs proved\n"
        expect("the manifest", self.manifest.decode() == wanted, self.manifest, wanted)
        for what, spoil in self.spoils():
            spoil()
            there = self.contents(self.program)
            for tools in ("bash env readlink sha256sum", "bash env readlink"):
                self.refuses(f"without a toolchain, {what}", self.tools(tools))
                expect(f"{what}: the program is as it was", self.contents(self.program) == there)
            self.says("sha256sum is missing")
            self.launched(0, "score", "score", says="the program that is there is not the one of its manifest")
            expect(f"{what}: it is built anew", self.contents(self.program, f"{self.program}.manifest") == [program, self.manifest])
        self.launched(0, "score", "score")
        expect("a program with its manifest is not built again", not self.err, self.err)

    def test_unhashed(self):
        """Where the program can't be hashed, it stays, and nothing is built or run."""
        self.launched(0, "score", "score")
        there = self.contents(self.program, f"{self.program}.manifest")
        self.write("bin/sha256sum", "#!/bin/sh\nexit 1\n", 0o755)
        self.launched(3, "", "score", says="sha256sum failed, so nothing shows which program is there")
        expect("it stays", self.contents(self.program, f"{self.program}.manifest") == there)
        expect("nothing is built", self.read("builds") == "built\n", self.read("builds"))
        os.remove(self.path("bin", "sha256sum"))
        self.launched(0, "score", "score")

    def another(self, text: str = ANOTHER) -> None:
        """Another program in the place of the built one, with its times."""
        status = os.stat(self.program)
        Path(self.program).write_text(text)
        os.utime(self.program, ns=(status.st_atime_ns, status.st_mtime_ns))

    def renamed(self, path: str, text: str) -> None:
        """Another file in the place of this one, made before, with its times."""
        made = self.write("made", text, os.stat(path).st_mode & 0o777)
        shutil.copystat(path, made)
        os.rename(made, path)

    def old(self) -> None:
        self.another()
        os.utime(self.program, (0, 0))

    def with_clock_ahead(self) -> None:
        """What a look leaves where the clock is an hour ahead, and is set back before the program is another one."""
        for path in (self.program, f"{self.program}.manifest", f"{self.program}.looked"):
            os.utime(path, (time.time() + 3600, time.time() + 3600))
        self.another()

    def by_another_name(self) -> None:
        """The program is written by another name of the same file, which it had before."""
        os.rename(self.program, self.path("name"))
        os.link(self.path("name"), self.program)
        self.settle()
        status = os.stat(self.program)
        with open(self.path("name"), "r+") as file:
            file.write(ANOTHER.ljust(status.st_size, "#"))
        os.utime(self.path("name"), ns=(status.st_atime_ns, status.st_mtime_ns))
        os.remove(self.path("name"))

    def by_link(self) -> None:
        """The program is a link, and what it leads to is written."""
        os.rename(self.program, self.path("target"))
        os.symlink(self.path("target"), self.program)
        self.settle()
        self.another()

    def with_manifest(self) -> None:
        """Another program with a manifest that names it, but other sources."""
        self.another()
        with open(f"{self.program}.manifest", "w") as file:
            file.write(f"program {digest(ANOTHER.encode())}\nsources {'0' * 64}\nkit of-the-test\nproofs proved\n")

    def other_folder(self) -> None:
        """Another folder of sources in the place of one, made before."""
        folder = self.path("repo", "crates", "low")
        shutil.copytree(f"{folder}/src", f"{folder}/new")
        self.edit("crates", "low", "new", "New.rt")
        os.rename(f"{folder}/src", self.path("old"))
        os.rename(f"{folder}/new", f"{folder}/src")

    def changes(self):
        """What a run has to notice, with a word for each."""
        source = "crates", "low", "src", "lib.rt"
        yield "a source", lambda: self.edit(*source)
        yield "a source of the same times", lambda: self.renamed(self.path("repo", *source), "// another\n")
        yield "a definition", lambda: self.edit("crates", "low", "specs", "New.antt")
        yield "a folder of sources", self.other_folder
        yield "the list of crates", lambda: self.edit("crates.txt")
        yield "a program of the same age", self.another
        yield "another program in its place", lambda: self.renamed(self.program, ANOTHER)
        yield "a program of long ago", self.old
        yield "a program, the clock having been ahead", self.with_clock_ahead
        yield "a program by another name", self.by_another_name
        yield "a program behind a link", self.by_link
        yield "another manifest", lambda: self.renamed(f"{self.program}.manifest", "other\n")
        yield "a program and its manifest", self.with_manifest
        yield "no manifest", lambda: os.remove(f"{self.program}.manifest")

    def settle(self) -> None:
        """Runs the program until a look has left a stamp; what is younger than two seconds gets none."""
        def is_left() -> bool:
            self.launched(0, "score", "score")
            return os.path.exists(f"{self.program}.looked")

        with contextlib.suppress(FileNotFoundError):
            os.remove(f"{self.program}.looked")
        expect("a look leaves a stamp", wait_for(is_left, 20))
        expect("a program that is looked at is not built again", not self.err, self.err)

    def test_stamp(self):
        """What was looked at is not hashed again, nor is bash started, until something changes."""
        os.mkdir(self.path("repo", "crates", "low", "specs"))
        self.edit("crates", "low", "src", "lib.rt")
        quick = self.tools("find")
        self.launched(0, "score", "score")
        expect("what is young gets no stamp", not os.path.exists(f"{self.program}.looked"))
        for what, change in self.changes():
            self.settle()
            status = self.call(self.launcher, "score", PATH=quick)
            expect(f"before {what}", (status, self.out, self.err) == (0, "score\n", ""), status, self.out, self.err)
            change()
            self.refuses(f"after {what}", quick)
            self.says("the command bash is missing")
            self.launched(0, "score", "score", says="mte_tool: mte_tool")
        os.mkdir(self.path("repo", "crates", "low", "proofs"))
        for crate, part in (("low", "proofs"), ("other", "src")):
            self.settle()
            self.edit("crates", crate, part, "New.antt")
            self.launched(0, "score", "score")
            expect(f"{part} of {crate}: it is run", not self.err, self.err)
            self.launched(0, "--version", "--version", says="mte_tool: mte_tool")

    def test_future(self):
        """What was changed later than the clock says is hashed at each run, and leaves no stamp."""
        self.launched(0, "score", "score")
        # its seconds are centuries ahead
        self.write("bin/find", f"#!/bin/sh\n{shutil.which('find')} \"$@\" | sed 's/ 1/ 9/'\n", 0o755)
        self.write("bin/sha256sum", f"#!/bin/sh\necho >>$WORK/sums\n{shutil.which('sha256sum')} \"$@\"\n", 0o755)
        time.sleep(3)
        for count in (3, 6):
            self.launched(0, "score", "score")
            expect("it is hashed", self.read("sums").count("\n") == count, self.read("sums"))
        expect("it leaves no stamp", not os.path.exists(f"{self.program}.looked"))
        os.remove(self.path("bin", "find"))
        self.settle()

    def test_meanwhile(self):
        """A program that is replaced while it is looked at is not run, and where it is never the same nothing is."""
        self.launched(0, "score", "score")
        hashed = f'#!/bin/sh\n{shutil.which("sha256sum")} "$@" || exit\n'
        self.write("bin/sha256sum", f'{hashed}[ ! -e "$WORK/swap" ] || mv "$WORK/swap" "{self.program}"\n', 0o755)
        self.write("swap", ANOTHER, 0o755)
        self.launched(0, "score", "score", says="the program that is there is not the one of its manifest")
        expect("it was replaced", not os.path.exists(self.path("swap")))
        self.write("bin/sha256sum", f'{hashed}touch "{self.program}"\n', 0o755)
        self.launched(3, "", "score", says="was changed in each of 3 looks")
        expect("it is left", self.contents(self.program) == [b'#!/bin/sh\necho "$@"\n'], self.contents(self.program))
        os.remove(self.path("bin", "sha256sum"))

    def test_names(self):
        """The launcher has the digest of the sources that Python has, whatever their files are called."""
        self.launched(0, "score", "score")
        odd = ["a/b.rt", "a.rt", "a-b.rt", ".hidden", "with\nline.rt", "back\\slash.rt", "a/é.rt", "no\udcfftext.rt"]
        for part in ("src", "specs", "proofs"):
            for name in [*odd, "Z.rt"]:
                path = self.path("repo", "crates", "low", part, name)
                os.makedirs(os.path.dirname(path), exist_ok=True)
                Path(path).write_text(name.encode("utf-8", "replace").decode())
        self.launched(0, "score", "score", says="mte_tool: mte_tool")
        for locale in ("C", "C.UTF-8", "en_US.UTF-8"):
            self.launched(0, "score", "score", LC_ALL=locale)
            expect(f"{locale}: it is not built again", "mte_tool: mte_tool" not in self.err, self.err)

    def test_script(self):
        """A script whose program is replaced while it runs gives no answer of it."""
        self.launched(0, "score", "score")
        runs = """
import os, sys
sys.path.insert(0, "repo/scripts")
from mte_scripts import places, program_runs
print(repr(program_runs.why_unproved()), program_runs.mte_tool(["score"]))
os.replace("swap", places.BUILT)
try:
    print(program_runs.mte_tool(["score"]))
except program_runs.Refusal as refused:
    print(refused.status, refused.text)
"""
        self.write("swap", ANOTHER, 0o755)
        status = self.call("python3", "-B", "-c", runs, **self.with_rt)
        refused = "3 the program was replaced while this ran: nothing is proved of its answers"
        wanted = f"'' (0, b'score\\n', '')\n{refused}\n"
        expect("a program replaced in a script's run", (status, self.out) == (0, wanted), status, self.out, self.err)

    def test_few_tools(self):
        """A launcher without `find` still sees another source, and one without `readlink` runs nothing."""
        self.launched(0, "score", "score")
        tools = self.tools("bash env readlink sha256sum")
        status = self.call(self.launcher, "score", PATH=tools)
        expect("few tools", (status, self.out, self.err) == (0, "score\n", ""), status, self.out, self.err)
        self.edit("crates", "low", "src", "lib.rt")
        self.refuses("without find, and of other sources", tools)
        os.remove(self.path("repo", "crates", "low", "src", "lib.rt"))
        os.remove(os.path.join(tools, "readlink"))
        os.makedirs(self.path("crates", "mte_tool", "out"))
        os.mkdir(self.path("below"))
        self.write("crates/mte_tool/out/mte_tool", "#!/bin/sh\necho planted\n", 0o755)
        status = self.call("../repo/scripts/mte_tool", "score", take={"cwd": self.path("below")}, PATH=tools)
        expect("without readlink", (status, self.out) == (3, ""), status, self.out, self.err)
        self.says("the command readlink is missing")

    def test_no_environment(self):
        """What the launcher runs has a PATH, also where the launcher got none."""
        for name in ("tried", "built"):
            self.write(name, "printenv PATH >/dev/null && echo found\n")
        self.launched(0, "found", "score")
        done = subprocess.run([self.launcher, "--version"], env={}, stdin=subprocess.DEVNULL, capture_output=True, text=True)
        expect("without an environment", (done.returncode, done.stdout) == (0, "found\n"), done)

    def test_package(self):
        """In a package the program is run in any case, and a line says where nothing is proved."""
        self.launched(0, "score", "score")
        os.makedirs(self.path("packed", "scripts"))
        shutil.copy(self.launcher, self.path("packed", "scripts"))
        for path in (self.program, f"{self.program}.manifest"):
            shutil.copy(path, self.path("packed"))
        status = self.call(self.path("packed", "scripts", "mte_tool"), "score")
        expect("packed", (status, self.out, self.err) == (0, "score\n", ""), status, self.out, self.err)
        self.write("packed/mte_tool", ANOTHER)
        status = self.call(self.path("packed", "scripts", "mte_tool"), "score")
        expect("packed and changed", (status, self.out) == (0, "another\n"), status, self.out, self.err)
        self.says("is not the program of its manifest: nothing is proved")

    def test_at_once(self):
        """Five first runs at once build once."""
        runs = [(str(number), self.started(str(number))) for number in range(1, 6)]
        said = []
        for number, run in runs:
            out, err = run.communicate(timeout=120)
            said.append(err)
            expect(f"run {number} of five at once", (run.returncode, out) == (0, f"{number}\n"), run.returncode, out, err)
        if not checks.skip_without("flock", "that five first runs build once"):
            expect("five first runs at once build once", self.read("builds") == "built\n", self.read("builds"))
            waiting = sum("another run builds the program; waiting for it" in err for err in said)
            expect("the others say that they wait", waiting == 4, *said)

    def test_cut_off(self):
        """A build that is cut off is no program, and leaves no process and no temporary file."""
        for number, status in ((signal.SIGTERM, 143), (signal.SIGHUP, 129), (signal.SIGKILL, 137)):
            name, is_killed = number.name, number == signal.SIGKILL
            for path in (os.path.dirname(self.program), self.path("temporary")):
                shutil.rmtree(path, ignore_errors=True)
            got = self.cut_off(number, "mte_tool", "score", to=subprocess.DEVNULL)[0]
            expect(f"cut off by {name}", got == (-number if is_killed else status), got)
            expect(f"cut off by {name}: half a program is there", os.access(self.program, os.X_OK))
            self.launched(0, "score", "score", says="going on with a build that was cut off")

    def test_cut_off_script(self):
        """A script that is stopped while its launcher builds leaves nothing of the build: Python kills the launcher."""
        shutil.copy(os.path.join(SCRIPTS, "draw_waste"), self.path("repo", "scripts"))
        self.write("slow", "mte_tool")
        self.write("pids", "")
        profile = self.write("four.profile", "16 3\n40 1\n")
        self.launcher = self.path("repo", "scripts", "draw_waste")
        with self.started("--table", profile, to=subprocess.DEVNULL) as run:
            wait_for(lambda: self.read("pids").endswith("\n"), 60)
            children = self.read("pids").split()
            run.send_signal(signal.SIGTERM)
            expect("a script that is stopped", run.wait(timeout=60) == 143, run.returncode)
        expect("its build ends", len(children) == 2 and wait_for(lambda: not any(map(alive, children)), 20), children)
        gone = wait_for(lambda: not os.listdir(self.path("temporary")), 20)
        expect("its build leaves no temporary file", gone, os.listdir(self.path("temporary")))

    def test_unproved(self):
        self.write("tried", "printf 'tried<%s>' \"$@\"; cat; echo a word >&2; exit 1")
        self.launched(1, "tried<run>tried<--limit>tried<8 a>given", "--unproved", "run", "--limit", "8 a", given="given\n")
        self.says("nothing is proved", "a word")
        expect("it shows nothing of what the toolchain says of itself", "status=" not in self.err, self.err)
        expect("--unproved builds nothing", not os.path.exists(os.path.dirname(self.program)))

    def test_no_toolchain(self):
        tools = self.tools("bash env readlink rm")
        for words in (["score"], ["--unproved", "score"]):
            self.refuses(f"without a toolchain, {' '.join(words)}", tools, *words)
            self.says("rt is not on the PATH", "/opt/rattle/bin")

    def test_input_hints(self):
        """On a terminal a fault of the input has a second line: what the command reads, and what this looks like. Elsewhere, and after
        another end, there is none; output, messages and status stay."""
        for name in ("built", "tried"):
            self.write(name, 'cat >/dev/null; echo out; case $1 in score) echo "error: none" ;; *) echo "error 30 BadLine line 1" ;; esac >&2; exit 2\n')
        for _ in range(2):
            self.launched(2, "out", "tune", given="snapshots 1\n")
        expect("no terminal", self.err == "error 30 BadLine line 1\n", self.err)
        profile, history = "tune reads a profile, whose lines have a size and a count, as `16 3`", "fit reads a history, whose first line is"
        for word, text, says in (
            ("tune", "snapshots 1\n16 2\n", f"{profile}; this looks like a history: `fit` and `tune_program --read` take it"),
            ("tune", "timeline\n16\n", f"{profile}; this looks like a timeline: `fit`"),
            ("tune", "classes 2\nlimit 1\nwaste 0\n", f"{profile}; this looks like a sheet: its first line is a class line"),
            ("tune", "classes 2\nlimit 1\nfootprint 0\nrow 1\n16 1\n", f"{profile}; this looks like a fit and then a profile"),
            ("tune", "malloc 0 24\n", f"{profile}; this looks like a trace: `profile` makes"),
            ("tune", "v 10400 3\ns 3 app\n", f"{profile}; this looks like a file of another tool: `profile_program --import FILE`"),
            ("tune", "16 3\n16\n", f"{profile}; this looks like a profile\r\n"),
            ("tune", "16 3\r\n", f"{profile}; line 1 ends with a carriage return"),
            ("tune", "no text of ours\n", f"{profile}\r\n"),
            ("fit", "timeline\n16 a\n", "this looks like a timeline\r\n"),
            ("fit", "16 3\n", history),
            ("check-fit", "16 3\n", "check-fit reads a fit, which `fit` prints, and then a history, whose"),
            ("score", "16 3\n", ""),
            ("none", "16 3\n", ""),
        ):
            out, said = self.on_terminal(word, self.write("input", text))
            first = "error: none" if word == "score" else "error 30 BadLine line 1"
            expect(f"{word} of {text!r}: the program's own", (out, said.splitlines()[:1]) == ("out\n", [first]), out, said)
            expect(f"{word} of {text!r}: what is said", says in said and said.count("\n") == 1 + bool(says), said)

    def on_terminal(self, word: str, path: str) -> "tuple[str, str]":
        """What a command prints of a file, and says on a terminal; its status is 2."""
        master, terminal = pty.openpty()
        with open(path, "rb") as given:
            got = self.call(self.launcher, word, take={"stdin": given, "stderr": terminal}, **self.with_rt)
        os.close(terminal)
        with open(master, "rb", buffering=0) as file, contextlib.suppress(OSError):
            said = file.read(1 << 16).decode()
        expect(f"{word} on a terminal: status 2", got == 2, got, said)
        return self.out, said

    def test_another_program(self):
        self.write("other", '#!/bin/sh\necho "${MTE_TOOL-unset} $*"; exit 7\n', 0o755)
        for path in ("other", "./other", self.path("other")):
            self.launched(7, "unset score a", "score", "a", MTE_TOOL=path, says="nothing is proved")
        self.launched(7, "unset score a", "--unproved", "score", "a", MTE_TOOL="other")
        os.mkdir(self.path("no\udcfftext"))
        os.symlink("/bin/bash", self.path("no\udcfftext", "other"))
        self.launched(0, "mte_tool", "-c", "echo $0", MTE_TOOL="no\udcfftext/other")  # a path that is no text is no word of the program
        self.launched(3, "", "score", MTE_TOOL="nowhere")
        self.launched(3, "", "score", MTE_TOOL=self.place)
