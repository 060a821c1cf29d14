"""Tests of the answer that scripts/mte_tool gives before the proof where nothing is built, over a toolchain that proves nothing: each end
that it has, who waits for the proof, and that a test builds nothing."""

import os
import pty
import shutil
import signal
import sys

import part_runs
from checks import expect
from mte_scripts.places import SCRIPTS
from stand_in import PROVED, Repository

SAME = "the proved program gave the same output, messages and status"
UNPROVED = "this answer is from a compile without proofs; proving it now takes about 2 minutes; Ctrl-C stops the proof and keeps the answer"
FIRST = "the program is not built yet: an answer comes first"


class Answers(Repository):
    def both(self, does: str) -> None:
        """What the program does, with a proof and without."""
        for name in ("built", "tried"):
            self.write(name, does)

    def unbuilt(self) -> None:
        for crate in os.listdir(self.path("repo", "crates")):
            shutil.rmtree(self.path("repo", "crates", crate, "out"), ignore_errors=True)

    def silent(self, *texts: str) -> None:
        for text in texts:
            expect(f"{self.name} does not say {text!r}", text not in self.err, self.err)

    def test_same(self):
        self.both('echo "<$1>"; cat; echo a word >&2; exit 1')
        self.launched(1, "<8 a>\ngiven", "8 a", given="given\n")
        said = self.err.splitlines()
        wanted = ["a word", f"mte_tool: {UNPROVED}", "mte_tool: 1 of 7 low, about 2 minutes left", f"mte_tool: {SAME}"]
        order = [said.index(line) if line in said else -1 for line in wanted]
        expect("what is said, in this order", -1 not in order and order == sorted(order) and len(said) - 1 == order[-1], self.err)
        expect("it shows nothing of what the toolchain says of itself", "status=" not in self.err, self.err)
        self.launched(1, "<8 a>\ngiven", "8 a", given="given\n")
        expect("one that is built answers alone", self.err == "a word\n", self.err)
        expect("one build", self.read("builds") == "built\n", self.read("builds"))

    def test_refused_input(self):
        self.both("echo 'error 30 BadLine line 2' >&2; exit 2")
        self.launched(2, "", "score", given="16 x\n")
        self.says("error 30 BadLine line 2", UNPROVED, SAME)

    def test_different(self):
        answer = "echo one; echo a word >&2; exit 1"
        for built, differs in (
                ("echo one; printf 'checked: ended status=1\\nrun=ended status=1\\n' >&2; exit 1", "messages"),
                (answer.replace("one", "two"), "output"), (answer.replace("one", "'one\n'"), "output"),
                (answer.replace("a word", "another"), "messages"), (answer.replace("exit 1", "exit 0"), "status (0, not 1)"),
                ("exit 3", "output, messages, status (3, not 1)"), ("kill -9 $$", "output, messages, status (137, not 1)")):
            self.unbuilt()
            self.write("tried", answer)
            self.write("built", built)
            self.launched(3, "one", "score")
            self.says(f"the proved program gave other {differs}: its answer holds, and the same command gives it now")
            self.silent(SAME)

    def test_forged(self):
        """What the program says is its own, be it what the toolchain says of it."""
        said = "checked: ended status=0\nrun=ended status=0\n"
        self.both(f"printf '{said}' >&2; exit 2".replace("\n", "\\n"))
        self.launched(2, "", "score")
        expect("its own words", self.err.split(f"mte_tool: {UNPROVED}")[0].endswith(f"a minute\n{said}"), self.err)
        self.says(SAME)

    def test_failed_proof(self):
        self.write("refused", "")
        self.launched(3, "score", "score")
        self.says(UNPROVED, "high: not proved", "the program could not be built: nothing is proved of the answer")
        expect("there is no program", not os.path.exists(self.program))
        os.remove(self.path("refused"))
        self.launched(0, "score", "score")
        self.says(FIRST, "going on with a build that was cut off", SAME)

    def test_interrupted(self):
        """The answer and what was proved stay, and nothing else; the next run goes on."""
        for number, status in ((signal.SIGINT, 130), (signal.SIGTERM, 143)):
            self.unbuilt()
            self.write("proofs", "")
            got, out, err = self.cut_off(number, "high", "score")
            expect(f"interrupted by {number}", (got, out) == (status, "score\n") and UNPROVED in err, got, out, err)
            last = "mte_tool: stopped: nothing is proved of the answer; the next run goes on with the proof"
            expect(f"interrupted by {number}: what is said last", err.splitlines()[-1] == last, err)
            expect("there is no program", not os.path.exists(self.program) and not os.path.exists(f"{self.program}.manifest"))
            kept = [crate for crate in PROVED if not os.path.exists(self.path("repo", "crates", crate, "out", "incremental", "kept"))]
            expect("what was proved is kept", not kept, kept)
            self.launched(0, "score", "score")
            self.says(FIRST, "going on with a build that was cut off", "6 of 7 high", SAME)
            again = self.read("proofs").splitlines()[-len(PROVED) :]
            expect("it goes on with what was kept", all(line.endswith(" out/incremental/kept") for line in again), again)

    def test_killed(self):
        """What a build that was killed with all of its processes has left is used."""
        self.cut_off(signal.SIGTERM, "high", "score")
        copy = self.path("repo", "crates", "mte_tool", "out", "first_build", "high", "crates", "high")
        os.makedirs(copy)
        os.rename(self.path("repo", "crates", "high", "out"), os.path.join(copy, "out"))
        self.launched(0, "score", "score")
        again = self.read("proofs").splitlines()[-1]
        expect("it goes on with what was kept", again.startswith("high ") and again.endswith(" out/incremental/kept"), again)
        expect("no copy is left", not os.path.exists(self.path("repo", "crates", "mte_tool", "out", "first_build")))

    def test_partly_proved(self):
        """Where some crates are proved and there is no program, the answer comes first too, and the proof goes on."""
        self.launched(0, "score", "score")
        for name in ("mte_tool", "mte_tool.manifest"):
            os.remove(self.path("repo", "crates", "mte_tool", "out", name))
        self.write("proofs", "")
        self.launched(0, "score", "score")
        self.says(FIRST, "6 of 7 high", SAME)
        again = self.read("proofs").splitlines()
        expect("it goes on with what was kept", len(again) == len(PROVED) and all(line.endswith("/kept") for line in again), again)

    def test_interrupted_before(self):
        """An interrupt before the answer leaves nothing."""
        self.write("tried", 'mktemp -d >/dev/null; sleep 60 & echo "$$ $!" >"$WORK/pids"; wait')
        got, out, err = self.cut_off(signal.SIGINT, "none", "score")
        expect("interrupted before the answer", (got, out) == (130, "") and "stopped" not in err, got, out, err)
        expect("nothing is built", not os.path.exists(self.path("builds")) and not os.path.exists(self.path("proofs")))

    def test_reader(self):
        """What reads the answer has its end before the proof; one that has gone leaves the status 3."""
        self.write("slow", "mte_tool")
        with self.started("score") as run:
            out, still = run.stdout.read(), run.poll() is None
            expect("the answer ends before the proof", (out, still) == ("score\n", True), out, still)
            run.terminate()
            run.communicate(timeout=60)
        os.remove(self.path("slow"))
        read, write = os.pipe()
        os.close(read)
        status = self.call(self.launcher, "score", take={"stdout": write}, **self.with_rt)
        os.close(write)
        expect("an answer that nobody reads", status == 3, status, self.err)
        self.says(SAME, "the answer could not be written")

    def test_no_answer(self):
        """Where the compile gives no answer, and where the input is too long for it, the proved program has all of the input."""
        self.both("wc -c")
        for size, says, unsaid in ((5, "gave no answer; the proved program will", UNPROVED), (64 << 20, "proving and building", FIRST)):
            self.unbuilt()
            self.write("untried", "")
            self.launched(0, str(size), "score", given=bytes(size))
            self.says(says)
            self.silent(unsaid, SAME)
            os.remove(self.path("untried"))
        self.launched(3, "", "--unproved", "score", given=bytes(64 << 20))
        self.says("the input is longer than the 64 MiB")
        self.unbuilt()
        self.launched(0, str((64 << 20) - 1), "score", given=bytes((64 << 20) - 1))
        self.says(UNPROVED, SAME)

    def test_proof_first(self):
        self.write("tried", 'touch "$WORK/was_tried"')
        self.write("other", "#!/bin/sh\necho \"$@\"", 0o755)
        for words, out in ((["--proved", "score"], "score"), (["--version"], "--version"), (["--proved", "--version"], "--version")):
            self.unbuilt()
            self.launched(0, out, *words)
            self.says("proving and building the program; this is done once and takes about 2 minutes")
            self.launched(0, out, *words)
            self.silent("building")
            self.launched(0, out, *words, MTE_TOOL="other")
        expect("nothing is tried", not os.path.exists(self.path("was_tried")))

    def test_no_input(self):
        """Help and a command without words wait for no input."""
        for words in ([], ["--help"], ["help", "score"], ["score", "-h"]):
            self.unbuilt()
            read, write = os.pipe()
            self.launched(0, " ".join(words), *words, take={"stdin": read, "timeout": 60})
            os.close(read)
            os.close(write)
            self.says(UNPROVED, SAME)

    def test_terminal(self):
        """At a terminal the input is what is typed, once, up to Ctrl-D."""
        self.both("cat")
        master, terminal = pty.openpty()
        os.write(master, b"typed\n\x04")
        self.launched(0, "typed", "score", take={"stdin": terminal, "timeout": 60})
        os.close(master)
        os.close(terminal)
        self.says("end the input by Ctrl-D", UNPROVED, SAME)

    def test_private(self):
        """Nobody else can read the input that is kept, and the proof goes on where the umask is another."""
        self.both("cat")
        self.write("tried", 'stat -Lc %a /dev/stdin >"$WORK/modes"; stat -c %a "$(dirname "$(readlink /proc/self/fd/0)")" >>"$WORK/modes"; cat')
        os.mkdir(self.path("temporary"))
        self.launched(0, "given", "score", given="given\n", TMPDIR=self.path("temporary"))
        expect("the modes", self.read("modes") == "600\n700\n", self.read("modes"))
        expect("nothing is left", not os.listdir(self.path("temporary")), os.listdir(self.path("temporary")))
        expect("the program has its own mode", os.stat(self.program).st_mode & 0o777 == 0o755 & ~self.mask(), oct(os.stat(self.program).st_mode))

    def mask(self) -> int:
        mask = os.umask(0)
        os.umask(mask)
        return mask

    def test_sources_changed(self):
        self.write("edit", "")
        self.launched(3, "score", "score")
        self.says(UNPROVED, "nothing is proved of the answer, since the program is not of these sources")
        self.silent(SAME)

    def test_no_build(self):
        """With MTE_TOOL_BUILD=no nothing is compiled or built, and what is built runs."""
        self.launched(3, "", "score", MTE_TOOL_BUILD="no")
        self.says("MTE_TOOL_BUILD=no forbids to build it", "`scripts/mte_tool --prove` builds it")
        expect("nothing is built", not os.path.exists(self.path("builds")) and not os.path.exists(self.path("proofs")))
        self.launched(0, "score", "score")
        self.launched(0, "score", "score", MTE_TOOL_BUILD="no")
        self.edit("crates", "low", "src", "lib.rt")
        self.launched(3, "", "score", MTE_TOOL_BUILD="no")

    def test_tests(self):
        """A test that would have to build the program fails, and builds it only where it is told to."""
        tests = os.path.join(SCRIPTS, "tests")
        os.mkdir(self.path("repo", "scripts", "tests"))
        for name in ("checks.py", "conftest.py", "mte_scripts.py", "part_runs.py", "parts_alone.py", "pytest.ini"):
            shutil.copy(os.path.join(tests, name), self.path("repo", "scripts", "tests"))
        part = self.write("repo/scripts/tests/test_part.py", f"""
import subprocess
import checks
class Part(checks.Part):
    def test(self):
        checks.expect("it runs", subprocess.run([{self.launcher!r}, "score"], stdin=subprocess.DEVNULL).returncode == 0)
""")
        words = part_runs.command(sys.executable, part, [], "-s")
        status = self.call(*words, **self.with_rt)
        expect("a test that would build", status == 1 and not os.path.exists(self.path("builds")), status, self.out, self.err)
        self.says("MTE_TOOL_BUILD=no")
        status = self.call(*words, MTE_TOOL_BUILD="yes", **self.with_rt)
        expect("one that is told to", status == 0 and os.path.exists(self.path("builds")), status, self.out, self.err)
