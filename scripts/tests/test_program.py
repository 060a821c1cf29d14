#!/usr/bin/env -S python3 -B
"""Runs the built program, or else the project's engines as native code, on command lines, and compares its exit status
and its two outputs. It tests what the tests in the crates can't: the process and its standard streams. Beside it runs
the plain program, which has to give the same answers.

  program --write-help   the same, once the texts of help in scripts/tests/help.txt are written anew
  program --drawn N      the same, with N drawn inputs to both programs
"""

import os
import random
import re
import resource
import signal
import subprocess
import tempfile

import checks
import drawn_inputs
import long_fits
import pytest
from checks import expect
from hand_answers import ANSWERS, FIT, FREED, HISTORY, LINES, PROFILE, SCORED, SHEET, TRACE
from mte_scripts import formats
from mte_scripts.formats import MOST_INPUT
from mte_scripts.places import ROOT, SCRIPTS

HELP = os.path.join(SCRIPTS, "tests", "help.txt")
COMMANDS = [name.replace("_", "-") for name in formats.COMMANDS]
WIDEST = 100  # columns of a help

REQUIRED = "error: the following required arguments were not provided:\n  --limit <K>\n*"
MORE = "\n\nFor more information, try '--help'.\n"
# words that are refused, and what is said
REFUSED = (
    ("Find the table of at most K size classes*", ""),
    ("error: unrecognized subcommand 'tuna'\n*", "tuna"),
    ("error: unexpected argument 'classes' found\n*", "score classes"),
    ("error: unexpected argument '--limit' found\n*", "score --limit 2"),
    ("error: unexpected argument '--limit' found\n*", "--limit 2 tune"),
    (REQUIRED, "tune"), (REQUIRED, "run"), (REQUIRED, "fit"),
    ("error 83 BadOption\n", "fit --limit 2 --step 3"),
    ("error: a value is required for '--limit <K>'*", "tune --limit"),
    ("error: the argument '--limit <K>'*", "tune --limit 2 --limit 2"),
    ("error: invalid value 'two' for '--limit <K>'*", "tune --limit two"),
    ("error: invalid value '0' for '--limit <K>'*", "tune --limit 0"),
    ("error: invalid value '33' for '--limit <K>': 33 is not in 1..=32\n*", "tune --limit 33"),
    ("error: invalid value '33' for '--limit <K>'*", "run --limit 33"),
    ("error: invalid value '0' for '--step*", "tune --limit 2 --step 0"),
    ("error: invalid value '9' for '--step*", "tune --limit 2 --step 9"),
    *(("error 83 BadOption\n", f"{command} --limit 2 --step {step}") for step in (3, 5, 6, 7) for command in ("tune", "run")),
    ("error: a word of the command line is not UTF-8\n*", "tune --limit \udcff"),
    ("error: a word of the command line is not UTF-8\n*", "score \udcff"),
    ("error: unexpected argument '--limit' found\n*", "replay --limit 2"),
    # the last of more than twelve words, and the whole text of a refusal of each kind
    ("error: unexpected argument 'last' found\n*", "run --limit 2 --step 1 --granules 64 --seed 1 --quarantine 0 last"),
    (f"error: unrecognized subcommand 'xyz'\n\nUsage: mte_tool <COMMAND>{MORE}", "xyz"),
    (f"{REQUIRED[:-1]}\nUsage: mte_tool tune --limit <K>{MORE}", "tune"),
    (f"error: the argument '--limit <K>' cannot be used multiple times\n\nUsage: mte_tool tune [OPTIONS] --limit <K>{MORE}",
     "tune --limit 2 --limit 2"),
    (f"error: invalid value 'two' for '--limit <K>': invalid digit found in string{MORE}", "tune --limit two"),
    (f"error: a value is required for '--limit <K>' but none was supplied{MORE}", "tune --limit"),
)
OUTSIDE = "--granules 63|--granules 262145|--seed 0|--seed 65536|--quarantine 4194305".split("|")
INSIDE = "--granules 64|--granules 262144|--seed 1|--seed 65535|--quarantine 0|--quarantine 4194304".split("|")
# what can't be written to a full disk
OUTPUTS = (
    (SCORED, "score"), (PROFILE, "tune --limit 1"), (SHEET + PROFILE, "check"), ("classes 4\n" + HISTORY, "footprint"),
    (HISTORY, "fit --limit 1"), (FIT + HISTORY, "check-fit"), (TRACE, "profile"), (FREED, "replay"), (TRACE, "run --limit 1"),
    ("", "--help"), ("", "--version"),
)
MOST_SECONDS = 0.3  # of an input of 64 MiB whose first line has a fault
QUIET = [(os.POSIX_SPAWN_OPEN, stream, os.devnull, os.O_WRONLY, 0) for stream in (1, 2)]
DRAWN = 1200  # inputs to both programs
# where a number may stand, and before a word
ODD = (
    ("tune --limit 2", "16 1\n{}large 3\n"), ("tune --limit 2", "{} 1\n"), ("tune --limit 2", "16 {}\n"), ("tune --limit 2", "large {}\n"),
    ("check", SHEET + PROFILE + "{}large 1\n"), ("check", SHEET.replace("48", "{}") + PROFILE),
    ("check", SHEET.replace("waste 16", "waste {}") + PROFILE),
    ("score", "classes 2 {}\n16 1\n"), ("fit --limit 1", "snapshots {}\n"), ("fit --limit 1", "snapshots 1\n{}large 1\n"),
    ("fit --limit 1", "timeline\n{}large\n"), ("fit --limit 1", "timeline\n-{}\n"), ("check-fit", FIT + "moments {}\ntimeline\n"),
    ("profile", "malloc 1 {}\n"), ("replay", "classes\nload 1 -{} 1\n"), ("replay", "classes {}malloc 1 1\n"),
)
# the longest inputs of a begin and many of a unit
LONG = (
    ("check", "classes 2\nlimit 1\nwaste 0\n", "row\n"), ("check-fit", "classes 2\nlimit 1\nfootprint 0\n", "row\n"), ("score", "classes", " 2"),
    ("tune --limit 1", "", "\n"), ("tune --limit 1", "1", " 1"), ("profile", "malloc ", "7"),
)
# the real profiles: the limit, the waste and the classes of the tuned sheet
SHEETS = """jq 1 176966214 792
jq 8 208598 3 11 18 26 65 140 327 792
jq 16 130934 2 3 5 11 18 26 41 65 98 140 218 271 327 473 710 792
jq 32 119238 2 3 4 5 7 8 11 12 17 18 26 27 41 62 65 93 98 112 140 194 210 218 257 271 315 327 386 473 669 710 770 792
perl 1 122827085 1019
perl 8 190365 2 4 6 9 68 260 583 1019
perl 16 64237 2 3 4 5 6 7 8 9 21 68 132 222 260 513 762 1019
perl 32 42109 2 3 4 5 6 7 8 9 10 13 17 19 22 33 42 65 68 84 101 132 207 222 237 256 257 260 301 506 513 583 762 1019
sqlite 1 101963359 514
sqlite 8 334351 2 4 11 66 153 274 410 514
sqlite 16 100191 2 3 4 7 10 21 37 66 68 89 153 258 274 410 460 514
sqlite 32 63311 2 3 4 5 6 7 8 9 10 11 14 21 30 34 37 54 66 68 89 130 153 258 274 333 403 405 410 420 448 460 483 514"""


def matches(text: str, wanted: str) -> bool:
    return text.startswith(wanted[:-1]) if wanted.endswith("*") else text == wanted


def example(name: str) -> bytes:
    with open(os.path.join(ROOT, "examples", name), "rb") as file:
        return file.read()


class Program(checks.Part):
    out = err = ""

    @classmethod
    def setup_class(cls):
        cls.program = checks.built_program()

    def call(self, words: "str | list[str]", given: "str | bytes | None" = "", **how) -> int:
        """Runs the program; its status, as a shell has it. GIVEN is its input, unless HOW has one."""
        how = {"stdout": subprocess.PIPE, "stderr": subprocess.PIPE, **how}
        if "stdin" not in how:
            how["input"] = os.fsencode(given)
        words = words.split(" ") if isinstance(words, str) else words
        done = subprocess.run([self.program, *filter(None, words)], **how)
        self.out, self.err = (os.fsdecode(text or b"") for text in (done.stdout, done.stderr))
        return done.returncode if done.returncode >= 0 else 128 - done.returncode

    def judge(self, name: str, got: int, status: int, out: str, err: str) -> None:
        """The last run's status and outputs."""
        expect(f"{name}: status {status}", got == status, got, self.err)
        expect(f"{name}: standard output", matches(self.out, out), repr(self.out), "and not", repr(out))
        expect(f"{name}: standard error", matches(self.err, err), repr(self.err), "and not", repr(err))

    def answers(self, given: "str | bytes | None", status: int, out: str, err: str, words: "str | list[str]", name: str = "", **how):
        self.judge(f"{words}{name}", self.call(words, given, **how), status, out, err)

    def refuses(self, err: str, words: "str | list[str]") -> None:
        """The words are refused with this on standard error, and the input is left as it was."""
        with tempfile.TemporaryFile() as given:
            given.write(b"left over\n")
            given.seek(0)
            self.answers(None, 2, "", err, words, stdin=given)
            expect(f"{words}: the input is not read", os.lseek(given.fileno(), 0, os.SEEK_CUR) == 0)

    def test_answers(self):
        for given, status, out, err, words in ANSWERS:
            self.answers(given, status, out, err, words)

    def test_reports(self):
        for given, ending, words in LINES:
            self.answers(given, 0, "*", "", words)
            expect(f"{words}: a line ends with {ending!r}", any(line.endswith(ending) for line in self.out.splitlines()), self.out)

    def test_seeds(self):
        """The tags that a report shows are drawn from the seed, which is 1 by default."""
        reports = []
        for options in ("", *(f" --seed {seed}" for seed in (1, 2, 3, 40000, 65535))):
            self.answers(FREED, 0, "*", "", f"replay{options}")
            reports.append(self.out)
        expect("the seed is 1 by default", reports[0] == reports[1])
        faults = {line for report in reports for line in report.splitlines() if " fault tag " in line}
        expect("the seed changes a tag", len(faults) > 1, faults)

    def test_refused_words(self):
        for err, words in REFUSED:
            self.refuses(err, words)
        self.refuses("error: unrecognized subcommand 'scor\nerror 81 ReadFault\x1b[1m'\n*", ["scor\nerror 81 ReadFault\x1b[1m"])
        for option in OUTSIDE:
            name, value = option.split(" ")
            for command in ("replay", "run --limit 2"):
                self.refuses(f"error: invalid value '{value}' for '{name} *", f"{command} {option}")
        self.refuses("*", "tune --limit 8 app.profile")
        tip = "tip: the input is standard input, and no file is named: mte_tool COMMAND < FILE"
        expect("a file that is named gets a tip", "app.profile" in self.err and tip in self.err.splitlines(), self.err)

    def test_ranges(self):
        """The ends of each range are in it."""
        for option in INSIDE:
            self.answers("?\n", 2, "", "error 23 BadLine line 1\n", f"replay {option}")
            self.answers("?\n", 2, "", "error 70 BadWord line 1\n", f"run --limit 2 {option}")

    def test_long_input(self):
        """After its first fault a trace is read on, since an input that is too long comes before that, but no line of it is looked at."""
        self.answers(bytes(MOST_INPUT + 1), 2, "", "error 80 InputTooLong\n", "score", " of an input that is too long")
        lines = b"\n" * MOST_INPUT
        for words in ("profile", "run --limit 1"):
            seconds = checks.least(lambda: self.time_of_lines(words, lines), MOST_SECONDS)
            expect(f"{words}, of {MOST_INPUT} lines: the time", seconds < MOST_SECONDS, seconds)
            self.answers(lines + b"\n", 2, "", "error 80 InputTooLong\n", words, f" of {MOST_INPUT + 1} lines")

    def time_of_lines(self, words, lines):
        """The user time until the first fault is told."""
        before = resource.getrusage(resource.RUSAGE_CHILDREN).ru_utime
        self.answers(lines, 2, "", "error 70 BadWord line 1\n", words, f" of {MOST_INPUT} lines")
        return resource.getrusage(resource.RUSAGE_CHILDREN).ru_utime - before

    def test_long_timelines(self):
        """Of a timeline that is read its events are kept, four bytes each, and no text."""
        timeline = b"timeline\n" + b"16000\n-16000\n" * 1_000_000
        fit = answer(self.program, "fit --limit 1", timeline)[1]
        for words, before, out in (
            ("footprint", b"classes 1024\n", b"footprint 16384\n"),
            ("peaks", b"classes 1024\n", b"peaks 1\nmoments 1\nlive 16384\nfreed 1\n"),
            ("fit --limit 1", b"", fit),
            ("check-fit", fit, b"optimal\n"),
        ):
            kept, written = self.memory_after(words, before + timeline)
            expect(f"{words} of a long timeline", written == out)
            # the project's engines have a memory of their own, and the code of their module
            floor = self.most_memory(words, before + timeline[:22]) if checks.ENGINES else 0
            expect(f"{words} of a long timeline: the memory", kept - floor < len(timeline), kept, floor, len(timeline))

    def most_memory(self, words: str, text: bytes) -> int:
        """The most bytes that are resident in a run."""
        with subprocess.Popen([self.program, *words.split()], stdin=subprocess.PIPE, stdout=subprocess.DEVNULL) as running:
            running.stdin.write(text)
            running.stdin.close()
            return 1024 * os.wait4(running.pid, 0)[2].ru_maxrss

    def memory_after(self, words: str, text: bytes) -> "tuple[int, bytes]":
        """The most bytes that are resident once a text is read, and the answer."""
        with subprocess.Popen([self.program, *words.split()], stdin=subprocess.PIPE, stdout=subprocess.PIPE) as reading:
            reading.stdin.write(text)
            reading.stdin.flush()
            with open(f"/proc/{reading.pid}/status") as status:
                kept = 1024 * int(re.search(r"^VmHWM:\s+(\d+) kB$", status.read(), re.MULTILINE)[1])
            reading.stdin.close()
            return kept, reading.stdout.read()

    def test_failures(self):
        """Failures of memory, of reads and of writes."""
        def little() -> None:
            resource.setrlimit(resource.RLIMIT_AS, (50_000 * 1024, 50_000 * 1024))

        # the project's engines take their addresses first
        said = "mte_tool: there are no addresses for the engine\n" if checks.ENGINES else "error 1 OutOfMemory\n"
        self.answers(bytes(60_000_000), 3, "", said, "score", ", with little memory", preexec_fn=little)
        folder = os.open(self.folder(), os.O_RDONLY)
        for words in "score|tune --limit 1|check|footprint|fit --limit 1|check-fit|profile|replay|run --limit 1".split("|"):
            self.answers(None, 3, "", "error 81 ReadFault\n", words, " of a folder", stdin=folder)
        os.close(folder)
        self.answers(None, 3, "", "error 81 ReadFault\n", "score", " of a closed input", stdin=None, preexec_fn=lambda: os.close(0))
        with open("/dev/full", "wb") as full:
            for given, words in OUTPUTS:
                self.answers(given, 3, "", "error 82 WriteFault\n", words, " on a full disk", stdout=full)

    def test_limit_of_files(self):
        """A file that may not be longer ends the program by its signal; where that is ignored, it is a failure."""
        words, trace = "run --limit 8 --granules 262144", example("sqlite.trace")
        for is_ignored, status, err in ((False, 153, ""), (True, 3, "error 82 WriteFault\n")):
            def limited(is_ignored=is_ignored) -> None:
                resource.setrlimit(resource.RLIMIT_FSIZE, (1024, 1024))
                signal.signal(signal.SIGXFSZ, signal.SIG_IGN if is_ignored else signal.SIG_DFL)

            with tempfile.TemporaryFile() as cut:
                self.answers(trace, status, "", err, words, " to a file that may not be longer", stdout=cut, preexec_fn=limited)
                cut.seek(0)
                text = cut.read()
            if is_ignored:
                expect("what is cut off begins with the sheet", text.startswith(b"classes 2 4 11 66 153 274 410 514\nlimit 8\n"), text[:80])

    def test_interrupted(self):
        """A call on a standard stream that is interrupted is a failure, and is not tried again."""
        checks.need("strace", "interrupted calls")
        place = self.folder()
        paths = {"read": os.path.join(place, "in"), "write": os.path.join(place, "out")}
        calls, err = os.path.join(place, "calls"), os.path.join(place, "err")
        with open(paths["read"], "w") as file:
            file.write(SCORED)
        if subprocess.run(["strace", "-o", calls, "true"], stdout=subprocess.DEVNULL, stderr=subprocess.DEVNULL).returncode:
            pytest.skip("without the right to trace: interrupted calls")
        for call, path in paths.items():
            with open(paths["read"], "rb") as given, open(paths["write"], "wb") as out, open(err, "wb") as said:
                words = ["strace", "-qq", "-o", calls, "-P", path, "-e", f"trace={call}", "-e", f"inject={call}:error=EINTR"]
                status = subprocess.run([*words, self.program, "score"], stdin=given, stdout=out, stderr=said).returncode
            with open(paths["write"]) as out, open(err) as said, open(calls) as made:
                got = (status, out.read(), said.read(), made.read().count("EINTR"))
            wanted = "error 81 ReadFault\n" if call == "read" else "error 82 WriteFault\n"
            expect(f"score, a {call} interrupted", got == (3, "", wanted, 1), got)

    def test_terminal(self):
        """A terminal is told what is waited for, once the words are not refused."""
        checks.need("script", "the runs at a terminal")
        place = self.folder()
        out, err = os.path.join(place, "out"), os.path.join(place, "err")
        for status, said, words in (
            (2, "mte_tool: reading standard input; Ctrl-D ends it, and `--help` after the command says what it takes\n*", "score"),
            (0, "", "score --help"),
            (0, "", "--version"),
            (2, "error 83 BadOption\n", "tune --step 3 --limit 2"),
        ):
            command = ["script", "-qec", f"'{self.program}' {words} 2>'{err}' >'{out}'", "/dev/null"]
            got = subprocess.run(command, input=b"\x04\n", stdout=subprocess.DEVNULL).returncode
            with open(err) as file:
                self.err = file.read()
            self.out = ""
            self.judge(f"{words}, at a terminal", got, status, "*", said)

    def test_sheets(self):
        """The first lines of the tuned sheet of each real profile, which is proved to be optimal."""
        for line in SHEETS.splitlines():
            name, limit, waste, classes = line.split(" ", 3)
            profile = example(f"{name}.profile")
            self.answers(profile, 0, f"classes {classes}\nlimit {limit}\nwaste {waste}\n*", "", f"tune --limit {limit}", f" of {name}")
            self.answers(self.out.encode() + profile, 0, "optimal\n", "", "check", f" of {name}'s sheet for {limit}")

    def test_steps(self):
        """A sheet for each step is proved to be optimal, and with its last number one more it is not."""
        for name in ("jq", "perl", "sqlite"):
            profile = example(f"{name}.profile")
            for step in (1, 2, 4, 8):
                self.answers(profile, 0, "*", "", f"tune --limit 32 --step {step}", f" of {name}")
                begin, last = self.out.rstrip("\n").rsplit(" ", 1)
                self.answers(self.out.encode() + profile, 0, "optimal\n", "", "check", f" of {name}'s sheet for step {step}")
                more = f"{begin} {int(last) + 1}\n".encode()
                self.answers(more + profile, 1, "refused *", "", "check", f" of {name}'s sheet for step {step}, with a number one more")

    def test_traces(self):
        """Each real trace has its profile, and a run of it is the sheet that is tuned for that profile, and its replay."""
        for name in ("jq", "perl", "sqlite"):
            trace, profile = example(f"{name}.trace"), example(f"{name}.profile")
            self.answers(trace, 0, profile.decode(), "", "profile", f" of {name}")
            self.answers(profile, 0, "*", "", "tune --limit 8", f" of {name}")
            sheet = self.out
            self.answers(sheet.encode().split(b"\n")[0] + b"\n" + trace, 0, "*", "", "replay --granules 262144", f" of {name}")
            self.answers(trace, 0, sheet + self.out, "", "run --limit 8 --granules 262144", f" of {name}")

    def test_help(self):
        """The help of each command is the text in help.txt, whole. Of `COMMAND --help` that has the part before `Standard input`; then
        comes what `COMMAND -h` says."""
        with open(HELP) as file:
            parts = re.split(r"(?m)^\$ mte_tool (.*)\n", file.read())
        texts = dict(zip(parts[1::2], parts[2::2]))

        def whole(command: str) -> str:
            short = texts[f"{command} -h"]
            return texts[f"{command} --help"] + short[short.index("Standard input"):]

        wanted = {words: texts[words] for words in texts if not words.endswith(" --help")}
        wanted.update({f"{command} --help": whole(command) for command in COMMANDS})
        wanted.update({"--help": texts["-h"], "help": texts["-h"], "help score": whole("score")})
        expect("help.txt has the helps of all", set(texts) == set(helps()), set(texts) ^ set(helps()))
        for words, text in wanted.items():
            self.answers("", 0, text, "", words)
            expect(f"{words}: at most {WIDEST} columns", max(map(len, self.out.splitlines())) <= WIDEST)
            if words.endswith((" -h", " --help")):
                expect(f"{words}: what standard input is", "\nStandard input is a " in self.out)


def least_time(words: "list[str]", runs: int) -> float:
    """The least processor time of so many runs, in seconds."""
    times = []
    for _ in range(runs):
        done = os.posix_spawn(words[0], words, os.environ, file_actions=[(os.POSIX_SPAWN_OPEN, 0, os.devnull, os.O_RDONLY, 0), *QUIET])
        used = os.wait4(done, 0)[2]
        times.append(used.ru_utime + used.ru_stime)
    return min(times)


class Launcher(checks.Part):
    def test_time(self):
        """scripts/mte_tool takes at most 5 ms of processor time over the program's own, once it has looked at the sources;
        and 200 ms over the project's engines, which a script of Python finds."""
        launcher, most = os.path.join(SCRIPTS, "mte_tool"), 0.2 if checks.ENGINES else 0.005
        if os.environ.get("MTE_TOOL"):
            pytest.skip("with MTE_TOOL set: the time of the launcher")
        subprocess.run([launcher, "--version"], stdout=subprocess.DEVNULL, check=True)
        own, more = least_time([checks.built_program(), "score"], 20), 1.0
        for _ in range(20):  # other processes make a run longer, and none shorter
            more = min(more, least_time([launcher, "score"], 10) - own)
            if more <= most:
                break
        expect("the launcher's time over the program's", more <= most, more)


def answer(program: str, words: str, given: bytes, **how) -> "tuple[int, bytes, bytes]":
    """A program's status, output and fault."""
    done = subprocess.run([program, *words.split()], input=given, stdout=subprocess.PIPE, stderr=subprocess.PIPE, **how)
    return done.returncode, done.stdout, done.stderr


def limit_memory() -> None:
    resource.setrlimit(resource.RLIMIT_AS, (400 << 20, 400 << 20))


class Plain(checks.Part):
    """The plain program gives the proved one's answers: status, output and fault."""

    @classmethod
    def setup_class(cls):
        checks.need("rustc", "the plain program beside the proved one")
        cls.program, cls.plain = checks.built_program(), checks.compiled_plain(cls.folder())

    def test_drawn(self):
        """Seeded inputs, right and spoiled; more of them, and others, with --drawn."""
        times = checks.options.drawn or DRAWN
        differ, kinds = [], set()
        tuned = lambda words, given: answer(self.plain, words, given)[1]
        for words, given in drawn_inputs.draw_inputs(random.Random(times), times, tuned):
            proved = answer(self.program, words, given)
            kinds.add((words.split()[0], proved[0], *proved[2].split()[1:2]))
            if answer(self.plain, words, given) != proved:
                differ.append(f"the answers to {words} of {given!r} differ")
        checks.add_outcomes(times, differ)
        expect("the inputs have answers and faults of many kinds", len(kinds) >= 50, len(kinds), kinds)
        print(f"program: {times} drawn inputs to both programs, with {len(kinds)} kinds of answers", flush=True)

    def test_rounds(self):
        """Fits over timelines that take 1,024 rounds, of which the last one shows a best table, and more."""
        for name, each in long_fits.TIMELINES.items():
            given, least = long_fits.timeline(*each), long_fits.least_footprint(each[0])
            got, own = (answer(program, long_fits.WORDS, given) for program in (self.program, self.plain))
            expect(f"{name}: the answers", got == own, got, own)
            takes = int(re.search(rb"\nfootprint (\d+)\n", got[1])[1])
            if name.startswith("1,024"):
                expect(f"{name}: a best table is shown", got[0] == 0 and takes == least and b"\nmoments " in got[1], got, least)
            else:
                bound = re.search(rb"\nnot shown least: no table takes less than (\d+)\n\Z", got[1])
                expect(f"{name}: none is shown", got[0] == 1 and bound and int(bound[1]) <= least <= takes, got, least)

    def test_words(self):
        """Words that are refused have the same status, and so has a help; the texts are their own."""
        draw = random.Random(1)
        with tempfile.TemporaryFile() as none:
            for _ in range(400):
                words = drawn_inputs.words(draw)
                how = {"stdin": none, "stdout": subprocess.PIPE, "stderr": subprocess.DEVNULL}
                done = [subprocess.run([program, *words], **how) for program in (self.program, self.plain)]
                status, out = zip(*((each.returncode, each.stdout) for each in done))
                expect(f"{words}: its status", status[0] == status[1] and (out[0] == out[1] or not status[0]), status, *out)

    def test_odd(self):
        """Numbers of any length, where a number may stand and before a word."""
        for number in (2**64 - 1, 2**64, 2**64 + 16, 10**20 + 1, 10**60, 10**90):
            for words, text in ODD:
                given = text.format(number).encode()
                expect(f"{words} of {given[:60]!r}", answer(self.plain, words, given) == answer(self.program, words, given))

    def test_long(self):
        """The longest inputs take little memory; and too little of it is a fault."""
        for words, begin, unit in LONG:
            given = begin.encode() + unit.encode() * ((MOST_INPUT - len(begin)) // len(unit))
            got = answer(self.plain, words, given, preexec_fn=limit_memory)
            expect(f"{words} of many {unit[:9]!r}", got[0] == 2 and got == answer(self.program, words, given), got)
        with open(os.path.join(self.folder(), "little"), "w") as file:
            file.write(f"ulimit -v 50000\nexec '{self.plain}' score\n")
        got = answer("sh", file.name, bytes(60_000_000))
        expect("the plain program with little memory", got == (3, b"", b"error 1 OutOfMemory\n"), got)


def helps() -> "list[str]":
    return ["--version", "-h", *(f"{command} {option}" for command in COMMANDS for option in ("-h", "--help"))]


def add_options(parser) -> None:
    parser.add_argument("--drawn", type=int, metavar="N", help="give N drawn inputs to both programs, and others than without")
    parser.add_argument("--write-help", action="store_true", help="write scripts/tests/help.txt anew, and then test: read what changed")


def write_help(options) -> None:
    if options.write_help:
        with open(HELP, "w") as file:
            for words in helps():
                out = subprocess.run([checks.built_program(), *words.split(" ")], stdout=subprocess.PIPE, text=True, check=True).stdout
                file.write(f"$ mte_tool {words}\n{out.partition('Standard input')[0] if words.endswith(' --help') else out}")


if __name__ == "__main__":
    checks.main(write_help)
