"""Tests of profile_program and trace_program. What needs a C compiler is skipped where there is none, with a word."""

import collections
import os
import re
import shutil
import subprocess

import checks
import commands
from checks import expect
from mte_scripts import shell_words
from mte_scripts.places import SCRIPTS

JOB = r"""
#include <errno.h>
#include <pthread.h>
#include <signal.h>
#include <stdint.h>
#include <stdlib.h>
#include <string.h>
#include <sys/wait.h>
#include <unistd.h>

static void *many(void *unused) {
  for (int i = 0; i < 1000; i++) {
    char *block = malloc(777);
    memset(block, 1, 777);
    block = realloc(block, 1555);
    if (block[776] != 1) _exit(21);
    free(block);
  }
  return unused;
}

int main(int words, char **word) {
  pthread_t threads[4];
  for (int i = 0; i < 4; i++) pthread_create(&threads[i], NULL, many, NULL);
  for (int i = 0; i < 4; i++) pthread_join(threads[i], NULL);
  volatile size_t big = SIZE_MAX / 2;
  if (calloc(big, 4) || errno != ENOMEM || malloc(big)) return 22;
  void *block = NULL;
  if (posix_memalign(&block, 24, 10) != EINVAL || block) return 23;
  if (posix_memalign(&block, 256, 1000) || (uintptr_t)block % 256) return 24;
  free(block);
  block = aligned_alloc(4096, 8192);
  if ((uintptr_t)block % 4096) return 25;
  free(block);
  char *zero = calloc(3, 7);
  for (int i = 0; i < 21; i++) if (zero[i]) return 26;
  zero = realloc(zero, 0);
  free(NULL);
  void *live[10];
  for (int i = 0; i < 10; i++) live[i] = malloc(5001);
  for (int i = 0; i < 10; i++) free(live[i]);
  if (!fork()) {
    free(malloc(333));
    _exit(0);
  }
  wait(NULL);
  if (words > 1) {
    signal(SIGINT, SIG_DFL); /* it is ignored where the tests run in the background */
    kill(getpid(), strcmp(word[1], "kill") ? SIGINT : SIGKILL);
  }
  return 0;
}
"""
# it fills its block to the end before it requests more: what it requests is as without the recorder
FILL = r"""
#include <malloc.h>
#include <stdio.h>
#include <stdlib.h>
int main(void) {
  char *block = malloc(1);
  void *other;
  for (size_t need = 1; need <= 5003; need++) {
    if (need > malloc_usable_size(block)) block = realloc(block, need), fprintf(stderr, "%zu\n", need);
    if (!block || malloc_usable_size(block) < need) return 21;
    block[need - 1] = 1;
  }
  return posix_memalign(&other, 256, 1000) || malloc_usable_size(other) < 1000;
}
"""
MANY = "#include <stdlib.h>\nint main(void) { for (int i = 0; i < 400000; i++) if (!malloc(i % 9 + 1)) return 1; return 0; }\n"
NEW = "struct alignas(64) A { char c[640]; };\nint main() { delete new int[777]; A *a = new A; delete a; }\n"
NONE = "int main(void) { return 0; }\n"
COUNTED = re.compile(r"(?m)^(?:777|1555|1240|12272|21|333|5001|large) .*")
WANTED = ["21 1", "333 1", "777 4000", "1240 1", "1555 4000", "5001 10", "12272 1", "large 2"]


def is_sound(trace: str) -> bool:
    """Whether each variable but the last is set while it is free, and freed and moved while it is not."""
    live = collections.defaultdict(bool)
    for event, variable, *_ in map(str.split, trace.splitlines()):
        if event in ("free", "realloc") and not live[variable] or event in ("malloc", "calloc") and int(variable) < 1023 and live[variable]:
            return False
        if event in ("free", "malloc", "calloc"):
            live[variable] = event != "free"
    return True

PEAK, DAY = ("profile_program", "--timeline", "--peak"), ("fleet_day", "--day", "2026-01-01", "--suspects")
# words by which two outputs of a command would be one file, and what is said of them
TWICE = (
    ("./new is written by --json too: name another file by --sarif", "find_faults", "--json", "new", "--sarif", "./new", "./writes"),
    ("there is written by --page too", "find_faults", "--json", "there", "--page", "hard", "./writes"),
    ("soft is written by --json too", "find_faults", "--json", "new", "--tombstones", "soft", "./writes"),
    ("- is written by --json too", "find_faults", "--json", "-", "--sarif", "-", "./writes"),
    ("writes is a word of the program", "find_faults", "--json", "writes", "./writes"),
    ("new is a word of the program", "find_faults", "--sarif", "new", "./writes", "here/new"),
    ("log is read", "find_faults", "--json", "log", "--read", "."),
    ("report is written by --read too", "find_faults", "--json", "report", "--read", "here"),
    ("kept/trace is written by --keep too", "find_faults", "--json", "kept/trace", "--keep", "kept", "./writes"),
    ("new is written by --measured too", *PEAK, "new", "--measured", "here/new", "./writes"),
    ("new is written by --said too", *PEAK, "new", "--said", "soft", "./writes"),
    ("new is written by --follow too", *PEAK, "new", "--follow", "new"),
    ("there is a word of the program", *PEAK, "there", "./writes", "hard"),
    ("./new is written by --certificates too", "fleet_table", "--certificates", "new", "--output", "./new", "there"),
    ("here/new/joined.fit is written by --certificates too", "fleet_table", "--certificates", "new", "--output", "here/new/joined.fit", "there"),
    ("new is written by --output too", "fleet_profiles", "--output", "new", "--suspects", "new", "there"),
    ("out is written by standard output too: name another file by --peak", *PEAK, "out", "./writes"),
    ("out is written by standard output too", *DAY, "here/out", "there"),
    ("out is written by standard output too", "fleet_regret", "--plot", "out", "there", "there"),
    ("out is written by standard output too", "fleet_trial", "read", "--suspects", "out", "there"),
    ("out is written by standard output too", "fleet_rollout", "read", "--suspects", "out", "there", "there"),
    ("out is written by standard output too", "pools", "--limit", "2", "--certificate", "out", "there"),
    ("err is written by standard error too", "pools", "--limit", "2", "--certificate", "err", "there"),
)


class Scripts(commands.Commands):
    def compiled(self, name: str, source: str, *flags: str, compiler: str = "cc") -> bool:
        path = self.write(f"{name}.{'cpp' if compiler == 'c++' else 'c'}", source)
        words = [compiler, "-O0", path, "-o", self.path(name), *flags]
        return subprocess.run(words, stdin=subprocess.DEVNULL, stderr=subprocess.DEVNULL).returncode == 0

    def counted(self) -> "list[str]":
        return COUNTED.findall(self.out)

    def test_words(self):
        """What is refused, and what is missing."""
        self.helped("profile_program", "trace_program")
        for script in ("profile_program", "trace_program"):
            self.runs(2, "", script)
            self.runs(3, "", script, "no_such_program")
            self.runs(3, "", script, "true", CC="no_such_compiler", XDG_CACHE_HOME=self.path("empty"))
            self.says("no C compiler")
        self.runs(3, "", "profile_program", "--read", "nowhere")
        self.write("a", "16 3\n")
        self.runs(3, "", "profile_program", "--read", "a")

    def test_printed_words(self):
        """A word of a command that is printed is text, and each shell reads it as what it is."""
        words = ["plain", "a b", "it's", "$x `y` \\", "a\nb", "-a\tb", "100%\n%s", "\\\x1b[31m'\"", "\udcff\udc80", "\u00e9\u2028", "\x01 ", "ends\n"]
        for shell in filter(shutil.which, ("sh", "dash", "bash", "ksh", "zsh")):
            for word in words:
                said = shell_words.quote_word(word)
                expect(f"{word!r} is text", said.isprintable(), said)
                if word.endswith("\n") and shell in ("sh", "dash"):
                    continue
                done = subprocess.run([shell, "-c", f"printf %s {said}"], stdin=subprocess.DEVNULL, stdout=subprocess.PIPE)
                expect(f"{shell} reads {said}", done.stdout == os.fsencode(word), done.stdout)

    def test_before_find_faults(self):
        """What find_faults lacks is said before the program runs, and where something can't be written."""
        checks.need("scripts/find_faults", "what it says before a run")
        self.write("writes", "#!/bin/sh\necho >written\n", 0o755)
        for status, says, words, environment in (
            (3, "is no folder of scripts/library", (), {"MTE_LIBRARY": "nowhere"}),
            (2, "nowhere can't be read", ("--suppressions", "nowhere"), {}),
            (2, "nowhere can't be read", ("--baseline", "nowhere"), {}),
            (2, "nowhere can't be read", ("--tombstone", "nowhere"), {}),
            (2, "writes is a word of the program, so it can't be written over", ("--json", "writes"), {}),
            (3, "no/where can't be written: No such file or directory", ("--json", "no/where"), {}),
            (3, "no/where can't be written: No such file or directory", ("--page", "no/where", "--keep", "kept"), {}),
            (3, f"{self.place} can't be written: Is a directory", ("--sarif", self.place), {}),
            (2, "--sarif - takes the place of the text, and so of what --annotations prints", ("--sarif", "-", "--annotations"), {}),
            (2, "--json - takes the place of the text, and so of what --tombstone prints", ("--json", "-", "--tombstone", "stone"), {}),
        ):
            self.runs(status, "", "find_faults", *words, "./writes", **environment)
            self.says(says)
            expect(f"{self.name}: the program does not run", not os.path.exists(self.path("written")))

    def test_before_a_run(self):
        """What can't be written is said before the program runs."""
        self.write("writes", "#!/bin/sh\necho >written\n", 0o755)
        for option in ("--peak", "--measured", "--said", "--processes"):
            self.runs(3, "", "profile_program", "--timeline", option, "no/where", "./writes")
            self.says("no/where can't be written: No such file or directory")
            expect(f"{self.name}: the program does not run", not os.path.exists(self.path("written")))

    def test_two_outputs(self):
        """Two outputs of a command are two files, whatever names or links lead there; none is a word of the program or a standard stream. Nothing
        is run before."""
        self.write("writes", "#!/bin/sh\necho >written\n", 0o755)
        for name in ("there", "log", "report"):
            self.write(name, "kept\n")
        os.link(self.path("there"), self.path("hard"))
        os.symlink("new", self.path("soft"))
        os.symlink(".", self.path("here"))
        for says, *words in TWICE:
            if checks.skip_without(f"scripts/{words[0]}", " ".join(words)):
                continue
            with open(self.path("out"), "wb") as out, open(self.path("err"), "w+b") as err:
                status = self.call(os.path.join(SCRIPTS, words[0]), *words[1:], take={"stdin": subprocess.DEVNULL, "stdout": out, "stderr": err})
            is_refused = status == 2 and says in self.read("err") and not self.read("out")
            expect(self.name, is_refused, status, self.read("err"), self.read("out"))
            left = [name for name in ("written", "new", "kept") if os.path.exists(self.path(name))]
            kept = [name for name in ("there", "hard", "log", "report") if self.read(name) != "kept\n"]
            expect(f"{self.name}: nothing is written", not left and not kept, left, kept)

    def test_standard_input_twice(self):
        """Nothing is left of standard input a second time: it is refused, and not taken for an empty file."""
        profile, classes, host, moments = "16 3\n", "classes 2 1024\n", "p\tm\n", "moment 1\n"
        day = ("fleet_day", "--day", "2026-01-01")
        for given, *words in (
            (profile, "merge_profiles", "-", "-"), (profile, "report", "-", "-"), (host, "fleet_profiles", "-", "-"),
            (host, *day, "--hosts", "-", "-"), (classes, *day, "--table", "-", "-"), (host, "fleet_trial", "read", "--groups", "-", "-"),
            (classes, "report", "--against", "-", "-", "x"), (classes, "tune_program", "--against", "-", "--read", "-"),
            (classes, "fleet_rollout", "plan", "v1=-", "v2=-", "-"),
            (moments, "profile_program", "--windows", "--again", "-", "--import", "-"),
            (classes, "profile_program", "--classes", "-", "--import", "-"),
        ):
            if checks.skip_without(f"scripts/{words[0]}", " ".join(words)):
                continue
            self.runs(2, "", *words, given=given, MTE_TOOL="/bin/false")
            self.says("standard input is named twice, and can be read once")

    def test_no_environment(self):
        """Without a PATH a compiler would not find its own parts."""
        checks.need("cc", "recorders that are compiled without an environment")
        for script in ("profile_program", "trace_program"):
            done = subprocess.run([os.path.join(SCRIPTS, script), "/bin/ls", "/"], env={}, stdin=subprocess.DEVNULL, capture_output=True, text=True)
            expect(f"{script} without an environment", done.returncode == 0 and done.stdout, done.returncode, done.stderr)

    def test_profile(self):
        checks.need("cc", "what profile_program counts")
        expect("the test's own program compiles", self.compiled("job", JOB, "-pthread"))
        for word in ("", "kill", "interrupt"):
            self.runs(int(bool(word)), "*", "profile_program", "./job", *[word] * bool(word))
            expect(f"profile_program job {word}", self.counted() == WANTED, self.counted())
        self.runs(0, "*", "profile_program", "--live", "./job")
        expect("profile_program --live", self.counted() == ["5001 10"], self.counted())
        self.runs(0, "*", "profile_program", "--only", "job", "env", "./job")
        os.symlink(os.path.join(SCRIPTS, "profile_program"), self.path("link"))
        self.ends(0, "*", self.path("link"), "--live", "./job")
        expect("profile_program through a link", self.counted() == ["5001 10"], self.counted())
        self.runs(3, "", "profile_program", "--only", "other", "./job")
        self.runs(0, "*", "profile_program", "--library")

    def test_scripts(self):
        checks.need("cc", "the programs of a script")
        expect("the test's own program compiles", self.compiled("job", JOB, "-pthread"))
        self.write("wrapper", "#!/bin/sh\n./job\n", 0o755)
        for script, *words in (["profile_program", "--live"], ["trace_program"]):
            self.runs(0, "*", script, *words, "./wrapper")
            self.says("is a script", "or what that runs in its own place")
            self.runs(0, "*", script, *words, "--only", "job", "./wrapper")
            expect(f"{script} --only of a script", "is a script" not in self.err, self.err)
            self.says("(processes: 1, requests: 1)")  # its fork

    def test_filled(self):
        checks.need("cc", "a block that is filled to its end")
        expect("the test's own program compiles", self.compiled("fill", FILL))
        self.ends(0, "", self.path("fill"))
        alone = self.err
        self.runs(0, "*", "profile_program", "--live", "./fill")
        found = re.findall("(?m)^(?:[45]...|1240) .*", self.out)
        expect("profile_program --live of a filled block", found == ["1240 1", f"{alone.split()[-1]} 1"] and self.err == alone, self.out)

    def test_trace(self):
        """A trace has the requests of the process itself, and frees what it got."""
        checks.need("cc", "what trace_program records")
        expect("the test's own program compiles", self.compiled("job", JOB, "-pthread"))
        trace = self.runs(0, "*", "trace_program", "./job")
        requests = (("of 777 bytes", " 777$", 4000), ("that move a block", r"^realloc \d* 1555$", 4000), ("of a fork", " 333$", 0))
        for what, pattern, number in requests:
            found = len(re.findall(f"(?m){pattern}", trace))
            expect(f"trace_program: the requests {what}", found == number, found)
        expect("trace_program: its variables", is_sound(trace))
        trace = self.runs(1, "*", "trace_program", "./job", "kill")
        expect("trace_program, killed: the last requests", trace.count(" 5001\n") == 10, trace.count(" 5001\n"))

    def test_many(self):
        """More than 1,023 live blocks, and more than a million events."""
        checks.need("cc", "a long trace")
        expect("the test's own program compiles", self.compiled("many", MANY))
        lines = self.runs(0, "*", "trace_program", "./many").count("\n")
        expect("trace_program, many: its lines", 999_998 <= lines <= 1_000_000, lines)
        self.says("cut at a million")
        expect("trace_program, many: a request of variable 1023", "\nmalloc 1023 " in self.out)

    def test_nothing(self):
        checks.need("cc", "programs of which nothing is counted")
        expect("the test's own program compiles", self.compiled("none", NONE))
        self.runs(3, "", "profile_program", "./none")
        self.says("requested nothing")
        self.runs(3, "", "trace_program", "./none")
        if self.compiled("static", NONE, "-static"):
            self.runs(3, "", "profile_program", "./static")
            self.runs(3, "", "trace_program", "./static")
        else:
            checks.skip("without a static C library: a static program")

    def test_new(self):
        checks.need("cc c++", "C++'s new")
        expect("the test's own program compiles", self.compiled("new", NEW, "-std=c++17", "-w", compiler="c++"))
        self.runs(0, "*", "profile_program", "./new")
        found = re.findall("(?m)^(?:3108|688) 1$", self.out)
        expect("profile_program: C++'s new", len(found) == 2, self.out)
