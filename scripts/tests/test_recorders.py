"""Tests of what profile_program and trace_program leave alone: programs with another allocator, daemons and forks, a cache that others can
change, names and places of any kind, a full disk, limits, outputs that fail. Needs a C compiler. What needs root or another tool is
skipped where it is missing, with a word."""

import bisect
import collections
import contextlib
import ctypes
import glob
import os
import pty
import pwd
import re
import resource
import shutil
import signal
import subprocess
import sys
import time

import checks
import commands
import pytest
from checks import expect
from mte_scripts.places import SCRIPTS
from mte_scripts.recording import recording

LIVE, PROFILE, TRACE = ("profile_program", "--live"), ("profile_program",), ("trace_program",)
BOTH = (PROFILE, LIVE, TRACE)
HERE = os.path.dirname(os.path.realpath(__file__))
LARGEST = 1023 * 16

# an allocator with a place of its own, which ends the program when it is given another's block
OWN = r"""
#include <stddef.h>
#include <stdint.h>
#include <stdlib.h>
#include <string.h>
static _Alignas(16) char region[1 << 20];
static size_t next;
static uint64_t *header(void *p) { return (uint64_t *)p - 2; }
static void *take(size_t size) {
  char *p = region + next + 16;
  next += 16 + (size + 15) / 16 * 16;
  if (next > sizeof region) abort();
  *header(p) = 0x0123456789ABCDEF, header(p)[1] = size;
  return p;
}
static void check(void *p) {
  if ((char *)p < region || (char *)p >= region + sizeof region || *header(p) != 0x0123456789ABCDEF) abort();
}
void *malloc(size_t size) { return take(size); }
void *calloc(size_t number, size_t each) { return memset(malloc(number * each), 0, number * each); }
void free(void *p) { if (p) check(p); }
void *realloc(void *p, size_t size) {
  void *q = take(size);
  if (p) check(p), memcpy(q, p, header(p)[1] < size ? header(p)[1] : size);
  return q;
}
size_t malloc_usable_size(void *p) { return p ? check(p), header(p)[1] : 0; }
void *mallocx(size_t size, int flags) { return flags ? NULL : take(size); }
"""
USER = r"""
#include <malloc.h>
#include <stdio.h>
#include <stdlib.h>
#include <string.h>
void *mallocx(size_t, int);
int main(void) {
  char *a = malloc(1001), *b = calloc(3, 700), *c = strdup("abc");
  if (malloc_usable_size(a) < 1001 || malloc_usable_size(b) < 2100) return 21;
  memset(a, 1, malloc_usable_size(a));
  a = realloc(a, 3001);
  if (a[1000] != 1 || malloc_usable_size(a) < 3001) return 22;
#ifdef EXTRA
  free(mallocx(5001, 0));
#endif
  printf("%s\n", c);
  free(a), free(b), free(c);
  return 0;
}
"""
# at a fixed place a program has a stub of its own where it takes the address of malloc, and its malloc is still glibc's
FIXED = "#include <stdlib.h>\nvoid *(*f)(size_t) = malloc;\nint main(void) { free(f(4001)); return 0; }\n"
FORKS = r"""
#include <stdlib.h>
#include <string.h>
#include <sys/wait.h>
#include <unistd.h>
int main(int words, char **word) {
  char *p = malloc(601);
  if (fork()) {
    if (words == 1) wait(NULL);
    else if (words == 2) usleep(100000);
    free(p);
    return 0;
  }
  if (words > 2) usleep(50000);
  p = realloc(p, 701);
  free(malloc(801));
  if (words > 1) sleep(atoi(word[1]));
  _exit(0);
}
"""
PASSES = "#include <unistd.h>\nint main(int n, char **word) { (void)n; execv(word[1], word + 1); return 1; }\n"
WAITS = """#include <stdlib.h>
#include <unistd.h>
int main(void) { free(malloc(601)); return write(1, "waiting\\n", 8) + sleep(60); }
"""
WRONG = r"""
#include <stdlib.h>
#include <unistd.h>
int main(int words, char **word) {
  char *volatile a = malloc(100), *volatile b = malloc(3000);
  (void)words;
  if (*word[1] == 'd') free(a), free(a);
  if (*word[1] == 'i') free(b + 1600);
  if (*word[1] == 'r') b = realloc(b + 1600, 5001);
  if (*word[1] == 's') free((void *)&words);
  return 0;
}
"""
MANY = "#include <stdlib.h>\nint main(void) { for (int i = 0; i < 1100; i++) malloc(24); return 0; }\n"
PLANTED = """#include <stdio.h>
__attribute__((constructor)) static void f(void) { fputs("PLANTED\\n", stderr); }
"""
TURNS = "#include <stdlib.h>\nint main(void) { for (int i = 0; i < 20000; i++) free(malloc(24)); return 0; }\n"
# it has 1,000 blocks, frees them, and has 1,000 others
PHASES = r"""
#include <pthread.h>
#include <signal.h>
#include <stdlib.h>
#include <unistd.h>
static void *kept[4][1000];
static void fill(void **blocks, size_t size) { for (int i = 0; i < 1000; i++) blocks[i] = malloc(size); }
static void *thread(void *blocks) {
  for (int turn = 0; turn < 20; turn++) {
    fill(blocks, 1001);
    for (int i = 0; i < 1000; i++) free(((void **)blocks)[i]);
  }
  return NULL;
}
int main(int words, char **word) {
  if (words > 1 && *word[1] == 't') {
    pthread_t threads[4];
    for (int i = 0; i < 4; i++) pthread_create(&threads[i], NULL, thread, kept[i]);
    for (int i = 0; i < 4; i++) pthread_join(threads[i], NULL);
    return 0;
  }
  fill(kept[0], 1001);
  for (int i = 0; i < 1000; i++) free(kept[0][i]);
  fill(kept[1], 501);
  if (words > 1 && *word[1] == 'k') kill(getpid(), SIGKILL);
  if (words > 1 && *word[1] == 'w') sleep(60);
  return 0;
}
"""
# the table of rings is the mapping from 0 on; before the process of a ring there are where it starts, and nine lanes: in one
# `read` is 64 bytes behind `next`
OVERWRITES = r"""
#include <stdint.h>
#include <stdio.h>
#include <stdlib.h>
#include <string.h>
#include <unistd.h>
int main(int words, char **word) {
  char line[1000], *at[2] = {NULL, NULL}, *from;
  long offset, lane = 0;
  for (int i = 0; i < 100; i++) free(malloc(100 + i));
  FILE *maps = fopen("/proc/self/maps", "r");
  while (fgets(line, sizeof line, maps))
    if (strstr(line, "mte_stream") && sscanf(line, "%p-%*p %*s %lx", (void **)&from, &offset) == 2) at[offset > 0] = from;
  fclose(maps);
  if (!at[0] || !at[1]) return 1;
  uint64_t *process = (uint64_t *)at[0], *records = (uint64_t *)at[1];
  while (*process != getpid()) process++;
  uint64_t *start = process - 1, *next = start - 9 * 16;
  while (lane < 8 && !*next) lane++, next += 16;
  uint64_t *read = next + 8;
  // before the reader's first look too
  if (!strcmp(word[1], "start")) for (uint64_t i = 0, was = *start; i < 2000000; i++) __atomic_store_n(start, i % 2 ? was : 0, __ATOMIC_RELEASE);
  if (!strcmp(word[1], "next") || !strcmp(word[1], "start")) *next += 1 << 20;
  // once the reader has caught up: while it reads, it may write over this in turn
  for (int i = 0; i < 20000 && !strcmp(word[1], "read") && *next != *read; i++) usleep(500);
  if (!strcmp(word[1], "read")) *read += 8;
  if (!strcmp(word[1], "head")) memset(at[0], 0, 4096);
  if (!strcmp(word[1], "form")) memcpy(at[0], "ALLISZ1", 7);
  for (int i = 0; i < 1000 && !strcmp(word[1], "kind"); i++) free(malloc(100)), records[(lane << 14) + (*next - 1) % (1 << 14)] |= 15;
  for (int i = 0; i < 32 && !strcmp(word[1], "counters"); i++) memset(records + (i << 14), 1, 1 << 16);
  for (int i = 0; i < 100; i++) free(malloc(100 + i));
  return 0;
}
"""
# threads that request one after the other, in turns of any length, and print in which order
ORDERED = r"""
#include <pthread.h>
#include <stdlib.h>
#include <unistd.h>
enum { THREADS = 4, CALLS = 40000 };
static pthread_mutex_t one = PTHREAD_MUTEX_INITIALIZER;
static char order[CALLS];
static int number;
static void *thread(void *word) {
  for (unsigned seed = (long)word + 1;;) {
    pthread_mutex_lock(&one);
    for (int k = (seed = seed * 1103515245 + 12345) >> 16 & 7; k >= 0 && number < CALLS; k--) {
      order[number++] = '0' + (long)word;
      void *volatile block = malloc(3000 + (long)word);
      free(block);
    }
    int is_over = number == CALLS;
    pthread_mutex_unlock(&one);
    if (is_over) return word;
  }
}
int main(void) {
  pthread_t all[THREADS];
  for (long i = 0; i < THREADS; i++) pthread_create(&all[i], NULL, thread, (void *)i);
  for (int i = 0; i < THREADS; i++) pthread_join(all[i], NULL);
  return write(1, order, CALLS) != CALLS;
}
"""
STRIDE = 32  # calls of a thread, of which the place among those of other threads is not told apart
EVENTS = r"""
#include <signal.h>
#include <stdlib.h>
#include <string.h>
#include <unistd.h>
// so many requests of the largest size, each of which is freed at once: 13 bytes of text
static void churn(long times) { for (long i = 0; i < times; i++) free(malloc(1023 * 16)); }
static void *blocks[1000];
static void phase(size_t size, int is_freed) {
  for (int i = 0; i < 1000; i++) blocks[i] = malloc(size);
  for (int i = 0; i < 1000 * is_freed; i++) free(blocks[i]);
}
int main(int words, char **word) {
  long before = words > 2 ? atol(word[2]) : 0, after = words > 3 ? atol(word[3]) : 0;
  if (*word[1] == 'w') {
    char *a = malloc(11), *b = calloc(2, 11), *c = malloc(1 << 20);
    a = realloc(a, 33), b = realloc(b, 1023 * 16), free(c), free(realloc(b, 0)), free(a);
    free(malloc(0)), free(aligned_alloc(64, 128)), c = malloc(16369);
    return 0;
  }
  phase(1001, 1), churn(before), phase(401, 1), churn(after), phase(501, 0);
  if (*word[1] == 'k') kill(getpid(), SIGKILL);
  if (*word[1] == 'p') write(1, "waiting\n", 8), sleep(60);
  return 0;
}
"""
# 40 MB of small blocks that are written to, and at most 3 MB of large ones
FILLS = """#include <stdlib.h>
#include <string.h>
int main(void) { for (int i = 0; i < 40000; i++) memset(malloc(1000), 1, 1000);
  char *a = malloc(1 << 20), *b = malloc(2 << 20); free(a), free(b), free(malloc(1 << 20)); return 0; }
"""
# a child that gives itself a name, which is the first word's second line; nobody waits for it with `left`
NAMED = r"""
#include <stdlib.h>
#include <string.h>
#include <sys/prctl.h>
#include <sys/wait.h>
#include <unistd.h>
int main(int words, char **word) {
  if (words < 2) return free(malloc(700)), 0;
  for (int i = 0; i < 1000; i++) free(malloc(600));
  if (!fork()) {
    if (!strcmp(word[1], "left")) return prctl(PR_SET_NAME, word[2]), free(malloc(700)), 0;
    char *names[] = {word[2], NULL};
    return execv("/proc/self/exe", names);
  }
  if (strcmp(word[1], "left")) wait(NULL);
  else usleep(300000);
  return 0;
}
"""
SLOW = "#include <stdlib.h>\n#include <unistd.h>\nint main(void) { free(malloc(3 << 20)), malloc(3 << 19); sleep(3); return 0; }\n"

# of the reader: its notes, and whatever else it shares
OVERWRITES_NOTES = """import os
place = f"/proc/{os.getppid()}/fd/"
for name in os.listdir(place):
    if os.path.exists(place + name) and "memfd:mte_found" in os.readlink(place + name):
        os.pwrite(os.open(place + name, os.O_RDWR), bytes([255]) * 4096, 0)
"""

# of 2,000 requests with 7 places beside the peak a snapshot is taken every 256 requests at the end
EIGHT = "snapshots 8\n501 0 0 0 0 24 280 536 792\n1001 256 512 768 1000 0 0 0 0"
# of the moments at which the classes have the most blocks
FOUR = f"snapshots 4\n401 0 0 1000 0\n501 0 0 0 1000\n1001 1000 0 0 0\n{LARGEST} 0 1 0 0"

# The words of recorders_hostile.c: how many requests of 3,333 bytes are counted, and what is said.
HOSTILE: "dict[str, tuple[int | None, str]]" = {
    "exits": (None, ""), "jumps": (100000, ""), "strict": (300001, ""), "filter": (300000, ""), "filtered forks": (2, "5 for they began in a program"),
    "overruns": (3, ""), "usable": (1, ""), "little memory": (4, ""), "no memory": (2, "5 for a limit of their address space"), "small files": (7, ""),
    "storm": (1000, ""), "tree": (258, ""), "vfork": (20, ""), "threads": (10000, ""), "thread executes": (2, ""), "handlers": (1000, ""),
    "closes": (9, ""), "kill": (200000, ""), "plain": (1, ""),
    "chroot": (2, "3 for they can't open the stream"), "setuid": (2, "3 for they can't open the stream"),
    "setuid executes": (2, "ran another program in its own place, without the recorder"), "namespace": (2, ""),
}
SHARED = ("-shared", "-fPIC", "-o")
OF_ROOT = {"chroot", "setuid", "setuid executes", "namespace"}

# what a program sees of the world
WORLD = """trap '' USR1; exec 7</dev/null 8>/dev/null
echo given | env -i PATH=/usr/bin:/bin A='b
c' 'D.e=1' "$@" sh -c 'env; exec 9<&-; ls /proc/self/fd | wc -l; grep -E "^Sig(Blk|Ign)" /proc/self/status; umask; ulimit -a; cat'
"""
OWN_WORDS = re.compile("ERROR: ld.so: object .*/(stream|counts)-.* cannot be preloaded|(MTE_STREAM|LD_PRELOAD)=|(profile|trace)_program: ")


def limit_files(kibibytes: int) -> dict:
    """Words of subprocess.run: no file may be larger."""
    return {"preexec_fn": lambda: resource.setrlimit(resource.RLIMIT_FSIZE, (1024 * kibibytes, 1024 * kibibytes))}


def close_stream(descriptor: int) -> dict:
    """The same: standard output or standard error is closed."""
    return {("stdin", "stdout", "stderr")[descriptor]: None, "preexec_fn": lambda: os.close(descriptor)}


def state_of(process: int) -> "tuple[str, int]":
    """The state of a process, and its ticks of processor time."""
    with open(f"/proc/{process}/stat") as file:
        words = file.read().rpartition(")")[2].split()
    return words[0], int(words[11]) + int(words[12])


def go_on(process: int) -> None:
    """Where it was stopped, and is there."""
    with contextlib.suppress(ProcessLookupError):
        os.kill(process, signal.SIGCONT)


class Recorders(commands.Commands):
    @classmethod
    def setup_class(cls):
        checks.need("cc", "the tests of profile_program and trace_program")
        super().setup_class()
        cls.place = os.path.realpath(cls.place)
        for name, source, *flags in (
            ("linked", USER, "-L.", "-lown", f"-Wl,-rpath,{cls.place}"), ("extra", USER, "-DEXTRA", "-L.", "-lown", f"-Wl,-rpath,{cls.place}"),
            ("forks", FORKS), ("passes", PASSES), ("waits", WAITS), ("wrong", WRONG), ("many", MANY), ("turns", TURNS),
            ("phases", PHASES, "-pthread"), ("overwrites", OVERWRITES), ("events", EVENTS), ("fills", FILLS), ("slow", SLOW),
            ("named", NAMED), ("ordered", ORDERED, "-pthread"),
        ):
            if name == "linked":
                cls.compiled("libown.so", OWN, "-fPIC", "-shared", "-Wl,-soname,libown.so")
            cls.compiled(name, source, *flags)
        with open(f"{HERE}/recorders_hostile.c") as file:
            cls.compiled("hostile", file.read(), "-O1", "-pthread")
        shutil.copy(f"{cls.place}/libown.so.c", f"{cls.place}/own.c")
        cls.compiled("inside", USER, "own.c", "-rdynamic")

    @classmethod
    def compiled(cls, name: str, source: str, *flags: str) -> bool:
        """Compiles a program, as it stands."""
        path = os.path.join(cls.place, name)
        with open(f"{path}.c", "w") as file:
            file.write(source)
        words = ["cc", "-O0", "-w", "-fno-builtin", f"{name}.c", "-o", name, *flags]
        return not subprocess.run(words, cwd=cls.place, stdin=subprocess.DEVNULL, stderr=subprocess.DEVNULL).returncode

    def call(self, *words: str, take: "dict | None" = None, **more) -> int:
        """Into files: a process that a program leaves may still have them."""
        with open(self.path("out"), "wb") as out, open(self.path("err"), "wb") as err:
            status = super().call(*words, take={"stdout": out, "stderr": err, **(take or {})}, **more)
        self.out, self.err = self.out or self.read("out"), self.err or self.read("err")
        return status

    def recorded(self, words: "tuple[str, ...]", *program: str, status: int = 0, **more) -> str:
        """What is printed of the run of a program."""
        return self.runs(status, "*" if status < 2 else "", *words, *program, **more)

    def compile_recorders(self) -> None:
        """Before a test in which nothing can be compiled, also where it is the first one."""
        for words in BOTH:
            self.recorded(words, "./linked")

    def lines(self, pattern: str, *wanted: str) -> None:
        """The lines of the last output that have the pattern."""
        found = [line for line in self.out.splitlines() if re.search(pattern, line)]
        expect(f"{self.name}: the lines {pattern}", found == list(wanted), found)

    def has_own_output(self) -> None:
        expect(f"{self.name}: the program's own output", "abc" in self.err.split("\n"), self.err)

    def started(self, *words: str, until: str, **environment) -> subprocess.Popen:
        """A program that was started, and has said this on standard output or standard error."""
        with open(self.path("out"), "wb") as out, open(self.path("err"), "wb") as err:
            how = {"cwd": self.place, "env": {**self.environment, **environment}, "stdin": subprocess.DEVNULL, "stdout": out, "stderr": err}
            program = subprocess.Popen(words, **how)
        self.after_test.callback(program.wait)
        self.after_test.callback(program.kill)
        for _ in range(200):
            if until in self.read("out") + self.read("err"):
                break
            time.sleep(0.1)
        return program

    def library(self) -> str:
        """The library of a service."""
        return self.runs(0, "*", "profile_program", "--library").strip()

    def followed(self, name: str, *options: str) -> "dict[str, str]":
        """Follows a stream of this name; the environment of a service."""
        words = [os.path.join(SCRIPTS, "profile_program"), "--follow", name, *options]
        with open(self.path(f"{name}.out"), "wb") as out, open(self.path(f"{name}.err"), "wb") as err:
            self.script = subprocess.Popen(words, cwd=self.place, env=self.environment, stdin=subprocess.DEVNULL, stdout=out, stderr=err)
        self.after_test.callback(self.script.wait)
        self.after_test.callback(self.script.terminate)
        until = time.monotonic() + 60
        while not os.path.exists(self.path(name)) and self.script.poll() is None and time.monotonic() < until:
            time.sleep(0.02)
        return {"MTE_STREAM": self.path(name), "LD_PRELOAD": self.library()}

    def ended(self, name: str) -> str:
        """What is printed where following ends."""
        self.script.terminate()
        expect(f"--follow {name}: its status", self.script.wait() == 0, self.read(f"{name}.err"))
        expect(f"--follow {name}: the file is gone", not os.path.exists(self.path(name)))
        return self.read(f"{name}.out")

    def test_other_allocator(self):
        """It is followed. Where blocks come in other ways too, or the program's own functions are before the library's, it runs untouched."""
        for words in BOTH:
            self.recorded(words, "./linked")
            self.says(self.path("libown.so"))
            self.has_own_output()
            if words == TRACE:
                requests = ("malloc 0 1001", "calloc 1 2100", "realloc 0 3001")
                self.lines("^(malloc|calloc|realloc) [0-9]* (1001|2100|3001|5001)$", *requests)
                expect("trace_program ./linked: the frees", len(re.findall("(?m)^free [012]$", self.out)) >= 3, self.out)
            else:
                self.lines("^(1001|2100|3001|5001) ", *["1001 1"] * (words == PROFILE), "2100 1", "3001 1")
            for program, whose in (("extra", "libown.so"), ("inside", "inside")):
                self.recorded(words, f"./{program}", status=3)
                self.has_own_output()
                self.says("has an allocator of its own", self.path(whose))
        # beside others: what they request is there, and standard error says of whom it is not
        self.recorded(PROFILE, "sh", "-c", "./inside; :")
        self.says(self.path("inside"))

    def test_fixed_place(self):
        if not self.compiled("fixed", FIXED, "-fno-pie", "-no-pie"):
            pytest.skip("without a compiler for programs at a fixed place: one that takes the address of malloc")
        for words in BOTH:
            self.recorded(words, "./fixed")
            expect(f"{self.name}: its request", bool(re.search("(?m)(^| )4001( |$)", self.out)), self.out)
            expect(f"{self.name}: glibc's malloc", "allocator" not in self.err, self.err)

    def test_forks(self):
        self.recorded(PROFILE, "./forks")
        self.lines("^(601|701|801) ", "601 1", "701 1", "801 1")
        self.recorded(LIVE, "./forks")
        self.lines("^(601|701|801) ", "601 1")
        self.says("processes: 1, requests: 2", "--only")
        self.recorded(TRACE, "./forks")
        self.lines(" (601|701|801)$", "malloc 0 601")

    def test_daemons(self):
        for words in (LIVE, TRACE, PROFILE):
            self.recorded(words, "./forks", "60", TMPDIR=self.place)
            self.says("left process", "daemon off")
            left = re.search(r"left process (\d+) running", self.err)[1]
            with open(f"/proc/{left}/comm") as file:
                expect(f"{self.name}: the process that is left", file.read() == "forks\n", left)
            os.kill(int(left), signal.SIGTERM)
            expect(f"{self.name}: what it recorded", not glob.glob(self.path("mte_tool.*")))
        self.lines("^(601|701|801) ", "601 1", "701 1", "801 1")

    def test_late_daemons(self):
        """The first program ends before its fork makes a call."""
        for words in (LIVE, TRACE, PROFILE):
            self.recorded(words, "./forks", "60", "late", TMPDIR=self.place)
            self.says("left process", "daemon off")
            os.kill(int(re.search(r"left process (\d+) running", self.err)[1]), signal.SIGTERM)
        self.lines("^(601|701|801) ", "601 1", "701 1", "801 1")

    def test_programs_in_the_place(self):
        for words in (LIVE, TRACE):
            for first in ("./passes", "env"):
                self.recorded(words, first, "./linked")
                expect(f"{self.name}: what runs in the place of the first program", bool(re.search("(?m)(^| )3001( |$)", self.out)), self.out)

    def test_signals(self):
        """A signal for the script ends the program, and what was recorded until then is printed."""
        os.mkdir(self.path("waited"))
        for script, *words in BOTH:
            for number, status in ((signal.SIGTERM, 143), (signal.SIGHUP, 129)):
                program = self.started(os.path.join(SCRIPTS, script), *words, "./waits", until="waiting", TMPDIR=self.path("waited"))
                program.send_signal(number)
                ended, out, err = program.wait(), self.read("out"), self.read("err")
                good = ended == 1 and re.search("(?m)(^| )601( |$)", out) and f"ended with status {status}" in err
                expect(f"{script} {words}, {number}", good, ended, out, err)
                expect(f"{script} {words}, {number}: what is left", not os.listdir(self.path("waited")))

    def test_wrong_frees(self):
        inner = "addg 1023 1 63 0\n"
        for kind, wanted in (("double", "free 0\nfree 0"), ("inner", f"{inner}free 1023"), ("realloc", f"{inner}realloc 1023 5001"),
                             ("stack", "addg 1023 1 1 0\nfree 1023")):
            self.recorded(TRACE, "./wrong", kind, status=1)
            one = "trace_program: one free is of no live block, and a replay refuses it"
            expect(f"{self.name}: the free is told", one in self.err.split("\n"), self.err)
            expect(f"{self.name}: its events", f"\n{wanted}\n" in f"\n{self.out}", self.out)
            if os.access(checks.PROGRAM, os.X_OK):
                words = [checks.PROGRAM, "run", "--limit", "8"]
                replayed = subprocess.run(words, input=self.out.encode(), stdout=subprocess.PIPE).stdout.decode()
                expect(f"{self.name}: a replay refuses the free", "refused frees 1" in replayed.split("\n"), replayed)

    def test_what_a_replay_means(self):
        self.recorded(TRACE, "./linked")
        self.says("blocks has a variable of its own")
        self.recorded(TRACE, "./many")
        self.says("1023 of the 1100 blocks have a variable of their own; the other 77 are never freed", "a sample", "--first N")
        expect("trace_program: the blocks without a variable", len(re.findall("(?m)^malloc 1023 ", self.out)) == 77, self.out)
        self.recorded(TRACE, "--first", "30", "./many")
        expect("trace_program --first 30: its events", self.out.count("\n") == 30, self.out)
        self.says("cut at 30 events")
        for number in ("2", "1000001", "-1", "x", ""):
            self.recorded(TRACE, "--first", number, "./many", status=2)

    def test_names(self):
        """A name of any kind, and what is no program."""
        for name in ("a=b", "-x"):
            shutil.copy(self.path("linked"), self.path(name))
        path = f"{self.place}:{os.environ['PATH']}"
        for words in BOTH:
            self.recorded(words, "./a=b")
            self.recorded(words, "--", "./a=b")
            self.recorded(words, "--", "a=b", PATH=path)
            self.recorded(words, "--", "-x", PATH=path)
            self.recorded(words, "./own.c", status=3)
            self.says("is not executable")
            self.recorded(words, ".", status=3)
            self.says("is a folder")
            self.recorded(words, "no\nsuch\033[31mprogram", status=3)
            expect(f"{words}: a word is not printed as it came", self.err.count("\n") == 1 and "\033" not in self.err, self.err)

    def test_no_stream(self):
        for file in ("/dev/zero", "linked", "/dev/null", self.place):
            self.runs(3, "", "profile_program", "--read", file)
            expect(f"profile_program --read {file}: bytes of it are not printed", self.err.replace("\n", "").isprintable(), self.err)
        self.write("text", "one line of text, and no stream\n")
        self.write("left", b"STREAM3\0" + (1 << 40).to_bytes(8, "little") + bytes(8192))  # its reader was killed
        for file in ("text", "left"):
            self.runs(3, "", "profile_program", "--read", file)
            self.says("is no stream, or nobody follows it")
        self.write("random", b"STREAM3\0" + os.getpid().to_bytes(8, "little") + os.urandom(8192))
        self.runs(3, "", "profile_program", "--read", "random")
        self.says("nobody follows it")
        self.runs(3, "", "profile_program", "--follow", "random")
        self.says("File exists")
        self.runs(2, "", "profile_program", "--follow", "new", "./linked")
        self.followed("unused")
        self.runs(3, "", "profile_program", "--read", "unused")
        self.says("nothing was counted in unused yet")

    def test_forged_streams(self):
        """A file that names a process which does not follow it: that gets no signal. The file is no link."""
        waits = self.started("./waits", until="waiting")
        maps = self.path("waits")
        heads = (b"STREAM3\0", waits.pid), (b"STREAM3\0", 0), (b"STREAM3\0", 1 << 63), (b"x" * 8, waits.pid)
        for at, (form, reader) in enumerate(heads):
            for path in (maps[:-1], self.path(f"forged{at}")):  # the first is a part of one that the process has
                self.write(path, form + reader.to_bytes(8, "little") + bytes(8192))
                self.runs(3, "", "profile_program", "--read", path)
                self.says("is no stream, or nobody follows it")
        expect("a process that a forged stream names goes on", waits.poll() is None, waits.poll())
        self.followed("linked.stream")
        os.symlink("linked.stream", self.path("link.stream"))
        self.runs(3, "", "profile_program", "--read", "link.stream")
        self.says("link.stream is a link: name the file itself")
        with open(self.path("linked.stream"), "rb") as file:
            self.write("copied.stream", file.read(1 << 16))  # it names the reader of another file
        self.runs(3, "", "profile_program", "--read", "copied.stream")
        self.says("is no stream, or nobody follows it")

    def test_names_of_processes(self):
        """A line break in one makes no line, and a bracket no process that runs on."""
        self.recorded((*LIVE, "--processes", "processes"), "./named", "waits", "x\n9 99999999 7 who")
        found = self.read("processes").splitlines()
        expect("a name with a line break", [line.split(" ", 3)[3] for line in found] == ["named", "x?9 99999999 7 who"], found)

        def is_subreaper():
            ctypes.CDLL(None).prctl(36, 1, 0, 0, 0)  # PR_SET_CHILD_SUBREAPER: nobody waits for what the program leaves

        for name in ("plain", "x) R 1 (2", ") S"):
            self.recorded(PROFILE, "./named", "left", name, take={"preexec_fn": is_subreaper})
            expect(f"a process {name!r} that has ended", "left process" not in self.err, self.err)
            self.lines("^700 ", "700 1")

    def test_folders(self):
        """With a space, a colon and a dollar sign; and those for the library of a service."""
        for name in ("a b", "a:b", "a$LIB"):
            place = self.path(name)
            os.mkdir(place)
            for words in BOTH:
                self.recorded(words, "./linked", XDG_CACHE_HOME=place, TMPDIR=place)
                expect(f"{words} with a folder '{name}'", bool(re.search("(?m)(^| )3001( |$)", self.out)), self.out)
            self.runs(3, "", "profile_program", "--library", name)
            expect(f"what is left in the folder '{name}'", os.listdir(place) == ["mte_tool"], os.listdir(place))
        os.chmod(self.place, 0o711)
        for name, mode in (("reached", 0o711), ("closed", 0o700), ("closed/within", 0o755), ("shared", 0o777)):
            os.mkdir(self.path(name))
            os.chmod(self.path(name), mode)
        self.runs(3, "", "profile_program", "--library", "nowhere")
        for name in ("closed", "closed/within"):
            self.runs(3, "", "profile_program", "--library", name)
            self.says(f"no other user can enter {self.path('closed')}")
        self.runs(3, "", "profile_program", "--library", "shared")
        self.says(f"others can change {self.path('shared')}")
        library = self.path("reached", "mte_tool_stream.so")
        self.runs(0, library, "profile_program", "--library", "reached")
        expect("profile_program --library DIR: its mode", os.stat(library).st_mode & 0o7777 == 0o755)
        self.ends(0, "abc", "./linked", **{**self.followed("service"), "LD_PRELOAD": library})
        expect("a service: nothing is said", not self.err, self.err)
        self.runs(0, "*", "profile_program", "--read", "service")
        self.lines("^3001 ", "3001 1")
        self.runs(2, "", "profile_program", "--library", "reached", "./linked")

    def test_library_that_cannot_record(self):
        """It says so itself, once; the program goes on."""
        library, nowhere = self.library(), self.path("nowhere", "x")
        self.ends(0, "abc\nabc", "sh", "-c", "./linked; ./linked; :", MTE_STREAM=nowhere, LD_PRELOAD=library)
        expect("a stream that is not there: it is said once", self.err.count(f"MTE_STREAM={nowhere}: ") == 1, self.err)
        shutil.copy(self.path("linked"), self.path("linked.copy"))
        self.ends(0, "abc", "./linked", MTE_STREAM=self.path("linked.copy"), LD_PRELOAD=library)
        self.says("another file")
        with open(self.path("linked"), "rb") as one, open(self.path("linked.copy"), "rb") as other:
            expect("a file that is no stream stays", one.read() == other.read())

    def test_other_users(self):
        """The user of a service, and a library that another user has planted: it is not run, in a cache of his, in one that he can write, and
        where there is no home."""
        if os.geteuid() or checks.missing_tools("setpriv") or not any(each.pw_name == "nobody" for each in pwd.getpwall()):
            pytest.skip("without root or setpriv: a library planted by another user, and the user of a service")
        os.chmod(self.place, 0o711)
        library, nobody = self.path("served", "mte_tool_stream.so"), pwd.getpwnam("nobody").pw_uid
        os.mkdir(self.path("served"))
        self.runs(0, library, "profile_program", "--library", "served")
        given = {**self.followed("served.stream"), "LD_PRELOAD": library}
        self.ends(0, "abc", "./linked", **given)
        os.chown(self.path("served.stream"), nobody, -1)
        self.ends(0, "abc", "setpriv", "--reuid", "nobody", "--clear-groups", "env", *map("=".join, given.items()), "./linked")
        expect("a service of another user: nothing is said", not self.err, self.err)
        self.runs(0, "*", "profile_program", "--read", "served.stream")
        self.lines("^3001 ", "3001 2")
        self.ends(0, "abc", "./linked", **given)
        self.says("another user's file")
        planted = os.path.basename(self.library())
        self.compiled("planted.so", PLANTED, "-shared", "-fPIC")
        for name in ("his", "temporary/.cache"):
            os.makedirs(self.path(name, "mte_tool"))
            shutil.copy(self.path("planted.so"), self.path(name, "mte_tool", planted))
            for path in (self.path(name), self.path(name, "mte_tool"), self.path(name, "mte_tool", planted)):
                os.chown(path, nobody, -1)
        os.chown(self.path("his"), 0, -1)
        os.chmod(self.path("temporary"), 0o1777)
        none = {"XDG_CACHE_HOME": None, "HOME": None, "CC": checks.copying_compiler(self.path("copies"), self.path("cache"))}
        for more in ({"XDG_CACHE_HOME": self.path("his")}, {"TMPDIR": self.path("temporary")}, {"HOME": self.path("temporary")}, {"HOME": "relative"}):
            self.recorded(PROFILE, "./linked", **{**none, **more})
            expect(f"{more}: a library that another user planted is not run", "PLANTED" not in self.err, self.err)
            self.lines("^3001 ", "3001 1")
        for path in (self.path("his", "mte_tool"), self.path("his", "mte_tool", planted)):
            os.chown(path, 0, -1)
        os.chmod(self.path("his", "mte_tool"), 0o777)
        self.recorded(PROFILE, "./linked", **{**none, "XDG_CACHE_HOME": self.path("his")})
        expect("a library in a folder that others can change is not run", "PLANTED" not in self.err, self.err)

    def test_no_room(self):
        """A limit on files. The program goes on, and the reason is told."""
        for words in BOTH:
            self.recorded(words, "./linked", take=limit_files(20_000))
            for kibibytes in (1, 8):
                self.recorded(words, "./linked", status=3, take=limit_files(kibibytes))
                self.says("no room")
                self.has_own_output()

    def test_full_disk(self):
        small = self.path("small")
        os.mkdir(small)
        if subprocess.run(["mount", "-t", "tmpfs", "-o", "size=400k", "none", small], stderr=subprocess.DEVNULL).returncode:
            pytest.skip("without the right to mount: a full disk")
        self.after_test.callback(subprocess.run, ["umount", small])
        self.compile_recorders()
        self.write("small/ballast", bytes(360 << 10))
        for words in BOTH:
            self.recorded(words, "./linked", TMPDIR=small)
            self.has_own_output()
        self.runs(3, "", "profile_program", "--follow", "small/stream")
        self.says("no room")
        expect("a stream that has no room: nothing is left", os.listdir(small) == ["ballast"], os.listdir(small))
        self.compare_full_stream(small)

    def compare_full_stream(self, small: str) -> None:
        """A service whose stream has room for one process."""
        subprocess.run(["mount", "-o", "remount,size=3m", small], check=True)
        given = self.followed("small/stream")
        self.ends(0, "abc", "sh", "-c", "./linked; :", **given)
        expect("a stream that is full: nothing is said to the service", not self.err, self.err)
        self.ended("small/stream")
        said = self.read("small/stream.err")
        expect("a stream that is full: what is said", "for the file of the stream has no room for them (a full disk)" in said and "ulimit" not in said, said)

    def test_outputs(self):
        """They fail, or are closed."""
        self.recorded(PROFILE, "--said", "/dev/full", "./linked")
        expect("--said /dev/full", "write error" not in self.err, self.err)
        for script, *words in BOTH:
            path = os.path.join(SCRIPTS, script)
            with open("/dev/full", "wb") as full:
                expect(f"{script} {words}, to /dev/full", self.call(path, *words, "./linked", take={"stdout": full}) == 3)
                self.says("could not be written")
                expect(f"{script} --help, to /dev/full", self.call(path, "--help", take={"stdout": full}) == 3)
                self.says("can't be written")
            expect(f"{script} {words}, to a closed output", self.call(path, *words, "./linked", take=close_stream(1)) == 3)
            self.says("output is closed")
            expect(f"{script} {words}, to a closed output: nothing is run", "abc" not in self.err.split("\n"), self.err)
            expect(f"{script} {words}, without standard error", self.call(path, *words, "./linked", take=close_stream(2)) == 0)
            expect(f"{script} {words}, without standard error: its output", bool(self.out))

    def test_histories(self):
        """The live blocks after every so many requests, and at the peak."""
        history = ("profile_program", "--history=8")
        self.runs(0, EIGHT, *history, "./phases")
        self.runs(0, "snapshots 2\n501 0 24\n1001 1000 0", "profile_program", "--history=2", "./phases")
        self.runs(0, "snapshots 1\n1001 1000", "profile_program", "--history=1", "--peak", "peak", "./phases")
        expect("--peak", self.read("peak") == "1001 1000\n", self.read("peak"))
        self.runs(0, "snapshots 32\n*", "profile_program", "--history", "./phases")
        self.runs(0, EIGHT, "profile_program", "--history=08", "./passes", "./phases")
        self.runs(1, EIGHT, *history, "./phases", "kill")
        self.runs(0, EIGHT, *history, "--only", "phases", "sh", "-c", "./phases; :")
        self.recorded(history, "sh", "-c", "./phases; :")
        self.says("--history counted one process")
        first, *rows = [list(map(int, line.split()[1:])) for line in self.runs(0, "snapshots *", *history, "./phases", "threads").splitlines()]
        most = max(max(row) for row, line in zip(rows, self.out.splitlines()[1:]) if line.startswith("1001 "))
        expect("--history of four threads", first[0] > 4 and {len(row) for row in rows} == {first[0]} and 900 < most <= 4000, self.out)
        self.runs(0, "snapshots *", "profile_program", "--history=4", "./linked")
        expect("--history ./linked", bool(re.search("(?m)^3001( [01]){2,4}$", self.out)), self.out)
        self.runs(3, "", "profile_program", "--history", "./inside")
        for words in (["--history=0"], ["--history=65"], ["--history=x"], ["--history="], ["--peak", "x"], ["--live", "--peak", "x"]):
            self.runs(2, "", "profile_program", *words, "./phases")
        with open("/dev/full", "wb") as full:
            expect("--history, to /dev/full", self.call(os.path.join(SCRIPTS, "profile_program"), "--history", "./phases", take={"stdout": full}) == 3)
        self.says("No space left")
        self.runs(3, "*", "profile_program", "--history", "--peak", self.path("nowhere", "x"), "./phases")
        self.says("can't be written")

    def test_history_of_a_service(self):
        """Read while it runs, and again after it was killed."""
        given = self.followed("running", "--history=8")
        service = self.started("./phases", "wait", until="", **given)
        for _ in range(100):
            self.call(os.path.join(SCRIPTS, "profile_program"), "--read", "running")
            if self.out.rstrip("\n") == EIGHT:
                break
            time.sleep(0.1)
        self.runs(0, EIGHT, "profile_program", "--read", "running")
        service.kill()
        service.wait()
        self.ends(0, "", "./phases", **given)
        self.runs(0, EIGHT, "profile_program", "--read", "running")
        self.says("--live counted one process")
        expect("a history at the end", self.ended("running") == f"{EIGHT}\n", self.read("running.out"))

    def test_world(self):
        """What the program is given is as ever: the environment but for the library's variables, also where that names no language; its
        descriptors, which signals it ignores, and no more. The scripts are found from where they are, whatever the PATH and the folder
        have."""
        other, few = self.path("other"), self.path("few")
        os.makedirs(f"{other}/mte_scripts/recording")
        os.mkdir(few)
        for name in ("__init__", "recording/recording", "text_files"):
            self.write(f"other/mte_scripts/{name}.py", 'print("PLANTED")\n')
        self.compile_recorders()
        given = ["bash", "-c", WORLD, "given"]
        self.ends(0, "*", *given, take={"cwd": other})
        alone = self.out
        for script, *words in BOTH:
            command = [sys.executable, os.path.join(SCRIPTS, script), *words]
            self.ends(0, "*", *given, *command, "--", take={"cwd": other})
            seen = "".join(line for line in self.err.splitlines(True) if not OWN_WORDS.match(line))
            expect(f"{script} {words}: the program's world", seen == alone, seen, "and not", alone)
            self.ends(0, "*", *command, self.path("linked"), take={"cwd": other}, PATH=few)
            expect(f"{script} {words}: its own modules", "PLANTED" not in self.out + self.err, self.out, self.err)

    def test_hostile(self):
        """Output and status as alone; and the counts are right, or it is said what they are not of."""
        os.chmod(self.place, 0o711)
        for word, (wanted, said) in HOSTILE.items():
            if word in OF_ROOT and os.geteuid():
                continue
            status, alone = self.call("./hostile", word), self.out + self.err
            for words in (PROFILE, ("profile_program", "--timeline")):
                script = self.call(os.path.join(SCRIPTS, words[0]), *words[1:], "./hostile", word)
                seen = "".join(line for line in self.err.splitlines(True) if not OWN_WORDS.match(line))
                good = seen == alone and script == (status != 0) and (not status or f"ended with status {status}" in self.err)
                expect(f"{words} hostile {word}: as alone", good, script, status, self.err, "and not", alone)
                if words == PROFILE:
                    counted = re.findall("(?m)^3333 (.*)$", self.out)
                    good = re.search("(?m)^100 [0-9]+$", self.out) if wanted is None else counted == [str(wanted)]
                    expect(f"{words} hostile {word}: its requests", bool(good), counted, self.err)
                    expect(f"{words} hostile {word}: what is said", said in self.err and ("some" in self.err) == ("for" in said), self.err)
                else:
                    events = collections.Counter(self.out.split())
                    expect(f"{words} hostile {word}: its events", events["3333"] == events["-3333"], events["3333"], events["-3333"])

    def profile_of(self, library: str, wanted: str, *program: str) -> str:
        """What the reader counts of a program that runs with a library."""
        shared = os.memfd_create("mte_found", 0)
        words = [self.path("reader"), str(shared), self.path(library), wanted, "", "", "", self.path(program[0]), *program]
        subprocess.run(words, cwd=self.place, stdin=subprocess.DEVNULL, capture_output=True, close_fds=False)
        with contextlib.closing(os.fdopen(shared)):
            return recording.ReaderResult(shared).texts().profile.decode()

    def test_counts(self):
        """Counters have what records have: of more threads than have counters of their own, forks, handlers, programs in
        the place of others, another allocator."""
        shims = f"{SCRIPTS}/shims"
        for name, *flags in (("follow", "-o", "reader"), ("stream", *SHARED, "stream.so"), ("counts", *SHARED, "counts.so")):
            subprocess.run(["cc", "-O2", "-w", "-fno-builtin", f"{shims}/{name}.c", *flags, "-ldl"], cwd=self.place, check=True)
        words = ("threads", "tree", "storm", "vfork", "handlers", "thread executes", "filtered forks")
        programs = [*(("hostile", word) for word in words), ("events", "words"), ("phases", "threads"), ("linked",), ("wrong", "r"),
                    ("passes", "./linked")]
        for program in programs:
            recorded, counted = (self.profile_of(*which, *program) for which in (("stream.so", "all"), ("counts.so", "counts")))
            expect(f"{program}: counters have what records have", recorded and recorded == counted, recorded, "and not", counted)

    def test_overwritten(self):
        """A program overwrites the stream: its head, the places of its ring, the records, or the counters."""
        for words in (*BOTH, ("profile_program", "--history"), ("profile_program", "--timeline")):
            self.recorded(words, "./overwrites", "nothing")
            for place in ("head", "form", "start", "next", "read", "counters" if words == PROFILE else "kind"):
                self.recorded(words, "./overwrites", place, status=3)
                self.says("./overwrites overwrote what was recorded")
        self.write("overwrites.py", OVERWRITES_NOTES)
        for words in BOTH:
            self.recorded(words, "python3", "overwrites.py", status=3)
            self.says("python3 overwrote what was recorded")

    def test_timelines(self):
        """Each request and each free, in their order; a realloc is a free and a request."""
        timeline = ("profile_program", "--timeline")
        events = f"timeline\n11\n22\nlarge\n-11\n33\n-22\n{LARGEST}\n-large\n-{LARGEST}\n-33\n0\n-0\n176\n-176\nlarge"
        self.runs(0, events, *timeline, "./events", "words")
        phases = "timeline" + "\n1001" * 1000 + "\n-1001" * 1000 + "\n501" * 1000
        self.runs(0, phases, *timeline, "--peak", "peak", "./phases")
        expect("--timeline --peak", self.read("peak") == "1001 1000\n", self.read("peak"))
        self.runs(1, phases, *timeline, "./phases", "kill")
        self.runs(0, phases, *timeline, "--only", "phases", "sh", "-c", "./phases; :")
        self.runs(0, phases, *timeline, "./passes", "./phases")
        self.runs(0, "timeline\n*", *timeline, "./forks")
        self.lines("^-?(601|701|801)$", "601", "-601")
        self.says("processes: 1, requests: 2")
        self.runs(0, "timeline\n*", *timeline, "./linked")
        self.lines("^-?(1001|2100|3001|5001)$", "1001", "2100", "-1001", "3001", "-3001", "-2100")
        self.runs(3, "", *timeline, "./inside")
        for words in (["--timeline", "--history"], ["--timeline=8"], ["--timeline", "--peak"]):
            self.runs(2, "", "profile_program", *words)
        self.runs(0, "timeline\n*", *timeline, "./phases", "threads")
        live, least, lines = 0, 0, self.out.splitlines()[1:]
        for line in lines:
            live += {"1001": 1, "-1001": -1}.get(line, 0)
            least = min(least, live)
        expect("--timeline of four threads: each block is requested before it is freed", least == live == 0 and len(lines) > 160_000, len(lines))

    def test_order_of_threads(self):
        """A call stands before an earlier one of another thread only where its own thread made few calls since."""
        events = self.runs(0, "timeline\n*", "profile_program", "--timeline", "./ordered").splitlines()
        order = re.search("^[0-3]{40000}", self.err)[0]
        sizes = {"3000": "0", "3001": "1", "3002": "2", "3003": "3"}
        found = "".join(sizes[event] for event in events if event in sizes)
        expect("the requests of each thread", collections.Counter(found) == collections.Counter(order))
        places = {each: [at for at, thread in enumerate(order) if thread == each] for each in "0123"}
        seen, most = dict.fromkeys(places, 0), 0
        for thread in found:
            at = places[thread][seen[thread]]
            seen[thread] += 1
            later = [seen[each] - bisect.bisect(places[each], at) for each in places]
            most = max(most, *later)
        expect("calls that stand before an earlier one", most < STRIDE, most)

    def test_long_timelines(self):
        """Where the text would be too long: the moments at which the classes have the most blocks, also those of the last piece. The windows
        of these runs have no others."""
        timeline = ("profile_program", "--timeline")
        self.runs(0, FOUR, *timeline, "--peak", "peak", "./events", "n", "5200000", "0")
        self.says("a history of 4 of its moments")
        expect("--timeline --peak of a history", self.read("peak") == "1001 1000\n", self.read("peak"))
        self.runs(1, FOUR, *timeline, "./events", "kill", "2600000", "2600000")

    def test_timeline_of_a_service(self):
        """Read while it runs, and again after it was killed."""
        for times in ("0", "5200000"):
            name = f"timed{times}"
            service = self.started("./events", "pause", times, until="waiting", **self.followed(name, "--timeline"))
            for _ in range(100):
                wanted = self.runs(0, "*", "profile_program", "--read", name)
                if re.search("(?m)^501( |$)", self.out):
                    break
                time.sleep(0.1)
            self.lines("^501( |$)", *(["501"] * 1000 if times == "0" else ["501 0 0 0 1000"]))
            service.kill()
            service.wait()
            expect(f"a service that was killed, {times}", self.runs(0, "*", "profile_program", "--read", name) == wanted, self.out[-200:])
            expect(f"a service at the end, {times}", self.ended(name) == wanted)

    def test_classes(self):
        """A history of the moments at which the classes of a table have the most blocks; the second class has 401 and 501 bytes."""
        table = ("profile_program", "--classes", "in_use")
        self.write("in_use", "classes 2 40 70 1000\n")
        self.runs(0, "snapshots 2\n401 0 1000\n1001 1000 0", *table, "--peak", "peak", "./events", "n")
        expect("--classes --peak", self.read("peak") == "1001 1000\n" and not self.err, self.read("peak"), self.err)
        self.write("in_use", "classes 2 30 40 70\n")
        self.runs(1, FOUR, *table, "./events", "kill", "600000", "600000")
        self.ends(0, "", "./events", "n", "10", **self.followed("classes", "--classes", "in_use"))
        self.runs(0, FOUR, "profile_program", "--read", "classes")
        self.write("monday.history", self.ended("classes"))
        self.write("tuesday.history", self.runs(0, "snapshots 2\n*", *table, "./phases"))
        self.runs(0, "snapshots 6\n*", "merge_profiles", "monday.history", "tuesday.history")
        self.write("empty", "classes\n")
        self.runs(2, "", "profile_program", "--classes", "empty", "./phases")
        self.says("has no class")
        for words in (["in_use", "--history"], ["in_use", "--classes", "in_use"], ["nowhere"], ["events.c"]):
            self.runs(2, "", "profile_program", "--classes", *words, "./events", "n")

    def test_measured(self):
        """What the process takes of memory, in bytes."""
        for word in ("--live", "--timeline", "--history"):
            self.runs(0, "*", "profile_program", word, "--measured", "measured", "./fills")
            found = dict(map(str.split, self.read("measured").splitlines()))
            expect(f"{word} --measured: large", found.get("large") == "3145728", found)
            expect(f"{word} --measured: resident", 40_000_000 < int(found.get("resident", 0)) < 48_000_000, found)
        self.runs(2, "", "profile_program", "--measured", "measured", "./fills")
        self.runs(3, "*", "profile_program", "--live", "--measured", "nowhere/x", "./fills")

    def reader_of(self, stream: str) -> int:
        """The process that reads a service's stream."""
        with open(self.path(stream), "rb") as file:
            return int.from_bytes(file.read(16)[8:], "little")

    def behind(self, name: str) -> "tuple[subprocess.Popen, int]":
        """A service that requests more than the stream takes, while its reader is stopped; and the reader."""
        given = self.followed(name)
        reader = self.reader_of(name)
        os.kill(reader, signal.SIGSTOP)
        self.after_test.callback(go_on, reader)
        service = self.started("./events", "n", "200000", until="", **given)
        until = time.monotonic() + 60
        while state_of(service.pid)[0] != "S" and time.monotonic() < until:
            time.sleep(0.05)
        return service, reader

    def test_reader_behind(self):
        """A program that waits for the reader takes no processor time, and goes on with it; and at once where it was killed."""
        service, reader = self.behind("behind")
        before = state_of(service.pid)[1]
        time.sleep(1)
        expect("a program that waits takes no time", state_of(service.pid)[1] - before <= 10, before, state_of(service.pid))
        expect("a program that waits has not ended", service.poll() is None)
        os.kill(reader, signal.SIGCONT)
        expect("a program that has waited: its status", service.wait() == 0)
        found = dict(line.split() for line in self.ended("behind").splitlines())
        expect("a program that has waited: its requests", found.get(str(LARGEST)) == "200000", found)
        service, reader = self.behind("killed")
        os.kill(reader, signal.SIGKILL)
        begin = time.monotonic()
        expect("a program whose reader was killed: its status", service.wait() == 0)
        took = time.monotonic() - begin
        expect("a program whose reader was killed goes on within some seconds", took < 5, took)
        expect("--follow of a reader that was killed: its status", self.script.wait() == 3)
        os.remove(self.path("killed"))

    def test_without_the_recorder(self):
        """Another program in the place of the first."""
        self.recorded(LIVE, "env", f"LD_PRELOAD={self.path('libown.so')}", "./passes", "./linked")
        self.says("ran another program in its own place, without the recorder")
        for words in (["env", "./linked"], ["./passes", "./linked"], ["sh", "-c", "./linked"], ["./passes", "nowhere"]):
            self.call(os.path.join(SCRIPTS, "profile_program"), "--live", *words)
            expect(f"{self.name}: with the recorder", "without the recorder" not in self.err, self.err)

    def test_terminal(self):
        """A line of how far it is, on a terminal alone."""
        ours, its = pty.openpty()
        self.after_test.callback(os.close, ours)
        script = os.path.join(SCRIPTS, "profile_program")
        with open(its, "wb") as terminal:
            self.call(script, "--live", "./slow", take={"stdout": subprocess.DEVNULL, "stderr": terminal})
            seen = os.read(ours, 1 << 16).decode()
        expect("the line on a terminal", bool(re.search(r"[1-3] s, [0-9]+ requests, 1\.5 MiB live", seen)), seen)
        self.recorded(LIVE, "./slow")
        expect("no line where there is no terminal", " s, " not in self.err, self.err)

    def test_closed_terminal(self):
        """What was recorded counts where the terminal is closed meanwhile."""
        for script, *words in BOTH:
            ours, its = pty.openpty()
            with open(its, "wb") as terminal, open(self.path("out"), "wb") as out:
                program = subprocess.Popen([os.path.join(SCRIPTS, script), *words, "./slow"], cwd=self.place, stdout=out, stderr=terminal)
            time.sleep(0.5)
            os.close(ours)
            expect(f"{script} {words}: its status", program.wait() == 0, program.returncode)
            expect(f"{script} {words}: what was recorded", self.read("out") != "")

    def cost(self, wanted: str, events: int) -> float:
        """The reader's instructions for each of so many events of a program with blocks at random, as callgrind counts them."""
        shared, out = os.memfd_create("mte_found", 0), self.path("callgrind.out")
        words = ["valgrind", "-q", "--tool=callgrind", f"--callgrind-out-file={out}.%p", self.path("reader"), str(shared)]
        program = [self.path("at_random"), "at_random", str(events)]
        self.ends(0, "", *words, self.path("library.so"), wanted, "", "", "", *program, take={"close_fds": False})
        os.close(shared)
        [counted] = [text for path in glob.glob(f"{out}.*") if "summary: " in (text := self.read(path))]
        for path in glob.glob(f"{out}.*"):
            os.remove(path)
        return int(re.search("(?m)^summary: ([0-9]+)", counted)[1]) / events

    def test_cost_of_the_reader(self):
        """Requests and frees of small blocks, which most are, cost it few instructions."""
        checks.need("valgrind", "what the reader's events cost")
        examples = os.path.join(os.path.dirname(SCRIPTS), "examples/over_time")
        for name, source, *flags in (
            ("reader", f"{SCRIPTS}/shims/follow.c", "-O2"), ("library.so", f"{SCRIPTS}/shims/stream.c", "-O2", "-shared", "-fPIC", "-ldl"),
            ("at_random", f"{examples}/random_sizes.c", "-O1"),
        ):
            words = ["cc", "-w", "-fno-builtin", source, "-o", self.path(name), *flags]
            subprocess.run(words, check=True, stdin=subprocess.DEVNULL)
        # 56, 179 and 264 (2026-11-30); 109, 295 and 469 where each event goes the long way
        for wanted, most in (("all", 85), ("live", 235), ("timeline", 360)):
            found = checks.least(lambda wanted=wanted: self.cost(wanted, 300_000), most)
            expect(f"the reader's instructions for an event, {wanted}", found <= most, found)
