#!/usr/bin/env -S python3 -B
"""A clone in a clean distribution, without the kit: the first commands of the documents as they are typed, with their times.

  clean_clone.py FOLDER [SUITE [MIRROR]]    makes a clean Debian (bookworm) in FOLDER by mmdebstrap, as root and from its mirror, or another
                                            suite; then with Python alone, with gcc too, with nodejs in place of gcc, and with both

A command that ends otherwise than it should ends this with status 1. `MIRROR` is as apt has it: `http://archive.ubuntu.com/ubuntu noble main
universe` of Ubuntu is a line that begins with `deb`."""

import os
import resource
import subprocess
import sys
import time

from mte_scripts.places import ROOT

APT = "apt-get install -qq -y --no-install-recommends"
SHEET = "scripts/check_sheet sqlite3.tuned/fitted.fit sqlite3.tuned/program.timeline"
RUN = "scripts/mte_tool run --limit 8 --granules 262144 < examples/sqlite.trace | tail -n 1"
TUNE = "scripts/tune_program sqlite3 :memory: < examples/sqlite_large.sql"
AGAIN = TUNE.replace("program ", "program --output {} ")
READ = "scripts/tune_program --read examples/jq.profile"
LIBRARY = "/opt/mte_tool"
C = f"cc -I{LIBRARY}/include examples/callers/check_sheet.c {LIBRARY}/lib/libmte_tool.a"
PYTHON = f"PYTHONPATH=python MTE_TOOL_LIBRARY={LIBRARY}/lib/libmte_tool.so python3 -B examples/callers/tune.py 8 < examples/jq.profile"
HIDE = "mkdir /root/hidden && mv /usr/bin/*gcc* /usr/bin/cc /root/hidden && rm -r ~/.cache"
SHOW = "mv /root/hidden/* /usr/bin && rm -r ~/.cache"
GCC = "apt install gcc libc6-dev"
TRACED, FAULTS = "scripts/traced_cc examples/errors/cwe122_loop_bound.c -o loop", "scripts/find_faults ./loop"
CHECKER = "node examples/checker/check.js check docs/checker.wasm jq.sheet examples/jq.profile"
# a byte of what is packed, or of a file as it is, is another one
CHANGE = """python3 -c 'import gzip, sys
for path in sys.argv[1:]:
    data = bytearray((gzip.open if path.endswith(".gz") else open)(path, "rb").read())
    data[len(data) // 2] ^= 1
    (gzip.open if path.endswith(".gz") else open)(path, "wb").write(data)' modules/program.wasm.gz docs/checker.wasm docs/page.html"""
CHANGED = "not the one of its manifest"
# what a machine without a compiler can't do
WITHOUT = ((AGAIN.format("third"), 3, GCC), ("scripts/find_faults /bin/true", 3, GCC), (f"scripts/library {LIBRARY}.other", 3, GCC))
# the packages that are installed first, and the commands: what is typed, the status, and what it prints on either output
STEPS = (
    ("python3 sqlite3", ((RUN + "; exit ${PIPESTATUS[0]}", 3, GCC), ("scripts/mte_tool -V", 3, GCC), *WITHOUT)),
    ("gcc libc6-dev", (
        (TUNE, 0, "least footprint"), (AGAIN.format("again"), 0, "least footprint"), ("scripts/mte_tool -V", 0, "Proved by the project"), (RUN, 0, "loss 334351"),
        (SHEET, 0, "optimal"),
        (TRACED, 0, ""), (FAULTS, 1, "cwe122_loop_bound.c"),
        (f"scripts/library {LIBRARY}", 0, "built in"), (C, 0, ""), ("scripts/mte_tool tune --limit 8 < examples/jq.profile > jq.sheet", 0, ""),
        ("./a.out jq.sheet examples/jq.profile", 0, "optimal"), (PYTHON, 0, "classes"))),
    ("nodejs", (
        (HIDE, 0, ""), ("scripts/mte_tool -V", 0, "Node"), (RUN, 0, "loss 334351"), (READ, 0, "least waste"), (SHEET, 0, "optimal"), (CHECKER, 0, "optimal"),
        *WITHOUT,
        (SHOW, 0, ""), (RUN, 0, "Node runs the engines"), (AGAIN.format("fourth"), 0, "least footprint"), (TRACED, 0, ""), (FAULTS, 1, "cwe122_loop_bound.c"),
        (HIDE.replace("mkdir", "mkdir -p"), 0, ""), (CHANGE, 0, ""), ("scripts/mte_tool -V", 3, CHANGED), (RUN + "; exit ${PIPESTATUS[0]}", 3, CHANGED),
        (CHECKER, 3, CHANGED), ("scripts/page > page.html", 3, CHANGED))),
)  # fmt: skip


def run_inside(folder: str, command: str) -> "tuple[int, str, str]":
    """Runs a shell's command there: its status, what it printed, and its time, by the clock and the processor's."""
    environment = {"PATH": "/usr/sbin:/usr/bin:/sbin:/bin", "HOME": "/root", "DEBIAN_FRONTEND": "noninteractive", "LC_ALL": "C.UTF-8"}
    alone = ["unshare", "--mount", "--pid", "--fork", "--kill-child", f"--root={folder}", "--mount-proc", "--wd=/root/clone"]
    began = time.monotonic(), processor_time()
    done = subprocess.run([*alone, "bash", "-c", command], env=environment, stdin=subprocess.DEVNULL, stdout=subprocess.PIPE,
                          stderr=subprocess.STDOUT, text=True, errors="replace")  # fmt: skip
    return done.returncode, done.stdout, f"{time.monotonic() - began[0]:6.1f} s ({processor_time() - began[1]:.1f} s)"


def processor_time() -> float:
    """Of the commands that have ended."""
    used = resource.getrusage(resource.RUSAGE_CHILDREN)
    return used.ru_utime + used.ru_stime


def try_steps(folder: str) -> int:
    """How many of the commands end otherwise than they should; prints a line of each."""
    wrong = 0
    for packages, commands in STEPS:
        for command, wanted, text in ((f"{APT} {packages}", 0, ""), *commands):
            status, said, seconds = run_inside(folder, command)
            is_good = status == wanted and text in said
            print(f"{seconds}, status {status}: {command}", *[said[-900:]] * (not is_good), sep="\n", flush=True)
            wrong += not is_good
    return wrong


def main(words: "list[str]") -> int:
    if not 1 <= len(words) <= 3:
        print(__doc__, file=sys.stderr)
        return 2
    folder, *suite = words
    if not os.path.isdir(folder):
        subprocess.run(["mmdebstrap", "--variant=apt", suite[0] if suite else "bookworm", folder, *suite[1:]], check=True)
    subprocess.run(["git", "clone", "-q", ROOT, f"{folder}/root/clone"], check=True)
    run_inside(folder, "apt-get -qq update")
    return 1 if try_steps(folder) else 0


if __name__ == "__main__":
    sys.exit(main(sys.argv[1:]))
