"""A toolchain that proves nothing and says which crates it would, for the tests of scripts/mte_tool, and a repository without a program.

What it compiles is a script: `built` of the folder of the test once it is proved, and `tried` without a proof. A file in that folder changes
what it does: `refused` is a failed proof, `untried` no answer without one, `slow` names the crate whose proof has no end, `edit` is a source
that is edited meanwhile."""

import os
import re
import shutil
import signal
import subprocess
import time

import commands
from checks import expect
from mte_scripts.places import SCRIPTS

BELOW = {"low": "", "middle": "low", "left": "middle", "right": "middle", "far": "middle", "high": "left right far"}
BELOW.update(other="low", mte_tool="high")
PROVED = ("far", "high", "left", "low", "middle", "right")  # on a first build
RT = r"""#!/usr/bin/env bash
hangs() {
    [ "$(cat "$WORK/slow" 2>/dev/null)" = "${PWD##*/}" ]
}

hang() {
    mktemp -d >/dev/null
    sleep 60 &
    echo "$$ $!" >"$WORK/pids"
    wait
}

if [ "$1" = try ]; then
    [ ! -e "$WORK/untried" ] || { printf 'interpreter: no-answer\nrun=none proved=no\n' >&2; exit 6; }
    sh "$WORK/tried" "${@:3}"
    status=$?
    printf 'checked: ended status=%s\nrun=ended status=%s runners=1 proved=no\n' "$status" "$status" >&2
    exit "$status"
fi
[ "$1" != version ] || { echo 'kit-of-the-test logic 1234'; exit; }
[ ! -e "$WORK/refused" ] || { echo 'high: not proved' >&2; exit 1; }
if [ "$1" = lib ]; then
    for crate in ../*; do
        [ "$crate" = "../${PWD##*/}" ] || [ -e "$crate/out/rlib/made" ] || { echo "${crate##*/} is not built" >>"$WORK/proofs"; exit 1; }
    done
    sleep 0.1
    kept=$(ls -d out/incremental/kept 2>/dev/null)
    mkdir -p out/rlib out/incremental
    touch out/incremental/kept
    ! hangs || hang
    touch out/rlib/made
    echo "${PWD##*/} $* $kept" >>"$WORK/proofs"
    exit
fi
echo built >>"$WORK/builds"
case $* in *--jobs*) ;; *) echo 'rt: chose --jobs 2 for mte_tool' ;; esac
mkdir -p out
if hangs; then
    printf '#!/bin/sh\necho half\n' >out/mte_tool
    chmod +x out/mte_tool
    hang
fi
[ ! -e "$WORK/edit" ] || { echo >>src/main.rt; rm "$WORK/edit"; }
sleep 0.3
(echo '#!/bin/sh' && cat "$WORK/built") >out/mte_tool
chmod +x out/mte_tool
"""


MINUTES = re.compile(r"about \d+ minutes?\b")


def timeless(said: str) -> str:
    """What is said, with 2 minutes wherever it says how long a build takes: that goes by the memory that is free, and by what else runs."""
    return MINUTES.sub("about 2 minutes", said)


def alive(process: str) -> bool:
    """Whether a process runs, and is no zombie."""
    try:
        with open(f"/proc/{process}/status") as file:
            return "\nState:\tZ" not in file.read()
    except OSError:
        return False


def wait_for(condition, seconds: float) -> bool:
    end = time.monotonic() + seconds
    while not condition() and time.monotonic() < end:
        time.sleep(0.1)
    return condition()


class Repository(commands.Commands):
    def setup_method(self):
        """A repository of crates without a program."""
        self.place = self.folder()
        self.environment = {name: value for name, value in self.environment.items() if name != "MTE_TOOL_BUILD"}
        os.makedirs(self.path("repo", "scripts"))
        for name in ("mte_tool", "step"):
            shutil.copy(os.path.join(SCRIPTS, name), self.path("repo", "scripts"))
        shutil.copytree(os.path.join(SCRIPTS, "mte_scripts"), self.path("repo", "scripts", "mte_scripts"))
        for crate in BELOW:
            os.makedirs(self.path("repo", "crates", crate, "src"))
        self.write("repo/crates.txt", "".join(f"{crate}: {below}".rstrip() + "\n" for crate, below in BELOW.items()))
        self.write("repo/HANDLES", "")
        os.mkdir(self.path("bin"))
        self.write("bin/rt", RT, 0o755)
        self.write("built", 'echo "$@"\n')
        self.write("tried", 'echo "$@"\n')
        self.launcher = self.path("repo", "scripts", "mte_tool")
        self.program = self.path("repo", "crates", "mte_tool", "out", "mte_tool")
        self.with_rt = {"WORK": self.place, "PATH": f"{self.path('bin')}:{os.environ['PATH']}"}

    def launched(self, status: int, out: str, *words: str, says: "str | tuple[str, ...]" = (), **more) -> None:
        """What the launcher prints for these words, and what it SAYS, which stays in `err`."""
        got = self.call(self.launcher, *words, **{**self.with_rt, **more})
        expect(f"mte_tool {' '.join(words)}: {status} and {out!r}", (got, self.out.rstrip("\n")) == (status, out), got, self.out, self.err)
        self.says(*([says] if isinstance(says, str) else says))

    def call(self, *words: str, **more) -> int:
        status = super().call(*words, **more)
        self.err = timeless(self.err)
        return status

    def edit(self, *names: str) -> None:
        """Another line at the end of a file of the repository, which may be new."""
        with open(self.path("repo", *names), "a") as file:
            file.write("// a line\n")

    def cut_off(self, number: int, crate: str, *words: str, to: int = subprocess.PIPE) -> "tuple[int, str, str]":
        """The status and the output of the launcher where this signal ends it amid the proof of a crate; it must leave no process."""
        self.write("slow", crate)
        self.write("pids", "")
        with self.started(*words, to=to) as run:
            wait_for(lambda: self.read("pids").endswith("\n"), 60)
            children = self.read("pids").split()
            run.send_signal(number)
            out, err = run.communicate(timeout=60)
        os.remove(self.path("slow"))
        name = signal.Signals(number).name
        ends = wait_for(lambda: not any(map(alive, children)), 20)
        expect(f"cut off by {name}: its build ends", len(children) == 2 and ends, children)
        gone = wait_for(lambda: not os.listdir(self.path("temporary")), 20)
        expect(f"cut off by {name}: no temporary file", gone, os.listdir(self.path("temporary")))
        return run.returncode, out, timeless(err or "")

    def started(self, *words: str, to: int = subprocess.PIPE) -> subprocess.Popen:
        """The launcher in the background, with a folder of its own for temporary files."""
        os.makedirs(self.path("temporary"), exist_ok=True)
        variables = {**self.environment, **self.with_rt, "TMPDIR": self.path("temporary")}
        words = (self.launcher, *words)
        return subprocess.Popen(words, cwd=self.place, stdin=subprocess.DEVNULL, stdout=to, stderr=to, env=variables, text=True)
