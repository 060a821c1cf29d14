"""Proves the crates below a program side by side, until the program is built for the first time: `step first_build FOLDER PROGRAM`.

FOLDER is the repository, PROGRAM the crate of the program. rt has a lock on a crate and on all crates below it, so it proves one crate at a
time in a folder. Here each crate is proved in a copy of its own, with links to the libraries below it, as soon as these are built. A proof
with several jobs takes two fifths more processor time. So a crate has one job, and gives way to that with the longest chain of others above
it, which has as many jobs as there are lanes. What the program alone stands on begins once all others have begun. What rt keeps is moved to
the repository, also where the build is cut off, and from there to the copy of the next build, which goes on with it.
Standard error counts the crates, of which the program itself, left to rt, is the last, and says about how long the others take; standard
output has what rt said. `step first_build` alone prints how many lanes there are, and with the word `minutes` after PROGRAM about how long
all takes.
"""

import os
import re
import shutil
import subprocess
import sys
import tempfile
import time
from pathlib import Path

from mte_scripts.builds.crate_list import CrateList

MEMORY_OF_A_PROOF = 4 << 30

# What a proof took, in seconds of a processor: any crate, each line of code, and the program, which loads what it stands on. Then how much
# more several took side by side, and how much sooner one ended that had all of four lanes.
ANY_CRATE, A_LINE, A_PROGRAM, SIDE_BY_SIDE, ALL_LANES = 6, 0.1, 130, 1.2, 2
# the seconds of this build after which its own pace counts as much as that
PACE = 120

# the words before a command that leaves the processor to others that want it
GIVES_WAY = ["nice", "-n", "5"]


def lanes() -> int:
    """As many as there are cores, and memory for each."""
    free = 1024 * int(re.search(r"MemAvailable: *(\d+)", Path("/proc/meminfo").read_text())[1])
    return max(1, min(len(os.sched_getaffinity(0)), free // MEMORY_OF_A_PROOF))


def lines(folder: str) -> int:
    """The lines of a crate's code, by which the time of its proof is guessed."""
    files = [os.path.join(at, name) for at, _, names in os.walk(os.path.join(folder, "src")) for name in names]
    return sum(Path(file).read_bytes().count(b"\n") for file in files)


def chains(below: "dict[str, list[str]]", length: "dict[str, float]") -> "dict[str, float]":
    """For each crate the longest chain from it up to the program, its own length included."""
    longest: "dict[str, float]" = {}
    for name in reversed(list(below)):
        above = [longest[other] for other in below if name in below[other]]
        longest[name] = length[name] + max(above, default=0)
    return longest


class Proof:
    """A crate that is being proved, in a copy."""

    def __init__(self, crates: CrateList, name: str, folder: str, jobs: int, way: "list[str]") -> None:
        self.crates, self.name = crates, name
        self.copy = os.path.join(folder, name)
        self.place = os.path.join(self.copy, "crates", name)
        below = crates.below([name])
        crates.copy(list(below), self.copy)
        if os.path.isdir(kept := os.path.join(crates.folder(name), "out")):
            os.rename(kept, os.path.join(self.place, "out"))
        for library in [os.path.join("crates", it, "out", "rlib") for it in below if it != name]:
            shutil.copytree(os.path.join(crates.root, library), os.path.join(self.copy, library), copy_function=os.link)
        self.said = tempfile.TemporaryFile()
        self.jobs, self.begun = jobs, time.monotonic()
        how: dict = {"cwd": self.place, "stdin": subprocess.DEVNULL, "stdout": self.said, "stderr": subprocess.STDOUT}
        self.run = subprocess.Popen([*way, "rt", "lib", "--jobs", str(jobs)], **how)

    def end(self) -> int:
        """Waits for rt, moves what it has kept to the repository, and returns its status."""
        status = self.run.wait()
        put_back(self.crates, self.name, self.copy)
        self.said.seek(0)
        sys.stdout.buffer.write(b"== %s\n%s" % (self.name.encode(), self.said.read()))
        sys.stdout.flush()
        return status


def put_back(crates: CrateList, name: str, copy: str) -> None:
    """Moves what rt has kept of a crate in its copy to the repository, and removes the copy."""
    kept, place = os.path.join(copy, "crates", name, "out"), os.path.join(crates.folder(name), "out")
    for part in os.listdir(kept) if os.path.isdir(kept) else []:
        if not os.path.exists(os.path.join(place, part)):
            os.makedirs(place, exist_ok=True)
            os.rename(os.path.join(kept, part), os.path.join(place, part))
    shutil.rmtree(copy, ignore_errors=True)


class Build:
    """The proofs of all crates below a program."""

    def __init__(self, crates: CrateList, program: str, lanes: int) -> None:
        self.crates, self.program, self.lanes, self.below = crates, program, lanes, crates.below([program])
        self.folder = os.path.join(crates.folder(program), "out", "first_build")
        length: "dict[str, float]" = {name: lines(crates.folder(name)) for name in self.below}
        self.chain = chains(self.below, length)
        self.left = sorted(set(self.below) - {program}, key=self.chain.get, reverse=True)
        # what only the program stands on
        self.last = set(self.left).difference(*(self.below[it] for it in self.left))
        self.running: "dict[int, Proof]" = {}
        self.proved: "set[str]" = set()
        self.work = {name: ANY_CRATE + A_LINE * length[name] for name in self.below}
        self.work[program] += A_PROGRAM
        for name in self.left:
            if os.path.exists(os.path.join(crates.folder(name), "out", "rlib", "stamp")):
                self.work[name] = 0  # an earlier run has proved it, and rt only looks at it
        self.begun, self.whole = time.monotonic(), self.expected()

    def expected(self) -> float:
        """The seconds that what is left takes on the machine that was measured."""
        left = {name: 0 if name in self.proved else work for name, work in self.work.items()}
        for proof in self.running.values():
            passed = (time.monotonic() - proof.begun) * (ALL_LANES if proof.jobs > 1 else 1)
            left[proof.name] = max(left[proof.name] / 10, left[proof.name] - passed)
        last = left[self.program]
        sooner = min(self.lanes, ALL_LANES)
        chain = (max(chains(self.below, left).values()) - last) / sooner + last
        return max(chain, sum(left.values()) / self.lanes * (SIDE_BY_SIDE if self.lanes > 1 else 1))

    def minutes(self) -> str:
        """About how long what is left takes, by the pace so far."""
        left, passed = self.expected(), time.monotonic() - self.begun
        number = max(1, round(left * (PACE + passed) / (PACE + self.whole - left) / 60))
        return f"{number} minute{'s' * (number > 1)}"

    def recover(self) -> None:
        """What a build that was killed left in its copies is moved to the repository."""
        for name in os.listdir(self.folder) if os.path.isdir(self.folder) else []:
            put_back(self.crates, name, os.path.join(self.folder, name))

    def begin(self) -> None:
        """Begins the crates whose libraries are there, while lanes are idle."""
        idle = self.lanes - len(self.running)
        can = [it for it in self.left if self.proved.issuperset(self.below[it])]
        begun = [it for it in can if it not in self.last][:idle]
        if self.last.issuperset(set(self.left).difference(begun)):
            begun += [it for it in can if it in self.last][: idle - len(begun)]
        for name in begun:
            self.left.remove(name)
            is_longest = all(self.chain[name] >= self.chain[it.name] for it in self.running.values())
            proof = Proof(self.crates, name, self.folder, self.lanes if is_longest else 1, [] if is_longest else GIVES_WAY)
            self.running[proof.run.pid] = proof

    def prove(self) -> int:
        """Proves all, and returns 0, or rt's status for the first crate that is not proved."""
        self.recover()
        while self.left or self.running:
            self.begin()
            ended = os.waitid(os.P_ALL, 0, os.WEXITED | os.WNOWAIT)
            proof = self.running.pop(ended.si_pid)
            status = proof.end()
            if status:
                return status
            self.proved.add(proof.name)
            count = f"{len(self.proved)} of {len(self.below)} {proof.name}"
            print(f"mte_tool: {count}, about {self.minutes()} left", file=sys.stderr, flush=True)
        return 0

    def stop(self) -> None:
        """Ends the proofs that run; what they kept stays."""
        for proof in self.running.values():
            proof.run.terminate()
        for proof in self.running.values():
            proof.end()
        shutil.rmtree(self.folder, ignore_errors=True)


def main(words: "list[str]") -> "int | None":
    if not words:
        return print(lanes())
    root, program, *more = words
    build = Build(CrateList(root), program, lanes())
    if more == ["minutes"]:
        return print(build.minutes())
    try:
        return build.prove()
    finally:
        build.stop()
