#!/usr/bin/env -S python3 -B
"""Tests a release of the project's engines for all machines: made twice, in two folders, it has the same bytes; and what is in it for
aarch64 answers under qemu-user as the program here does, byte for byte: the program itself, and callers of the static and the shared library.

  test_machines.py [--cases N]    N drawn inputs (100 if left out)"""

import filecmp
import os
import random
import re
import shutil
import subprocess

import checks
import drawn_inputs
import library_cases
import pytest
from checks import expect
from mte_scripts import engines
from mte_scripts.packaging import machines
from mte_scripts.packaging.tree import Tree
from mte_scripts.places import ROOT
from test_package import another_folder, run_command

OTHER = machines.MACHINES["aarch64"]
SECONDS = 1800
# callers of the library for C, the flags of each, and whether the shared one is linked
CALLERS = (("library_calls", library_cases.WRAPS, False), ("library_heap", ["-D_POSIX_C_SOURCE=200809L", "-pthread"], False),
           ("library_misuses", [], True))  # fmt: skip


def release(work: str, name: str, **how) -> str:
    """A release of a copy of this repository, with one commit more; its folder."""
    clone, made = another_folder(f"{work}/{name}/clone"), f"{work}/{name}/made"
    git = ["git", "-C", clone, "-c", "user.name=Somebody", "-c", "user.email=somebody@example.org"]
    given = {**os.environ, "GIT_AUTHOR_DATE": "2026-01-01T00:00:00Z", "GIT_COMMITTER_DATE": "2026-01-01T00:00:00Z"}
    for words in (["add", "-A"], ["commit", "-q", "--allow-empty", "-m", "A step of the test"]):
        subprocess.run([*git, *words], check=True, env=given)
    words = [f"{clone}/scripts/release", "--modules", made]
    done = subprocess.run(words, capture_output=True, text=True, timeout=SECONDS, **how)
    if not expect("scripts/release makes the packages of the modules", done.returncode == 0, done.stderr[-900:]):
        pytest.fail("there is no release")
    return made


class Machines(checks.Part):
    @classmethod
    def setup_class(cls):
        if engines.why_unproved():
            pytest.skip(f"stale, since {engines.why_unproved()}: the packages for other machines")
        if machines.HERE is OTHER or machines.missing_tool(OTHER):
            pytest.skip(f"without a cross compiler: the packages for {OTHER.name}")
        checks.need("git strip readelf dpkg-deb", "the packages for other machines")
        cls.qemu = next(filter(None, map(shutil.which, (f"qemu-{OTHER.name}", f"qemu-{OTHER.name}-static"))), None)
        cls.work = cls.folder()
        cls.made = release(cls.work, "first")
        cls.root = f"{cls.work}/root"
        for name in os.listdir(cls.made):
            if name.endswith(f"_{OTHER.debian}.deb"):
                run_command(["dpkg-deb", "-x", f"{cls.made}/{name}", cls.root], check=True)
        cls.program = f"{cls.root}/usr/bin/mte_tool"

    def need_qemu(self, what: str) -> None:
        if not self.qemu:
            pytest.skip(f"without qemu-user: {what}")

    def run_there(self, *words: str, **given) -> "subprocess.CompletedProcess":
        """Runs a program for the other machine."""
        return run_command([self.qemu, "-L", f"/usr/{OTHER.triple}", *words], **given)

    @pytest.mark.timeout(SECONDS)
    def test_same_bytes(self):
        other = {**os.environ, "TZ": "Pacific/Auckland", "LC_ALL": "C", "TMPDIR": self.folder()}
        second = release(self.work, "a folder/of another name", env=other, preexec_fn=lambda: os.umask(0o077))
        names = sorted(os.listdir(self.made))
        expect("the same packages are made", names == sorted(os.listdir(second)), names, os.listdir(second))
        for name in names:
            expect(f"the same bytes: {name}", filecmp.cmp(f"{self.made}/{name}", f"{second}/{name}", shallow=False))

    def test_kinds(self):
        """There is each kind for both machines, with its sum; and what is for the other one is of its code alone."""
        names = sorted(os.listdir(self.made))
        for machine in machines.MACHINES.values():
            for ending, count in ((f"_{machine.debian}.deb", 3), (f"-{machine.name}-linux.tar.gz", 1), (f"_{machine.name}.whl", 1)):
                expect(f"{count} of {ending}", sum(name.endswith(ending) for name in names) == count, names)
        done = run_command(["sha256sum", "--strict", "-c", "SHA256SUMS"], cwd=self.made)
        expect("the sums hold", done.returncode == 0 and done.stdout.count(b": OK\n") == len(names) - 2, done)
        tree = Tree(self.root)
        objects = [name for name in tree.files() if tree.read(name)[:4] == b"\x7fELF"]
        for name in objects:
            said = run_command(["readelf", "-h", tree.path(name)]).stdout
            expect(f"{name} is for {OTHER.name}", b"AArch64" in said and b"little endian" in said, said)
        expect("the program, the libraries and the recorders", len(objects) > 8, objects)
        expect("the program needs no loader", not tree.has_loader("usr/bin/mte_tool"))
        crate = next(name for name in names if re.fullmatch(r"mte-tool-sys-[\d.]+\.crate", name))
        listed = run_command(["tar", "-tzf", f"{self.made}/{crate}"]).stdout.decode()
        found = re.findall(r"lib/(\w+)/libmte_tool\.a", listed)
        expect("the crate has the library for each", found == sorted(machines.MACHINES), listed)

    @pytest.mark.timeout(SECONDS)
    def test_program(self):
        self.need_qemu("the program for another machine")
        there, here = [self.qemu, self.program], [checks.PROGRAM]
        answer = lambda words, text: run_command([*here, *words.split()], input=text).stdout
        cases = [(words.split(), text) for words, text in drawn_inputs.draw_inputs(random.Random(11), checks.options.cases, answer)]
        for name in ("sqlite", "jq", "perl"):
            with open(f"{ROOT}/examples/{name}.trace", "rb") as file:
                cases.append((["run", "--limit", "8", "--granules", "262144"], file.read()))
        for words, text in cases:
            got, wanted = (run_command([*command, *words], input=text) for command in (there, here))
            same = [(each.returncode, each.stdout, each.stderr) for each in (got, wanted)]
            expect(f"{words} {text[:200]}", same[0] == same[1], *same)

    def build(self, name: str, flags: "list[str]", is_shared: bool) -> str:
        """A caller for the other machine."""
        libraries = f"{self.root}/usr/lib/{OTHER.triple}"
        linked = [f"-L{libraries}", "-lmte_tool"] if is_shared else [f"{libraries}/libmte_tool.a"]
        words = [f"{OTHER.triple}-gcc", "-std=c99", "-O2", *flags, f"-I{self.root}/usr/include", f"{ROOT}/scripts/tests/{name}.c", *linked]
        made = run_command([*words, "-o", f"{self.work}/{name}"])
        expect(f"{name} compiles", made.returncode == 0, made.stderr)
        return f"{self.work}/{name}"

    @pytest.mark.timeout(SECONDS)
    def test_library(self):
        self.need_qemu("the library for another machine")
        calls, heap, misuses = (self.build(*each) for each in CALLERS)
        cases = library_cases.with_checks(library_cases.with_answers([*library_cases.SMALL, *library_cases.large()]))
        library_cases.write_calls(f"{self.work}/calls", cases)
        for piece in ("0", "7"):
            done = self.run_there(calls, piece, f"{self.work}/calls", str(len(cases)))
            expect(f"the calls, in pieces of {piece}", done.returncode == 0, done.stdout[-300:], done.stderr[-600:])
        done = self.run_there("-E", f"LD_LIBRARY_PATH={self.root}/usr/lib/{OTHER.triple}", misuses)
        expect("misuses of the shared library", done.returncode == 0, done.stdout, done.stderr)
        trace, options = f"{ROOT}/examples/jq.trace", {"granules": 65536, "seed": 7, "quarantine": 65536}
        _, report = library_cases.program("replay", options, (b"classes 2 4 33", library_cases.read("jq.trace")))
        done = self.run_there(heap, trace, *map(str, options.values()), "2", "4", "33")
        wanted = [line for line in report.splitlines() if re.match(rb"\d", line)]
        expect("the heap", done.returncode == 0 and done.stdout.splitlines() == wanted, done.stdout[:300], done.stderr)


def add_options(parser):
    parser.add_argument("--cases", type=int, default=100, metavar="N", help="so many drawn inputs (100)")


if __name__ == "__main__":
    checks.main()
