"""Runs proved tests once more, in two ways that `rt test` does not have: with each growth of memory refused in turn, and under valgrind, which
counts what is given back."""

import os
import re
import subprocess

import checks
import pytest
from checks import expect
from mte_scripts.places import ROOT, SCRIPTS


def program_of_tests(crate: str) -> str:
    """The program of a crate's tests."""
    path = os.path.join(ROOT, "crates", crate, "out", f"{crate}_tests")
    if not os.access(path, os.X_OK):
        pytest.skip(f"without the tests of {crate} (run `rt test` in crates/{crate})")
    return path


def run(*words: str) -> "tuple[int, str]":
    done = subprocess.run(words, stdin=subprocess.DEVNULL, stdout=subprocess.PIPE, stderr=subprocess.STDOUT, text=True, errors="replace")
    return done.returncode, done.stdout


class Memory(checks.Part):
    def test_refused_growths(self):
        """Each call that takes memory answers a refused growth, and then the call made again, as its contract says."""
        checks.need("cc", "refused growths")
        program_of_tests("engine_tests")
        status, said = run(os.path.join(SCRIPTS, "refuse_memory"))
        expect("refuse_memory", status == 0, status, *re.findall("(?m)^FAILED.*", said)[:3])
        judged = sum(int(number) for number in re.findall(r"(?m)^\S+ (\d+) of its call, ", said))
        expect("refuse_memory judges refusals", judged > 0, said)
        print(f"memory: {judged} refused growths", flush=True)

    def test_freed_region(self):
        """A region's block is freed once. A proof can't tell, because a leak is safe."""
        checks.need("valgrind", "the freeing of a region")
        words = "valgrind --leak-check=full --show-leak-kinds=all --errors-for-leak-kinds=all --error-exitcode=3".split()
        status, said = run(*words, program_of_tests("heap_tests"), "tests::regions::each_call_of_a_region")
        expect("valgrind finds no leak", status == 0, status, said[-300:])
        expect("a region is one allocation and one free", "total heap usage: 1 allocs, 1 frees" in said, said[-300:])
