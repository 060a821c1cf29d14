#!/usr/bin/env -S python3 -B
"""Runs the other tests in copies of the repository, each without one of the parts of the scripts that stand alone (parts_alone.py), and with what
has been built here. All of `unbuilt` and `built` take half an hour for each part, beside nothing else."""

import glob
import os
import re
import shutil
import subprocess

import checks
import parts_alone
from checks import expect
from mte_scripts.places import ROOT
from python_sources import tracked_files

LIBRARIES = ("mte_c", "mte_step")
COUNTS = re.compile(r"(?m)^all: (\d+) passed, (\d+) failed, \d+ skipped$")
COMMIT = ("git init -q && git add -A && git -c user.name=Test -c user.email=test@example.invalid commit -qm 'A copy without a part'")


def copy_repository(name, place):
    """A repository without a part in this folder, and with what was built of the crates."""
    parts_alone.copy_without(parts_alone.PARTS[name], tracked_files(), place)
    subprocess.run(["sh", "-c", COMMIT], cwd=place, check=True)
    for out in glob.glob(f"{ROOT}/crates/*/out"):
        # what a check kept is wanted by no test, but where a static library is built anew
        ignored = () if os.path.basename(os.path.dirname(out)) in LIBRARIES else ("incremental",)
        shutil.copytree(out, os.path.join(place, os.path.relpath(out, ROOT)), symlinks=True, ignore=shutil.ignore_patterns(*ignored))


class Copies(checks.Part):
    def test_copies(self):
        for name in checks.options.part or [name for name, part in parts_alone.PARTS.items() if part.is_there()]:
            place = os.path.join(self.folder(), name)
            copy_repository(name, place)
            words = [f"{place}/scripts/tests/all", *(checks.options.tests or ["unbuilt", "built"])]
            done = subprocess.run(words, cwd=place, stdin=subprocess.DEVNULL, stdout=subprocess.PIPE, stderr=subprocess.STDOUT, text=True, errors="replace")
            counts = COUNTS.search(done.stdout)
            print(f"without {name}: {done.stdout.splitlines()[-1:]}", flush=True)
            failed = re.findall("(?m)^FAILED .*", done.stdout) or [done.stdout[-2000:]]
            expect(f"without {name}: the other tests", done.returncode == 0 and counts and int(counts[1]) > 1 and counts[2] == "0", "\n".join(failed))
            shutil.rmtree(place)


def add_options(parser):
    parser.add_argument("--part", action="append", choices=parts_alone.PARTS, help="without this part; all, one after the other, where it is left out")
    parser.add_argument("--tests", action="append", metavar="PART", help="a part of scripts/tests/all, or a group; unbuilt and built where it is left out")


if __name__ == "__main__":
    checks.main()
