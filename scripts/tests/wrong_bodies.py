"""What the tests `plants` and `every_plant` share: a run of the script plants, in which each wrong body is a check."""

import os
import re
import subprocess

import checks
import pytest
from checks import expect
from mte_scripts.places import ROOT, SCRIPTS


def try_bodies(*words: str) -> None:
    """Counts each wrong body that these words of the script try as a check."""
    if not os.path.isdir(os.path.join(ROOT, "crates", "class_table", "out", "rlib")):
        pytest.skip("without the crates' libraries (run `rt all check`)")
    jobs = os.environ.get("RT_JOBS") or str(os.cpu_count() or 1)
    command = [os.path.join(SCRIPTS, "plants"), "--jobs", jobs, *words]
    done = subprocess.run(command, stdin=subprocess.DEVNULL, stdout=subprocess.PIPE, stderr=subprocess.STDOUT, text=True, errors="replace")
    for crate, left in re.findall(r"(?m)^(\w+): .*, (\d+) left for lack of time", done.stdout):
        checks.skip(f"for lack of time: {left} wrong bodies of {crate}")
    failures = re.findall(r"(?m)^(?:THROUGH|GONE|BAD) .*", done.stdout)
    count = sum(int(number) for number in re.findall(r"(?m)^\w+: (\d+) tried, ", done.stdout))
    expect(f"plants {' '.join(words)} ends", done.returncode == int(bool(failures)) and count, done.returncode, done.stdout[-600:])
    checks.add_outcomes(count, failures)
