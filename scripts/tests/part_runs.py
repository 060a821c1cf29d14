"""The parts of the tests, and how pytest is called: by a Python that has it, with Debian's python3-pytest, python3-pytest-timeout and python3-pytest-xdist."""

import contextlib
import os
import re
import shutil
import subprocess
import sys
from typing import NoReturn

GROUPS = {
    "unbuilt": """layout alone dead twice comments names refusals statement endings types interface scripts launcher first_answer
        recorders unfollowed hostile imports folders faults_folders programs texts numbers sanitizer_reports rollout
        many allocators""".split(),
    "built": """program formats claims sentences footprint footprint_law timeline windows long_runs who fleet fleet_claims pools
        documents memory build tuning release_model services servers fleet_servers qemu faults faults_asan odds findings faults_builds faults_costs
        library page checker modules package adversary plants definitions""".split(),
    "long": """alone_tests known_bugs faults_packages pools_lwip over_time verdicts fleet_simulation real_heaps
        standing_adversary every_hostile machines every_plant""".split(),
}
PACKAGES = "python3-pytest python3-pytest-timeout python3-pytest-xdist"
TOOLS = {"wasm-opt": "binaryen", "wasm2c": "wabt"}  # by which the engines in modules/ are built anew


def interpreters() -> "list[str]":
    """The Pythons that have pytest, with its time limits and processes."""
    tried = dict.fromkeys((sys.executable, "/usr/bin/python3"))
    words = ["-c", "import pytest, pytest_timeout, xdist"]
    return [each for each in tried if os.access(each, os.X_OK) and not subprocess.run([each, *words], capture_output=True).returncode]


def interpreter() -> str:
    found = interpreters()
    return found[0] if found else sys.exit(f"the tests of the scripts are run by pytest: apt-get install {PACKAGES}")


def install() -> int:
    """Installs Debian's packages of pytest, if no Python here has it, and of the tools that are missing; the status."""
    packages = [*PACKAGES.split() * (not interpreters()), *(TOOLS[name] for name in TOOLS if not shutil.which(name))]
    for words in (["apt-get", "update"], ["apt-get", "install", "-y", *packages]) if packages else ():
        words = [*["sudo", "-n"] * bool(os.geteuid()), "env", "DEBIAN_FRONTEND=noninteractive", *words]
        with contextlib.suppress(FileNotFoundError):  # without sudo
            subprocess.run(words, stdin=subprocess.DEVNULL, stdout=sys.stderr)
    return 0 if interpreter() else 2


def command(python: str, path: str, patterns: "list[str]", *more: str) -> "list[str]":
    """The words by which pytest runs a part, and prints a line for each failure and for what is skipped, and one with the counts."""
    names = " or ".join(" and ".join(filter(None, re.split(r"[.*]", pattern))) for pattern in patterns)
    return [python, "-B", "-m", "pytest", "-qq", "-rN", "--tb=short", "--at-once", path, *more, *["-k", names] * bool(names)]


def run_again() -> NoReturn:
    """Goes on as the same script by a Python that has pytest."""
    python = interpreter()
    os.execv(python, [python, "-B", *sys.argv])
