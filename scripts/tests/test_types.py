"""Checks the types of the packages mte_scripts and mte_tool by mypy, as the oldest Python that the scripts are for has them."""
import glob
import os
import re
import subprocess

import checks
from checks import expect
from mte_scripts.places import ROOT, SCRIPTS

# what a pattern finds may be None for mypy, also where the pattern always matches; it knows no modules such as _signal
WORDS = "--python-version 3.9 --no-strict-optional --ignore-missing-imports --disallow-untyped-defs --no-error-summary -p mte_scripts".split()


class Types(checks.Part):
    def test_package(self):
        checks.need("mypy", "the types of the scripts")
        words = ["mypy", *WORDS, "--cache-dir", self.folder()]
        done = subprocess.run(words, cwd=SCRIPTS, stdin=subprocess.DEVNULL, stdout=subprocess.PIPE, stderr=subprocess.STDOUT, text=True)
        errors = re.findall(r"(?m)^(\S+?):\d+: error: .*", done.stdout)
        for path in sorted(glob.glob(f"{SCRIPTS}/mte_scripts/**/*.py", recursive=True)):
            name = os.path.relpath(path, SCRIPTS)
            expect(name, name not in errors, *re.findall(rf"(?m)^{re.escape(name)}:\d+: error: .*", done.stdout))
        expect("mypy reads the package", bool(done.returncode) == bool(errors), done.stdout)

    def test_library(self):
        checks.need("mypy", "the types of the library's package for Python")
        words = ["mypy", "--python-version", "3.9", "--strict", "--cache-dir", self.folder(), "-p", "mte_tool"]
        done = subprocess.run(words, cwd=f"{ROOT}/python", stdin=subprocess.DEVNULL, stdout=subprocess.PIPE, stderr=subprocess.STDOUT, text=True)
        expect("python/mte_tool", done.returncode == 0, done.stdout)
