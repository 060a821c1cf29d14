"""Runs the steps of examples/build/workflow.yml as a runner does, for the tests. It reads the form of that file, and not all of YAML."""

import os
import re
import subprocess
import textwrap


def settings(text: str) -> dict[str, str]:
    """The variables that the job sets."""
    block = re.search(r"(?m)^    env:\n((?:      .*\n)*)", text)
    return dict(re.findall(r"(?m)^ +(\w+): (.*)$", block[1])) if block else {}


def scripts(text: str) -> list[str]:
    """The script of each step that has one."""
    return [textwrap.dedent(block) for _, block in re.findall(r"(?m)^( +)run: \|\n((?:\1  .*\n)*)", text)]


def run(script: str, folder: str, environment: dict[str, str]) -> "subprocess.CompletedProcess[str]":
    """Runs one script as `shell: bash` does; both streams are its standard output."""
    words = ["bash", "--noprofile", "--norc", "-e", "-o", "pipefail", "-c", script]
    how = {"stdin": subprocess.DEVNULL, "stdout": subprocess.PIPE, "stderr": subprocess.STDOUT, "text": True}
    return subprocess.run(words, cwd=folder, env=environment, timeout=600, **how)


def run_all(text: str, folder: str, temporary: str, environment: dict[str, str]) -> "subprocess.CompletedProcess[str]":
    """Runs the steps in this folder up to the first that fails; `temporary` is the runner's own folder. The end of the last one."""
    added = os.path.join(temporary, "path")
    environment = {**environment, **settings(text), "RUNNER_TEMP": temporary, "GITHUB_PATH": added}
    for script in scripts(text):
        with open(added, "w", encoding="utf-8"):
            pass
        done = run(script, folder, environment)
        if done.returncode:
            break
        with open(added, encoding="utf-8") as file:
            environment["PATH"] = os.pathsep.join([*reversed(file.read().splitlines()), environment["PATH"]])
    return done
