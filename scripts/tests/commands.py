"""Tests that run the scripts as a shell does: each class has a folder of its own, and no MTE_TOOL.

    class Profiles(commands.Commands):
        def test_sums(self):
            self.write("a", "16 3\\n")
            self.runs(0, "16 7", "merge_profiles", "a", "-", given="16 4\\n")
            self.runs(2, "", "merge_profiles", "nowhere")
            self.says("nowhere can't be read")
"""

import os
import subprocess

import checks
from checks import expect
from mte_scripts.places import SCRIPTS

WIDEST = 132  # columns of a help


def as_bytes(text: "str | bytes") -> bytes:
    return text if isinstance(text, bytes) else os.fsencode(text)


class Commands(checks.Part):
    out = err = name = ""

    @classmethod
    def setup_class(cls):
        cls.place = cls.folder()
        cls.environment = {**os.environ, "XDG_CACHE_HOME": os.path.join(cls.place, "cache")}
        cls.environment.pop("MTE_TOOL", None)

    def path(self, *names: str) -> str:
        return os.path.join(self.place, *names)

    def write(self, name: str, text: "str | bytes", mode: int = 0o644) -> str:
        """A file of the folder, and its path."""
        path = self.path(name)
        with open(path, "wb", opener=lambda path, flags: os.open(path, flags, mode)) as file:
            file.write(as_bytes(text))
        return path

    def read(self, name: str) -> str:
        with open(self.path(name), errors="surrogateescape") as file:
            return file.read()

    def call(self, *words: str, given: "str | bytes" = "", take: "dict | None" = None, **environment) -> int:
        """Runs a command, and keeps what it prints as `out` and `err`; the status, as a shell has it. TAKE has more words of subprocess.run.
        A variable of the environment that is None is unset."""
        self.name = " ".join([os.path.basename(words[0]), *words[1:]])
        variables = {**self.environment, **environment}
        how = {"cwd": self.place, "stdout": subprocess.PIPE, "stderr": subprocess.PIPE, **(take or {})}
        if "stdin" not in how:
            how["input"] = as_bytes(given)
        done = subprocess.run(words, env={name: value for name, value in variables.items() if value is not None}, **how)
        self.out, self.err = (os.fsdecode(text or b"") for text in (done.stdout, done.stderr))
        return done.returncode if done.returncode >= 0 else 128 - done.returncode

    def runs(self, status: int, out: str, script: str, *words: str, **more) -> str:
        """Runs a script: its status and what it prints, or what that begins with where `*` ends OUT; a refusal says why. What it prints."""
        return self.ends(status, out, os.path.join(SCRIPTS, script), *words, **more)

    def ends(self, status: int, out: str, *words: str, says: "str | tuple[str, ...]" = (), **more) -> str:
        """The same of any command. SAYS is what its standard error has."""
        got = self.call(*words, **more)
        printed = self.out.startswith(out[:-1]) if out.endswith("*") else self.out.rstrip("\n") == out
        name = " ".join([os.path.basename(words[0]), *words[1:]])
        expect(f"{name}: status {status}", got == status and (status == 0 or bool(self.err)), got, self.err)
        expect(f"{name}: what it prints", printed, self.out, "and not", out)
        self.says(*([says] if isinstance(says, str) else says))
        return self.out

    def refuses_all(self, script: str, *lines: str, **more) -> None:
        """A script refuses the words of each of these lines."""
        for line in lines:
            self.runs(2, "", script, *line.split(), **more)

    def says(self, *texts: str) -> None:
        """The last command's standard error has these words."""
        for text in texts:
            expect(f"{self.name} says {text!r}", text in self.err, self.err)

    def helped(self, *scripts: str) -> None:
        """Each script's help, and its refusal of an option that is none."""
        for script in scripts:
            lines = self.runs(0, "*", script, "--help").splitlines()
            expect(f"{script} --help: its usage", any(line.startswith("Usage: ") for line in lines))
            expect(f"{script} --help: at most {WIDEST} columns", max(map(len, lines)) <= WIDEST, max(lines, key=len))
            self.runs(2, "", script, "--wrong")

    def unwritten(self, script: str, *words: str, closed: str = "standard output is closed", **environment) -> None:
        """A full disk and a closed output are status 3, and told."""
        path, name = os.path.join(SCRIPTS, script), " ".join([script, *words])
        if os.access("/dev/full", os.W_OK):
            with open("/dev/full", "wb") as full:
                expect(f"{name} to a full disk", self.call(path, *words, take={"stdout": full}, **environment) == 3)
            self.says("No space left")
        closes = {"stdout": None, "preexec_fn": lambda: os.close(1)}
        expect(f"{name} to a closed output", self.call(path, *words, take=closes, **environment) == 3)
        self.says(closed)

