"""Tests of programs that profile_program and trace_program can't follow: static ones, those of another C library, with
rights of their own, and under filters of system calls. Each runs as alone, and is named with the reason. Needs a C
compiler."""

import os
import platform
import pwd
import re
import shutil
import subprocess

import checks
import commands
import pytest
from checks import expect
from mte_scripts.places import SCRIPTS

HERE = os.path.dirname(os.path.realpath(__file__))
LIVE, PROFILE, TRACE = ("profile_program", "--live"), ("profile_program",), ("trace_program",)
IN_ITS_PLACE = "execve execv execvp execvpe execl execle fexecve execveat".split()
BESIDE = "posix_spawn posix_spawnp vfork".split()
STATIC, OTHER = "it is static", "its C library is not this machine's glibc"
SEALED = "system calls were given up before it (seccomp)"
PROFILES = os.path.join(SCRIPTS, "profile_program")


class ProgramsLeftAlone(commands.Commands):
    @classmethod
    def setup_class(cls):
        checks.need("cc", "programs that are not followed")
        super().setup_class()
        os.chmod(cls.place, 0o711)
        cls.by_number = ["syscall", "syscallat"] * (platform.machine() == "x86_64")
        cls.reasons = {}
        others = ("static", "cc", STATIC, "-static"), ("musl", "musl-gcc", OTHER), ("both", "musl-gcc", STATIC, "-static")
        for name, compiler, reason, *flags in others:
            if shutil.which(compiler) and cls.compiled(name, compiler, *flags):
                cls.reasons[name] = reason
        if not cls.compiled("plain", "cc"):
            raise FileNotFoundError("the programs of this test can't be compiled")

    @classmethod
    def compiled(cls, name, compiler, *flags):
        source = f"{HERE}/unfollowed_programs.c"
        words = [compiler, "-O1", "-w", "-fno-builtin", *flags, source, "-o", f"{cls.place}/{name}"]
        for folder in ("/usr/include", f"/usr/include/{platform.machine()}-linux-gnu") * (compiler == "musl-gcc"):
            words += ["-idirafter", folder]
        return not subprocess.run(words, stdin=subprocess.DEVNULL, stderr=subprocess.DEVNULL).returncode

    def recorded(self, words, *program, status=0, alone=0, **more):
        """Runs a program alone, where it sees no variable of the recorder, and recorded."""
        expect(f"{program}: alone", self.call(*program, **more) == alone, self.err)
        expect(f"{program}: alone it sees none", "sees 0" in self.out and "sees 2" not in self.out, self.out)
        got = self.call(os.path.join(SCRIPTS, words[0]), *words[1:], *program, **more)
        expect(f"{self.name}: its status", got == status, got, self.err)

    def counts(self, number):
        found = re.findall("(?m)^3333 (.*)$", self.out)
        expect(f"{self.name}: its requests", found == ([str(number)] if number else []), found, self.err)

    def sees(self, *numbers):
        found = re.findall("(?m)^sees (.)$", self.err)
        expect(f"{self.name}: the variables that each program sees", found == [*map(str, numbers)], self.err)

    def test_first_program(self):
        """It runs as ever, and the status is 3."""
        checks.need("musl-gcc", "a program of another C library: apt-get install musl-tools")
        for name, reason in self.reasons.items():
            for words in (PROFILE, LIVE, TRACE, ("profile_program", "--timeline")):
                self.recorded(words, f"./{name}", status=3)
                self.says(f"./{name} can't be recorded: {reason}\n")
                self.sees(0)

    def test_beside_others(self):
        """They are named; what is counted is of the others."""
        for name, reason in self.reasons.items():
            self.write("script", f"#!/bin/sh\n./{name}\n./plain\n./{name}\n", 0o755)
            self.recorded(PROFILE, "./script")
            self.says(f"not followed, nor what they start: {name} ({reason}; 2 times)\n")
            self.sees(0, 2, 0)
            self.counts(10)
            self.recorded(("profile_program", "--only", name), "./script", status=3)
            self.says(f"has the name {name}", f"{name} ({reason}; 2 times)")
            self.recorded(LIVE, "./script")
            self.says(f"{name} ({reason}; 2 times)")
        self.write("reads", "#!./static\n", 0o755)
        self.recorded(PROFILE, "./reads", status=3)
        self.says(f"./reads can't be recorded: {STATIC}")

    def test_ways(self):
        """By each call that runs a program, in the place of one that is counted or beside it."""
        for way in (*IN_ITS_PLACE, *self.by_number):
            self.recorded(PROFILE, "./plain", "by", way, "./plain", "x")
            self.counts(13)
            self.sees(2)
            for name, reason in self.reasons.items():
                self.recorded(PROFILE, "./plain", "by", way, f"./{name}", "x", status=3)
                self.says(f"it ran {name} in its own place, which can't be followed: {reason}\n")
                self.sees(0)
        for way in BESIDE:
            self.recorded(PROFILE, "./plain", "by", way, "./plain", "x")
            self.counts(13)
            for name, reason in self.reasons.items():
                self.recorded(PROFILE, "./plain", "by", way, f"./{name}", "x")
                self.says(f"not followed, nor what they start: {name} ({reason})\n")
                self.counts(3)
                self.sees(0)
        for way in ("execve", "posix_spawn", "vfork"):  # what can't be run is not named
            self.write("none", b"\x7fELF" + bytes(100), 0o644)
            self.call(PROFILES, "./plain", "by", way, "./none", "x")
            is_named = "not followed" in self.err or "can't be followed" in self.err
            expect(f"{way} of what is no program: it is not named", not is_named, self.err)
            self.counts(3)

    def test_other_libraries(self):
        """What else is preloaded stays."""
        self.write("own.c", "int own_library;\n")
        subprocess.run(["cc", "-shared", "-fPIC", self.path("own.c"), "-o", self.path("own.so")], check=True)
        for name in self.reasons.keys() - {"musl"}:
            variables = {"LD_PRELOAD": self.path("own.so")}
            self.call(PROFILES, "sh", "-c", f"./{name}; ./plain; env -i ./plain; :", **variables)
            self.sees(1, 2, 0)
            self.counts(10)

    def test_rights(self):
        """Programs with rights that the process has not."""
        has_nobody = any(each.pw_name == "nobody" for each in pwd.getpwall())
        if os.geteuid() or checks.missing_tools("setpriv") or not has_nobody:
            pytest.skip("without root or setpriv: programs with rights of their own")
        as_nobody = ["setpriv", "--reuid", "nobody", "--clear-groups"]
        for name, mode in (("set_user", 0o4755), ("set_group", 0o2755)):
            shutil.copy(self.path("plain"), self.path(name))
            os.chown(self.path(name), 0, pwd.getpwnam("nobody").pw_gid)
            os.chmod(self.path(name), mode)
            self.recorded(PROFILE, *as_nobody, f"./{name}", status=3)
            self.says(f"{name} in its own place, which can't be followed: it is set-user-id or set-group-id")
        self.recorded(PROFILE, "./set_user")  # of root for root
        self.counts(10)
        if checks.skip_without("setcap", "a program with file capabilities"):
            return
        shutil.copy(self.path("plain"), self.path("capable"))
        if not subprocess.run(["setcap", "cap_net_raw+ep", self.path("capable")], stderr=subprocess.DEVNULL).returncode:
            self.recorded(PROFILE, *as_nobody, "./capable", status=3)
            self.says("it has file capabilities")
            self.recorded(PROFILE, "./capable")
            self.counts(10)

    def test_filters(self):
        """No call is made that a filter ends the program for."""
        for words in (PROFILE, LIVE, TRACE):
            self.recorded(words, "./plain", "allows", "./plain", status=3)
            self.says(f"it ran plain in its own place, which can't be followed: {SEALED}")
            self.sees(0)
        self.recorded(PROFILE, "sh", "-c", "./plain allows ./plain; ./plain")
        self.says(f"plain ({SEALED})")
        self.counts(10)
        self.recorded(PROFILE, "./plain", "any", "./plain", status=3)
        if platform.machine() == "x86_64":
            expect("forks under a filter: alone", self.call("./plain", "forks") == 0)
            self.call(PROFILES, "./plain", "forks")
            expect("forks under a filter: as alone", "ended with status" not in self.err, self.err)
            self.says("1 for they began in a program that gave up system calls")
            self.counts(3)

    def test_filter_of_all(self):
        """A filter that the recorder is under too, as in a container, changes nothing."""
        self.ends(0, "*", "./plain", "any", PROFILES, "sh", "-c", "./plain; ./plain")
        self.sees(2, 2)
        self.counts(20)

    def test_service_under_a_filter(self):
        """Its launcher is static, so the library is in the environment of what it runs."""
        self.name = "a service"
        library = self.runs(0, "*", "profile_program", "--library").strip()
        how = {"stdin": subprocess.DEVNULL, "stdout": subprocess.PIPE, "stderr": subprocess.PIPE}
        follower = subprocess.Popen([PROFILES, "--follow", "stream"], cwd=self.place, env=self.environment, **how)
        while not os.path.exists(self.path("stream")) and follower.poll() is None:
            pass
        given = {"MTE_STREAM": self.path("stream"), "LD_PRELOAD": library}
        self.ends(0, "sees 2", "./static", "allows", "./plain", **given)
        expect("a service under a filter: nothing is said", not self.err, self.err)
        self.ends(0, "sees 2", "./plain", **given)
        follower.terminate()
        out, err = (text.decode() for text in follower.communicate())
        expect("a service under a filter: what is counted", "\n3333 10\n" in f"\n{out}", out)
        said = "1 for they began in a program that gave up system calls"
        expect("a service under a filter: what is said", said in err, err)
