"""What the reader of a stream found: struct notes of shims/follow.c, and the texts after it."""

import ctypes
import os
from typing import NamedTuple

from mte_scripts.recording import TABLES

PAGE, RINGS = 4096, 1024
REASONS = (f"more than {RINGS:,} run at once",
           "a limit of their address space (ulimit -v) leaves no room for the stream",
           "they can't open the stream from where they are (chroot, another user or namespace)",
           "they began in a program that gave up system calls (seccomp)",
           "the file of the stream has no room for them (a full disk)")
# of shims/loadable.h, from 1 on: why a program is not followed
UNFOLLOWED = ("it is static", "its C library is not this machine's glibc", "it is for another kind of processor",
              "it is set-user-id or set-group-id", "it has file capabilities", "it can't be read",
              "system calls were given up before it (seccomp)")


class Texts(NamedTuple):
    """The profile, what else was wanted, the numbers of its moments, the upper history, the stacks as sites.py reads them,
    and the record of blocks, as shims/release_model.c reads it; empty where there is none."""

    profile: bytes
    wanted: bytes
    moments: bytes
    upper: bytes
    sites: bytes
    blocks: bytes


def numbers(names: str) -> list:
    return [(name, ctypes.c_uint64) for name in names.split()]


class NamedProcesses(ctypes.Structure):
    """The processes whose program has a name: how many, their requests, and the most resident memory of one that was looked at, in bytes."""

    _fields_ = [("name", ctypes.c_char * 24), *numbers("processes requests resident")]

    def line(self, resident: int) -> str:
        """That as a line, with the name last; one of its processes is known to have had so many bytes. A process gives itself its name, which
        may have any characters."""
        name = "".join(each if each.isprintable() else "?" for each in os.fsdecode(self.name))
        return f"{self.processes} {self.requests} {max(resident, self.resident)} {name}"


class ProgramLeftAlone(ctypes.Structure):
    """A program that is not followed: why, and how often it was run."""

    _fields_ = [*numbers("key why number"), ("name", ctypes.c_char * 40)]

    def reason(self) -> str:
        return UNFOLLOWED[self.why - 1] if 0 < self.why <= len(UNFOLLOWED) else "it is not known why"

    def __str__(self) -> str:
        return f"{os.fsdecode(self.name)} ({self.reason()}{f'; {self.number:,} times' if self.number > 1 else ''})"


class Notes(ctypes.Structure):
    """What the reader noted; the texts are there once `version` is not 0."""

    _fields_ = [
        *numbers("version"),
        ("bytes", ctypes.c_uint64 * len(Texts._fields)),
        *numbers("status error started executed requests live large resident others other_requests untouched foreign"),
        ("refused", ctypes.c_uint64 * len(REASONS)),
        *numbers("lost wrong spoiled gaps events snapshots is_cut variables shared left"),
        ("processes", ctypes.c_uint64 * 32),
        ("taken", ctypes.c_int64 * (TABLES + 4)),
        ("words", ctypes.c_char * 128),
        ("room", ctypes.c_char * 112),  # the name is at a multiple of its bytes
        ("name", ctypes.c_char * 1024),
        ("named", NamedProcesses * 16),
        ("followed", ctypes.c_char * 24),
        ("programs_left_alone", ProgramLeftAlone * 16),
        *numbers("more_left_alone instead"),
        (
            "rest",
            ctypes.c_char * (PAGE - 2048 - 16 * (ctypes.sizeof(NamedProcesses) + ctypes.sizeof(ProgramLeftAlone)) - 40),
        ),
    ]

    @classmethod
    def of_page(cls, page: bytes) -> "Notes":
        """Those of a page, which may be cut off."""
        return cls.from_buffer_copy(page.ljust(PAGE, b"\0"))

    @property
    def allocator(self) -> str:
        """The file that has the allocator of the last process that has another one than glibc's."""
        return os.fsdecode(self.name)

    @property
    def why(self) -> str:
        """Why nothing could be followed."""
        return os.fsdecode(self.words)

    def programs(self) -> "list[str]":
        """A line for each program whose processes requested something, that of the followed one first."""
        found = sorted((each for each in self.named if each.requests), key=lambda each: each.name != self.followed)
        return [each.line(self.resident if each.name == self.followed else 0) for each in found]

    def name_unfollowed(self) -> "list[str]":
        """The programs that were run without the library, each with the reason."""
        found = [str(each) for each in self.programs_left_alone if each.number]
        return [*found, *[f"{self.more_left_alone:,} others"] * bool(self.more_left_alone)]

    def name_last_unfollowed(self) -> "tuple[str, str] | None":
        """The name of the program that the first process ran at last, and why it is not followed; None where it is."""
        if not self.instead:
            return None
        last = self.programs_left_alone[self.instead - 1] if self.instead <= len(self.programs_left_alone) else ProgramLeftAlone()
        return os.fsdecode(last.name), last.reason()

    def remaining_processes(self) -> list:
        """The processes that run on, or some of them."""
        return list(self.processes[: self.left])

    def reasons(self) -> list:
        """Why some processes are not counted, and how many."""
        return [f"{number} for {reason}" for number, reason in zip(self.refused, REASONS) if number]
