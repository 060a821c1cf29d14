"""Which process counts, where a program starts others: the one that makes nearly all requests, or the one that is named."""

import os
import re
from typing import NamedTuple, Optional

from mte_scripts.claims import count_text
from mte_scripts.entry_point import Refusal
from mte_scripts.recording import recording
from mte_scripts.tables.figures import byte_text

ELF = b"\x7fELF"
NAME = 23  # characters that a recorder keeps of a program's name
NEARLY = 10  # all but less than one of so many requests


class Program(NamedTuple):
    """The processes of a program: how many, their requests, and the most resident memory of one in bytes, 0 where it is not known."""

    processes: int
    requests: int
    resident: int
    name: str

    def describe_processes(self) -> str:
        peak = f", {byte_text(self.resident)} at most" if self.resident else ""
        times = f" in {self.processes:,} processes" if self.processes > 1 else ""
        return f"{self.name}: {count_text(self.requests, 'request')}{times}{peak}"


def parse_processes(text: str) -> list[Program]:
    """The lines that `profile_program --processes` wrote, that of the followed process first."""
    found = re.findall(r"(?m)^(\d+) (\d+) (\d+) (.*)$", text)
    return [Program(int(processes), int(requests), int(resident), name) for processes, requests, resident, name in found]


def last_program(text: str, words: list[str]) -> str:
    """The name of the program that the followed process ran at last in its own place, as a shell's `exec` does; empty where it is the one that
    WORDS name, or that is a script, which has its own name."""
    name = next((each.name for each in parse_processes(text)), "")
    is_script = recording.begins(recording.find_program(words[0])) != ELF
    return "" if is_script or name == os.path.basename(words[0])[:NAME] else name


def other_program(text: str, words: list[str], remedy: str) -> Optional[str]:
    """The program that makes nearly all requests, where that is another one than the followed process's; None where it is the followed one's.
    Refused with a remedy where none does."""
    found = parse_processes(text)
    largest = max(found, key=lambda each: each.requests, default=None)
    whole = sum(each.requests for each in found)
    if largest is None or not whole:
        return None
    if largest.requests * NEARLY > whole * (NEARLY - 1):
        return None if largest is found[0] else largest.name
    listed = "; ".join(each.describe_processes() for each in sorted(found, key=lambda each: -each.requests))
    raise Refusal(3,
                  f"{words[0]} ran more than one program, and none has nine tenths of the requests: {remedy}. {listed}")


def counted_program(text: str, others: int, only: Optional[str], is_followed: bool = True) -> Optional[str]:
    """The program of a server that makes nearly all requests, where that is another one than the followed process's. None where that process
    makes them, beside OTHERS of further processes, or nobody does; empty where no process does. It makes none unless IS_FOLLOWED."""
    found = [each for each in parse_processes(text) if only is None or each.name == only[:NAME]]
    whole = sum(each.requests for each in found)
    largest = max(found, key=lambda each: each.requests, default=None)
    if not whole or is_followed and largest is found[0] and others * NEARLY < whole:
        return None
    return largest.name if largest is not found[0] and largest.requests * NEARLY > whole * (NEARLY - 1) else ""


def tell_most(name: str) -> str:
    return f"{name} makes nearly all requests, and not the process that was started first"
