"""Runs of the program mte_tool over texts, and whether what answers is a proved one."""

import functools
import os
import subprocess
from collections import namedtuple

from mte_scripts import claim_words, engines
from mte_scripts.entry_point import Refusal, say
from mte_scripts.formats import OPTIONS
from mte_scripts.places import BUILT, SCRIPTS
from mte_scripts.text_files import lines_of

MOST_FIRST_LINES = OPTIONS["first_lines"].most
# Whether the program that answers is a proved one; if not, why nothing is proved.
Trust = namedtuple("Trust", "is_proved why by", defaults=(engines.State.PROVED_HERE,))


def border(first: "str | bytes", name: str = "the first text") -> "tuple[list[str], bytes]":
    """The option that says where the first of two texts ends, and that text, with the newline that its last line may lack."""
    lines = lines_of(os.fsencode(first))
    if not 0 < len(lines) <= MOST_FIRST_LINES:
        raise Refusal(2, f"{name} has {len(lines)} lines, which no class line, sheet or fit has")
    return ["--first-lines", str(len(lines))], b"".join(line + b"\n" for line in lines)


def over_two(words: "list[str]", first: "str | bytes", second: "str | bytes", name: str = "the first text") -> "tuple[int, bytes, str]":
    """Runs the program over a class line, a sheet or a fit, and what comes after it. The program is told where the first one ends."""
    option, whole = border(first, name)
    return mte_tool([*words, *option], whole, os.fsencode(second))


def join_texts(first: "str | bytes", second: "str | bytes") -> bytes:
    """Both as one text, for a reader who knows where the first one ends."""
    return border(first)[1] + os.fsencode(second)


@functools.lru_cache(maxsize=None)
def trust() -> Trust:
    """Whether the program that answers is a proved one, and who has proved it: no other that MTE_TOOL names, but the one of its manifest, or
    the project's engines."""
    if os.environ.get("MTE_TOOL"):
        return Trust(False, "MTE_TOOL names another program")
    why = why_unproved()
    return Trust(not why, why, engines.proof_state())


def why_unproved() -> str:
    """Why what answers is not known to be proved, or an empty text. Where the program has to be built, it is built first."""
    return engines.why_unproved() if engines.are_answering() else look_at_program()[0]


@functools.lru_cache(maxsize=None)
def look_at_program() -> "tuple[str, tuple[int, ...]]":
    """The same of the program that is built here, and the state that it was in before it was hashed."""
    if not engines.look_at_built()[0]:
        return engines.look_at_built()
    launcher = os.path.join(SCRIPTS, "mte_tool")
    # the launcher says on standard error how far its build is
    if subprocess.run([launcher, "--prove"], stdin=subprocess.DEVNULL, stdout=subprocess.DEVNULL).returncode != 0:
        raise Refusal(3, "the program mte_tool could not run")
    engines.look_at_built.cache_clear()
    return engines.look_at_built()


@functools.lru_cache(maxsize=None)
def engine() -> engines.Engine:
    """What runs the program: the one that $MTE_TOOL names, or the proved one, built first where that has to be, or the project's engines."""
    other = os.environ.get("MTE_TOOL")
    if other:
        say("mte_tool", claim_words.claim_sentence("program.other", path=other))
        return engines.Engine(os.path.abspath(other), ["mte_tool"], other)
    why_unproved()
    return engines.choose_engine() if engines.are_answering() else engines.Engine(BUILT, ["mte_tool"], BUILT)


def program() -> str:
    """The path of the program that answers, as a file that can be run."""
    return engine().executable if engine().words == ["mte_tool"] else engines.make_native()


def run_over(words: list[str], executable: str, *given: bytes) -> "subprocess.CompletedProcess[bytes]":
    """Runs a program over these bytes, one after the other."""
    with open(os.memfd_create("given"), "w+b") as file:  # a pipe would take a piece of it at a time
        file.writelines(given)
        file.seek(0)
        return subprocess.run(words, executable=executable, stdin=file, capture_output=True)


def mte_tool(words: list[str], *given: bytes) -> tuple[int, bytes, str]:
    """Runs the program over these bytes, one after the other: its status, its output, and its standard error as text."""
    try:
        # its path may be no text, which the program refuses as a word
        done = run_over([*engine().words, *words], engine().executable, *given)
    except OSError as error:
        raise Refusal(3, f"{engine().executable} can't be run: {error.strerror}") from None
    if engine().executable == BUILT and engines.state_of(BUILT) != look_at_program()[1]:
        raise Refusal(3, "the program was replaced while this ran: nothing is proved of its answers")
    return done.returncode, done.stdout, done.stderr.decode(errors="replace").strip()


@functools.lru_cache(maxsize=32)
def answer_once(words: "tuple[str, ...]", *given: bytes) -> "tuple[int, bytes, str]":
    """The same, for which the program runs once in a command, however often it is asked that."""
    return mte_tool(list(words), *given)
