"""What the tests share: checks that are counted, one way to skip, and how the file of a part runs with its own options.

A part is a file test_NAME.py of this folder with a class or more, which pytest runs:

    class Sizes(checks.Part):
        def test_small(self):
            expect("a size of 0", size(0) == 16, size(0))
            if not skip_without("gcc", "the sizes of a program"):
                ..

A check that fails is printed with what was seen, and the test goes on, to fail at its end. A test in which nothing is checked by `expect`
counts as one check. A test that would have to build the program fails, unless MTE_TOOL_BUILD=yes."""

import argparse
import os
import shlex
import shutil
import subprocess
import sys
import tempfile
from collections.abc import Callable
from typing import NoReturn, Optional

import part_runs
import parts_alone
from mte_scripts import engines
from mte_scripts.places import BUILT, ROOT

try:
    import pytest
except ImportError:  # a part is run with its own options
    part_runs.run_again()

SHOWN = 900  # characters of each thing that was seen
# what is tested: the program that is built here, or else the project's engines as native code, which `all` compiles
ENGINES = None if os.path.exists(BUILT) or engines.why_unproved() else engines.native_program()
PROGRAM = os.path.realpath(os.environ.get("MTE_TOOL") or ENGINES or BUILT)
# how a sentence begins on what is proved, and the last line of a check
PROVED = (engines.State.PROVED_BY_PROJECT if ENGINES else engines.State.PROVED_HERE).value
OPTIMAL = f"optimal ({PROVED})" if ENGINES else "optimal"
passed = failed = left_out = 0
lines: "list[str]" = []  # of what has failed and of what is skipped
options = argparse.Namespace()  # the part's own


def take_counts() -> "tuple[int, int, int, list[str]]":
    """How many checks have passed, failed and were skipped since the last time, and what is to be told of them."""
    global passed, failed, left_out, lines
    taken = passed, failed, left_out, lines
    passed, failed, left_out, lines = 0, 0, 0, []
    return taken


def expect(name: str, condition: object, *seen: object) -> bool:
    """Counts a check, and says whether it holds. One that fails prints what was seen."""
    global passed, failed
    if not isinstance(name, str):
        raise TypeError(f"a check has its name first, and not {name!r}")
    if condition:
        passed += 1
    else:
        failed += 1
        lines.append(": ".join([f"FAILED {name}", *[" ".join(map(shorten, seen))] * bool(seen)]))
    return bool(condition)


def expect_equal(name: str, got: object, wanted: object, *seen: object) -> bool:
    """Counts a check that two values are the same. Where they are not, it prints both."""
    return expect(name, got == wanted, got, "and not", wanted, *seen)


def least(measure: "Callable[[], float]", most: float, rounds: int = 5) -> float:
    """The least of up to so many measurements, each taken only where those before are above MOST: what else runs makes one larger, and none
    smaller."""
    found = measure()
    for _ in range(rounds - 1):
        if found <= most:
            break
        found = min(found, measure())
    print(f"{found:.3f} of at most {most}", flush=True)
    return found


def fail(text: str) -> None:
    """A check that has failed."""
    expect(text, False)


def shorten(seen: object) -> str:
    text = str(seen)
    return text if len(text) <= SHOWN else f"{text[:SHOWN // 3]} .. {text[-SHOWN // 3 * 2:]}"


def add_outcomes(number: int, failures: "list[str]") -> None:
    """Counts so many checks that were made elsewhere, and says which of them failed."""
    global passed
    passed += number - len(failures)
    for failure in failures:
        expect(failure, False)


def skip(text: str) -> bool:
    """Says what is not tested, and why, as `without gcc: the sizes of a program`; True."""
    global left_out
    left_out += 1
    lines.append(f"skipped, {text}")
    return True


def is_missing(tool: str) -> bool:
    """Whether a command is missing, or a path of the repository that belongs to a part which this copy is without (parts_alone.py)."""
    if "/" not in tool:
        return not shutil.which(tool)
    if not (is_gone := parts_alone.is_gone(tool)) and not os.path.exists(os.path.join(ROOT, tool)):
        raise FileNotFoundError(f"the repository has no {tool}")
    return is_gone


def missing_tools(tools: str) -> str:
    """Which of these commands, or paths of parts that stand alone, are missing, as words; empty if none is."""
    missing = [tool for tool in tools.split() if is_missing(tool)]
    return f"without {' and '.join(missing)}" if missing else ""


def skip_without(tools: str, what: str) -> bool:
    """Whether one of these is missing (see `missing_tools`); then it says what is not tested."""
    return bool(missing_tools(tools)) and skip(f"{missing_tools(tools)}: {what}")


def need(tools: str, what: str) -> None:
    """Ends a test, or all of a class, where one of these is missing (see `missing_tools`)."""
    if missing_tools(tools):
        pytest.skip(f"{missing_tools(tools)}: {what}")


def built_program() -> str:
    """The program that is tested; a failure where it is not there."""
    if not os.access(PROGRAM, os.X_OK):
        raise FileNotFoundError(f"{PROGRAM} is not built: run `scripts/mte_tool --prove`")
    return PROGRAM


def with_heap() -> str:
    """The program that is tested, where the library is there too that find_faults asks. It is built where no crate below it has to be proved
    for that."""
    from mte_scripts import entry_point
    from mte_scripts.builds import static_libraries

    heap_reader = entry_point.part("faults.heap_reader")
    if not os.environ.get("MTE_LIBRARY"):
        before = os.environ.get("MTE_TOOL_BUILD", "")
        if static_libraries.is_cheap("mte_c") or engines.are_answering():
            os.environ["MTE_TOOL_BUILD"] = "yes"
        os.environ["MTE_LIBRARY"] = heap_reader.library()
        os.environ["MTE_TOOL_BUILD"] = before
    return built_program()


def any_program(place: str) -> Optional[str]:
    """A program for MTE_TOOL: the one that it names, None for the built one, or a plain one that is compiled in PLACE; empty where there is
    none."""
    if os.environ.get("MTE_TOOL"):
        return os.path.abspath(os.environ["MTE_TOOL"])
    if os.access(PROGRAM, os.X_OK):
        return None
    if not shutil.which("rustc"):
        return ""
    return compiled_plain(place)


def compiled_plain(place: str) -> str:
    """The plain program, compiled in PLACE for speed."""
    plain = os.path.join(place, "plain")
    subprocess.run(["rustc", "-O", "--edition", "2021", os.path.join(ROOT, "scripts/tests/plain/main.rs"), "-o", plain], check=True)
    return plain


def copying_compiler(path: str, cache: str) -> str:
    """Makes a compiler, for CC, that copies what this cache has compiled of the recorders' sources, and compiles the others."""
    with open(path, "w", opener=lambda path, flags: os.open(path, flags, 0o755)) as file:
        file.write('#!/bin/sh\nfor word; do case $word in *.c) name=${word##*/} ;; esac; [ "$last" != -o ] || to=$word; last=$word; done\n'
                   f'cp {shlex.quote(cache)}/mte_tool/"${{name%.c}}"-* "$to" 2>/dev/null || exec cc "$@"\n')
    return path


class Part:
    """Tests. `after_class` and `after_test` are the stacks of what is done once they are over."""

    __test__ = True  # of classes, pytest takes those

    @classmethod
    def folder(cls) -> str:
        """A folder that goes with the last test of the class."""
        return cls.after_class.enter_context(tempfile.TemporaryDirectory())


def main(instead=lambda options: None) -> NoReturn:
    """Runs the part whose file is run, with its own options, `add_options`. What INSTEAD returns, if it is a number, is the status, and
    nothing is tested."""
    module = sys.modules["__main__"]
    words, parser = (argparse.ArgumentParser(prog=os.path.basename(sys.argv[0]), description=module.__doc__, add_help=is_all,
                                             formatter_class=argparse.RawDescriptionHelpFormatter) for is_all in (False, True))
    for each in (words, parser):
        each.add_argument("-k", dest="patterns", action="append", default=[], metavar="NAME", help="only the tests whose name has this")
    module.add_options(parser)
    status = instead(parser.parse_args())
    print(*lines, sep="\n", end="\n" * bool(lines))
    if status is not None:
        sys.exit(status)
    known, own = words.parse_known_args()
    python = part_runs.interpreter()
    os.execv(python, part_runs.command(python, os.path.realpath(sys.argv[0]), known.patterns, f"--words={shlex.join(own)}", *["-s"] * bool(own)))
