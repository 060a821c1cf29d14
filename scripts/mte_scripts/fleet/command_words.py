"""The options of the commands of a fleet: what each takes, and what it is where it is left out. And their steps."""

import argparse
from collections.abc import Callable
from typing import Any

from mte_scripts import helps, words
from mte_scripts.entry_point import Refusal
from mte_scripts.fleet import caps, rows
from mte_scripts.fleet.machine_values import FEWEST
from mte_scripts.formats import MOST_CLASSES
from mte_scripts.words import decimal, number_between

CHANCE = decimal(50, 99.9999, "a chance in percent")
# by option: what its value is, and its default
OPTIONS: "dict[str, tuple]" = {
    "limit": (words.TABLES["limit"], MOST_CLASSES),
    "step": (words.TABLES["step"], 1),
    "cap": (number_between(1, 10**18 - 1), caps.MOST),
    "limit_percent": (decimal(0, 1_000_000, "a percentage"), None),
    "resample": (number_between(20, 10_000), None),
    "hold_out": (number_between(2, 1000), None),
    "load": (number_between(1, rows.MOST_LOAD), None),
    "seed": (number_between(0, 10**9), 1),
    "machines": (number_between(FEWEST, 10**9), None),
    "saving": (decimal(0.001, 99, "a percentage"), None),
    "spread": (decimal(0.001, 10_000, "a percentage"), None),
    "predicted": (decimal(0, 99, "a percentage"), None),
    "level": (CHANCE, 95.0),
    "power": (CHANCE, 90.0),
}


def take_options(given: "list[str]", text: str, of: str = "", rest: str = "names", **own: tuple) -> argparse.Namespace:
    """The options of a help, or those OF these names, and other words as REST. OWN are more rows of OPTIONS."""
    there = {words.dest_of(option.names[-1]) for option in helps.Help(text).options()}
    known = {name: row for name, row in {**OPTIONS, **own}.items() if name in there}
    kinds: Any = {name: {"type": kind, "default": default} for name, (kind, default) in known.items()}
    return words.Words(text, rest, of=of.split(), **kinds).take(given, once=True)


def run_step(given: "list[str]", text: str, **steps: "Callable[[list[str]], int]") -> int:
    """Runs the step of a command that its first word names, with the others."""
    if given[:1] in (["-h"], ["--help"], ["-V"], ["--version"]):
        words.Words(text).take(given[:1])
    if not given or given[0] not in steps:
        *names, last = steps
        raise Refusal(2, f"the first word is {', '.join(names)} or {last}; --help says more")
    return steps[given[0]](given[1:])
