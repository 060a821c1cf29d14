"""The words of a command, by argparse. Its help is a text of its own, which has its options and their values; what is refused ends it with
status 2 and one line.

    options = Words(HELP, "files", limit=between(1, 32), defaults={"limit": 8}).take(words)
"""

import argparse
import keyword
import os
import re
import sys
from collections.abc import Sequence
from typing import Any, Callable, NoReturn

from mte_scripts import helps, shell_words, text_files
from mte_scripts.entry_point import Refusal
from mte_scripts.formats import MOST_CLASSES, VERSION

# what argparse says, and what a script says
SAYINGS = (
    (r"unrecognized arguments: (-[^\s=]+).*", r"there is no option \1"),
    (r"unrecognized arguments: (.*)", r"there is no place for \1"),
    (r"argument (\S+): expected one argument", r"\1 takes a value"),
    (r"argument (\S+): not allowed with argument (\S+)", r"\2 and \1 can't be given both"),
    (r"argument (\S+): (takes .*)", r"\1 \2"),
    (r"argument (\S+): ignored explicit argument .*", r"\1 takes no value"),
    (r"argument (\S+): (.*)", r"\1: \2"),
)


def dest_of(option: str) -> str:
    """What an option is called in Python."""
    name = option.lstrip("-").replace("-", "_")
    return f"{name}_" if keyword.iskeyword(name) else name


class Words(argparse.ArgumentParser):
    """Takes the options of a help and other words, the option REST, in any order; `--` ends the options. An option without a value there is
    True where it is given; a value is any word but an empty one, or of the type that KINDS has for it, which may also be what else argparse
    has of an option. DEFAULTS is what options are where they are left out, else None. OF is which of the options are taken, if not all."""

    def __init__(self, help_text: str, rest: str = "", defaults: "dict[str, Any] | None" = None, of: "Sequence[str]" = (),
                 **kinds: Any) -> None:
        super().__init__(add_help=False, allow_abbrev=False, conflict_handler="resolve")
        options = {dest_of(option.names[-1]): option for option in helps.Help(help_text).options()}
        if unknown := {*kinds, *(defaults or {}), *of} - options.keys():
            raise ValueError(f"the help has no options {unknown}")
        for name, option in options.items():
            kind: Any = kinds.get(name, nonempty_word if option.value else {"action": "store_true"})
            how: dict = kind if isinstance(kind, dict) else {"type": kind, "default": (defaults or {}).get(name)}
            if not of or name in of:
                self.add_argument(option.names[-1], dest=how.pop("dest", name), **how)
        self.add_argument("-h", "--help", action=Says, const=shell_words.help_text(help_text))
        self.add_argument("-V", "--version", action=Says, const=f"{os.path.basename(sys.argv[0])} {VERSION}\n")
        if rest:
            self.add_argument(rest, nargs="*")

    def take(self, words: list, once: bool = False, into: "argparse.Namespace | None" = None) -> argparse.Namespace:
        """The options by their names, or INTO what has them then. With ONCE none of them may be there twice."""
        given, rest = self.split(words)
        names = self.given(words)
        if twice := [name for name in names if once and names.count(name) > 1]:
            self.error(f"{twice[0]} is there twice")
        options = self.parse_intermixed_args(given, into)
        return self.with_rest(options, rest)

    def split(self, words: list) -> "tuple[list, list]":
        """The options and words up to `--`, an option and its value in one word; and those after it."""
        given, at = [], 0
        while at < len(words) and words[at] != "--" and not self.is_last(words[at]):
            word, at = words[at], at + 1
            option = self._option_string_actions.get(word)
            if option and option.nargs is None and at < len(words) and words[at] not in ("--", *self._option_string_actions):
                word, at = f"{word}={words[at]}", at + 1
            given.append(word)
        return given, words[at + (words[at : at + 1] == ["--"]) :]

    def given(self, words: list) -> list:
        """The names of the options that are there."""
        return [word.partition("=")[0] for word in self.split(words)[0] if word.startswith("--")]

    def is_last(self, word: str) -> bool:
        """Whether a word that is no option's value ends the options."""
        return False

    def with_rest(self, options: argparse.Namespace, rest: list) -> argparse.Namespace:
        """The options with the words after `--`."""
        others = [action.dest for action in self._actions if not action.option_strings]
        if rest and not others:
            self.error(f"there is no place for {rest[0]}")
        for name in others:
            setattr(options, name, [*getattr(options, name), *rest])
        return options

    def error(self, message: str) -> NoReturn:
        for pattern, says in SAYINGS:
            if match := re.fullmatch(pattern, message, re.S):
                message = match.expand(says)
                break
        raise Refusal(2, f"{message}; --help says what there is")


class ProgramWords(Words):
    """Takes options, and then the words of a program: `words`, from the first one that is no option, or from `--` on."""

    def is_last(self, word: str) -> bool:
        return not word.startswith("-") or word == "-"

    def with_rest(self, options: argparse.Namespace, rest: list) -> argparse.Namespace:
        options.words = rest
        return options


class Says(argparse.Action):
    """An option that prints a text, and ends the command."""

    def __init__(self, option_strings: "Sequence[str]", dest: str, const: str) -> None:
        super().__init__(option_strings, argparse.SUPPRESS, nargs=0, const=const)

    def __call__(self, parser: argparse.ArgumentParser, *_: object) -> None:
        text_files.write(self.const)
        parser.exit()


def number_between(least: int, most: int) -> Callable[[str], int]:
    """A number of a range."""
    def taken(word: str) -> int:
        if not re.fullmatch("[0-9]{1,18}", word) or not least <= int(word) <= most:
            raise argparse.ArgumentTypeError(f"takes a number from {least} to {most}, and not {word}")
        return int(word)

    return taken


def decimal(least: float, most: float, what: str) -> Callable[[str], float]:
    """A number of a range that may have a point."""
    def taken(word: str) -> float:
        if not re.fullmatch(r"[0-9]{1,9}(\.[0-9]{1,9})?", word) or not least <= float(word) <= most:
            raise argparse.ArgumentTypeError(f"takes {what} from {least:g} to {most:g}, and not {word}")
        return float(word)

    return taken


def number_among(*values: int) -> Callable[[str], int]:
    """One of these numbers."""
    name_of = name_among(*map(str, values))
    return lambda word: int(name_of(word.lstrip("0") or "0"))


def name_among(*names: str) -> Callable[[str], str]:
    """One of these names."""
    def taken(word: str) -> str:
        if word not in names:
            raise argparse.ArgumentTypeError(f"takes {', '.join(names[:-1])} or {names[-1]}, and not {word}")
        return word

    return taken


def nonempty_word(word: str) -> str:
    """A word that is not empty."""
    if not word:
        raise argparse.ArgumentTypeError("takes a value")
    return word


# which tables are meant: of at most so many classes, all multiples of so many granules
TABLES: "dict[str, Any]" = {"limit": number_between(1, MOST_CLASSES), "step": number_among(1, 2, 4, 8)}
