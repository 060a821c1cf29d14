"""Words of the shell as the user types them here: paths, and the names of the scripts, which an installed package changes."""

import functools
import os
import re
import shlex
import sys

from mte_scripts.places import IS_PACKAGED, ROOT, SCRIPTS


def command_name(name: str) -> str:
    """What a script is called: mte_NAME in an installed package, since names such as `report` are anybody's there."""
    return f"mte_{name}" if IS_PACKAGED and name != "mte_tool" else name


@functools.lru_cache(maxsize=None)
def script_names() -> re.Pattern:
    """How a text names scripts: any by its path, and those by their name alone that have no other meaning, or where they are called."""
    names = sorted((name for name in os.listdir(SCRIPTS) if os.path.isfile(os.path.join(SCRIPTS, name))), key=len, reverse=True)
    every, own = ("|".join(map(re.escape, some)) for some in (names, [name for name in names if "_" in name and name != "mte_tool"]))
    return re.compile(rf"(?<![\w/.-])scripts/({every})(?![\w+])|(?m:^Usage: ({every})(?= ))|(?<![\w/.-])({own})(?![\w+/])")


def rename_scripts(text: str) -> str:
    """A text that names the scripts as in the repository, with the names that they have here."""

    def here(match: re.Match) -> str:
        name = match[1] or match[2] or match[3]
        return match[0].replace(f"scripts/{name}" if match[1] else name, command_name(name))

    return script_names().sub(here, text) if IS_PACKAGED else text


def quote_word(word: str) -> str:
    """A word for any shell, all of whose characters are text: printf knows the others by their numbers. What it prints loses line breaks at its
    end, so a word with one there is for bash, zsh and ksh."""
    if word.isprintable():
        return shlex.quote(word)
    whole = os.fsencode(word)
    if word.endswith("\n"):
        return "$'" + "".join(chr(b) if 32 <= b < 127 and b not in b"\\'" else f"\\x{b:02x}" for b in whole) + "'"
    return "\"$(printf '" + "".join(chr(b) if chr(b).isalnum() and b < 128 or b in b"_./ " else f"\\{b:03o}" for b in whole) + "')\""


def path_word(path: str) -> str:
    """A path as a word for the shell, which no command takes for an option."""
    return quote_word(f"./{path}" if path.startswith("-") else path)


def script_word(name: str) -> str:
    """A script as a word of a command for the folder in which this script was called: found as this one was."""
    if IS_PACKAGED:
        return command_name(name)
    folder = os.path.dirname(sys.argv[0]) or "."
    return path_word(os.path.join(folder if os.path.realpath(folder) == os.path.realpath(SCRIPTS) else SCRIPTS, name))


def help_text(text: str) -> str:
    """A help, so that its examples can be run as they stand, and the documents that it names are found."""
    if IS_PACKAGED:
        places = {name: os.path.realpath(os.path.join(ROOT, name)) for name in ("docs", "examples")}
        text = re.sub(r"(?<![\w/.-])(docs|examples)/(?=\w)", lambda match: f"{places[match[1]]}/", rename_scripts(text))
    return text
