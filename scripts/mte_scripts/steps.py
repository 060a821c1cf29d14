"""Steps of shell scripts that are in Python."""

import importlib

from mte_scripts import entry_point, formats

HELP = """\
Take a step of a shell script that is in Python.

Usage: step private_folder make NAME               make a temporary folder that only the user can change, and print its path
       step private_folder remove NAME FOLDER      remove it; NAME is the script's own
       step manifest sources FOLDER                print the hash of the sources of the repository in FOLDER
       step manifest write FOLDER PROGRAM SOURCES [LOG]
                                                   write the manifest of a program that rt has just built of these sources
       step engines find WORD                      print what runs the project's engines, a line each: what is said before a
                                                   command that begins with WORD, the program, and its words; status 1 where
                                                   other ones answer
       step engines state                          say which program answers, and who has proved it
       step engines build                          compile them into the cache, where no other process does
       step first_build [FOLDER PROGRAM [minutes]]
                                                   prove the crates below a program side by side, or print about how long
                                                   that takes, or how many at once
       step input_hints COMMAND                    say what a command reads, and what standard input looks like, if it is a file

Exit status: 0 it is done, 2 the words are refused, 3 it failed.
"""
# imported once they are wanted: the first has to be there soon
MODULES = {"private_folder": "private_folder", "manifest": "manifest", "engines": "engines", "first_build": "builds.first_build", "input_hints": "input_hints"}


def name(words: list) -> str:
    """In whose name it is told what goes wrong: the script's, where it gives its name."""
    own = words[0] if words[:1] and words[0] in MODULES else "step"
    if own == "engines":
        return "mte_tool"
    return words[2] if own == "private_folder" and len(words) > 2 else own


def step(words: list) -> "int | None":
    if words in (["--help"], ["-h"]):
        print(HELP, end="")
        return 0
    if words in (["--version"], ["-V"]):
        print(f"step {formats.VERSION}")
        return 0
    if not words or words[0] not in MODULES:
        raise entry_point.Refusal(2, f"it is `step {'`, `step '.join(MODULES)}`, and more words; --help says which")
    return importlib.import_module(f"mte_scripts.{MODULES[words[0]]}").main(words[1:])
