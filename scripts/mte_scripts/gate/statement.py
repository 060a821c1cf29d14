"""Print a promise's contract, and below it each definition that it reaches.

Usage: statement [--html] NAME
       statement --count

  --html     one page in HTML: each name leads to its definition, and beside a definition is an example, if there is one
  --count    how many definitions, lines and modules each NAME has, in a table

NAME is a command of mte_tool (score, tune, check, footprint, fit, check-fit, peaks, profile, replay, run), a promise of README.md
(safe, least-waste, headline, hardening, bounded, own-footprint), or `program`: the whole program on its own streams.

It is read from the top. A module of definitions, or a file with types and constants that they name, comes after all that cite it; in it a
definition comes where it is cited first. A line `-- laws:` has the laws that name a definition, where these are four at most: theorems
that say more of it. The words of std and clap come last, by their names alone. Comments and empty lines are no lines of a definition.

Exit status:
  0  it is printed
  1  a definition cites a name that nothing defines
  2  the words are refused
  3  a file can't be read, or standard output can't be written

Examples:
  scripts/statement run
  scripts/statement --html run > run.html
"""

import argparse

from mte_scripts import text_files, text_layout
from mte_scripts.entry_point import Refusal
from mte_scripts.gate import statement_page, statements
from mte_scripts.words import Words


def table() -> str:
    """The counts of all topics."""
    rows: list = [("", "definitions", "lines", "modules", "types and constants")]
    rows += [(topic, *map(str, statements.statement(topic).counts)) for topic in statements.TOPICS]
    return "".join(f"{line}\n" for line in text_layout.columns(rows))


def answer_text(options: argparse.Namespace) -> str:
    if options.count:
        if options.html or options.names:
            raise Refusal(2, "--count takes no name; --help says what there is")
        return table()
    if len(options.names) != 1:
        raise Refusal(2, "it wants one name, of a command or a promise; --help lists them")
    (name,) = options.names
    if name not in statements.TOPICS:
        raise Refusal(2, f"there is no command or promise {name}; the names are {', '.join(statements.TOPICS)}")
    found = statements.statement(name)
    return statement_page.page(found) if options.html else statements.as_text(found)


def statement(words: "list[str]") -> int:
    try:
        return text_files.write(answer_text(Words(__doc__, "names").take(words)))
    except statements.UnresolvedName as error:
        raise Refusal(1, str(error)) from None
