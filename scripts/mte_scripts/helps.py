"""Reads the help of a command into its parts, so that its parser, its manual page and its completions have no words of their own."""

import itertools
import re
from collections import namedtuple
from collections.abc import Iterator

# an option: its names, the word for its value or None, what the help says of it, whether the value follows a `=`
Option = namedtuple("Option", "names value text joined")
# a paragraph of text, a list of (term, text), lines as they stand, or the items of a list
Block = namedtuple("Block", "kind content")

# headings of a help that are sections of a manual page
TITLES = {"Options:": "OPTIONS", "Commands:": "COMMANDS", "Exit status:": "EXIT STATUS", "Example:": "EXAMPLES", "Examples:": "EXAMPLES"}
FILES = re.compile(r"FILE|FOLDER|TABLE|LIST|DIR|COUNTS")


def sessions(text: str) -> "dict[str, str]":
    """The texts of scripts/tests/help.txt by the words of `mte_tool` that print them."""
    return dict(re.findall(r"(?m)^\$ mte_tool (.*)\n((?:(?!\$ ).*\n)*)", text))


class Help:
    """What a help says: `intro`, the words before the usage; `usage`, its lines; and the blocks of its `sections`."""

    def __init__(self, text: str) -> None:
        before, usage, after = re.fullmatch(r"(.*?)^Usage: (.*?\n)(?:\n(.*))?", text, re.S | re.M).groups()
        self.intro = " ".join(before.split())
        self.usage = [line.strip() for line in usage.splitlines()]
        self.sections = sections(after or "")

    def blocks(self, title: str) -> "list[Block]":
        return self.sections.get(title, [])

    def what(self) -> str:
        """The first clause of the intro, as the line NAME of a manual page has it."""
        first = re.split(r"[.:;](?: |$)", self.intro)[0]
        return first[0].lower() + first[1:]

    def terms(self, title: str) -> "list[tuple[str, str]]":
        return [pair for block in self.blocks(title) if block.kind == "terms" for pair in block.content]

    def options(self) -> "list[Option]":
        """The options that are listed, then those that the usage alone has, then --help."""
        found = [option_of(term, text) for term, text in self.terms("OPTIONS")]
        for line in self.usage:
            for name, value in re.findall(r"(?<!\S)\[?(--[a-z][a-z-]*)(?: ([A-Z]+))?", line):
                if not any(name in option.names for option in found):
                    found.append(Option([name], value or None, "", False))
        if not any("--help" in option.names for option in found):
            found.append(Option(["-h", "--help"], None, "Print help", False))
        return found

    def runs_program(self) -> bool:
        """Whether its words are another program and that one's words."""
        return any("PROGRAM" in line for line in self.usage)


def option_of(term: str, text: str) -> Option:
    """`--limit <K>`, `--limit K`, `-h, --help`, `--history[=T]` and the like."""
    names = re.findall(r"(?<![\w-])--?[A-Za-z][\w-]*", term)
    value = re.search(r"[ =](<?)([A-Za-z|.]+)>?\]?$", term)
    return Option(names, value[2] if value else None, text, "=" in term)


def choices(option: Option) -> "list[str]":
    """The values of an option where they are few: `a|b`, or `1, 2, 4 or 8` in its text."""
    if option.value and "|" in option.value:
        return option.value.split("|")
    few = re.search(r"(?:: |^)((?:\d+, )+\d+ or \d+)\b", option.text)
    return re.findall(r"\d+", few[1]) if option.value and few else []


def takes_file(option: Option) -> bool:
    return bool(option.value and FILES.fullmatch(option.value))


def indent(line: str) -> int:
    return len(line) - len(line.lstrip(" "))


def groups(text: str) -> "Iterator[list[str]]":
    """The lines of the help in groups: those that follow one another, and are indented or not."""
    for (is_text, _), group in itertools.groupby(text.splitlines(), lambda line: (bool(line.strip()), bool(indent(line)))):
        if is_text:
            yield [line.rstrip() for line in group]


def sections(text: str) -> "dict[str, list[Block]]":
    """The blocks by their section; what has no heading of its own is the description."""
    found: "dict[str, list[Block]]" = {}
    title = "DESCRIPTION"
    for group in groups(text):
        if len(group) == 1 and group[0] in TITLES:
            title = TITLES[group[0]]
            continue
        block, its_own = block_of(group), None
        if inline := re.match("Exit status: (.*)", " ".join(group)):
            block, its_own = Block("text", inline[1]), "EXIT STATUS"
        elif re.match(r"(Refused|Failures)\b.*exit status \d", group[0]):
            title = "EXIT STATUS"
        elif title == "DESCRIPTION" and block.kind == "terms" and all(term.startswith("-") for term, _ in block.content):
            its_own = "OPTIONS"
        elif title in ("OPTIONS", "COMMANDS", "EXIT STATUS") and block.kind == "text":
            title = "DESCRIPTION"
        found.setdefault(its_own or title, []).append(block)
    return found


def block_of(group: "list[str]") -> Block:
    if not indent(group[0]):
        return Block("text", " ".join(group))
    if group[0].lstrip().startswith("- "):
        return Block("items", [" ".join(item.split()) for item in re.split(r"(?m)^ *- ", "\n".join(group))[1:]])
    terms = terms_of(group)
    base = min(map(indent, group))
    return Block("terms", terms) if terms else Block("lines", [line[base:] for line in group])


def terms_of(group: "list[str]") -> "list[tuple[str, str]] | None":
    """The lines `TERM  text`, the text on further lines that are indented more; None where a line is no such line."""
    names = [line for line in group if re.match(r" {2,8}\S", line)]
    base = 8 if names and all(re.match(r" +-", line) for line in names) else min(map(indent, group))
    found = []
    for line in group:
        if indent(line) <= base:
            term, gap, text = re.match(r" *(.*?)(?:( {2,})(.*))?$", line).groups()
            if text and re.search(r"\S {2,}\S", text):
                return None
            found.append((term, [text] if gap else []))
        elif found:
            found[-1][1].append(line.strip())
    return [(term, " ".join(text)) for term, text in found] if all(text for _, text in found) else None
