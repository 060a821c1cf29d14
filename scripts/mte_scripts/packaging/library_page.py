"""The manual page of the library, in section 3, made of the header for C."""

import re
import textwrap
from collections.abc import Iterator

from mte_scripts.packaging.manual import escape_roff, prose

WIDTH = 74
# what is of the compiler alone
LEFT_OUT = re.compile(r"#(ifndef|ifdef|endif|if|elif|else|include|define MTE_TOOL_(H\b|CHECKED\b|TEXT \{const_cast))|extern \"C\"|\}$|/\* before a call whose end")


def items(header: str) -> "Iterator[tuple[str, str]]":
    """The header's comments and the code between them, each with its kind."""
    for comment, code in re.findall(r"(?ms)^(/\*.*?\*/)$|^([^\s/].*?)(?=\n\n|\Z)", header):
        lines = code.split("\n")
        kept = [line for line in lines if not LEFT_OUT.match(line)] if lines[0].startswith("#") else [] if LEFT_OUT.match(code) else lines
        if comment and not LEFT_OUT.match(comment):
            yield "comment", comment[2:-2].strip()
        elif kept and not comment:
            yield "code", "\n".join(kept)


def paragraphs(words: str) -> "Iterator[str]":
    """A comment: its paragraphs, and the items of a list."""
    for part in re.split(r"\n\n|\n(?= *- )", words):
        text = " ".join(part.split())
        yield from (".IP \\(bu 2", prose(text[2:])) if text.startswith("- ") else (".PP", prose(text))


def example(lines: "list[str]") -> "list[str]":
    return [".PP", ".RS 2", ".EX", *map(escape_roff, lines), ".EE", ".RE"]


def members(code: str) -> "Iterator[str]":
    """What an enumeration, a structure or a row of numbers has, each with its words."""
    for term, words in re.findall(r"(?m)^ *([^/\n]*?[,;]?) *(?:/\*((?:[^*]|\*(?!/))*)\*/)?$", code):
        if term:
            shown = f"\\fB{escape_roff(term.rstrip(','))}\\fR"
            yield from (".TP", shown, prose(" ".join(words.split()))) if words else (".PP", shown)


def declaration(code: str) -> "list[str]":
    """A function, in lines that a terminal has room for."""
    head, _, arguments = " ".join(code.replace("MTE_TOOL_CHECKED ", "").split()).partition("(")
    kept = f"{head}({arguments}".replace(", ", ",\n").replace(" ", "\0").replace("\n", " ")  # it is cut between two arguments alone
    return [line.replace("\0", " ") for line in textwrap.wrap(kept, WIDTH, subsequent_indent="    ", break_long_words=False)]


def lines_of(code: str) -> "Iterator[str]":
    if found := re.match(r"(?s)typedef (?:enum|struct) (\w+) \{\n(.*)\n\} \w+;", code):
        yield from (*example([f"{code.split(' {')[0]} {{ .. }} {found[1]};"]), ".RS 2", *members(found[2]), ".RE")
        yield from (line for rest in [code[found.end() :].strip()] if rest for line in lines_of(rest))
    elif code.startswith("#define MTE_TOOL_MOST_INPUT"):
        yield from (".RS 2", *members(code), ".RE")
    elif code.startswith(("#", "typedef")):
        yield from example(code.split("\n"))
    else:
        yield from example([line for each in re.findall(r"(?s)[^;]+;", code) for line in declaration(each)])


def page(header: str, date: str, version: str) -> str:
    """The page of the functions and structures that a header declares."""
    out = [f'.TH "MTE_TOOL" 3 "{date}" "{version}" "Library Functions"', ".nr HY 0", ".nh", ".SH NAME",
           "mte_tool \\- class tables with certificates, and a heap with memory tags", ".SH SYNOPSIS", ".nf",
           "\\fB#include <mte_tool.h>\\fR", ".PP", "Link with \\fI\\-lmte_tool\\fR, or by pkg\\-config: mte_tool.", ".fi", ".SH DESCRIPTION"]
    for kind, text in items(header):
        if text.startswith("---- "):
            title, _, rest = text[5:].partition("\n")
            out += [f".SS {escape_roff(title[0].upper() + title[1:])}", *(paragraphs(rest) if rest.strip() else [])]
        else:
            out += lines_of(text) if kind == "code" else paragraphs(text)
    out += [".SH SEE ALSO", ".BR mte_tool (1)"]
    return "\n".join(line for at, line in enumerate(out) if line != ".PP" or not out[at - 1].startswith((".SH", ".SS"))) + "\n"
