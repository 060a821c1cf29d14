"""Manual pages, made of the helps."""

from collections.abc import Iterator, Sequence

from mte_scripts.helps import Block, Help


SECTIONS = ["DESCRIPTION", "COMMANDS", "OPTIONS", "EXIT STATUS", "EXAMPLES"]


def escape_roff(text: str) -> str:
    """A line of text for roff, as it stands: a hyphen stays one that can be copied, and no line begins a request."""
    for old, new in (("\\", "\\e"), ("-", "\\-"), ("'", "\\(aq"), ("`", "\\(ga"), ("^", "\\(ha"), ("~", "\\(ti")):
        text = text.replace(old, new)
    return "\\&" + text if text.startswith(".") else text


def prose(text: str) -> str:
    """The same; words between backquotes are bold."""
    parts = text.split("`")
    if len(parts) % 2 == 0:
        return escape_roff(text)
    marked = "".join(f"\\fB{escape_roff(part)}\\fR" if at % 2 else escape_roff(part) for at, part in enumerate(parts))
    return "\\&" + marked if marked.startswith(("\\.", ".")) else marked


def lines_of(block: Block) -> "Iterator[str]":
    if block.kind == "text":
        yield from (".PP", prose(block.content))
    elif block.kind == "terms":
        for term, text in block.content:
            yield from (".TP", f"\\fB{escape_roff(term)}\\fR", prose(text))
    elif block.kind == "items":
        for item in block.content:
            yield from (".IP \\(bu 2", prose(item))
    else:
        yield from (".PP", ".RS 4", ".EX", *map(escape_roff, block.content), ".EE", ".RE")


def page(name: str, help_: Help, date: str, version: str, also: "list[str]", files: "Sequence[tuple[str, str]]" = ()) -> str:
    """The manual page of a command. ALSO names other pages, FILES are (path, what it is)."""
    title = name.replace(" ", "-")
    out = [f'.TH "{escape_roff(title.upper())}" 1 "{date}" "{version}" "User Commands"', ".nh"]
    out += [".SH NAME", f"{escape_roff(title)} \\- {prose(help_.what())}", ".SH SYNOPSIS", ".nf"]
    for line in help_.usage:
        word, space, rest = line.partition(" ")
        out += [f"\\fB{escape_roff(word)}\\fR{space}{prose(rest)}"]
    out += [".fi"]
    for section in SECTIONS:
        blocks = help_.blocks(section)
        if section == "DESCRIPTION":
            out += [".SH DESCRIPTION", prose(help_.intro)]
        elif blocks:
            out += [f".SH {section}"]
        for block in blocks:
            lines = list(lines_of(block))
            out += lines[out[-1].startswith(".SH") and lines[0] == ".PP" :]
    if files:
        out += [".SH FILES"]
        for path, what in files:
            out += [".TP", f"\\fI{escape_roff(path)}\\fR", prose(what)]
    if also:
        out += [
            ".SH SEE ALSO",
            *(f".BR {escape_roff(other)} (1){',' if at < len(also) else ''}" for at, other in enumerate(also, 1)),
        ]
    return "\n".join(out) + "\n"
