"""What a command of the program reads, and what its input looks like: said after a fault, on a terminal."""

import os
import sys

from mte_scripts import count_texts, entry_point, text_files
from mte_scripts.formats import COMMANDS

HEAD = 1 << 16  # bytes by which a text is known
FORMS = {
    "classes": "a class line, as `classes 2 8`,",
    "profile": "a profile, whose lines have a size and a count, as `16 3`",
    "sheet": "a sheet, which `tune` prints,",
    "fit": "a fit, which `fit` prints,",
    "history": "a history, whose first line is as `snapshots 2`, or a timeline, whose first line is `timeline`",
    "timeline": "a timeline, whose first line is `timeline`",
    "trace": "a trace, whose lines are events, as `malloc 0 24`",
}
USES = {
    "a profile": "`tune` takes it",
    "a history": "`fit` and `tune_program --read` take it",
    "a timeline": "`fit` and `tune_program --read` take it",
    "a trace": "`profile` makes the profile of a trace",
    "a class line": "`score` and `footprint` begin with it",
    "a sheet": "its first line is a class line, and `check` takes all of it before its profile",
    "a fit": "its first line is a class line, and `check-fit` takes all of it before its history",
    "a file of another tool": "`profile_program --import FILE` makes a profile of it",
}


def name_text(lines: "list[bytes]") -> str:
    """What a text looks like by its first lines; empty where nothing is known."""
    first, word = lines[0].rstrip(b"\r"), lines[0].split(b" ")[0]
    if word == b"classes":
        words = {line.split(b" ")[0] for line in lines[1:6]}
        return "a fit" if b"footprint" in words else "a sheet" if words & {b"waste", b"limit"} else "a class line"
    marks = ((count_texts.parse_count_line(first), "a profile"), (count_texts.is_history(first), "a history"),
             (count_texts.is_timeline(first), "a timeline"), (word in count_texts.EVENT_WORDS, "a trace"))
    return next((name for is_so, name in marks if is_so), "")


def look_at_text(head: bytes) -> str:
    """What an input that begins with these bytes looks like, and of two texts one after the other both; empty where nothing is known."""
    if count_texts.OTHER_TOOLS.match(text_files.first_line(head)):
        return "a file of another tool"
    if wrong := count_texts.encoding(text_files.first_line(head)):
        return wrong
    lines = head.split(b"\n")
    name = name_text(lines)
    rest = [line for line in lines[1:] if line.split(b" ")[0] not in count_texts.SHEET_WORDS] if lines[0].startswith(b"classes") else []
    after = name_text(rest) if any(rest) else ""
    return f"{name} and then {after}" if after else name


def hint(command: str, head: bytes) -> str:
    """What a command reads, and what was given, of which HEAD is the begin; empty for another word than a command's."""
    known = COMMANDS.get(command.replace("-", "_"))
    if not known:
        return ""
    reads = f"{command} reads {' and then '.join(FORMS[each] for each in known.inputs)}"
    looks = look_at_text(head) if head else ""
    if not looks:
        return reads
    if looks not in USES and " and then " not in looks:
        return f"{reads}; {looks}"
    wanted = [FORMS[each].split(",")[0] for each in known.inputs]
    is_wanted = wanted == [looks] or (wanted, looks) == (["a history"], "a timeline")
    return f"{reads}; this looks like {looks}" + (f": {USES[looks]}" if looks in USES and not is_wanted else "")


def read_head() -> bytes:
    """The begin of standard input, where that is a file."""
    try:
        return os.pread(0, HEAD, 0)
    except OSError:
        return b""


def main(words: "list[str]") -> None:
    if len(words) != 1:
        raise entry_point.Refusal(2, "it is `step input_hints COMMAND`")
    if said := hint(words[0], read_head()):
        print(f"mte_tool: {entry_point.printable(said)}", file=sys.stderr)
