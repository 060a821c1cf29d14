"""Seeded inputs of the commands: texts that are right or nearly so, with numbers of any length, and the words that they are given to.

    for words, text in drawn(random.Random(1), 100, tuned): ..

TUNED makes the certificate of `tune` or `fit` for a text."""

import random
from collections.abc import Iterator
from typing import Callable

from mte_scripts.formats import LARGEST_SIZE

EDGES = [0, 1, 2, 15, 16, 17, 31, 32, 33, 63, 64, 65, 80, 1023, 1024, 1025, LARGEST_SIZE, LARGEST_SIZE + 1, 1_048_576, 1_048_577, 10**9, 10**9 + 1,
         2**31 - 1, 2**31, 2**32, 2**32 + 7, 10**18, 10**19 - 1, 10**19, 2**63, 2**64 - 1, 2**64, 2**64 + 16,
         10**20, 2**80 + 5, 2**128 - 1, 2**128, 2**128 + 40, 10**60]
COMMANDS = "score tune check footprint fit check-fit peaks profile replay run".split()
VALUES = ("8", "1", "0", "33", "+8", "08", "8 ", "", "-1", "0x8", "1e1", "64", "65535", "65536", "18446744073709551616", "\uff15", "--", "-h",
          "\udcff")
WORDS = ("--", "-", "x", "-h", "--help", "-V", "--version", "help", "score", "-l", "--limit=8=8", "\udcff")
PIECES = [b"", b" ", b"  ", b"\t", b"\r", b"\0", b"+", b"-", b"-0", b"00", b"01", b"0x1", b"1e3", b"1.0", b"a", b"A0", b"ff", b"\xff", b"large",
          b"-large", b"row", b"step", b"limit", b"waste", b"footprint", b"moments", b"classes", b"snapshots", b"timeline", b"malloc", b"free", b"touch", b"\n"]


def number(draw: random.Random) -> bytes:
    """A number of any length: at an edge, or of so many digits."""
    if draw.random() < 0.5:
        return str(max(0, draw.choice(EDGES) + draw.choice((-1, 0, 0, 1)))).encode()
    return str(draw.randrange(10 ** draw.choice((5, 25, 90)))).encode()


def count(draw: random.Random) -> int:
    return draw.choice((1, 1, 2, 3, draw.randrange(1, 100), draw.randrange(1, 10**9 + 1)))


def sizes(draw: random.Random) -> "list":
    """Ascending sizes, and perhaps `large`."""
    most = draw.choice((40, 200, LARGEST_SIZE + 1))
    taken = sorted(draw.sample(range(most), draw.randrange(min(most, 14))))
    return [*taken, *["large"] * draw.choice((0, 0, 1))]


def lines(*each: "tuple") -> bytes:
    return "".join(" ".join(map(str, words)) + "\n" for words in each).encode()


def profile(draw: random.Random) -> bytes:
    return lines(*((size, count(draw)) for size in sizes(draw)))


def history(draw: random.Random) -> bytes:
    snapshots = draw.choice((1, 2, 3, 5))
    rows = ((size, *(draw.choice((0, count(draw))) for _ in range(snapshots - 1)), count(draw)) for size in sizes(draw))
    return lines(("snapshots", snapshots), *rows)


def timeline(draw: random.Random) -> bytes:
    live: list = []
    events: list = []
    kinds = sizes(draw) or [7]
    for _ in range(draw.randrange(30)):
        if live and draw.random() < 0.4:
            events.append((f"-{live.pop(draw.randrange(len(live)))}",))
        else:
            live.append(draw.choice(kinds))
            events.append((live[-1],))
    return lines(("timeline",), *events)


def class_line(draw: random.Random) -> bytes:
    most = draw.choice((6, 40, 1025))
    return lines(("classes", *sorted(draw.sample(range(2, most), draw.randrange(min(most - 2, 6))))))


def trace(draw: random.Random) -> bytes:
    variable = lambda: draw.choice((1, 2, 3, 1023))
    place = lambda: draw.choice((0, 1, 15, 16, 31, 32, -1, -16, draw.randrange(-70, 70), draw.randrange(-(2**20), 2**20)))
    request = lambda: draw.choice((0, 16, 17, 40, draw.randrange(600), draw.randrange(20_000), draw.randrange(2**31)))
    length = lambda: draw.choice((1, 2, 16, 64, draw.randrange(1, 65)))
    made = []
    for _ in range(draw.randrange(40)):
        name = draw.choice(("malloc", "malloc", "calloc", "realloc", "free", "load", "load", "store", "addg", "subg"))
        words = {
            "free": lambda: (), "load": lambda: (place(), length()), "store": lambda: (place(), length(), f"{draw.randrange(256):02x}"),
            "addg": lambda: (variable(), draw.randrange(64), draw.randrange(16)),
            "subg": lambda: (variable(), draw.randrange(64), draw.randrange(16)),
        }.get(name, lambda: (request(),))()
        made.append((name, variable(), *words))
    return lines(*made)


def spoil_text(draw: random.Random, text: bytes) -> bytes:
    """The text with a change at a word, a line or a byte."""
    rows = [row.split(b" ") for row in text.split(b"\n")]
    at = draw.randrange(len(rows))
    row = rows[at]
    word = draw.randrange(len(row))
    kind = draw.randrange(11)
    if kind < 3:
        row[word] = number(draw)
    elif kind == 3:
        row[word] = draw.choice((number(draw) + row[word], row[word] + number(draw), b"0" + row[word], b"-" + row[word]))
    elif kind == 4:
        row[word] = draw.choice(PIECES)
    elif kind == 5:
        row.insert(word, draw.choice((number(draw), draw.choice(PIECES))))
    elif kind == 6:
        del row[word]
    elif kind == 7:
        rows.insert(draw.randrange(len(rows) + 1), list(draw.choice(rows)))
    elif kind == 8:
        del rows[at]
    elif kind == 9:
        other = draw.randrange(len(rows))
        rows[at], rows[other] = rows[other], rows[at]
    text = b"\n".join(b" ".join(each) for each in rows)
    if kind == 10 and text:
        place = draw.randrange(len(text))
        text = text[:place] + draw.choice((b"", bytes([draw.randrange(256)]), draw.choice(PIECES))) + text[place + draw.randrange(2):]
    return text


def words(draw: random.Random) -> "list[str]":
    """Words of a command line, mostly those of a command."""
    made = [draw.choice((*COMMANDS, "help", "-h", "-V", "scor"))] if draw.random() < 0.95 else []
    for _ in range(draw.randrange(4)):
        option, value = draw.choice(("--limit", "--limit", "--step", "--granules", "--seed", "--quarantine", "--lim")), draw.choice(VALUES)
        made += draw.choice(([option, value], [option, value], [f"{option}={value}"], [draw.choice(WORDS)]))
    return made


def draw_inputs(draw: random.Random, times: int, tuned: "Callable[[str, bytes], bytes]") -> "Iterator[tuple[str, bytes]]":
    """So many inputs, each with the words of its command."""
    for _ in range(times):
        command = draw.choice(("score", "tune", "check", "check", "footprint", "fit", "check-fit", "check-fit", "peaks", "profile", "replay", "run"))
        limits = f"--limit {draw.choice((1, 2, 3, 8, 32))}" + draw.choice(("", "", " --step 2", " --step 4", " --step 8"))
        table = limits + draw.choice(("", "", "", " --largest-class 1"))
        heap = draw.choice(("", "--granules 64", "--granules 97 --quarantine 64", "--seed 7 --quarantine 0"))
        over_time = {"footprint": (history, timeline), "fit": (history, timeline), "check-fit": (history, timeline), "peaks": (timeline,)}
        counts = draw.choice(over_time.get(command, (profile,)))(draw)
        text = {
            "score": lambda: class_line(draw) + counts, "footprint": lambda: class_line(draw) + counts, "peaks": lambda: class_line(draw) + counts, "tune": lambda: counts, "fit": lambda: counts,
            "check": lambda: tuned(f"tune {table}", counts) + counts, "check-fit": lambda: tuned(f"fit {table}", counts) + counts,
            "replay": lambda: class_line(draw) + trace(draw),
        }.get(command, lambda: trace(draw))()
        options = {"tune": table, "fit": table, "replay": heap, "run": f"{limits} {heap}"}.get(command, "")
        for _ in range(draw.choice((0, 1, 1, 1, 2, 4))):
            text = spoil_text(draw, text)
        yield f"{command} {options}", text[:-1] if draw.random() < 0.1 else text
