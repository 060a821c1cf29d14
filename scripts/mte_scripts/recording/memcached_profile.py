"""Prints a profile of the items of memcached. `memcached_profile --help` says all."""

import functools
import re
import socket
from collections import Counter

from mte_scripts import count_texts, text_files, text_layout
from mte_scripts.entry_point import Refusal, say
from mte_scripts.formats import LARGEST_SIZE
from mte_scripts.words import Words

HELP = f"""Print a profile of the items of memcached: of those that a server holds, or of keys and values of one's own.

Usage: memcached_profile [--each] HOST:PORT
       memcached_profile [--flags] [--no-cas] --items FILE      (standard input for `-`)

An item is the header of 48 bytes, 8 more for its compare-and-swap number, the key, a byte, the value, and 2 bytes. An item of more
than {LARGEST_SIZE:,} bytes is `large`: memcached_sizes leaves those to memcached's own chunks.

HOST:PORT asks the server for `stats sizes`. It counts in steps of 32 bytes, and each item counts as the most of its step; so the
table's chunks are multiples of 32. The server counts if it was started with `-o track_sizes`, or from the command
`stats sizes_enable` on.

  --each        asks for `lru_crawler metadump all` in place of it: a line for each item, with its exact size. It needs no option
                of the server, but takes it longer: it goes through all items, and sends their keys too
  --items FILE  counts the items of a file: a line is the bytes of a key, the bytes of its value and, if you like, a count
  --flags       of --items: each item has client flags other than 0, which take 4 bytes
  --no-cas      of --items: the server has no compare-and-swap numbers (its option -C)

Exit status:
  0  the profile is printed
  2  the words are refused, the file can't be read, or a line of it is no such line
  3  the server does not answer, does not count sizes, or holds no item; the file has no item; or standard output can't be written

Example:
  memcached_profile --each 127.0.0.1:11211 > cache.profile
  echo '11 300 5000' | memcached_profile --items -
"""

HEADER, CAS, FLAGS = 48, 8, 4
STEP = 32  # of `stats sizes`
LONGEST_KEY = 250
MOST_VALUE = 1 << 30  # memcached's option -I takes no more
LONGEST_LINE = 4096  # of an answer; a key takes at most three characters for each of its bytes
WAIT = 30  # seconds


def profile(words: "list[str]") -> None:
    options = Words(HELP, "names", items={"action": "store_true"}).take(words, once=True)
    if len(options.names) != 1:
        raise Refusal(2, "name a server as HOST:PORT, or a file after --items; `memcached_profile --help` says all")
    if options.each if options.items else options.flags or options.no_cas:
        raise Refusal(2, "--each is for a server; --flags and --no-cas are for --items, as a server says itself how "
                         "large an item is")
    if options.items:
        header = HEADER + (0 if options.no_cas else CAS) + (FLAGS if options.flags else 0)
        counts = of_file(options.names[0], header)
    else:
        counts = of_server(options.names[0], options.each)
    text_files.write(count_texts.fitting_text(count_texts.with_large(counts), functools.partial(say, "memcached_profile")))


def of_file(path: str, header: int) -> "Counter[int]":
    counts: "Counter[int]" = Counter()
    for number, line in enumerate(text_files.lines_of(text_files.read(path)), 1):
        match = re.fullmatch(rb"[ \t]*([0-9]{1,10})[ \t]+([0-9]{1,10})(?:[ \t]+([0-9]{1,10}))?[ \t]*", line)
        if not match:
            wrong = (count_texts.encoding(line, number)
                     or f"line {number} is not KEYBYTES VALUEBYTES [COUNT]: {text_layout.shorten_line(line)}")
            raise Refusal(2, f"{text_files.input_name(path)}: {wrong}")
        key, value, count = int(match[1]), int(match[2]), int(match[3] or 1)
        if not 1 <= key <= LONGEST_KEY or value > MOST_VALUE:
            wrong = f"a key has 1 to {LONGEST_KEY} bytes, and a value at most {MOST_VALUE}"
            raise Refusal(2, f"{text_files.input_name(path)}: line {number}: {wrong}")
        size = header + key + 1 + value + 2
        counts[size] += count
    if not any(counts.values()):
        raise Refusal(3, f"{text_files.input_name(path)}: there is no item: did the command that writes it fail?")
    return counts


def of_server(name: str, each: bool) -> "Counter[int]":
    match = re.fullmatch(r"\[?([^\[\]]+)\]?:([0-9]{1,5})", name)
    if not match or not 1 <= int(match[2]) <= 65535:
        raise Refusal(2, f"{name} is not HOST:PORT, such as 127.0.0.1:11211")
    counts: "Counter[int]" = Counter()
    try:
        with socket.create_connection((match[1], int(match[2])), WAIT) as connection, connection.makefile("rb") as answer:
            connection.sendall(b"lru_crawler metadump all\r\n" if each else b"stats sizes\r\n")
            while line := answer.readline(LONGEST_LINE):
                if line == b"END\r\n":
                    break
                read_answer(name, line, each, counts)
            else:
                raise Refusal(3, f"{name} ended the connection before the end of its answer")
    except OSError as error:
        raise Refusal(3, f"{name} does not answer: {error.strerror or error}: is memcached running there?") from None
    except UnicodeError:  # a host name that no resolver takes
        raise Refusal(2, f"{name} is not HOST:PORT, such as 127.0.0.1:11211") from None
    if not counts:
        raise Refusal(3,
                      f"{name} holds no item" + ("" if each else ", or has stored none since it began to count sizes"))
    if not each:
        say("memcached_profile", f"the sizes are in steps of {STEP} bytes; with --each they are exact")
    return counts


def read_answer(name: str, line: bytes, each: bool, counts: "Counter[int]") -> None:
    """Adds a line of the server's answer to the counts."""
    match = re.fullmatch(rb"key=.* size=([0-9]{1,20})\r?\n" if each else rb"STAT ([0-9]{1,20}) ([0-9]{1,20})\r\n", line)
    if match:
        counts[int(match[1])] += 1 if each else int(match[2])
    elif line == b"STAT sizes_status disabled\r\n":
        raise Refusal(3, f"{name} does not count sizes: start it with `-o track_sizes`, or ask with --each")
    elif line.startswith(b"BUSY"):
        raise Refusal(3, f"{name} already goes through its items for another: try again")
    else:
        raise Refusal(3, f"{name} does not answer as memcached 1.6 does: {text_layout.shorten_line(line.rstrip())}")
