"""Reads the log that a program of traced_cc writes (scripts/shims/accesses/log.c says what its head and its lines are).

A log of a large program has millions of records, so they stand in columns of numbers, and so do the blocks. A log may come from anywhere: a
number that no program can have is refused before anything is made of it."""

import contextlib
import os
import re
import stat
import struct
from array import array
from collections import namedtuple
from collections.abc import Iterator, Sequence
from typing import Any, BinaryIO, Optional

from mte_scripts import checksum
from mte_scripts.faults.variables import find_variable
from mte_scripts.formats import LARGEST_SIZE

WINDOW = 64  # the bytes of the longest access of a trace

HEAD, FORM = 128, b"ACCESS1\0"
MARK = struct.Struct("<5Q")  # length, sum, not_logged, state, check
ORIGIN = struct.Struct("<QQ16s")  # dropped; the length and the name of what a fork's log goes on from
RUNNING, ENDED, CUT, NO_ROOM, STOPPED, HALTED = 1, 2, 3, 4, 5, 6  # the last two by the first error
MOST_BYTES = (1 << 30) + (8 << 20)  # the runtime takes a gibibyte, and a piece of eight mebibytes
LONGEST_LINE = 4096
MOST_SIZE = 1 << 47  # of an address space
MOST_OBJECT = (1 << 63) - 1  # bytes
LONGEST_RIGHT = 16  # of a right access: it is in one granule
MOST_UNRECORDED = 1 << 20  # blocks that handlers of signals requested
PIECE = 1 << 20
MOST_TIMES = 1 << 63
STACK = re.compile(rb"([0-9]{1,10})(?::([0-9a-f]{1,16}(?:,[0-9a-f]{1,16}){0,15}))?")
ADDRESS = re.compile(rb"[0-9a-f]{1,16}")
STOP = "AddressSanitizer ended the program at its first error; built with -fsanitize-recover=address, it goes on"
HALT = "--halt ended the program at its first error"
# what makes a block, and what ends it, by their numbers in a record
MAKERS, ENDERS = (dict(enumerate(names.split())) for names in ("malloc new new[]", "free delete delete[] realloc"))
KERNEL = 128  # of a signal's codes: from 1 to below it, the address is that of the access
SIGNALS = {4: "SIGILL", 6: "SIGABRT", 7: "SIGBUS", 8: "SIGFPE", 11: "SIGSEGV"}

Module = namedtuple("Module", "low high offset path")
Crash = namedtuple("Crash", "signal address stack")  # the name of the signal; the address is None where it is not known
Mark = namedtuple("Mark", "number offset size stack")  # the number of a call that poisoned or unpoisoned these bytes, from 1


class NoLog(Exception):
    """The file is no log."""


def require(is_right: object) -> None:
    """Ends the reading at a record that no program makes."""
    if not is_right:
        raise NoLog


class Error(namedtuple(
    "Error", "letter block offset size stack state times poisoned unpoisoned is_guess functions variable",
    defaults=(1, None, None, False, None, None),
)):
    """A wrong access or free. The letter is the log's: L, S, P, Q, V, x, y, o or n. The state is of the block then: live, freed or resized. Times
    is how often it came. Of an access of poisoned memory, the Marks by which the program poisoned it, and unpoisoned it before. `is_guess`: where
    it begins, or of which block it is, is a guess. `functions`: by which of MAKERS a block was made that a wrong one of ENDERS ends, if they are
    known. `variable`: of an access near one (variables.Variable)."""

    def is_free(self) -> bool:
        return self.letter in "xyon"

    def is_load(self) -> bool:
        return self.letter in "LP"

    def is_of_poison(self) -> bool:
        return self.letter in "PQ"

    def is_inside(self) -> bool:
        """Whether the heap has nothing against it."""
        return self.letter in "PQV"

    def is_too_large(self) -> bool:
        """Whether no object can have so many bytes."""
        return self.size > MOST_OBJECT

    def window(self, block_size: int) -> tuple[int, int]:
        """(offset, length) of what a trace asks: from the first wrong byte on, at most 64 bytes."""
        is_past = self.state == "live" and self.offset >= 0 and not self.is_inside()
        begin = max(self.offset, block_size) if is_past else self.offset
        return begin, max(1, min(self.offset + self.size - begin, WINDOW))


def open_log(path: str) -> BinaryIO:
    """A file that is open for reading; a pipe is not waited for."""
    return open(path, "rb", opener=lambda path, how: os.open(path, how | os.O_NONBLOCK | os.O_NOCTTY))


def pieces_of(path: str) -> "list[bytes]":
    """The text of a fork's log: first what it shares with its parent's, which is in the same folder; before it its head.
    Nothing of a log that has all of its text itself."""
    pieces: "list[bytes]" = []
    at, left, head = path, MOST_BYTES, b""
    while left:
        try:
            with open_log(at) as file:
                begin = file.read(HEAD) or b""
                _, length, name = ORIGIN.unpack_from(begin.ljust(HEAD, b"\0"), HEAD - ORIGIN.size)
                if not head and not length:
                    return []
                if not length < left or b"/" in name:
                    raise NoLog
                pieces.append(file.read(min(left - length, os.fstat(file.fileno()).st_size)) or b"")
        except OSError:
            if not head:
                return []  # its reader says why
            raise NoLog from None
        head = head or begin
        at, left = os.path.join(os.path.dirname(path), os.fsdecode(name.rstrip(b"\0"))), length
    return [head[: HEAD - ORIGIN.size] + ORIGIN.pack(0, 0, b""), *reversed(pieces)]


@contextlib.contextmanager
def whole_log(path: str) -> "Iterator[str]":
    """The path of a log with all of its text."""
    pieces = pieces_of(path)
    if not pieces:
        yield path
        return
    descriptor = os.memfd_create("mte_tool")
    with open(descriptor, "wb") as file:
        file.writelines(pieces)
        file.flush()
        yield f"/proc/{os.getpid()}/fd/{descriptor}"


class Text:
    """The lines of a log, and what is missing of it."""

    def __init__(self, file: BinaryIO) -> None:
        status = os.fstat(file.fileno())
        if not stat.S_ISREG(status.st_mode) or status.st_size > HEAD + MOST_BYTES:
            raise NoLog
        self.file, self.missing, self.is_damaged = file, [], False
        self.length, self.sum, self.not_logged, self.state, self.dropped = 0, 0, 0, ENDED, 0
        head = file.read(HEAD)
        self.is_empty = not head.strip(b"\0")
        if self.is_empty:
            self.missing.append("the log is empty: it could not be written")
            return
        if len(head) < HEAD or not head.startswith(FORM):
            raise NoLog
        (turn,) = struct.unpack_from("<Q", head, len(FORM))
        self.dropped = ORIGIN.unpack_from(head, HEAD - ORIGIN.size)[0]
        marks: list[tuple] = [MARK.unpack_from(head, len(FORM) + 8 + at * MARK.size) for at in range(2)]
        if turn > 1 or not is_whole(marks[turn]):
            self._damaged("its head was overwritten")
            marks = [mark for mark in marks if is_whole(mark)] or [(0, 0, 0, ENDED, 0)]
            turn = -1
        self.length, self.sum, self.not_logged, self.state, _ = marks[turn]

    def _damaged(self, how: str) -> None:
        self.is_damaged = True
        self.missing.append(f"the log is damaged: {how}. What it tells may be wrong")

    def lines(self) -> "Iterator[bytes]":
        """The whole lines that the head speaks of."""
        left, found, rest = self.length, 0, b""
        while left:
            piece = self.file.read(min(left, PIECE))
            if not piece:
                self.missing.append(f"the log has {self.length - left} of its {self.length} bytes")
                return
            left -= len(piece)
            found = checksum.crc(piece, found)
            *lines, rest = (rest + piece).split(b"\n")
            if len(rest) > LONGEST_LINE:
                break
            yield from lines
        if (left or rest or found != self.sum) and not self.is_damaged:
            self._damaged("a line has no end" if left or rest else "its checksum is another one")

    def say_end(self) -> None:
        """Adds what is missing where all that there is of the log was read."""
        if self.state == CUT:
            what = "of what the program did later it has wrong accesses and frees alone"
            self.missing.append(f"the log could not grow at {self.length} bytes: {what}")
        elif self.state in (STOPPED, HALTED):
            self.missing.append(STOP if self.state == STOPPED else HALT)
        elif self.state == NO_ROOM:
            how = "raise `ulimit -v`, and don't set vm.overcommit_memory to 2"
            self.missing.append(f"the runtime had no room for its tables, and ended the program: {how}")
        elif self.state != ENDED:
            how = "it was killed, ran another one in its place, or still runs"
            self.missing.append(f"the program did not come to its end: {how}. What it did until then is told")
        if self.not_logged:
            self.missing.append(f"wrong accesses that the runtime could not log: {self.not_logged}")


def is_whole(mark: tuple) -> bool:
    """Whether the check of a mark is right."""
    return checksum.checksum_of(mark[:4]) == mark[4]


class Log:
    """Records in their order. A record has a letter and up to three numbers: m and c (block, size), r (old block, new block, size),
    f (block), l and s (block, offset, length), and E (number of the error, from 0). Blocks are numbered from 1. `crash` is the Crash
    that ended the program, `status` its exit status, each None where the log has none. What is `missing` of the log is a list of
    sentences, `length` the bytes of its lines that were read. A log that `is_small` tells of the errors of a large one, and has not all of
    its blocks (scripts/shims/reader/heap_answers.c)."""

    def __init__(self, path: str) -> None:
        self.letters = bytearray()
        self.first, self.second, self.third = array("q"), array("q"), array("q")
        self.size, self.made, self.ended = array("q", [0]), array("q", [0]), array("q", [0])
        self.chain = array("q", [0])  # of a block: the block that reallocs made it from, or itself
        self.next = array("q", [0])  # of a block: the one that a realloc made from it, or 0
        self.stacks = [""]  # a stack is a text PC,PC,..; block 0 and stack 0 are unknown ones
        self.errors: list[Error] = []
        self.modules: list[Module] = []
        self.crash: Optional[Crash] = None
        self.status: Optional[int] = None
        self.length, self.is_small, self.left_out = 0, False, 0  # the last counts blocks that the log has nothing of
        self.alignment: dict[int, int] = {}  # of a block that was requested with a larger one than malloc's
        self._times: dict[int, int] = {}
        self._numbers = {0: 0}
        self.lost: set[int] = set()  # blocks to which no pointer is left at the end; with 0 where all such are told
        self.maybe_lost: set[int] = set()  # to which the stack alone has a pointer, which may be an old one
        self.ignored: set[int] = set()  # blocks whose leak the program wants passed over
        self.unrecorded: set[int] = set()  # blocks that a handler of a signal requested have no record
        self._taken_back: set[int] = set()
        self._marks: dict[int, array] = {}  # of a block: (offset, size, stack, 1 where the bytes were poisoned) of each call, in their order
        self._kept: Optional[list[int]] = None  # where some were taken back: the numbers in the log of the others
        with open_log(path) as file:
            text = Text(file)
            self._read_all(text)
            text.say_end()
        self.missing, self.is_empty, self.is_damaged = text.missing, text.is_empty, text.is_damaged
        for at, times in self._times.items():
            self._tell(at, times=times)
        self._drop_taken_back()

    def _read_all(self, text: Text) -> None:
        lines = text.lines()
        for number, line in enumerate(lines, 1):
            try:
                self._read(line)
                self.length += len(line) + 1
            except (NoLog, ValueError, IndexError, KeyError, OverflowError):
                for _ in lines:  # the checksum says whether this was a log once
                    pass
                if text.missing:
                    text.missing.append(f"nothing is read of the log from its line {number} on")
                    return
                raise NoLog from None

    def _read(self, line: bytes) -> None:
        letter, *words = line.split(b" ")
        self.READERS[letter](self, letter, words)

    def _right(self, letter: bytes, words: "list[bytes]") -> None:
        block, offset, length = map(int, words)
        self._know(block)
        if block not in self.unrecorded:
            if not (self.ended[block] == -1 and 0 <= offset and 0 < length <= LONGEST_RIGHT and offset + length <= self.size[block]):
                raise NoLog
            self._add(letter, block, offset, length)

    def _request(self, letter: bytes, words: "list[bytes]") -> None:
        (block, size), stack = self._parts(words)
        self._block(block, size, stack, block)
        self._add(letter, block, size)

    def _align(self, _: bytes, words: "list[bytes]") -> None:
        block, alignment = map(int, words)
        require(0 < block < len(self.size) and 0 < alignment < MOST_SIZE)
        self.alignment[block] = alignment

    def _free(self, letter: bytes, words: "list[bytes]") -> None:
        (block,), stack = self._parts(words)
        self._end(block, stack)
        self._add(letter, block)

    def _resize(self, letter: bytes, words: "list[bytes]") -> None:
        (old, new, size), stack = self._parts(words)
        self._end(old, stack)
        self._block(new, size, stack, self.chain[old])
        self.next[old] = new
        self._add(letter, old, new, size)

    def _module(self, _: bytes, words: "list[bytes]") -> None:
        *places, path = b" ".join(words).decode(errors="surrogateescape").split(" ", 3)
        low, high, place = (int(each, 16) for each in places if len(each) <= 16)
        require("\0" not in path)
        self.modules.append(Module(low, high, place, path))

    def _take_back(self, _: bytes, words: "list[bytes]") -> None:
        (number,) = words
        self._taken_back.add(self._index(number))

    def _again(self, _: bytes, words: "list[bytes]") -> None:
        number, times = words
        require(0 < int(times) < MOST_TIMES)
        self._times[self._index(number)] = int(times)

    def _crash(self, _: bytes, words: "list[bytes]") -> None:
        signal, code, at, frames = words
        require(ADDRESS.fullmatch(at))
        name = SIGNALS[int(signal)]
        is_known = name in ("SIGSEGV", "SIGBUS") and 0 < int(code) < KERNEL
        self.crash = self.crash or Crash(name, int(at, 16) if is_known else None, self._stack(frames))

    def _status(self, _: bytes, words: "list[bytes]") -> None:
        (self.status,) = map(int, words)
        require(0 <= self.status < 256)

    def _wrong(self, letter: bytes, words: "list[bytes]") -> None:
        self._error(letter.decode(), *self._parts(words))

    def _mark(self, letter: bytes, words: "list[bytes]") -> None:
        (block, offset, size), stack = self._parts(words)
        if block:
            self._know(block)
        require(0 <= offset < MOST_SIZE and 0 < size <= MOST_SIZE)
        self._marks.setdefault(block, array("q")).extend((offset, size, stack, letter == b"p"))

    def _left(self, letter: bytes, words: "list[bytes]") -> None:
        (block,) = map(int, words)
        if block or letter != b"k":
            self._know(block)
        {b"i": self.ignored, b"k": self.lost, b"q": self.maybe_lost}[letter].add(block)

    def _index(self, number: bytes) -> int:
        """The place of an error, by its number from 1 on."""
        require(0 < int(number) <= len(self.errors))
        return int(number) - 1

    def _tell(self, at: int, **more: Any) -> None:
        self.errors[at] = self.errors[at]._replace(**more)

    def _guess(self, _: bytes, words: "list[bytes]") -> None:
        (number,) = words
        self._tell(self._index(number), is_guess=True)

    def _name_variable(self, _: bytes, words: "list[bytes]") -> None:
        number, *text = words
        lines = b" ".join(text).decode(errors="replace").split("\t")
        if (found := find_variable(lines)) and found.frame:
            pc = int(found.frame.split(" ")[0], 16)
            self.stacks.append(f"{pc + 1:x}")  # the function itself, and no place that a call returns to
            found = found._replace(stack=len(self.stacks) - 1)
        self._tell(self._index(number), variable=found)

    def _leave_out(self, letter: bytes, words: "list[bytes]") -> None:
        (number,) = map(int, words)
        require(0 <= number < MOST_SIZE)
        self.left_out += number
        self._add(letter, number)

    def _learn_stack(self, _: bytes, words: "list[bytes]") -> None:
        (stack,) = words
        self._stack(stack)

    def _pass_over(self, letter: bytes, words: "list[bytes]") -> None:
        """What the profile counts (z), and that handlers of signals requested blocks (h), is for the reader alone."""
        numbers = list(map(int, words))
        require(len(numbers) == {b"z": 2, b"h": 0}[letter])
        require(not numbers or 0 <= numbers[0] <= LARGEST_SIZE + 1 and 0 < numbers[1] < MOST_SIZE)

    READERS = {bytes([letter]): read for letters, read in (
        (b"ls", _right), (b"mc", _request), (b"LSPQVxyon", _wrong), (b"pu", _mark), (b"ikq", _left), (b"zh", _pass_over), (b"a", _align),
        (b"f", _free), (b"r", _resize), (b"M", _module), (b"-", _take_back), (b"+", _again), (b"C", _crash), (b"e", _status),
        (b"d", _leave_out), (b"t", _learn_stack), (b"g", _guess), (b"v", _name_variable),
    ) for letter in letters}  # of a record, by its letter; one of another letter has no key

    def _parts(self, words: "list[bytes]") -> "tuple[list[int], int]":
        """The numbers of a record, and its stack."""
        *numbers, stack = words
        return list(map(int, numbers)), self._stack(stack)

    def _add(self, letter: bytes, first: int, second: int = 0, third: int = 0) -> None:
        self.letters += letter
        self.first.append(first)
        self.second.append(second)
        self.third.append(third)

    def _know(self, block: int) -> None:
        """Makes place for a block, and for those before it."""
        if not 0 < block <= len(self.size) + MOST_UNRECORDED + self.left_out - len(self.unrecorded):
            raise NoLog
        while len(self.size) <= block:
            self.unrecorded.add(len(self.size))
            for column, value in ((self.size, 0), (self.made, 0), (self.ended, -1), (self.chain, len(self.size)), (self.next, 0)):
                column.append(value)

    def _block(self, block: int, size: int, stack: int, chain: int) -> None:
        self._know(block)
        if block not in self.unrecorded or self.ended[block] != -1 or not 0 <= size < MOST_SIZE:
            raise NoLog
        self.unrecorded.discard(block)
        self.size[block], self.made[block], self.chain[block] = size, stack, chain

    def _end(self, block: int, stack: int) -> None:
        self._know(block)
        if self.ended[block] != -1:
            raise NoLog
        self.ended[block] = stack

    def _error(self, letter: str, numbers: list[int], stack: int) -> None:
        require(len(numbers) == {"x": 2, "o": 0, "n": 0}.get(letter, 3))
        block, offset, size = (numbers + [0, 0, 0])[:3]
        if letter in "LSPQV":
            size %= 1 << 64  # a size of size_t that is above all is printed as a negative number
        require(-MOST_SIZE < offset < MOST_SIZE and (letter not in "LSPQV" or size))
        if block:
            self._know(block)
        else:  # of an access the offset says what it stands for in place of a block
            require(letter not in "LSy" or letter != "y" and 0 <= offset <= 2)
        functions = (MAKERS[offset], ENDERS[size]) if letter == "y" else None
        self._add(b"E", len(self.errors))
        if functions:  # the block may be freed by then
            self.errors.append(Error(letter, block, 0, 0, stack, "live", functions=functions))
            return
        state = "live" if self.ended[block] == -1 else "resized" if self.next[block] else "freed"
        marks = self._marks_of(block, offset, size) if letter in "PQ" else (None, None)
        self.errors.append(Error(letter, block, offset, size, stack, state, 1, *marks))

    def _marks_of(self, block: int, offset: int, size: int) -> "tuple[Mark | None, Mark | None]":
        """The Marks by which some of these bytes were poisoned last, and unpoisoned before that; None where there is none."""
        marks, first = self._marks.get(block, array("q")), None
        left = set(range(offset, offset + min(size, WINDOW)))
        for at in range(len(marks) - 4, -1, -4):
            begin, length, stack, is_poisoned = marks[at : at + 4]
            met = {byte for byte in left if begin <= byte < begin + length}
            if not met or first and is_poisoned:
                continue
            mark = Mark(at // 4 + 1, begin, length, stack)
            if first:
                return first, mark
            if is_poisoned:
                first, left = mark, met
            else:
                left -= met
        return first, None

    def _drop_taken_back(self) -> None:
        """The runtime took some errors back as it learned more; their records are left as frees of no block, which are passed over."""
        if not self._taken_back:
            return
        errors, self.errors, self._kept = self.errors, [], []
        for at, letter in enumerate(self.letters):
            if letter != ord("E"):
                continue
            if self.first[at] in self._taken_back:
                self.letters[at], self.first[at] = ord("f"), 0
            else:
                self._kept.append(self.first[at])
                self.errors.append(errors[self.first[at]])
                self.first[at] = len(self.errors) - 1

    def kept(self) -> "Sequence[int]":
        """The numbers that the errors have among those of the log, some of which the runtime took back."""
        return range(len(self.errors)) if self._kept is None else self._kept

    def _stack(self, word: bytes) -> int:
        match = STACK.fullmatch(word)
        if not match:
            raise NoLog
        number = int(match[1])
        if match[2]:  # its first time; a stack that the runtime has no number for has 0
            self.stacks.append(match[2].decode())
            if not number:
                return len(self.stacks) - 1
            self._numbers[number] = len(self.stacks) - 1
        return self._numbers[number]
