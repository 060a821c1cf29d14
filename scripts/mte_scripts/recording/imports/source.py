"""A file of another tool: unpacked as it is read, and never more of it than a limit, whatever it says of itself."""

import contextlib
import shutil
import subprocess
import threading
import zlib
from typing import BinaryIO, Generator, Iterator

from mte_scripts import text_files
from mte_scripts.entry_point import Refusal
from mte_scripts.formats import MOST_INPUT

GZIP, ZSTD = b"\x1f\x8b", b"\x28\xb5\x2f\xfd"
MOST_STREAMED = 1 << 34  # bytes of an unpacked file that is read line by line
MOST_WHOLE = MOST_INPUT  # of one that is held whole
MOST_LINE = 1 << 20
PIECE = 1 << 16
Pieces = Generator[bytes, None, None]


class Wrong(Exception):
    """What is wrong with a file; who catches it names the file."""


class Source:
    """The unpacked bytes of a file, or of standard input for `-`."""

    def __init__(self, path: str) -> None:
        self.name = text_files.input_name(path)
        self.file = text_files.open_input(path)
        self.ends_in_line = False  # whether the last line lacks its newline; known at the end
        self.pieces = self.unpacked(self.packed())
        self.head = b""

    def __enter__(self) -> "Source":
        return self

    def __exit__(self, *_: object) -> None:
        self.pieces.close()
        self.file.close()

    def packed(self) -> bytes:
        return text_files.next_piece(self.file, self.name, PIECE) or b""

    def unpacked(self, begin: bytes) -> Pieces:
        pieces = self.from_gzip if begin.startswith(GZIP) else self.from_zstd if begin.startswith(ZSTD) else self.plain
        given = 0
        with contextlib.closing(pieces(begin)) as made:
            for piece in made:
                given += len(piece)
                if given > MOST_STREAMED:
                    raise Wrong(f"it has more than {MOST_STREAMED:,} bytes")
                yield piece

    def plain(self, piece: bytes) -> Pieces:
        while piece:
            yield piece
            piece = self.packed()

    def from_gzip(self, piece: bytes) -> Pieces:
        unpacker = zlib.decompressobj(31)
        try:
            while piece:
                if unpacker.eof:  # a file may have several parts
                    unpacker = zlib.decompressobj(31)
                if made := unpacker.decompress(piece, PIECE):
                    yield made
                piece = unpacker.unconsumed_tail or unpacker.unused_data or self.packed()
            while made := unpacker.decompress(b"", PIECE):
                yield made
        except zlib.error as error:
            raise Wrong(f"its gzip data is damaged: {error}") from None
        if not unpacker.eof:
            raise Wrong("its gzip data is cut off")

    def from_zstd(self, begin: bytes) -> Pieces:
        """By the command zstd: Python has no module for it before 3.14."""
        program = shutil.which("zstd")
        if not program:
            raise Wrong("it is packed by zstd, and there is no command zstd: install it, for example by `apt-get install zstd`")
        words = [program, "-dcq", "--memory=256MB"]
        with subprocess.Popen(words, stdin=subprocess.PIPE, stdout=subprocess.PIPE, stderr=subprocess.DEVNULL) as process:
            to, process.stdin = process.stdin, None  # which is the thread's alone
            threading.Thread(target=self.feed, args=(to, begin), daemon=True).start()
            try:
                while piece := process.stdout.read(PIECE):
                    yield piece
            except GeneratorExit:
                process.kill()
                raise
        if process.returncode:
            raise Wrong("its zstd data is cut off or damaged")

    def feed(self, to: BinaryIO, piece: bytes) -> None:
        with contextlib.suppress(OSError, ValueError, Refusal), to:  # a reader that has gone is no fault
            while piece:
                to.write(piece)
                piece = self.packed()

    def begin(self, most: int) -> bytes:
        """The first bytes, which are still to be read."""
        while len(self.head) < most and (piece := next(self.pieces, b"")):
            self.head += piece
        return self.head[:most]

    def __iter__(self) -> Iterator[bytes]:
        head, self.head = self.head, b""
        if head:
            yield head
        yield from self.pieces

    def whole(self) -> bytes:
        """All bytes of a file that may not be large."""
        data = bytearray()
        for piece in self:
            data += piece
            if len(data) > MOST_WHOLE:
                raise Wrong(f"it has more than {MOST_WHOLE:,} bytes")
        return bytes(data)

    def lines(self) -> Iterator[list[bytes]]:
        """The lines, without their newlines, some at a time. Each byte is copied a few times, however small the pieces are."""
        rest: list[bytes] = []  # of a line
        length = 0
        for piece in self:
            rest.append(piece)
            length += len(piece)
            if b"\n" in piece:
                *found, last = b"".join(rest).split(b"\n")
                rest, length = [last], len(last)
                yield found
            if length > MOST_LINE:
                raise Wrong(f"a line has more than {MOST_LINE:,} bytes")
        self.ends_in_line = length > 0
        if length:
            yield [b"".join(rest)]
