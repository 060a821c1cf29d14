"""A run that was recorded with its stacks: each event of the timeline has a site, which is a stack and a size. shims/sites.h writes it."""

import struct
from array import array
from typing import NamedTuple

from mte_scripts.entry_point import Refusal

HEAD = struct.Struct("<5Q")
MODULE = struct.Struct("<4Q")


class Module(NamedTuple):
    """An object that was loaded: where, and by how much its addresses differ from those in its file."""

    image: int
    low: int
    high: int
    bias: int
    path: str


class Sites(NamedTuple):
    """The events, twice their site and 1 for a free; of each site its size, LARGE for any above the largest, and its stack, the innermost call
    first, as the image that the addresses are of, and these."""

    events: array
    sizes: array
    stacks: "list[tuple[int, tuple]]"
    modules: list[Module]


def words_of(kind: str, data: bytes) -> array:
    found = array(kind)
    found.frombytes(data)
    return found


def parse_sites(data: bytes) -> Sites:
    """The record; refused where it is not whole."""
    try:
        number, sites, words, modules, width = HEAD.unpack_from(data)
    except struct.error:
        raise Refusal(3, "the stacks of the run were not recorded") from None
    lengths, at, parts = (8 * words, width * modules, 8 * sites, 4 * sites, 4 * number), HEAD.size, []
    if len(data) != at + sum(lengths):
        raise Refusal(3, "the record of the stacks is cut off")
    for length in lengths:
        parts.append(data[at : at + length])
        at += length
    stack_words, begins = words_of("Q", parts[0]), words_of("Q", parts[2])
    if any(begin > words for begin in begins):
        raise Refusal(3, "the record of the stacks is damaged")
    return Sites(words_of("I", parts[4]), words_of("I", parts[3]), [stack_at(stack_words, begin) for begin in begins],
                 [module_of(parts[1][place : place + width]) for place in range(0, len(parts[1]), width)])


def stack_at(words: array, begin: int) -> tuple[int, tuple]:
    """The stack whose first word has this place, from 1."""
    if not begin:
        return 0, ()
    image, number = words[begin - 1] >> 32, words[begin - 1] & 0xFFFFFFFF
    return image, tuple(words[begin : begin + number])


def module_of(data: bytes) -> Module:
    image, low, high, bias = MODULE.unpack_from(data)
    return Module(image, low, high, bias, data[MODULE.size :].split(b"\0", 1)[0].decode(errors="surrogateescape"))
