"""The checksums of what the runtimes write, as scripts/shims/checksum.h has them."""

import binascii
from collections.abc import Iterable

ODD, WORD = 0x9E3779B97F4A7C15, 1 << 64
crc = binascii.crc32


def checksum_of(numbers: "Iterable[int]") -> int:
    """Of some numbers of 64 bits."""
    check = 0
    for number in numbers:
        check = (check ^ number) * ODD % WORD
    return check
