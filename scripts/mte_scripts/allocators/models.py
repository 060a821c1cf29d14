"""What is known of allocators with size classes: which block sizes they have and may have, and what a block costs.

The sizes are those of the sources that stand beside each model; `test_allocators` compares jemalloc's and gperftools'
with the libraries."""

from collections.abc import Callable
from fractions import Fraction
from typing import NamedTuple

PAGE, SLAB_BYTES = 4096, 128  # of a slab's edata_t in jemalloc


class Model(NamedTuple):
    """An allocator's block sizes above the first of ENDS, multiples of UNIT or its OWN. Each later one of ENDS is the
    largest of a part, which is fitted by itself; it stays, as the FORCED ones do. HEADER bytes of a block hold no
    request. COST is what a block takes, in bytes, and WORDS say that. BUILD is where such sizes stand, of which there
    have to be EXACT below the largest, if any number. SERVES is what requests of it, if that is no program's malloc."""

    title: str
    build: str
    ends: "tuple[int, ...]"
    own: "tuple[int, ...]"
    unit: int = 16
    header: int = 0
    forced: "tuple[int, ...]" = ()
    cost: "Callable[[int], int]" = int
    words: str = "a block costs its size"
    exact: int = 0
    keeps_empty: bool = False  # what blocks of one size have taken, no other size gets
    serves: str = ""


def quarters(first: int, top: int) -> "tuple[int, ...]":
    """Four sizes for each power of two above the first one, up to the largest."""
    powers = [first << at for at in range((top // first).bit_length() - 1)]
    return tuple(power + power * at // 4 for power in powers for at in range(1, 5))


def slab_pages(size: int) -> int:
    """The pages of a slab of such blocks, as examples/jemalloc/classes.diff chooses them: a block takes least."""
    few = [pages for pages in range(1, 9) if pages == 1 or pages * PAGE // size <= 512]
    return min(few, key=lambda pages: Fraction(pages * PAGE + SLAB_BYTES, pages * PAGE // size))


def slab_share(size: int) -> int:
    """A block's share of its slab, to the nearest four bytes: of jemalloc's own sizes that is the size."""
    pages = slab_pages(size)
    return 4 * round(pages * PAGE / (pages * PAGE // size) / 4)


def with_header(size: int) -> int:
    return size + 16


# size_classes of jemalloc 5.3.0's src/sc.c with pages of 4 KiB
JEMALLOC = (*range(16, 129, 16), *quarters(128, 4096))
# SizeMap::Init of gperftools 2.10's src/common.cc fills class_to_size_ so: what tc_nallocx of Debian's library says
GPERFTOOLS = (
    *range(16, 257, 16), *range(288, 513, 32), 576, 640, 704, 768, 896, 1024, 1152, 1280, 1408, 1536, 1792, 2048, 2304,
    2560, 2816, 3072, 3328, 4096, 4608, 5120, 6144, 6656, 8192, 9216, 10240, 12288, 13312, 16384,
)  # fmt: skip
# size_classes of hardened_malloc's h_malloc.c, written from memory
HARDENED = (*range(16, 129, 16), *quarters(128, 16384))
# size_classes of musl 1.2.3's src/malloc/mallocng/malloc.c, in units of 16 bytes, up to 16,368 bytes
MUSL = (
    *range(1, 11), 12, 15, 18, 20, 25, 31, 36, 42, 50, 63, 72, 84, 102, 127, 146, 170, 204, 255, 292, 340, 409, 511,
    584, 682, 818, 1023,
)  # fmt: skip
# class_to_size of Go 1.19.8's runtime/sizeclasses.go (Debian's golang-1.19-src), up to 16,384 bytes
GO = (
    8, 16, 24, *range(32, 257, 16), *range(288, 513, 32), 576, 640, 704, 768, 896, 1024, 1152, 1280, 1408, 1536, 1792,
    2048, 2304, 2688, 3072, 3200, 3456, 4096, 4864, 5376, 6144, 6528, 6784, 6912, 8192, 9472, 9728, 10240, 10880, 12288,
    13568, 14336, 16384,
)  # fmt: skip
# __kmalloc_index of Linux 6.1's include/linux/slab.h (Debian's linux-headers-6.1.0-47-common), where the least is 8
KMALLOC = (8, 16, 32, 64, 96, 128, 192, 256, 512, 1024, 2048, 4096, 8192)

MODELS = {
    "jemalloc": Model(
        "jemalloc 5.3.0", "JEMALLOC_CLASSES of the build in examples/jemalloc", (8, 4096), JEMALLOC, cost=slab_share,
        words="a block costs its share of a slab of 1 to 8 pages, to the nearest 4 bytes", exact=27,
    ),
    "gperftools": Model(
        "gperftools 2.10", "class_to_size_ of src/common.cc, whose check of aligned sizes goes too", (8, 1024, 16384),
        GPERFTOOLS,
    ),
    # each block ends with a canary of 8 bytes
    "hardened_malloc": Model(
        "hardened_malloc, from memory", "size_classes and size_class_slots of h_malloc.c", (16, 1024, 16384), HARDENED,
        header=8,
    ),
    # a block serves 4 bytes fewer than it has: IB of mallocng/meta.h
    "musl": Model(
        "musl 1.2.3", "size_classes of src/malloc/mallocng/malloc.c, with a look-up in place of size_to_class",
        (16, 2032, 16368), tuple(16 * units for units in MUSL), header=4,
    ),
    "go": Model(
        "Go 1.19", "runtime/mksizeclasses.go, which writes runtime/sizeclasses.go", (8, 1024, 16384), GO,
        serves="a Go program requests of it",
    ),
    # kmalloc aligns blocks of a power of two to it, so these stay
    "kmalloc": Model(
        "kmalloc of Linux 6.1", "kmalloc_info of mm/slab_common.c and __kmalloc_index of include/linux/slab.h",
        (8, 8192), KMALLOC, unit=8, forced=tuple(1 << at for at in range(4, 13)), serves="the kernel requests of it",
    ),
    # AllocSetFreeIndex of PostgreSQL 15.18's src/backend/utils/mmgr/aset.c: powers of two, each after a header of 16
    # bytes; the limit of a small context, allocChunkLimit, may be 1,024, 2,048 or 4,096, so these stay
    "aset": Model(
        "aset of PostgreSQL 15", "AllocSetFreeIndex of src/backend/utils/mmgr/aset.c", (8, 8192),
        tuple(8 << at for at in range(11)), forced=(1024, 2048, 4096), cost=with_header,
        words="a block costs its size and a header of 16 bytes", keeps_empty=True, serves="PostgreSQL requests of it",
    ),
}  # fmt: skip
