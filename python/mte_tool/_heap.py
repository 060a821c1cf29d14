"""One modelled heap with memory tags (docs/HEAP.md)."""

import ctypes
from types import TracebackType
from typing import Any, NamedTuple, NoReturn, Optional, Sequence, Type, TypeVar

from mte_tool import _c, _calls
from mte_tool._arrays import numbers_of
from mte_tool._codes import Code, End

KINDS = ("slack", "header", "tail", "dead", "other")
MOST_LOAD = 64

Own = TypeVar("Own", bound="Heap")


class Outcome(NamedTuple):
    """What a call on a heap gave."""

    #: False if the heap or the machine refused it, with nothing changed: `code` says why
    is_done: bool
    #: 50 and 52 of an access, 60 to 62 of a request, 63 to 65 of a free; Code.NONE if it is done
    code: Code
    #: of malloc, calloc, realloc and addg the address, with its tag in bits 56 to 59; of granule a slot's number
    value: int
    #: of a tag fault the lowest granule whose tag differs, from the region's start, its tag, the address's, and what it is
    granule: int
    memory_tag: int
    pointer_tag: int
    granule_kind: str
    #: of a load the bytes
    data: bytes

    @property
    def sentence(self) -> str:
        """What it means."""
        return End.DONE.sentence if self.is_done else self.code.sentence


class Heap:
    """A heap over a table of classes, in granules of 16 bytes, with its tagged memory. An address is a number, and no place of the process.

    >>> with Heap([4, 8]) as heap:
    ...     p = heap.malloc(40).value
    ...     _ = heap.free(p)
    ...     heap.load(p, 8).sentence
    "a granule's tag differs from the address's"

    A call that can't be made raises Error, such as a load of 65 bytes; and so do options and classes that are out of their range. A heap can't be
    copied or pickled."""

    _held: Any = None

    def __init__(self, classes: Sequence[int], *, granules: int = 65_536, quarantine: int = 65_536, seed: int = 1):
        self._held = _c.HeapPointer()
        options = _calls.options(granules=granules, quarantine=quarantine, seed=seed)
        table = numbers_of(ctypes.c_uint16, classes)
        self._made("new", ctypes.byref(self._held), ctypes.byref(options), table, len(table))

    def close(self) -> None:
        """Frees its memory. Each later call raises Error."""
        if self._held:
            _c.library.mte_tool_heap_close(self._held)
        self._held = _c.HeapPointer()

    def __del__(self) -> None:
        self.close()

    def __enter__(self: Own) -> Own:
        return self

    def __reduce__(self) -> NoReturn:
        raise TypeError("a heap can't be copied or pickled")

    def __exit__(self, kind: Optional[Type[BaseException]], error: Optional[BaseException], trace: Optional[TracebackType]) -> None:
        self.close()

    def _made(self, name: str, *arguments: object) -> Outcome:
        outcome, result = _c.Outcome(), _c.Result()
        end = getattr(_c.library, f"mte_tool_heap_{name}")(*arguments, ctypes.byref(outcome))
        result.code = outcome.code
        yes, kind = _calls.is_yes(end, result), _kind(outcome.granule_kind)
        return Outcome(yes, Code(outcome.code), outcome.value, outcome.granule, outcome.memory_tag, outcome.pointer_tag, kind, b"")

    def malloc(self, size: int) -> Outcome:
        """A chunk of so many bytes."""
        return self._made("malloc", self._held, _size(size))

    def calloc(self, size: int) -> Outcome:
        """The same, of zeros."""
        return self._made("calloc", self._held, _size(size))

    def realloc(self, address: int, size: int) -> Outcome:
        """Another size for the chunk at an address; of 0 it is malloc."""
        return self._made("realloc", self._held, _address(address), _size(size))

    def free(self, address: int) -> Outcome:
        """Frees the chunk at an address; 0 is let pass."""
        return self._made("free", self._held, _address(address))

    def load(self, address: int, length: int) -> Outcome:
        """Reads 1 to 64 bytes from an address on."""
        room = ctypes.create_string_buffer(MOST_LOAD)
        made = self._made("load", self._held, _address(address), room, length if 0 <= length <= MOST_LOAD else 0)
        return made._replace(data=room.raw[:length]) if made.is_done else made

    def store(self, address: int, data: bytes) -> Outcome:
        """Writes 1 to 64 bytes from an address on."""
        return self._made("store", self._held, _address(address), data, len(data))

    def granule(self, number: int) -> Outcome:
        """What a granule is, by its number from the region's start on: `granule_kind` and `memory_tag`; of a slot its number is `value`, and
        its first granule `granule`."""
        return self._made("granule", self._held, number if 0 <= number <= _calls.MOST else _calls.MOST)

    def addg(self, address: int, granules: int, step: int) -> Outcome:
        """The address so many granules (0 to 63) further up, with its tag counted up by so many steps (0 to 15)."""
        numbers = (number if 0 <= number <= _calls.MOST else _calls.MOST for number in (granules, step))
        return self._made("addg", self._held, _address(address), *numbers)


def _kind(number: int) -> str:
    """What a granule is. A later library may know more kinds."""
    return KINDS[number] if number < len(KINDS) else f"kind {number}"


def _address(address: int) -> int:
    return _calls.whole(address, "an address")


def _size(size: int) -> int:
    """A request; what C can't say is larger than all."""
    return size if 0 <= size <= _calls.MOST else _calls.MOST
