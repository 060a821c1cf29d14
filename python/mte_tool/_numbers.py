"""What the library's enumerations share: each number is a member, also one of a later library that has no name here."""

from enum import IntEnum
from typing import Any

from mte_tool import _c


class Number(IntEnum):
    """A number that the library gives."""

    @classmethod
    def _missing_(cls, value: object) -> Any:
        if not isinstance(value, int) or not 0 <= value < 2**32:
            return None
        made = int.__new__(cls, value)
        made._name_, made._value_ = f"{cls.__name__.upper()}_{value}", int(value)
        return cls._value2member_map_.setdefault(made._value_, made)

    def __reduce_ex__(self, protocol: object) -> "tuple[Any, ...]":
        return self.__class__, (int(self),)


def end_sentence(end: int) -> str:
    return str(_c.library.mte_tool_end_sentence(end).decode())


def code_sentence(code: int) -> str:
    return str(_c.library.mte_tool_code_sentence(code).decode())


def code_name(code: int) -> str:
    return str(_c.library.mte_tool_code_name(code).decode())
