"""The structures and functions of mte_tool.h, by ctypes."""

import ctypes
import ctypes.util
import os
from ctypes import c_char, c_char_p, c_int, c_size_t, c_uint8, c_uint16, c_uint32, c_uint64
from typing import Any

from mte_tool._formats import COMMANDS, OPTIONS

NAMES = ("libmte_tool.so.1", "libmte_tool.so")


class SizedStructure(ctypes.Structure):
    """A structure that begins with its own size."""

    def __init__(self, **members: int):
        super().__init__(size=ctypes.sizeof(self), **members)


class Options(SizedStructure):
    _fields_ = [("size", c_size_t), *((name, c_uint64) for name in OPTIONS)]


class Result(SizedStructure):
    _fields_ = [("size", c_size_t), ("code", c_uint32), ("classes", c_uint32), ("line", c_uint64), ("at", c_uint64), ("bytes", c_uint64),
                ("bound", c_uint64), ("places", c_uint32), ("moments", c_uint32)]  # fmt: skip


class Outcome(SizedStructure):
    _fields_ = [("size", c_size_t), ("value", c_uint64), *((name, c_uint32) for name in
                ("code", "granule", "memory_tag", "pointer_tag", "granule_kind", "reserved"))]  # fmt: skip


class Claim(SizedStructure):
    _fields_ = [("size", c_size_t), *((name, c_uint64) for name in
                ("kind", "cost", "limit", "step", "forced", "sizes", "requests", "bytes", "large", "snapshots", "events"))]  # fmt: skip


class Text(ctypes.Structure):
    _fields_ = [("bytes", ctypes.POINTER(c_char)), ("length", c_size_t), ("room", c_size_t)]


class Heap(ctypes.Structure):
    """What the library alone knows."""


HeapPointer = ctypes.POINTER(Heap)


class Profile(ctypes.Structure):
    _fields_ = [("sizes", ctypes.POINTER(c_uint32)), ("counts", ctypes.POINTER(c_uint32)), ("length", c_size_t)]


class History(ctypes.Structure):
    _fields_ = [*Profile._fields_, ("snapshots", c_size_t)]


class Timeline(ctypes.Structure):
    _fields_ = [("sizes", ctypes.POINTER(c_uint32)), ("frees", ctypes.POINTER(c_uint8)), ("length", c_size_t)]


def find_library() -> str:
    """The library that MTE_TOOL_LIBRARY names, a file or the folder that has it; else the one beside this package; else the loader's."""
    named = os.environ.get("MTE_TOOL_LIBRARY", "")
    for folder in filter(os.path.isdir, (named, os.path.dirname(os.path.abspath(__file__)))):
        for name in NAMES:
            if os.path.exists(os.path.join(folder, name)):
                return os.path.join(folder, name)
    return named or NAMES[0]


def calls() -> "dict[str, list[Any]]":
    """The parameters of each call that returns how it ended."""
    to: Any = ctypes.POINTER
    options, result, text, heap, outcome = to(Options), to(Result), to(Text), HeapPointer, to(Outcome)
    profile, history, timeline = to(Profile), to(History), to(Timeline)
    classes, rows, moments = to(c_uint16), to(c_uint64), to(c_uint32)
    table, room = [classes, c_size_t], [classes, c_size_t, rows, c_size_t]
    claim = [classes, c_size_t, c_uint64, rows, c_size_t]
    checks = [options, *2 * [c_char_p, c_size_t], text, to(Claim), result]
    return {
        **{name: [options, *inputs * [c_char_p, c_size_t], text, result] for name, inputs in COMMANDS.items()},
        "check_claim": checks,
        "check_fit_claim": checks,
        "score_profile": [options, *table, profile, result],
        "footprint_history": [options, *table, history, result],
        "footprint_timeline": [options, *table, timeline, result],
        "tune_profile": [options, profile, *room, result],
        "fit_history": [options, history, *room, result],
        "fit_timeline": [options, timeline, *room, moments, c_size_t, result],
        "check_profile": [options, *claim, profile, result],
        "check_fit_history": [options, *claim, history, result],
        "check_fit_timeline": [options, *claim, moments, c_size_t, timeline, result],
        "text_append": [text, c_char_p, c_size_t],
        "timeline_append": [text, c_size_t, c_int],
        "class_of": [*table, c_size_t],
        "heap_new": [to(heap), options, *table, outcome],
        "heap_malloc": [heap, c_size_t, outcome],
        "heap_calloc": [heap, c_size_t, outcome],
        "heap_realloc": [heap, c_uint64, c_size_t, outcome],
        "heap_free": [heap, c_uint64, outcome],
        "heap_load": [heap, c_uint64, c_char_p, c_size_t, outcome],
        "heap_store": [heap, c_uint64, c_char_p, c_size_t, outcome],
        "heap_granule": [heap, c_uint64, outcome],
        "heap_addg": [heap, c_uint64, c_uint64, c_uint64, outcome],
    }


# the parameters of the others, and what they return
OTHERS: "dict[str, tuple[list[Any], Any]]" = {
    "text_free": ([ctypes.POINTER(Text)], None),
    "heap_close": ([HeapPointer], None),
    "version": ([], c_char_p),
    "version_number": ([], c_uint32),
    "end_sentence": ([c_int], c_char_p),
    "code_sentence": ([c_uint32], c_char_p),
    "code_name": ([c_uint32], c_char_p),
}


def load_library(path: str) -> ctypes.CDLL:
    """The library at a path, with the types of its functions."""
    try:
        library = ctypes.CDLL(path)
    except OSError as error:
        remedy = "MTE_TOOL_LIBRARY=FILE says where it is, and `scripts/library FOLDER` of a clone builds it"
        raise ImportError(f"the library of mte_tool can't be loaded: {error}; {remedy}") from None
    for name, (takes, gives) in {**{name: (takes, c_int) for name, takes in calls().items()}, **OTHERS}.items():
        function = getattr(library, f"mte_tool_{name}")
        function.argtypes, function.restype = takes, gives
    return library


library = load_library(find_library())
