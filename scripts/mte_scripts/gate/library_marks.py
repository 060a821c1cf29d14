"""Marks the libraries that `rt ci` built as made of the sources beside them, by rt's own sum of these, so that a check of a crate above takes
them as they are. `rt ci` itself leaves the marks out, since its libraries hold statements, which fit only the libraries that they were built
over; where all are of one run they fit. Without marks the first check of a crate builds all below it, which takes minutes."""

import contextlib
import functools
import importlib.machinery
import importlib.util
import os
import shutil
import types
from collections.abc import Iterable

from mte_scripts import manifest
from mte_scripts.places import ROOT

PROGRAM = os.path.join(ROOT, "crates", "mte_tool", "out", "mte_tool")


@functools.cache
def load_rt() -> "types.ModuleType | None":
    """rt's own Python module, or None where this rt has none."""
    path = os.path.join(os.path.dirname(os.path.realpath(shutil.which("rt") or "rt")), "rtlib.py")
    loader = importlib.machinery.SourceFileLoader("rtlib", path)
    with contextlib.suppress(Exception):
        module = importlib.util.module_from_spec(importlib.util.spec_from_loader("rtlib", loader))
        loader.exec_module(module)
        return module
    return None


@functools.cache
def is_one_run() -> bool:
    """Whether everything that stands in the repository was proved in one run, of the sources as they are."""
    return not manifest.why_unproved(PROGRAM, ROOT)


def mark_libraries(folder: str, crates: "Iterable[str]") -> None:
    """Marks the libraries of these crates in a copy of the repository, lowest first. One that can't be marked is built again by a check."""
    if not is_one_run() or not (rt := load_rt()):
        return
    for name in crates:
        place = os.path.join(folder, "crates", name)
        mark = os.path.join(place, "out", "rlib", "stamp")
        if os.path.isdir(os.path.dirname(mark)) and not os.path.exists(mark):
            with contextlib.suppress(Exception, SystemExit):
                stamp = rt.Crate(place, folder, {}, name=name).stamp()
                with open(mark, "w", encoding="utf-8") as file:
                    file.write(stamp)
