"""The first step of find_faults: the program that traced_cc built runs, and its log, or one for each process, is in a folder."""

import argparse
import contextlib
import os
from collections.abc import Iterator

from mte_scripts import private_folder, text_files
from mte_scripts.entry_point import Refusal
from mte_scripts.faults import compiler_driver, fault_answer, sanitized_runs
from mte_scripts.faults.fault_log import Log
from mte_scripts.faults.fault_options import ENDED
from mte_scripts.recording import children

GRACE = 10  # seconds that the program has to end by a signal that is handed on to it


def record_program(options: argparse.Namespace, folder: str) -> None:
    """Runs the program; its log is in the folder then."""
    log = os.path.join(folder, "%p" if options.children else "log")
    asked = {"ACCESSES": log, "ACCESSES_UNFREED": options.unfreed and "1", "ACCESSES_HALT": options.halt and "1", "ACCESSES_ONLY": options.only}
    environment = {name: value for name, value in {**os.environ, **asked}.items() if value or name not in asked}
    raw = os.path.join(folder, "sanitized")
    if options.asan:
        environment |= sanitized_runs.environment_of(raw, options.halt)
    if options.preload or options.asan:
        environment["LD_PRELOAD"] = ":".join(filter(None, (preload_value(options.asan), environment.get("LD_PRELOAD"))))
    try:
        status = children.run(options.words, GRACE, env=environment, stdout=2)
    except OSError as error:
        raise Refusal(3, f"{options.words[0]} can't be run: {error.strerror}") from None
    if options.asan:
        sanitized_runs.make_log(raw, log, options.halt)
    if not any(os.path.exists(os.path.join(folder, name)) for name in fault_answer.logs(folder, options.children) or [log]):
        if options.asan:
            raise Refusal(3, f"{options.words[0]}: no process that was built with -fsanitize=address made a log in {folder}")
        whom = f"no process that has the name {options.only} and that" if options.only else f"{options.words[0]}: no process that"
        remedy = "build the program with scripts/traced_cc, or a library that it loads, for --preload"
        raise Refusal(3, f"{whom} traced_cc built made a log in {folder}: {remedy}")
    text_files.write_file(os.path.join(folder, ENDED), b"%d\n" % (status if status >= 0 else 128 - status))


def preload_value(is_sanitized: bool) -> str:
    """The runtime of traced_cc, or what stands before AddressSanitizer's, as LD_PRELOAD has it."""
    library = sanitized_runs.library() if is_sanitized else compiler_driver.runtime(compiler_driver.find_c_compiler())
    if " " in library:
        raise Refusal(3, f"LD_PRELOAD takes no path with a space, as in {library}: {compiler_driver.PLACE}")
    return library


def program_status(folder: str, log: Log) -> int:
    """The exit status of the program that was run, as a shell has it; where nobody kept it, that of the recorded process, or 0."""
    try:
        with open(os.path.join(folder, ENDED), "rb") as file:
            text = file.read(5).strip()
    except OSError:
        return log.status or 0
    if not text.isdigit() or int(text) > 255:
        raise Refusal(2, f"{folder}/{ENDED} is no exit status")
    return int(text)


@contextlib.contextmanager
def open_log_folder(kept: "str | None") -> "Iterator[str]":
    """The path of a folder. The one to keep is filled at the end if others can change the way to it."""
    with contextlib.ExitStack() as open_until_the_end:
        place = open_until_the_end.enter_context(folder_to_keep(kept)) if kept else None
        if place and private_folder.is_safe(kept):
            yield os.path.abspath(kept)
            return
        with private_folder.temporary() as folder:
            try:
                yield folder
            finally:
                if place:
                    try:
                        place.fill(folder)
                    except OSError as error:
                        raise Refusal(3, f"--keep {kept}: {error.strerror}") from None


def folder_to_keep(path: str) -> private_folder.Place:
    try:
        place = private_folder.output(path)
    except private_folder.NotPrivate:
        raise Refusal(3, f"--keep {path}: it is another user's folder") from None
    except OSError as error:
        raise Refusal(3, f"--keep {path}: {error.strerror}") from None
    if os.listdir(path):
        raise Refusal(2, f"--keep {path}: it exists, and is no empty folder")
    return place
