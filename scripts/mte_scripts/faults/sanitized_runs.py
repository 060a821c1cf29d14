"""Runs of programs that gcc or clang built with -fsanitize=address: scripts/shims/sanitized.c is loaded before such a
program, and what it wrote becomes a log as traced_cc's programs have it."""

import glob
import os
import re
import struct

from mte_scripts import checksum
from mte_scripts.faults import compiler_driver
from mte_scripts.faults.fault_log import ENDED, FORM, HALTED, HEAD, MARK, RUNNING, STOPPED
from mte_scripts.recording.shims import SHIMS, compile_alone, sum_of

SOURCE, FLAGS, NAME = os.path.join(SHIMS, "sanitized.c"), "-O2 -g -Wall -fPIC -shared".split(), "libmte_sanitized.so"
# 128 bytes stand between blocks, and it goes on after an error where it can.
OPTIONS = (
    "redzone=128:halt_on_error=0:suppress_equal_pcs=0:symbolize=0:print_legend=0:detect_leaks=0:"
    "allocator_may_return_null=1:alloc_dealloc_mismatch=1:detect_odr_violation=0:detect_stack_use_after_return=1:"
    "verify_asan_link_order=0:handle_abort=1:handle_sigill=1:allow_user_segv_handler=1"
)
BLOCK = re.compile(rb"^w (\d+) (\S+) (\S+)\n", re.M)
# the records of a request, of a realloc, which frees one block and makes another, and of a free, up to the stack
RECORD = re.compile(rb"^(?:[mc] (\d+) \d+|r (\d+) (\d+) \d+|f (\d+)) ", re.M)


def library() -> str:
    """The path of what is loaded before the program, built once for each version of its source."""

    def build(to: str) -> None:
        words = [compiler_driver.find_c_compiler(), *FLAGS, SOURCE, "-o", to, "-ldl", "-pthread"]
        compile_alone(words, f"{NAME} could not be compiled")

    return compiler_driver.keep_in_cache(f"sanitized-{sum_of(FLAGS, [SOURCE])}", NAME, build)


def environment_of(raw: str, halts: bool) -> "dict[str, str]":
    """What a run has in its environment beside LD_PRELOAD. `raw`: where the lines go, and AddressSanitizer's own reports
    beside it."""
    options = OPTIONS, f"log_path={raw}.report", os.environ.get("ASAN_OPTIONS", ""), "halt_on_error=1" * halts
    return {"SANITIZED": raw, "ASAN_OPTIONS": ":".join(filter(None, options))}


def make_log(raw: str, to: str, halts: bool) -> None:
    """Makes the log of the lines, if there are any."""
    for path in glob.glob(f"{glob.escape(raw)}.report.*"):
        os.remove(path)
    if not os.path.exists(raw):
        return
    with open(raw, "rb") as file:
        text = file.read()
    os.remove(raw)
    is_stopped = text.endswith(b"\nD\n")
    text = put_stacks(text[: text.rfind(b"\n") + 1].removesuffix(b"D\n"))
    state = (HALTED if halts else STOPPED) if is_stopped else ENDED if re.search(rb"^[eC] ", text[-4096:], re.M) else RUNNING
    mark = [len(text), checksum.crc(text), 0, state]
    with open(to, "wb") as file:
        head = struct.pack("<8sQ", FORM, 0) + MARK.pack(*mark, checksum.checksum_of(mark))
        file.write(head.ljust(HEAD, b"\0") + text)


def put_stacks(text: bytes) -> bytes:
    """The stacks of the blocks that have errors go to the records of their requests and frees."""
    blocks = {match[1]: match.groups()[1:] for match in BLOCK.finditer(text)}
    made, ended = ({block: stacks[at] for block, stacks in blocks.items()} for at in range(2))
    changes: "dict[int, bytes]" = {}
    for match in RECORD.finditer(text) if blocks else ():
        for stacks, block in ((ended, match[2] or match[4]), (made, match[1] or match[3])):
            if (stack := stacks.pop(block, None)) is not None:
                changes[match.end()] = stack
    pieces, last = [], 0
    for at, stack in changes.items():
        pieces += [text[last:at], stack]
        last = at + 1  # the stack that is not known: 0
    return BLOCK.sub(b"", b"".join([*pieces, text[last:]]))
