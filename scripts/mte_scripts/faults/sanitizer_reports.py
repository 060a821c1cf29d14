"""Reads text reports of AddressSanitizer, HWAddressSanitizer (of gcc and clang) and valgrind's memcheck.

A report may stand anywhere in a log, after any prefix of its lines. It may come from anybody: each line is read once,
no pattern looks back, and whatever a name holds, it stays a part of a name. A report of which a part is missing is
refused, since another error may have been in it."""

import os
import re
from collections import namedtuple

from mte_scripts.entry_point import Refusal
from mte_scripts.faults.fault_places import Frame, is_own
from mte_scripts.faults.variables import Variable, find_variable
from mte_scripts.recording.calls import without_parameters

LARGEST_LOG = 256 << 20
MOST_REPORTS = 20_000
LONGEST_REPORT = 1 << 20
MOST_FRAMES = 16  # of a stack; the log of a traced program has as many
LONGEST_NAME = 4096
MOST_SIZE = 1 << 47  # of an address space
WORD_SPACE = 1 << 64
LOAD, STORE, FREE, MISMATCH, OVERLAP, POISON_LOAD, POISON_STORE, CRASH = tuple("load store free mismatch overlap P Q crash".split())
HEAP, NO_BLOCK, FOREIGN = "heap", "no block", "foreign"  # where: in or near a block, nobody knows, in what is not the heap's

# A report. `word`: what its tool calls the error. `act`: what the program did, one of the above. `where`: one of the
# above; with HEAP the offset of the access from its block on, the size of the block, and its state, `live` or `freed`.
# `is_begin_open`: the offset is that of the first wrong byte of a call, which may begin before it. `is_end_open`: the
# call may touch bytes after those that are told. `is_resized`: whether a realloc ended the block, or None where nobody
# knows. `detail` is what a crash says, and of a mismatch what made the block and what freed it, where that is known.
# `variable`: what is near, where no block is.
Report = namedtuple(
    "Report",
    "tool word act frames detail length where offset size state is_begin_open is_end_open is_resized made ended variable",
    defaults=("", 1, NO_BLOCK, 0, 0, "live", False, False, False, (), (), None),
)

ASAN, HWASAN, MEMCHECK = "AddressSanitizer", "HWAddressSanitizer", "memcheck"
COLOURS = re.compile(rb"\x1b\[[0-9;]{0,16}m")
HEAD = re.compile(
    rb"==\d{1,10}== ?ERROR: (?P<tool>AddressSanitizer|HWAddressSanitizer|LeakSanitizer): (?P<what>[^\n]{0,4096})"
    rb"|(?P<prefix>==(?:[\d:.]{1,24} )?\d{1,10}== )(?P<error>(?:"
    rb"Invalid (?:read|write) of size \d{1,12}|Invalid free\(\)|Mismatched free\(\)|"
    rb"Source and destination overlap in |Syscall param [^\n]{1,200} points to unaddressable)[^\n]{0,4096})"
)
CLEAN = re.compile(rb"==\d{1,10}== ERROR SUMMARY: \d{1,12} errors from ")  # of a run of memcheck that came to its end
ENDS = re.compile(r"SUMMARY: \w*AddressSanitizer|==\d{1,10}==ABORTING")
ACCESS = re.compile(r"\b(READ|WRITE|UNKNOWN) of size (\d{1,19}) at (0x[0-9a-f]{1,16})")
REGION = re.compile(
    r"(0x[0-9a-f]{1,16}) is located (\d{1,19}) bytes? [a-z ]{2,40}?\d{1,19}-byte region "
    r"\[(0x[0-9a-f]{1,16}),(0x[0-9a-f]{1,16})\)"
)
OBJECT = re.compile(r"heap object \[(0x[0-9a-f]{1,16}),(0x[0-9a-f]{1,16})\) of size \d{1,19}")
FOREIGN_PLACE = re.compile(
    r"is located (?:in stack of thread|\d{1,19} bytes? [a-z ]{2,40}global variable|in the (?:high|low) shadow)"
    r"|\b(?:stack of thread|global variable|is a wild pointer in the stack)\b"
)
RANGES = re.compile(r"memory ranges \[(0x[0-9a-f]{1,16}),\s*(0x[0-9a-f]{1,16})\)")
CRASHED = re.compile(r"(SEGV|BUS|FPE|ILL|ABRT|stack-overflow)\b(?: on (?:unknown )?address (0x[0-9a-f]{1,16}))?")
FRAME = re.compile(r"#(\d{1,5}) 0x[0-9a-f]{1,16}\s+(?:in )?(.*)")
MODULE = re.compile(r"^(.*?) ?\(([^()]{1,4096})\+0x[0-9a-f]{1,16}\)(?: \(BuildId: \w{1,64}\))?$")
LINE = re.compile(r":(\d{1,9})(?::\d{1,9})?$")
VALGRIND_FRAME = re.compile(r"^ {3}(?:at|by) 0x[0-9A-F]{1,16}: (.*)$")
VALGRIND_PLACE = re.compile(
    r"^ Address 0x[0-9A-Fa-f]{1,16} is ([\d,]{1,26}) bytes (inside|after|before) an? (?:recently re-allocated )?"
    r"block of size ([\d,]{1,26}) (alloc'd|free'd|client-defined)"
)
VALGRIND_FOREIGN = re.compile(
    r"^ Address 0x[0-9A-Fa-f]{1,16} is (?:on thread|in |[\d,]{1,26} bytes (?:inside|after|before) data symbol)"
)
RUNTIME_FUNCTION = re.compile(
    r"_*interceptor_|__(?:asan|hwasan|sanitizer|ubsan|lsan|memcpy|memmove|memset|str|mem)|operator (?:new|delete)\b"
)
RUNTIME_FILE = re.compile(r"(?:^|/)(?:libsanitizer|compiler-rt/lib)/|(?:^|/)vg_replace_\w{1,40}\.c$")
RUNTIME_MODULE = re.compile(r"^(?:lib(?:asan|hwasan|clang_rt)|vgpreload_)")
SYSTEM_FILE = re.compile(
    r"^(?:csu/|\./)?\.\.?/(?:\.\./)*(?:sysdeps|csu|nptl|libio|string|stdlib|stdio-common|posix|src/libsanitizer)/"
)
# of libc's own sources, of which memcheck shows the name alone where debug symbols of libc are installed
RESERVED = re.compile(r"_[_A-Z]")
OF_LIBC = re.compile(
    r"(?:mem|str|stp|wcs|wcp|wmem)[a-z]+|v?(?:f|s|sn|as|d|w|fw|sw)?(?:printf|scanf)|p?(?:read|write)v?(?:64)?"
    r"|recv\w*|send\w*|f(?:get|put)w?[cs]|fread|fwrite|w?getdelim|getline|gets|puts|qsort(?:_r)?|free|getcwd|realpath"
    r"|readlink|x?stat(?:64)?"
)
LIBC_SOURCE = re.compile(
    r"vfw?(?:printf|scanf)[\w-]*\.c|w?(?:gen|file|str)ops\.c"
    r"|io(?:v?s?n?w?printf|f?write|f?read|getline|fgets|f?puts|padn|getdelim|vs\w+)\.c|printf_\w+\.c|\w*itoa\w*\.c"
    r"|[\w-]+\.S"
)
KERNEL_STORES = re.compile(r"Syscall param (?:p?read|recv|getdents|ioctl|stat|fstat|time|getcwd|readlink|uname)")
MEMCHECK_ACTS = {"Invalid free": FREE, "Mismatched": MISMATCH, "Source": OVERLAP, "Invalid write": STORE}  # by their first words
REALLOCS, OTHER_ENDS = re.compile(r"realloc"), re.compile(r"free|operator delete|cfree")
SETTERS = re.compile(r"mem_?set|bzero")  # a copy is told by its source
OF_POISON = ("use-after-poison", "container-overflow")
NO_ACCESS = tuple(
    """calloc-overflow reallocarray-overflow pvalloc-overflow allocation-size-too-big rss-limit-exceeded out-of-memory
    invalid-allocation-alignment invalid-aligned-alloc-alignment invalid-posix-memalign-alignment odr-violation
    requested bad-__sanitizer_annotate_contiguous_container
    bad-__sanitizer_annotate_double_ended_contiguous_container""".split()
)


def read_reports(data: bytes, name: str) -> "tuple[list[Report], list[str]]":
    """The reports of a log, and what the reports are called that tell of no access."""
    text = COLOURS.sub(b"", data).replace(b"\r\n", b"\n")
    heads = list(match for match, _ in zip(HEAD.finditer(text), range(MOST_REPORTS + 1)))
    if not heads and not CLEAN.search(text):
        raise Refusal(2, f"{name} has no report of AddressSanitizer, HWAddressSanitizer or valgrind's memcheck")
    if len(heads) > MOST_REPORTS:
        raise Refusal(2, f"{name} has more than {MOST_REPORTS:,} reports")
    reports, others, number, counted = [], [], 1, 0
    for head, after in zip(heads, [*(each.start() for each in heads[1:]), len(text)]):
        number, counted = number + text.count(b"\n", counted, head.start()), head.start()
        where = f"{name}, line {number}"
        lines = text[head.start() : min(after, head.start() + LONGEST_REPORT)].decode(errors="replace").split("\n")
        if head["tool"] == b"LeakSanitizer":
            others.append("detected memory leaks")
            continue
        read = report_of_memcheck if head["prefix"] else report_of_sanitizer
        report = read((head["prefix"] or head["tool"]).decode(), lines, where)
        if report.word in NO_ACCESS:
            others.append(report.word)
        else:
            reports.append(report)
    return reports, others


def refuse_part(where: str) -> Refusal:
    """What is raised where a report has no end."""
    return Refusal(2, f"{where}: the report is cut off, or mixed with another one: its end is missing")


# AddressSanitizer and HWAddressSanitizer


def report_of_sanitizer(tool: str, lines: "list[str]", where: str) -> Report:
    end = next((at for at, line in enumerate(lines) if ENDS.search(line)), None)
    if end is None:
        raise refuse_part(where)
    lines, what = lines[:end], lines[0].partition(f"{tool}: ")[2]
    stacks = stacks_of(lines)
    word = re.split(r"[ :;]", what, maxsplit=1)[0]
    if word == "attempting":
        word = "double-free" if "double-free" in what else "bad-free"
    access = next((match for match in map(ACCESS.search, lines[:4]) if match), None)
    at, length = address_of(what, access), int(access[2]) if access else 0
    if negative := re.search(r"\(size=(-\d{1,19})\)", what):
        length = int(negative[1]) % WORD_SPACE
    frames, ended = stacks["wrong"], stacks["ended"]
    if crash := CRASHED.match(what):
        return Report(tool, word, CRASH, programs_frames(frames), crash_words(crash))
    offset, size, place = place_of(lines, at, word)
    is_range, is_tail = word.endswith("-param-overlap"), word == "allocation-tail-overwritten"
    is_whole = tool == HWASAN or is_direct(frames) or length < 2 or is_range or word.endswith("size-param")
    variable = variable_of(word, lines, is_whole) if place == FOREIGN else None
    act = act_of(word, access, bool(frames) and not SETTERS.search(frames[0].function))
    return Report(
        tool, word, act, [] if is_tail else programs_frames(frames), functions_in(what) if act == MISMATCH else "",
        where=place, offset=offset, size=size, variable=variable,
        length=length_of_range(what) if is_range else 1 if is_tail else min(length, WORD_SPACE - 1),
        state="freed" if ended else "live", is_begin_open=not is_whole and not ended and offset == size,
        is_end_open=is_tail, is_resized=is_resized(ended), made=programs_frames(stacks["made"]),
        ended=programs_frames(ended),
    )  # fmt: skip


def variable_of(word: str, lines: "list[str]", is_whole: bool) -> "Variable | None":
    found = find_variable([word if is_whole else f"{word} call", *lines[1:]])
    frame = frame_of(found.frame.partition(" ")[2].strip().removeprefix("in ")) if found and found.frame else None
    return found._replace(source=frame.source or "", function=frame.function) if frame else found


def functions_in(text: str) -> str:
    """What made a block and what freed it, of `(operator new [] vs free)` or `operator new[] free`; empty where they are not both known."""
    found = re.findall(r"\b(?:malloc|free|new|delete)\b(?: ?\[\])?", text.partition(" on ")[0].partition(" thread ")[0])
    return " ".join(each.replace(" ", "") for each in found) if len(found) == 2 else ""


def address_of(what: str, access: "re.Match | None") -> "int | None":
    """Where the error is. A free has its address in the head."""
    if access:
        return int(access[3], 16)
    found = re.search(r"0x[0-9a-f]{1,16}", what)
    return int(found[0], 16) if found else None


def length_of_range(what: str) -> int:
    found = RANGES.search(what)
    return max(int(found[2], 16) - int(found[1], 16), 1) if found else 1


def crash_words(crash: "re.Match") -> str:
    name = "SIGSEGV" if crash[1] in ("SEGV", "stack-overflow") else f"SIG{crash[1]}"
    return name + (f" at the address {crash[2]}" if crash[2] else "")


def place_of(lines: "list[str]", at: "int | None", word: str) -> "tuple[int, int, str]":
    """(offset, size, where) of the first block that a report names."""
    if whole := OBJECT.search(lines[0]):
        size = int(whole[2], 16) - int(whole[1], 16)
        return size, size, HEAP
    for line in lines[1:]:
        if region := REGION.search(line):
            low, high = int(region[3], 16), int(region[4], 16)
            begin = int(region[1], 16) if at is None or word.endswith("-param-overlap") else at
            if low <= high < MOST_SIZE and abs(begin - low) < MOST_SIZE:
                return begin - low, high - low, HEAP
        elif FOREIGN_PLACE.search(line):
            return 0, 0, FOREIGN
    return 0, 0, FOREIGN if re.match(r"stack-|global-|dynamic-stack", word) else NO_BLOCK


def act_of(word: str, access: "re.Match | None", is_copy: bool) -> str:
    if word in ("double-free", "bad-free", "invalid-free"):
        return FREE
    if word in ("alloc-dealloc-mismatch", "new-delete-type-mismatch"):
        return MISMATCH
    if word.endswith("-param-overlap"):
        return OVERLAP
    is_load = bool(access) and access[1] == "READ"
    if word == "negative-size-param":  # which place of a copy a report names depends on the call
        return LOAD if is_copy else STORE
    if word in OF_POISON:
        return POISON_LOAD if is_load else POISON_STORE
    return LOAD if is_load else STORE


def stacks_of(lines: "list[str]") -> "dict[str, list[Frame]]":
    """The stacks of a report. The first is that of the error; a line before each other one says what that tells of."""
    stacks: "dict[str, list[Frame]]" = {"wrong": [], "made": [], "ended": [], "other": []}
    into = "wrong"
    for line in lines:
        if frame := FRAME.search(line):
            if frame[1] == "0" and stacks[into]:
                into = "other"  # a stack that nothing announces, as that of a thread's creation
            if len(stacks[into]) < MOST_FRAMES:
                stacks[into].append(frame_of(frame[2][:LONGEST_NAME]))
        elif re.search(r"\ballocated (?:by thread .*)?here:", line):
            into = "made" if not stacks["made"] else "other"
        elif re.search(r"\bfreed by thread .*here:", line):
            into = "ended" if not stacks["ended"] else "other"
        elif re.search(r"\bdeallocated here:|created by|Thread .* here:", line):
            into = "other"
    return stacks


def frame_of(text: str) -> Frame:
    """`FUNCTION FILE:LINE:COLUMN`, or `FUNCTION (MODULE+OFFSET)`."""
    if module := MODULE.match(text.strip()):
        name = without_parameters(module[1].strip()) if module[1].strip() else f"{os.path.basename(module[2])}+?"
        return Frame(name, None, None, module[2])
    if line := LINE.search(text):
        rest = text[: line.start()]
        at = rest.find(" /") if " /" in rest else rest.rfind(" ")
        if at > 0:
            return Frame(without_parameters(rest[:at].strip()), rest[at:].strip(), int(line[1]), "")
    return Frame(without_parameters(text.strip()) or "an unknown function", None, None, "")


# valgrind's memcheck


def report_of_memcheck(prefix: str, lines: "list[str]", where: str) -> Report:
    """The lines of the same process up to an empty one."""
    end = next((at for at, line in enumerate(lines[:-1]) if line.rstrip().endswith(prefix.rstrip())), None)
    if end is None:
        raise refuse_part(where)
    body = [line.partition(prefix)[2] for line in lines[:end] if prefix in line]
    head, is_freed = body[0], False
    stacks: "dict[str, list[Frame]]" = {"wrong": [], "made": [], "ended": []}
    into, offset, size, place = "wrong", 0, 0, NO_BLOCK
    for line in body[1:]:
        if frame := VALGRIND_FRAME.match(line):
            if len(stacks[into]) < MOST_FRAMES:
                stacks[into].append(frame_of_memcheck(frame[1][:LONGEST_NAME]))
        elif found := VALGRIND_PLACE.match(line):
            place, size, is_freed = HEAP, number_in(found[3]), found[4] == "free'd"
            apart = number_in(found[1])
            offset = {"inside": apart, "after": size + apart, "before": -apart}[found[2]]
            into = "ended" if is_freed else "made"
        elif VALGRIND_FOREIGN.match(line):
            place = FOREIGN
        elif line.startswith(" Block was alloc'd at"):
            into = "made"
    if place == HEAP and not (0 <= size < MOST_SIZE and abs(offset) < MOST_SIZE):
        place = NO_BLOCK
    return memcheck_report(head, stacks, place, offset, size, is_freed)


def memcheck_report(head: str, stacks: dict, place: str, offset: int, size: int, is_freed: bool) -> Report:
    frames, length = stacks["wrong"], re.search(r"of size (\d{1,12})", head)
    copied = re.search(r" overlap in .*[,(] ?(\d{1,19})\)", head)
    act = next((act for words, act in MEMCHECK_ACTS.items() if head.startswith(words)), STORE if KERNEL_STORES.match(head) else LOAD)
    is_open = act in (LOAD, STORE) and (not is_direct(frames) or head.startswith("Syscall"))
    number_of = int(length[1]) if length else int(copied[1]) if copied else 1
    word = re.split(r" of size|\(\)| in | points ", head, maxsplit=1)[0]
    functions = functions_in(" ".join(each[0].function.partition("(")[0] for each in (stacks["made"], frames) if each))
    return Report(
        MEMCHECK, word, act, programs_frames(frames), functions * (act == MISMATCH), max(number_of, 1), place, offset, size,
        state="freed" if is_freed else "live", is_end_open=is_open and not is_freed,
        is_resized=is_resized(stacks["ended"]), made=programs_frames(stacks["made"]),
        ended=programs_frames(stacks["ended"]),
    )  # fmt: skip


def number_in(text: str) -> int:
    return int(text.replace(",", ""))


def frame_of_memcheck(text: str) -> Frame:
    """`FUNCTION (FILE:LINE)`, or `FUNCTION (in MODULE)`."""
    name, _, place = text.rpartition(" (")
    name, place = (without_parameters(name), place.rstrip(")")) if name else (text, "")
    if place.startswith("in "):
        return Frame(name, None, None, place[3:])
    line = LINE.search(place)
    return Frame(name, place[: line.start()], int(line[1]), "") if line else Frame(name, None, None, "")


# frames


def is_runtime(frame: Frame) -> bool:
    """Whether a frame is of the tool, which stands in for a function of libc."""
    is_of_file = RUNTIME_FILE.search(frame.source or "") or RUNTIME_MODULE.match(os.path.basename(frame.module or ""))
    return bool(is_of_file or RUNTIME_FUNCTION.match(frame.function))


def is_system(frame: Frame) -> bool:
    """Whether a frame is of libc, by its source."""
    source = frame.source or ""
    if SYSTEM_FILE.match(source):
        return True
    if "/" not in source and (RESERVED.match(frame.function) or LIBC_SOURCE.fullmatch(source)):
        return True
    return source == f"{frame.function}.c" and bool(OF_LIBC.fullmatch(frame.function))


def is_direct(frames: "list[Frame]") -> bool:
    """Whether the program's own code made the access: its innermost frame has a source line, and is not the tool's."""
    return bool(frames and frames[0].source) and not is_runtime(frames[0]) and not SYSTEM_FILE.match(frames[0].source)


def is_resized(ended: "list[Frame]") -> "bool | None":
    if not ended:
        return False
    if REALLOCS.search(ended[0].function):
        return True
    return False if OTHER_ENDS.search(ended[0].function) else None


def is_programs(frame: Frame) -> bool:
    if not frame.source or is_runtime(frame) or is_system(frame):
        return False
    return is_own(frame.source) and is_own(frame.module)


def programs_frames(frames: "list[Frame]") -> "list[Frame]":
    """The frames from the program's innermost function to its outermost; where none is known, all but the tool's."""
    at = [number for number, frame in enumerate(frames) if is_programs(frame)]
    if not at:
        return [frame for frame in frames if not is_runtime(frame)] or frames
    return [frame for frame in frames[at[0] : at[-1] + 1] if is_programs(frame) or not frame.source]
