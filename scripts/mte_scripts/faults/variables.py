"""Variables of the stack and global ones, of which a report of AddressSanitizer tells; and what LLVM's stack tagging
makes of a wrong access of one of the stack.

That is a model, of which nothing is proved. It follows LLVM 14 (AArch64StackTagging.cpp: isInterestingAlloca, NextTag,
untagAlloca), the instructions IRG and ADDG, and Android, whose programs let neither give the tag 0. A variable of a
fixed size has whole granules, with a tag of its own: the frame's, which each call draws of 15, and so many further as
the variable's number in the frame. All else has tag 0: variables that LLVM has proved to be used rightly, what alloca
gives, saved registers, and each variable after its function's return; after its scope's end only where LLVM sees one
end, and not at -O0."""

import os
import re
from collections import namedtuple

GRANULE, TAGS = 16, 15
STACK, GLOBAL = "the variable", "the global variable"
CAUGHT, NOT_CAUGHT, CHANCE = "caught", "not caught", f"caught by {TAGS - 1}/{TAGS}"
TITLE = "LLVM's stack tagging, by a model"
NOT_TAGGED = "a global variable is not tagged by Scudo's heap; HWAddressSanitizer tags those too"

# `kind`: STACK or GLOBAL. `offset`: of the access, in bytes from the variable on. `is_call`: a call of libc made it, of
# which the report has the first wrong byte alone. `dead`: scope or return, whose end came before the access, or empty.
# `among`: the variables of its frame. `source`, `line` and `function`: where it is declared. `frame`: of one on the
# stack, what the report says of its function, the address first; `stack` is its number in the log, or 0.
Variable = namedtuple(
    "Variable", "kind name size offset is_call dead among line source function frame stack", defaults=("", "", "", 0)
)

FRAME = re.compile(r"#0 (0x[0-9a-f]{1,16}.{0,4096})")
AMONG = re.compile(r"This frame has (\d{1,9}) object")
OF_STACK = re.compile(
    r"\[(\d{1,12}), (\d{1,12})\) '([^']{1,200})'(?: \(line (\d{1,9})\))? <== Memory access at offset (\d{1,12})"
)
OF_GLOBAL = re.compile(
    r"is located (\d{1,12}) bytes? (to the left of|before|to the right of|after|inside)(?: of)? global variable "
    r"'([^']{1,200})' (?:defined in|from) '([^']{1,4096}?)(?::(\d{1,9}))?(?::\d{1,9})?' \(0x[0-9a-f]{1,16}\) "
    r"of size (\d{1,12})"
)


def find_variable(lines: "list[str]") -> "Variable | None":
    """The variable of a report: the first line has its word, and `call` where a call of libc made the access."""
    word, *more = lines[0].split(" ") if lines else [""]
    if not word.startswith(("stack-", "global-")):
        return None
    dead = {"stack-use-after-scope": "scope", "stack-use-after-return": "return"}.get(word, "")
    found: "list[Variable]" = []
    among, frame, is_located = 0, "", False
    for line in lines[1:]:
        is_located |= "is located in stack of thread" in line
        if is_located and not frame and (its := FRAME.search(line)):
            frame = its[1]
        elif its := AMONG.search(line):
            among = int(its[1])
        elif its := OF_STACK.search(line):
            low, high, at = int(its[1]), int(its[2]), int(its[5])
            where = at - low, "call" in more, dead, among, int(its[4] or 0)
            found.append(Variable(STACK, its[3], high - low, *where, frame=frame))
        elif its := OF_GLOBAL.search(line):
            size, apart = int(its[6]), int(its[1])
            at = -apart if its[2] in ("before", "to the left of") else apart if its[2] == "inside" else size + apart
            found.append(Variable(GLOBAL, its[3], size, at, "call" in more, "", 0, int(its[5] or 0), its[4]))
    return min(found, key=lambda each: -each.offset if each.offset < 0 else each.offset - each.size, default=None)


def tag_cases(variable: Variable, length: int) -> "list[tuple[str, str, str]]":
    """What the model says of an access of so many bytes: what is supposed, in words or empty; the result; and why."""
    if variable.dead == "scope":
        return [("if LLVM sees where its scope ends", CAUGHT, "its granules have tag 0 then, or another variable's"),
                ("if not, as at -O0", NOT_CAUGHT, "its granules keep their tag until its function's return")]
    chance = f"each call draws one of {TAGS} tags"
    if variable.dead:
        return [("if no later call has a variable there", CAUGHT, "its granules have tag 0 since the return"),
                ("if a later call has a variable there", CHANCE, chance)]
    end = max(GRANULE, -(-variable.size // GRANULE) * GRANULE)
    least, most = variable.offset + (1 if variable.is_call else length), variable.offset + length
    supposed = f"if it ends within {end} bytes" if most > end else ""
    inside = [(supposed, NOT_CAUGHT, "it is inside the last granule of the variable")]
    others = "no other variable of the frame has its tag, and all else tag 0"
    beyond = [("in its frame, or in what has no tag", CAUGHT, others), ("in another frame's variable", CHANCE, chance)]
    if variable.among > TAGS:
        beyond.append((f"in the variable {TAGS} further in its frame", NOT_CAUGHT, "that has the same tag"))
    return inside * (0 <= variable.offset and least <= end) + beyond * (variable.offset < 0 or most > end)


def value_of(variable: Variable, length: int) -> dict:
    """What a machine reads of a variable, and of an access of so many bytes."""
    is_of_stack = variable.kind == STACK
    cases = [dict(zip(("if", "result", "why"), case)) for case in tag_cases(variable, length)] if is_of_stack else None
    return {"name": variable.name, "of": "stack" if is_of_stack else "global", "bytes": variable.size,
            "offset": variable.offset, "file": variable.source or None, "line": variable.line or None,
            "function": variable.function or None, "stack_tagging_model": cases}


def tell_variable(value: dict) -> "list[str]":
    """The same as lines of a report: what the model says, but of a global variable, and where it is declared."""
    told = [": ".join(filter(None, case.values())) for case in value["stack_tagging_model"] or ()]
    lines = [f"{TITLE}:", *(f"    {case}" for case in told)] if len(told) > 1 else [f"{TITLE}: {case}" for case in told]
    place = f"{os.path.basename(value['file'] or 'an unknown file')}:{value['line'] or 0}"
    return [*lines, f"declared at {place}" + (f" in {value['function']}" if value["function"] else "")]
