"""Drawn certificates with what was counted, and what the program says of each."""

import functools
import random

import drawn_inputs
import library_cases
from mte_scripts import program_runs


def certificate(words: str, counts: bytes) -> bytes:
    status, out, _ = program_runs.mte_tool(words.split(), counts)
    return out if status == 0 else b""


def draw_certificates(number: int) -> "list[tuple[str, bytes, bytes]]":
    """Certificates and counts, which fit or do not, some of them spoiled."""
    draw, made = random.Random(73), []
    for command, of in (("check", "tune"), ("check-fit", "fit")):
        for at in range(number):
            over_time = draw.choice((drawn_inputs.history, drawn_inputs.timeline))
            counts = (drawn_inputs.profile if of == "tune" else over_time)(draw)
            forced = draw.choice(("", " --largest-class 1"))
            limit, step = draw.choice((1, 2, 3, 8, 32)), draw.choice((1, 1, 1, 2, 4, 8))
            first = certificate(f"{of} --limit {limit} --step {step}{forced}", counts)
            for _ in range(draw.choice((0, 0, 1, 2))):
                first = drawn_inputs.spoil_text(draw, first)
            if draw.random() < 0.3:
                counts = drawn_inputs.spoil_text(draw, counts)
            made.append((command, first, counts[:-1] if at % 10 == 0 else counts))
    return made


@functools.lru_cache(maxsize=None)
def answer_of(command: str, first: bytes, counts: bytes, claim: int = 0) -> "tuple[int, bytes] | None":
    """What the program says of the two texts; None where the first has no line, or more than the program takes."""
    lines = first.count(b"\n") + (not first.endswith(b"\n"))
    if not first or lines > program_runs.MOST_FIRST_LINES:
        return None
    return library_cases.program(command, {"first_lines": lines, "claim": claim}, (first, counts))
