"""Draws what tuned tables waste on profiles, as SVG. `draw_waste --help` says all."""

import os

from mte_scripts import certificate_texts, claims, count_texts, program_runs, text_files
from mte_scripts.entry_point import Refusal
from mte_scripts.formats import MOST_INPUT
from mte_scripts.places import EXAMPLES
from mte_scripts.reports import pictures

from mte_scripts.words import Words

HELP = """\
Draw how much the tuned tables of 1 to 32 classes waste on each profile, as a picture (SVG) on standard output.

Usage: draw_waste [--table] [--name NAME] [--] PROFILE..      (standard input for `-`)

  --table      print the numbers instead, a line for each number of classes
  --name NAME  the name of the first profile's curve, in place of that of its file

A curve for each profile: across, the number of classes; up, the waste as a share of the requested bytes (without large requests,
which no class serves). Tables of very few classes waste far more than the picture shows. The square beside a curve is the waste
of Scudo's 32 default classes. A curve has the name of its file. The picture is light or dark as its reader is.

MTE_TOOL=PATH in the environment takes the program at PATH in place of the built one; the picture says that nothing is proved then.

Exit status:
  0  the picture is printed
  2  the words or a profile are refused, or a profile has no bytes to count
  3  the program mte_tool could not run, or standard output can't be written

Example:
  draw_waste examples/sqlite.profile examples/jq.profile > waste.svg
"""

LIMIT = 32

WIDTH, HEIGHT, BELOW = 760, 430, 54
LONGEST_NAME = 60  # of a curve, in characters, for which there is room


class Curve:
    """What a profile's tuned tables of 1 to 32 classes waste, and Scudo's default table, in percent of the requested bytes."""

    def __init__(self, path: str, name: "str | None" = None) -> None:
        self.name = os.path.basename(path).removesuffix(".profile") if name is None else name
        given = text_files.read(path, MOST_INPUT + 1)
        requested = sum(size * count for size, count in count_texts.parse_profile(given, path).items() if size != "large")
        if not requested:
            raise Refusal(2, f"{text_files.input_name(path)} counts no bytes")
        sheet = certificate_texts.parse_sheet(answer(path, ["tune", "--limit", str(LIMIT)], given))
        option, line = program_runs.border(text_files.read(os.path.join(EXAMPLES, "scudo.classes")))
        scudo = answer(path, ["score", *option], line, given)
        self.shares = [100.0 * row[0] / requested for row in sheet.rows]
        self.scudo = 100.0 * int(scudo.split()[1]) / requested


def answer(path: str, words: list[str], *given: bytes) -> bytes:
    status, out, error = program_runs.answer_once(tuple(words), *given)
    if status == 2:
        raise Refusal(2, f"{path} is refused, {error}: `merge_profiles` makes a profile of lines in any order")
    if status != 0:
        raise Refusal(3, f"mte_tool {words[0]} ended with status {status} on {path}: {error}")
    return out


def table(curves: list[Curve]) -> str:
    lines = []
    for curve in curves:
        lines += [f"{curve.name} {classes} {share:.4f}\n" for classes, share in enumerate(curve.shares, 1)]
        lines.append(f"{curve.name} scudo {curve.scudo:.4f}\n")
    return "".join(lines)


def picture(curves: list[Curve]) -> str:
    drawing = pictures.Drawing(WIDTH, HEIGHT, BELOW, "waste, share of requested bytes")
    # the picture is as high as the largest share at 8 classes or of Scudo's, and some more
    top = 1.6 * max(max(curve.shares[7], curve.scudo) for curve in curves) or 1.0
    last = LIMIT + 1.2 + 0.25 * len(curves)

    def across(classes: float) -> float:
        return drawing.x((classes - 0.5) / (last - 0.5))

    drawing.levels(top, 8, lambda share: f"{share:g}%")
    for classes in (1, *range(4, LIMIT + 1, 4)):
        drawing.tick(across(classes), classes)
    drawing.text(drawing.middle, HEIGHT - 12, "classes in the table", "middle")
    for at, curve in enumerate(curves):
        shares = enumerate(curve.shares, 1)
        points = [(across(classes), drawing.y(share, top), f"{curve.name}, {classes}: {share:.2f}%") for classes, share in shares]
        drawing.curve(at, points)
        drawing.square(at, across(32.7 + 0.25 * at), drawing.y(curve.scudo, top), f"{curve.name}, Scudo's default: {curve.scudo:.2f}%")
        name = curve.name if len(curve.name) <= LONGEST_NAME else curve.name[: LONGEST_NAME - 2] + ".."
        drawing.key(at, drawing.right - 10, drawing.top + 20 + 20 * at, name, "end")
    notes = ["squares: Scudo's 32 default classes"]
    if not program_runs.trust().is_proved:
        notes.append(claims.unproved_note(program_runs.trust()))
    for at, note in enumerate(notes, len(curves)):
        drawing.text(drawing.right - 10, drawing.top + 20 + 20 * at, note, "end")
    return drawing.svg("Waste of the tuned tables by the number of classes")


def draw(words: list[str]) -> int:
    options = Words(HELP, "profiles", name=str).take(words)
    if not options.profiles:
        raise Refusal(2, "there is no profile; --help says how it is used")
    first, *others = options.profiles
    curves = [Curve(first, options.name), *map(Curve, others)]
    return text_files.write(table(curves)) if options.table else text_files.write(picture(curves).encode())
