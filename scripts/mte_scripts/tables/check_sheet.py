"""Checks a sheet or a fit in a build, and says what it finds in words. `check_sheet --help` says all."""

import argparse
import re
from typing import Any

from mte_scripts import certificate_texts, claim_words, claims, count_texts, shell_words, text_files
from mte_scripts.entry_point import Refusal
from mte_scripts.formats import LARGEST_SIZE
from mte_scripts.words import TABLES, Words

HELP = """Check a sheet or a fit in a build: does mte_tool accept it for your profile, history or timeline, your number of classes and your
step? The last line says among which tables its table is the first then, and for what; where it is refused, what is wrong, and with
which of the two files.

Usage: check_sheet SHEET PROFILE [--limit K] [--step S]
       check_sheet FIT HISTORY|TIMELINE [--limit K] [--step S]

The second file may be `-`, for standard input. mte_tool is told where the first one ends, whatever stands in the two.

It tests what docs/TUNING.md says that a build should, in this order, and prints a line for each:

  - the profile or the timeline is there, and has a request that a class can serve; or the history a block
  - the sheet or the fit is whole
  - its limit is K, and its step is S; without --limit any limit will do, and without --step the step has to be 1
  - mte_tool answers `optimal`: `check` for the sheet and this profile, or `check-fit` for the fit and this history or timeline

Exit status:
  0  the sheet or the fit meets all
  1  it does not: the limit or the step is another one, or the checker refuses it; the last line on standard error says why
  2  the words or one of the files are refused: a file is missing, empty or no such text
  3  mte_tool could not run, or standard output can't be written

Examples:
  check_sheet app.sheet app.profile --limit 32
  check_sheet app.fit app.timeline --limit 32
"""

# a sheet has at most 32 rows of 1,023 numbers of 20 digits
MOST_OF_A_SHEET = 1 << 20


def check(words: list[str]) -> int:
    options = Words(HELP, "names", {"step": 1}, **TABLES).take(words, once=True)
    names = options.names
    if len(names) != 2:
        raise Refusal(2,
                      "name a sheet and a profile, or a fit and a history or a timeline; `check_sheet --help` says all")
    if names[0] == "-":
        raise Refusal(2, "standard input can be what was counted alone: give the name of the sheet's file")
    sheet_bytes, counts_bytes = text_files.read_some(names[0], MOST_OF_A_SHEET, "no sheet has"), text_files.read_some(names[1])
    is_fit = bool(re.search(rb"(?m)^footprint ", sheet_bytes))
    kind = "profile" if not is_fit else "timeline" if count_texts.is_timeline(counts_bytes) else "history"
    text_files.write(describe_counts(text_files.input_name(names[1]), counts_bytes, kind))
    sheet = whole_sheet(names[0], sheet_bytes, is_fit)
    if is_fit and (sheet.moments is None) != (kind == "history"):
        of = "history" if sheet.moments is None else "timeline"
        raise Refusal(1, f"{names[0]} is the fit of a {of}, and {names[1]} is a {kind}: fit again")
    meets_options(names[0], sheet, options)
    try:
        claim = claims.check_certificate(sheet_bytes, counts_bytes, text_files.input_name(names[1]), file=names[0])
    except Refusal as refused:
        raise Refusal(refused.status,
                      locate_refusal(refused.text, len(text_files.lines_of(sheet_bytes)), names, kind)) from None
    if not claim.holds:
        raise Refusal(1, f"{names[0]}: {claim.refusal()}")
    return text_files.write(f"its SHA-256 is {claim.digest}\n{claim.answer()}\n")


def command(claim: claims.Claim, among: Any, sheet: str, counts: str) -> str:
    """The shell's words that check a certificate again; or that find again that a timeline has none by this limit, step and class."""
    if claim.is_bound:
        words = " ".join(["fit", *certificate_texts.tuner_options(among.limit, among.step, among.largest)])
        return f"{shell_words.script_word('mte_tool')} {words} < {shell_words.path_word(counts)}"
    step = f" --step {among.step}" if among.step > 1 else ""
    return f"{shell_words.script_word('check_sheet')}{step} {shell_words.path_word(sheet)} {shell_words.path_word(counts)}"


def whole_sheet(name: str, data: bytes, is_fit: bool) -> Any:
    """The sheet or the fit, whose rows are all there."""
    sheet: Any = (certificate_texts.parse_fit if is_fit else certificate_texts.parse_sheet)(data, name)
    if len(sheet.rows) != sheet.limit:
        raise Refusal(2, f"{name} has {len(sheet.rows)} rows for a limit of {sheet.limit}: did the command that writes "
                         "it fail?")
    text_files.write(f"the {'fit' if is_fit else 'sheet'} is whole: a table of {claim_words.class_text(len(sheet.classes))}\n")
    return sheet


def meets_options(name: str, sheet: Any, options: argparse.Namespace) -> None:
    """Its limit and its step are those that were asked for."""
    wanted = {"limit": options.limit or sheet.limit, "step": options.step}
    for option, value in wanted.items():
        if getattr(sheet, option) != value:
            raise Refusal(1, f"{name} is for --{option} {getattr(sheet, option)}, and not for --{option} {value}: tune "
                             "again")
    text_files.write(f"it is for --limit {sheet.limit} and --step {sheet.step}\n")


def describe_counts(name: str, data: bytes, kind: str) -> str:
    """What the profile, the history or the timeline counts. Of a timeline mte_tool finds what is wrong with its lines."""
    none = "counts no request"
    if kind == "profile":
        served = {size: count for size, count in count_texts.parse_profile(data, name).items() if size != "large" and count}
        sizes, what = len(served), f"the profile counts {sum(served.values())} requests of {len(served)} sizes"
    elif kind == "history":
        found = count_texts.parse_history(data, name)
        sizes, none = len(found.counts.keys() - {"large"}), "counts no block"
        what = f"the history counts blocks of {sizes} sizes at {found.snapshots} snapshots"
    else:
        events = text_files.lines_of(data)[1:]
        sizes, none = len({event for event in events if event.isdigit()}), "has no request"
        what = f"the timeline has {len(events)} events, with requests of {sizes} sizes"
    if not sizes:
        raise Refusal(2, f"{name} {none} of at most {LARGEST_SIZE} bytes: was it the right program?")
    return f"{what}\n"


def locate_refusal(error: str, lines: int, names: list[str], kind: str) -> str:
    """The fault that mte_tool found, with the file that it is in, and its line there. The sheet has so many lines, and comes first."""
    match = re.fullmatch(r"error ([0-9]+ \w+) line ([0-9]+)", error)
    if not match:
        return f"{names[0]} and {names[1]}: {error}"
    at = int(match[2])
    if at <= lines:
        return f"{names[0]}: {match[1]} line {at}: no {'sheet' if kind == 'profile' else 'fit'} has this line here; write it anew by `mte_tool`"
    helps = "record the run again" if kind == "timeline" else "bring its lines in order by `merge_profiles`"
    return f"{names[1]}: {match[1]} line {at - lines}: {helps}"
