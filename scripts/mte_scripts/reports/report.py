"""Makes a page of a profile and its sheet. `report --help` says all."""


from mte_scripts import claim_words, count_texts, shell_words, text_files
from mte_scripts.entry_point import Refusal
from mte_scripts.formats import MOST_INPUT
from mte_scripts.reports import report_page
from mte_scripts.tables import figures
from mte_scripts.words import Words

HELP = f"""\
Print a page in HTML: what the table of a sheet wastes on a profile, and what other tables do.

Usage: report [--title TEXT] [--against TABLE].. PROFILE SHEET

  --title TEXT     what the page is about; the name of PROFILE where it is left out
  --against TABLE  a file with a class line: another table to compare with, besides Scudo's default and its table for Android

PROFILE is a profile from anywhere, also one of merge_profiles. SHEET is what `mte_tool tune` wrote for it. One of the two may
be `-`, for standard input.

The page has the waste of each table, what it can be by the number of classes, the requested bytes by size, the classes of the
table and the command that checks the sheet. It is one file, without scripts, and takes nothing from elsewhere.

MTE_TOOL=PATH in the environment takes the program at PATH in place of the built one; the page says so.

Exit status:
  0  the page is printed, and `check` says `optimal`
  1  the page is printed; `check` refuses the sheet, and the page says so
  2  the words, the profile, the sheet or a table are refused
  3  the profile has no bytes to count, or the program mte_tool could not run, or a write failed

Example:
  scripts/mte_tool tune --limit 32 < examples/jq.profile > jq.sheet
  scripts/report examples/jq.profile jq.sheet > jq.html
"""


def report(words: list[str]) -> int:
    options = Words(HELP, "names", title=str, against={"action": "append", "default": []}).take(words)
    names, title = options.names, options.title
    if len(names) != 2:
        raise Refusal(2, "it wants a profile and a sheet: report PROFILE SHEET; --help says more")
    profile, sheet = names
    others = figures.other_tables(options.against)
    data = text_files.read(profile)
    counts, name = count_texts.parse_profile(data, profile), text_files.input_name(profile)
    is_plain = data == count_texts.profile_text(counts).encode()
    how = "" if is_plain else claim_words.how("merged")
    found = figures.Figures(counts, text_files.read(sheet, MOST_INPUT + 1).decode(errors="replace"), others, given=name, how=how)
    title = title or ("the profile" if profile == "-" else figures.without_ending(profile, ".profile"))
    text_files.write(report_page.page(found, title, "in the profile", [], [check_command(profile, sheet, found.certificate.step, is_plain)]))
    return 1 if found.state_refusals() else 0


def check_command(profile: str, sheet: str, step: int, is_plain: bool) -> str:
    """The shell's words that check the sheet again. merge_profiles brings the lines of any profile into their order."""
    names = ["SHEET" if sheet == "-" else shell_words.path_word(sheet), "PROFILE" if profile == "-" else shell_words.path_word(profile)]
    check = f"{shell_words.script_word('check_sheet')}{f' --step {step}' if step > 1 else ''} {names[0]}"
    return f"{check} {names[1]}" if is_plain else f"{shell_words.script_word('merge_profiles')} -- {names[1]} | {check} -"
