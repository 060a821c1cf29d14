"""The summary of tune_program, which fits a terminal, and what it has in common with the page."""

from collections.abc import Iterator
from typing import Any

from mte_scripts import count_texts, shell_words, text_layout
from mte_scripts.claim_words import count_text
from mte_scripts.entry_point import printable
from mte_scripts.formats import LARGEST_SIZE
from mte_scripts.recording import timelines
from mte_scripts.tables import figures, simulated_words, site_costs
from mte_scripts.tables.figures import kibibytes, number, percent
from mte_scripts.tables.result_folder import Folder
from mte_scripts.text_layout import wrap_text

WIDTH, HEIGHT = 80, 24
FOOTPRINT_LEGEND = ("Footprint: the most memory of the classes over time; the first table saves so much of it. Waste: the "
                    "share of the blocks live at the peak that rounding loses.")
FILES = [("program.profile", "what was counted"), ("tuned.sheet", "table, certificate"),
         ("tuned_map.inc", "the table for Scudo"), ("program.timeline", "what was recorded"),
         ("program.history", "blocks over time"), ("upper.history", "most of each window"),
         ("fitted.fit", "table, certificate"), ("moments.history", "the fit's moments"),
         ("claims.txt", "what is shown"), ("who.txt", "who requests it"), ("waste.svg", "waste by classes"),
         ("report.html", "all of it as a page"), ("summary.txt", "this summary")]


def warnings(options: Any, found: figures.Figures, notes: list[str]) -> Iterator[str]:
    """Where the result means little: a line for each reason."""
    default = found.others[0]
    saving = found.simulated.ends()[1] if found.simulated else found.saving(default)
    if seen := [table.name for table in (found.first, *found.rest) if table.is_known == "at least" and table.footprint is not None]:
        yield f"Of {' and '.join(seen)} the footprint is that over the recorded moments: over the run it may be more."
    if found.bytes < 1 << 20 and not options.all:
        yield f"Less than 1 MiB counts here ({figures.byte_text(found.bytes)}): the resident set may not change."
    elif saving is not None and 0 <= saving < 1 << 20 and not options.all:
        yield f"The saving against {default.name} is below 1 MiB: the resident set may not show it."
    for table in found.order_made():
        is_alike = found.timed and table.is_known == default.is_known and None not in (table.footprint, default.footprint)
        if is_alike and table.footprint > default.footprint:
            more, span = kibibytes(table.footprint - default.footprint), "the recorded moments" if table.is_known else "time"
            yield f"The table of {table.name} takes {more} more than {default.name} over {span}."
    if found.timed:
        yield from wasteful(found, default)
    if found.requests + found.large < 1000:
        yield f"Only {count_text(found.requests + found.large, 'request')} counted: a longer or larger job says more."
    if parts := ["requests"] * (found.large > found.requests) + ["bytes"] * (found.large * (LARGEST_SIZE + 1) > found.bytes):
        yield f"More than half of the {' and of the '.join(parts)} are of large requests, which have no class."
    if options.divisor > count_texts.told_divisor(notes):
        yield f"All counts are divided by {number(options.divisor)} and rounded up."
    yield from notes


def wasteful(found: figures.Figures, default: figures.Table) -> Iterator[str]:
    """Whether all requests lose more than by default, though their peak does not."""
    if wastes := found.wastes_over_time(default):
        yield (f"Over all requests of the run, the table of {found.first.name} wastes more than {default.name}: "
               f"{count_text(wastes[0], 'byte')}, and not {number(wastes[1])}. Another run, which has other sizes at its "
               "peak, may take more with it.")


def counted_requests(options: Any, timed: "figures.OverTime | None" = None) -> str:
    """What the requests are that count."""
    if options.all:
        return "all requests"
    if timed and timed.kind == "history" and options.read:
        return "the blocks of the snapshot with the most bytes"
    return "the blocks live at the peak" if timed or options.read is None else "as the profile has them"


def how_known(options: Any) -> str:
    """That a saving is predicted, and how it is measured; nothing where it is."""
    if options.verify is not None:
        return ""
    return f", predicted ({'a run with ' * (options.read is not None)}--verify SCUDO measures it)"


def headline(options: Any, found: figures.Figures, process: int) -> str:
    """What the table of the map is, and what it saves: of the bytes of the process, where these were measured."""
    default = found.others[0]
    saving, name = found.saving(default), f"{options.name_counted()}{how_known(options)}"
    if found.simulated:
        return f"{name}: {simulated_words.first_line(found, found.simulated, process)}"
    if saving is None:
        return f"{name}: {found.first.name}"
    share = "" if process else f" ({percent(abs(saving), found.base_of_share(default))})"
    saved = f"{kibibytes(abs(saving))}{share} {'less' if saving >= 0 else 'more'} than {default.name}"
    if not process:
        return f"{name}: {found.first.name}, {saved}"
    no_help = figures.NO_HELP * (not figures.helps(saving, process))
    return f"{name}: {no_help}{found.first.name}, {saved}, {percent(abs(saving), process)} of the process"


def summary(options: Any, found: figures.Figures, folder: Folder, noted: list[str], measured: dict[str, int],
            what_ifs: "list[site_costs.WhatIf]") -> str:
    """The summary. It fits a terminal of 80 columns and 24 lines, unless there are many tables or warnings: what it has no room for is in the
    page."""
    lines = wrap_text(headline(options, found, measured.get("resident", 0)), indent="  ")
    for text in found.interval()[:1]:
        lines += wrap_text(text)
    if found.timed:
        lines += wrap_text(recorded_moments(found.timed))
    else:
        what = f"{count_text(found.requests, 'request')} of {count_text(found.bytes, 'byte')}"
        lines += ["", *wrap_text(f"Counted: {what}, {counted_requests(options, found.timed)}.")]
    if found.large or measured.get("large"):
        most = f"; at most {figures.byte_text(measured['large'])} live" if measured.get("large") else ""
        lines += wrap_text(f"Not counted: {count_text(found.large, 'large request')}, above {number(LARGEST_SIZE)} "
                           f"bytes{most}.")
    lines += over_time(found, measured) if found.timed else ["", *comparison(found), *wrap_text(legend(options))]
    rest = [line for known in [*found.state_findings()[:1], *found.interval()[1:]] for line in wrap_text(known)]
    rest += [line for each in what_ifs for line in wrap_text(each.state_saving())]
    rest += [line for text in noted for line in wrap_text(f"! {text}", indent="  ")]
    is_next = options.verify is None and folder.has("tuned_map.inc")
    files = short_folder_lines(folder, is_next) if found.timed else folder_lines(found, folder, is_next)
    rest += files if len(list(filter(None, lines + rest + files))) <= HEIGHT else short_folder_lines(folder, is_next)
    if (options.verify is None and found.timed
        and len(lines) + len(rest) + len(foreseen := wrap_text(prediction(found))) <= HEIGHT):
        lines += foreseen
    lines += rest
    if len(lines) > HEIGHT:
        lines = [line for line in lines if line]
    return "".join(f"{printable(line)}\n" for line in lines)


def legend(options: Any) -> str:
    """What the columns of the tables without a record over time are."""
    sums = " Of all requests, these are sums over time, and no memory." if options.all else ""
    return ("Waste: lost by rounding, with its share of the requested bytes. Saving: by the first table, with its "
            f"share of all blocks with that table.{sums}")


def short_folder_lines(folder: Folder, is_next: bool) -> list[str]:
    """What the folder has, in short, and the next step, if there is one."""
    lines = wrap_text(f"In {folder.path}: report.html has all of it, claims.txt how to check it.")
    if is_next:
        lines += wrap_text("Next (docs/TUNING.md, section 6): cp "
                           f"{shell_words.path_word(folder.file('tuned_map.inc'))} $SCUDO/", indent="  ")
    return lines


def folder_lines(found: figures.Figures, folder: Folder, is_next: bool) -> list[str]:
    """The files of the folder, and the next step, if there is one."""
    said = {"tuned_map.inc": f"map of {found.first.name}", "tuned.sheet": found.best.name, "fitted.fit": found.fitted.name} if found.fitted else {}
    files = [f"{name:17}{said.get(name, words)}" for name, words in FILES if name in ("summary.txt", "report.html") or folder.has(name)]
    half = (len(files) + 1) // 2
    lines = ["", f"In the folder {folder.path}:"]
    lines += [f"  {one:40}{other}".rstrip() for one, other in zip(files[:half], files[half:] + [""])]
    if is_next:
        lines.append("Next, with Scudo's sources in $SCUDO (docs/TUNING.md, section 6):")
        lines.append(f"  cp {shell_words.path_word(folder.file('tuned_map.inc'))} $SCUDO/")
    return lines


def recorded_moments(timed: figures.OverTime) -> str:
    """What was seen of the run."""
    if timed.interval:
        return (f"Recorded: {count_text(timed.history.snapshots, 'moment')} of the run, and the most blocks between "
                "them.")
    if timed.kind == "timeline":
        return f"Recorded: each moment of the run, {count_text(len(timelines.parse_events(timed.text)), 'event')}."
    return f"Recorded: {count_text(timed.history.snapshots, 'moment')} of the run, and not what lies between."


def over_time(found: figures.Figures, measured: dict[str, int]) -> list[str]:
    """The footprint and the waste of each table, and what the process takes now."""
    rows: list[tuple] = [("Table", "footprint", "saving", "share", "classes", "waste")]
    for table in (found.first, *found.rest):
        if table.footprint is None:
            rows.append((table.name, unserved_sizes(found, table)))
            continue
        saved = found.saved_footprint(table)
        saving = ("", "") if saved is None or table is found.first else (kibibytes(saved), percent(saved, table.footprint))
        waste = "" if table.waste is None else percent(table.waste, found.bytes)
        rows.append((table.name, f"{table.is_known} {kibibytes(table.footprint)}".lstrip(), *saving, number(len(table.classes)), waste))
    if measured.get("resident"):
        rows.append(("the process now", kibibytes(measured["resident"]), "", "", "", ""))
    return text_layout.columns(rows, most=WIDTH) + wrap_text(FOOTPRINT_LEGEND)


def unserved_sizes(found: figures.Figures, table: figures.Table) -> str:
    """Which sizes a table does not serve."""
    most = 16 * table.classes[-1] - 16 if table.classes else -1
    above = figures.byte_text(found.most_at_a_moment(lambda size: size if size > most else 0))
    return f"serves none above {number(most)} bytes, of which {above} were live"


def larger_blocks(found: figures.Figures) -> str:
    """Which sizes have a larger block than by default."""
    default = found.others[0]
    sizes, all_sizes, cost = found.find_larger_blocks(default)
    if not sizes:
        return f"No requested size has a larger block than with {default.name}."
    return f"Of {all_sizes} requested sizes {len(sizes)} have a larger block than with {default.name}: together at most {figures.byte_text(cost)} more at a moment."


def prediction(found: figures.Figures) -> str:
    """The range of what the map saves, and on what it rests."""
    default = found.others[0]
    if None in (default.footprint, found.first.footprint):
        return "Nothing is predicted, since one of the tables does not serve all sizes."
    at_once = found.most_live(default) - found.most_live(found.first)
    rests = "each moment of the run" if found.timed.kind == "timeline" else "the recorded moments"
    return (f"Predicted of Scudo from {rests}, and not proved: {simulated_words.clause(found, found.simulated)}against "
            f"{default.name} the peak {peak_change(found.saved_in_scudo)} where it gives nothing back, in whole pages, "
            f"and {peak_change(at_once)} where it gives back each block.")


def peak_change(saved: int) -> str:
    return f"{'falls' if saved >= 0 else 'rises'} by {kibibytes(abs(saved))}"


def comparison(found: figures.Figures) -> list[str]:
    """The tables: classes, waste and saving, in columns."""
    rows: list[tuple] = [("Table", "classes", "waste, bytes", "share", "saving", "share")]
    for table in (found.first, *found.rest):
        if table.waste is None:
            rows.append((table.name, number(len(table.classes)), f"does not serve {number(table.unserved)} bytes"))
            continue
        saving = found.saved_waste(table)
        saved = ("", "") if table is found.first else (kibibytes(saving), percent(saving, found.blocks(table)))
        rows.append((table.name, number(len(table.classes)), number(table.waste), percent(table.waste, found.bytes), *saved))
    return text_layout.columns(rows, most=WIDTH)
