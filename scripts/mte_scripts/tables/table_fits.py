"""The third step of tune_program: the tables of a record, each with its certificate."""

from typing import NamedTuple, Optional

from mte_scripts import claim_words, count_texts, text_files
from mte_scripts.entry_point import Refusal
from mte_scripts.tables import figures, long_runs
from mte_scripts.tables.result_folder import Folder
from mte_scripts.tables.run_records import Record
from mte_scripts.tables.tuning_options import Options
from mte_scripts.tables.tuning_plan import Plan


class Fits(NamedTuple):
    """The profile with its sheet, and the fit over time, None without a history or a timeline. RUN is the one that they are of: the last one."""

    options: Options
    run: long_runs.RunRecord
    profile: dict
    sheet: str
    timed: Optional[figures.OverTime]


def fit_tables(plan: Plan, record: Record, folder: Folder) -> Fits:
    """Makes the run again where its record is too long for a timeline, and bounds the footprint too widely."""
    divisor = max(record.options.divisor, count_texts.told_divisor(record.run.notes))
    options = record.options.with_values(divisor=divisor)
    timed, run = long_runs.narrow_interval(options, folder, record.runs, record.run, plan.others)
    profile = count_texts.read_profile(folder.at("program.profile")) if folder.has("program.profile") else {}
    if not any(size for size in profile if size != "large"):
        raise Refusal(3, figures.NOTHING)
    words = figures.options(options.limit, options.step, options.largest)
    sheet = figures.run(["tune", *words], count_texts.profile_text(profile))[1] + "\n"
    folder.write("program.profile", count_texts.profile_text(profile))  # its lines in their one form, whose digest is told
    folder.write("tuned.sheet", sheet)
    return Fits(options, run, profile, sheet, fit_over_time(options, folder, timed))


def fit_over_time(options: Options, folder: Folder, timed: Optional[figures.OverTime]) -> Optional[figures.OverTime]:
    """Writes the fit of the timeline or of the history, if there is one; that of a run that was made again is there already."""
    kind = next((kind for kind in ("timeline", "history") if folder.has(f"program.{kind}")), None)
    if kind is None:
        return None
    if not timed:
        text = text_files.read(folder.at(f"program.{kind}"))
        if kind == "history":
            text = count_texts.history_text(count_texts.parse_history(text)).encode()
            folder.write("program.history", text)
        name, how = folder.file(f"program.{kind}"), claim_words.divisor_words(options.divisor)
        timed = figures.over_time(kind, text, options.largest, options.limit, options.step, name, how)
    folder.write("fitted.fit", timed.fit_text)
    if kind == "timeline":
        folder.write("moments.history", count_texts.history_text(timed.history))
    return timed
