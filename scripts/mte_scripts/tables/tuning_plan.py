"""The first step of tune_program: what is to be done, by the words and the files that they name, before anything runs."""

import os
from typing import TYPE_CHECKING, NamedTuple, Optional, Union

from mte_scripts import certificate_texts, count_texts, entry_point, text_files
from mte_scripts.entry_point import Refusal
from mte_scripts.formats import MOST_INPUT
from mte_scripts.recording import recording, timelines
from mte_scripts.tables import figures, site_costs
from mte_scripts.tables.tuning_options import Options

if TYPE_CHECKING:
    from mte_scripts.tables import hardening


class GivenRecord(NamedTuple):
    """What --read names: the files of the folder that are made of it, the history of --upper, and the run where its calls are recorded too."""

    files: "dict[str, Union[str, bytes]]"
    upper: bytes = b""
    run: Optional[site_costs.Run] = None


class Plan(NamedTuple):
    """What is to be done. GIVEN is None where a program is run, or a timeline read that is too long to be read at once; OTHERS are the tables to
    compare with; and MEASURED says how the program is measured in Scudo, if it is."""

    options: Options
    others: "list[tuple[str, list[int]]]"
    given: Optional[GivenRecord]
    measured: "Optional[hardening.InScudo]" = None


def make_plan(words: "list[str]") -> Plan:
    """Refuses what can't be done."""
    options, given = Options(words), None
    if options.read is None:
        options = options.with_objective(None if options.all else options.words)
    others = figures.other_tables(options.against)
    if options.read is not None and options.who:
        options, given = read_stacks(options)
    elif options.read is not None and is_long(options):
        options = options.with_objective(options.read)
    elif options.read is not None:
        options, given = read_record(options, others[0][1])
    plan = Plan(options, others, given)
    if options.verify is not None:
        from mte_scripts.tables import hardening  # it takes its time, which other runs are spared

        plan = plan._replace(measured=hardening.InScudo(options))
    need_program(options, given)
    return plan


def is_long(options: Options) -> bool:
    """Whether --read names a timeline that is too long to be read at once."""
    if options.read == "-" or not os.path.isfile(options.read) or os.path.getsize(options.read) <= MOST_INPUT:
        return False
    return options.upper is None and count_texts.is_timeline(text_files.read(options.read, 100))


def read_record(options: Options, default: "list[int]") -> "tuple[Options, GivenRecord]":
    """The profile, the history or the timeline that --read names. Of a timeline the peaks of this table are asked for later too."""
    data, name = text_files.read_some(options.read, if_empty=3), text_files.input_name(options.read)
    if options.upper is not None and not count_texts.is_history(data):
        raise Refusal(2, f"--upper goes with a history of `profile_program --windows`, and {name} is none")
    files: "dict[str, Union[str, bytes]]" = {}
    most_blocks = b""
    if count_texts.is_timeline(data):
        options = options.with_objective(data)
        figures.refuse_timeline(data, name, "peaks", default)
        profile, files["program.timeline"] = profile_at_peak(data), data
    elif count_texts.is_history(data):
        history, upper = count_texts.parse_history(data, name), None
        options = options.with_objective(history)
        if options.upper is not None:
            upper = count_texts.parse_history(text_files.read_some(options.upper), text_files.input_name(options.upper))
        options = options.with_divisor(upper or history)
        profile, files["program.history"] = figures.at_peak(history), count_texts.history_text(history, options.divisor)
        if upper:
            most_blocks = count_texts.history_text(upper, options.divisor).encode()
    else:
        profile = count_texts.parse_profile(data, name)
        options = options.with_objective(None).with_divisor(profile)
    if not any(profile.values()):
        raise Refusal(3, figures.NOTHING)
    files["program.profile"] = count_texts.profile_text(profile, options.divisor)
    return options, GivenRecord(files, most_blocks)


def profile_at_peak(timeline: bytes) -> dict:
    """The blocks that are live at the moment of the most requested bytes."""
    moment = timelines.history_at(timeline, [timelines.peak_of(timeline)[1]])
    return {size: counts[0] for size, counts in moment.counts.items()}


def read_stacks(options: Options) -> "tuple[Options, GivenRecord]":
    """The record of heaptrack that --read names, whose calls are wanted too."""
    if not (heaptrack_stacks := entry_point.part("recording.imports.heaptrack_stacks")):
        raise Refusal(3, "--who with --read wants scripts/mte_scripts/recording/imports, which is not here: run the "
                         "program itself")
    record = heaptrack_stacks.read(options.read)
    run = site_costs.Run(record.events, record.sizes, record.stacks)
    text = site_costs.timeline_of(run, {})
    files: "dict[str, Union[str, bytes]]" = {"program.profile": count_texts.profile_text(profile_at_peak(text))}
    return options.with_objective(text), GivenRecord({**files, "program.timeline": text}, run=run)


def need_program(options: Options, given: Optional[GivenRecord]) -> None:
    """Refuses at once where no table could be made: before there is a folder, and before the user's program runs for nothing."""
    if options.read is None:
        recording.find_program(options.words[0])
        recording.need_recorder()
    words, why = ["tune", *figures.options(options.limit, options.step, options.largest)], ""
    known = [given.files["program.profile"]] if given else []  # which may be refused for what it is
    for text in [*known, "16 1\n"]:
        try:
            certificate_texts.parse_sheet(figures.run(words, text)[1])
            return
        except Refusal as refused:
            why = refused.text
    raise Refusal(3, f"{why}: there is no program to tune with, so nothing was {'run' if options.read is None else 'made'}")
