"""The second step of tune_program: a program is run and recorded, or what is given is taken as its record. The record is in the folder."""

from typing import NamedTuple, Optional

from mte_scripts.entry_point import Refusal, say
from mte_scripts.recording import sites
from mte_scripts.tables import long_runs, processes, services, site_costs
from mte_scripts.tables.result_folder import Folders
from mte_scripts.tables.tuning_options import Options
from mte_scripts.tables.tuning_plan import Plan

NO_CALLS = "Who requests the blocks is not told: the run is too long for that."


class Record(NamedTuple):
    """By which OPTIONS it is: the run may decide which program counts, and of what there is a table. RUNS make it again, None of what is given.
    CALLS are those of each request, where they are wanted and recorded."""

    options: Options
    run: long_runs.RunRecord
    runs: Optional[long_runs.Runs] = None
    calls: Optional[site_costs.Run] = None


def make_record(plan: Plan, folders: Folders) -> Record:
    """Leaves no folder where nothing is recorded."""
    try:
        if plan.options.load is not None:
            return Record(*services.count(plan.options, folders, plan.others))
        if plan.given is None:
            kept = plan.measured.keep_input(folders.work.file("input")) if plan.measured else None
            return record_program(plan, folders, long_runs.runs_of(plan.options, folders.work, kept))
        for name, text in plan.given.files.items():
            folders.new.write(name, text)
        return Record(plan.options, long_runs.RunRecord(0, [], {}, {}, plan.given.upper), None, plan.given.run)
    finally:
        folders.new.drop_empty()


def record_program(plan: Plan, folders: Folders, runs: long_runs.Runs) -> Record:
    """Runs the program; with its calls where they are wanted, and the run is not too long for a timeline. Behind a wrapper it is run again, for
    the program that makes nearly all requests."""
    options, words = plan.options, runs.words
    if options.all or options.read is not None:
        return Record(options, long_runs.count(options, folders.new, runs, plan.others), runs)
    while True:
        kinds = ["processes", "blocks", *["stacks"] * options.who]
        runs.words = [*(word for kind in kinds for word in (f"--{kind}", runs.file(kind))), *words]
        with services.watch(options):
            run = long_runs.count(options, folders.new, runs, plan.others)
        runs.words, stacks = words, runs.take_text("stacks")
        run = run._replace(blocks=runs.take_text("blocks"))
        started = runs.take_text("processes").decode(errors="surrogateescape")
        if (name := other_program(started, options, folders)) is None:
            break
        folders.new.drop_record()
        if why := runs.why_not(run, long_runs.MOST_RUNS):
            raise Refusal(3, f"{processes.tell_most(name)}; that is not run again, since {why}: "
                             f"{services.remedy(options, name)}")
        say("tune_program", f"{processes.tell_most(name)}: it is run again for that, as with --only {name}")
        options, words = options.with_values(only=name), ["--only", name, *words]
    if not options.only:
        options = options.with_values(ran=processes.last_program(started, options.words))
    if not options.who:
        return Record(options, run, runs)
    if run.upper or not stacks:
        return Record(options, run._replace(notes=[*run.notes, NO_CALLS]), runs)
    return Record(options, run, runs, site_costs.of_sites(sites.parse_sites(stacks)))


def other_program(started: str, options: Options, folders: Folders) -> Optional[str]:
    """The program that makes nearly all requests of those that were STARTED, if that is not the first one, nor the one that --only names."""
    try:
        return None if options.only else processes.other_program(started, options.words, services.remedy(options))
    except Refusal:
        folders.new.drop_record()
        raise
