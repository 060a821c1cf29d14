"""Takes a program to a table of size classes of its own. `tune_program --help` says all.

Its steps, each a module: a value of each goes to the next ones, and none changes it. What a step makes is in the folder when it ends."""

from mte_scripts.entry_point import Refusal, say
from mte_scripts.tables import services
from mte_scripts.tables.result_folder import Folders, open_folders
from mte_scripts.tables.run_records import Record, make_record
from mte_scripts.tables.table_comparison import compare_tables
from mte_scripts.tables.table_fits import fit_tables
from mte_scripts.tables.tuning_answer import Answer, write_answer
from mte_scripts.tables.tuning_plan import Plan, make_plan


def tune(words: "list[str]") -> int:
    plan = make_plan(words)
    with open_folders(plan.options) as folders:
        record = make_record(plan, folders)
        try:
            answer_record(plan, record, folders)
        except Refusal as refused:
            kept = f"what was made until then is in {folders.new.path}"
            raise Refusal(refused.status, f"{refused.text}; {kept}") from None
        except (KeyboardInterrupt, SystemExit):
            say("tune_program", f"interrupted; what was made until then is in {folders.new.path}")
            raise
        return record.run.status


def answer_record(plan: Plan, record: Record, folders: Folders) -> None:
    """All that follows from a record."""
    fits = fit_tables(plan, record, folders.new)
    found = compare_tables(plan, fits, folders.new)
    answer = write_answer(record, fits, found, folders.new)
    if answer.failed:
        raise Refusal(3, "; ".join(answer.failed))
    if plan.measured:
        services.refuse_ended(record.options, record.runs)
        plan.measured.verify(record.options, folders, answer)
