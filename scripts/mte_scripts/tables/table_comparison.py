"""The fourth step of tune_program: what the tables come to, beside each other and in Scudo, and what is claimed of them."""

from typing import Optional

from mte_scripts import claim_words
from mte_scripts.entry_point import Refusal, printable, say
from mte_scripts.tables import check_sheet, release_model
from mte_scripts.tables.figures import Figures
from mte_scripts.tables.result_folder import Folder
from mte_scripts.tables.table_fits import Fits
from mte_scripts.tables.tuning_plan import Plan


def compare_tables(plan: Plan, fits: Fits, folder: Folder) -> Figures:
    """The figures of the tables that are made and of the others; their claims are checked."""
    options = fits.options
    name, how = folder.file("program.profile"), claim_words.divisor_words(options.divisor)
    found = Figures(fits.profile, fits.sheet, plan.others, fits.timed, options.objective, name, how)
    found.simulated = simulated_saving(found, fits.run.blocks)
    return found


def simulated_saving(found: Figures, blocks: bytes) -> "Optional[release_model.Saving]":
    """What the map is simulated to save in Scudo, by the record of blocks or by the timeline; None where neither is there,
    or it fails."""
    if not found.timed or found.timed.kind != "timeline":
        return None
    tables = (found.others[0].classes, found.first.classes, found.others[1].classes)
    try:
        return release_model.saving(blocks or found.timed.text, tables, release_model.interval_asked_for())
    except Refusal as refused:
        say("tune_program", refused.text)
        return None


def write_claims(fits: Fits, folder: Folder, found: Figures) -> "list[str]":
    """Writes what is known of the tables, with the commands that check it; these."""
    sheets = {claim: folder.file("tuned.sheet" if claim.kind == "profile" else "fitted.fit") for claim in found.claims}
    checks = [check_sheet.command(claim, fits.options, sheet, claim.name) for claim, sheet in sheets.items()]
    said = [f"{claim.sentence()}\n\n    {command}\n\n" for claim, command in zip(found.claims, checks)]
    digests = [f"{claim.digest}  {printable(claim.name)}\n" for claim in found.claims]
    intervals = [f"{text}\n\n" for text in found.interval()]
    folder.write("claims.txt", "".join([*said, *intervals, "By sha256sum:\n\n", *digests]))
    return checks
