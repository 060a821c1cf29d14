"""The fifth step of tune_program: the files that say what was found, and the summary."""

from collections.abc import Callable
from typing import NamedTuple, Optional

from mte_scripts import text_files
from mte_scripts.builds import web_page
from mte_scripts.entry_point import Refusal
from mte_scripts.reports import report_page, who_section
from mte_scripts.reports.pictures import escape
from mte_scripts.tables import draw_waste, scudo_map, site_costs, summary
from mte_scripts.tables.figures import Figures
from mte_scripts.tables.result_folder import Folder
from mte_scripts.tables.run_records import Record
from mte_scripts.tables.table_comparison import write_claims
from mte_scripts.tables.table_fits import Fits
from mte_scripts.tables.tuning_options import Options


class Answer(NamedTuple):
    """What was found, and what writes report.html anew with what is measured, and with the verdict. FAILED says what is not made or not shown."""

    found: Figures
    report: "Callable[[str, str], None]"
    failed: "list[str]"


def write_answer(record: Record, fits: Fits, found: Figures, folder: Folder) -> Answer:
    """Writes all files. The summary is printed too, unless what is measured comes first."""
    options, timed = fits.options, fits.timed
    failed = write_pictures(options, folder, found)
    noted = [*summary.warnings(options, found, fits.run.notes), *failed]
    checks = write_claims(fits, folder, found)
    costs = site_costs.SiteCosts(record.calls, timed) if record.calls and timed else None
    for name, text in costs.files(options.name_counted()).items() if costs else ():
        folder.write(name, text)
    report = report_writer(options, found, folder, noted, checks, costs)
    report("", "")
    what_ifs = costs.what_ifs[:1] if costs else []
    text = summary.summary(options, found, folder, noted, fits.run.measured, what_ifs)
    folder.write("summary.txt", text)
    if options.verify is None:
        text_files.write(text)
    return Answer(found, report, [*failed, *found.state_refusals()])


def report_writer(options: Options, found: Figures, folder: Folder, noted: "list[str]", checks: "list[str]",
                  costs: "Optional[site_costs.SiteCosts]") -> "Callable[[str, str], None]":
    """What writes report.html, with what is measured before what is predicted."""
    part = f"<p>{escape(summary.prediction(found))} {escape(summary.larger_blocks(found))}</p>\n" if found.timed else ""
    part += who_section.section(costs) if costs else ""
    beside = "page.html" if folder.has("page.html") else None
    counted = summary.counted_requests(options, found.timed)

    def report(measured: str, verdict: str) -> None:
        page = report_page.page(found, options.name_counted(), counted, noted, checks, beside, measured + part, verdict)
        folder.write("report.html", page)

    return report


def write_pictures(options: Options, folder: Folder, found: Figures) -> "list[str]":
    """Makes the map, the picture and the page, which nothing else needs; says which of them failed."""
    makes: "dict[str, Callable[[], str]]" = {
        "tuned_map.inc": lambda: scudo_map.as_default(found.first.classes),
        "waste.svg": lambda: draw_waste.picture([draw_waste.Curve(folder.at("program.profile"), options.name_counted())]),
    }
    if engines := web_page.at_hand():  # with nothing to prove or compile before it
        makes["page.html"] = lambda: page_of_tables(options, folder, engines)
    failed = []
    for name, make in makes.items():
        try:
            folder.write(name, make())
        except Refusal as refused:
            failed.append(f"{name} is not made: {refused.text}")
    return failed


def page_of_tables(options: Options, folder: Folder, engines: "dict[str, bytes]") -> str:
    """The page of scripts/page, of the record over time where the map is of its table, of a timeline the moments of the fit; else of the
    profile."""
    name = "program.profile"
    if options.objective == "footprint":
        name = "moments.history" if folder.has("moments.history") else "program.history"
    given = options.name_counted(), text_files.read(folder.at(name)).decode()
    begin_with = {"limit": options.limit, "step": options.step, "largest": options.largest}
    return web_page.page(engines, profile=given, options=begin_with)
