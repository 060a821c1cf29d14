"""What Scudo's own settings do to a program, with its default table and with a tuned one: measured beside the verdict where it is asked for."""

import itertools
import statistics
from typing import NamedTuple, Optional

from mte_scripts import text_layout
from mte_scripts.tables import verdict, verification

AS_IT_IS = "as it is"
SETTINGS = {  # words of SCUDO_OPTIONS
    AS_IT_IS: "",
    "given back each 100 ms": "release_to_os_interval_ms=100",
    "given back at once": "release_to_os_interval_ms=0",
    "nothing given back": "release_to_os_interval_ms=-1",
    "a quarantine of 256 KiB": "quarantine_size_kb=256:thread_local_quarantine_size_kb=64:quarantine_max_chunk_size=2048",
    "zero fill": "zero_contents=1",
}


class Measurement(NamedTuple):
    """The runs with a setting and a table: the middle peak in bytes, and the middle processor time in seconds; whether one ended otherwise than
    as it is."""

    peak: int
    time: float
    is_strange: bool


def measure_settings(runner: str, words: list, path: str, libraries: list[str],
                     given: Optional[str]) -> dict[tuple[str, str], Measurement]:
    """Runs the program some times with each setting and each library."""
    most = max(map(len, SETTINGS.values()))

    def run(how: "tuple[str, str]") -> verification.Run:
        scudo_options = SETTINGS[how[0]].ljust(most, ":")  # equally long, and Scudo skips colons
        return verification.run_once(runner, words, path, how[1], given, scudo_options, libraries)

    found = verdict.run_rounds(itertools.product(SETTINGS, libraries), run, f"{words[0]} with {len(SETTINGS)} settings of Scudo")
    usual = {run.status for library in libraries for run in found[AS_IT_IS, library]}
    return {each: Measurement(int(statistics.median(run.peak for run in runs)), statistics.median(run.spent for run in runs),
                              any(run.status not in usual for run in runs)) for each, runs in found.items()}


def lines(rows: dict[tuple[str, str], Measurement], libraries: list[str]) -> list[str]:
    """A line for each setting: the peak with each library, its change against no setting, and the processor time."""
    cells: list[tuple] = [("Settings, KiB and s", "default", "change", "time", "table", "change", "time")]
    for setting in SETTINGS:
        row: list[str] = []
        for library in libraries:
            one, usual = rows[setting, library], rows[AS_IT_IS, library]
            row += [f"{one.peak // 1024:,}", "" if setting == AS_IT_IS else f"{100 * (one.peak / usual.peak - 1):+.1f}%", f"{one.time:.2f}"]
        cells.append((setting, *row))
    strange = [setting for setting in SETTINGS if any(rows[setting, library].is_strange for library in libraries)]
    said = [text_layout.wrap_text(f"! With {setting} the program ended otherwise.") for setting in strange]
    return [*text_layout.columns(cells, most=80), *itertools.chain(*said)]
