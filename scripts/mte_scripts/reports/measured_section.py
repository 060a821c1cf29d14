"""The part of report.html on what was measured in the real allocators."""

from typing import Optional

from mte_scripts.reports.pictures import coordinate, escape
from mte_scripts.tables.figures import kibibytes
from mte_scripts.tables.verdict import DEFAULT, Row

LINE, BAR = 40, 12


def section(rows: list[Row], tuned: str, falls: Optional[int], is_simulated: bool) -> str:
    """A bar for each allocator. FALLS is by how many bytes the table was predicted to take less than Scudo's default, if it
    was: as Scudo gives memory back, where that IS_SIMULATED."""
    default = next(row for row in rows if row.name == DEFAULT)
    foreseen = {} if falls is None else {tuned: default.peak() - falls}
    how = "simulated page by page" if is_simulated else "where it gives nothing back"
    dashed = f" The dashed line is what was predicted of the table, from Scudo's default, {how}."
    return f"""<h2>Measured</h2>
<figure>{bars(rows, tuned, foreseen, "wide", 760)}{bars(rows, tuned, foreseen, "narrow", 340)}
<figcaption>A bar is the peak of the resident set, the middle of {len(default.peaks)} runs; the line at its end is where the peak of a further run lies with 95%,
if peaks are normally distributed.{dashed * bool(foreseen)}</figcaption></figure>
"""


def bars(rows: list[Row], tuned: str, foreseen: dict[str, int], kind: str, width: int) -> str:
    top = 1.02 * max([row.interval()[1] for row in rows] + list(foreseen.values()))
    forms, parts = {tuned: 'fill="var(--c0)"', DEFAULT: 'fill="var(--c1)"'}, []

    def x(size: int) -> str:
        return coordinate(width * size / top)

    for at, row in enumerate(rows):
        y = LINE * at
        low, high = row.interval()
        name, form = row.name + ", now" * (at == 0), forms.get(row.name, 'class="bars"')
        parts.append(f'<text x="0" y="{y + 14}">{escape(name)}</text><text x="{width}" y="{y + 14}" text-anchor="end">{kibibytes(row.peak())}</text>')
        parts.append(f'<rect x="0" y="{y + 20}" width="{x(row.peak())}" height="{BAR}" {form}/>')
        parts.append(f'<path class="axis" d="M{x(low)} {y + 20 + BAR // 2}H{x(high)}"/>')
        if row.name in foreseen:
            parts.append(f'<path class="level" d="M{x(foreseen[row.name])} {y + 17}v{BAR + 6}"/>')
    said = escape("Measured peaks: " + "; ".join(f"{row.name} {kibibytes(row.peak())}" for row in rows))
    box = f'viewBox="0 0 {width} {LINE * len(rows)}"'
    return f'<svg class="{kind}" {box} role="img" aria-label="{said}">{"".join(parts)}</svg>'
