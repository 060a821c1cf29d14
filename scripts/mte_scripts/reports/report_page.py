"""The page report.html: it has no script, and takes nothing from elsewhere. All text from outside is escaped."""

import math
from collections.abc import Iterable

from mte_scripts import claims, html_safe
from mte_scripts.claim_words import count_text
from mte_scripts.formats import LARGEST_CLASS, LARGEST_SIZE
from mte_scripts.reports.pictures import Picture, box, coordinate, escape
from mte_scripts.tables.figures import GRANULE, Figures, Table, byte_text, class_text, kibibytes, number, percent

STYLE = """\
:root { --c0: #0969da; --c1: #bc4c00; --c2: #1a7f37; --c3: #8250df; --c4: #9a6700; --c5: #cf222e }
@media (prefers-color-scheme: dark) {
  :root { --c0: #4493f8; --c1: #f0883e; --c2: #3fb950; --c3: #ab7df8; --c4: #d29922; --c5: #f85149 }
}
body { max-width: 58rem }
p { max-width: 46rem }
.lead { font-size: 1.125rem }
.soft, figcaption { color: var(--soft); font-size: .875rem }
.warning { border-left: 4px solid var(--c4); padding: .25rem .75rem; background: var(--shade) }
dl { display: grid; grid-template-columns: repeat(auto-fit, minmax(10rem, 1fr)); gap: .75rem; margin: 1rem 0 }
dl div { background: var(--shade); border: 1px solid var(--line); border-radius: 6px; padding: .5rem .75rem }
dt, dd small { color: var(--soft); font-size: .8125rem; font-weight: 400 }
dd { margin: 0; font-size: 1.25rem; font-weight: 600; line-height: 1.4 }
dd small { display: block; line-height: 1.35 }
.scroll { overflow-x: auto }
table { border-collapse: collapse; width: 100%; font-size: .9375rem; font-variant-numeric: tabular-nums; overflow-wrap: normal }
th, td { text-align: right; padding: .3rem .5rem; border-bottom: 1px solid var(--line); white-space: nowrap }
th { font-weight: 600; vertical-align: bottom; white-space: normal }
th:first-child { text-align: left }
tbody th { font-weight: 400; white-space: nowrap }
#tables tbody th { min-width: 5rem; overflow-wrap: break-word; white-space: normal }
.tuned > * { font-weight: 600 }
.empty > * { color: var(--soft) }
.share { display: inline-block; min-width: 4.25em; color: var(--soft); font-weight: 400 }
pre { white-space: pre-wrap }
details { margin: .5rem 0 }
figure { margin: .75rem 0 }
svg { display: block; width: 100%; height: auto }
svg text { fill: var(--soft); font: 12px system-ui, -apple-system, "Segoe UI", "Noto Sans", "DejaVu Sans", sans-serif }
.narrow { display: none }
.grid { stroke: var(--line) }
.axis { stroke: var(--soft) }
.curve { fill: none; stroke: var(--c0); stroke-width: 2 }
.bars { fill: var(--soft); fill-opacity: .55 }
.level { fill: none; stroke: var(--text); stroke-dasharray: 5 3 }
.key { list-style: none; display: flex; flex-wrap: wrap; gap: .25rem 1.25rem; margin: .25rem 0; padding: 0; font-size: .875rem }
.key svg { display: inline-block; width: 12px; height: 12px; margin-right: .4rem; vertical-align: -1px }
@media (max-width: 600px) {
  body { padding: 1rem .75rem 2rem }
  .wide { display: none }
  .narrow { display: block }
  table { font-size: .75rem }
  th, td { padding: .3rem .15rem }
  .share { display: block; min-width: 0 }
  dl { grid-template-columns: 1fr 1fr; gap: .5rem }
  dl div { padding: .5rem }
  dd { font-size: 1.0625rem }
}
"""

COLORS = 6  # --c0 to --c5
SCUDO = 2  # its tables are the first of the others
PARTS = 200  # of a timeline, as the picture of the live blocks has columns
FOOTPRINT = ["Footprint", "The first one saves"]
CLASS_COLUMNS = {"waste": ("Requests", "Bytes lost"), "footprint": ("Blocks at most", "Their bytes")}
SIZE_TICKS = [(16, "16"), (64, "64"), (256, "256"), (1024, "1 KiB"), (4096, "4 KiB"), (16384, "16 KiB")]
FIRST_OCTAVE, OCTAVES = 3, 11  # the sizes from 8 bytes to 16 KiB


def page(figures: Figures, name: str, counted: str, warnings: list[str], checks: list[str], tables: "str | None" = None,
         measured: str = "", verdict: str = "") -> str:
    """The page for a program or a profile of this name. COUNTED says what was counted, CHECKS are the commands that check the sheet or the fit of
    the first table, and that of the other one, if there is one. TABLES is the file beside it with the page of scripts/page, if that is made, and
    MEASURED the part on what was measured, of which the VERDICT comes first."""
    title = f"Size classes for {escape(name)}"
    parts = (
        head_section(figures, title, warnings, tables, verdict), cards(figures, counted), measured, tables_section(figures), curve_section(figures),
        over_time_section(figures), sizes_section(figures), classes_section(figures), check_section(figures, checks),
    )
    return html_safe.document(title, STYLE, "".join(parts))


def head_section(figures: Figures, title: str, warnings: list[str], tables: "str | None", verdict: str) -> str:
    """What was measured, what the table costs, and what is known of it."""
    known, claim = figures.state_findings(), figures.claims[0]
    proved = int(claim.holds and claim.trust.is_proved)
    return f"""<h1>{title}</h1>
{f'<p class="lead" id="verdict">{escape(verdict)}</p>' * bool(verdict)}
<p class="lead">{escape(lead(figures))}</p>
<p id="proof" data-verdict="{escape(claim.verdict)}" data-proved="{proved}">{with_code(known[0])}</p>
{lines(f'<p id="proof-other">{with_code(words)}</p>' for words in known[1:])}
{lines(f'<p>{escape(words)}</p>' for words in figures.interval())}
{lines(f'<p class="warning">{escape(text)}</p>' for text in warnings)}
{f'<p><a href="{tables}">Try other tables for these counts</a>, in a page that tunes and checks as you turn its knobs.</p>' * bool(tables)}
"""


def cards(figures: Figures, counted: str) -> str:
    """What was counted, in numbers."""
    made = figures.certificate
    return f"""<dl>
{card("requests", "Requests counted", figures.requests, escape(counted))}
{card("bytes", "Bytes requested", figures.bytes, byte_text(figures.bytes))}
{card("large", "Large requests", figures.large, f"above {LARGEST_SIZE:,} bytes; in no other figure here")}
{card("limit", "Limit of classes", made.limit, f"in steps of {GRANULE * made.step} bytes")}
</dl>
"""


def tables_section(figures: Figures) -> str:
    over_time = " The footprint is the most memory of the classes over time." if figures.timed else ""
    return f"""<h2>Each table</h2>
<div class="scroll"><table id="tables">
{headings("Table", "Classes", *FOOTPRINT * bool(figures.timed), "Waste, bytes", "The first one saves")}
<tbody>{table_row(figures, figures.first, "first")}
{lines(table_row(figures, table, f"other-{at}") for at, table in enumerate(figures.rest))}</tbody>
</table></div>
<p class="soft">A block has a header of 16 bytes, the bytes that were requested, and those that are lost by rounding: the
waste. Its share is of the requested bytes. What is saved of it has its share of all blocks with that table.{over_time}</p>
"""


def curve_section(figures: Figures) -> str:
    made = figures.certificate
    caption = claims.curve(figures.claims[0], made.step, LARGEST_CLASS * made.forced)
    cost = "Waste, bytes" if figures.objective == "waste" else "Footprint, bytes"
    return f"""<h2>How many classes?</h2>
<figure>{curve(figures, "wide", 760, 340)}{curve(figures, "narrow", 340, 260)}
{curve_key(figures)}
<figcaption>{escape(caption)} Where it leaves the picture, it goes on upwards.</figcaption></figure>
<details><summary>The line in numbers</summary><div class="scroll"><table id="curve">
{headings("Classes", cost)}
<tbody>{lines(least_row(figures, *row) for row in enumerate(figures.least, 1))}</tbody>
</table></div></details>
"""


def sizes_section(figures: Figures) -> str:
    return f"""<h2>What was requested</h2>
<figure>{histogram(figures, "wide", 760, 360, 8)}{histogram(figures, "narrow", 340, 300, 4)}
{border_key(figures)}
<figcaption>A bar is the bytes that were requested in neighbouring sizes. A border is the largest size that a class
serves.</figcaption></figure>
"""


def classes_section(figures: Figures) -> str:
    return f"""<h2>The classes of the table of {figures.first.name}</h2>
<div class="scroll"><table id="classes">
{headings("Block, bytes", "Sizes served", *CLASS_COLUMNS[figures.objective], "Share")}
<tbody>{lines(class_row(figures, *row) for row in figures.classes())}</tbody>
</table></div>
"""


def check_section(figures: Figures, checks: list[str]) -> str:
    """Each table, and the command that checks its certificate."""
    return f"""<h2>Check it again</h2>
<p>This is the table of {figures.first.name} as a class line, in granules of 16 bytes:</p>
<pre id="class-line">{class_text(figures.first.classes)}</pre>
<p>Its certificate is checked by this, in the folder in which the page was made:</p>
<pre id="check">{escape(checks[0])}</pre>
{lines(other_section(*each) for each in zip(figures.order_made()[1:], checks[1:]))}
<p>What was counted, by <code>sha256sum</code>:</p>
<pre id="digests">{lines(escape(f"{each.digest}  {each.name}") for each in figures.claims)}</pre>"""


def lead(figures: Figures) -> str:
    """The first sentences: what the first table costs, and Scudo's default."""
    first, default = figures.first, figures.others[0]
    begin = f"A table of {len(first.classes)} size classes"
    if figures.objective == "waste":
        words = f"{begin} loses {count_text(first.waste, 'byte')} by rounding, {share(figures, first)} of what was requested."
        if default.waste is not None:
            words += f" {default.name} loses {count_text(default.waste, 'byte')}, {share(figures, default)}."
        return words
    is_whole = figures.timed.kind == "timeline"
    seen = "every moment of the run" if is_whole else count_text(figures.timed.history.snapshots, "moment")
    if interval := figures.timed.interval:
        seen = count_text(interval.events, "event") if interval.events else "the whole run"
    words = f"{begin} takes {first.is_known} {count_text(first.footprint, 'byte')} over {seen}.".replace("  ", " ")
    if (saving := figures.saving(default)) is not None:
        less = f"{percent(abs(saving), default.footprint)} {'less' if saving >= 0 else 'more'}"
        words += f" {default.name} takes {count_text(default.footprint, 'byte')}; so the table takes {less}."
    return words


def other_section(table: Table, check: str) -> str:
    """The table that was made for the other objective."""
    return f"""<p>The table of {table.name}, and the command that checks its certificate:</p>
<pre id="other-line">{class_text(table.classes)}</pre>
<pre id="check-other">{escape(check)}</pre>
"""


def with_code(text: str) -> str:
    """Escaped; words between backquotes are code."""
    parts = escape(text).split("`")
    return "".join(f"<code>{part}</code>" if at % 2 else part for at, part in enumerate(parts))


def share(figures: Figures, table: Table) -> str:
    return percent(table.waste, figures.bytes)


def lines(parts: Iterable[str]) -> str:
    return "\n".join(parts)


def headings(*names: str) -> str:
    cells = "".join(f'<th scope="col">{name}</th>' for name in names)
    return f"<thead><tr>{cells}</tr></thead>"


def card(name: str, title: str, value: int, note: str) -> str:
    return f'<div><dt>{title}</dt><dd id="{name}" data-value="{value}">{number(value)} <small>{note}</small></dd></div>'


def cell(name: str, value: int, text: object) -> str:
    return f'<td data-name="{name}" data-value="{value}">{text}</td>'


def with_share(text: str, part: int, whole: int) -> str:
    return f'{text} <span class="share">{percent(part, whole)}</span>'


def table_row(figures: Figures, table: Table, kind: str) -> str:
    cells = f'<th scope="row">{escape(table.name)}</th>' + cell("classes", len(table.classes), len(table.classes))
    if figures.timed:
        cells += footprint_cells(figures, table)
    if table.waste is None:
        cells += f'<td colspan="2" data-name="unserved" data-value="{table.unserved}">does not serve {number(table.unserved)} bytes</td>'
    else:
        cells += cell("waste", table.waste, with_share(number(table.waste), table.waste, figures.bytes))
        saving = figures.saved_waste(table)
        cells += "<td></td>" if kind == "first" else cell("saving", saving, with_share(kibibytes(saving), saving, figures.blocks(table)))
    form = ' class="tuned"' if kind == "first" else ""
    return f'<tr data-table="{kind}"{form}>{cells}</tr>'


def footprint_cells(figures: Figures, table: Table) -> str:
    """What it takes over time, and what the first table saves of that."""
    if table.footprint is None:
        return "<td></td><td></td>"
    cells = cell("footprint", table.footprint, f"{table.is_known} {kibibytes(table.footprint)}".lstrip())
    saving = figures.saved_footprint(table)
    if saving is None or table is figures.first:
        return cells + "<td></td>"
    return cells + cell("saved", saving, with_share(kibibytes(saving), saving, table.footprint))


def least_row(figures: Figures, classes: int, cost: int) -> str:
    text = with_share(number(cost), cost, figures.bytes) if figures.objective == "waste" else number(cost)
    return f'<tr data-classes="{classes}"><th scope="row">{classes}</th>{cell("lowest", cost, text)}</tr>'


def class_row(figures: Figures, block: int, least: int, most: int, count: int, cost: int) -> str:
    whole = figures.cost_over_record(figures.first)
    names = ("requests", "lost") if figures.objective == "waste" else ("blocks", "taken")
    cells = f'<th scope="row">{number(block)}</th><td>{number(least)}–{number(most)}</td>'
    cells += cell(names[0], count, number(count)) + cell(names[1], cost, number(cost))
    cells += f"<td>{percent(cost, whole) if whole else '–'}</td>"
    form = "" if count else ' class="empty"'
    return f'<tr data-block="{block}"{form}>{cells}</tr>'


# of the first table, of Scudo's two, and of the others in turn: the same colors and marks as in the page of scripts/page
MARKS = [
    ((-6, 0), (0, -6), (6, 0), (0, 6)),
    ((-5, -5), (5, -5), (5, 5), (-5, 5)),
    ((0, -6), (6, 5), (-6, 5)),
    ((0, 6), (6, -5), (-6, -5)),
    ((-7, -2.5), (7, -2.5), (7, 2.5), (-7, 2.5)),
    ((-7, 0), (0, -3), (7, 0), (0, 3)),
]


def mark(style: int, x: float, y: float, title: str = "") -> str:
    """The mark of a table: its shape tells it from others where its color does not."""
    points = " ".join(f"{coordinate(x + right)},{coordinate(y + down)}" for right, down in MARKS[style])
    return f'<polygon points="{points}" fill="var(--c{style})"><title>{escape(title)}</title></polygon>'


def styles(figures: Figures) -> list[tuple[int, Table]]:
    """All tables, the first one first, each with its style."""
    own = [figures.first, *figures.others[:SCUDO]]
    others = [table for table in figures.rest if table not in own]
    style = {id(table): at for at, table in enumerate(own)} | {id(table): len(own) + at % (COLORS - len(own)) for at, table in enumerate(others)}
    return [(style[id(table)], table) for table in (figures.first, *figures.rest)]


def key(entries: Iterable[tuple[int, str]]) -> str:
    items = (f'<li><svg viewBox="-7 -7 14 14" aria-hidden="true">{mark(style, 0, 0)}</svg>{escape(words)}</li>' for style, words in entries)
    return f'<ul class="key">{"".join(items)}</ul>'


def serving_tables(figures: Figures) -> list[tuple[int, Table]]:
    """The tables that serve what is given, each with its style."""
    return [(style, table) for style, table in styles(figures) if figures.cost_over_record(table) is not None]


def curve_key(figures: Figures) -> str:
    costs = [(style, table, share(figures, table) if figures.objective == "waste" else kibibytes(table.seen)) for style, table in serving_tables(figures)]
    return key((style, f"{table.name}: {len(table.classes)} classes, {cost}") for style, table, cost in costs)


def byte_levels(picture: Picture, top: float, most: int, low: float = 0) -> None:
    """The grid of round numbers of bytes, KiB and so on, up to so many bytes."""
    power = int(math.log2(top)) // 10
    name = ("bytes", "KiB", "MiB", "GiB", "TiB", "PiB")[power]
    picture.levels(top, most, lambda value: f"{value:,g} {name}" if value else "0", 1024**power, low)


def curve(figures: Figures, kind: str, width: int, height: int) -> str:
    """The least cost by the number of classes, and each table as a point; all over what was recorded."""
    is_waste = figures.objective == "waste"
    picture = Picture(kind, width, height, 46 if is_waste else 70, "waste, share of requested bytes" if is_waste else "footprint, bytes")
    most = max([len(figures.least)] + [len(table.classes) for _, table in serving_tables(figures)])
    # as high as the worst table, or as 8 classes, and some more: tables of very few classes cost far more; from 0, or near the lowest
    costs = [figures.least[-1]] + [figures.cost_over_record(table) for _, table in serving_tables(figures)]
    highest = max(figures.least[:8][-1], *costs)
    low = min(costs) if highest / 2 < min(costs) < highest else 0
    top = low + 1.15 * (highest - low) or figures.bytes / 100

    def at(classes: int, cost: int) -> tuple[float, float]:
        x = picture.left + 8 + (picture.right - picture.left - 8) * (classes - 1) / max(most - 1, 1)
        return x, picture.y(cost, top)

    if is_waste:
        picture.levels(top, 5, lambda value: f"{value:g}%", figures.bytes / 100, low)
    else:
        byte_levels(picture, top, 5, low)
    for classes in (1, *range(4, most + 1, 4)):
        picture.tick(at(classes, 0)[0], classes)
    picture.text(picture.middle, height - 6, "classes in the table", "middle")
    points = [at(classes, cost) for classes, cost in enumerate(figures.least, 1)]
    drawn = " ".join(f"{coordinate(x)},{coordinate(max(y, -10 * height))}" for x, y in points)
    picture.clip(f"area-{kind}", 6, 8)
    picture.parts.append(f'<polyline class="curve" clip-path="url(#area-{kind})" points="{drawn}"/>')
    for style, table in reversed(serving_tables(figures)):
        title = f"{table.name}: {len(table.classes)} classes, {number(figures.cost_over_record(table))} bytes"
        picture.parts.append(mark(style, *at(len(table.classes), figures.cost_over_record(table)), title))
    return picture.svg(f"{'Waste' if is_waste else 'Footprint'} by the number of classes")


def border_key(figures: Figures) -> str:
    return key([(0, f"borders of {figures.first.name}"), (1, f"borders of {figures.others[0].name}")])


def over_time_section(figures: Figures) -> str:
    """The live blocks over the run, where it was recorded."""
    if not figures.timed or figures.first.footprint is None:
        return ""
    rows = figures.heights(PARTS)
    layers = layers_of(figures.first.classes, rows)
    parts = f"{len(rows)} equal parts of the run, and as high as the most blocks of each class in it"
    column = f"one of {parts}" if figures.timed.kind == "timeline" else "a recorded moment"
    return f"""<h2>The blocks over time</h2>
<figure>{live_blocks(figures, layers, "wide", 760, 340)}{live_blocks(figures, layers, "narrow", 340, 280)}
<ul class="key">{lines(f'<li>{square(form)}{words}</li>' for words, form, _, _ in layers)}</ul>
<figcaption>A column is {column}. The footprint is the highest place of each class, added up.</figcaption></figure>
"""


def layers_of(classes: list[int], rows: list[list[int]]) -> list[tuple[str, str, list[int], int]]:
    """What is drawn one upon the other, from below: words, form, the bytes at each time and their most. Classes that take least are one."""
    columns = [[GRANULE * each * count for count in column] for each, column in zip(classes, zip(*rows))]
    most = sorted(range(len(classes)), key=lambda at: -max(columns[at]))
    shown, rest = ([at for at in some if max(columns[at])] for some in (most[: COLORS - 1], most[COLORS - 1 :]))
    found = [(f"blocks of {number(GRANULE * classes[at])} bytes", f'fill="var(--c{style})"', columns[at], max(columns[at]))
             for style, at in enumerate(shown)]  # fmt: skip
    if rest:
        words = f"{len(rest)} other class{'es' * (len(rest) > 1)}"
        found.append((words, 'class="bars"', [sum(each) for each in zip(*(columns[at] for at in rest))], sum(max(columns[at]) for at in rest)))
    return found


def live_blocks(figures: Figures, layers: list, kind: str, width: int, height: int) -> str:
    """The bytes of the live blocks over the run, the layers one upon the other, and the footprint."""
    picture = Picture(kind, width, height, 46, "bytes of live blocks")
    footprint = figures.first.footprint
    top = 1.05 * footprint
    byte_levels(picture, top, 5)
    columns = len(layers[0][2])
    x = [coordinate(picture.x(at / columns)) for at in range(columns + 1)]
    below = [0] * columns
    for words, form, values, most in layers:
        above = [one + other for one, other in zip(below, values)]
        up = "".join(f"H{x[at]}V{coordinate(picture.y(value, top))}" for at, value in enumerate(above))
        down = "".join(f"H{x[at + 1]}V{coordinate(picture.y(below[at], top))}" for at in reversed(range(columns)))
        title = f"{words}: at most {count_text(most, 'byte')}"
        begin = coordinate(picture.y(below[0], top))
        picture.parts.append(f'<path {form} d="M{x[0]} {begin}{up}H{x[-1]}{down}Z"><title>{title}</title></path>')
        below = above
    y, title = coordinate(picture.y(footprint, top)), f"footprint: {count_text(footprint, 'byte')}"
    picture.parts.append(f'<path class="level" d="M{picture.left} {y}H{picture.right}"><title>{title}</title></path>')
    of = "events of the run" if figures.timed.kind == "timeline" else "recorded moments"
    for share_ in (0, 25, 50, 75, 100):
        picture.tick(picture.x(share_ / 100), f"{share_}%")
    picture.text(picture.middle, height - 6, of, "middle")
    return picture.svg("The bytes of the live blocks over the run, by class")


def square(form: str) -> str:
    return f'<svg viewBox="0 0 12 12" aria-hidden="true"><rect width="12" height="12" {form}/></svg>'


def bars(counts: dict[int, int], per_octave: int) -> dict[int, tuple[int, int, int, int]]:
    """The sizes in groups: by the place of its bar, each group's least and greatest size, requests and bytes."""
    groups: dict[int, tuple[int, int, int, int]] = {}
    for size, count in counts.items():
        octave = math.log2(max(size, 1)) - FIRST_OCTAVE
        place = max(0, math.ceil(octave * per_octave - 1e-9) - 1)
        least, _, requests, total = groups.get(place, (size, size, 0, 0))
        groups[place] = (least, size, requests + count, total + size * count)
    return groups


def histogram(figures: Figures, kind: str, width: int, height: int, per_octave: int) -> str:
    """The requested bytes by size, on a logarithmic scale. Under it are the class borders of the tuned table and of Scudo's default."""
    picture = Picture(kind, width, height, 90, "requested bytes")
    groups = bars(figures.counts, per_octave)
    top = 1.05 * max(total for *_, total in groups.values())

    def x(size: int) -> float:
        return picture.x((math.log2(max(size, 2**FIRST_OCTAVE)) - FIRST_OCTAVE) / OCTAVES)

    def borders(table: Table, y: float, down: float, form: str) -> None:
        lines = "".join(f"M{coordinate(x(GRANULE * granules - GRANULE))} {y}V{down}" for granules in table.classes)
        picture.parts.append(f'<path d="{lines}" fill="none" {form}/>')

    byte_levels(picture, top, 4)
    wide = (picture.right - picture.left) / (OCTAVES * per_octave)
    for place, (least, most, requests, total) in sorted(groups.items()):
        y = picture.y(total, top)
        form = box(picture.left + place * wide, y, wide - 0.5, picture.bottom - y)
        title = f"{number(least)} to {number(most)} bytes: {count_text(requests, 'request')}, {count_text(total, 'byte')} in all"
        picture.parts.append(f'<rect class="bars" {form}><title>{title}</title></rect>')
    for size, words in SIZE_TICKS:
        picture.tick(x(size), words)
    borders(figures.first, picture.top, picture.bottom, 'stroke="var(--c0)" stroke-opacity=".25"')
    for row, (words, style, table) in enumerate([("first", 0, figures.first), ("Scudo", 1, figures.others[0])]):
        y = picture.bottom + 26 + 20 * row
        picture.text(picture.left - 6, y + 12, words, "end")
        borders(table, y, y + 16, f'stroke="var(--c{style})" stroke-width="1.5"')
    picture.text(picture.middle, height - 4, "size of the request in bytes", "middle")
    return picture.svg("The requested bytes by size, and the class borders of two tables")
