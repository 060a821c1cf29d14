"""The part of report.html on which code requests the blocks that cost."""

from mte_scripts.reports import flames
from mte_scripts.reports.pictures import escape
from mte_scripts.tables.site_costs import SiteCosts

HEADS = ("Place", "Taken", "Share", "Lost", "Blocks", "Their bytes")


def section(who: SiteCosts) -> str:
    """The places that take most, what fewer bytes there save, and the flame graphs: readable without a script."""
    rows = "\n".join(f'<tr><th scope="row">{escape(place)}</th>{"".join(f"<td>{escape(cell)}</td>" for cell in cells)}</tr>' for *cells, place in who.rows())
    tried = "\n".join(f"<li>{escape(each.state_saving())}</li>" for each in who.what_ifs)
    heads = "".join(f'<th scope="col">{each}</th>' for each in HEADS)
    return f"""<h2>Who requests it</h2>
<p>{escape(who.lead())}</p>
<div class="scroll"><table id="who">
<thead><tr>{heads}</tr></thead>
<tbody>{rows}</tbody>
</table></div>
<ul id="what-if">
{tried}
</ul>
<p class="soft">{escape(f"{who.note_unsure()} {who.input()}".strip())}</p>
{"".join(figure(kind, pairs) for kind, pairs in who.weights().items() if pairs)}"""


def figure(kind: str, pairs: flames.Weighed) -> str:
    """A flame graph, wide and narrow, with what a box is."""
    drawn = "".join(flames.svg(kind, pairs, name, width, file=False) for name, width in (("wide", 760), ("narrow", 340)))
    return f"""<figure>{drawn}
<figcaption>Bytes by the calls that request them, {escape(kind)}: a box is a call as wide as its bytes, upon the one that made it. The title of a box has
its name and its bytes.</figcaption></figure>
"""
