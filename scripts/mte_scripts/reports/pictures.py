"""What the pictures in SVG share: texts in them, round values on an axis, the axes, curves, and the style of those that are files."""

import html
import math
from collections.abc import Callable

from mte_scripts import html_safe


def escape(text: object) -> str:
    """A text within a page or a picture. A name from outside may have any byte: what is no text in it is shown escaped."""
    return html.escape(html_safe.escape_unprintable(text))


def coordinate(value: float) -> str:
    """A coordinate."""
    return f"{value:.1f}".removesuffix(".0")


def box(x: float, y: float, width: float, height: float) -> str:
    """A rectangle's place and size."""
    return f'x="{coordinate(x)}" y="{coordinate(y)}" width="{coordinate(width)}" height="{coordinate(height)}"'


def round_step(top: float, most: int) -> float:
    """The least of 1, 2 and 5, and of these times a power of 10, of which so many make TOP."""
    power = 10.0 ** math.floor(math.log10(top / most))
    return next(power * factor for factor in (1, 2, 5, 10) if power * factor * most >= top)


class Picture:
    """A picture within a page, with a left and a lower axis. It takes its colors from the page's style."""

    def __init__(self, kind: str, width: int, height: int, below: int, title: str) -> None:
        self.kind = kind
        self.width = width
        self.height = height
        self.left, self.right, self.top, self.bottom = 62, width - 20, 26, height - below
        self.middle = (self.left + self.right) // 2
        self.base = 0.0
        self.parts: "list[str]" = []
        self.text(0, 12, title)

    def text(self, x: float, y: float, words: object, anchor: str = "start") -> None:
        self.parts.append(f'<text x="{coordinate(x)}" y="{coordinate(y)}" text-anchor="{anchor}">{escape(words)}</text>')

    def x(self, share: float) -> float:
        """The place after this share of the width."""
        return self.left + (self.right - self.left) * share

    def y(self, value: float, top: float) -> float:
        return self.bottom - (self.bottom - self.top) * (value - self.base) / (top - self.base)

    def levels(self, top: float, most: int, words: "Callable[[float], str]", unit: float = 1, low: float = 0) -> None:
        """The left axis, with the grid of round numbers of units up to TOP. It begins at the one next below LOW."""
        step = round_step((top - low) / unit, most)
        first = math.floor(low / unit / step)
        self.base = first * step * unit
        for at in range(first, int(top / unit / step) + 1):
            y = self.y(step * at * unit, top)
            self.parts.append(f'<path class="grid" d="M{self.left} {coordinate(y)}H{self.right}"/>')
            self.text(self.left - 6, y + 4, words(step * at), "end")

    def clip(self, name: str, above: float, below: float) -> None:
        """What is drawn with this clip path is cut off outside the axes, and some more above and below."""
        area = box(self.left, self.top - above, self.right - self.left, self.bottom - self.top + below)
        self.parts.append(f'<clipPath id="{name}"><rect {area}/></clipPath>')

    def tick(self, x: float, words: object) -> None:
        self.parts.append(f'<path class="axis" d="M{coordinate(x)} {self.bottom}v4"/>')
        self.text(x, self.bottom + 17, words, "middle")

    def svg(self, name: str) -> str:
        axis = f'<path class="axis" d="M{self.left} {self.bottom}H{self.right}"/>'
        view = f'viewBox="0 0 {self.width} {self.height}"'
        return f'<svg class="{self.kind}" {view} role="img" aria-label="{escape(name)}">{"".join(self.parts)}{axis}</svg>'


XMLNS = '<svg xmlns="http://www.w3.org/2000/svg" '
LIGHT = ("#0969da", "#bc4c00", "#1a7f37", "#8250df", "#cf222e", "#9a6700", "#0550ae", "#57606a")
DARK = ("#58a6ff", "#f0883e", "#3fb950", "#bc8cff", "#ff7b72", "#d29922", "#79c0ff", "#8b949e")
STYLE = """text{font:13px sans-serif;fill:#1f2328;stroke:#fff;stroke-width:3px;paint-order:stroke} .back{fill:#fff} .grid{stroke:#d0d7de}
.axis{stroke:#57606a;fill:none} .limit{stroke:#cf222e;stroke-dasharray:6 4} .mark{fill:currentColor}
.curve{fill:none;stroke:currentColor;stroke-width:2;stroke-linejoin:round}
"""
STYLE_DARK = """text{fill:#e6edf3;stroke:#0d1117} .back{fill:#0d1117} .grid{stroke:#30363d} .axis{stroke:#9198a1} .limit{stroke:#ff7b72}
"""


class Drawing(Picture):
    """A picture that is a file of its own, with curves in colors of their own. It is light or dark as its reader is."""

    def __init__(self, width: int, height: int, below: int, title: str) -> None:
        super().__init__("drawing", width, height, below, title)
        self.clip("plot", 0, 6)

    def curve(self, at: int, points: "list[tuple[float, float, str]]") -> None:
        """Curve number AT, over (x, y, title); what is above the picture is cut off."""
        line = " ".join(f"{coordinate(x)},{coordinate(max(y, -10 * self.height))}" for x, y, _ in points)
        places = ((f'cx="{coordinate(x)}" cy="{coordinate(y)}" r="2.6"', title) for x, y, title in points if y >= self.top)
        marks = "".join(f'<circle class="mark" {place}><title>{escape(title)}</title></circle>' for place, title in places)
        self.parts.append(f'<g class="c{at % len(LIGHT)}" clip-path="url(#plot)"><polyline class="curve" points="{line}"/>{marks}</g>')

    def square(self, at: int, x: float, y: float, title: str) -> None:
        """A point beside curve number AT."""
        self.parts.append(f'<g class="c{at % len(LIGHT)}"><rect class="mark" {box(x - 4, y - 4, 8, 8)}><title>{escape(title)}</title></rect></g>')

    def key(self, at: int, x: float, y: float, words: str, anchor: str = "start") -> None:
        """The name of curve number AT, after a piece of it or before it."""
        begin = x if anchor == "start" else x - 44
        self.parts.append(f'<g class="c{at % len(LIGHT)}"><path class="curve" d="M{coordinate(begin)} {coordinate(y - 4)}h44"/></g>')
        self.text(x + 52 if anchor == "start" else x - 52, y, words, anchor)

    def svg(self, name: str) -> str:
        colors, dark = ("".join(f".c{at}{{color:{color}}}" for at, color in enumerate(some)) for some in (LIGHT, DARK))
        style = f"<style>{STYLE}{colors}\n@media (prefers-color-scheme:dark){{{STYLE_DARK}{dark}}}</style>"
        back = f'<rect class="back" width="{self.width}" height="{self.height}"/>'
        begin, rest = super().svg(name).split(">", 1)
        return f'{begin.replace("<svg ", XMLNS, 1)}>{style}\n{back}{rest}'.replace("><", ">\n<") + "\n"
