"""A flame graph of bytes by stacks, as a picture in SVG that says in titles what a box is, and as a file of speedscope
(https://www.speedscope.app)."""

import json
from collections.abc import Iterable

from mte_scripts.reports.pictures import box, coordinate, escape

ROW, NARROWEST, LETTER = 17, 0.5, 7.2
MOST_ROWS = 40  # the frames that are outermost
SCHEMA = "https://www.speedscope.app/file-format-schema.json"
Weighed = list[tuple[tuple[str, ...], int]]  # a stack, the outermost call first, and its bytes


def speedscope(name: str, kinds: "dict[str, Weighed]") -> str:
    """The file: a profile for each kind of weight."""
    numbers: dict[str, int] = {}
    profiles = []
    for kind, pairs in kinds.items():
        samples = [[numbers.setdefault(frame, len(numbers)) for frame in stack] for stack, _ in pairs]
        weights = [weight for _, weight in pairs]
        profiles.append({"type": "sampled", "name": kind, "unit": "bytes", "startValue": 0, "endValue": sum(weights), "samples": samples, "weights": weights})
    return json.dumps({"$schema": SCHEMA, "name": name, "shared": {"frames": [{"name": each} for each in numbers]}, "profiles": profiles}) + "\n"


class Node:
    """A call with what is below it."""

    def __init__(self) -> None:
        self.bytes = 0
        self.below: "dict[str, Node]" = {}

    def add(self, stack: Iterable[str], weight: int) -> None:
        node = self
        node.bytes += weight
        for each in stack:
            node = node.below.setdefault(each, Node())
            node.bytes += weight


def boxes(pairs: Weighed, title: str, width: float) -> "list[tuple[int, float, float, str, int]]":
    """The boxes that can be seen: row, left, width, name and bytes; outermost calls first, and of calls beside each other the larger first."""
    root = Node()
    for stack, weight in pairs:
        root.add(stack[:MOST_ROWS], weight)
    found, scale, waiting = [], width / max(root.bytes, 1), [(0, 0.0, title, root)]
    while waiting:
        row, left, name, node = waiting.pop()
        found.append((row, left, node.bytes * scale, name, node.bytes))
        for each, below in sorted(node.below.items(), key=lambda pair: (-pair[1].bytes, pair[0])):
            if below.bytes * scale >= NARROWEST:
                waiting.append((row + 1, left, each, below))
            left += below.bytes * scale
    return found


def svg(title: str, pairs: Weighed, kind: str = "flames", width: int = 1200, file: bool = True) -> str:
    """The picture, the outermost calls at the bottom: a FILE of its own, or a part of a page."""
    drawn = boxes(pairs, title, width)
    whole, height = max(drawn[0][4], 1), ROW * (max(row for row, *_ in drawn) + 1)
    begin = 'xmlns="http://www.w3.org/2000/svg" font-family="sans-serif" font-size="11" ' if file else ""
    lines = [f'<svg {begin}class="{kind}" viewBox="0 0 {width} {height}" role="img" aria-label="{escape(title)}">']
    for row, left, wide, name, size in drawn:
        top, hue = height - ROW * (row + 1), 18 + sum(map(ord, name)) % 36
        said = escape(f"{name}: {size:,} bytes, {100 * size / whole:.1f}%")
        drawn_box = f'<rect {box(left, top, max(wide - 0.5, NARROWEST), ROW - 1)} fill="hsl({hue},75%,68%)"/>'
        fits = int((wide - 6) / LETTER)
        text = escape(name if len(name) <= fits else f"{name[: fits - 1]}…")
        inside = f'<text x="{coordinate(left + 3)}" y="{top + 12}" style="fill:#111;font-size:11px">{text}</text>' if fits > 3 else ""
        lines.append(f"<g><title>{said}</title>{drawn_box}{inside}</g>")
    return "\n".join([*lines, "</svg>", ""])
