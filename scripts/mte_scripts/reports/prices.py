"""Draws what hardening costs some programs: for each a bar of its peak as it is, in Scudo, and in Scudo with sizes of its own."""

from mte_scripts.reports.pictures import Drawing, box, escape

WIDTH, HEIGHT, BELOW, WIDE = 760, 300, 62, 30
# each with the number of its color
BARS = (("as it is, with glibc", 7), ("Scudo's own sizes", 1), ("sizes for the program", 0))
Row = tuple[str, tuple[int, int, int]]  # a program, and its peaks in KiB


def picture(rows: "list[Row]") -> str:
    drawing = Drawing(WIDTH, HEIGHT, BELOW, "peak memory, MiB")
    top = 1.1 * max(max(peaks) for _, peaks in rows) / 1024
    drawing.levels(top, 6, lambda value: f"{value:g}")
    for at, (name, peaks) in enumerate(rows):
        middle = drawing.x((at + 0.5) / len(rows))
        drawing.text(middle, drawing.bottom + 18, name, "middle")
        for place, (peak, (words, color)) in enumerate(zip(peaks, BARS)):
            x, y = middle + (place - 1.5) * WIDE, drawing.y(peak / 1024, top)
            area, title = box(x + 1, y, WIDE - 2, drawing.bottom - y), escape(f"{name}, {words}: {peak:,} KiB")
            drawing.parts.append(f'<g class="c{color}"><rect class="mark" {area}><title>{title}</title></rect></g>')
            drawing.text(x + WIDE / 2, y - 4, f"{peak / 1024:.0f}", "middle")
    for at, (words, color) in enumerate(BARS):
        x = drawing.left + 10 + at * 190
        drawing.parts.append(f'<g class="c{color}"><rect class="mark" {box(x, HEIGHT - 22, 12, 12)}/></g>')
        drawing.text(x + 18, HEIGHT - 11, words)
    return drawing.svg("Peak memory of some programs: " + "; ".join(f"{name} {', '.join(f'{peak:,}' for peak in peaks)} KiB" for name, peaks in rows))
