"""A picture as SVG: a cell for each place, one more row where a coefficient moves the bits up."""

from __future__ import annotations

from ..render import mask_text
from .picture import ABSENT, COUNTS, IDLE, Picture, Row

CELL, LINE, EDGE, GAP = 18, 20, 16, 4
LEGEND = (("counts", "counts"), ("idle", "cannot matter"), ("pushed", "pushed off the end"))
LEGEND_STEP = 125
LEGEND_WIDTH = 2 * EDGE + LEGEND_STEP * len(LEGEND)
CLASSES = {COUNTS: "counts", IDLE: "idle", ABSENT: "absent"}
STYLE = """
text { font: 13px ui-monospace, monospace; fill: #1f2328 }
.place, .note { font-size: 10px; fill: #656d76 }
.place { text-anchor: middle }
.sum { font-size: 15px; font-weight: bold }
rect { stroke: #8c959f; stroke-width: 1 }
.counts { fill: #0969da }
.idle { fill: #ddf4ff; stroke-dasharray: 2 2 }
.absent { fill: #ffffff }
.pushed { fill: #ffebe9; stroke: #cf222e; stroke-dasharray: 2 2 }
.page { fill: #ffffff; stroke: none }
"""


def escape(text: str) -> str:
    return text.replace("&", "&amp;").replace("<", "&lt;").replace(">", "&gt;")


class Canvas:
    """Lines of an SVG file. Place 0 stands on the right; what is pushed off the end stands to the
    left of the last place."""

    def __init__(self, picture: Picture) -> None:
        self.width = picture.width
        self.beyond = max((row.pushed.bit_length() for row in picture.rows), default=0)
        self.parts: list[str] = []
        self.y = EDGE + LINE

    def x(self, place: int) -> int:
        """The left edge of a place; gaps stand between the eighths and behind the end."""
        from_left = self.width + self.beyond - 1 - place
        eighths = (self.width - 1) // 8 - place // 8 if place < self.width else -1
        return EDGE + CELL * from_left + (GAP * (eighths + 2) if self.beyond else GAP * eighths)

    def text(self, x: int, content: str, style: str = "") -> None:
        named = f' class="{style}"' if style else ""
        self.parts.append(f'<text x="{x}" y="{self.y}"{named}>{escape(content)}</text>')

    def cell(self, place: int, style: str) -> None:
        self.parts.append(f'<rect x="{self.x(place)}" y="{self.y}" width="{CELL}" height="{CELL}"'
                          f' class="{style}" data-place="{place}"/>')

    def row(self, name: str, cells: str, pushed: int, note: str) -> None:
        self.parts.append(f'<g data-row="{name}">')
        for place, character in zip(reversed(range(self.width)), cells):
            self.cell(place, CLASSES[character])
        for place in range(pushed.bit_length()):
            if pushed >> place & 1:
                self.cell(self.width + place, "pushed")
        self.parts.append("</g>")
        self.y += CELL - 4
        self.text(self.x(0) + CELL + 8, note, "note")
        self.y += 8


def svg_text(picture: Picture) -> str:
    canvas = Canvas(picture)
    canvas.text(EDGE, picture.sum, "sum")
    canvas.y += LINE
    canvas.text(EDGE, f"par {picture.par}, width {picture.width}", "note")
    canvas.y += LINE
    for place in range(picture.width):
        canvas.text(canvas.x(place) + CELL // 2, str(place), "place")
    for number, row in enumerate(picture.rows):
        draw_row(canvas, number, row)
    draw_legend(canvas)
    longest = max(len(picture.sum), *(len(row.title) for row in picture.rows))
    width = max(canvas.x(0) + CELL + 180, EDGE * 2 + 10 * longest, LEGEND_WIDTH)
    height = canvas.y + EDGE
    head = (f'<svg xmlns="http://www.w3.org/2000/svg" width="{width}" height="{height}"'
            f' viewBox="0 0 {width} {height}" role="img">')
    title = f"<title>{escape(picture.sum)}</title>"
    page = f'<rect class="page" width="{width}" height="{height}"/>'
    return "\n".join([head, title, f"<style>{STYLE}</style>", page, *canvas.parts, "</svg>", ""])


def draw_row(canvas: Canvas, number: int, row: Row) -> None:
    """The constant is row 0, a term has its mask and, where its bits move up, where they land."""
    canvas.y += LINE + 4
    canvas.text(EDGE, row.title)
    canvas.y += 8
    canvas.row(f"mask {number}", row.cells(canvas.width), 0, mask_text(row.mask, canvas.width))
    if row.shift:
        pushed = bin(row.pushed).count("1")
        note = f"{row.shift} up" + (f", {pushed} pushed off the end" if pushed else "")
        canvas.row(f"landing {number}", row.landing(canvas.width), row.pushed, note)


def draw_legend(canvas: Canvas) -> None:
    canvas.y += LINE
    for number, (style, meaning) in enumerate(LEGEND):
        x = EDGE + LEGEND_STEP * number
        canvas.parts += [
            f'<rect x="{x}" y="{canvas.y}" width="10" height="10" class="{style}"/>',
            f'<text x="{x + 16}" y="{canvas.y + 9}" class="note">{meaning}</text>',
        ]
    canvas.y += 10
