"""A picture in characters, at most 100 to a line where its texts are short."""

from __future__ import annotations

import os
import sys

from ..render import grouped, mask_text
from .picture import ABSENT, COUNTS, IDLE, Picture, Row

GUTTER = 8
DIM, BOLD, PLAIN = "\x1b[2m", "\x1b[1m", "\x1b[0m"
LEGEND = f"{COUNTS} counts   {IDLE} cannot matter beside the coefficient   {ABSENT} not in the mask"


def wants_colour() -> bool:
    return sys.stdout.isatty() and not os.environ.get("NO_COLOR")


def picture_lines(picture: Picture, colour: bool) -> list[str]:
    width = picture.width
    lines = [picture.sum, f"par {picture.par}, width {width}", ""]
    lines += [gutter("place", i == 0) + row for i, row in enumerate(ruler(width))]
    for row in picture.rows:
        lines += ["", row.title]
        cells = painted(row.cells(width), colour)
        lines.append(f"{gutter('')}{cells}  {mask_text(row.mask, width)}")
        if row.shift:
            landing = painted(row.landing(width), colour)
            lines.append(f"{gutter(off_the_end(row))}{landing}  {row.shift} up")
    if any(row.pushed for row in picture.rows):
        lines += ["", "< pushed off the end: " + "; ".join(
            f"{bin(row.pushed).count('1')} of {row.title}" for row in picture.rows if row.pushed)]
    return [*lines, "", LEGEND]


def ruler(width: int) -> list[str]:
    """The numbers of the places, their tens above where there are any."""
    places = list(reversed(range(width)))
    units = grouped("".join(str(place % 10) for place in places))
    if width <= 10:
        return [units]
    tens = "".join(str(place // 10) if place >= 10 else "_" for place in places)
    return [grouped(tens).replace("_", " ").rstrip(), units]


def off_the_end(row: Row) -> str:
    """What lies behind the last place: the bits where they fit, else their number."""
    if not row.pushed:
        return ""
    bits = format(row.pushed, "b").replace("0", ABSENT).replace("1", IDLE)
    return (bits if len(bits) < GUTTER - 1 else f"{bits.count(IDLE)} off") + "<"


def gutter(text: str, shown: bool = True) -> str:
    return f"{text if shown else '':>{GUTTER}} "


def painted(cells: str, colour: bool) -> str:
    spaced = grouped(cells)
    if not colour:
        return spaced
    paint = {COUNTS: BOLD, IDLE: DIM, ABSENT: DIM, " ": ""}
    return "".join(f"{paint[c]}{c}{PLAIN}" if paint[c] else c for c in spaced)
