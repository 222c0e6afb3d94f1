"""The picture of a sheet: places from left to right, place 0 on the right, and below the ruler each
term's mask. A picture has no look; terminal.py and svg.py give it one."""

from __future__ import annotations

from typing import Mapping, NamedTuple

from ..calls import Sheet, reduce_mask
from ..facts import facts_of
from ..records import AND, Record, split_form, tree_records
from ..render import NO_NAMES, factor_text, mask_text, number_text, signed, sum_text

COUNTS, IDLE, ABSENT = "1", "x", "."


class Row(NamedTuple):
    """A term, or the constant, which has the coefficient 1 and its own bits as its mask.

    `kept` are the bits of the mask that count beside the coefficient. The coefficient is an odd
    number times 2^shift, so that each bit lands at least `shift` places higher; `pushed` are the
    bits that come to lie behind the last place, from the lowest."""

    title: str
    coefficient: int
    mask: int
    kept: int
    shift: int
    pushed: int

    def cells(self, width: int) -> str:
        """A character for each place of the mask, the highest first."""
        return "".join(
            ABSENT if not self.mask >> place & 1 else COUNTS if self.kept >> place & 1 else IDLE
            for place in reversed(range(width))
        )

    def landing(self, width: int) -> str:
        """A character for each place at which the lowest bit of a product can land."""
        landed = self.kept << self.shift
        return "".join(
            COUNTS if landed >> place & 1 else ABSENT for place in reversed(range(width))
        )


class Picture(NamedTuple):
    width: int
    par: int
    sum: str
    rows: list[Row]


def picture_of(sheet: Sheet, names: Mapping[int, str] = NO_NAMES) -> Picture:
    width, constant, terms = split_form(sheet.data)
    rows = [Row(f"constant {mask_text(constant, width)}", 1, constant, constant, 0, 0)]
    for coefficient, tree in terms:
        factor = factor_text(tree, width, names)
        title = f"{number_text(signed(coefficient, width), width)}*{factor}"
        mask = mask_of(tree_records(tree), width)
        shift = (coefficient & -coefficient).bit_length() - 1
        rows.append(Row(title, coefficient, mask, reduce_mask(coefficient, mask, width), shift,
                        mask >> (width - shift)))
    return Picture(width, sheet.par, sum_text(width, constant, terms, names), rows)


def mask_of(records: list[Record], width: int) -> int:
    """The mask beside an And, joined with those below it; all places where there is none."""
    facts = facts_of(records, width)
    mask, at = (1 << width) - 1, len(records) - 1
    while records[at].kind == AND:
        left, right = facts[at].children
        if facts[left].variable and facts[right].variable:
            break
        free, at = (right, left) if facts[left].variable else (left, right)
        mask &= facts[free].value
    return mask
