"""What is known of the tree of each record of an expression, from its leaves up."""

from __future__ import annotations

from typing import NamedTuple

from .fold import node_value
from .records import (
    ADD, AND, ARITHMETIC, ARITY, CASTS, CONSTANT, MUL, NEG, OR, SHR, VARIABLE, XOR, Record,
)


class Facts(NamedTuple):
    """Of the tree of a record: its children, whether it has a variable, whether it has an Add, Mul
    or Neg, its value where it has no variable, and a mask of the places that can be 1."""

    children: list[int]
    variable: bool
    arithmetic: bool
    value: int
    bits: int


def facts_of(records: list[Record], width: int) -> list[Facts]:
    found: list[Facts] = []
    for i, record in enumerate(records):
        children = []
        if ARITY[record.kind]:
            children = [i - 1]
        if ARITY[record.kind] == 2:
            children = [i - 1 - records[i - 1].size, i - 1]
        below = [found[c] for c in children]
        variable = record.kind == VARIABLE or any(f.variable for f in below)
        arithmetic = record.kind in ARITHMETIC or any(f.arithmetic for f in below)
        value = 0
        if record.kind == CONSTANT:
            value = record.literal % (1 << width)
        elif not variable and record.kind not in CASTS:
            value = node_value(record.kind, record.argument, [f.value for f in below], width)
        bits = places_of(record, below, width) if variable else value
        found.append(Facts(children, variable, arithmetic, value, bits))
    return found


def places_of(record: Record, below: list[Facts], width: int) -> int:
    """The places that can be 1 in the value of a tree with a variable."""
    full = (1 << width) - 1
    bits = [f.bits for f in below]
    if record.kind == AND:
        return bits[0] & bits[1]
    if record.kind in (OR, XOR) or (record.kind == ADD and bits[0] & bits[1] == 0):
        return bits[0] | bits[1]
    if record.kind == SHR:
        return bits[0] >> record.argument
    if record.kind in (ADD, NEG):
        return full & -lowest(bits[0] | bits[-1])
    if record.kind == MUL:
        return full & -(lowest(bits[0]) * lowest(bits[1]))
    return full


def lowest(bits: int) -> int:
    return bits & -bits
