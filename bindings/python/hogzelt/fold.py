"""Values of nodes, and variable-free parts of an expression cut to one literal."""

from __future__ import annotations

from .parser import Parsed
from .records import (
    ADD, AND, ARITY, CASTS, CONSTANT, LAYOUT, MUL, NEG, NOT, OR, SHR, VARIABLE, XOR,
    record_bytes,
)


def node_value(kind: int, argument: int, operands: list[int], width: int) -> int:
    """The value of an operator other than a cast at w bits."""
    first, last = operands[0], operands[-1]
    if kind == ADD:
        value = first + last
    elif kind == MUL:
        value = first * last
    elif kind == AND:
        value = first & last
    elif kind == OR:
        value = first | last
    elif kind == XOR:
        value = first ^ last
    elif kind == NOT:
        value = ~first
    elif kind == NEG:
        value = -first
    else:
        assert kind == SHR
        value = first >> argument
    return value % (1 << width)


def fold(parsed: Parsed) -> Parsed:
    """The same expression with each variable-free part of several records as its value."""
    width = parsed.width
    records: list[bytes] = []
    places: list[int] = []
    stack: list[tuple[int, int | None]] = []  # first record of a tree without a parent, its value
    for data, place in zip(parsed.records, parsed.places):
        kind, argument, _, _, _, literal = LAYOUT.unpack(data)
        below = [stack.pop() for _ in range(ARITY[kind])][::-1]
        first = below[0][0] if below else len(records)
        values = [value for _, value in below if value is not None]
        value = None
        if kind == CONSTANT:
            value = literal % (1 << width)
        elif below and len(values) == len(below) and kind not in CASTS:
            value = node_value(kind, argument, values, width)
            del records[first:], places[first:]
            data = record_bytes(CONSTANT, 0, 1, width, value)
        elif kind != VARIABLE:
            data = record_bytes(kind, argument, len(records) - first + 1, width, 0)
        records.append(data)
        places.append(place)
        stack.append((first, value))
    return parsed._replace(records=records, places=places)
