"""Expressions and semilinear forms as one line of text, which the parser reads again."""

from __future__ import annotations

from typing import Any, Iterable, Mapping, Tuple

from .records import (
    ADD, AND, ARITY, CASTS, CONCAT, CONSTANT, KIND_NAMES, LAYOUT, MUL, NEG, NOT, OR, SHR, VARIABLE,
    XOR, Expression, Record, expression_bytes,
)
from .tokens import variable_text

SYMBOLS = {ADD: " + ", MUL: "*", AND: " & ", OR: " | ", XOR: " ^ ", NOT: "~", NEG: "-"}
CLOSED = frozenset((CONSTANT, VARIABLE)) | CASTS  # written so that no parentheses are needed
TIGHT = CLOSED | {NOT, NEG}
FACTOR = CLOSED | {NOT}
# the operands that stand without parentheses, by the kind above; a mix of other operators has them
# even where C's precedence would do without
BARE_LEFT = {
    MUL: TIGHT | {MUL}, ADD: TIGHT | {MUL, ADD}, SHR: TIGHT | {SHR},
    AND: TIGHT | {AND}, OR: TIGHT | {OR}, XOR: TIGHT | {XOR},
}
BARE_RIGHT = {MUL: TIGHT, ADD: TIGHT | {MUL}, AND: TIGHT, OR: TIGHT, XOR: TIGHT}
BARE_INNER = {NOT: TIGHT, NEG: FACTOR}

# the kind and text of an operand, and below a Neg the operand, which a minus sign takes over
Piece = Tuple[int, str, Any]

NO_NAMES: Mapping[int, str] = {}
MOST_KEPT = 1 << 16
# the texts of atoms as factors, by the bytes of their trees
FACTORS: dict[bytes, str] = {}


def expression_text(records: list[Record], width: int, names: Mapping[int, str] = NO_NAMES) -> str:
    """The text of a tree; parsing it gives the same records, if no names are given."""
    return piece(expression_bytes(Expression(width, records)), width, names)[1]


def piece(tree: bytes, width: int, names: Mapping[int, str]) -> tuple[int, str]:
    """The kind of the root and the text of a tree."""
    stack: list[Piece] = []
    for kind, argument, _, _, high, literal in LAYOUT.iter_unpack(tree):
        if kind == CONSTANT:
            stack.append((kind, literal_text(literal, width), None))
        elif kind == VARIABLE:
            number = argument | high << 8
            stack.append((kind, name_of(number, names), None))
        elif ARITY[kind] == 2:
            right = stack.pop()
            stack.append((kind, binary_text(kind, stack.pop(), right), None))
        else:
            inner = stack.pop()
            stack.append((kind, unary_text(kind, argument, inner), inner))
    kind, text, _ = stack[-1]
    return kind, text


def binary_text(kind: int, left: Piece, right: Piece) -> str:
    if kind == CONCAT:
        return f"concat({left[1]}, {right[1]})"
    first = left[1] if left[0] in BARE_LEFT[kind] else f"({left[1]})"
    symbol = SYMBOLS[kind]
    if kind == ADD and right[0] == NEG:
        symbol, right = " - ", right[2]
    second = right[1] if right[0] in BARE_RIGHT[kind] else f"({right[1]})"
    return first + symbol + second


def unary_text(kind: int, argument: int, inner: Piece) -> str:
    if kind in CASTS:
        return f"{KIND_NAMES[kind].lower()}({argument}, {inner[1]})"
    bare = inner[0] in (BARE_LEFT[SHR] if kind == SHR else BARE_INNER[kind])
    operand = inner[1] if bare else f"({inner[1]})"
    return f"{operand} >> {argument}" if kind == SHR else SYMBOLS[kind] + operand


def name_of(variable: int, names: Mapping[int, str]) -> str:
    """The name that the text gives a variable, or that of its number."""
    return names.get(variable) or variable_text(variable)


def literal_text(value: int, width: int) -> str:
    """Decimal up to 65535, above that as a mask."""
    return str(value) if value < 65536 else mask_text(value, width)


def mask_text(value: int, width: int) -> str:
    """Hexadecimal, with the digits of the width."""
    return f"0x{value:0{(width + 3) // 4}x}"


def signed(value: int, width: int) -> int:
    """The reading that is nearer to 0 modulo 2^width; the half is positive."""
    return value if value <= 1 << (width - 1) else value - (1 << width)


def factor_text(tree: bytes, width: int, names: Mapping[int, str] = NO_NAMES) -> str:
    """An atom as it stands behind a coefficient."""
    text = None if names else FACTORS.get(tree)
    if text is None:
        kind, text = piece(tree, width, names)
        if kind not in FACTOR:
            text = f"({text})"
        if not names:
            if len(FACTORS) >= MOST_KEPT:
                FACTORS.clear()
            FACTORS[tree] = text
    return text


def sum_text(
    width: int,
    constant: int,
    terms: Iterable[tuple[int, bytes]],
    names: Mapping[int, str] = NO_NAMES,
) -> str:
    """The sum of a form: 15 + 1*a - 2*(a & 15)."""
    half = 1 << (width - 1)
    parts = []
    if constant:
        parts.append(number_text(signed(constant, width), width))
    for coefficient, tree in terms:
        factor = factor_text(tree, width, names)
        if coefficient <= half:
            parts.append(f" + {number_text(coefficient, width)}*{factor}")
        else:
            parts.append(f" - {number_text(2 * half - coefficient, width)}*{factor}")
    text = "".join(parts)
    if text.startswith(" + "):
        return text[3:]
    if text.startswith(" - "):
        return "-" + text[3:]
    return text or "0"


def number_text(value: int, width: int) -> str:
    return literal_text(value, width) if value >= 0 else "-" + literal_text(-value, width)


def bits_text(value: int, width: int) -> str:
    """The bits by place, place 0 on the right, in groups of eight from there."""
    return grouped(format(value % (1 << width), f"0{width}b"))


def value_text(value: int, width: int) -> str:
    """A value in every way that it is read: 10  0x0a  00001010  signed 10."""
    return (f"{value}  {mask_text(value, width)}  {bits_text(value, width)}"
            f"  signed {signed(value, width)}")


def grouped(places: str) -> str:
    """One character a place, in groups of eight from place 0, which stands on the right."""
    first = len(places) % 8 or 8
    return " ".join([places[:first]] + [places[i : i + 8] for i in range(first, len(places), 8)])
