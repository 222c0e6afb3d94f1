"""How many atoms an expression makes: the count that refusal 9 is about.

This follows the rules by which normalising makes and shares atoms, in a table without limits. Two
unlike trees of one hash are the one case that it does not know."""

from __future__ import annotations

from typing import Iterator, NamedTuple

from .fold import node_value
from .records import (
    ADD, AND, ARITHMETIC, ARITY, CONSTANT, MOST_ATOMS, MOST_TREE_RECORDS, MUL, NEG, NOT, SHR,
    VARIABLE, XOR, Record,
)

MOST_TABLE_VARIABLES = 5


class Full(NamedTuple):
    """A count of atoms, of the records of their trees, and the record of the expression with whose
    atom a limit is passed."""

    atoms: int
    tree_records: int
    first_past: int


class Part(NamedTuple):
    """A tree with its coefficient, and the record of the expression that it comes from."""

    coefficient: int
    tree: tuple[Record, ...]
    record: int


def full_table(records: list[Record], width: int) -> Full:
    keys: set[tuple[object, ...]] = set()
    tree_records = 0
    first_past = len(records) - 1
    for part in collected(records, width):
        key = sharing_key(part.tree)
        if key in keys:
            continue
        was_full = len(keys) > MOST_ATOMS or tree_records > MOST_TREE_RECORDS
        keys.add(key)
        tree_records += len(part.tree)
        if not was_full and (len(keys) > MOST_ATOMS or tree_records > MOST_TREE_RECORDS):
            first_past = part.record
    return Full(len(keys), tree_records, first_past)


def collected(records: list[Record], width: int) -> Iterator[Part]:
    """The atoms of a linear expression in the order in which they are made. A Not over arithmetic,
    which rules 2 alone take, is -x - 1."""
    modulus = 1 << width
    todo = [Part(1, tuple(records), len(records) - 1)]
    while todo:
        part = todo.pop()
        coefficient, tree, at = part
        kind = tree[-1].kind
        if coefficient % modulus == 0 or not has_variable(tree):
            continue
        if kind == NEG or (kind == NOT and has_arithmetic(tree)):
            todo.append(Part(-coefficient, tree[:-1], at - 1))
        elif ARITY[kind] < 2:
            yield part
        else:
            size = tree[-2].size
            left = Part(coefficient, tree[: -1 - size], at - 1 - size)
            right = Part(coefficient, tree[-1 - size : -1], at - 1)
            if kind == ADD:
                todo += [right, left]
            elif kind == MUL:
                number, other = (left, right) if has_variable(right.tree) else (right, left)
                value = constant_value(number.tree, width)
                todo.append(other._replace(coefficient=coefficient * value))
            elif has_variable(left.tree) and has_variable(right.tree):
                yield part
            elif kind == AND:
                yield masked_part(part, left, right, width)
            else:
                operand = left if has_variable(left.tree) else right
                todo += [masked_part(part, left, right, width), operand]


def masked_part(part: Part, left: Part, right: Part, width: int) -> Part:
    """What is left under the mask of x & c, x | c or x ^ c, where x has a variable and c has none;
    an And stays as it is, but for ~x & c."""
    kind = part.tree[-1].kind
    operand, mask = (left, right) if has_variable(left.tree) else (right, left)
    inner = operand.tree
    if kind == AND and inner[-1].kind != NOT:
        return part
    if kind == AND:
        inner = inner[:-1]
    literal = Record(CONSTANT, 0, 1, constant_value(mask.tree, width))
    masked = (*inner, literal, Record(AND, 0, len(inner) + 2, 0))
    return Part(part.coefficient * (-2 if kind == XOR else -1), masked, part.record)


def has_variable(tree: tuple[Record, ...]) -> bool:
    return any(record.kind == VARIABLE for record in tree)


def has_arithmetic(tree: tuple[Record, ...]) -> bool:
    return any(record.kind in ARITHMETIC for record in tree)


def constant_value(tree: tuple[Record, ...], width: int) -> int:
    stack: list[int] = []
    for record in tree:
        if record.kind == CONSTANT:
            stack.append(record.literal % (1 << width))
            continue
        below = [stack.pop() for _ in range(ARITY[record.kind])][::-1]
        stack.append(node_value(record.kind, record.argument, below, width))
    return stack[-1]


def sharing_key(tree: tuple[Record, ...]) -> tuple[object, ...]:
    """Atoms with one key are one: the table over its variables where a tree has no literal, no
    shift and few variables, else the tree."""
    variables = sorted({record.argument for record in tree if record.kind == VARIABLE})
    opaque = any(record.kind in (CONSTANT, SHR) for record in tree)
    if opaque or len(variables) > MOST_TABLE_VARIABLES:
        return tree
    rows = 1 << len(variables)
    stack: list[int] = []
    for record in tree:
        if record.kind == VARIABLE:
            place = variables.index(record.argument)
            stack.append(sum((row >> place & 1) << row for row in range(rows)))
            continue
        below = [stack.pop() for _ in range(ARITY[record.kind])][::-1]
        stack.append(node_value(record.kind, 0, below, rows))
    return (stack[-1], *variables)
