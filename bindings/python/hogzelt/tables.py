"""A plainer sum of the same value, by truth tables.

No pass joins atoms of several variables. But a sum of weighted atoms without literals and shifts is
known by what it gives where each variable has the same bit at all places: two such sums that agree
there agree everywhere, since a place adds 2^p times the same weighted sum of bits. So the terms are
written anew from that list of numbers, and the shortest way is taken. This search is not a part of
the library, and is not proved. What it finds is given to the judge beside the expression."""

from __future__ import annotations

from typing import Iterator, Mapping, NamedTuple

from .calls import Sheet
from .fold import node_value
from .parser import Numbering, Parsed, parse
from .records import AND, ARITY, NOT, OR, RECORD, VARIABLE, XOR, split_form, tree_records
from .render import NO_NAMES, sum_text
from .tokens import BadText, variable_text
from .verdict import call_judge

PURE = frozenset((VARIABLE, AND, OR, XOR, NOT))
MOST_VARIABLES = 3
# the functions of two variables by their tables; x has bit 0 of a row's number, y bit 1
OF_TWO = {
    0b0001: "~({x} | {y})", 0b0010: "{x} & ~{y}", 0b0100: "~{x} & {y}", 0b1000: "{x} & {y}",
    0b0011: "~{y}", 0b0101: "~{x}", 0b0110: "{x} ^ {y}", 0b1001: "~({x} ^ {y})",
    0b1010: "{x}", 0b1100: "{y}", 0b0111: "~({x} & {y})", 0b1011: "{x} | ~{y}",
    0b1101: "~{x} | {y}", 0b1110: "{x} | {y}",
}


class Rewritten(NamedTuple):
    """A constant that is added, and terms: a coefficient and the text of an atom."""

    constant: int
    terms: list[tuple[int, str]]


class Plainer(NamedTuple):
    """The text of a plainer sum, and whether it is proved to have the value of the expression."""

    text: str
    proved: bool


def judged_plainer(sheet: Sheet, parsed: Parsed | None) -> Plainer | None:
    """A plainer sum for the sheet of an expression. It is proved where the judge finds its text
    equal to the expression, and not where the judge refuses, or where the sheet was given by
    itself. None where the judge tells the two apart."""
    text = plainer(sheet, parsed.names if parsed else NO_NAMES)
    if text is None:
        return None
    same = is_same(text, parsed) if parsed else None
    return None if same is False else Plainer(text, same is True)


def is_same(text: str, parsed: Parsed) -> bool | None:
    """Whether the judge finds a text equal to an expression with the same names; none where it
    refuses."""
    try:
        again = parse(text, parsed.width, Numbering((), parsed.names))
    except BadText:  # it makes more records than a tangle has
        return None
    numbers = call_judge(parsed.data, again.data)
    return None if numbers.refusal else numbers.equal == 1


def plainer(sheet: Sheet, names: Mapping[int, str] = NO_NAMES) -> str | None:
    """A sum of the same value with fewer terms, or with as many in a shorter text."""
    width, constant, terms = split_form(sheet.data)
    pure = [(c, tree) for c, tree in terms if is_pure(tree)]
    others = [term for term in terms if term not in pure]
    variables = sorted({r.argument for _, tree in pure for r in tree_records(tree)
                        if r.kind == VARIABLE})
    if not pure or len(variables) > MOST_VARIABLES:
        return None
    best = (len(terms), len(sum_text(width, constant, terms, names)))
    found = None
    for way in ways(signature(pure, variables, width), variables, width):
        count = len(way.terms) + len(others)
        if count > best[0]:
            continue
        made = [(c, parse(text, width).data) for c, text in way.terms]
        text = sum_text(width, (constant + way.constant) % (1 << width), made + others, names)
        if (count, len(text)) < best:
            best, found = (count, len(text)), text
    return found


def is_pure(tree: bytes) -> bool:
    """Whether a tree has neither literals nor shifts."""
    return PURE.issuperset(tree[::RECORD])


def signature(terms: list[tuple[int, bytes]], variables: list[int], width: int) -> list[int]:
    """What the terms come to in bits: number i where the j-th variable has bit j of i."""
    rows = range(1 << len(variables))
    tables = [(c, table(tree, variables)) for c, tree in terms]
    return [sum(c * (bits >> row & 1) for c, bits in tables) % (1 << width) for row in rows]


def table(tree: bytes, variables: list[int]) -> int:
    """The truth table of a pure tree, row i in bit i."""
    rows = 1 << len(variables)
    stack: list[int] = []
    for record in tree_records(tree):
        if record.kind == VARIABLE:
            place = variables.index(record.argument)
            stack.append(sum((row >> place & 1) << row for row in range(rows)))
        else:
            below = [stack.pop() for _ in range(ARITY[record.kind])][::-1]
            stack.append(node_value(record.kind, 0, below, rows))
    return stack[-1]


def ways(numbers: list[int], variables: list[int], width: int) -> Iterator[Rewritten]:
    """Sums with this signature. All ones at all places is -1, so that what every row has is taken
    from the constant."""
    texts = [variable_text(variable) for variable in variables]
    yield by_conjunctions(numbers, texts, width)
    if len(variables) <= 2:
        for offset in sorted(set(numbers)):
            yield by_values(numbers, offset, texts, width)


def by_conjunctions(numbers: list[int], texts: list[str], width: int) -> Rewritten:
    """The variables and their conjunctions, each with one coefficient."""
    left = [(number - numbers[0]) % (1 << width) for number in numbers]
    for place in range(len(texts)):
        for row in range(len(left)):
            if row >> place & 1:
                left[row] = (left[row] - left[row ^ 1 << place]) % (1 << width)
    terms = [
        (c, " & ".join(text for place, text in enumerate(texts) if row >> place & 1))
        for row, c in enumerate(left) if c
    ]
    return Rewritten(-numbers[0], terms)


def by_values(numbers: list[int], offset: int, texts: list[str], width: int) -> Rewritten:
    """One atom for each number beside the offset: the function that is 1 in its rows."""
    rows: dict[int, int] = {}
    for row, number in enumerate(numbers):
        rows[number] = rows.get(number, 0) | 1 << row
    x, y = texts[0], texts[-1]
    terms = []
    for number, bits in rows.items():
        if number != offset:
            wide = bits if len(texts) == 2 else bits | bits << 2
            text = OF_TWO[wide].format(x=x, y=y)
            terms.append(((number - offset) % (1 << width), text))
    return Rewritten(-offset, terms)
