"""An expression as rules 2 read it, for messages; the library does this by itself."""

from __future__ import annotations

from .facts import facts_of
from .parser import Parsed
from .records import AND, CONSTANT, NOT, OR, XOR, record_bytes

BITWISE = frozenset((AND, OR, XOR, NOT))


def with_literals(parsed: Parsed) -> Parsed:
    """The same expression with each part without a variable below & | ^ or ~, a literal too, as one
    literal, cut to the width. There are no casts in it."""
    width, records = parsed.width, parsed.expression.records
    facts = facts_of(records, width)
    below = [False] * len(records)
    for at in reversed(range(len(records))):
        for child in facts[at].children:
            below[child] = below[at] or records[at].kind in BITWISE
    made: list[bytes] = []
    places: list[int] = []
    firsts: list[int] = []  # the first record of each tree that has no parent yet
    for at, (kind, argument, _, literal) in enumerate(records):
        first = len(made)
        for _ in facts[at].children:
            first = firsts.pop()
        if below[at] and not facts[at].variable:
            del made[first:], places[first:]
            kind, argument, literal = CONSTANT, 0, facts[at].value
        made.append(record_bytes(kind, argument, len(made) - first + 1, width, literal))
        places.append(parsed.places[at])
        firsts.append(first)
    return parsed._replace(records=made, places=places)
