"""Why an expression is refused, and where: the record that a refusal is about, a sentence, a hint.

Nothing here decides about a refusal; the library does. What is told of one is found by the rules of
include/hogzelt.h."""

from __future__ import annotations

from typing import Callable, NamedTuple

from .atoms import full_table
from .facts import facts_of
from .fold import fold
from .parser import Parsed
from .records import (
    ADD, AND, ARITHMETIC, CASTS, CONSTANT, KIND_NAMES, MOST_ATOMS, MOST_JOINT_VARIABLES, MOST_SHIFT,
    MOST_TREE_RECORDS, MUL, NEG, NOT, OR, SHR, VARIABLE, XOR, Record,
)
from .refusals import TOO_MANY_VARIABLES, meaning
from .render import expression_text, literal_text
from .rules import with_literals
from .tokens import clip

# says whether normalising takes an expression by these rules
Accepts = Callable[[bytes, int], bool]

OPERATORS = {ADD: "+", MUL: "*", AND: "&", OR: "|", XOR: "^", NOT: "~", NEG: "-", SHR: ">>"}
NOUNS = {ADD: "a sum", MUL: "a product", NEG: "a negative"}


class Reason(NamedTuple):
    """`at` is a place in the text."""

    at: int
    message: str
    hint: str


def explain(number: int, parsed: Parsed, accepts: Accepts, rules: int = 1) -> Reason:
    """The reason of a refusal of normalising by rules 1 or 2. Hints are given only where they help.
    Under rules 2 refusals 8 and 9 are about the expression as these rewrite it, the others about
    the expression as it is given."""
    is_ruled = rules == 2 and number in (8, 9)
    tree = Tree(with_literals(parsed) if is_ruled else parsed, accepts, is_ruled)
    reasons = {5: tree.cast, 6: tree.shift_count, 8: tree.nonlinear, 9: tree.full}
    found = reasons[number]() if number in reasons else None
    return found or tree.reason(len(tree.records) - 1, meaning(number))


def explain_pair(number: int, left: Parsed, right: Parsed) -> tuple[str, Reason]:
    """The reason of the judge's refusal 12 or 13, and the side that its place is in."""
    return too_many(left, right) if number == TOO_MANY_VARIABLES else shifted(left, right)


def too_many(left: Parsed, right: Parsed) -> tuple[str, Reason]:
    """The first variable that is one too many, the left read before the right."""
    firsts: dict[int, tuple[str, Parsed, int]] = {}
    for side, parsed in (("left", left), ("right", right)):
        for i, record in enumerate(parsed.expression.records):
            if record.kind == VARIABLE:
                firsts.setdefault(record.argument, (side, parsed, i))
    side, parsed, at = list(firsts.values())[MOST_JOINT_VARIABLES]
    message = (f"{len(firsts)} variables in the two together; the judge takes at most"
               f" {MOST_JOINT_VARIABLES}")
    return side, Reason(parsed.place(at), message, "")


def shifted(left: Parsed, right: Parsed) -> tuple[str, Reason]:
    """The first shift with a count above 0 over a variable, the left read before the right."""
    for side, parsed in (("left", left), ("right", right)):
        records = parsed.expression.records
        facts = facts_of(records, parsed.width)
        for i, record in enumerate(records):
            if record.kind == SHR and record.argument and facts[i].variable:
                message = (f">> {record.argument} has a variable below it; the judge takes a shift"
                           " of numbers alone")
                return side, Reason(parsed.place(i), message, "")
    raise AssertionError("neither side shifts a variable")


class Tree:
    """An expression; with `nots` a Not over arithmetic is arithmetic too, -x - 1."""

    def __init__(self, parsed: Parsed, accepts: Accepts, nots: bool) -> None:
        self.parsed = parsed
        self.accepts = accepts
        self.nots = nots
        self.width = parsed.width
        self.records = parsed.expression.records
        self.facts = facts_of(self.records, self.width)

    def reason(self, record: int, message: str, hint: str = "") -> Reason:
        return Reason(self.parsed.place(record), message, hint)

    def text(self, at: int) -> str:
        records = self.records[at + 1 - self.records[at].size : at + 1]
        return clip(expression_text(records, self.width, self.parsed.names))

    def cast(self) -> Reason | None:
        for i, record in enumerate(self.records):
            if record.kind in CASTS:
                name = KIND_NAMES[record.kind].lower()
                return self.reason(i, f"{name} is refused: all parts have one width")
        return None

    def shift_count(self) -> Reason | None:
        for i, record in enumerate(self.records):
            if record.kind == SHR and record.argument > MOST_SHIFT:
                return self.reason(i, f"a shift by {record.argument}; the most is {MOST_SHIFT}",
                                   f"at width {self.width} the value is 0")
        return None

    def literal_hint(self, at: int) -> str:
        value = literal_text(self.facts[at].value, self.width)
        hint = f"write {value} for {self.text(at)}"
        return hint + ", or add --fold" if self.accepts(fold(self.parsed).data, 1) else hint

    def nonlinear(self) -> Reason | None:
        """The first operator in the text that takes more than a sum of weighted atoms may have."""
        stack = [(len(self.records) - 1, 1)]
        while stack:
            at, coefficient = stack.pop()
            kind, facts = self.records[at].kind, self.facts[at]
            if coefficient % (1 << self.width) == 0 or not facts.variable:
                continue
            if kind == NEG or self.is_turned(at):
                stack.append((facts.children[0], -coefficient))
            elif kind == ADD:
                stack += [(child, coefficient) for child in reversed(facts.children)]
            elif kind == MUL:
                left, right = facts.children
                if self.facts[left].variable and self.facts[right].variable:
                    message = "* has a variable on both sides; one of them must be a number"
                    return self.reason(at, message)
                factor, other = (right, left) if self.facts[left].variable else (left, right)
                stack.append((other, coefficient * self.facts[factor].value))
            elif facts.arithmetic:
                return self.over_arithmetic(at)
        return None

    def over_arithmetic(self, top: int) -> Reason:
        """A bitwise operator with a variable over arithmetic: the innermost one that has as an
        operand arithmetic, or a part without a variable and with arithmetic in it."""
        at, child = top, self.with_arithmetic(top)
        while not self.is_arithmetic(child) and self.facts[child].variable:
            at, child = child, self.with_arithmetic(child)
        message = (f"{OPERATORS[self.records[at].kind]} works bit by bit, and {self.text(child)}"
                   f" below it {self.what_it_is(child)}")
        return self.reason(at, message, self.rewritten(at, child, at == top))

    def is_arithmetic(self, at: int) -> bool:
        return self.records[at].kind in ARITHMETIC or self.is_turned(at)

    def is_turned(self, at: int) -> bool:
        """Whether this is a Not that counts as -x - 1."""
        return self.nots and self.records[at].kind == NOT and self.facts[at].arithmetic

    def what_it_is(self, child: int) -> str:
        """What is wrong with an operand that has arithmetic in it."""
        if self.is_turned(child):
            return f"is the sum {self.turned_text(child)} under rules 2"
        inner = child
        while not self.is_arithmetic(inner):
            inner = self.with_arithmetic(inner)
        noun = NOUNS[self.records[inner].kind]
        return f"is {noun}" if inner == child else f"has {noun} in it"

    def turned_text(self, at: int) -> str:
        """-x - 1 of a Not."""
        size = self.records[at].size
        records = [*self.records[at + 1 - size : at], Record(NEG, 0, size, 0),
                   Record(CONSTANT, 0, 1, 1), Record(NEG, 0, 2, 0), Record(ADD, 0, size + 3, 0)]
        return clip(expression_text(records, self.width, self.parsed.names))

    def with_arithmetic(self, at: int) -> int:
        """The first operand that has arithmetic in it."""
        return next(c for c in self.facts[at].children if self.facts[c].arithmetic)

    def rewritten(self, at: int, child: int, is_top: bool) -> str:
        """What could be written instead, with the same value."""
        kind, facts = self.records[at].kind, self.facts[at]
        if not self.facts[child].variable:
            return self.literal_hint(child)
        if kind == NOT and self.accepts(self.parsed.data, 2):
            return "~x is -x - 1, which may stand over arithmetic; --rules 2 reads it so"
        if not is_top:
            return ""
        if kind == NOT:
            return "~x is -x - 1, which may stand over arithmetic"
        full = (1 << self.width) - 1
        masks = [self.facts[c].value for c in facts.children if not self.facts[c].variable]
        bits = [self.facts[c].bits for c in facts.children]
        every = literal_text(full, self.width)
        if kind == XOR and masks == [full]:
            return f"x ^ {every} is -x - 1 at this width, which may stand over arithmetic"
        if kind == AND and masks == [full]:
            return f"& {every} keeps every bit at this width: leave it out"
        if kind in (OR, XOR) and bits[0] & bits[1] == 0:
            return f"the two sides share no bit, so + gives the same value as {OPERATORS[kind]}"
        return ""

    def full(self) -> Reason:
        table = full_table(self.records, self.width)
        if table.atoms > MOST_ATOMS:
            message = f"{table.atoms:,} atoms; a sheet has at most {MOST_ATOMS}"
        else:
            message = (f"{table.atoms:,} atoms of {table.tree_records:,} records together; in a"
                       f" sheet they have at most {MOST_TREE_RECORDS:,}")
        hint = "here the limit is passed; shorten the sum in parts"
        return self.reason(table.first_past, message, hint)
