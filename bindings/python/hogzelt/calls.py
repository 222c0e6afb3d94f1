"""What the library does, on bytes and numbers of Python: normalising, the passes, values, columns
and the mask functions."""

from __future__ import annotations

import ctypes
import threading
from ctypes import byref, c_uint8, c_uint64
from enum import IntEnum
from typing import Iterable, NamedTuple, Sequence

from .library import load
from .parser import parse
from .records import FORM_BYTES, HEAD, SUM, TERM, Form, read_form, split_form
from .refusals import INPUT_LENGTH, NO_LIST, NO_RULES, meaning
from .render import sum_text

COLUMN_WORDS = 16448
OPAQUE = 0xDEAD000000000000
MOST_NUMBER = (1 << 64) - 1


class Refused(Exception):
    """The library refused a call; `number` is that of include/hogzelt.h. Where it is the refusal of
    one of two expressions, `side` is left or right."""

    def __init__(self, number: int, side: str | None = None) -> None:
        where = f"{side}: " if side else ""
        super().__init__(f"{where}refusal {number}: {meaning(number)}")
        self.number = number
        self.side = side


class Pass(IntEnum):
    """The five passes, by their numbers in a list of calls."""

    REFINE = 1
    RECOVER = 2
    COALESCE = 3
    FLATTEN = 4
    COMPACT = 5


# the list of up to four passes that leaves the fewest terms (docs/DECISIONS.md, 40)
SHORTENING = (Pass.FLATTEN, Pass.COALESCE, Pass.RECOVER, Pass.REFINE)

WRITERS = {
    Pass.REFINE: "hogzelt_refine_terms",
    Pass.RECOVER: "hogzelt_recover_structure",
    Pass.COALESCE: "hogzelt_coalesce_terms",
    Pass.COMPACT: "hogzelt_compact_atom_table",
}
PASSES = frozenset(Pass)


class Sheet(NamedTuple):
    """The bytes of a semilinear form (document 01: sheet), and the count of its terms, the par."""

    data: bytes
    par: int

    @property
    def form(self) -> Form:
        return read_form(self.data)

    def __str__(self) -> str:
        return sum_text(*split_form(self.data))


class Column(NamedTuple):
    """A class of places: its mask, and for each atom the table that it has there."""

    mask: int
    tables: list[int]


class Engine:
    """The library with room for its results. A thread has one of its own."""

    def __init__(self) -> None:
        library = load()
        self.library = library
        self.form = (c_uint8 * FORM_BYTES)()
        self.spare = (c_uint8 * FORM_BYTES)()
        self.words = (c_uint64 * COLUMN_WORDS)()
        self.used, self.terms, self.flag = c_uint64(), c_uint64(), c_uint64()
        self.numbers = byref(self.used), byref(self.terms)
        self.lists: dict[tuple[int, ...], ctypes.Array[c_uint64]] = {}

    def write(self, name: str, data: bytes, *more: object) -> Sheet:
        writer = getattr(self.library, name)
        refusal = writer(data, len(data), self.form, FORM_BYTES, *self.numbers, *more)
        return self.sheet(refusal)

    def run_pass(self, number: int, data: bytes) -> Sheet:
        if number == Pass.FLATTEN:
            return self.write("hogzelt_flatten_complex_atoms", data, byref(self.flag))
        return self.write(WRITERS[Pass(number)], data)

    def normalize(self, expression: bytes, rules: int) -> Sheet:
        if rules == 1:
            return self.write("hogzelt_normalize_to_semilinear", expression)
        return self.sheet(self.normalize_by(rules, expression))

    def normalize_by(self, rules: int, expression: bytes) -> int:
        """The refusal; ctypes would cut a number that is no word."""
        if not 0 <= rules <= MOST_NUMBER:
            return NO_RULES
        return int(self.library.hogzelt_normalize_by_rules(
            rules, expression, len(expression), self.form, FORM_BYTES, *self.numbers
        ))

    def run(self, expression: bytes, passes: tuple[int, ...], rules: int = 1) -> Sheet:
        if rules != 1:
            return self.run_by(rules, expression, passes)[1]
        calls = self.lists.get(passes)
        if calls is None:
            words = [word for number in passes for word in (number, FORM_BYTES)]
            calls = self.lists[passes] = (c_uint64 * len(words))(*words)
        refusal = self.library.hogzelt_run_passes(
            expression, len(expression), calls, len(calls), self.form, FORM_BYTES, self.spare,
            FORM_BYTES, *self.numbers,
        )
        return self.sheet(refusal)

    def run_by(
        self, rules: int, expression: bytes, passes: tuple[int, ...]
    ) -> tuple[Sheet, Sheet]:
        """The normalised form and the form after the passes. The library's list of calls keeps to
        rules 1, so they are called one by one; refusals are those of a list, in its order."""
        refusal = self.normalize_by(rules, expression)
        if refusal not in (NO_RULES, INPUT_LENGTH) and not PASSES.issuperset(passes):
            refusal = NO_LIST
        first = last = self.sheet(refusal)
        for number in passes:
            try:
                last = self.run_pass(number, last.data)
            except Refused:
                pass  # the form stays in use
        return first, last

    def shorten(
        self, expression: bytes, passes: tuple[int, ...], rules: int = 1
    ) -> tuple[int, Sheet]:
        """The par of the normalised form, and the form after the passes, or the normalised one
        where that has fewer terms."""
        if rules != 1:
            first, last = self.run_by(rules, expression, passes)
            return first.par, last if last.par <= first.par else first
        refusal = self.library.hogzelt_normalize_to_semilinear(
            expression, len(expression), self.form, FORM_BYTES, *self.numbers
        )
        if refusal:
            raise Refused(refusal)
        before = self.terms.value
        last = self.run(expression, passes)
        return before, last if last.par <= before else self.run(expression, ())

    def sheet(self, refusal: int) -> Sheet:
        if refusal:
            raise Refused(refusal)
        return Sheet(ctypes.string_at(self.form, self.used.value), self.terms.value)


THREADS = threading.local()


def engine() -> Engine:
    found: Engine | None = getattr(THREADS, "engine", None)
    if found is None:
        found = THREADS.engine = Engine()
    return found


def expression_of(expression: bytes | str, width: int | None) -> bytes:
    if isinstance(expression, str):
        if width is None:
            raise TypeError("a text needs a width")
        return parse(expression, width).data
    return bytes(expression)


def checked(rules: int) -> int:
    """The number of the rules; True is no number here."""
    if not isinstance(rules, int) or isinstance(rules, bool):
        raise TypeError(f"rules are a number, 1 or 2, not {rules!r}")
    return rules


def normalize(expression: bytes | str, width: int | None = None, rules: int = 1) -> Sheet:
    """The semilinear form of an expression: the bytes of a tangle, or a text and its width. Rules 2
    first make each part without a variable below & | ^ ~ one literal, and then read ~e over
    + - * as -e - 1; the form is that of rules 1 for what this gives."""
    rules = checked(rules)
    return engine().normalize(expression_of(expression, width), rules)


def run_passes(
    expression: bytes | str, passes: Iterable[int], width: int | None = None, rules: int = 1
) -> Sheet:
    """The form after a list of passes, run from an expression. A call that is refused leaves the
    form as it was."""
    rules = checked(rules)
    return engine().run(expression_of(expression, width), tuple(map(int, passes)), rules)


def shorten(
    expression: bytes | str, width: int | None = None, passes: Iterable[int] = SHORTENING,
    rules: int = 1,
) -> Sheet:
    """The form after a list of passes, or the normalised one where that has fewer terms."""
    rules = checked(rules)
    return engine().shorten(expression_of(expression, width), tuple(map(int, passes)), rules)[1]


def run_pass(number: int, sheet: Sheet | bytes) -> Sheet:
    """One pass over a form."""
    return engine().run_pass(number, sheet.data if isinstance(sheet, Sheet) else bytes(sheet))


def value(
    data: bytes | str | Sheet, variables: Sequence[int] = (), width: int | None = None
) -> int:
    """The value of a tangle or a sheet, told apart by the first byte, or of a text; variable i has
    the number i of the sequence, 0 beyond its end."""
    given = data.data if isinstance(data, Sheet) else expression_of(data, width)
    name = "hogzelt_semilinear_value" if is_form(given) else "hogzelt_expr_value"
    words = (c_uint64 * len(variables))(*variables)
    found = c_uint64()
    refusal = getattr(engine().library, name)(given, len(given), words, len(words), byref(found))
    if refusal:
        raise Refused(refusal)
    return found.value


def is_form(data: bytes) -> bool:
    """A sheet begins with an atom's head or with its sum, a tangle with a literal or a variable."""
    return data[:1] in (bytes((HEAD,)), bytes((SUM,)), bytes((TERM,)))


def columns(sheet: Sheet | bytes) -> list[Column]:
    """The places in classes, at which all atoms have the same tables (document 01: hint columns).
    Bit i of an atom's table is its bit when its j-th smallest variable has bit j of i; a table
    from OPAQUE on says nothing."""
    data = sheet.data if isinstance(sheet, Sheet) else bytes(sheet)
    own, count = engine(), c_uint64()
    refusal = own.library.hogzelt_compute_partitions(
        data, len(data), own.words, COLUMN_WORDS, byref(count)
    )
    if refusal:
        raise Refused(refusal)
    each = 1 + len(read_form(data).atoms)
    words = own.words[: each * count.value]
    return [Column(words[i], words[i + 1 : i + each]) for i in range(0, len(words), each)]


def reduce_mask(coefficient: int, mask: int, width: int) -> int:
    """The bits of a mask that count beside a coefficient."""
    return int(engine().library.hogzelt_reduce_mask(coefficient, mask, width))


def can_change_mask_to(coefficient: int, old: int, new: int, width: int) -> bool:
    """Whether one mask may stand for another beside a coefficient."""
    return bool(engine().library.hogzelt_can_change_mask_to(coefficient, old, new, width))


def can_change_coefficient_to(old: int, new: int, mask: int, width: int) -> bool:
    """Whether one coefficient may stand for another beside a mask."""
    return bool(engine().library.hogzelt_can_change_coefficient_to(old, new, mask, width))
