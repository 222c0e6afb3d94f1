"""The judge of two expressions (include/hogzelt.h, hogzelt_judge): whether they have the same value
under every assignment, and where they have not, the first assignment that tells them apart."""

from __future__ import annotations

from ctypes import byref, c_uint64
from typing import Mapping, NamedTuple

from .calls import Refused, engine, value
from .parser import Numbering, parse
from .records import RECORD, VARIABLE, tree_records
from .refusals import SHIFTED_VARIABLE, TOO_MANY_VARIABLES, WIDTHS_DIFFER
from .render import NO_NAMES, name_of
from .tokens import TOKEN, BadText, variable_text

SIDES = ("left", "right")
OF_THE_PAIR = frozenset((WIDTHS_DIFFER, TOO_MANY_VARIABLES, SHIFTED_VARIABLE))


class Verdict(NamedTuple):
    """Whether two expressions have the same value under every assignment. Where they have not,
    `variables` has each variable by name with what it is in the first assignment that tells them
    apart, in which the j-th smallest one has bit j of `index` at `place` and all other bits are 0;
    `left` and `right` are the values there."""

    equal: bool
    place: int
    index: int
    variables: Mapping[str, int]
    left: int | None
    right: int | None

    def __bool__(self) -> bool:
        return self.equal


class WrongAnswer(Exception):
    """The library names an assignment that does not tell the two apart."""


class Numbers(NamedTuple):
    """What a call gives."""

    refusal: int
    equal: int
    place: int
    index: int


def judge(left: bytes | str, right: bytes | str, width: int | None = None) -> Verdict:
    """The verdict on two expressions, each the bytes of a tangle, or a text, which needs the width.
    A name is the same variable in both texts; beside bytes it is one that these do not have."""
    return judged(*read_pair(left, right, width))


def equal(left: bytes | str, right: bytes | str, width: int | None = None) -> bool:
    """Whether two expressions have the same value under every assignment."""
    return judge(left, right, width).equal


def read_pair(
    left: bytes | str, right: bytes | str, width: int | None
) -> tuple[bytes, bytes, Mapping[int, str]]:
    """The bytes of both, and the names of their variables."""
    given = [each if isinstance(each, str) else bytes(each) for each in (left, right)]
    numbering = Numbering(token for each in given for token in tokens_of(each))
    read = [read_side(side, each, width, numbering) for side, each in zip(SIDES, given)]
    (first, names), (second, more) = read
    return first, second, {**names, **more}


def tokens_of(given: bytes | str) -> list[str]:
    """The tokens of a text, or the names of the variables in bytes."""
    if isinstance(given, str):
        return TOKEN.findall(given)
    return [variable_text(number) for number in variables_in(given)]


def read_side(
    side: str, given: bytes | str, width: int | None, numbering: Numbering
) -> tuple[bytes, Mapping[int, str]]:
    if not isinstance(given, str):
        return given, NO_NAMES
    if width is None:
        raise TypeError("a text needs a width")
    try:
        parsed = parse(given, width, numbering)
    except BadText as bad:
        bad.side = side
        raise
    return parsed.data, parsed.names


def variables_in(data: bytes) -> list[int]:
    """The numbers of the variables in the whole records of any bytes, rising."""
    whole = data[: len(data) & -RECORD]
    return sorted({record.argument for record in tree_records(whole) if record.kind == VARIABLE})


def call_judge(left: bytes, right: bytes) -> Numbers:
    same, place, index = c_uint64(), c_uint64(), c_uint64()
    refusal = engine().library.hogzelt_judge(
        left, len(left), right, len(right), byref(same), byref(place), byref(index)
    )
    return Numbers(refusal, same.value, place.value, index.value)


def judged(left: bytes, right: bytes, names: Mapping[int, str] = NO_NAMES) -> Verdict:
    """The verdict on the bytes of two tangles."""
    numbers = call_judge(left, right)
    if numbers.refusal:
        raise Refused(numbers.refusal, side_of(numbers.refusal, left))
    if numbers.equal:
        return Verdict(True, 0, 0, {}, None, None)
    return told_apart(left, right, names, numbers)


def side_of(refusal: int, left: bytes) -> str | None:
    """The side whose refusal it is, the left's first; none where it is one of the pair."""
    if refusal in OF_THE_PAIR:
        return None
    try:
        engine().normalize(left, 1)
    except Refused:
        return "left"
    return "right"


def told_apart(left: bytes, right: bytes, names: Mapping[int, str], numbers: Numbers) -> Verdict:
    """The verdict on two that differ, with the values of both."""
    variables = variables_in(left + right)
    words = [0] * (max(variables, default=-1) + 1)
    for j, number in enumerate(variables):
        words[number] = (numbers.index >> j & 1) << numbers.place
    first, second = value(left, words), value(right, words)
    if first == second:
        raise WrongAnswer(f"the two are said to differ at place {numbers.place} and index"
                          f" {numbers.index}, and both are {first} there")
    by_name = {name_of(number, names): words[number] for number in variables}
    return Verdict(False, numbers.place, numbers.index, by_name, first, second)
