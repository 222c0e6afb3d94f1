"""Two expressions that are judged: two texts or tangles, or a line of text with both."""

from __future__ import annotations

import re
from typing import NamedTuple, Tuple

from ..calls import Refused
from ..explain import Reason, explain, explain_pair
from ..parser import Numbering, Parsed, numbering_of
from ..records import Fault
from ..refusals import WIDTHS_DIFFER
from ..verdict import SIDES, Verdict, WrongAnswer, judged
from .options import Options, Usage
from .source import (
    Given, Refusing, check_expression, file_hint, given_file, given_text, is_accepted, parsed_text,
    tangle_text, width_of,
)

# what stands between the two of a line; tabs only where there is no ==
EQUALS = re.compile(r"==")
TABS = re.compile(r"\t+")


class Side(NamedTuple):
    """One of the two: left or right; its text and width; the text that its places are shown in,
    which is its own or that of both, and where it begins there; the name of its file; and a hint
    where the text is bad."""

    side: str
    text: str
    width: int
    shown: str
    start: int = 0
    name: str | None = None
    hint: str = ""

    def refusing(self, number: int, reason: Reason) -> Refusing:
        at, message, hint = reason
        found = Refusing(number, self.width, self.shown, at, message, hint)
        found.side = self.side
        found.name = f"{self.side}, {self.name}" if self.name else self.side
        return found


Sides = Tuple[Side, Side]


class Pair(NamedTuple):
    sides: Sides
    left: Parsed
    right: Parsed

    def verdict(self) -> Verdict:
        """Refusing where the judge refuses."""
        left, right = self.left, self.right
        try:
            return judged(left.data, right.data, {**left.names, **right.names})
        except Refused as bad:
            raise self.refusing(bad) from None
        except WrongAnswer as bad:
            raise Fault(f"an error of the library: {bad}") from None

    def refusing(self, bad: Refused) -> Refusing:
        """What is said of a refusal: its place in one of the two, a sentence and a hint."""
        if bad.number == WIDTHS_DIFFER:
            return WidthsDiffer(self.sides)
        if bad.side is None:
            side, reason = explain_pair(bad.number, self.left, self.right)
        else:
            side = bad.side
            parsed = self.left if side == "left" else self.right
            reason = explain(bad.number, parsed, is_accepted_here)
        return self.sides[SIDES.index(side)].refusing(bad.number, reason)


class WidthsDiffer(Refusing):
    """Refusal 11, which has no place."""

    def __init__(self, sides: Sides) -> None:
        left, right = (side.width for side in sides)
        message = f"the left has width {left}, the right {right}; the judge takes one width"
        text = f"{sides[0].text} == {sides[1].text}"
        super().__init__(WIDTHS_DIFFER, left, text, 0, message, "")

    def __str__(self) -> str:
        return self.sentence


def is_accepted_here(expression: bytes, rules: int) -> bool:
    """The judge keeps to rules 1, so that no hint is to name others."""
    return rules == 1 and is_accepted(expression, rules)


def read_pair(sides: Sides, folds: bool) -> Pair:
    """The records of both; a name is one variable in the two texts."""
    numbering = numbering_of(side.text for side in sides)
    left, right = (read_side(side, folds, numbering) for side in sides)
    return Pair(sides, left, right)


def read_side(side: Side, folds: bool, numbering: Numbering) -> Parsed:
    try:
        return parsed_text(side.text, side.width, folds, numbering)
    except Refusing as bad:
        reason = Reason(max(bad.at, side.start), bad.message, side.hint or bad.hint)
        raise side.refusing(bad.number, reason) from None


def sides_of_line(line: str, width: int) -> Sides:
    """The two texts of a line, each at the columns that it has there."""
    between = EQUALS.search(line) or tabs_between(line)
    if between is None:
        at = line.find("=")
        hint = "" if at < 0 else "the two are compared by =="
        message = 'expected two texts with "==" or a tab between them'
        raise Refusing(0, width, line, len(line.rstrip()) if at < 0 else at, message, hint)
    start = between.end()
    left, right = line[: between.start()], re.sub(r"[^\n]", " ", line[:start]) + line[start:]
    return Side("left", left, width, line), Side("right", right, width, line, start)


def tabs_between(line: str) -> re.Match[str] | None:
    """The tabs between two texts; none where they stand in several places."""
    inner = len(line) - len(line.lstrip())
    found = list(TABS.finditer(line.rstrip(), inner))
    return found[0] if len(found) == 1 else None


def given_sides(options: Options) -> Sides:
    """The two that are given: as texts, by --left and --right, or as one text with == in it."""
    files = [options.get(side) for side in SIDES]
    words = list(options.words)
    if files == [None, None] and len(words) == 1:
        given = given_text(words[0])
        return sides_of_line(given.text, width_of(given, options, "--left"))
    if len(words) + len(files) - files.count(None) != len(SIDES):
        raise Usage("two texts, each in quotes, or one with == between them"
                    " (hogzelt judge --help)")
    if [*files, *words].count("-") > 1:
        raise Usage("standard input can be one of the two, not both")
    left, right = (given_word(words.pop(0)) if name is None else given_file(name) for name in files)
    return sides_of_two(left, right, options)


def given_word(word: str) -> Given:
    return given_file(word) if word == "-" else given_text(word)


def sides_of_two(left: Given, right: Given, options: Options) -> Sides:
    """A tangle is read as the text that it is shown as. A text beside it has its width."""
    texts = [text_of(given, options) for given in (left, right)]
    known = options.width() or texts[0][1] or texts[1][1]
    sides = []
    for side, given, (text, own) in zip(SIDES, (left, right), texts):
        option = f"--{side}"
        width = own or known or width_of(given, options, option)
        sides.append(Side(side, text, width, text, 0, given.name, file_hint(given, option)))
    return sides[0], sides[1]


def text_of(given: Given, options: Options) -> tuple[str, int | None]:
    """The text of what is given, and the width that it has by itself."""
    check_expression(given)
    return tangle_text(given, options) if given.sort == "tangle" else (given.text, None)
