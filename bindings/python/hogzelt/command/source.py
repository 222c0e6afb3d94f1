"""What a command is given: a text, a tangle, a sheet, or what the program par printed."""

from __future__ import annotations

import os
import re
import sys
from typing import NamedTuple

from ..calls import Refused, Sheet, engine, is_form
from ..explain import explain
from ..fold import fold
from ..parser import Numbering, Parsed, parse
from ..records import Fault, read_expression, read_form
from ..render import expression_text
from ..tokens import BadText, line_and_column, located
from .options import Options, Usage

PAR_OUTPUT = re.compile(rb"(C [0-9a-f]{16}|R [0-9]+)\s")


class Given(NamedTuple):
    """`sort` is text, tangle, sheet or par; `name` is that of the file, if it is one."""

    sort: str
    name: str | None
    data: bytes

    @property
    def text(self) -> str:
        try:
            return self.data.decode("utf-8-sig")
        except UnicodeDecodeError as bad:
            raise Fault(f"{self.label}byte {bad.start} is not UTF-8: this is no text") from None

    @property
    def label(self) -> str:
        return f"{self.name}: " if self.name else ""


class Refusing(Exception):
    """An expression that is refused: the number, 0 for a text that is none, and its place. `name`
    is that of the file."""

    def __init__(
        self, number: int, width: int, text: str, at: int, message: str, hint: str
    ) -> None:
        super().__init__(message)
        self.number, self.width, self.text, self.at = number, width, text, at
        self.message, self.hint = message, hint
        self.name: str | None = None
        self.side: str | None = None  # left or right, where it is one of two

    @property
    def sentence(self) -> str:
        return f"refusal {self.number}: {self.message}" if self.number else self.message

    @property
    def place(self) -> tuple[int, int]:
        return line_and_column(self.text, self.at)

    def __str__(self) -> str:
        hint = f"\n  hint: {self.hint}" if self.hint else ""
        return located(self.text, self.at, self.sentence, self.name) + hint


def sort_of(data: bytes) -> str:
    """Told apart by the bytes: records have zero bytes, and text has none."""
    if PAR_OUTPUT.match(data):
        return "par"
    if b"\0" not in data:
        return "text"
    return "sheet" if is_form(data) else "tangle"


def read_given(options: Options, command: str) -> Given:
    """The text on the command line, the file that -f names, or standard input."""
    words, named = options.words, options.get("file")
    if named is None and words == ["-"]:
        named, words = "-", []
    if named is not None:
        if words:
            raise Usage("a text or -f FILE, not both")
        return given_file(named)
    if not words:
        raise Usage(f"the text is missing (hogzelt {command} --help)")
    if len(words) > 1:
        raise Usage(f"one text, in quotes; these are {len(words)} words (hogzelt {command} --help)")
    return given_text(words[0])


def given_text(word: str) -> Given:
    return Given("text", None, word.encode("utf-8", "surrogateescape"))


def given_file(name: str) -> Given:
    """What a file holds, or standard input where its name is -."""
    data = read_bytes(name)
    return Given(sort_of(data), "standard input" if name == "-" else name, data)


def read_file(options: Options, command: str) -> Given:
    """The one file that a command is given, by itself or by -f, or standard input."""
    words, named = options.words, options.get("file")
    if len(words) + (named is not None) > 1:
        raise Usage(f"one file at a time (hogzelt {command} --help)")
    if not words and named is None and sys.stdin.isatty():
        raise Usage(f"say which file to read (hogzelt {command} --help)")
    return given_file(named or (words[0] if words else "-"))


def read_bytes(name: str) -> bytes:
    if name == "-":
        return sys.stdin.buffer.read()
    with open(name, "rb") as source:
        return source.read()


def width_of(given: Given, options: Options, option: str = "-f") -> int:
    width = options.width()
    if width is None:
        hint = file_hint(given, option)
        raise Usage("the width is missing: -w and a number from 1 to 64" + (hint and f" ({hint})"))
    return width


def file_hint(given: Given, option: str = "-f") -> str:
    """A file's name in place of a text is a likely slip."""
    if given.name is None and os.path.isfile(given.data):
        return f"there is a file {given.text}: {option} {given.text} reads it"
    return ""


def parsed_text(
    text: str, width: int, folds: bool, numbering: Numbering | None = None
) -> Parsed:
    try:
        parsed = parse(text, width, numbering)
    except BadText as bad:
        raise Refusing(0, width, text, bad.at, bad.message, bad.hint) from None
    return fold(parsed) if folds else parsed


def read_parsed(given: Given, options: Options) -> Parsed:
    """The expression of a text or a tangle. A tangle is read as the text that it is shown as, which
    has the same bytes."""
    check_expression(given)
    if given.sort == "tangle":
        return parsed_text(*tangle_text(given, options), "fold" in options)
    width = width_of(given, options)
    try:
        parsed = parsed_text(given.text, width, False)
    except Refusing as bad:
        bad.name = given.name
        bad.hint = file_hint(given) or bad.hint
        raise
    return fold(parsed) if "fold" in options else parsed


def check_expression(given: Given) -> None:
    if given.sort not in ("text", "tangle"):
        raise Usage(f"{given.label}a text or a tangle is needed here, and this is"
                    f" {'a sheet' if given.sort == 'sheet' else 'what par printed'}")


def tangle_text(given: Given, options: Options) -> tuple[str, int]:
    """The text that a tangle is shown as, and its width."""
    try:
        expression = read_expression(given.data)
    except Fault as bad:
        raise Fault(f"{given.label}{bad}") from None
    check_width(given, options, expression.width)
    return expression_text(expression.records, expression.width), expression.width


def read_sheet(given: Given, options: Options) -> Sheet:
    """The sheet that a file holds."""
    if "rules" in options:
        raise Usage(f"{given.label}a sheet is normalised already; leave --rules out")
    try:
        form = read_form(given.data)
    except Fault as bad:
        raise Fault(f"{given.label}{bad}") from None
    check_width(given, options, form.width)
    return Sheet(given.data, len(form.terms))


def check_width(given: Given, options: Options, width: int) -> None:
    if options.width() not in (None, width):
        raise Usage(f"{given.label}its width is {width}; leave -w out")


def run(given: Given, parsed: Parsed, rules: int, passes: tuple[int, ...] = ()) -> Sheet:
    """The sheet after normalising and passes; a refusal comes with its place."""
    try:
        return engine().run(parsed.data, passes, rules)
    except Refused as bad:
        raise refusing(bad.number, parsed, given.name, rules) from None


def refusing(number: int, parsed: Parsed, name: str | None, rules: int = 1) -> Refusing:
    """What is said of a refusal: its place, a sentence and a hint."""
    at, message, hint = explain(number, parsed, is_accepted, rules)
    found = Refusing(number, parsed.width, parsed.text, at, message, hint)
    found.name = name
    return found


def is_accepted(expression: bytes, rules: int) -> bool:
    try:
        engine().run(expression, (), rules)
    except Refused:
        return False
    return True
