"""Tokens of a text, literals and names, and messages that name line and column."""

from __future__ import annotations

import re

# words, operators of several characters (those that are only refused too), single characters
TOKEN = re.compile(
    r"[0-9][0-9A-Za-z_.']*|[A-Za-z_][0-9A-Za-z_]*|>>>?|<<|&&|\|\||\*\*|//|[=!<>]=|\S"
)
NUMBER = re.compile(
    r"(0[xX][0-9A-Fa-f]+|0[bB][01]+|0|[1-9][0-9]*)"
    r"(?:[uU](?:ll|LL|[lL])?|(?:ll|LL|[lL])[uU]?|[iu](?:8|16|32|64))?"  # a suffix of C or Rust
)
NAME = re.compile(r"[A-Za-z_][0-9A-Za-z_]*")
FIXED_NAME = re.compile(r"[a-z]|v(?:0|[1-9][0-9]{0,4})")
MOST_VARIABLES = 65536


class BadWord(Exception):
    """A word that is no literal, or no name of a variable."""

    def __init__(self, message: str, hint: str = "") -> None:
        super().__init__(f"{message}; {hint}" if hint else message)
        self.message = message
        self.hint = hint


class BadText(Exception):
    """The text is no expression. `at` is the index of the fault in the text. Where it is one of two
    texts, `side` is left or right."""

    side: str | None = None

    def __init__(self, at: int, message: str, hint: str = "") -> None:
        super().__init__(f"{message}; {hint}" if hint else message)
        self.at = at
        self.message = message
        self.hint = hint


def line_and_column(text: str, at: int) -> tuple[int, int]:
    """Both from 1; a column is a character."""
    return text.count("\n", 0, at) + 1, at - (text.rfind("\n", 0, at) + 1) + 1


def located(text: str, at: int, message: str, name: str | None = None) -> str:
    """The message with line and column, and below it the line of the text with a caret."""
    prefix = f"{name}: " if name else ""
    line, column = line_and_column(text, at)
    shown = printable(text.split("\n")[line - 1].rstrip("\r"))
    start = max(0, column - 61)
    before, after = shown[start : column - 1], shown[column - 1 : start + 100]
    lead = "..." if start else ""
    pad = lead.replace(".", " ") + "".join("\t" if c == "\t" else " " for c in before)
    return f"{prefix}line {line}, column {column}: {message}\n  {lead}{before}{after}\n  {pad}^"


def token_place(text: str, index: int) -> int:
    """Where in the text a token starts; behind the last one, where the text ends."""
    for number, match in enumerate(TOKEN.finditer(text)):
        if number == index:
            return match.start()
    return len(text.rstrip())


def literal_value(word: str) -> int:
    """The value of a decimal, 0x or 0b literal below 2^64, a suffix as in C or Rust left out."""
    match = NUMBER.fullmatch(word)
    if not match:
        raise bad_literal(word)
    digits = match.group(1)
    value = 2**64 if len(digits) > 20 and digits.isdigit() else int(digits, 0)
    if value >= 2**64:
        raise BadWord(f"expected a literal below 2^64, found {clip(word)}")
    return value


def bad_literal(word: str) -> BadWord:
    """What is wrong with a word that begins with a digit."""
    name = {"0x": "hexadecimal", "0b": "binary"}.get(word[:2].lower(), "decimal")
    found = f'expected {name} digits, found "{clip(word)}"'
    bare = re.sub("[_']", "", word)
    product = re.fullmatch(r"([1-9][0-9]*)([A-Za-z_][0-9A-Za-z_]*)", word)
    power = re.fullmatch(r"([0-9]+)[eE]([0-9])", word)
    if re.fullmatch(r"0[0-9]+", word):
        shown = clip(word.lstrip("0") or "0")
        message = f'expected {shown}, found "{clip(word)}": a decimal literal has no leading 0'
        return BadWord(message, "there are none in octal")
    if power:
        value = int(power.group(1)) * 10 ** int(power.group(2))
        return BadWord(found, f"numbers have no exponent: {value}")
    if "." in word:
        return BadWord(found, "numbers are whole")
    if re.fullmatch(r"0[oO][0-7]+", word):
        return BadWord(found, f"there are no octal literals: {int(word[2:], 8)}")
    if bare != word and NUMBER.fullmatch(bare):
        return BadWord(found, f"digits stand without marks between them: {clip(bare)}")
    if product:
        return BadWord(found, "a product is written {}*{}".format(*product.groups()))
    return BadWord(found)


def variable_number(name: str) -> int | None:
    """The number that a name has by itself: a to z are 0 to 25, v0 to v65535 are 0 to
    65535. Any other name has none."""
    if not FIXED_NAME.fullmatch(name):
        return None
    number = ord(name) - ord("a") if len(name) == 1 else int(name[1:])
    return number if number < MOST_VARIABLES else None


def variable_text(number: int) -> str:
    """The name that a variable has where the text gives it no other."""
    return chr(ord("a") + number) if number < 26 else f"v{number}"


def clip(word: str) -> str:
    """A word of the text in a message."""
    word = printable(word)
    return word if len(word) <= 40 else word[:37] + "..."


def printable(word: str) -> str:
    """Characters that a terminal could take for commands are shown as ?."""
    return "".join(c if c.isprintable() or c == "\t" else "?" for c in word)
