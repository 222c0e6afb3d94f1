"""The words of a command line: options, flags, the text."""

from __future__ import annotations

import re
from typing import Sequence

from ..calls import Pass

PASSES = {number.name.lower(): int(number) for number in Pass}


class Usage(Exception):
    """Wrong usage, or a file that is missing."""


class Options:
    """Options with a value by name, flags that were given, and the other words."""

    def __init__(self) -> None:
        self.values: dict[str, str] = {}
        self.flags: set[str] = set()
        self.words: list[str] = []

    def __contains__(self, name: str) -> bool:
        return name in self.values or name in self.flags

    def get(self, name: str) -> str | None:
        return self.values.get(name)

    def width(self) -> int | None:
        word = self.values.get("width")
        if word is None:
            return None
        if not re.fullmatch(r"[0-9]{1,9}", word) or not 1 <= int(word) <= 64:
            raise Usage(f"a width is a number from 1 to 64, not {word!r}")
        return int(word)

    def rules(self) -> int:
        word = self.values.get("rules", "1")
        if word not in ("1", "2"):
            raise Usage(f"the rules are 1 or 2, not {word!r}")
        return int(word)

    def passes(self, default: Sequence[int]) -> tuple[int, ...]:
        named = self.values.get("passes")
        if named is None:
            return tuple(default)
        found = []
        for name in filter(None, re.split(r"[\s,]+", named)):
            if name not in PASSES:
                raise Usage(f"no pass {name!r}; the passes are {', '.join(PASSES)}")
            found.append(PASSES[name])
        return tuple(found)


SHORT = {"-w": "width", "-f": "file", "-o": "output", "-q": "quiet", "-h": "help"}


def read_options(words: Sequence[str], valued: Sequence[str], flags: Sequence[str]) -> Options:
    """Options that a command knows; a word such as -a is text, one behind -- always is."""
    found, rest = Options(), list(words)
    while rest:
        word = rest.pop(0)
        name, equals, value = word.partition("=")
        name = SHORT.get(name) or (name[2:] if name[:2] == "--" else "")
        glued = re.fullmatch(r"-w([0-9]+)", word)
        if word == "--":
            found.words += rest
            break
        if name in (*flags, "help") and not equals:
            found.flags.add(name)
        elif name in valued and equals and word[:2] == "--":
            found.values[name] = value
        elif name in valued and not equals:
            if not rest:
                raise Usage(f"{word} needs a value")
            found.values[name] = rest.pop(0)
        elif glued and "width" in valued:
            found.values["width"] = glued.group(1)
        elif re.match(r"--[a-z]{2}", word):
            raise Usage(f"no option {word} here (--help lists them)")
        else:
            found.words.append(word)
    return found
