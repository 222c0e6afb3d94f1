#!/usr/bin/env python3
"""Holds the code to the customer's request #103: no file of crates/*/src divides by 16, the length of a
record, or takes a remainder by it. Prints one line and ends with 0, or a line for each fault and ends
with 1.

A divisor must be one that can be read here: a number in any spelling, a const, or +, -, *, /, %, <<, >>,
&, ^ and | of such. Another one could be 16 when the code runs, so it is a fault too. Divisions one after
the other in one expression count as one by the product (n / 4 / 4). Left out: comments, texts, `ghost use`
and contracts with their ghost members, which are not run.
"""

import glob
import os
import re
import sys

RECORD = 16
REASON = ("a record's number is found without a division, which older phones are slow at (#103):"
          " count in records, or call record::number_of and record::odd_bytes")

# What is left out, and then the words of the code. A word keeps its place in the file for the line number.
SKIPPED = re.compile(r'//[^\n]*|b?"(?:\\.|[^"\\])*"|b?\'(?:\\.|[^\'\\])\'|^[ \t]*ghost use [^;]*;',
                     re.M | re.S)
WORD = re.compile(r"[0-9][0-9A-Za-z_]*|[A-Za-z_]\w*(?:::[A-Za-z_]\w*)*|<<=|>>=|/=|%=|<<|>>|&&|\|\||[^\s\w]")
NUMBER = re.compile(r"(0x[0-9A-Fa-f_]+|0b[01_]+|0o[0-7_]+|[0-9][0-9_]*)(?:[iu](?:8|16|32|64|128|size))?")
KEYWORDS = "as break else if in let loop match mut return while".split()
LEVELS = (("|",), ("^",), ("&",), ("<<", ">>"), ("+", "-"), ("*", "/", "%"))


def blank(text: str) -> str:
    """As many blanks, with the ends of lines as they are."""
    return re.sub(r"[^\n]", " ", text)


def without_comments(text: str) -> str:
    """The text without /* */, which may stand in each other, and without what SKIPPED finds."""
    out, at = [], 0
    while at < len(text):
        found = SKIPPED.match(text, at)
        if found and found.end() > at:
            out.append(blank(found.group()))
            at = found.end()
        elif text.startswith("/*", at):
            deep, end = 1, at + 2
            while deep and end < len(text):
                step = {"/*": 1, "*/": -1}.get(text[end : end + 2], 0)
                deep += step
                end += 2 if step else 1
            out.append(blank(text[at:end]))
            at = end
        else:
            out.append(text[at])
            at += 1
    return "".join(out)


def without_contracts(text: str) -> str:
    """The text without clauses and ghost members, named ones too: `ensures { … }`, `requires small { … }`, `ghost n: { … }`."""
    while found := re.search(r"\b(?:requires|ensures)\b\*?(?:\s+\w+)?\s*\{|\bghost\s+\w+\s*:\s*\{", text):
        deep, end = 1, found.end()
        while deep and end < len(text):
            deep += {"{": 1, "}": -1}.get(text[end], 0)
            end += 1
        text = text[: found.start()] + blank(text[found.start() : end]) + text[end:]
    return text


def words_of(text: str) -> list[tuple[str, int]]:
    """The words of the code, each with its line."""
    code = without_contracts(without_comments(text))
    words, line, seen = [], 1, 0
    for found in WORD.finditer(code):
        line += code.count("\n", seen, found.start())
        seen = found.start()
        words.append((found.group(), line))
    return words


class Unreadable(Exception):
    pass


class Reader:
    """Reads an expression of numbers and consts; a name stands for each value a const of that name has."""

    def __init__(self, words: list[tuple[str, int]], at: int, consts: dict[str, set[int]]) -> None:
        self.words, self.at, self.consts = words, at, consts

    def peek(self) -> str:
        return self.words[self.at][0] if self.at < len(self.words) else ""

    def take(self) -> str:
        word = self.peek()
        self.at += 1
        return word

    def expression(self, level: int = 0) -> set[int]:
        if level == len(LEVELS):
            return self.operand()
        values = self.expression(level + 1)
        while self.peek() in LEVELS[level]:
            sign = self.take()
            values = combine(sign, values, self.expression(level + 1))
        return values

    def operand(self) -> set[int]:
        word = self.take()
        if word == "(":
            values = self.expression()
            if self.take() != ")":
                raise Unreadable
        elif number := NUMBER.fullmatch(word):
            digits = number.group(1).replace("_", "")
            values = {int(digits, 0 if digits[:2].lower() in ("0x", "0b", "0o") else 10)}
        elif word.split("::")[-1] in self.consts:
            values = self.consts[word.split("::")[-1]]
        else:
            raise Unreadable
        while self.peek() == "as":
            self.take()
            self.take()
        if self.peek() in (".", "[", "("):
            raise Unreadable
        return values


def combine(sign: str, left: set[int], right: set[int]) -> set[int]:
    work = {
        "|": lambda x, y: x | y, "^": lambda x, y: x ^ y, "&": lambda x, y: x & y, "<<": lambda x, y: x << y,
        ">>": lambda x, y: x >> y, "+": lambda x, y: x + y, "-": lambda x, y: x - y, "*": lambda x, y: x * y,
        "/": lambda x, y: x // y, "%": lambda x, y: x % y,
    }[sign]
    try:
        return {work(x, y) for x in left for y in right}
    except (ZeroDivisionError, ValueError) as error:
        raise Unreadable from error


def consts_of(files: dict[str, list[tuple[str, int]]]) -> dict[str, set[int]]:
    """The values of all consts that can be read, by name: those that need another one in a later round."""
    consts: dict[str, set[int]] = {}
    while True:
        known = {name: set(values) for name, values in consts.items()}
        for words in files.values():
            for i, (word, _) in enumerate(words):
                if word != "const":
                    continue
                end = i
                while end < len(words) and words[end][0] not in ("=", ";"):
                    end += 1
                reader = Reader(words, end + 1, known)
                try:
                    values = reader.expression()
                except Unreadable:
                    continue
                if reader.peek() == ";":
                    consts.setdefault(words[i + 1][0], set()).update(values)
        if consts == known:
            return consts


def faults_of(path: str, words: list[tuple[str, int]], consts: dict[str, set[int]]) -> tuple[int, list[str]]:
    """How many divisions and remainders a file has, and what is wrong with them."""
    count, faults = 0, []
    ends: dict[int, set[int]] = {}  # where a division ends, and by what it divided in all
    calls: list[bool] = []  # of the open parentheses, whether they are those of a call
    for i, (word, line) in enumerate(words):
        if word == "(":
            before = words[i - 1][0] if i else ""
            calls.append(before not in KEYWORDS and re.fullmatch(r"[\w:]+|[)\]]", before) is not None)
        elif word == ")" and calls and not calls.pop() and i in ends:
            ends[i + 1] = ends[i]  # (n / 4) / 4
        if word not in ("/", "%", "/=", "%="):
            continue
        count += 1
        reader = Reader(words, i + 1, consts)
        try:
            values = reader.expression() if word.endswith("=") else reader.operand()
        except Unreadable:
            faults.append(f"{path}:{line}: {word} by what is no number and no const, so perhaps by {RECORD}; {REASON}")
            continue
        if word == "/":
            values = combine("*", ends.get(i, {1}), values)
            ends[reader.at] = values
        if RECORD in values:
            faults.append(f"{path}:{line}: {word} by {RECORD}; {REASON}")
    return count, faults


def check(texts: dict[str, str]) -> tuple[int, list[str]]:
    files = {path: words_of(text) for path, text in sorted(texts.items())}
    consts = consts_of(files)
    count, faults = 0, []
    for path, words in files.items():
        more, found = faults_of(path, words, consts)
        count += more
        faults += found
    return count, faults


def main() -> int:
    os.chdir(os.path.join(os.path.dirname(os.path.abspath(__file__)), ".."))
    texts = {}
    for path in glob.glob("crates/*/src/**/*.rt", recursive=True):
        with open(path, encoding="utf-8") as source:
            texts[path] = source.read()
    if not texts:
        sys.exit("check_division: no file of crates/*/src is here")
    count, faults = check(texts)
    for fault in faults:
        print(f"check_division: {fault}", file=sys.stderr)
    if faults:
        return 1
    print(f"check_division: {count} divisions and remainders in {len(texts)} files, none by {RECORD}")
    return 0


if __name__ == "__main__":
    sys.exit(main())
