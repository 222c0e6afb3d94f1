"""What several tests need: where the files are, bytes of semilinear forms, random expressions, the
worked examples of document 01 (its starred puzzles), and an evaluator of texts that shares nothing
with the package."""

from __future__ import annotations

import ast
import operator
import os
import random
import re
import shutil
import subprocess
import sys
import unittest

HERE = os.path.dirname(os.path.realpath(__file__))
ROOT = os.path.dirname(os.path.dirname(HERE))
PACKAGE = os.path.join(ROOT, "bindings", "python")
COMMAND = os.path.join(ROOT, "tools", "hogzelt")


def find_package() -> None:
    """Makes the package of this checkout the one that is imported."""
    if PACKAGE not in sys.path:
        sys.path.insert(0, PACKAGE)


def need(test: unittest.TestCase, tool: str, oldest: tuple[int, int] | None = None) -> None:
    """Leaves the test out, and says so, where a tool is absent or older than it must be."""
    missing = "" if shutil.which(tool) else f"{tool} is absent"
    if oldest and not missing:
        said = subprocess.run([tool, "--version"], stdout=subprocess.PIPE, stderr=subprocess.PIPE)
        version = re.search(rb"([0-9]+)\.([0-9]+)", said.stdout)
        if not version or (int(version[1]), int(version[2])) < oldest:
            missing = f"{tool} is older than {oldest[0]}.{oldest[1]}, or does not start"
    if missing:
        sys.stderr.write(f"{missing}: {test.id()} is left out\n")
        test.skipTest(missing)


find_package()

from hogzelt import parse
from hogzelt.records import (
    ADD, ARITY, BINARY, CONSTANT, HEAD, SUM, TERM, UNARY, VARIABLE, WITH_ARGUMENT, Expression, Record,
    expression_bytes, record_bytes, structural_hash,
)


def bytes_of(text: str, width: int = 8) -> bytes:
    return parse(text, width).data


def form_bytes(
    width: int, constant: int, atoms: list[str], terms: list[tuple[int, int]], head_byte: int = 4
) -> bytes:
    """A form from the text of each atom and (atom number, coefficient) of each term; head_byte is
    byte 1 of the heads."""
    trees = [parse(text, width).expression.records for text in atoms]
    return form_of_trees(width, constant, trees, terms, head_byte)


def form_of_trees(
    width: int, constant: int, trees: list[list[Record]], terms: list[tuple[int, int]],
    head_byte: int = 4,
) -> bytes:
    """The same from the records of each atom, which may be more than a text may make."""
    data = b""
    for records in trees:
        data += record_bytes(HEAD, head_byte, len(records), width, structural_hash(records))
        data += expression_bytes(Expression(width, records))
    for number, coefficient in terms:
        data += record_bytes(TERM, 0, number, width, coefficient)
    return data + record_bytes(SUM, 0, 0, width, constant)


BINARY_OPERATORS = {
    ast.Add: operator.add, ast.Sub: operator.sub, ast.Mult: operator.mul,
    ast.BitAnd: operator.and_, ast.BitOr: operator.or_, ast.BitXor: operator.xor,
    ast.LShift: operator.lshift, ast.RShift: operator.rshift,
}


class Evaluator:
    """The values of a text. Python has C's precedence for these operators; each part is cut to the
    width."""

    def __init__(self, text: str, width: int) -> None:
        self.tree = ast.parse(text.strip(), mode="eval").body
        self.mask = (1 << width) - 1

    def at(self, assignment: dict[str, int]) -> int:
        return self.value(self.tree, assignment)

    def value(self, node: ast.expr, assignment: dict[str, int]) -> int:
        if isinstance(node, ast.Constant):
            return node.value & self.mask
        if isinstance(node, ast.Name):
            return assignment[node.id] & self.mask
        if isinstance(node, ast.UnaryOp):
            inner = self.value(node.operand, assignment)
            return (~inner if isinstance(node.op, ast.Invert) else -inner) & self.mask
        left = self.value(node.left, assignment)
        if isinstance(node.op, (ast.LShift, ast.RShift)):
            right = node.right.value
        else:
            right = self.value(node.right, assignment)
        return BINARY_OPERATORS[type(node.op)](left, right) & self.mask


# (width, text): the form, or the refusal's number
WORKED = {
    (8, "5"): form_bytes(8, 5, [], []),
    (8, "a ^ 15"): form_bytes(8, 15, ["a", "a & 15"], [(0, 1), (1, 254)]),
    (8, "a | 15"): form_bytes(8, 15, ["a", "a & 15"], [(0, 1), (1, 255)]),
    (8, "~a & 15"): form_bytes(8, 15, ["a & 15"], [(0, 255)]),
    (8, "0*(a*b)"): form_bytes(8, 0, [], []),
    (8, "a*b"): 8,
    (8, "a ^ (-1)"): 8,
    (8, "3 & (1 + 2)"): form_bytes(8, 3, [], []),
    (8, "(a & b) + (b & a)"): form_bytes(8, 0, ["a & b"], [(0, 2)]),
    (1, "a ^ 1"): form_bytes(1, 1, ["a"], [(0, 1)]),
    (8, "a - a"): form_bytes(8, 0, ["a"], []),
    (8, "16*(a & 255) + (b ^ 15)"): form_bytes(
        8,
        15,
        ["a & 255", "b", "b & 15"],
        [(0, 16), (1, 1), (2, 254)],
    ),
}


def any_text(
    source: random.Random, depth: int, width: int, names: tuple[str, ...] = ("a", "b")
) -> str:
    """A text of any operators, linear or not, over variables of these names."""
    if depth == 0:
        return source.choice((*names, str(source.getrandbits(width)), str(source.randrange(4))))
    left = any_text(source, depth - 1, width, names)
    choice = source.randrange(10)
    if choice < 2:
        return f"{source.choice('~-')}({left})"
    if choice < 4:
        return f"({left}) {source.choice(('<<', '>>'))} {source.randrange(width)}"
    right = any_text(source, source.randrange(depth), width, names)
    return f"({left}) {source.choice('+-*&|^')} ({right})"


def random_records(source: random.Random, width: int, most: int) -> list[Record]:
    """The records of a random tree, of any kind and any fields that a well-formed file can have."""
    literals = (0, 1, 15, (1 << width) - 1, 1 << (width - 1), (1 << width) % 2**64, 2**64 - 1)
    records: list[Record] = []
    sizes: list[int] = []
    wanted = source.randint(1, most)
    while len(records) + len(sizes) - 1 < wanted or not sizes:
        kinds = [CONSTANT, VARIABLE, VARIABLE]
        kinds += list(UNARY) * bool(sizes) + list(BINARY) * (2 if len(sizes) > 1 else 0)
        push_node(source, records, sizes, source.choice(kinds), literals)
    while len(sizes) > 1:
        push_node(source, records, sizes, source.choice(sorted(BINARY) + [ADD]), literals)
    return records


def push_node(
    source: random.Random, records: list[Record], sizes: list[int], kind: int, literals: tuple
) -> None:
    size = 1 + sum(sizes.pop() for _ in range(ARITY[kind]))
    argument = source.randrange(256) if kind in WITH_ARGUMENT else 0
    if kind == VARIABLE and source.random() < 0.3:
        argument = source.choice((256, 257, 511, 65280, 65535, source.randrange(65536)))
    literal = 0
    if kind == CONSTANT:
        literal = source.choice(literals + (source.getrandbits(64), source.getrandbits(16)))
    records.append(Record(kind, argument, size, literal))
    sizes.append(size)


def random_text(source: random.Random, width: int) -> str:
    """A text like those of a day: a sum of a few weighted bitwise atoms over few variables."""
    terms = []
    for _ in range(source.randint(1, 4)):
        atom = random_atom(source, width, source.randint(0, 3))
        weight = source.choice(("", "", f"{random_literal(source, width)}*"))
        terms.append(f"{weight}({atom})")
    text = terms[0]
    for term in terms[1:]:
        text += source.choice((" + ", " - ")) + term
    return text


def random_atom(source: random.Random, width: int, depth: int) -> str:
    if depth == 0:
        return source.choice("abcd") if source.random() < 0.8 else random_literal(source, width)
    choice = source.randrange(6)
    left = random_atom(source, width, depth - 1)
    if choice == 0:
        return f"~({left})"
    if choice == 1 and source.random() < 0.3:
        return f"({left}) >> {source.randrange(min(width, 4))}"
    right = random_atom(source, width, source.randrange(depth))
    return f"({left}) {source.choice('&|^')} ({right})"


def random_literal(source: random.Random, width: int) -> str:
    value = source.choice((source.getrandbits(width), 1 << source.randrange(width), 1, 15))
    return str(value % (1 << width)) if source.random() < 0.5 else hex(value % (1 << width))
