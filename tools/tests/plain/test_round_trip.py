"""Text to bytes to text to bytes is the identity on the bytes."""

import random
import unittest

from hogzelt.parser import parse
from hogzelt.records import (
    ADD, AND, BINARY, CONSTANT, MUL, NEG, SHR, UNARY, VARIABLE, WITH_ARGUMENT, Expression, Fault,
    Record, expression_bytes, read_expression,
)
from hogzelt.render import expression_text
from hogzelt.tokens import BadText

from samples import random_records


class RoundTrip(unittest.TestCase):
    def same(self, width, records):
        data = expression_bytes(Expression(width, records))
        text = expression_text(read_expression(data).records, width)
        self.assertEqual(parse(text, width).data, data, text[:200])
        return text

    def test_random(self):
        source = random.Random(20)
        for width in range(1, 65):
            for most in (3, 6, 12, 40, 200):
                for _ in range(3 if most < 200 else 1):
                    self.same(width, random_records(source, width, most))

    def test_every_pair_of_kinds(self):
        """Each kind as the left, right and only child of each other, two levels."""
        a, b, c = (Record(VARIABLE, i, 1, 0) for i in (0, 1, 30))
        leaves = [[Record(CONSTANT, 0, 1, v)] for v in (0, 7, 65536, 2**64 - 1)] + [[a], [c]]
        nodes = list(leaves)
        for kind in sorted(UNARY):
            nodes.append([a, node(kind, 2)])
        for kind in sorted(BINARY):
            nodes.append([a, b, node(kind, 3)])
        nodes += [x + [node(NEG, len(x) + 1)] for x in nodes[6:]]
        texts = set()
        trees = list(nodes)
        for kind in sorted(UNARY):
            trees += [x + [node(kind, len(x) + 1)] for x in nodes]
        for kind in sorted(BINARY):
            trees += [x + y + [node(kind, len(x) + len(y) + 1)] for x in nodes for y in nodes]
        for tree in trees:
            texts.add(self.same(8, tree))
        self.assertEqual(len(texts), len(set(map(tuple, trees))))

    def test_deep(self):
        a = Record(VARIABLE, 0, 1, 0)
        for kind in sorted(UNARY):
            self.same(64, [a] + [node(kind, size) for size in range(2, 1025)])
        for kind in sorted(BINARY):
            left = [a]
            for i in range(511):
                left += [a, node(kind, 2 * i + 3)]
            self.same(64, left)
            self.same(64, [a] * 512 + [node(kind, 2 * i + 3) for i in range(511)])

    def test_deep_mixed(self):
        source = random.Random(21)
        for _ in range(3):
            records = [Record(VARIABLE, 0, 1, 0)]
            while len(records) < 1023:
                kind = source.choice((*UNARY, ADD, MUL, AND))
                if kind in BINARY:
                    records.append(Record(CONSTANT, 0, 1, 3))
                records.append(node(kind, len(records) + 1))
            self.same(8, records)

    def test_any_text(self):
        """Any text is refused as such, or is an expression that comes back."""
        source = random.Random(22)
        pieces = "a v7 z 3 0xf 0b1 ( ) ( ) , ~ - * + >> & ^ | >>2 zext(4, concat( < $ 08 A".split()
        pieces += [" ", "\n"]
        good = 0
        for _ in range(4000):
            text = "".join(source.choice(pieces) for _ in range(source.randint(1, 9)))
            try:
                records = parse(text, 8).expression.records
            except BadText as bad:
                self.assertTrue(bad.message and 0 <= bad.at <= len(text), text)
                continue
            good += 1
            self.same(8, records)
        self.assertGreater(good, 100)

    def test_any_byte(self):
        """With one byte changed the file has a fault, or is one that comes back."""
        source = random.Random(23)
        good = 0
        for _ in range(2000):
            data = bytearray(expression_bytes(Expression(8, random_records(source, 8, 6))))
            byte = source.choice((0, 1, 2, 9, 10, source.randrange(256)))
            data[source.randrange(len(data))] = byte
            try:
                width, records = read_expression(bytes(data))
            except Fault as bad:
                self.assertIn("record ", str(bad))
                continue
            good += 1
            self.assertEqual(expression_bytes(Expression(width, records)), bytes(data))
            self.same(width, records)
        self.assertGreater(good, 100)

    def test_text_is_kept(self):
        """A text in the printer's own notation comes back as it was."""
        for text in (
            "16*(a & 255) + (b ^ 15)", "a - b - c", "a - (b - c)", "a + (b + c)", "a + -b*c",
            "a - b*c", "-(a*b)", "-a*b", "-(-a)", "~~a", "~-a", "a - -b", "(a & b) | c",
            "a & b & c", "a & (b & c)", "(a >> 3) & 1", "a >> 3 >> 2", "(a + b) >> 1", "-1",
            "65535 + 0x10000",
            "z + v26 + v255", "v256 + v65535 - v511", "concat(a + b, zext(16, c))*2",
            "trunc(4, a) - sext(8, -b)",
        ):
            self.assertEqual(self.same(8, parse(text, 8).expression.records), text)


def node(kind, size):
    argument = 3 if kind in WITH_ARGUMENT or kind == SHR else 0
    return Record(kind, argument, size, 0)
