"""What is known of an expression before it is run: places that can be 1, constant parts, folding."""

import random
import unittest

from hogzelt.facts import facts_of
from hogzelt.fold import fold
from hogzelt.parser import parse
from hogzelt.records import ARITY, CONSTANT, VARIABLE
from hogzelt.render import expression_text

from samples import Evaluator, any_text


class Facts(unittest.TestCase):
    def test_random(self):
        source = random.Random(170)
        for _ in range(600):
            width = source.choice((1, 5, 8, 64))
            text = any_text(source, source.randint(1, 4), width)
            parsed = parse(text, width)
            records = parsed.expression.records
            root = facts_of(records, width)[-1]
            self.assertEqual(root.variable, any(r.kind == VARIABLE for r in records))
            folded = fold(parsed)
            again = Evaluator(expression_text(folded.expression.records, width), width)
            for _ in range(10):
                assignment = {name: source.getrandbits(width) for name in "ab"}
                value = Evaluator(text, width).at(assignment)
                self.assertEqual(value & ~root.bits, 0, text)
                self.assertEqual(again.at(assignment), value, text)
                if not root.variable:
                    self.assertEqual(root.value, value, text)

    def test_folded(self):
        """No operator is left over literals alone, and each record has its place and size."""
        source = random.Random(171)
        for _ in range(300):
            folded = fold(parse(any_text(source, 4, 8), 8))
            records = folded.expression.records
            self.assertEqual(len(records), len(folded.places))
            for i, record in enumerate(records):
                span = records[i + 1 - record.size : i + 1]
                leaves = sum(ARITY[r.kind] == 0 for r in span)
                joins = sum(ARITY[r.kind] == 2 for r in span)
                self.assertEqual(leaves, joins + 1)
                self.assertTrue(record.size == 1 or any(r.kind != CONSTANT and not ARITY[r.kind]
                                                        for r in span))
