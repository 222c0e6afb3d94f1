"""Plainer sums by truth tables: the same value, and no more terms."""

import random
import unittest

from hogzelt import normalize, parse, shorten
from hogzelt.tables import OF_TWO, plainer, table

from samples import Evaluator

NAMES = "abc"


class Tables(unittest.TestCase):
    def test_functions_of_two(self):
        self.assertEqual(sorted(OF_TWO), list(range(1, 15)))
        for bits, text in OF_TWO.items():
            tree = parse(text.format(x="a", y="b"), 1).data
            self.assertEqual(table(tree, [0, 1]), bits, text)

    def atom(self, source, names, depth):
        if depth == 0:
            return source.choice(names)
        left = self.atom(source, names, depth - 1)
        if source.random() < 0.3:
            return f"~({left})"
        return f"({left}) {source.choice('&|^')} ({self.atom(source, names, depth - 1)})"

    def test_random(self):
        """Sums of weighted atoms over one to three variables, some beside masks and shifts."""
        source = random.Random(160)
        found = 0
        for _ in range(600):
            width = source.choice((1, 2, 8, 33, 64))
            names = NAMES[: source.randint(1, 3)]
            terms = [f"{source.choice((1, 2, 3, source.getrandbits(width)))}*"
                     f"({self.atom(source, names, source.randint(1, 3))})"
                     for _ in range(source.randint(1, 5))]
            terms += source.choice(([], ["(a & 1)"], ["(a >> 1)"], ["7"]))
            text = " + ".join(terms)
            sheet = shorten(text, width)
            other = plainer(sheet)
            if other is None:
                continue
            found += 1
            self.assertLessEqual(normalize(other, width).par, sheet.par)
            first, second = Evaluator(text, width), Evaluator(other, width)
            for _ in range(30):
                assignment = {name: source.getrandbits(64) for name in NAMES}
                self.assertEqual(first.at(assignment), second.at(assignment), (text, other))
        self.assertGreater(found, 200)

    def test_known(self):
        for text, shown in (
            ("(x^y)+2*(x&y)", "1*x + 1*y"),
            ("(x|y)+(x&y)", "1*x + 1*y"),
            ("(x|y)-(x&y)", "1*(x ^ y)"),
            ("(x & ~y) + y", "1*(x | y)"),
            ("2*(x|y) - (x^y) + (z & 3)", "1*x + 1*y + 1*(z & 3)"),
            ("x + y", None),
            ("x ^ 15", None),
            ("7", None),
            ("(a & b) + (c & d)", None),
        ):
            self.assertEqual(plainer(shorten(text, 8)), shown, text)
