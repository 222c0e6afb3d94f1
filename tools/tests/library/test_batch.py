"""One expression a line: order, refusals, JSON, processes."""

import json
import os
import random

from hogzelt import shorten

from calling import Calls
from samples import ROOT, Evaluator, random_text

LINES = b"""# two good ones, and three that are not
x ^ 15

x & -2
  (flags & 15) + (flags & 240)
x +
x*y
"""
ANSWERS = """\
# two good ones, and three that are not
15 + 1*x - 2*(x & 15)

# line 4, column 3: refusal 8: & works bit by bit, and -2 below it is a negative; write 254 for \
-2, or add --fold
1*flags
# line 6, column 4: expected a literal, a variable, "~", "-" or "(", found the end of the text
# line 7, column 2: refusal 8: * has a variable on both sides; one of them must be a number
"""


class Batch(Calls):
    def test_lines(self):
        path = self.path("lines", LINES)
        out, err = self.call("shorten", "-w8", "-f", path, status=1)
        self.assertEqual(out, ANSWERS)
        self.assertEqual(err, f"hogzelt: {path}: 3 of 7 lines are refused\n")
        out, err = self.run_tool("shorten", "-w8", "-", data=LINES, status=1)
        self.assertEqual(out.decode(), ANSWERS)
        self.assertIn("standard input: 3 of 7", err)

    def test_output_is_input(self):
        """What is printed can be read again, and stays as it is."""
        path = self.path("again", ANSWERS.encode())
        self.assertEqual(self.call("shorten", "-w8", "-f", path)[0], ANSWERS)

    def test_fold(self):
        out, err = self.call("shorten", "-w8", "--fold", "-f", self.path("x", b"x & -2\n"))
        self.assertEqual((out, err), ("1*(x & 254)\n", ""))

    def test_json(self):
        out, _ = self.call("shorten", "-w8", "--json", "-f", self.path("lines", LINES), status=1)
        found = [json.loads(line) for line in out.splitlines()]
        self.assertEqual([one["line"] for one in found], [2, 4, 5, 6, 7])
        self.assertEqual(found[0]["sum"], "15 + 1*x - 2*(x & 15)")
        self.assertEqual(found[0]["terms"], [{"coefficient": 1, "atom": "x"},
                                             {"coefficient": 254, "atom": "(x & 15)"}])
        self.assertEqual(found[1]["refusal"], {
            "number": 8, "line": 4, "column": 3, "hint": "write 254 for -2, or add --fold",
            "message": "& works bit by bit, and -2 below it is a negative"})
        self.assertEqual(found[2]["par"], {"before": 2, "after": 1})
        self.assertEqual(found[2]["variables"], {"flags": 0})
        self.assertEqual(found[3]["refusal"]["number"], 0)
        self.assertEqual({frozenset(one) for one in found}, {frozenset(found[0])})

    def test_many(self):
        """Several processes give what one gives, in order; each line is what one call gives, of the
        text's value."""
        source = random.Random(140)
        texts = [random_text(source, 16) for _ in range(2500)]
        texts[1200] = "a*b"
        path = self.path("many", "\n".join(texts).encode())
        out, _ = self.call("shorten", "-w16", "--jobs", "2", "-f", path, status=1)
        self.assertEqual(out, self.call("shorten", "-w16", "--jobs", "1", "-f", path, status=1)[0])
        lines = out.splitlines()
        self.assertEqual(len(lines), len(texts))
        self.assertTrue(lines.pop(1200).startswith("# line 1201, column 2: refusal 8: "))
        texts.pop(1200)
        for text, line in zip(texts, lines):
            self.assertEqual(str(shorten(text, 16)), line)
            assignment = {name: source.getrandbits(16) for name in "abcd"}
            self.assertEqual(Evaluator(line, 16).at(assignment),
                             Evaluator(text, 16).at(assignment), text)

    def test_few_lines(self):
        for data, shown in (
            (b"", ""), (b"\n", "\n"), (b"a", "1*a\n"), (b"a\r\n\r\nb\r\n", "1*a\n\n1*b\n"),
        ):
            self.assertEqual(self.call("shorten", "-w8", "-f", self.path("x", data))[0], shown)

    def test_usage(self):
        path = self.path("lines", LINES)
        self.assertIn("--steps is for one", self.call("shorten", "-w8", "--steps", "-f", path,
                                                      status=2)[1])
        self.assertIn("the width is missing", self.call("shorten", "-f", path, status=2)[1])
        err = self.call("shorten", "-w8", "--jobs", "0", "-f", path, status=2)[1]
        self.assertIn("--jobs takes a number", err)

    def test_example(self):
        path = os.path.join(ROOT, "examples", "daily.txt")
        out, _ = self.call("shorten", "-w64", "-f", path)
        with open(path, encoding="utf-8") as source:
            self.assertEqual(len(out.splitlines()), len(source.read().splitlines()))
