"""Numbers written as sums, as 3 & (1 + 2): constants and factors at w bits, and refusal 8 beside a
variable below a bitwise operator."""

import itertools
import random

from hogzelt import Refused, normalize, run_passes, shorten, value

from calling import Calls
from samples import Evaluator, any_text

# width, text, the sum
SUMS = (
    (8, "3 & (1 + 2)", "3"),
    (8, "0*(3 & (1 + 2))", "0"),
    (8, "(3 & (1 + 2))*a", "3*a"),
    (8, "a*(3 & (1 + 2))", "3*a"),
    (8, "a + ~(-1)", "1*a"),
    (8, "~(1 + 2) >> 1", "126"),
    (8, "0*(a ^ (3 & (1 + 2)))", "0"),
    (8, "(4 & (1 + 2))*(a ^ (3 & (1 + 2)))", "0"),
    (8, "(4 & (1 + 2))*(a*b)", "0"),
    (8, "~(-1)*(a*b)", "0"),
    (8, "(3 ^ -1) + 1", "-3"),
    (8, "(a ^ 15) + (3 & (1 + 2))", "18 + 1*a - 2*(a & 15)"),
    (1, "3 & (1 + 2)", "1"),
    (63, "~(1 + 2) >> 1", hex(2**62 - 2)),
    (64, "~(1 + 2) >> 1", hex(2**63 - 2)),
    (64, "~(2*3)*a", "-7*a"),
)
NONLINEAR = (
    "a ^ (3 & (1 + 2))", "(3 & (1 + 2)) | a", "a & ~(1 + 2)", "a ^ (-1)", "a & ((1 + 2) >> 1)",
    "~(a & ~(1 + 2))", "(a ^ (3 & (1 + 2))) >> 1", "b + 3*(a | ~(1 + 2))", "(3 & (1 + 2))*(a*b)",
)


def number(source, depth, width):
    """A text without a variable."""
    return any_text(source, depth, width, ())


class Sums(Calls):
    def test_worked(self):
        for width, text, wanted in SUMS:
            with self.subTest(text=text, width=width):
                self.assertEqual(str(normalize(text, width)), wanted)
                self.assertEqual(str(run_passes(text, (), width)), wanted)
        self.assertEqual(normalize("3 & (1 + 2)", 8).par, 0)

    def test_nonlinear(self):
        for text in NONLINEAR:
            for width in (1, 8, 64):
                for call in (normalize, shorten):
                    with self.assertRaises(Refused) as caught:
                        call(text, width)
                    self.assertEqual(caught.exception.number, 8, text)

    def test_random_numbers(self):
        """Any text without a variable is a constant, its value."""
        source = random.Random(104)
        for _ in range(1500):
            width = source.choice((1, 2, 3, 8, 31, 32, 63, 64))
            text = number(source, source.randint(1, 5), width)
            sheet = normalize(text, width)
            wanted = Evaluator(text, width).at({})
            self.assertEqual((sheet.form.constant, sheet.form.atoms), (wanted, []), text)
            self.assertEqual(value(text, [], width), wanted, text)

    def test_random_sums(self):
        """Such texts as summands and factors: the value is kept under every assignment."""
        source = random.Random(105)
        for _ in range(300):
            width = source.choice((1, 2, 3))
            terms = [f"({number(source, 3, width)})*({atom})" for atom in ("a", "a ^ b", "~b & 3")]
            text = " + ".join([*terms, f"({number(source, 4, width)})"])
            normalized, shortened = str(normalize(text, width)), str(shorten(text, width))
            for a, b in itertools.product(range(1 << width), repeat=2):
                at = {"a": a, "b": b}
                wanted = Evaluator(text, width).at(at)
                self.assertEqual(Evaluator(normalized, width).at(at), wanted, text)
                self.assertEqual(Evaluator(shortened, width).at(at), wanted, text)

    def test_command(self):
        out, err = self.call("shorten", "-q", "-w8", "3 & (1 + 2)")
        self.assertEqual((out, err), ("3\n", ""))
        out, err = self.call("shorten", "-w8", "a ^ (3 & (1 + 2))", status=1)
        self.assertEqual(err, "hogzelt: line 1, column 3: refusal 8: ^ works bit by bit, and 3 & (1 + 2)"
                              " below it has a sum in it\n  a ^ (3 & (1 + 2))\n    ^\n"
                              "  hint: write 3 for 3 & (1 + 2), or add --fold\n")
        out, _ = self.call("shorten", "-q", "-w8", "--fold", "a ^ (3 & (1 + 2))")
        self.assertEqual(out, "3 + 1*a - 2*(a & 3)\n")
