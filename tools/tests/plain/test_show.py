"""What is shown of expressions, semilinear forms and the answers of `par`; the worked examples."""

import unittest

from hogzelt.parser import parse
from hogzelt.records import read_answer, read_expression, read_form
from hogzelt.refusals import REFUSALS
from hogzelt.render import bits_text, sum_text
from hogzelt.show import show_answer, show_expression, show_form

from samples import WORKED, bytes_of, form_bytes


def form_lines(data):
    return show_form(read_form(data))


class Forms(unittest.TestCase):
    def test_xor(self):
        self.assertEqual(form_lines(WORKED[8, "a ^ 15"]), [
            "sheet: width 8, 2 atoms, par 2",
            "sum       15 + 1*a - 2*(a & 15)",
            "constant  0x0f (15)",
            "term 0    0x01 (1) * a",
            "term 1    0xfe (-2) * (a & 15)",
            "            mask 0x0f, places 7 to 0: 00001111",
        ])

    def test_constant(self):
        self.assertEqual(form_lines(WORKED[8, "5"]), [
            "sheet: width 8, 0 atoms, par 0", "sum       5", "constant  0x05 (5)"])

    def test_width_one(self):
        self.assertEqual(form_lines(WORKED[1, "a ^ 1"]), [
            "sheet: width 1, 1 atom, par 1", "sum       1 + 1*a", "constant  0x1 (1)",
            "term 0    0x1 (1) * a"])

    def test_recovered(self):
        atoms = ["a & 252", "a & 3", "a & 0", "3 ^ a"]
        self.assertEqual(form_lines(form_bytes(8, 253, atoms, [(2, 255), (3, 1)])), [
            "sheet: width 8, 4 atoms, par 2",
            "sum       -3 - 1*(a & 0) + 1*(3 ^ a)",
            "constant  0xfd (-3)",
            "term 2    0xff (-1) * (a & 0)",
            "            mask 0x00, places 7 to 0: 00000000",
            "term 3    0x01 (1) * (3 ^ a)",
            "            mask 0x03, places 7 to 0: 00000011",
            "atom 0    not used: a & 252",
            "            mask 0xfc, places 7 to 0: 11111100",
            "atom 1    not used: a & 3",
            "            mask 0x03, places 7 to 0: 00000011",
        ])

    def test_half_has_no_negative(self):
        lines = form_lines(form_bytes(8, 128, ["a", "~b"], [(0, 128), (1, 129)]))
        self.assertEqual(lines[1:], [
            "sum       128 + 128*a - 127*~b", "constant  0x80 (128)", "term 0    0x80 (128) * a",
            "term 1    0x81 (-127) * ~b"])

    def test_uncut_mask_and_several(self):
        lines = form_lines(form_bytes(12, 0, ["(a & 0xf00f) & 7"], [(0, 1)]))
        self.assertEqual(lines[1:], [
            "sum       1*(a & 61455 & 7)",
            "constant  0x000 (0)",
            "term 0    0x001 (1) * (a & 61455 & 7)",
            "            mask 0xf00f, places 11 to 0: 0000 00001111",
            "            mask  0x007, places 11 to 0: 0000 00000111",
        ])

    def test_all_worked_examples_are_shown(self):
        for answer in WORKED.values():
            if isinstance(answer, bytes):
                self.assertTrue(form_lines(answer)[0].startswith("sheet: "))


class Sums(unittest.TestCase):
    def text(self, width, constant, *terms):
        return sum_text(width, constant, [(c, bytes_of(text, width)) for c, text in terms])

    def test_signs(self):
        for terms, shown in (
            ((), "0"),
            (((1, "a"),), "1*a"),
            (((255, "a"),), "-1*a"),
            (((128, "a & 3"), (129, "~b")), "128*(a & 3) - 127*~b"),
            (((2, "a ^ b"), (254, "a >> 1")), "2*(a ^ b) - 2*(a >> 1)"),
        ):
            self.assertEqual(self.text(8, 0, *terms), shown)
        self.assertEqual(self.text(8, 253, (1, "a")), "-3 + 1*a")
        self.assertEqual(self.text(1, 1, (1, "a")), "1 + 1*a")

    def test_wide_numbers(self):
        self.assertEqual(self.text(20, 65536, (65535, "a & 0x10000")),
                         "0x10000 + 65535*(a & 0x10000)")
        self.assertEqual(self.text(64, 2**63, (2**64 - 65536, "a & 0xff0000")),
                         "0x8000000000000000 - 0x0000000000010000*(a & 0x0000000000ff0000)")

    def test_names(self):
        parsed = parse("flags & 15", 8)
        self.assertEqual(sum_text(8, 0, [(1, parsed.data)], parsed.names), "1*(flags & 15)")


class Bits(unittest.TestCase):
    def test_places(self):
        for value, width, shown in (
            (1, 1, "1"), (5, 4, "0101"), (271, 8, "00001111"), (257, 9, "1 00000001"),
            (1, 16, "00000000 00000001"), (2**63, 64, "10000000" + " 00000000" * 7),
        ):
            self.assertEqual(bits_text(value, width), shown)
            self.assertEqual(len(shown.replace(" ", "")), width)


class Expressions(unittest.TestCase):
    def shown(self, text, width=8):
        return show_expression(read_expression(bytes_of(text, width)))

    def test_masks(self):
        self.assertEqual(self.shown("16*(a & 255) + (b ^ 15)"), [
            "tangle: width 8, 9 records",
            "16*(a & 255) + (b ^ 15)",
            "  mask 0xff, places 7 to 0: 11111111",
            "  mask 0x0f, places 7 to 0: 00001111",
        ])
        self.assertEqual(self.shown("3*a", 1), ["tangle: width 1, 3 records", "3*a"])

    def test_refused_kinds(self):
        self.assertIn("refused (5)", self.shown("zext(16, a)")[-1])
        self.assertIn("refused (6)", self.shown("a >> 64")[-1])


class Answers(unittest.TestCase):
    PAR = b"C 000000000000000f\nT 0 0000000000000001\nT 1 00000000000000fe\n"

    def test_terms(self):
        self.assertEqual(show_answer(read_answer(self.PAR)), [
            "par 2", "constant  0x000000000000000f", "term 0    0x0000000000000001 * (atom 0)",
            "term 1    0x00000000000000fe * (atom 1)"])

    def test_with_width(self):
        self.assertEqual(show_answer(read_answer(self.PAR), 8)[-1],
                         "term 1    0xfe (-2) * (atom 1)")

    def test_refusals(self):
        numbers = [*range(1, 7), 8, 9, 10]
        for number in numbers:
            line = show_answer(read_answer(b"R %d\n" % number))
            self.assertEqual(line, [f"refusal {number}: {REFUSALS[number]}"])
        self.assertEqual(sorted(REFUSALS), [*numbers, 11, 12, 13, 18, 20, 21, 32])

    def test_refusal_of_before(self):
        """What `par` wrote before 1.2.0 for a sum below bitwise operators is still read."""
        line, = show_answer(read_answer(b"R 7\n"))
        self.assertEqual(line, "refusal 7: a sum or product below bitwise operators without a variable;"
                               " since 1.2.0 it is a number")
