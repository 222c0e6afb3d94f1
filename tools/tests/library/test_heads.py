"""Byte 1 of the heads of a sheet: 0 to 4 are read alike, 4 is written, others are refused by 10."""

import unittest

from hogzelt import Pass, Refused, columns, normalize, run_pass, run_passes, shorten, value
from hogzelt.records import HEAD, RECORD

from calling import Calls
from samples import WORKED, form_bytes

# every pass changes it; the last atom has no term
ATOMS = ["a & 15", "a & 240", "b & 15", "b & 240", "~a", "b"]
TERMS = [(0, 1), (1, 1), (2, 1), (3, 2), (4, 3)]
NEW = form_bytes(8, 9, ATOMS, TERMS)
OLD = [form_bytes(8, 9, ATOMS, TERMS, byte) for byte in range(4)]


def heads(data):
    """The places of the heads."""
    return [at for at in range(0, len(data), RECORD) if data[at] == HEAD]


def with_byte(data, head, byte):
    return data[: head + 1] + bytes((byte,)) + data[head + 2 :]


class Functions(unittest.TestCase):
    def new_heads(self, data):
        self.assertEqual({data[at + 1] for at in heads(data)}, {4}, data)

    def test_values_and_columns(self):
        for old in OLD:
            self.assertEqual(columns(old), columns(NEW))
            for a in range(256):
                self.assertEqual(value(old, [a, 77]), value(NEW, [a, 77]))

    def test_passes(self):
        for number in Pass:
            expected = run_pass(number, NEW)
            self.assertNotEqual(expected.data, NEW, number)
            self.new_heads(expected.data)
            for old in OLD:
                self.assertEqual(run_pass(number, old), expected, number)

    def test_one_head(self):
        """One old head among new ones, over each of the trees."""
        for at in heads(NEW):
            for byte in range(4):
                old = with_byte(NEW, at, byte)
                self.assertEqual(value(old, [200, 77]), value(NEW, [200, 77]))
                for number in Pass:
                    self.assertEqual(run_pass(number, old), run_pass(number, NEW))

    def test_nothing_to_drop(self):
        """Compacting a sheet without unused atoms changes these bytes alone."""
        for byte in range(4):
            old = form_bytes(8, 15, ["a", "a & 15"], [(0, 1), (1, 254)], byte)
            self.assertNotEqual(old, WORKED[8, "a ^ 15"])
            self.assertEqual(run_pass(Pass.COMPACT, old).data, WORKED[8, "a ^ 15"])

    def test_made(self):
        """Normalising and lists of passes, over And, Or, Xor and Not."""
        text = "(a & b) + 3*(a | c) + 5*(b ^ c) + 7*~(a & c) + (d & 15)"
        self.new_heads(normalize(text, 8).data)
        self.new_heads(shorten(text, 8).data)
        for number in Pass:
            self.new_heads(run_passes(text, [number], 8).data)

    def test_refused(self):
        for at in heads(NEW):
            for byte in (5, 6, 128, 255):
                bad = with_byte(NEW, at, byte)
                for call in (value, columns, *(lambda s, n=n: run_pass(n, s) for n in Pass)):
                    with self.assertRaises(Refused) as caught:
                        call(bad)
                    self.assertEqual(caught.exception.number, 10)


class Commands(Calls):
    READING = (("show",), ("value", "-f"), ("columns", "-f"), ("draw", "-f"),
               ("shorten", "--steps", "-f"), ("shorten", "--json", "-f"))

    def test_old_sheets(self):
        for words in self.READING:
            expected = self.call(*words, self.path("x", NEW))
            for old in OLD:
                self.assertEqual(self.call(*words, self.path("x", old)), expected, words)

    def test_refused(self):
        for words in self.READING:
            path = self.path("x", with_byte(NEW, 0, 5))
            out, err = self.call(*words, path, status=1)
            self.assertEqual((out, err), (
                "", f"hogzelt: {path}: record 0 (byte 0): byte 1 of the head of atom 0 is 5;"
                " a head has 0 to 4 there\n"))
