"""Damaged files, and the stored answers of crates/vectors: which bytes are read, and the hash."""

import os
import unittest

from hogzelt.records import Fault, read_answer, read_expression, read_form, structural_hash

from samples import ROOT, WORKED, bytes_of

XOR = bytes_of("a ^ 15")
FORM = WORKED[8, "a ^ 15"]  # head, a, head, a, 15, And, term, term, sum


def with_byte(data, at, value):
    return data[:at] + bytes((value,)) + data[at + 1 :]


def without(data, record):
    return data[: record * 16] + data[record * 16 + 16 :]


class Damaged(unittest.TestCase):
    def refused(self, read, data, *parts):
        with self.assertRaises(Fault) as caught:
            read(data)
        for part in parts:
            self.assertIn(part, str(caught.exception))

    def test_expressions(self):
        for data, *parts in (
            (b"", "no bytes"),
            (XOR[:-1], "47 bytes", "cut short"),
            (bytes_of("a") * 1025, "16,400 bytes", "16,384"),
            (with_byte(XOR, 16, 14), "record 1 (byte 16)", "kind 14"),
            (with_byte(XOR, 4, 0), "record 0", "width 0"),
            (with_byte(XOR, 20, 65), "record 1", "width 65"),
            (with_byte(XOR, 36, 9), "record 2 (byte 32)", "width 9", "width 8"),
            (with_byte(XOR, 38, 1), "record 2", "its byte 6 is 1"),
            (with_byte(XOR, 6, 1), "record 0", "its byte 6 is 1"),
            (with_byte(XOR, 7, 2), "record 0", "its byte 7 is 2"),
            (with_byte(XOR, 21, 1), "record 1", "its byte 5 is 1", "a Constant"),
            (with_byte(XOR, 37, 255), "record 2", "its byte 5 is 255", "a Xor"),
            (with_byte(bytes_of("a >> 1"), 21, 1), "record 1", "its byte 5 is 1", "a Shr"),
            (with_byte(XOR, 33, 1), "record 2", "byte 1", "a Xor"),
            (with_byte(XOR, 17, 1), "record 1", "byte 1", "a Constant"),
            (with_byte(XOR, 8, 1), "record 0", "bytes 8 to 15", "a Variable"),
            (with_byte(XOR, 34, 1), "record 2", "size 1", "size 3"),
            (with_byte(XOR, 35, 1), "record 2", "size 259"),
            (with_byte(XOR, 18, 2), "record 1", "size 2", "size 1"),
            (without(XOR, 0), "record 1", "two children", "1 tree"),
            (XOR[32:], "record 0", "two children", "none"),
            (bytes_of("~a")[16:], "record 0", "a child", "none"),
            (XOR[:32], "record 0", "no parent", "2 trees"),
        ):
            with self.subTest(parts=parts):
                self.refused(read_expression, data, *parts)

    def test_forms(self):
        for data, *parts in (
            (b"", "no bytes"),
            (FORM[:-16], "no sum record"),
            (FORM[:-3], "not a multiple"),
            (FORM + bytes(160), "ends at byte 144", "160 zero bytes"),
            (FORM + FORM, "record 9 (byte 144)", "behind the sum record"),
            (with_byte(FORM, 1, 5), "record 0", "byte 1 of the head of atom 0 is 5", "0 to 4"),
            (with_byte(FORM, 33, 255), "record 2", "byte 1 of the head of atom 1 is 255"),
            (with_byte(FORM, 5, 1), "record 0", "its byte 5 is 1 and must be 0"),
            (with_byte(FORM, 21, 1), "record 0", "hash"),
            (with_byte(FORM, 69, 1), "record 4", "its byte 5 is 1", "a Constant"),
            (with_byte(FORM, 101, 1), "record 6", "its byte 5 is 1 and must be 0"),
            (with_byte(FORM, 133, 1), "record 8", "its byte 5 is 1 and must be 0"),
            (with_byte(FORM, 2, 0), "record 0", "no tree"),
            (with_byte(FORM, 34, 200), "record 2", "atom 1", "past the end"),
            (with_byte(FORM, 8, 0), "record 0", "hash"),
            (with_byte(FORM, 72, 14), "record 2", "hash"),
            (with_byte(FORM, 80, 2), "record 5", "holds no Add"),
            (with_byte(FORM, 20, 9), "record 1", "width 9"),
            (with_byte(FORM, 98, 2), "record 6", "atom 2", "2 atoms"),
            (with_byte(FORM, 114, 0), "record 7", "must rise"),
            (with_byte(FORM, 104, 0), "record 6", "coefficient 0"),
            (with_byte(FORM, 105, 1), "record 6", "coefficient 257"),
            (with_byte(FORM, 97, 1), "record 6", "byte 1"),
            (with_byte(FORM, 112, 32), "record 7", "must be 0"),
            (with_byte(FORM, 112, 7), "record 7", "kind 7"),
            (with_byte(FORM, 137, 1), "record 8", "constant 271"),
        ):
            with self.subTest(parts=parts):
                self.refused(read_form, data, *parts)

    def test_heads(self):
        """Byte 1 of a head is 0 to 4, over any tree, and nothing depends on it."""
        for byte in range(5):
            self.assertEqual(read_form(with_byte(FORM, 1, byte)), read_form(FORM))
            self.assertEqual(read_form(with_byte(FORM, 33, byte)), read_form(FORM))

    def test_answers(self):
        for data, *parts in (
            (b"C f\n", "line 1"),
            (b"C 000000000000000F\n", "line 1", "lower-case"),
            (b"R 0\n", "line 1"),
            (b"R 11\n", "line 1"),
            (b"R 8\nC 000000000000000f\n", "line 2"),
            (b"C 000000000000000f\nT 0 01\n", "line 2"),
            (b"C 000000000000000f\nT 00 0000000000000001\n", "line 2"),
            (b"C 000000000000000f\n\n", "line 2"),
            (b"C 000000000000000f\n" + 2 * b"T 1 0000000000000001\n", "line 3", "must rise"),
            (b"C \xff", "byte 2"),
        ):
            with self.subTest(data=data):
                self.refused(read_answer, data, *parts)


def stored_entries():
    """Type, refusal, value, words and bytes of each entry of the vector file (docs/VECTORS.md)."""
    with open(os.path.join(ROOT, "crates", "vectors", "stdin"), "rb") as source:
        data = source.read()
    at = 0
    while data[at]:
        words = int.from_bytes(data[at + 2 : at + 4], "little")
        count = int.from_bytes(data[at + 4 : at + 8], "little")
        value = int.from_bytes(data[at + 8 : at + 16], "little")
        start = at + 16 + 8 * words
        listed = [int.from_bytes(data[i : i + 8], "little") for i in range(at + 16, start, 8)]
        yield data[at], data[at + 1], value, listed, data[start : start + count]
        at = -(-(start + count) // 16) * 16


class StoredAnswers(unittest.TestCase):
    def accepted(self, read, data):
        try:
            read(data)
        except Fault:
            return False
        return True

    def test_stored(self):
        """Refusals 5 and 6 stand in well-formed files; 1, 3, 4 and 10 do not. Of two files that are
        judged, one at least has the refusal that is given."""
        seen = dict.fromkeys(range(18), 0)
        for sort, refusal, value, words, data in stored_entries():
            seen[sort] += 1
            if sort == 1:
                self.assertEqual(self.accepted(read_expression, data), refusal not in (1, 3, 4))
            elif sort == 2:
                self.assertEqual(structural_hash(read_expression(data).records), value)
            elif sort == 6:
                self.assertEqual(self.accepted(read_form, data), refusal not in (1, 10))
            elif sort in (7, 9, 10, 11, 12, 13) and refusal in (1, 10):
                self.assertFalse(self.accepted(read_form, data))
            elif sort in (8, 14, 15) and refusal not in (2, 18, 32):
                split = len(data) - value % 2**32
                found = self.accepted(read_expression, data[:split])
                self.assertEqual(found, refusal not in (1, 3, 4))
                if refusal == 0:
                    self.assertTrue(self.accepted(read_form, data[split:]))
            elif sort in (16, 17):
                read = read_expression if sort == 16 else read_form
                sides = data[: words[0]], data[words[0] :]
                found = [self.accepted(read, side) for side in sides]
                if refusal in (0, 11, 12, 13):
                    self.assertEqual(found, [True, True])
                elif refusal in (1, 3, 4, 10):
                    self.assertIn(False, found)
        self.assertTrue(seen[1] and seen[2] and all(seen[sort] for sort in range(6, 18)), seen)
