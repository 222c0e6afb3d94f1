"""Variables by number: byte 1 of a record has the low byte, byte 5 the high one, 0 to 65535."""

import time
import unittest

from hogzelt import parse
from hogzelt.atoms import full_table
from hogzelt.fold import fold
from hogzelt.records import (
    ADD, ARITY, KIND_NAMES, SHR, TRUNC, VARIABLE, Expression, Fault, Record, expression_bytes,
    read_expression, read_form, record_bytes, structural_hash, tree_records,
)
from hogzelt.render import expression_text, sum_text
from hogzelt.show import show_form
from hogzelt.tokens import BadText

from samples import bytes_of, form_bytes

# a record at width 8, and its variable and hash
RECORDS = (
    ("01000100080000000000000000000000", 0, 0x517CC1B727220A94),
    ("01ff0100080000000000000000000000", 255, 0x7CC1B727220A9501),
    ("01000100080100000000000000000000", 256, 0xCE3E78DE492C9F94),
    ("01ff010008ff00000000000000000000", 65535, 0xC1B727220A950001),
)
EDGES = (0, 1, 25, 26, 255, 256, 257, 511, 512, 65280, 65534, 65535)


def smallest(kind):
    """A record of a kind over variables."""
    leaves = [Record(VARIABLE, i, 1, 0) for i in range(ARITY[kind])]
    return [*leaves, Record(kind, 0, 1 + len(leaves), 0)]


class Bytes(unittest.TestCase):
    def test_records(self):
        for digits, number, digest in RECORDS:
            data = bytes.fromhex(digits)
            records = [Record(VARIABLE, number, 1, 0)]
            self.assertEqual(bytes_of(f"v{number}"), data)
            self.assertEqual(read_expression(data), Expression(8, records))
            self.assertEqual(tree_records(data), records)
            self.assertEqual(expression_bytes(Expression(8, records)), data)
            self.assertEqual(structural_hash(records), digest)

    def test_every_number(self):
        for number in range(65536):
            data = record_bytes(VARIABLE, number, 1, 64, 0)
            self.assertEqual(data, bytes((1, number & 255, 1, 0, 64, number >> 8)) + bytes(10))
            self.assertEqual(tree_records(data), [Record(VARIABLE, number, 1, 0)])

    def test_faults(self):
        """Byte 5 in every kind but a variable, bytes 6 and 7 in all of them."""
        for kind, name in enumerate(KIND_NAMES):
            records = smallest(kind)
            data = bytearray(expression_bytes(Expression(8, records)))
            root = len(data) - 16
            for at in (5, 6, 7):
                with self.subTest(kind=name, byte=at):
                    changed = bytearray(data)
                    changed[root + at] = 3
                    if (kind, at) == (VARIABLE, 5):
                        self.assertEqual(read_expression(bytes(changed)).records[-1].argument, 768)
                        continue
                    with self.assertRaises(Fault) as caught:
                        read_expression(bytes(changed))
                    where = f"record {len(records) - 1} (byte {root}): its byte {at} is 3"
                    self.assertIn(where, str(caught.exception))
                    if at == 5:
                        self.assertTrue(str(caught.exception).endswith(name), caught.exception)

    def test_sheets(self):
        data = form_bytes(8, 9, ["v256 & 15", "~v65535"], [(0, 3), (1, 5)])
        self.assertIn("sum       9 + 3*(v256 & 15) + 5*~v65535", show_form(read_form(data)))
        self.assertEqual(read_form(data).atoms[1].records[0].argument, 65535)
        for start in range(0, len(data), 16):
            for at in (5, 6, 7):
                changed = bytearray(data)
                changed[start + at] ^= 1
                message = "hash" if data[start] == VARIABLE and at == 5 else f"its byte {at} is"
                with self.assertRaises(Fault) as caught:
                    read_form(bytes(changed))
                self.assertIn(message, str(caught.exception))


class Texts(unittest.TestCase):
    def test_round_trip(self):
        for number in EDGES:
            for text in (f"v{number}", f"~v{number} & 15", f"3*(v{number} >> 2) - v{number}"):
                parsed = parse(text, 8)
                shown = expression_text(parsed.expression.records, 8)
                self.assertEqual(bytes_of(shown), parsed.data)
                self.assertEqual(expression_text(parsed.expression.records, 8, parsed.names), text)

    def test_variables_that_share_a_byte(self):
        """They are two, in texts, tables and sums."""
        for one, two in ((256, 0), (257, 1), (1, 256), (65535, 255)):
            records = parse(f"v{one} + v{two}", 8).expression.records
            self.assertEqual([r.argument for r in records], [one, two, 0])
            self.assertEqual(full_table(records, 8)[:2], (2, 2))
            same = parse(f"(v{one} & v{two}) + (v{two} & v{one})", 8).expression.records
            self.assertEqual(full_table(same, 8)[:2], (1, 3))
            terms = [(1, bytes_of(f"v{one}")), (2, bytes_of(f"v{two}"))]
            names = {i: f"n{i}" for i in (one, two)}
            self.assertEqual(sum_text(8, 0, terms, names), f"1*n{one} + 2*n{two}")

    def test_fold(self):
        """Variables stay as they are where other parts are folded."""
        parsed = fold(parse("(v65535 & (1 + 2)) + (v256 >> 1) + zext(9, v511)", 8))
        self.assertEqual(parsed.data, bytes_of("(v65535 & 3) + (v256 >> 1) + zext(9, v511)"))

    def test_arguments_of_other_kinds(self):
        """Shift counts and widths of casts keep to byte 1."""
        self.assertEqual(parse("v256 >> 255", 8).records[1], record_bytes(SHR, 255, 2, 8, 0))
        self.assertEqual(parse("trunc(255, v256)", 8).records[1], record_bytes(TRUNC, 255, 2, 8, 0))
        self.assertEqual(parse("v256 + v257", 8).records[2], record_bytes(ADD, 0, 3, 8, 0))

    def test_time(self):
        """Names are numbered in one walk: ten times as many take no hundred times as long."""
        def seconds(count):
            text = " ^ ".join(f"n{i}" for i in range(count)) + " ^"
            start = time.process_time()
            with self.assertRaises(BadText):
                parse(text, 8)
            return time.process_time() - start

        few = min(seconds(3000) for _ in range(3))
        self.assertLess(min(seconds(30000) for _ in range(2)), 40 * few + 0.5)
