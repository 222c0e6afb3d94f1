"""Text to records: precedence, literals, names, what bad text is answered."""

import ast
import random
import unittest

from hogzelt.parser import Numbering, notes, numbering_of, parse
from hogzelt.records import (
    ADD, AND, CONCAT, CONSTANT, MUL, NEG, NOT, OR, SEXT, SHR, TRUNC, VARIABLE, XOR, ZEXT, Record,
)
from hogzelt.tokens import BadText, line_and_column, located

# C's table, tightest first
ROWS = (("*",), ("+", "-"), (">>", "<<"), ("&",), ("^",), ("|",))
LEVEL = {symbol: level for level, row in enumerate(ROWS) for symbol in row}
SHIFTS = (">>", "<<")


def records(text, width=8):
    return parse(text, width).expression.records


def constant(value):
    return Record(CONSTANT, 0, 1, value)


def variable(number):
    return Record(VARIABLE, number, 1, 0)


class Precedence(unittest.TestCase):
    def test_pairs(self):
        for first in LEVEL:
            for second in LEVEL:
                y, z = ("3" if s in SHIFTS else v for s, v in ((first, "b"), (second, "c")))
                text = f"a {first} {y} {second} {z}"
                if LEVEL[first] <= LEVEL[second]:
                    grouped = f"(a {first} {y}) {second} {z}"
                else:
                    grouped = f"a {first} ({y} {second} {z})"
                with self.subTest(text=text):
                    if first in SHIFTS and LEVEL[second] < LEVEL[first]:
                        self.assertRaises(BadText, parse, text, 8)
                    else:
                        self.assertEqual(records(text), records(grouped))

    def test_grouping_shows(self):
        for symbol in ("+", "-", "*", "&", "^", "|"):
            self.assertNotEqual(records(f"(a {symbol} b) {symbol} c"),
                                records(f"a {symbol} (b {symbol} c)"))

    def test_prefix_binds_tightest(self):
        for sign in ("~", "-"):
            for symbol in LEVEL:
                right = "3" if symbol in SHIFTS else "b"
                text = f"{sign}a {symbol} {right}"
                self.assertEqual(records(text), records(f"({sign}a) {symbol} {right}"), text)
                if symbol not in SHIFTS:
                    text = f"a {symbol} {sign}b"
                    self.assertEqual(records(text), records(f"a {symbol} ({sign}b)"), text)

    def test_as_python(self):
        """Python has C's precedence for these operators; its parser is another one than ours."""
        source = random.Random(6)
        for _ in range(300):
            text = source.choice(("a", "~b", "-c", "7", "(a | b)", "~-a"))
            for _ in range(source.randint(1, 8)):
                symbol = source.choice(("*", "+", "-", "&", "^", "|"))
                right = source.choice(("a", "~b", "-c", "7", "(a >> 2)", "-(a - b)"))
                text += f" {symbol} {right}"
            with self.subTest(text=text):
                self.assertEqual(records(text), python_records(ast.parse(text, mode="eval").body))


def python_records(node):
    kinds = {ast.Add: ADD, ast.Mult: MUL, ast.BitAnd: AND, ast.BitOr: OR, ast.BitXor: XOR}
    if isinstance(node, ast.Constant):
        return [constant(node.value)]
    if isinstance(node, ast.Name):
        return [variable(ord(node.id) - ord("a"))]
    if isinstance(node, ast.UnaryOp):
        below = python_records(node.operand)
        kind = NOT if isinstance(node.op, ast.Invert) else NEG
        return below + [Record(kind, 0, len(below) + 1, 0)]
    left = python_records(node.left)
    if isinstance(node.op, ast.RShift):
        return left + [Record(SHR, node.right.value, len(left) + 1, 0)]
    right = python_records(node.right)
    kind = kinds.get(type(node.op), ADD)
    if isinstance(node.op, ast.Sub):
        right.append(Record(NEG, 0, len(right) + 1, 0))
    return left + right + [Record(kind, 0, len(left) + len(right) + 1, 0)]


class Operands(unittest.TestCase):
    def test_literals(self):
        for text, value in (
            ("0", 0), ("7", 7), ("18446744073709551615", 2**64 - 1), ("0x0", 0), ("0xfF", 255),
            ("0XFF", 255), ("15u", 15), ("7UL", 7), ("0xffULL", 255), ("0b11ll", 3),
            ("200u8", 200), ("0b1010", 10), ("0B1", 1), ("0x0000000000000000000001", 1),
            ("0xffffffffffffffff", 2**64 - 1), ("0b" + "1" * 64, 2**64 - 1),
        ):
            self.assertEqual(records(text), [constant(value)], text)

    def test_variables(self):
        for text, number in (
            ("a", 0), ("v", 21), ("z", 25), ("v0", 0), ("v25", 25), ("v255", 255), ("v256", 256),
            ("v999", 999), ("v10000", 10000), ("v65535", 65535),
        ):
            self.assertEqual(records(text), [variable(number)], text)

    def test_names(self):
        """Names other than a to z and v0 to v65535 get the lowest numbers that are free."""
        for text, numbers, names in (
            ("flags", [0], {0: "flags"}),
            ("flags + a", [1, 0], {1: "flags"}),
            ("X1 + x + flags + X1", [0, 23, 1, 0], {0: "X1", 1: "flags"}),
            ("v0 + v26", [0, 26], {0: "v0"}),
            ("_t + ab + v1", [0, 2, 1], {0: "_t", 2: "ab", 1: "v1"}),
            ("ab + v65535 + a + v256", [1, 65535, 0, 256], {1: "ab"}),
        ):
            parsed = parse(text, 8)
            variables = [r.argument for r in parsed.expression.records if r.kind == VARIABLE]
            self.assertEqual((variables, parsed.names), (numbers, names), text)

    def test_names_of_two_texts(self):
        """With one numbering a name is the same variable in both, and no other name's."""
        for left, right, numbers in (
            ("flags", "a", [[1], [0]]),
            ("a", "flags", [[0], [1]]),
            ("X1 + X2", "X2 + b + X3", [[0, 2], [2, 1, 3]]),
            ("X1 + v0", "X2 + v2 + X1", [[1, 0], [3, 2, 1]]),
        ):
            numbering = numbering_of((left, right))
            found = [parse(text, 8, numbering) for text in (left, right)]
            self.assertEqual([[r.argument for r in parsed.expression.records if r.kind == VARIABLE]
                              for parsed in found], numbers, (left, right))
            for parsed in found:
                again = parse(parsed.text, 8, Numbering((), parsed.names))
                self.assertEqual(again.data, parsed.data)
        self.assertEqual(parse("X1 + X2", 8, Numbering((), {1: "X2", 0: "flags"})).names,
                         {1: "X2", 2: "X1"})

    def test_most_names(self):
        names = [f"n{i}" for i in range(65537)]
        parsed = parse(" ^ ".join(names[:512]), 8)
        self.assertEqual(parsed.names, {i: f"n{i}" for i in range(512)})
        numbers = [r.argument for r in parsed.expression.records if r.kind == VARIABLE]
        self.assertEqual(numbers, list(range(512)))
        for count, message in (
            (513, "1,025 records"), (65536, "131,071 records"),
            (65537, 'no number is left for "n65536"; there are 65,536 variables'),
        ):
            with self.assertRaises(BadText) as caught:
                parse(" ^ ".join(names[:count]), 8)
            self.assertIn(message, str(caught.exception))

    def test_names_beside_numbers(self):
        """Numbers that the text has elsewhere are left out, over 255 too."""
        fixed = [f"v{i}" for i in range(300) if i != 280]
        parsed = parse(" ^ ".join(["one", "two", "three", *fixed]), 8)
        self.assertEqual([parsed.names[i] for i in (280, 300, 301)], ["one", "two", "three"])

    def test_each_kind(self):
        a, b = variable(0), variable(1)
        for text, expected in (
            ("a + b", [a, b, Record(ADD, 0, 3, 0)]),
            ("a - b", [a, b, Record(NEG, 0, 2, 0), Record(ADD, 0, 4, 0)]),
            ("a * b", [a, b, Record(MUL, 0, 3, 0)]),
            ("a & b", [a, b, Record(AND, 0, 3, 0)]),
            ("a | b", [a, b, Record(OR, 0, 3, 0)]),
            ("a ^ b", [a, b, Record(XOR, 0, 3, 0)]),
            ("~a", [a, Record(NOT, 0, 2, 0)]),
            ("-1", [constant(1), Record(NEG, 0, 2, 0)]),
            ("a >> 0x3", [a, Record(SHR, 3, 2, 0)]),
            ("a >> (255)", [a, Record(SHR, 255, 2, 0)]),
            ("zext(16, a)", [a, Record(ZEXT, 16, 2, 0)]),
            ("sext(0, a)", [a, Record(SEXT, 0, 2, 0)]),
            ("trunc(255, a)", [a, Record(TRUNC, 255, 2, 0)]),
            ("concat(a, b)", [a, b, Record(CONCAT, 0, 3, 0)]),
            ("a << 3", [a, constant(8), Record(MUL, 0, 3, 0)]),
            ("a << 0x3f", [a, constant(2**63), Record(MUL, 0, 3, 0)]),
        ):
            self.assertEqual(records(text), expected, text)

    def test_blanks_and_lines(self):
        self.assertEqual(records(" a\n\t+\r\n b "), records("a+b"))

    def test_nesting_has_no_limit(self):
        self.assertEqual(records("(" * 20000 + "a" + ")" * 20000), [variable(0)])
        self.assertEqual(len(records("~" * 1023 + "a")), 1024)

    def test_notes(self):
        for text, expected in (
            ("255*a", []),
            ("a >> 63", []),
            ("a + 256", [(4, "256 is cut to 0 at width 8")]),
            ("a + 256*257", [(4, "256 is cut to 0 at width 8; 1 more like this")]),
            ("a >> 64", [(2, "shift count 64: counts above 63 are refused (6)")]),
            ("trunc(4, a)", [(0, "Trunc: casts and Concat are refused (5)")]),
        ):
            self.assertEqual(notes(parse(text, 8)), expected, text)


# text, line, column, part of the message
BAD = (
    ("", 1, 1, "the text is empty"),
    (" \n ", 1, 1, "the text is empty"),
    ("(a + b", 1, 7, 'or ")" for the "(" of line 1, column 1, found the end of the text'),
    ("a + (b\n & (c)", 2, 7, 'the "(" of line 1, column 5'),
    ("a + b)", 1, 6, 'or the end of the text, found ")"'),
    ("a +", 1, 4, "expected a literal, a variable"),
    ("a + \n * b", 2, 2, 'found "*"'),
    ("()", 1, 2, 'found ")"'),
    ("a b", 1, 3, "a product is written with *"),
    ("a\nb", 2, 1, "one expression a line"),
    ("(a &\n(b c", 2, 4, "a product is written with *"),
    ("3(a)", 1, 2, "a product is written with *"),
    ("16a", 1, 1, "a product is written 16*a"),
    ("1e3", 1, 1, "numbers have no exponent: 1000"),
    ("1.5*a", 1, 1, "numbers are whole"),
    ("1_000", 1, 1, "without marks between them: 1000"),
    ("0o17", 1, 1, "no octal literals: 15"),
    ("\u00e9 + a", 1, 1, "expected a literal, a variable"),
    ("v65536", 1, 1, "v0 to v65535"),
    ("v01", 1, 1, "v0 to v65535"),
    ("v99999", 1, 1, "v0 to v65535"),
    ("v100000", 1, 1, "v0 to v65535"),
    ("18446744073709551616", 1, 1, "below 2^64"),
    ("a & 0x10000000000000000", 1, 5, "below 2^64"),
    ("9" * 5000, 1, 1, "below 2^64"),
    ("010", 1, 1, "expected 10"),
    ("0x", 1, 1, "hexadecimal digits"),
    ("0b12", 1, 1, "binary digits"),
    ("0xfg", 1, 1, "hexadecimal digits"),
    ("a >> b", 1, 6, "a shift count, a literal from 0 to 255"),
    ("a >> 256", 1, 6, "a shift count"),
    ("a << 64", 1, 6, "a literal from 0 to 63"),
    ("1 << a", 1, 6, "a shift count"),
    ("a >> -1", 1, 6, "a shift count"),
    ("a >> 1 + 2", 1, 6, "write (x >> n) in parentheses"),
    ("a > 3", 1, 3, "no comparisons"),
    ("a < 3", 1, 3, "no comparisons"),
    ("a >>> 3", 1, 3, "brings in zeros is written >>"),
    ("a shl 3", 1, 3, "the shift is written <<"),
    ("a mod 8", 1, 3, "x mod 8 is x & 7"),
    ("a // 8", 1, 3, "neither a division nor a comment"),
    ("a;", 1, 2, "no ; at its end"),
    ("a # b", 1, 3, "a line of its own"),
    ("+a", 1, 1, "a sign + is left out"),
    ("f(a)", 1, 2, "there are no functions"),
    ("x AND y", 1, 3, "and is written &"),
    ("a <= 3", 1, 3, "no comparisons"),
    ("a == b", 1, 3, "no comparisons"),
    ("a = b", 1, 3, "no equals sign"),
    ("a && b", 1, 3, "no logical and; bit by bit it is &"),
    ("a || b", 1, 3, "no logical or; bit by bit it is |"),
    ("!a", 1, 1, "no logical not; bit by bit it is ~"),
    ("a ** 2", 1, 3, "no powers"),
    ("a % 8", 1, 3, "x % 8 is x & 7"),
    ("a / 8", 1, 3, "x / 8 is x >> 3"),
    ("x and y", 1, 3, "and is written &"),
    ("x or y", 1, 3, "or is written |"),
    ("not x", 1, 1, "not is written ~"),
    ("x xor y", 1, 3, "xor is written ^"),
    ("2 \u00d7 a", 1, 3, "a product is written *"),
    ("a / 2", 1, 3, 'found "/"'),
    ("a $ b", 1, 3, 'found "$"'),
    ("a, b", 1, 2, 'found ","'),
    ("zext(a, b)", 1, 6, "a width from 0 to 255"),
    ("zext(256, b)", 1, 6, "a width from 0 to 255"),
    ("zext 16", 1, 6, 'expected "("'),
    ("trunc(4 a)", 1, 9, 'expected ","'),
    ("concat(a)", 1, 9, '"," for the "concat(" of line 1, column 1'),
    ("concat(a, b, c)", 1, 12, '")" for the "concat("'),
)


class Bad(unittest.TestCase):
    def test_place_and_message(self):
        for text, line, column, part in BAD:
            with self.subTest(text=text[:40]):
                with self.assertRaises(BadText) as caught:
                    parse(text, 8)
                bad = caught.exception
                self.assertEqual(line_and_column(text, bad.at), (line, column))
                self.assertIn(part, str(bad))
                self.assertIn(f"line {line}, column {column}: ", located(text, bad.at, bad.message))

    def test_caret(self):
        self.assertEqual(located("a +\n\tb c", 7, "here", "x.txt"),
                         "x.txt: line 2, column 4: here\n  \tb c\n  \t  ^")
        self.assertEqual(located("a \x1b[2J b", 2, "here").split("\n")[1], "  a ?[2J b")
        long = located("a + " * 100 + "b c", 402, "here").split("\n")
        self.assertLess(len(long[1]), 110)
        self.assertEqual(long[1][long[2].index("^")], "c")

    def test_too_many_records(self):
        self.assertEqual(len(records("+".join("a" * 512))), 1023)
        with self.assertRaises(BadText) as caught:
            parse("+".join("a" * 513), 8)
        self.assertEqual(caught.exception.at, 2 * 512 - 1)
        self.assertIn("1,025 records", caught.exception.message)
