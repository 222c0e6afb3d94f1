"""The judge: the cases of the request, every refusal and their order, large and random pairs beside
a model that tries every assignment, and what the package makes of a verdict."""

import itertools
import random
from ctypes import byref, c_uint64

from hogzelt import BadText, Refused, Verdict, equal, judge, parse, shorten
from hogzelt.calls import engine
from hogzelt.verdict import Numbers, WrongAnswer, told_apart

from calling import Calls
from samples import Evaluator, any_text, bytes_of, random_text

UNWRITTEN = 0xBAD0BAD0
EQUAL = (0, 1, 0, 0)
SUM_OF_257 = " + ".join(f"v{i}" for i in range(257))
SIX = "a + b + c + d + e + f"

# left and right at 8 bits, and the place and index that tell them apart
DIFFERENT = (
    ("a | b", "a + b", 0, 3),
    ("a", "a + 1", 0, 0),
    ("a & 15", "a & 31", 4, 1),
    ("a", "b", 0, 1),
    ("3", "4", 0, 0),
    ("a ^ b ^ c", "a ^ b", 0, 4),
    ("128*(a ^ b)", "127*(a ^ b)", 0, 1),
    ("64*(a ^ b)", "64*(a + b)", 0, 3),
    ("16*(a & 15)", "16*(a & 7)", 3, 1),
    # the variables as they are given count, below a factor 0 too
    ("c", "2*c", 0, 1),
    ("c + 0*b", "2*c", 0, 2),
    ("c", "2*c + 0*(a + b)", 0, 4),
    ("0*(a & b) + c", "2*c", 0, 4),
    ("c + 256*b", "2*c", 0, 2),
    # a lower place with a higher index comes first, and at a place the lowest index
    ("(b & 1) + (a & 2)", "0", 0, 2),
    ("(b & 2) + (a & 4)", "0", 1, 2),
    ("(b & 6) + (a & 4)", "0", 1, 2),
    ("(c & 1) + (a & b & 1)", "0", 0, 3),
    ("a & b & c & d & e & 128", "0", 7, 31),
    # variables of two bytes
    ("v256", "v0", 0, 1),
    ("v256 & 3", "(v256 & 1) + 0*v0", 1, 2),
    ("v65535", "2*v65535 + 0*v256 + 0*v0", 0, 4),
    ("v1", "v257", 0, 1),
)
SAME = (
    ("a ^ b", "a + b - 2*(a & b)"),
    ("128*(a ^ b)", "128*(a + b)"),
    ("a & (~3 >> 1)", "a & 126"),
    ("a >> 0", "a"),
    ("0", "256*a"),
    ("3 & (1 + 2)", "3"),
    ("16*(a & 15)", "16*a"),
    ("v256 + v0", "v0 + v256"),
    ("v65535 - v255", "-v255 + v65535"),
    ("a & 271", "a & 15"),
    ("(a & b) + (a | b)", "a + b"),
    ("(a ^ b ^ c ^ d ^ e) + 0*a", "(e ^ d) ^ (c ^ b) ^ a"),
)
# left and right, and the refusal
REFUSED = (
    ("0*(a >> 1)", "0", 13),
    ("0", "0*(a >> 1)", 13),
    ("a", "~(b | (a >> 7))", 13),
    (f"a + 0*({SIX})", "a", 12),
    ("a", f"0*({SIX})", 12),
    ("v0 + v1 + v2", "v3 + v4 + v5", 12),
    ("v0 + v256 + v512", "v768 + v1024 + v1280", 12),
    ("a*b", "a", 8),
    ("a", "a & -b", 8),
)


def answer(left, right):
    """The refusal, equal, place and index, with other numbers in the results before the call."""
    numbers = [c_uint64(UNWRITTEN) for _ in range(3)]
    refusal = engine().library.hogzelt_judge(left, len(left), right, len(right),
                                             *map(byref, numbers))
    return refusal, *(number.value for number in numbers)


def refused(number):
    return number, 0, 0, 0


def with_byte(data, at, byte):
    return data[:at] + bytes((byte,)) + data[at + 1 :]


class Cases(Calls):
    def test_different(self):
        for left, right, place, index in DIFFERENT:
            with self.subTest(left=left, right=right):
                wanted = (0, 0, place, index)
                self.assertEqual(answer(bytes_of(left), bytes_of(right)), wanted)
                self.assertEqual(answer(bytes_of(right), bytes_of(left)), wanted)

    def test_same(self):
        for left, right in SAME:
            with self.subTest(left=left, right=right):
                self.assertEqual(answer(bytes_of(left), bytes_of(right)), EQUAL)
                self.assertEqual(answer(bytes_of(right), bytes_of(left)), EQUAL)
        for width in (1, 2, 63, 64):
            self.assertEqual(answer(bytes_of("~a", width), bytes_of("-a - 1", width)), EQUAL)
        data = bytes_of("a ^ 15")
        self.assertEqual(answer(data, data), EQUAL)

    def test_refused(self):
        for left, right, number in REFUSED:
            with self.subTest(left=left, right=right):
                self.assertEqual(answer(bytes_of(left), bytes_of(right)), refused(number))
        self.assertEqual(answer(bytes_of("a", 8), bytes_of("a", 9)), refused(11))
        self.assertEqual(answer(bytes_of("a*b"), b""), refused(8))

    def test_shifts(self):
        """A shift is refused over a variable alone, and by 0 not even there. a & (a >> 1) is 0
        under every assignment of one place, and 1 at 3."""
        self.assertEqual(answer(bytes_of("a & (a >> 1)"), bytes_of("0")), refused(13))
        for count in (1, 7, 8, 63):
            self.assertEqual(answer(bytes_of("a"), bytes_of(f"a >> {count}")), refused(13))
            shifted = bytes_of(f"a & (255 >> {count})")
            self.assertEqual(answer(bytes_of(f"a & {255 >> count}"), shifted), EQUAL)
        self.assertEqual(answer(bytes_of("(a >> 0) ^ (b >> 0)"), bytes_of("a ^ b")), EQUAL)

    def test_five_variables(self):
        names = "abcde"
        every = " ^ ".join(names)
        self.assertEqual(answer(bytes_of(every), bytes_of(every[::-1])), EQUAL)
        for j, name in enumerate(names):
            other = every + f" ^ ({name} & 64)"
            self.assertEqual(answer(bytes_of(every), bytes_of(other)), (0, 0, 6, 1 << j))


class Refusals(Calls):
    """Those of one file, by number, and what the two have together."""

    def files(self):
        good = bytes_of("a ^ 15")
        none = with_byte(good, 4, 0)
        return {
            1: (b"", good[:15], good + b"\0", bytes_of("a") * 1025),
            3: (with_byte(good, 16, 14), with_byte(good, 34, 2), with_byte(good, 38, 1), bytes(32),
                with_byte(none, 16, 14), good[:32]),
            4: (none, bytes_of("a").replace(b"\x08", b"\x41")),
            5: (bytes_of("trunc(4, a)"), bytes_of("a & zext(8, 3)"),
                bytes_of("zext(16, a) + (b >> 64)")),
            6: (bytes_of("a >> 64"), bytes_of("(a >> 64)*b"), bytes_of("0*(a >> 255)")),
            8: (bytes_of("a*b"), bytes_of("a & -b"), bytes_of(f"a*b + {SUM_OF_257}"),
                bytes_of("a & (b + (a >> 1))", 9)),
            9: (bytes_of(SUM_OF_257), bytes_of(f"{SUM_OF_257} + (a >> 1)", 9)),
        }

    def test_left_before_right(self):
        files = {0: (bytes_of("a"), bytes_of("b", 9), bytes_of("a >> 1"), bytes_of(SIX)),
                 **self.files()}
        for (left, firsts), (right, seconds) in itertools.product(files.items(), repeat=2):
            if left or right:
                for first, second in itertools.product(firsts, seconds):
                    self.assertEqual(answer(first, second), refused(left or right),
                                     (first.hex()[:200], second.hex()[:200]))

    def test_pairs(self):
        """11 before 12 before 13, whichever side has six variables or the shift."""
        sums = ((0, "a", "a"), (12, SIX, "a"), (12, "a", SIX), (12, "a + b + c", "d + e + f"))
        shift = " + 0*(a >> 1)"
        shifts = ((0, "", ""), (13, shift, ""), (13, "", shift), (13, shift, shift))
        for (many, *texts), (shifted, *more), width in itertools.product(sums, shifts, (8, 9)):
            left, right = bytes_of(texts[0] + more[0]), bytes_of(texts[1] + more[1], width)
            number = 11 if width == 9 else many or shifted
            with self.subTest(texts=texts, more=more, width=width):
                self.assertEqual(answer(left, right), refused(number) if number else EQUAL)
                for other in (8, 9):
                    for data in self.files()[other]:
                        self.assertEqual(answer(left, data), refused(other))
                        self.assertEqual(answer(data, right), refused(other))

    def test_any_bytes(self):
        """Any bytes: a refusal with zeros, or an answer whose numbers are in their ranges."""
        source = random.Random(1020)
        seen = set()
        for _ in range(4_000):
            sides = [any_file(source) for _ in range(2)]
            refusal, same, place, index = answer(*sides)
            seen.add(refusal or ("equal" if same else "differ"))
            self.assertIn(refusal, (0, 1, 3, 4, 5, 6, 8, 9, 11, 12, 13))
            if refusal or same:
                self.assertEqual((place, index), (0, 0))
                self.assertEqual(same, 0 if refusal else 1)
            else:
                self.assertEqual(same, 0)
                self.assertLess(place, sides[0][4])
                self.assertLess(index, 32)
        self.assertLessEqual({1, 3, 4, 5, 6, 8, 11, 12, 13, "equal", "differ"}, seen)


def any_file(source):
    """The bytes of a text that often is judged; some have a bit changed, are cut or are no text."""
    width = source.choice((8, 8, 8, 8, 9))
    names = source.choice((("a", "b"), ("a", "b"), ("c", "v300", "d"), ("e", "f")))
    text = source.choice((any_text(source, source.randint(0, 3), width, names), "a", "zext(8, a)",
                          "c + d + e + f", f"(a >> {source.choice((1, 70))}) + b"))
    data = bytearray(bytes_of(text, width))
    choice = source.randrange(8)
    if choice == 0:
        data[source.randrange(len(data))] ^= 1 << source.randrange(8)
    if choice == 1:
        data = data[: source.randrange(len(data))] + source.randbytes(source.choice((0, 1, 16)))
    if choice == 2:
        data = bytearray(source.randbytes(source.choice((0, 16, 33, 160))))
    return bytes(data)


class Large(Calls):
    def sums(self, source, width):
        """A sum of 170 weighted masks over two variables, and the same sum place by place; each has
        nearly as many records as a file can hold."""
        terms = [(source.getrandbits(width), source.choice("ab"), source.getrandbits(width))
                 for _ in range(170)]
        first = " + ".join(f"{c}*({name} & {mask})" for c, name, mask in terms)
        second = []
        for name, place in itertools.product("ab", range(width)):
            c = sum(c for c, own, mask in terms if own == name and mask >> place & 1)
            second.append(f"{c % (1 << width)}*({name} & {1 << place})")
        source.shuffle(second)
        return first, " + ".join(second)

    def test_equal(self):
        source = random.Random(1021)
        for width in (1, 8, 64):
            left, right = (bytes_of(text, width) for text in self.sums(source, width))
            self.assertEqual(len(left), 1019 * 16)
            self.assertEqual(answer(left, right), EQUAL)
        self.assertEqual(len(right), 767 * 16)
        masks = " + ".join(f"(a & {i})" for i in range(256))
        self.assertEqual(len(bytes_of(masks)), 1023 * 16)
        again = " + ".join(f"(a & {i})" for i in range(255, -1, -1))
        self.assertEqual(answer(bytes_of(masks, 64), bytes_of(again, 64)), EQUAL)
        self.assertEqual(answer(bytes_of(masks), bytes_of("128*a")), EQUAL)

    def test_one_slip(self):
        """One coefficient is changed at one place."""
        source = random.Random(1022)
        left, right = self.sums(source, 64)
        for place in (0, 31, 62, 63):
            for name, index in (("a", 1), ("b", 2)):
                other = bytes_of(f"{right} + ({name} & {1 << place})", 64)
                self.assertEqual(answer(bytes_of(left, 64), other), (0, 0, place, index))
                again = bytes_of(f"{right} + {1 << 64 - place - 1}*({name} & {1 << place})", 64)
                self.assertEqual(answer(bytes_of(left, 64), again), (0, 0, place, index))

    def test_deep(self):
        """The deepest trees: as many Not, Neg or shifts by 0 as a file can hold."""
        for sign, other in (("~", "-a - 1"), ("-", "-a")):
            deep = bytes_of(sign * 1023 + "a", 64)
            self.assertEqual(len(deep), 16384)
            self.assertEqual(answer(deep, bytes_of(other, 64)), EQUAL)
            self.assertEqual(answer(bytes_of("a", 64), deep)[:2], (0, 0))
        deep = bytes_of("a" + " >> 0" * 1023, 64)
        self.assertEqual(answer(deep, bytes_of("a", 64)), EQUAL)


def weighted(source, names, width):
    """A text that is judged: a sum of weighted atoms without shifts."""
    terms = []
    for _ in range(source.randint(1, 3)):
        weight = source.choice(("", "-", f"{source.getrandbits(width)}*"))
        terms.append(f"{weight}({atom(source, names, width, source.randint(0, 2))})")
    return source.choice((" + ", " - ")).join(terms)


def atom(source, names, width, depth):
    if depth == 0:
        return source.choice((*names, *names, str(source.getrandbits(width))))
    left = atom(source, names, width, depth - 1)
    if source.randrange(4) == 0:
        return f"~({left})"
    right = atom(source, names, width, source.randrange(depth))
    return f"({left}) {source.choice('&|^')} ({right})"


def names_in(*texts):
    return sorted({letter for letter in "".join(texts) if letter.isalpha()})


class Model(Calls):
    def expected(self, left, right, width):
        """By every assignment whether they are equal, and where they are not, by a search for the
        first assignment of one place."""
        first, second = Evaluator(left, width), Evaluator(right, width)
        names = names_in(left, right)

        def same(words):
            assignment = dict(zip(names, words))
            return first.at(assignment) == second.at(assignment)

        if all(map(same, itertools.product(range(1 << width), repeat=len(names)))):
            return EQUAL
        for place, index in itertools.product(range(width), range(1 << len(names))):
            if not same([(index >> j & 1) << place for j in range(len(names))]):
                return 0, 0, place, index
        self.fail(f"{left} and {right} differ, and at no single place")

    def test_every_assignment(self):
        source = random.Random(1023)
        seen = {}
        sorts = ((1, "abcde"), (2, "abc"), (2, "acd"), (3, "ab"), (3, "abc"), (3, "b"))
        for number in range(1_500):
            width, names = source.choice(sorts)
            left = weighted(source, names, width)
            right = weighted(source, names, width)
            if number % 3 == 0:
                right = f"({left}) + {source.choice((0, 1 << width, 1 << width - 1))}*({right})"
            if number % 3 == 1:
                place = source.randrange(width)
                right = f"({left}) + (({atom(source, names, width, 2)}) & {1 << place})"
            wanted = self.expected(left, right, width)
            found = answer(bytes_of(left, width), bytes_of(right, width))
            self.assertEqual(found, wanted, (width, left, right))
            seen[wanted] = seen.get(wanted, 0) + 1
        self.assertGreater(seen[EQUAL], 300)
        self.assertGreater(len(seen), 20)

    def test_rewritten(self):
        """Equal rewritings at 64 bits, and the same with one bit of one variable added."""
        source = random.Random(1024)
        rules = (
            ("({p}) ^ ({q})", "(({p}) | ({q})) - (({p}) & ({q}))"),
            ("({p}) | ({q})", "({p}) + ({q}) - (({p}) & ({q}))"),
            ("({p}) & ({q})", "({p}) + ({q}) - (({p}) | ({q}))"),
            ("~({p})", "-({p}) - 1"),
            ("({p}) & ~({q})", "({p}) - (({p}) & ({q}))"),
        )
        for _ in range(300):
            names = "abcde"[: source.randint(1, 5)]
            left, right = [], []
            for _ in range(source.randint(1, 4)):
                old, new = source.choice(rules)
                p, q = (atom(source, names, 64, source.randint(0, 2)) for _ in range(2))
                c = source.getrandbits(64)
                left.append(f"{c}*({old.format(p=p, q=q)})")
                right.insert(0, f"{c}*({new.format(p=p, q=q)})")
            left, right = " + ".join(left), " + ".join(right)
            self.assertTrue(equal(left, right, 64), (left, right))
            name, place = source.choice(names), source.randrange(64)
            verdict = judge(left, f"{right} + ({name} & {1 << place})", 64)
            index = 1 << sorted({*names_in(left, right), name}).index(name)
            self.assertEqual(verdict[:3], (False, place, index), (left, right))

    def test_shortened(self):
        """What the passes make of an expression is equal to it."""
        source = random.Random(1025)
        shifted = 0
        for _ in range(400):
            width = source.choice((1, 8, 33, 64))
            text = random_text(source, width)
            left, right = bytes_of(text, width), bytes_of(str(shorten(text, width)), width)
            found = answer(left, right)
            shifted += found[0] == 13
            self.assertIn(found, (EQUAL, refused(13)), text)
            self.assertTrue(found == EQUAL or ">>" in text, text)
        self.assertLess(shifted, 150)


class Package(Calls):
    def test_verdict(self):
        found = judge("x | y", "x + y", 8)
        self.assertEqual(found, Verdict(False, 0, 3, {"x": 1, "y": 1}, 1, 2))
        self.assertFalse(found)
        found = judge("flags & 15", "flags & 31", 8)
        self.assertEqual(found, Verdict(False, 4, 1, {"flags": 16}, 0, 16))
        found = judge(bytes_of("v65535 & 2"), bytes_of("v256 & 2"))
        self.assertEqual(found, Verdict(False, 1, 1, {"v256": 2, "v65535": 0}, 0, 2))
        self.assertEqual(judge("3", "4", 8), Verdict(False, 0, 0, {}, 3, 4))
        found = judge("~x", "-x - 1", 64)
        self.assertEqual(found, Verdict(True, 0, 0, {}, None, None))
        self.assertTrue(found)
        for left, right, place, index in DIFFERENT:
            found = judge(left, right, 8)
            self.assertEqual(found[:3], (False, place, index))
            self.assertNotEqual(found.left, found.right)
            self.assertIs(equal(left, right, 8), False)
        for left, right in SAME:
            self.assertIs(equal(left, right, 8), True)

    def test_names(self):
        """A name is the same variable on both sides, and no other one."""
        for left, right, wanted in (
            ("flags", "a", False), ("a", "flags", False), ("flags", "v0", False),
            ("flags", "X1", False), ("flags + a", "a + flags", True),
            ("X1 - X2", "X2 - X1", False), ("X1 + X2", "X2 + X1", True),
            ("X1 + a", "a + X2 + X1 - X2", True), ("X2", "a + X1 + X2 - X1 - a", True),
            ("d", "v3", True), ("flags + b", "b + c - c + flags", True),
        ):
            with self.subTest(left=left, right=right):
                self.assertEqual(equal(left, right, 8), wanted)
        self.assertEqual(judge("flags", "a", 8).variables, {"a": 1, "flags": 0})
        self.assertEqual(judge("v3", "d + 1", 8).variables, {"v3": 0})
        for given, wanted in (("a", True), ("v0", True), ("b", False), ("flags", False)):
            self.assertEqual(equal(bytes_of("a"), given, 8), wanted)
            self.assertEqual(equal(given, bytearray(bytes_of("a")), 8), wanted)

    def refused(self, number, side, left, right, width=8):
        with self.assertRaises(Refused) as caught:
            judge(left, right, width)
        bad = caught.exception
        self.assertEqual((bad.number, bad.side), (number, side))
        self.assertTrue(str(bad).startswith(f"{side}: refusal" if side else "refusal"), bad)

    def test_refused(self):
        self.refused(8, "left", "a*b", "a*b")
        self.refused(8, "right", "a", "a*b")
        self.refused(1, "left", b"", "a*b")
        self.refused(6, "right", "a >> 1", "a >> 64")
        self.refused(9, "right", "a", SUM_OF_257)
        self.refused(3, "right", "flags", bytes(40)[:32])
        self.refused(1, "right", "flags", bytes_of("a")[:15])
        self.refused(11, None, "a", bytes_of("a", 9))
        self.refused(12, None, "a + b + c", "d + e + f")
        self.refused(13, None, "a", "a >> 1")
        self.assertRaises(TypeError, judge, "a", bytes_of("a"))
        self.assertRaises(TypeError, judge, bytes_of("a"), "a")
        self.assertRaises(TypeError, judge, "a", None, 8)
        self.assertRaises(TypeError, judge, "a", shorten("a", 8), 8)
        for left, right, side, at in (("a +", "b +", "left", 3), ("a", "b + c +", "right", 7)):
            with self.assertRaises(BadText) as caught:
                equal(left, right, 8)
            self.assertEqual((caught.exception.side, caught.exception.at), (side, at))

    def test_wrong_answer(self):
        """An assignment that does not tell the two apart is never given as one that does."""
        data = bytes_of("a")
        with self.assertRaises(WrongAnswer):
            told_apart(data, data, {}, Numbers(0, 0, 2, 1))

    def test_numbering(self):
        """Of a single text names have the numbers that they had."""
        self.assertEqual(parse("X1 + a + X2 + c + X1", 8).names, {1: "X1", 3: "X2"})
