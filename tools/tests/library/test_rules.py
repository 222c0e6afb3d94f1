"""Normalising by rules 1 and 2: the cases of the request, every refusal and their order, rules 2
beside a model that rewrites the tree, values and passes."""

import itertools
import random
from ctypes import byref, c_uint8, c_uint64
from typing import NamedTuple

from hogzelt import Pass, Refused, normalize, parse, run_passes, shorten, value
from hogzelt.atoms import full_table
from hogzelt.calls import engine
from hogzelt.records import FORM_BYTES, Expression, expression_bytes
from hogzelt.rules import with_literals

from calling import Calls
from ruling import literals_first, records_of, rewritten, ruled_text, tree_of
from samples import WORKED, Evaluator, any_text, bytes_of, form_bytes, random_records

# text at 8 bits; by rules 1 and by rules 2 the constant and each coefficient with its atom, or the
# refusal
CASES = (
    ("a ^ (-1)", 8, (255, (1, "a"), (254, "a & 255"))),
    ("~(a + b)", 8, (255, (255, "a"), (255, "b"))),
    ("~a", (0, (1, "~a")), (0, (1, "~a"))),
    ("~(~a + b)", 8, (255, (255, "~a"), (255, "b"))),
    ("~(3*a)", 8, (255, (253, "a"))),
    ("~~(a + 1)", 8, (1, (1, "a"))),
    ("~((1 + 2) & a)", 8, (0, (1, "~(3 & a)"))),
    ("a ^ (3 & (1 + 2))", 8, (3, (1, "a"), (254, "a & 3"))),
    ("~(0*(a*b))", 8, (255,)),
    ("a & 271", (0, (1, "a & 271")), (0, (1, "a & 15"))),
    ("(a & 271) + (a & 15)", (0, (1, "a & 271"), (1, "a & 15")), (0, (2, "a & 15"))),
    ("a & ~(b + 1)", 8, 8),
    ("~(a*b)", 8, 8),
    ("~(a + b) & 15", 8, 8),
    ("~(a + b) >> 1", 8, 8),
    ("(a + b) ^ 255", 8, 8),
    ("a*b", 8, 8),
    ("~-a", 8, (255, (1, "a"))),
    ("-~a", (0, (255, "~a")), (0, (255, "~a"))),
    ("2*~(a + b)", 8, (254, (254, "a"), (254, "b"))),
    ("~(a ^ (b & (1 + 2)))", 8, (0, (1, "~(a ^ (b & 3))"))),
    ("a & (271 & ~3)", (0, (1, "a & (271 & ~3)")), (0, (1, "a & 12"))),
    ("~(a >> 1)", (0, (1, "~(a >> 1)")), (0, (1, "~(a >> 1)"))),
    ("~(a & 271)", (0, (1, "~(a & 271)")), (0, (1, "~(a & 15)"))),
    ("271*a", (0, (15, "a")), (0, (15, "a"))),
    ("3 & (1 + 2)", (3,), (3,)),
)
NO_RULES = (0, 3, 257, 2**32 + 1, 2**32 + 2, 2**63, 2**64 - 1)
LENGTHS = (0, 16, FORM_BYTES - 1, FORM_BYTES, FORM_BYTES + 1)
GARBAGE, UNWRITTEN, BEHIND = b"\xa5", 0xBAD0BAD0, 16
SUM_OF_257 = " + ".join(f"v{i}" for i in range(257))


class Answer(NamedTuple):
    """What a call gives; `whole` says that behind the form there are zeros, up to the end of the
    slice and no further."""

    refusal: int
    form: bytes
    used: int
    terms: int
    whole: bool = True

    def __str__(self):
        more = "" if self.whole else ", not whole"
        return (f"refusal {self.refusal}, {self.terms} terms, {self.used} bytes{more}:"
                f" {self.form[:320].hex()}")


def answer(rules, data, length=FORM_BYTES):
    """With garbage in all that is written, and behind the slice. Rules None are the function that
    takes none."""
    out = (c_uint8 * (length + BEHIND)).from_buffer_copy(GARBAGE * (length + BEHIND))
    used, terms = c_uint64(UNWRITTEN), c_uint64(UNWRITTEN)
    library, words = engine().library, (data, len(data), out, length, byref(used), byref(terms))
    if rules is None:
        refusal = library.hogzelt_normalize_to_semilinear(*words)
    else:
        refusal = library.hogzelt_normalize_by_rules(rules, *words)
    written = bytes(out)
    form = written[: min(used.value, length)]
    whole = written == form.ljust(length, b"\0") + GARBAGE * BEHIND
    return Answer(refusal, form, used.value, terms.value, whole)


def refused(number):
    return Answer(number, b"", 0, 0)


def accepted(sheet, terms):
    return Answer(0, sheet, len(sheet), terms)


def expected(case):
    if isinstance(case, int):
        return refused(case)
    constant, *terms = case
    atoms = [atom for _, atom in terms]
    coefficients = list(enumerate(c for c, _ in terms))
    return accepted(form_bytes(8, constant, atoms, coefficients), len(terms))


class Answers(Calls):
    def same(self, found, wanted, said=""):
        """Long forms are not compared line by line."""
        if found != wanted:
            self.fail(f"{said}: {found}; expected: {wanted}")


class Cases(Answers):
    def test_request(self):
        for text, one, two in CASES:
            with self.subTest(text=text):
                data = bytes_of(text)
                self.same(answer(None, data), expected(one))
                self.same(answer(1, data), expected(one))
                self.same(answer(2, data), expected(two))
                for rules, case in ((1, one), (2, two)):
                    if isinstance(case, int):
                        self.refuses(case, normalize, text, 8, rules)
                    else:
                        found = normalize(text, 8, rules=rules)
                        self.same(accepted(*found), expected(case))
                        self.same(run_passes(text, (), 8, rules), found)

    def refuses(self, number, call, *words, **named):
        with self.assertRaises(Refused) as caught:
            call(*words, **named)
        self.assertEqual(caught.exception.number, number, words)

    def test_worked_examples(self):
        """Document 01's examples are those of rules 1."""
        for (width, text), wanted in WORKED.items():
            found = answer(1, bytes_of(text, width))
            if isinstance(wanted, int):
                self.same(found, refused(wanted), text)
            else:
                self.assertEqual((found.refusal, found.form), (0, wanted), text)

    def test_longest_chains(self):
        """Nots over a Neg, as many as a file can hold: rewritten, they would be 3,068 records."""
        for width in (1, 8, 64):
            most = (1 << width) - 1
            even, odd = bytes_of("~" * 1022 + "-a", width), bytes_of("~" * 1021 + "-a", width)
            self.assertEqual(len(even), 16384)
            self.same(answer(2, even), accepted(form_bytes(width, 0, ["a"], [(0, most)]), 1))
            self.same(answer(2, odd), accepted(form_bytes(width, most, ["a"], [(0, 1)]), 1))
            for data in (even, odd):
                self.same(answer(1, data), refused(8))
        deep = bytes_of("~" * 1023 + "a")
        self.same(answer(2, deep), accepted(form_bytes(8, 0, ["~" * 1023 + "a"], [(0, 1)]), 1))
        self.same(answer(1, deep), answer(2, deep))
        sums = "~(" * 340 + "a" + " + 1)" * 340
        self.assertEqual(str(normalize(sums, 16, rules=2)), "1*a")

    def test_shared_atoms(self):
        """Masks that are the same at w bits are one atom by rules 2."""
        masks = " + ".join(f"(a & {15 + 256 * k})" for k in range(256))
        self.assertEqual(len(bytes_of(masks)), 1023 * 16)
        one, two = normalize(masks, 9), normalize(masks, 9, rules=2)
        self.assertEqual((one.par, len(one.form.atoms)), (256, 256))
        self.assertEqual(str(two), "128*(a & 15) + 128*(a & 271)")
        self.same(answer(2, bytes_of(masks)), accepted(form_bytes(8, 0, ["a & 15"], []), 0))

    def test_full_table(self):
        """Refusal 9 counts the atoms of the expression as it is rewritten."""
        chains = [" ^ ".join(["a", *(str(i + more) for i in range(1, 41))]) for more in (0, 256)]
        twice = bytes_of(" + ".join(f"({chain})" for chain in chains))
        self.same(answer(1, twice), refused(9))
        found, alone = answer(2, twice), answer(2, bytes_of(chains[0]))
        self.assertEqual((found.refusal, found.used, found.terms), (0, alone.used, alone.terms))
        self.same(answer(1, bytes_of(f"~({SUM_OF_257})")), refused(8))
        self.same(answer(2, bytes_of(f"~({SUM_OF_257})")), refused(9))


class Refusals(Answers):
    """Every refusal beside every length of the result slice, in the order of include/hogzelt.h."""

    def files(self):
        """Files with the lowest refusal of each: of two that apply it is the first."""
        good = bytes_of("a ^ 15")
        with_byte = lambda data, at, byte: data[:at] + bytes((byte,)) + data[at + 1 :]
        wide, none = bytes_of("a", 8).replace(b"\x08", b"\x41"), with_byte(good, 4, 0)
        both = bytes_of("zext(16, a) + (b >> 64)")
        return (
            (0, good), (0, bytes_of("~a")), (0, bytes_of("~" * 1022 + "a")),
            (1, b""), (1, good[:15]), (1, good + b"\0"), (1, bytes_of("a") * 1025),
            (3, with_byte(good, 16, 14)), (3, with_byte(good, 34, 2)), (3, with_byte(good, 38, 1)),
            (3, with_byte(none, 16, 14)), (3, bytes(16384)), (3, with_byte(both, 5, 0)[16:]),
            (4, wide), (4, none), (4, with_byte(both, 4, 0)),
            (5, bytes_of("trunc(4, a)")), (5, both), (5, bytes_of("a & zext(8, 3)")),
            (6, bytes_of("a >> 64")), (6, bytes_of("(a >> 64)*b")), (6, bytes_of("a & (3 >> 64)")),
            (6, bytes_of("0*(a >> 255)")),
            (8, bytes_of("a*b")), (8, bytes_of(f"a*b + {SUM_OF_257}")), (8, bytes_of("a & -b")),
            (9, bytes_of(SUM_OF_257)),
        )

    def test_order(self):
        for number, data in self.files():
            for length in LENGTHS:
                first = number if number == 1 else number if length == FORM_BYTES else 2
                for rules in (1, 2):
                    with self.subTest(number=number, length=length, rules=rules):
                        found = answer(rules, data, length)
                        if first:
                            self.same(found, refused(first))
                        self.same(found, answer(None, data, length))

    def test_no_rules(self):
        for rules, (_, data) in itertools.product(NO_RULES, self.files()):
            for length in LENGTHS:
                self.same(answer(rules, data, length), refused(18), (rules, length))

    def test_package(self):
        """Numbers that no word holds are refused too, and what is no number is no refusal."""
        calls = (
            lambda data, rules: normalize(data, None, rules),
            lambda data, rules: run_passes(data, [Pass.REFINE], rules=rules),
            lambda data, rules: shorten(data, rules=rules),
        )
        more = (2**64, 2**64 + 1, 2**64 + 2, 2**128 + 1, -1, -2, 1 - 2**64, 2 - 2**64)
        for call, (_, data) in itertools.product(calls, self.files()):
            for rules in (*NO_RULES, *more):
                with self.assertRaises(Refused) as caught:
                    call(data, rules)
                self.assertEqual(caught.exception.number, 18, rules)
                self.assertEqual(str(caught.exception), "refusal 18: rules other than 1 and 2")
        for call in calls:
            for rules in (True, False, 1.0, 2.0, "1", b"2", None, (1,)):
                with self.assertRaises(TypeError, msg=repr(rules)):
                    call(bytes_of("a"), rules)

    def test_lists(self):
        """A list under rules 2 has the refusals of one under rules 1, and their order."""
        def number(rules, data, passes):
            try:
                run_passes(data, passes, rules=rules)
            except Refused as bad:
                return bad.number
            return 0

        for (_, data), passes in itertools.product(self.files(), ([], [1], [6], [1, 0, 5], [255])):
            self.assertEqual(number(2, data, passes), number(1, data, passes), passes)
            self.assertEqual(number(3, data, passes), 18)
        self.assertEqual(number(2, bytes_of("a*b"), [6]), 32)


class Model(Answers):
    def compare(self, data, width):
        """Rules 2 beside rules 1 on the rewritten tree; the refusal."""
        changed = rewritten(data, width)
        found = answer(2, data)
        if changed is not None:
            self.same(found, answer(None, changed), data.hex())
        self.same(answer(1, data), answer(None, data), data.hex())
        return found.refusal

    def test_texts(self):
        source = random.Random(1090)
        seen = {0: 0, 8: 0}
        other = 0
        for number in range(2000):
            width = source.choice((1, 2, 3, 8, 8, 31, 63, 64))
            make = any_text if number % 2 == 0 else ruled_text
            data = bytes_of(make(source, source.randint(1, 5), width, ("a", "b", "v300")), width)
            refusal = self.compare(data, width)
            seen[refusal] += 1
            other += answer(1, data) != answer(2, data)
        self.assertGreater(min(*seen.values(), other), 300)

    def test_files(self):
        """Records of any kind: refusals 5 and 6 are those of the file as it is given."""
        source = random.Random(1091)
        seen = set()
        for _ in range(600):
            width = source.choice((1, 7, 8, 64))
            data = expression_bytes(Expression(width, random_records(source, width, 12)))
            one, two = answer(1, data), answer(2, data)
            seen.add(two.refusal)
            self.same(one, answer(None, data), data.hex())
            if {one.refusal, two.refusal} & {5, 6}:
                self.same(one, two, data.hex())
            else:
                self.compare(data, width)
        self.assertLessEqual({0, 5, 6, 8}, seen)

    def test_values(self):
        """Under every assignment the sheet of rules 2 has the value of the expression, and so has
        what passes make of it."""
        source = random.Random(1092)
        taken = ruled = 0
        for _ in range(220):
            width, names = source.choice(((1, "abc"), (2, "abc"), (2, "ab"), (3, "ab"), (3, "a")))
            text = ruled_text(source, source.randint(1, 4), width, tuple(names))
            passes = source.choices(list(Pass), k=source.randint(0, 5))
            try:
                sheet = normalize(text, width, rules=2)
            except Refused as bad:
                self.assertEqual(bad.number, 8, text)
                continue
            after = run_passes(text, passes, width, rules=2)
            short = shorten(text, width, rules=2)
            self.assertLessEqual(short.par, sheet.par, text)
            changed = rewritten(bytes_of(text, width), width)
            self.same(after, run_passes(changed, passes), (text, passes))
            self.same(short, shorten(changed), text)
            direct = Evaluator(text, width)
            for words in itertools.product(range(1 << width), repeat=len(names)):
                wanted = direct.at(dict(zip(names, words)))
                for found in {sheet.data, after.data, short.data}:
                    self.assertEqual(value(found, words), wanted, (text, words))
            taken += 1
            ruled += answer(1, bytes_of(text, width)).refusal == 8
        self.assertGreater(min(taken - ruled, ruled), 40)

    def test_refused_pass(self):
        """A pass that is refused leaves the sheet."""
        text = " + ".join(f"16*v{i}" for i in range(129)) + " + ~(v0 + 1)"
        sheet = normalize(text, 8, rules=2)
        self.same(run_passes(text, [Pass.REFINE, Pass.COMPACT], 8, rules=2), sheet)
        self.same(shorten(text, 8, [Pass.REFINE], rules=2), sheet)

    def test_more_terms(self):
        """Where passes leave more terms, shortening gives the normalised sheet."""
        text = "~((a & 3) ^ (~a & 12)) + ~(b + 1)"
        sheet = normalize(text, 8, rules=2)
        self.assertGreater(run_passes(text, [Pass.FLATTEN], 8, rules=2).par, sheet.par)
        self.same(shorten(text, 8, [Pass.FLATTEN], rules=2), sheet)

    def test_literals(self):
        """What messages are about is the expression with its literals cut."""
        source = random.Random(1093)
        for _ in range(400):
            width = source.choice((1, 8, 64))
            parsed = parse(ruled_text(source, source.randint(1, 5), width), width)
            tree = literals_first(tree_of(parsed.expression.records), width)
            found = with_literals(parsed)
            self.assertEqual(found.expression.records, records_of(tree), parsed.text)
            self.assertEqual(len(found.records), len(found.places))

    def test_counted_atoms(self):
        """The atoms that a message on refusal 9 counts are those that rules 2 make."""
        source = random.Random(1094)
        counted = 0
        for _ in range(500):
            width = source.choice((1, 2, 8, 64))
            text = ruled_text(source, source.randint(1, 5), width, ("a", "b", "c"))
            try:
                atoms = normalize(text, width, rules=2).form.atoms
            except Refused:
                continue
            table = full_table(with_literals(parse(text, width)).expression.records, width)
            self.assertEqual((table.atoms, table.tree_records),
                             (len(atoms), sum(len(atom.records) for atom in atoms)), text)
            counted += 1
        self.assertGreater(counted, 200)
