"""hogzelt shorten: sums of the same value and no higher par, refusals with their places and hints
that are true."""

import json
import random

from hogzelt import Pass, Refused, normalize, parse, run_passes, shorten, value
from hogzelt.atoms import full_table
from hogzelt.fold import fold

from calling import Calls
from samples import WORKED, Evaluator, bytes_of, random_text

NAMES = "abcd"


class Sums(Calls):
    def test_random(self):
        """1,000 texts: the sum that is printed is read again, its value is the text's under 50
        assignments, and its par is not above that of normalising."""
        source = random.Random(130)
        for _ in range(1000):
            width = source.choice((1, 2, 7, 8, 8, 16, 31, 32, 33, 63, 64))
            text = random_text(source, width)
            try:
                before = normalize(text, width).par
            except Refused as bad:
                self.fail(f"{text} at {width}: {bad}")
            sheet = shorten(text, width)
            self.assertLessEqual(sheet.par, before, text)
            self.equal(source, text, str(sheet), width, 50)

    def equal(self, source, text, answer, width, times):
        first, second = Evaluator(text, width), Evaluator(answer, width)
        for i in range(times):
            words = [source.getrandbits(64) if i else 0 for _ in NAMES]
            assignment = dict(zip(NAMES, words))
            expected = first.at(assignment)
            self.assertEqual(second.at(assignment), expected, (text, answer, assignment))
            if i < 3:
                self.assertEqual(value(text, words, width), expected, text)
                self.assertEqual(value(answer, words, width), expected, answer)

    def test_every_list(self):
        """Each list of passes keeps the value; what is printed has no more terms than before."""
        source = random.Random(131)
        for _ in range(200):
            width = source.choice((1, 8, 16, 64))
            text = random_text(source, width)
            passes = [source.choice(list(Pass)) for _ in range(source.randrange(6))]
            names = ",".join(p.name.lower() for p in passes)
            self.equal(source, text, str(run_passes(text, passes, width)), width, 10)
            found = json.loads(
                self.call("shorten", f"-w{width}", "--json", "--passes", names, text)[0])
            self.equal(source, text, found["sum"], width, 10)
            self.assertLessEqual(found["par"]["after"], found["par"]["before"])
            self.assertEqual(len(found["terms"]), found["par"]["after"])

    def test_folded(self):
        """Folding keeps the value."""
        source = random.Random(132)
        for _ in range(300):
            width = source.choice((1, 8, 33, 64))
            text = f"({random_text(source, width)}) + (a & (3 - {source.randrange(9)}*5))"
            out = self.call("shorten", f"-w{width}", "-q", "--fold", text)[0]
            self.equal(source, text, out, width, 10)
            self.assertEqual(value(fold(parse(text, width)).data, [1, 2, 3, 4]),
                             value(text, [1, 2, 3, 4], width))

    def test_known(self):
        """The notation of others: the sum that is known to be shortest."""
        for text, words, shown in (
            ("x ^ 15", (), "15 + 1*x - 2*(x & 15)"),
            ("(x^y)+2*(x&y)", (), "1*(x ^ y) + 2*(x & y)"),
            ("~x+1", (), "-1*x"),
            ("x & -2", ("--fold",), "1*(x & 254)"),
            ("(x & 15) + (x & 240)", (), "1*x"),
            ("16*(a & 255) + (b ^ 15)", (), "15 + 1*b - 2*(b & 15) + 16*(a & 15)"),
            ("X1 | 15", (), "15 + 1*(X1 & 240)"),
            ("flags - flags", (), "0"),
            ("x << 8", (), "0"),
            ("~(x ^ 1)", (), "-1 - 1*(1 ^ x)"),
        ):
            self.assertEqual(self.call("shorten", "-q", "-w8", *words, text)[0], shown + "\n", text)


class Shown(Calls):
    def test_answer(self):
        out, err = self.call("shorten", "-w", "8", "(flags & 15) + (flags & 240) + x")
        self.assertEqual(out.split("\n"), [
            "1*x + 1*flags", "par 2, normalised 3; width 8", "variables: flags is v0, x is v23",
            ""])
        self.assertEqual(err, "")

    def test_plainer(self):
        out, _ = self.call("shorten", "-w8", "(x^y)+2*(x&y)")
        self.assertEqual(out.split("\n"), [
            "1*(x ^ y) + 2*(x & y)", "par 2, normalised 2; width 8",
            "variables: x is v23, y is v24", "by truth tables, proved equal: 1*x + 1*y", ""])

    def test_steps(self):
        out, _ = self.call("shorten", "-w8", "--steps", "--passes", "refine,compact",
                           "(a & 15) + (a & 240)")
        self.assertEqual(out.split("\n"), [
            "normalise  par 2, atoms 2     1*(a & 15) + 1*(a & 240)",
            "refine     par 1, atoms 3     1*a",
            "compact    par 1, atoms 1     1*a",
            "1*a",
            "par 1, normalised 2; width 8",
            "variables: a is v0",
            "",
        ])

    def test_refused_step(self):
        text = " + ".join(f"16*v{i}" for i in range(129))
        out, _ = self.call("shorten", "-w8", "--steps", "--passes", "refine", text)
        self.assertIn("refine     refused by 9; the sheet stays\n", out)
        self.assertIn("par 129, normalised 129", out)

    def test_more_terms_are_not_printed(self):
        """Flattening alone can leave more terms; then the normalised sum is printed."""
        text = "(a & 3) ^ (~a & 12)"
        self.assertGreater(run_passes(text, [Pass.FLATTEN], 8).par, normalize(text, 8).par)
        out, _ = self.call("shorten", "-w8", "--passes", "flatten", text)
        self.assertTrue(out.startswith("1*((a & 3) ^ (~a & 12))\npar 1, normalised 1;"), out)

    def test_tangle_and_sheet(self):
        path = self.path("x", bytes_of("16*(a & 255) + (b ^ 15)"))
        shown = "15 + 1*b - 2*(b & 15) + 16*(a & 15)\n"
        self.assertTrue(self.call("shorten", "-f", path)[0].startswith(shown))
        path = self.path("s", WORKED[8, "16*(a & 255) + (b ^ 15)"])
        out, _ = self.call("shorten", "-f", path)
        self.assertTrue(out.startswith(shown), out)
        self.assertIn("par 3, as given 3; width 8", out)
        path = self.path("p", b"R 8\n")
        self.assertIn("what par printed", self.call("shorten", "-f", path, status=2)[1])

    def test_json(self):
        out, _ = self.call("shorten", "-w8", "--json", "X1 | 15")
        self.assertEqual(json.loads(out), {
            "width": 8, "rules": 1, "text": "X1 | 15", "refusal": None,
            "sum": "15 + 1*(X1 & 240)", "constant": 15,
            "terms": [{"coefficient": 1, "atom": "(X1 & 240)"}],
            "par": {"before": 2, "after": 1}, "plainer": None, "variables": {"X1": 0}})
        out, _ = self.call("shorten", "-w8", "--json", "a +\n b*b", status=1)
        found = json.loads(out)
        self.assertEqual(found["refusal"], {
            "number": 8, "line": 2, "column": 3, "hint": "",
            "message": "* has a variable on both sides; one of them must be a number"})
        self.assertIsNone(found["sum"])

    def test_one_process(self):
        out, err = self.run_tool("shorten", "-q", "-w", "8", "x ^ 15")
        self.assertEqual((out, err), (b"15 + 1*x - 2*(x & 15)\n", ""))


# text, refusal, line, column, part of the message, part of the hint
REFUSED = (
    ("x & -2", 8, 1, 3, "& works bit by bit, and -2 below it is a negative",
     "write 254 for -2, or add --fold"),
    ("x ^ (3 - 4)", 8, 1, 3, "3 - 4 below it is a sum", "write 255 for 3 - 4, or add --fold"),
    ("(x<<1)|1", 8, 1, 7, "| works bit by bit", "+ gives the same value as |"),
    ("(x<<1)|x", 8, 1, 7, "| works bit by bit", ""),
    ("x*y", 8, 1, 2, "a variable on both sides", ""),
    ("a + b*(c ^ 1)*d", 8, 1, 14, "a variable on both sides", ""),
    ("3*x +\n (y & (x + 1))", 8, 2, 5, "& works bit by bit, and x + 1 below it is a sum", ""),
    ("~(x + y)", 8, 1, 1, "~ works bit by bit", "~x is -x - 1"),
    ("(x + y) & 0xff", 8, 1, 9, "& works bit by bit", "& 255 keeps every bit at this width"),
    ("255 ^ (x + y)", 8, 1, 5, "^ works bit by bit", "x ^ 255 is -x - 1 at this width"),
    ("x & ~(y + 1)", 8, 1, 5, "~ works bit by bit", ""),
    ("(x + y) >> 1", 8, 1, 9, ">> works bit by bit", ""),
    ("(x & -2)*y", 8, 1, 9, "a variable on both sides", ""),
    ("0*(x*y) + (x & -y)", 8, 1, 14, "-y below it is a negative", ""),
    ("x ^ (3 & (1 + 2))", 8, 1, 3, "^ works bit by bit, and 3 & (1 + 2) below it has a sum in it",
     "write 3 for 3 & (1 + 2), or add"),
    ("x & ~(1 + 2)", 8, 1, 3, "~(1 + 2) below it has a sum in it", "write 252 for ~(1 + 2), or add"),
    ("y + ~(x | -(3*2) >> 1)", 8, 1, 9, "-(3*2) >> 1 below it has a negative in it",
     "write 125 for -(3*2) >> 1, or add"),
    ("x*y + (x & ~(1 + 2))", 8, 1, 2, "a variable on both sides", ""),
    ("(x & ~(1 + 2)) + x*y", 8, 1, 4, "~(1 + 2) below it has a sum in it", "write 252 for ~(1 + 2)"),
    ("x + (y >> 64)", 6, 1, 8, "a shift by 64; the most is 63", "the value is 0"),
    ("x + trunc(4, y)", 5, 1, 5, "trunc is refused", ""),
)


class Refusals(Calls):
    def test_places_and_hints(self):
        for text, number, line, column, message, hint in REFUSED:
            with self.subTest(text=text):
                out, err = self.call("shorten", "-w8", text, status=1)
                self.assertEqual(out, "")
                start = f"hogzelt: line {line}, column {column}: refusal {number}: "
                self.assertTrue(err.startswith(start), err)
                self.assertIn(message, err)
                self.assertEqual("hint: " in err, bool(hint), err)
                self.assertIn(hint, err)

    def test_literal_hints_are_true(self):
        """With the literal in place of what the hint names, and with --fold, the text is taken."""
        for text, number, *_, hint in REFUSED:
            if hint.startswith("write "):
                value, _, old = hint[6:].split(",")[0].partition(" for ")
                changed = text.replace(old, value).replace(f"({value})", value)
                if "or add" in hint:
                    self.call("shorten", "-w8", changed)
                    self.call("shorten", "-w8", "--fold", text)
                else:
                    self.call("shorten", "-w8", "--fold", text, status=1)

    def test_rewriting_hints_are_true(self):
        source = random.Random(133)
        for old, new in (("(x<<1)|1", "(x<<1)+1"), ("~(x + y)", "-(x + y) - 1"),
                         ("(x + y) & 0xff", "x + y"), ("255 ^ (x + y)", "-(x + y) - 1"),
                         ("((x & 3)*4) ^ (y & 3)", "((x & 3)*4) + (y & 3)")):
            err = self.call("shorten", "-w8", old, status=1)[1]
            self.assertIn("hint: ", err)
            self.call("shorten", "-w8", new)
            for _ in range(50):
                at = {"x": source.getrandbits(8), "y": source.getrandbits(8)}
                self.assertEqual(Evaluator(old, 8).at(at), Evaluator(new, 8).at(at))

    def test_full_table(self):
        names = [f"v{i}" for i in range(256)]
        text = " + ".join([*names, "(v0 & v1)", "(v0 | v1)"])
        err = self.call("shorten", "-w8", text, status=1)[1]
        column = text.index("v0 & v1") + 4
        self.assertIn(f"column {column}: refusal 9: 258 atoms; a sheet has at most 256", err)
        self.call("shorten", "-w8", " + ".join(names))
        chain = "a" + "".join(f" ^ {i}" for i in range(1, 56))
        err = self.call("shorten", "-w8", chain, status=1)[1]
        self.assertIn("56 atoms of 3,136 records together", err)
        self.call("shorten", "-w8", chain.rpartition(" ^ ")[0])

    def test_counted_atoms(self):
        """The atoms that refusal 9 counts are those that normalising makes."""
        source = random.Random(135)
        for _ in range(500):
            width = source.choice((1, 2, 8, 64))
            text = random_text(source, width)
            table = full_table(parse(text, width).expression.records, width)
            atoms = normalize(text, width).form.atoms
            self.assertEqual((table.atoms, table.tree_records),
                             (len(atoms), sum(len(atom.records) for atom in atoms)), text)

    def test_any_text(self):
        """Any text gives a sum, or is refused with a place in it."""
        source = random.Random(134)
        pieces = "a x 3 0xf ( ) ( ) ~ - * + >>1 << & ^ | flags 15u ** && < zext(4, -2 /".split()
        for _ in range(1500):
            text = " ".join(source.choice(pieces) for _ in range(source.randint(2, 9)))
            out, _ = self.call("shorten", "-w8", "--json", "--", text, status=None)
            found = json.loads(out)
            if found["refusal"]:
                self.assertTrue(1 <= found["refusal"]["column"] <= len(text) + 1, text)
                self.assertTrue(found["refusal"]["message"], text)
            else:
                assignment = {name: source.getrandbits(8) for name in ("a", "x", "flags")}
                plain = text.replace("15u", "15")
                self.assertEqual(Evaluator(found["sum"], 8).at(assignment),
                                 Evaluator(plain, 8).at(assignment), text)
