"""The command under rules 2: what it prints, wrong usage, and refusals with their places and hints."""

import itertools
import json
import random

from hogzelt import Refused, shorten

from calling import Calls
from ruling import ruled_text
from samples import WORKED, any_text, bytes_of, form_bytes

SUM_OF_257 = " + ".join(f"v{i}" for i in range(257))

# text; by rules 2 the refusal, line, column, part of the message, part of the hint
EXPLAINED = (
    ("~(a*b)", 8, 1, 4, "* has a variable on both sides", ""),
    ("b + 3*~(a*~(b + 1))", 8, 1, 10, "* has a variable on both sides", ""),
    ("a & ~(b + 1)", 8, 1, 3,
     "& works bit by bit, and ~(b + 1) below it is the sum -(b + 1) - 1 under rules 2", ""),
    ("~(a + b) & 15", 8, 1, 10, "~(a + b) below it is the sum -(a + b) - 1 under rules 2", ""),
    ("~(a + b) >> 1", 8, 1, 10, ">> works bit by bit, and ~(a + b) below it is the sum", ""),
    ("a & (c | ~-b)", 8, 1, 8, "| works bit by bit, and ~-b below it is the sum -(-b) - 1", ""),
    ("a & (b + (1 + 2))", 8, 1, 3, "& works bit by bit, and b + 3 below it is a sum", ""),
    ("(b + (1 + 2)) >> 1", 8, 1, 15, ">> works bit by bit, and b + (1 + 2) below it is a sum", ""),
    ("~(c +\n  (a & -b))", 8, 2, 6, "& works bit by bit, and -b below it is a negative", ""),
    ("~(a & (b + 271))", 8, 1, 5, "& works bit by bit, and b + 15 below it is a sum", ""),
    ("(a + b) ^ -1", 8, 1, 9, "a + b below it is a sum", "x ^ 255 is -x - 1 at this width"),
    ("(a + b) & 0x1ff", 8, 1, 9, "a + b below it is a sum", "& 255 keeps every bit at this width"),
    ("~((a<<1)|257)", 8, 1, 9, "| works bit by bit, and a*2 below it", "gives the same value as |"),
    ("~(a + 1)*b", 8, 1, 9, "* has a variable on both sides", ""),
    ("(a & (1 + 2)) + b*a", 8, 1, 18, "* has a variable on both sides", ""),
    ("a & (3 >> 64)", 6, 1, 8, "a shift by 64; the most is 63", "the value is 0"),
    ("~(a + trunc(4, 3))", 5, 1, 7, "trunc is refused", ""),
)


class Command(Calls):
    def test_shorten(self):
        out, err = self.call("shorten", "-w8", "--rules", "2", "~(x + y) + (x ^ -1)")
        self.assertEqual((out.split("\n"), err), ([
            "-2 - 1*y - 2*(x & 127)", "par 2, normalised 2; width 8, rules 2",
            "variables: x is v23, y is v24", ""], ""))
        out, _ = self.call("shorten", "-q", "--rules=2", "-w8", "~(x + y)")
        self.assertEqual(out, "-1 - 1*x - 1*y\n")
        text = "(a & 271) + (a & 15)"
        for words, line in (((), "par 1, normalised 2; width 8"),
                            (("--rules", "1"), "par 1, normalised 2; width 8"),
                            (("--rules", "2"), "par 1, normalised 1; width 8, rules 2")):
            self.assertEqual(self.call("shorten", "-w8", *words, text)[0].split("\n")[:2],
                             ["2*(a & 15)", line])

    def test_steps(self):
        out, _ = self.call("shorten", "-w8", "--steps", "--passes", "refine", "--rules", "2",
                           "~(b + 1) + (a & 271) + (a & -16)")
        self.assertEqual(out.split("\n")[:3], [
            "normalise  par 3, atoms 3     -2 - 1*b + 1*(a & 15) + 1*(a & 240)",
            "refine     par 2, atoms 4     -2 - 1*b + 1*a", "-2 - 1*b + 1*a"])

    def test_tangle(self):
        path = self.path("x", bytes_of("~(a + b)"))
        out, _ = self.call("shorten", "--rules", "2", "-f", path)
        self.assertIn("-1 - 1*a - 1*b\npar 2, normalised 2; width 8, rules 2\n", out)
        self.assertIn("refusal 8", self.call("shorten", "-f", path, status=1)[1])

    def test_others(self):
        """The commands that normalise beside shortening."""
        out, _ = self.call("normalize", "-w8", "--rules", "2", "-o", self.path("s"), "a & 271")
        self.assertIn("a & 271\n", out)
        self.assertIn("sum       1*(a & 15)\n", out)
        self.assertEqual(self.read("s"), form_bytes(8, 0, ["a & 15"], [(0, 1)]))
        out, _ = self.call("draw", "-w8", "--rules", "2", "~(a + 1)")
        self.assertTrue(out.startswith("-2 - 1*a\npar 1, width 8\n"), out)
        out, _ = self.call("columns", "-w8", "--rules", "2", "~(a + (a & -16))")
        self.assertIn("2 atoms, 2 classes", out)
        out, _ = self.call("columns", "-w8", "--rules", "2", "--passes", "refine,compact",
                           "~(0 - (a & 271) - (a & -16))")
        self.assertIn("1 atom, 1 class", out)
        for command in ("shorten", "normalize", "draw", "columns"):
            err = self.call(command, "-w8", "~(a + 1)", status=1)[1]
            self.assertIn("column 1: refusal 8: ", err)
            err = self.call(command, "-w8", "--rules", "2", "a & ~(b + 1)", status=1)[1]
            self.assertIn("column 3: refusal 8: ", err)

    def test_batch(self):
        lines = "# rules\n~(x + y)\n\nx ^ -1\nx & ~(y + 1)\nx +\n~(x*y)\n"
        path = self.path("lines", lines.encode())
        out, err = self.call("shorten", "-w8", "--rules", "2", "-f", path, status=1)
        self.assertEqual(out.split("\n"), [
            "# rules", "-1 - 1*x - 1*y", "", "-1 - 1*x",
            "# line 5, column 3: refusal 8: & works bit by bit, and ~(y + 1) below it is the sum"
            " -(y + 1) - 1 under rules 2",
            '# line 6, column 4: expected a literal, a variable, "~", "-" or "(", found the end of'
            " the text",
            "# line 7, column 4: refusal 8: * has a variable on both sides; one of them must be a"
            " number", ""])
        self.assertEqual(err, f"hogzelt: {path}: 3 of 7 lines are refused\n")
        out, _ = self.call("shorten", "-w8", "-f", path, status=1)
        self.assertEqual(out.split("\n")[1:4], [
            "# line 2, column 1: refusal 8: ~ works bit by bit, and x + y below it is a sum; ~x is"
            " -x - 1, which may stand over arithmetic; --rules 2 reads it so", "",
            "# line 4, column 3: refusal 8: ^ works bit by bit, and -1 below it is a negative;"
            " write 255 for -1, or add --fold"])

    def test_many(self):
        """Several processes give what one gives, line for line what the package gives."""
        source = random.Random(1095)
        texts = [ruled_text(source, 3, 16) for _ in range(1100)]
        path = self.path("many", "\n".join(texts).encode())
        words = ("shorten", "-w16", "--rules", "2", "-f", path)
        out, _ = self.call(*words, "--jobs", "2", status=1)
        self.assertEqual(out, self.call(*words, "--jobs", "1", status=1)[0])
        for text, line in zip(texts, out.splitlines()):
            try:
                self.assertEqual(str(shorten(text, 16, rules=2)), line)
            except Refused as bad:
                self.assertIn(f": refusal {bad.number}: ", line)

    def test_json(self):
        found = json.loads(self.call("shorten", "-w8", "--json", "--rules", "2", "~(a + 1)")[0])
        self.assertEqual(found, {
            "width": 8, "rules": 2, "text": "~(a + 1)", "refusal": None, "sum": "-2 - 1*a",
            "constant": 254, "terms": [{"coefficient": 255, "atom": "a"}],
            "par": {"before": 1, "after": 1}, "plainer": None, "variables": {"a": 0}})
        for words, rules in (((), 1), (("--rules", "1"), 1), (("--rules", "2"), 2)):
            for text in ("a & b", "a*b", "a +"):
                out, _ = self.call("shorten", "-w8", "--json", *words, text, status=None)
                self.assertEqual(json.loads(out)["rules"], rules, text)
            path = self.path("lines", b"a & b\na*b\na +\n")
            out, _ = self.call("shorten", "-w8", "--json", *words, "-f", path, status=1)
            self.assertEqual([json.loads(line)["rules"] for line in out.splitlines()], [rules] * 3)
        path = self.path("s", WORKED[8, "a ^ 15"])
        found = json.loads(self.call("shorten", "--json", "-f", path)[0])
        self.assertEqual((found["rules"], found["text"]), (None, None))

    def test_usage(self):
        commands = ("shorten", "normalize", "draw", "columns")
        for command in commands:
            for word in ("0", "3", "", "two", "1.0", "02", " 2", "-1", "2,1", str(2**64 + 1)):
                out, err = self.call(command, "-w8", "--rules", word, "a", status=2)
                self.assertEqual((out, err), ("", f"hogzelt: the rules are 1 or 2, not {word!r}\n"))
            self.assertIn("--rules needs a value", self.call(command, "a", "--rules", status=2)[1])
        path = self.path("s", WORKED[8, "a ^ 15"])
        for command, rules in itertools.product(commands, "12"):
            out, err = self.call(command, "--rules", rules, "-f", path, status=2)
            self.assertEqual(out, "")
            if command == "normalize":
                self.assertIn("a text or a tangle is needed here, and this is a sheet", err)
            else:
                self.assertEqual(err, f"hogzelt: {path}: a sheet is normalised already; leave"
                                      " --rules out\n")
        for command in ("value", "write", "show", "week"):
            err = self.call(command, "--rules", "2", "a", status=2)[1]
            self.assertIn("no option --rules here", err)

    def test_fold(self):
        """Folding comes first, and both may be given."""
        words = ("shorten", "-q", "-w8", "--rules", "2", "~(x + (1 + 2)) + (x & -2)")
        out, _ = self.call(*words)
        self.assertEqual(out, "-4 - 1*(x & 1)\n")
        self.assertEqual(self.call(*words, "--fold")[0], out)

    def test_explained(self):
        for text, number, line, column, message, hint in EXPLAINED:
            with self.subTest(text=text):
                out, err = self.call("shorten", "-w8", "--rules", "2", text, status=1)
                self.assertEqual(out, "")
                start = f"hogzelt: line {line}, column {column}: refusal {number}: "
                self.assertTrue(err.startswith(start), err)
                self.assertIn(message, err)
                self.assertEqual("hint: " in err, bool(hint), err)
                self.assertIn(hint, err)

    def test_full_table(self):
        text = f"~({SUM_OF_257} + (v0 & v1))"
        err = self.call("shorten", "-w8", "--rules", "2", text, status=1)[1]
        column = text.index("v256") + 1
        self.assertIn(f"column {column}: refusal 9: 258 atoms; a sheet has at most 256", err)
        chains = [" ^ ".join(["a", *(str(i + more) for i in range(1, 56))]) for more in (0, 256)]
        text = "~(({}) + ({}))".format(*chains)
        err = self.call("shorten", "-w8", "--rules", "2", text, status=1)[1]
        self.assertIn("refusal 9: 56 atoms of 3,136 records together", err)

    def test_places(self):
        """By either rules a refusal 8 stands at the operator that its message names."""
        source = random.Random(1096)
        seen = {1: 0, 2: 0}
        for number in range(500):
            make = any_text if number % 2 == 0 else ruled_text
            text = make(source, source.randint(1, 4), 8)
            for rules in (1, 2):
                out, _ = self.call("shorten", "-w8", "--json", f"--rules={rules}", "--", text,
                                   status=None)
                refusal = json.loads(out)["refusal"]
                if refusal:
                    named = refusal["message"].split()[0]
                    at = refusal["column"] - 1
                    self.assertIn(named, ("&", "|", "^", "~", "*", ">>"), text)
                    shown = ("<<", "*") if named == "*" else (named,)
                    self.assertTrue(text.startswith(shown, at), (text, refusal))
                    seen[rules] += 1
        self.assertGreater(min(seen.values()), 50)

    def test_hints(self):
        """Rules 2 are a hint where rules 1 refuse a Not and rules 2 take the whole expression."""
        hint = "~x is -x - 1, which may stand over arithmetic"
        longer = hint + "; --rules 2 reads it so"
        for text, wanted in (
            ("~(x + y)", longer), ("~~(x + 1)", longer), ("3*~(x*2) + y", longer),
            ("y + ~(~x + (x & 271))", longer),
            ("~(x + y) + x*y", hint), ("~(x*y)", hint), ("~(x + y) + (x & ~(y + 1))", hint),
            ("x & ~(y + 1)", ""), ("x*y + ~(x + y)", ""),
            ("~(x & -2)", "write 254 for -2, or add --fold"),
        ):
            with self.subTest(text=text):
                err = self.call("shorten", "-w8", text, status=1)[1]
                self.assertEqual(err.partition("  hint: ")[2], wanted and wanted + "\n")
                found = json.loads(self.call("shorten", "-w8", "--json", text, status=1)[0])
                self.assertEqual(found["refusal"]["hint"], wanted)
                path = self.path("lines", text.encode())
                line = self.call("shorten", "-w8", "-f", path, status=1)[0]
                self.assertTrue(line.endswith(wanted + "\n"), line)
                self.assertEqual("--rules" in line, wanted == longer)
                self.call("shorten", "-w8", "--rules", "2", text, status=None if not wanted
                          else 1 if wanted == hint else 0)
