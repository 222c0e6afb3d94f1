"""hogzelt judge as a user calls it: statuses, what is printed, pairs in a file, refusals with their
places; and what hogzelt shorten says of a plainer sum."""

import json
import os
import random
import subprocess
import sys
from unittest import mock

from hogzelt import equal, shorten, tables, verdict
from hogzelt.parser import parse
from hogzelt.tables import judged_plainer
from hogzelt.verdict import Numbers

from calling import Calls
from samples import COMMAND, ROOT, WORKED, bytes_of, random_text

PROVED = "equal for every assignment, proved\n"
KEYS = ["width", "text", "refusal", "equal", "proved", "place", "index", "variables", "left",
        "right"]

# left, right; the refusal, its side, column, part of the message, the hint
EXPLAINED = (
    ("x & -2", "x", 8, "left", 3, "& works bit by bit, and -2 below it is a negative",
     "write 254 for -2, or add --fold"),
    ("x", "y + x*y", 8, "right", 6, "* has a variable on both sides", ""),
    ("~(x + y)", "x", 8, "left", 1, "~ works bit by bit, and x + y below it is a sum",
     "~x is -x - 1, which may stand over arithmetic"),
    ("x", "x >> 64", 6, "right", 3, "a shift by 64; the most is 63", "at width 8 the value is 0"),
    ("trunc(4, x)", "x*y", 5, "left", 1, "trunc is refused", ""),
    ("a + b + c", "c + d + e + f + g", 12, "right", 13, "7 variables in the two together; the judge"
     " takes at most 5", ""),
    ("a + b + c + d + e + 0*flags", "a", 12, "left", 23, "6 variables in the two together", ""),
    ("x", "y + 0*(3 & (x >> 2))", 13, "right", 15, ">> 2 has a variable below it", ""),
    ("(x >> 0) + (3 >> 1) + (x >> 1)", "x >> 2", 13, "left", 26, ">> 1 has a variable below it",
     ""),
    ("x +", "x*y", 0, "left", 4, "found the end of the text", ""),
    ("x*y", "x and y", 0, "right", 3, "expected an operator", "and is written &"),
)

LINES = b"""# three that are judged, and five that are not
x + y == (x ^ y) + 2*(x & y)

x | y\tx + y
  flags&15==flags & 31
x & -2 == x
x == y +
x + y
x = y
a >> 1 == a
"""
ANSWERS = """\
# three that are judged, and five that are not
equal for every assignment, proved

differ at x = 1, y = 1: left 1, right 2
differ at flags = 16: left 0, right 16
# line 6, column 3: refusal 8: & works bit by bit, and -2 below it is a negative; write 254 for \
-2, or add --fold
# line 7, column 9: expected a literal, a variable, "~", "-" or "(", found the end of the text
# line 8, column 6: expected two texts with "==" or a tab between them
# line 9, column 3: expected two texts with "==" or a tab between them; the two are compared by ==
# line 10, column 3: refusal 13: >> 1 has a variable below it; the judge takes a shift of numbers \
alone
"""


class Pairs(Calls):
    def test_statuses(self):
        """Those of cmp; -q prints nothing."""
        for words, status, shown in (
            (("x + y", "(x ^ y) + 2*(x & y)"), 0, PROVED),
            (("x + y == (x ^ y) + 2*(x & y)",), 0, PROVED),
            (("x+y\t(x ^ y) + 2*(x & y)",), 0, PROVED),
            (("3", "2 + 1"), 0, PROVED),
            (("x | y", "x + y"), 1, "differ at x = 1, y = 1: left 1, right 2\n"
             "left   1  0x01  00000001  signed 1\nright  2  0x02  00000010  signed 2\n"),
            (("flags & 15 == flags & 159",), 1, "differ at flags = 16: left 0, right 16\n"
             "left    0  0x00  00000000  signed 0\nright  16  0x10  00010000  signed 16\n"),
            (("3", "-4"), 1, "differ: left 3, right 252\n"
             "left     3  0x03  00000011  signed 3\nright  252  0xfc  11111100  signed -4\n"),
            (("x", "x + 1"), 1, "differ at x = 0: left 0, right 1\n"
             "left   0  0x00  00000000  signed 0\nright  1  0x01  00000001  signed 1\n"),
        ):
            with self.subTest(words=words):
                self.assertEqual(self.call("judge", "-w8", *words, status=status), (shown, ""))
                self.assertEqual(self.call("judge", "-q", "-w8", *words, status=status), ("", ""))
        out, err = self.call("judge", "-q", "-w8", "x*y", "x", status=2)
        self.assertEqual(out, "")
        self.assertIn("refusal 8", err)

    def test_wide(self):
        """Numbers above 65535 are shown as masks."""
        out, _ = self.call("judge", "-w", "64", "a", "a & 0xfeffffffffffffff", status=1)
        self.assertEqual(out.split("\n")[0], "differ at a = 0x0100000000000000:"
                         " left 0x0100000000000000, right 0")

    def test_one_process(self):
        self.assertEqual(self.run_tool("judge", "-w8", "~x == -x - 1"), (PROVED.encode(), ""))
        self.assertEqual(self.run_tool("judge", "-q", "-w8", "x", "y", status=1), (b"", ""))
        out, err = self.run_tool("judge", "-w8", "x*y", "x", status=2)
        self.assertEqual(out, b"")
        self.assertTrue(err.startswith("hogzelt: left: line 1, column 2: refusal 8: "), err)
        self.run_tool("judge", "-w8", "x", "x", status=2, HOGZELT_SO=self.path("none.so"))

    def test_closed_pipe(self):
        """Where nobody reads, the status is not that of equal."""
        read, write = os.pipe()
        os.close(read)
        words = ("judge", "-w8", "-f", self.path("pairs", b"x == x\n" * 3))
        done = subprocess.run([sys.executable, "-B", COMMAND, *words], stdout=write,
                              stderr=subprocess.PIPE)
        os.close(write)
        self.assertEqual((done.returncode, done.stderr), (2, b""))

    def test_explained(self):
        for left, right, number, side, column, message, hint in EXPLAINED:
            with self.subTest(left=left, right=right):
                out, err = self.call("judge", "-w8", left, right, status=2)
                self.assertEqual(out, "")
                start = f"hogzelt: {side}: line 1, column {column}: "
                self.assertTrue(err.startswith(start), err)
                self.assertIn(f"refusal {number}: {message}" if number else message, err)
                self.assertEqual(err.partition("  hint: ")[2], hint and hint + "\n")
                shown = left if side == "left" else right
                self.assertIn(f"\n  {shown}\n  {' ' * (column - 1)}^\n", err)
                out, err = self.call("judge", "-w8", "--json", left, right, status=2)
                found = json.loads(out)
                self.assertEqual((list(found), err), (KEYS, ""))
                refusal = found["refusal"]
                self.assertIn(message, refusal.pop("message"))
                self.assertEqual(refusal, {"number": number, "side": side, "line": 1,
                                           "column": column, "hint": hint})
                self.assertEqual((found["text"], found["equal"], found["proved"]),
                                 (shown, None, False))

    def test_explained_in_one_text(self):
        """Both in one text: places are those of the whole."""
        for left, right, number, side, column, message, hint in EXPLAINED:
            text = f"{left} == {right}"
            shift = 0 if side == "left" else len(left) + 4
            _, err = self.call("judge", "-w8", text, status=2)
            self.assertTrue(err.startswith(f"hogzelt: {side}: line 1, column {column + shift}: "),
                            err)
            self.assertIn(f"\n  {text}\n  {' ' * (column + shift - 1)}^\n", err)
        _, err = self.call("judge", "-w8", "x +\n y == x\n + y*z", status=2)
        self.assertTrue(err.startswith("hogzelt: right: line 3, column 5: refusal 8: "), err)
        _, err = self.call("judge", "-w8", "x ==", status=2)
        self.assertIn("right: line 1, column 5: ", err)
        _, err = self.call("judge", "-w8", "x == y == x", status=2)
        self.assertIn('column 8: expected an operator (* + - << >> & ^ |) or the end of the text,'
                      ' found "=="', err)

    def test_hints_are_true(self):
        """With --fold the pair is judged; no hint names rules, which the judge does not take."""
        out, _ = self.call("judge", "-w8", "--fold", "x & -2", "x & ~(4 - 3)")
        self.assertEqual(out, PROVED)
        _, err = self.call("judge", "-w8", "~(x + y)", "x", status=2)
        self.assertNotIn("--rules", err)
        self.assertEqual(self.call("judge", "-w8", "-(x + y) - 1", "-1 - x - y")[0], PROVED)

    def test_json(self):
        out, _ = self.call("judge", "-w8", "--json", "flags & 15", "flags & 31", status=1)
        self.assertEqual(json.loads(out), {
            "width": 8, "text": "flags & 15 == flags & 31", "refusal": None, "equal": False,
            "proved": True, "place": 4, "index": 1, "variables": {"flags": 16}, "left": 0,
            "right": 16})
        out, _ = self.call("judge", "-w8", "--json", " ~x ==  -x - 1 ")
        self.assertEqual(json.loads(out), {
            "width": 8, "text": "~x == -x - 1", "refusal": None, "equal": True, "proved": True,
            "place": 0, "index": 0, "variables": None, "left": None, "right": None})
        self.assertEqual(list(json.loads(out)), KEYS)
        out, err = self.call("judge", "-w8", "--json", "x", status=2)
        self.assertEqual(json.loads(out)["refusal"]["side"], None)
        self.assertEqual(self.call("judge", "-q", "-w8", "--json", "x", "y", status=1), ("", ""))

    def test_files(self):
        """Texts and tangles by --left and --right, one of them from standard input."""
        tangle = self.path("t", bytes_of("a ^ 15"))
        text = self.path("p.txt", b"\xef\xbb\xbfa + 15\r\n - 2*(a & 15)\n")
        for words in (("--left", tangle, "--right", text), ("--right", tangle, "--left", text),
                      ("--left", tangle, "15 ^ a"), ("--right", tangle, "15 ^ a"),
                      ("-w8", f"--left={tangle}", f"--right={tangle}")):
            self.assertEqual(self.call("judge", *words)[0], PROVED, words)
        out, _ = self.run_tool("judge", "--left", tangle, "-", data=bytes_of("a | 15"), status=1)
        self.assertEqual(out.split(b"\n")[0], b"differ at a = 1: left 14, right 15")
        self.run_tool("judge", "--right", "-", "a", data=bytes_of("a"))
        out, _ = self.call("judge", "--left", tangle, "flags ^ 15", status=1)
        self.assertTrue(out.startswith("differ at a = 1, flags = 0: left 14, right 15\n"), out)
        _, err = self.call("judge", "--left", self.path("m", bytes_of("a*b")), "a", status=2)
        self.assertIn(f"hogzelt: left, {self.path('m')}: line 1, column 2: refusal 8: ", err)

    def test_widths(self):
        nine = self.path("nine", bytes_of("a", 9))
        words = ("judge", "--left", nine, "--right", self.path("eight", bytes_of("a ^ 15")))
        out, err = self.call(*words, status=2)
        self.assertEqual((out, err), ("", "hogzelt: refusal 11: the left has width 9, the right 8;"
                                          " the judge takes one width\n"))
        found = json.loads(self.call(*words, "--json", status=2)[0])
        self.assertEqual((list(found), found["text"]), (KEYS, "a == a ^ 15"))
        self.assertEqual([found["refusal"][key] for key in ("number", "side", "line", "column")],
                         [11, None, None, None])
        self.assertIn("its width is 9; leave -w out",
                      self.call("judge", "-w8", "--left", nine, "a", status=2)[1])

    def test_usage(self):
        sheet = self.path("s", WORKED[8, "a ^ 15"])
        tangle = self.path("t", bytes_of("a"))
        for words, part in (
            ((), "two texts, each in quotes"),
            (("a", "b", "c"), "two texts, each in quotes"),
            (("--left", tangle), "two texts, each in quotes"),
            (("--left", tangle, "a", "b"), "two texts, each in quotes"),
            (("--left", tangle, "--right", tangle, "a"), "two texts, each in quotes"),
            (("-w8", "-", "-"), "standard input can be one of the two, not both"),
            (("-w8", "--left", "-", "-"), "standard input can be one of the two, not both"),
            (("-w8", "-f", tangle, "a"), "two texts or -f FILE, not both"),
            (("-w8", "-f", tangle, "--left", tangle), "two texts or -f FILE, not both"),
            (("-w8", "-f", tangle), "a text with a pair a line is needed here"),
            (("--left", sheet, "a"), "a text or a tangle is needed here, and this is a sheet"),
            (("--left", self.path("p", b"R 8\n"), "a"), "this is what par printed"),
            (("a", "b"), "the width is missing: -w and a number from 1 to 64"),
            (("a == b",), "the width is missing"),
            (("-f", self.path("lines", b"a == a\n")), "the width is missing"),
            (("-w8", "--left", self.path("none"), "a"), "No such file"),
            (("-w8", "--left", self.path("cut", bytes_of("a")[:15]), "a"), "15 bytes, not a"),
            (("-w8", "--rules", "2", "a", "b"), "no option --rules here"),
            (("-w8", "--jobs", "0", "-f", self.path("lines")), "--jobs takes a number"),
            ((tangle, "a"), f"there is a file {tangle}: --left {tangle} reads it"),
            (("-w8", "a", tangle), f"there is a file {tangle}: --right {tangle} reads it"),
        ):
            with self.subTest(words=words):
                out, err = self.call("judge", *words, status=2)
                self.assertEqual(out, "")
                self.assertIn(part, err)

    def test_wrong_answer(self):
        """Of an assignment that does not tell the two apart nothing is printed but that."""
        with mock.patch.object(verdict, "call_judge", return_value=Numbers(0, 0, 2, 1)):
            for words in (("x", "x"), ("-f", self.path("lines", b"x == x\n"))):
                out, err = self.call("judge", "-w8", *words, status=2)
                self.assertEqual((out, err), (
                    "", "hogzelt: an error of the library: the two are said to differ at place 2"
                        " and index 1, and both are 4 there\n"))

    def test_help(self):
        """The examples of --help, with their statuses."""
        for words, status in ((("-w", "64", "x + y", "(x ^ y) + 2*(x & y)"), 0),
                              (("-w", "8", "x | y == x + y"), 1),
                              (("--left", "examples/xor15.tangle", "a + 15 - 2*(a & 15)"), 0),
                              (("-w", "64", "-f", "examples/pairs.txt"), 0)):
            shown = " ".join(f"'{word}'" if " " in word else word for word in words)
            self.assertIn(f"  tools/hogzelt judge {shown}\n", self.call("judge", "--help")[0])
            there = [word.replace("examples/", os.path.join(ROOT, "examples/")) for word in words]
            self.call("judge", *there, status=status)


class Lines(Calls):
    def test_lines(self):
        path = self.path("lines", LINES)
        out, err = self.call("judge", "-w8", "-f", path, status=2)
        self.assertEqual(out, ANSWERS)
        self.assertEqual(err, f"hogzelt: {path}: equal 1, differ 2, refused 5\n")
        out, err = self.run_tool("judge", "-w8", "-", data=LINES, status=2)
        self.assertEqual(out.decode(), ANSWERS)
        self.assertEqual(err, "hogzelt: standard input: equal 1, differ 2, refused 5\n")

    def test_example(self):
        """What --help names: every pair is equal, at every width."""
        path = os.path.join(ROOT, "examples", "pairs.txt")
        with open(path, encoding="utf-8") as source:
            comment, *pairs = source.read().splitlines()
        for width in (1, 8, 31, 64):
            out, err = self.call("judge", f"-w{width}", "-f", path)
            self.assertEqual((out, err), (f"{comment}\n" + PROVED * len(pairs), ""))

    def test_statuses(self):
        for data, status, counted in (
            (b"", 0, ""), (b"\n# none\n", 0, ""), (b"x == x", 0, ""),
            (b"x == x\r\n\r\nx\tx\r\n", 0, ""),
            (b"x == x\nx == y\n", 1, "equal 1, differ 1, refused 0"),
            (b"x == y\nx*y == x\nx == y\n", 2, "equal 0, differ 2, refused 1"),
            (b"x\n", 2, "equal 0, differ 0, refused 1"),
        ):
            with self.subTest(data=data):
                path = self.path("lines", data)
                said = counted and f"hogzelt: {path}: {counted}\n"
                out, err = self.call("judge", "-w8", "-f", path, status=status)
                self.assertEqual(len(out.splitlines()), len(data.splitlines()))
                self.assertEqual(err, said)
                out, err = self.call("judge", "-q", "-w8", "-f", path, status=status)
                self.assertEqual((out, err), ("", said if status == 2 else ""))

    def test_tabs(self):
        """Tabs part two texts where there is no == and they stand in one place."""
        for line, status in (("x\tx", 0), ("\tx\t\tx\t", 0), (" x \t x ", 0), ("x + y\ty + x", 0),
                             ("\tx\t==\tx", 0), ("x\t+\ty == y + x", 0), ("x\ty", 1),
                             ("x\t+ y\tz", 2), ("x\t- y\t+ z", 2), ("\tx", 2), ("x\t", 2)):
            path = self.path("lines", line.encode())
            self.call("judge", "-w8", "-f", path, status=status)
        line = "  x +\ty == x*y"
        out, _ = self.call("judge", "-w8", "-f", self.path("lines", line.encode()), status=2)
        self.assertTrue(out.startswith(f"# line 1, column {line.index('*') + 1}: refusal 8"), out)

    def test_json(self):
        out, _ = self.call("judge", "-w8", "--json", "-f", self.path("lines", LINES), status=2)
        found = [json.loads(line) for line in out.splitlines()]
        self.assertEqual([one["line"] for one in found], [2, 4, 5, 6, 7, 8, 9, 10])
        self.assertEqual({tuple(one) for one in found}, {("line", *KEYS)})
        self.assertEqual([one["equal"] for one in found], [True, False, False] + [None] * 5)
        self.assertEqual(found[1]["text"], "x | y == x + y")
        self.assertEqual(found[2]["variables"], {"flags": 16})
        self.assertEqual(found[3]["refusal"], {
            "number": 8, "side": "left", "line": 6, "column": 3,
            "message": "& works bit by bit, and -2 below it is a negative",
            "hint": "write 254 for -2, or add --fold"})
        self.assertEqual([one["refusal"]["side"] for one in found[3:]],
                         ["left", "right", None, None, "left"])

    def test_fold(self):
        path = self.path("lines", b"x & -2 == x & 254\n")
        self.assertEqual(self.call("judge", "-w8", "--fold", "-f", path), (PROVED, ""))

    def test_many(self):
        """Several processes give what one gives, in order, and it is what the package says."""
        source = random.Random(1026)
        texts = [random_text(source, 16) for _ in range(1_501)]
        pairs = list(zip(texts, texts[1:]))
        pairs[::2] = [(left, left) for left, _ in pairs[::2]]
        path = self.path("many", "\n".join(f"{left} == {right}" for left, right in pairs).encode())
        words = ("judge", "-w16", "-f", path)
        out, err = self.call(*words, "--jobs", "2", status=2)
        self.assertEqual((out, err), self.call(*words, "--jobs", "1", status=2))
        lines = out.splitlines()
        self.assertEqual(len(lines), len(pairs))
        for (left, right), line in zip(pairs, lines):
            if line.startswith("#"):
                self.assertIn("refusal 13: ", line)
            else:
                self.assertEqual(line + "\n" == PROVED, equal(left, right, 16), line)


class Plainer(Calls):
    """The last line of hogzelt shorten, and the key of its object."""

    def test_lines(self):
        for words, last, proved in (
            (("(x^y)+2*(x&y)",), "1*x + 1*y", True),
            (("(X2 ^ X1) + 2*(X1 & X2) - X2",), "1*X1", True),
            (("--steps", "2*(x|flags) - (x^flags)"), "1*flags + 1*x", True),
            (("--fold", "(x|y) + (x&y) + (z & -2)"), "1*x + 1*y + 1*(z & 254)", True),
            (("(x^y)+2*(x&y) + (x >> 1)",), "1*x + 1*y + 1*(x >> 1)", False),
            (("(x|y) + (x&y) + (a & b & 3) + (c & d & 3)",),
             "1*x + 1*y + 1*(a & b & 3) + 1*(c & d & 3)", False),
            (("--rules", "2", "(x|y) + (x&y)"), "1*x + 1*y", True),
            (("--rules", "2", "(x|y) + (x&y) + (z & -2)"), "1*x + 1*y + 1*(z & 254)", False),
        ):
            with self.subTest(words=words):
                said = "proved equal" if proved else "not proved"
                out, _ = self.call("shorten", "-w8", *words)
                self.assertTrue(out.endswith(f"\nby truth tables, {said}: {last}\n"), out)
                text = words[-1]
                out, _ = self.call("shorten", "-w8", "--json", *words[:-1], text)
                self.assertEqual(json.loads(out)["plainer"], {"sum": last, "proved": proved})
                path = self.path("lines", text.encode())
                more = [word for word in words[:-1] if word != "--steps"]
                out, _ = self.call("shorten", "-w8", "--json", *more, "-f", path)
                self.assertEqual(json.loads(out)["plainer"], {"sum": last, "proved": proved})

    def test_none(self):
        out, _ = self.call("shorten", "-w8", "x + y")
        self.assertNotIn("truth tables", out)
        self.assertIsNone(json.loads(self.call("shorten", "-w8", "--json", "x + y")[0])["plainer"])
        out, _ = self.call("shorten", "-w8", "--json", "x*y", status=1)
        self.assertIsNone(json.loads(out)["plainer"])

    def test_sheet(self):
        """A sheet that is given has no expression beside it."""
        path = self.path("s", shorten("(x^y)+2*(x&y)", 8).data)
        out, _ = self.call("shorten", "-f", path)
        self.assertTrue(out.endswith("by truth tables, not proved: 1*x + 1*y\n"), out)

    def test_wrong_sum(self):
        """A sum that the judge tells apart is not printed."""
        text = "(x^y)+2*(x&y)"
        for wrong in ("1*x + 2*y", "1*x + 1*z", "1*x + 1*y + 1"):
            with mock.patch.object(tables, "plainer", return_value=wrong):
                out, _ = self.call("shorten", "-w8", text)
                self.assertNotIn("truth tables", out)
                out, _ = self.call("shorten", "-w8", "--json", text)
                self.assertIsNone(json.loads(out)["plainer"])
        with mock.patch.object(tables, "plainer", return_value="+".join("a" * 513)):
            self.assertFalse(judged_plainer(shorten(text, 8), parse(text, 8)).proved)

    def test_random(self):
        """Every sum without shifts is proved, and none is told apart."""
        source = random.Random(1027)
        proved = 0
        for _ in range(600):
            width = source.choice((1, 8, 64))
            text = random_text(source, width)
            sheet = shorten(text, width)
            found = judged_plainer(sheet, parse(text, width))
            plain = tables.plainer(sheet)
            self.assertEqual(found and found.text, plain, text)
            if found and ">>" not in text:
                self.assertTrue(found.proved, text)
                proved += 1
        self.assertGreater(proved, 40)
