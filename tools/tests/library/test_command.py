"""The commands other than shorten and draw, as a user calls them."""

import os
import stat

from hogzelt import __version__
from hogzelt.command.main import TABLE

from calling import Calls
from plain.test_parse import BAD
from samples import ROOT, WORKED, bytes_of


class Write(Calls):
    def test_file(self):
        out, err = self.call("write", "-w", "8", "-o", self.path("x"), "a ^ 15")
        self.assertEqual((self.read("x"), err), (bytes_of("a ^ 15"), ""))
        self.assertEqual(out, f"{self.path('x')}: width 8, 3 records, 48 bytes\n")

    def test_bad_text_writes_nothing(self):
        self.path("old", b"as it was")
        for text, line, column, part in BAD:
            for name in ("new", "old"):
                out, err = self.call("write", "-w8", "-o", self.path(name), "--", text, status=1)
                self.assertEqual(out, "")
                self.assertTrue(err.startswith(f"hogzelt: line {line}, column {column}: "), err)
                self.assertTrue(part in err.replace("\n  hint: ", "; "), err)
        self.assertEqual(os.listdir(self.folder), ["old"])
        self.assertEqual(self.read("old"), b"as it was")

    def test_too_many_records(self):
        err = self.call("write", "-w8", "-o", self.path("x"), "+".join("a" * 513), status=1)[1]
        self.assertIn("line 1, column 1024: the text makes 1,025 records", err)
        self.assertEqual(os.listdir(self.folder), [])

    def test_usage(self):
        target = ("-o", self.path("x"))
        for words, part in (
            ((*target, "a"), "the width is missing: -w and a number from 1 to 64"),
            ((*target, "-w", "0", "a"), "1 to 64, not '0'"),
            ((*target, "-w", "65", "a"), "1 to 64, not '65'"),
            ((*target, "-w", "eight", "a"), "1 to 64, not 'eight'"),
            ((*target, "-w", "8"), "the text is missing"),
            ((*target, "-w", "8", "a", "+", "b"), "one text, in quotes"),
            ((*target, "-w", "8", "--frobnicate", "a"), "no option --frobnicate"),
            ((*target, "a", "-w"), "-w needs a value"),
            ((*target, "-w", "8", "-f", "x", "a"), "not both"),
            ((*target, "-w", "8", "-f", self.path("none")), "No such file"),
            (("-w", "8", "-o", self.path("no/x"), "a"), "no/x cannot be written: No such file"),
            (("-w", "8", "-o", self.folder, "a"), "cannot be written: Is a directory"),
        ):
            with self.subTest(words=words):
                out, err = self.call("write", *words, status=2)
                self.assertIn(part, err)
                self.assertEqual(out, "")
        self.assertEqual(os.listdir(self.folder), [])

    def test_text_with_a_sign(self):
        for text in ("-a", "-a + b", "--a", "-5", "-v3"):
            self.call("write", "-w", "8", "-o", self.path("x"), text)
            self.assertEqual(self.read("x"), bytes_of(text))

    def test_text_file(self):
        source = self.path("p.txt", b"\xef\xbb\xbfa +\r\n  (b & 3)\n")
        self.call("write", "--width=16", "--output", self.path("x"), "-f", source)
        self.assertEqual(self.read("x"), bytes_of("a + (b & 3)", 16))
        self.path("p.txt", b"a +\n  (b & )\n")
        err = self.call("write", "-w", "8", "-o", self.path("y"), "-f", source, status=1)[1]
        self.assertTrue(err.startswith(f"hogzelt: {source}: line 2, column 8: "), err)
        self.assertTrue(err.endswith("\n    (b & )\n         ^\n"), err)
        self.path("p.txt", b"a")
        err = self.call("write", "-w", "8", "-o", source, "-f", source, status=2)[1]
        self.assertIn("is the file that is read", err)
        self.path("p.txt", b"\xff\xfe")
        self.assertIn("UTF-8", self.call("write", "-w8", "-f", source, status=1)[1])
        self.path("p.txt", bytes_of("a"))
        self.assertIn("is no text", self.call("write", "-w8", "-f", source, status=2)[1])

    def test_file_name_as_text(self):
        source = self.path("p.txt", b"a")
        for words in (("-w8",), ()):
            err = self.call("write", *words, source, status=2 - len(words))[1]
            self.assertIn(f"-f {source} reads it", err)

    def test_replaces_whole(self):
        os.chmod(self.path("x", b"older"), 0o640)
        os.symlink(self.path("x"), self.path("link"))
        self.call("write", "-w", "8", "-o", self.path("link"), "a")
        self.assertEqual(self.read("x"), bytes_of("a"))
        self.assertTrue(os.path.islink(self.path("link")))
        self.assertEqual(stat.S_IMODE(os.stat(self.path("x")).st_mode), 0o640)
        self.assertEqual(sorted(os.listdir(self.folder)), ["link", "x"])

    def test_device_stays(self):
        self.call("write", "-w", "8", "-o", os.devnull, "a")
        self.assertFalse(os.path.isfile(os.devnull))

    def test_notes(self):
        err = self.call("write", "-w", "8", "-o", self.path("x"), "a >> 64")[1]
        self.assertIn("note: line 1, column 3: shift count 64", err)
        self.assertEqual(self.read("x"), bytes_of("a >> 64"))

    def test_pipes(self):
        data, err = self.run_tool("write", "-w", "8", "-", data=b"16*(a & 255)\n + (b ^ 15)")
        self.assertEqual((data, err), (bytes_of("16*(a & 255) + (b ^ 15)"), ""))
        text, _ = self.run_tool("show", "--text", data=data)
        self.assertEqual(text, b"16*(a & 255) + (b ^ 15)\n")
        data, err = self.run_tool("write", "-w", "8", "(a", status=1)
        self.assertEqual(data, b"")
        self.assertTrue(err.endswith("\n  (a\n    ^\n"), err)


class Show(Calls):
    def test_each_sort(self):
        for data, first in (
            (bytes_of("a ^ 15"), "tangle: width 8, 3 records"),
            (WORKED[8, "a ^ 15"], "sheet: width 8, 2 atoms, par 2"),
            (WORKED[8, "5"], "sheet: width 8, 0 atoms, par 0"),
            (b"C 000000000000000f\n", "par 0"),
            (b"R 8\n", "refusal 8: not a sum of weighted bitwise atoms, as a*b or a & (b + c)"),
        ):
            for words in ((), ("-f",)):
                out, err = self.call("show", *words, self.path("x", data))
                self.assertEqual((out.split("\n")[0], err), (first, ""))

    def test_text(self):
        path = self.path("x", b"flags ^ 15\n")
        self.assertEqual(self.call("show", "-w8", path)[0],
                         "tangle: width 8, 3 records\nflags ^ 15\n"
                         "  mask 0x0f, places 7 to 0: 00001111\n")
        self.assertIn("the width is missing", self.call("show", path, status=2)[1])

    def test_damaged(self):
        for data, part in (
            (b"", "is empty"),
            (bytes_of("a ^ 15")[16:], "record 1 (byte 16): a Xor has two children"),
            (WORKED[8, "a ^ 15"][:-16], "no sum record"),
            (b"C 000000000000000f\nT 0 01\n", "line 2: expected T"),
            (b"a ^\n", "line 1, column 4: expected a literal"),
        ):
            path = self.path("x", data)
            out, err = self.call("show", "-w8", path, status=1)
            self.assertTrue(err.startswith(f"hogzelt: {path}: ") and part in err, err)
            self.assertEqual(out, "")

    def test_usage(self):
        self.assertIn("No such file", self.call("show", self.path("none"), status=2)[1])
        self.assertIn("one file", self.call("show", "x", "y", status=2)[1])
        self.assertIn("no option --xx", self.call("show", "--xx", status=2)[1])

    def test_standard_input(self):
        out, _ = self.run_tool("show", "-w", "8", "-", data=b"C 00000000000000ff\n")
        self.assertEqual(out, b"par 0\nconstant  0xff (-1)\n")


class Normalize(Calls):
    def test_text(self):
        out, err = self.call("normalize", "-w", "8", "a ^ 15")
        self.assertEqual(out.split("\n"), [
            "tangle: width 8, 3 records",
            "a ^ 15",
            "  mask 0x0f, places 7 to 0: 00001111",
            "",
            "sheet: width 8, 2 atoms, par 2",
            "sum       15 + 1*a - 2*(a & 15)",
            "constant  0x0f (15)",
            "term 0    0x01 (1) * a",
            "term 1    0xfe (-2) * (a & 15)",
            "            mask 0x0f, places 7 to 0: 00001111",
            "",
        ])
        self.assertEqual(err, "")

    def test_tangle_file_and_output(self):
        path = self.path("x", bytes_of("a - a"))
        out, _ = self.call("normalize", "-f", path, "-o", self.path("s"))
        self.assertEqual(self.read("s"), WORKED[8, "a - a"])
        self.assertTrue(out.endswith("par 0\nsum       0\nconstant  0x00 (0)\n"
                                     "atom 0    not used: a\n"), out)
        err = self.call("normalize", "-w9", "-f", path, status=2)[1]
        self.assertIn("its width is 8", err)

    def test_worked_examples(self):
        for (width, text), answer in WORKED.items():
            words = ("normalize", f"-w{width}", "-o", self.path("s"), text)
            if isinstance(answer, int):
                err = self.call(*words, status=1)[1]
                self.assertIn(f": refusal {answer}: ", err)
            else:
                self.call(*words)
                self.assertEqual(self.read("s"), answer, text)

    def test_bad_input(self):
        err = self.call("normalize", "-w8", "a +", status=1)[1]
        self.assertIn("line 1, column 4", err)
        path = self.path("x", bytes_of("a ^ 15")[:-16])
        self.assertIn("record 0", self.call("normalize", "-f", path, status=1)[1])
        path = self.path("x", WORKED[8, "a ^ 15"])
        self.assertIn("this is a sheet", self.call("normalize", "-f", path, status=2)[1])


class Value(Calls):
    def test_values(self):
        for words, shown in (
            (("a ^ 15", "a=5", "b=0x10"), "10"),
            (("flags & 254", "flags=-1"), "254"),
            (("a + b", "a=200", "v1=100"), "44"),
            (("--fold", "x & -2", "x=7u"), "6"),
        ):
            self.assertEqual(self.call("value", "-q", "-w", "8", *words)[0], shown + "\n")

    def test_shown(self):
        out, _ = self.call("value", "-w", "8", "a ^ b ^ 15", "a=0xf0")
        self.assertEqual(out, "255  0xff  11111111  signed -1\n0 where nothing is given: b\n")
        out, _ = self.call("value", "-w", "8", "x + y", "v23=1", "y=2")
        self.assertEqual(out, "3  0x03  00000011  signed 3\n")

    def test_files(self):
        for data in (bytes_of("a ^ 15"), WORKED[8, "a ^ 15"]):
            out, _ = self.call("value", "-q", "-f", self.path("x", data), "a=5")
            self.assertEqual(out, "10\n")

    def test_width_of_a_file(self):
        for data in (bytes_of("a ^ 15"), WORKED[8, "a ^ 15"]):
            path = self.path("x", data)
            for command in ("value", "columns", "draw", "shorten"):
                self.call(command, "-w8", "-f", path)
                err = self.call(command, "-w9", "-f", path, status=2)[1]
                self.assertIn("its width is 8; leave -w out", err)

    def test_usage(self):
        for words, part in (
            (("a", "a="), "NAME=NUMBER"),
            (("a", "flags=1"), "no variable flags here (a)"),
            (("a", "a=1e3"), "no exponent: 1000"),
        ):
            self.assertIn(part, self.call("value", "-w8", *words, status=2)[1])
        self.assertIn("no comparisons", self.call("value", "-w8", "a == b", status=1)[1])
        err = self.call("value", "-w8", "a >> 64", status=1)[1]
        self.assertIn("line 1, column 3: refusal 6: a shift by 64", err)


class Columns(Calls):
    def test_worked_example(self):
        out, _ = self.call("columns", "-w", "8", "(a & 15) + (flags ^ a)")
        self.assertEqual(out.split("\n"), [
            "columns: width 8, 2 atoms, 2 classes",
            "",
            "class 0  mask 0x0f, places 7 to 0: ....1111",
            "       a  0 1",
            "  a & 15  0 1",
            "          a  0 1 0 1",
            "      flags  0 0 1 1",
            "  flags ^ a  0 1 1 0",
            "",
            "class 1  mask 0xf0, places 7 to 0: 1111....",
            "       a  0 1",
            "  a & 15  0 0",
            "          a  0 1 0 1",
            "      flags  0 0 1 1",
            "  flags ^ a  0 1 1 0",
            "",
        ])

    def test_opaque_and_none(self):
        self.assertIn("a >> 1: a shift, or more", self.call("columns", "-w8", "a >> 1")[0])
        self.assertEqual(self.call("columns", "-w8", "7")[0],
                         "columns: width 8, 0 atoms, 0 classes\n")

    def test_sheet_and_passes(self):
        out, _ = self.call("columns", "-f", self.path("x", WORKED[8, "a ^ 15"]))
        self.assertIn("2 atoms, 2 classes", out)
        out, _ = self.call("columns", "-w8", "--passes", "refine,compact", "16*(a & 255)")
        self.assertIn("1 atom, 2 classes", out)
        self.assertIn("no pass 'fold'", self.call("columns", "-w8", "--passes", "fold", "a",
                                                  status=2)[1])


class Help(Calls):
    def test_help(self):
        for words in ((), *((name,) for name in TABLE)):
            out, err = self.call(*words, "--help")
            self.assertTrue(out.startswith("usage: hogzelt") and err == "", out)
            self.assertLessEqual(max(map(len, out.split("\n"))), 100)

    def test_examples(self):
        """The examples of --help do what they say, but for those that use other programs."""
        for name in TABLE:
            text = self.call(name, "--help")[0].partition("Examples:\n")[2]
            for line in filter(None, text.split("\n")):
                if "|" not in line.replace(" | target", "|"):
                    words = self.split(line)
                    self.assertEqual(words[0], "tools/hogzelt")
                    self.call(*words[1:])

    def split(self, line):
        import shlex
        words = shlex.split(line)
        places = {"examples": ROOT, "picture.svg": self.folder, "xor.tangle": self.folder,
                  "xor.sheet": self.folder}
        return [os.path.join(places[w.split("/")[0]], w) if w.split("/")[0] in places else w
                for w in words]

    def test_version(self):
        self.assertEqual(self.call("--version")[0], f"hogzelt {__version__}\n")

    def test_commands(self):
        self.assertIn("shorten, judge, value, draw", self.call(status=2)[1])
        self.assertIn("no command 'frob'", self.call("frob", status=2)[1])

    def test_example_files(self):
        """The example files are what the command makes of their text."""
        folder = os.path.join(ROOT, "examples")
        with open(os.path.join(folder, "xor15.tangle"), "rb") as source:
            self.assertEqual(source.read(), bytes_of("a ^ 15"))
        self.call("write", "-w", "16", "-o", self.path("x"), "-f", os.path.join(folder, "sum.txt"))


