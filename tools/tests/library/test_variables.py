"""Variables of two bytes: values, hashes, passes and columns over v0 to v65535."""

import unittest

from hogzelt import Pass, Refused, columns, normalize, run_pass, run_passes, shorten, value
from hogzelt.records import HEAD, VARIABLE

from calling import Calls
from samples import bytes_of, form_bytes

EDGES = (0, 1, 255, 256, 257, 511, 512, 65534, 65535)
# by rising hash
BY_HASH = (3, 0, 255, 65535, 256)
NAMES = {3: "d", 0: "a"}
FULL = [3 * i + (i >> 8) + 7 for i in range(65536)]
SHEET = form_bytes(8, 9, ["v256 & 15", "~v65535"], [(0, 3), (1, 5)])


def name(number):
    return NAMES.get(number, f"v{number}")


def with_byte(data, at, byte):
    return data[:at] + bytes((byte,)) + data[at + 1 :]


class Functions(unittest.TestCase):
    def refused(self, refusal, call, *words):
        with self.assertRaises(Refused) as caught:
            call(*words)
        self.assertEqual(caught.exception.number, refusal)

    def test_values(self):
        for number in EDGES:
            sheet = form_bytes(64, 0, [f"v{number}"], [(0, 1)])
            for data in (bytes_of(f"v{number}", 64), sheet):
                for count in (0, 1, 255, 256, 257, 512, 65535, 65536):
                    expected = FULL[number] if number < count else 0
                    self.assertEqual(value(data, FULL[:count]), expected, (number, count))
                self.assertEqual(value(data, [*FULL, 1, 2, 3]), FULL[number])

    def test_two_variables(self):
        words = [0] * 257
        words[0], words[1], words[256] = 5, 7, 100
        self.assertEqual(value("v256 + 2*v0", words, 8), 110)
        self.assertEqual(value("v256 + 2*v0", words[:256], 8), 10)
        self.assertEqual(value("v1 + 2*v256", words, 8), 207)
        self.assertEqual(str(normalize("v256 + 2*v0", 8)), "1*v256 + 2*a")
        self.assertEqual(str(normalize("v256 ^ v0", 8)), "1*(v256 ^ a)")
        masked = normalize("(v256 & 15) + (v0 & 15)", 8)
        self.assertEqual((str(masked), masked.par), ("1*(v256 & 15) + 1*(a & 15)", 2))
        self.assertEqual(str(shorten("(v256 & 15) + (v256 & 240) + v0", 8)), "1*a + 1*v256")
        self.assertEqual(str(normalize("(v257 & v1) + (v1 & v257)", 8)), "2*(v257 & b)")

    def test_hashes(self):
        for number, digest in ((0, 0x517CC1B727220A94), (255, 0x7CC1B727220A9501),
                               (256, 0xCE3E78DE492C9F94), (65535, 0xC1B727220A950001)):
            data = normalize(f"v{number}", 8).data
            self.assertEqual(data[0], HEAD)
            self.assertEqual(int.from_bytes(data[8:16], "little"), digest)
            self.assertEqual(data[16:32], bytes_of(f"v{number}"))

    def test_groups(self):
        """New atoms come by the hash of their variable, in whatever order the atoms stand."""
        for order in ((0, 3, 255, 256, 65535), (65535, 256, 255, 3, 0)):
            cut = form_bytes(8, 0, [f"v{i}" for i in order], [(n, 16) for n in range(5)])
            self.assertEqual(str(run_pass(Pass.REFINE, cut)),
                             " + ".join(f"16*({name(i)} & 15)" for i in BY_HASH))
            masks = [f"v{i} & {mask}" for i in order for mask in (1, 2, 4)]
            bits = form_bytes(8, 0, masks, [(n, 1 + n % 3 // 2) for n in range(15)])
            self.assertEqual(str(run_pass(Pass.COALESCE, bits)), " + ".join(
                f"1*({name(i)} & 3) + 2*({name(i)} & 4)" for i in BY_HASH))
            halves = [f"v{i} & {mask}" for i in order for mask in (15, 240)]
            unlike = form_bytes(8, 0, halves, [(n, 1 + n % 2) for n in range(10)])
            recovered = str(run_pass(Pass.RECOVER, unlike)).replace(" - ", " + ").split(" + ")
            bare = [term.split("*")[1] for term in recovered if "&" not in term]
            self.assertEqual(bare, [name(i) for i in BY_HASH])

    def test_flattening(self):
        for number in (255, 256, 257, 65534, 65535):
            sheet = form_bytes(8, 9, [f"v{number} ^ 5"], [(0, 3)])
            self.assertEqual(str(run_pass(Pass.FLATTEN, sheet)),
                             f"24 + 3*(v{number} & 250) - 3*(v{number} & 5)")
            self.assertEqual(str(shorten(f"~v{number}", 8)), f"-1 - 1*v{number}")

    def test_columns(self):
        """The rows of a table go by the numbers: v255, then v256, then v65535."""
        for atom, table in (("v256 & ~v255", 4), ("~v256 & v255", 2), ("~v256 & v1", 2),
                            ("v65535 & ~(v256 | v255)", 16)):
            self.assertEqual(columns(form_bytes(8, 0, [atom], [(0, 1)])), [(255, [table])], atom)
        self.assertEqual(columns(form_bytes(8, 0, ["v65535 & 15"], [(0, 1)])),
                         [(15, [2]), (240, [0])])

    def test_limits(self):
        def sum_of(first, count):
            return " + ".join(f"v{first + i}" for i in range(count))

        self.refused(9, normalize, sum_of(0, 257), 8)
        for first in (0, 1, 65280):
            self.assertEqual(normalize(sum_of(first, 256), 8).par, 256)
        for first in (0, 65024):
            text = " & ".join(f"v{first + i}" for i in range(512))
            words = [2**64 - 1] * (first + 512)
            words[first + 300] = 0xA5A5
            sheet = normalize(text, 64)
            self.assertEqual((sheet.par, len(sheet.form.atoms[0].records)), (1, 1023))
            self.assertEqual((value(text, words, 64), value(sheet, words)), (0xA5A5, 0xA5A5))
            self.assertEqual(value(sheet, words[:-1]), 0)

    def test_lists(self):
        text = " + ".join(f"3*(v{i} & 15) + 3*(v{i} & 240) + 5*(v{i} ^ 12)" for i in EDGES)
        for passes in ((), *((number,) for number in Pass), tuple(Pass), tuple(Pass) * 2):
            sheet = run_passes(text, passes, 8)
            for words in (FULL, FULL[:257], FULL[:1], ()):
                self.assertEqual(value(sheet, words), value(text, words, 8), passes)
        self.assertLess(run_passes(text, tuple(Pass), 8).par, normalize(text, 8).par)

    def test_refused(self):
        """Byte 5 in another kind, bytes 6 and 7 in every record: 3; in a sheet: 10."""
        tangle = bytes_of("(v256 & 15) + ~(v65535 >> 1)")
        for start in range(0, len(tangle), 16):
            for at in (5, 6, 7):
                bad = with_byte(tangle, start + at, 7)
                if (tangle[start], at) == (VARIABLE, 5):
                    self.assertEqual(value(bad), 255)
                    continue
                for call in (value, normalize, shorten):
                    self.refused(3, call, bad)
        for start in range(0, len(SHEET), 16):
            for at in (5, 6, 7):
                bad = with_byte(SHEET, start + at, 7)
                for call in (value, columns, *(lambda s, n=n: run_pass(n, s) for n in Pass)):
                    self.refused(10, call, bad)


class Commands(Calls):
    def test_value(self):
        for words, shown in (
            (("v65535 + v256", "v65535=5", "v256=7"), "12"),
            (("v256 + 2*v0", "v0=5"), "10"),
            (("v256 + 2*a", "a=5", "v256=100"), "110"),
            (("v65535", "v0=5"), "0"),
            (("v65535",), "0"),
        ):
            self.assertEqual(self.call("value", "-q", "-w", "8", *words)[0], shown + "\n")
        out, _ = self.call("value", "-w", "8", "v65535 ^ v256", "v256=3")
        self.assertEqual(out, "3  0x03  00000011  signed 3\n0 where nothing is given: v65535\n")
        path = self.path("x", SHEET)
        self.assertEqual(self.call("value", "-q", "-f", path, "v65535=254")[0], "14\n")
        err = self.call("value", "-q", "-f", path, "v65536=1", status=2)[1]
        self.assertIn("no variable v65536 here (a to z, v0 to v65535)", err)

    def test_shorten(self):
        out, _ = self.call("shorten", "-w", "8", "(v300 & 15) + (v300 & 240) + (v65535 ^ flags)")
        self.assertEqual(out.split("\n")[:3], [
            "1*(v65535 ^ flags) + 1*v300", "par 2, normalised 3; width 8",
            "variables: flags is v0, v300 is v300, v65535 is v65535"])

    def test_columns(self):
        out, _ = self.call("columns", "-w", "8", "v256 & ~v255")
        self.assertEqual(out.split("\n")[2:6], [
            "class 0  mask 0xff, places 7 to 0: 11111111",
            "          v255  0 1 0 1",
            "          v256  0 0 1 1",
            "  v256 & ~v255  0 0 1 0"])

    def test_faults(self):
        path = self.path("x", with_byte(bytes_of("v256 & 15"), 21, 1))
        for words in (("show",), ("value", "-f"), ("shorten", "-f")):
            out, err = self.call(*words, path, status=1)
            self.assertEqual((out, err), (
                "", f"hogzelt: {path}: record 1 (byte 16): its byte 5 is 1 and must be 0"
                " in a Constant\n"))
