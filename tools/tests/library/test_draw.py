"""The picture: in characters, and as SVG whose cells are the bits of the masks."""

import os
import random
import xml.etree.ElementTree as ElementTree

from hogzelt import normalize, reduce_mask
from hogzelt.command.picture import picture_of
from hogzelt.command.svg import svg_text
from hogzelt.command.terminal import picture_lines

from calling import Calls
from samples import WORKED, random_text

SUM = "16*(a & 255) + (b ^ 15)"
LINES = """\
15 + 16*(a & 255) + 1*b - 2*(b & 15)
par 3, width 8

   place 76543210

constant 0x0f
         ....1111  0x0f

16*(a & 255)
         xxxx1111  0xff
   xxxx< 1111....  4 up

1*b
         11111111  0xff

-2*(b & 15)
         ....1111  0x0f
         ...1111.  1 up

< pushed off the end: 4 of 16*(a & 255)

1 counts   x cannot matter beside the coefficient   . not in the mask
"""


class Terminal(Calls):
    def test_lines(self):
        self.assertEqual(self.call("draw", "-w8", SUM)[0], LINES)
        path = self.path("s", WORKED[8, SUM])
        self.assertEqual(self.call("draw", "-f", path)[0], LINES)

    def test_passes(self):
        out, _ = self.call("draw", "-w8", "--passes", "refine", SUM)
        self.assertIn("16*(a & 15)\n         ....1111  0x0f\n         1111....  4 up\n", out)
        self.assertNotIn("pushed", out)

    def test_masks_upon_masks(self):
        """The joined mask is drawn, and what of it counts."""
        for atom, cells, mask in (
            ("x & 60 & 15", "....11..", "0x0c"),
            ("15 & (60 & x)", "....11..", "0x0c"),
            ("x & 48 & 15", "........", "0x00"),
            ("(x ^ y) & 60 & 15", "....11..", "0x0c"),
            ("x & y & 15", "....1111", "0x0f"),
            ("(x | 3) & 60 & ~3 & 31", "...111..", "0x1c"),
        ):
            out, _ = self.call("draw", "-w8", atom)
            self.assertIn(f"         {cells}  {mask}\n", out, atom)
        out, _ = self.call("draw", "-w8", "16*(x & 60 & 255)")
        self.assertIn("16*(x & 60 & 255)\n         ..xx11..  0x3c\n     xx< 11......  4 up\n", out)

    def test_ruler(self):
        out, _ = self.call("draw", "-w12", "a")
        self.assertIn("   place 11\n         1098 76543210\n", out)

    def test_64_places(self):
        text = "0xff00ff00ff00ff00*a + (b ^ 0x123456789abcdef0)"
        lines = self.call("draw", "-w64", text)[0].split("\n")
        self.assertLessEqual(max(map(len, lines)), 100)
        self.assertIn("  8 off< 11111111", "\n".join(lines))

    def test_colour(self):
        """Colours only dim and stress: without them the lines are the same."""
        picture = picture_of(normalize(SUM, 8))
        coloured = "\n".join(picture_lines(picture, True))
        for code in ("\x1b[0m", "\x1b[1m", "\x1b[2m"):
            self.assertIn(code, coloured)
            coloured = coloured.replace(code, "")
        self.assertEqual(coloured + "\n", LINES)
        out, _ = self.run_tool("draw", "-w8", SUM)
        self.assertEqual(out.decode(), LINES)


class Svg(Calls):
    def cells(self, text):
        """The places of each sort of cell, by row."""
        rows = {}
        for group in ElementTree.fromstring(text).iter("{http://www.w3.org/2000/svg}g"):
            row = rows.setdefault(group.get("data-row"), {})
            for cell in group:
                if cell.get("data-place") is not None:
                    row.setdefault(cell.get("class"), set()).add(int(cell.get("data-place")))
        return rows

    def places(self, mask):
        return {place for place in range(mask.bit_length()) if mask >> place & 1}

    def test_bits(self):
        source = random.Random(150)
        for _ in range(60):
            width = source.choice((1, 3, 8, 16, 33, 64))
            sheet = normalize(random_text(source, width), width)
            picture = picture_of(sheet)
            rows = self.cells(svg_text(picture))
            for number, row in enumerate(picture.rows):
                found = rows[f"mask {number}"]
                kept = reduce_mask(row.coefficient, row.mask, width)
                every = set(range(width))
                self.assertEqual(found.get("counts", set()), self.places(kept))
                self.assertEqual(found.get("idle", set()), self.places(row.mask & ~kept))
                self.assertEqual(found.get("absent", set()), every - self.places(row.mask))
                landing = rows.get(f"landing {number}", {})
                lands = self.places(row.mask << row.shift) if row.shift else set()
                self.assertEqual(landing.get("counts", set()), lands & every)
                self.assertEqual(landing.get("pushed", set()), lands - every)

    def test_file(self):
        out, _ = self.call("draw", "-w8", "--svg", self.path("x.svg"), SUM)
        self.assertEqual(out, f"{self.path('x.svg')}: width 8, par 3\n")
        text = self.read("x.svg").decode()
        self.assertEqual(text, svg_text(picture_of(normalize(SUM, 8))))
        titles = [e.text for e in ElementTree.fromstring(text).iter()
                  if e.tag.endswith("}text") and e.get("class") is None]
        self.assertEqual(titles, ["constant 0x0f", "16*(a & 255)", "1*b", "-2*(b & 15)"])

    def test_cells_do_not_overlap(self):
        for width in (1, 8, 33, 64):
            picture = picture_of(normalize(f"{1 << (width - 1)}*a + b", width))
            for group in ElementTree.fromstring(svg_text(picture)).iter():
                if group.tag.endswith("}g"):
                    left = sorted(int(cell.get("x")) for cell in group if cell.get("data-place"))
                    self.assertTrue(all(b - a >= 18 for a, b in zip(left, left[1:])))
                    self.assertGreaterEqual(left[0], 0)

    def test_failed_write(self):
        self.assertIn("cannot be written", self.call(
            "draw", "-w8", "--svg", os.path.join(self.folder, "no", "x"), "a", status=2)[1])
