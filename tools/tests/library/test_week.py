"""The best seven days: the cases of the request, refusals and their order, random runs beside a
direct computation, and the command."""

import os
import random
from ctypes import byref, c_int64, c_uint64

from hogzelt import Played, Refused, Week, best_week, run_bytes
from hogzelt.calls import engine

from calling import Calls
from samples import ROOT

UNWRITTEN = 0xBAD0BAD0
MOST = 4096


def days(first, par, *moves):
    return [Played(first + i, par, each) for i, each in enumerate(moves)]


def answer(data):
    """The refusal, found, total and day, with numbers in the results before the call."""
    found, total, day = c_uint64(UNWRITTEN), c_int64(UNWRITTEN), c_uint64(UNWRITTEN)
    refusal = engine().library.hogzelt_best_week(
        data, len(data), byref(found), byref(total), byref(day)
    )
    return refusal, found.value, total.value, day.value


def direct(played):
    """Every seven records summed by themselves."""
    weeks = []
    for i in range(len(played) - 6):
        seven = played[i : i + 7]
        if [each[0] for each in seven] == list(range(seven[0][0], seven[0][0] + 7)):
            weeks.append((sum(moves - par for _, par, moves in seven), seven[0][0]))
    return min(weeks, default=None)


def any_run(source):
    """Days with few gaps, so that there are weeks, and totals that are often the same."""
    day = source.choice((0, 1, 1000, 2**32 - 40))
    gap, most = source.choice((0, 3, 8, 20)), source.choice((1, 3, 65535))
    played = []
    for _ in range(source.randrange(40)):
        if day > 2**32 - 1:
            break
        played.append(Played(day, source.randint(0, most), source.randint(0, most)))
        day += source.randint(2, 9) if gap and source.randrange(gap) == 0 else 1
    return played


class Runs(Calls):
    def test_cases(self):
        last = 2**32 - 7
        gap = days(0, 0, 1, 1, 1, 1) + days(5, 0, 1, 1, 1)
        for played, wanted in (
            ([], (0, 0, 0, 0)),
            (days(0, 3, *[1] * 7), (0, 1, -14, 0)),
            (days(0, 3, *[1] * 6), (0, 0, 0, 0)),
            (days(0, 0, 5, 5, 5, 5, 5, 5, 5, 1, 9), (0, 1, 31, 1)),
            (days(last, 65535, *[0] * 7), (0, 1, -458745, last)),
            (days(last, 0, *[65535] * 7), (0, 1, 458745, last)),
            (days(0, 4, *[4] * 7), (0, 1, 0, 0)),
            (days(3, 0, *[2] * 9), (0, 1, 14, 3)),
            (gap, (0, 0, 0, 0)),
            (gap + days(8, 0, 1, 1, 1, 1), (0, 1, 7, 5)),
            (days(0, 0, *[9] * 7) + days(8, 0, *[1] * 6), (0, 1, 63, 0)),
        ):
            with self.subTest(played=played):
                self.assertEqual(answer(run_bytes(played)), wanted)
                week = best_week(played)
                self.assertEqual(week, Week(*wanted[2:]) if wanted[1] else None)

    def test_refused(self):
        week = run_bytes(days(0, 3, *[1] * 7))
        twice = run_bytes(days(0, 3, *[1] * 7) + days(6, 3, *[1] * 7))
        back = run_bytes([(5, 0, 0), (4, 0, 0)])
        longest = run_bytes(days(0, 1, *[0] * MOST))
        self.assertEqual(answer(longest), (0, 1, -7, 0))
        refusals = [(20, week[:15]), (20, b"\0"), (20, week + b"\0" * 15), (20, b"\0" * 65552),
                    (20, longest + week[:16]), (20, twice + b"\0"), (21, twice), (21, back),
                    (21, run_bytes([(5, 1, 1)] * 2)), (21, b"\0" * 32), (21, b"\0" * 65536)]
        for place in range(8, 16):
            spoiled = bytearray(twice)
            spoiled[-16 + place] = 1
            refusals.append((20, bytes(spoiled)))
        for number, data in refusals:
            with self.subTest(number=number, length=len(data)):
                self.assertEqual(answer(data), (number, 0, 0, 0))
                with self.assertRaises(Refused) as caught:
                    best_week(data)
                self.assertEqual(caught.exception.number, number)

    def test_random(self):
        source = random.Random(112)
        weeks = 0
        for _ in range(20_000):
            played = any_run(source)
            wanted = direct(played)
            weeks += wanted is not None
            self.assertEqual(best_week(played), wanted and Week(*wanted), played)
        self.assertGreater(weeks, 5_000)

    def test_bytes(self):
        """Any bytes: a refusal with zeros, or an answer of a run that is whole and rises."""
        source = random.Random(1120)
        for _ in range(2_000):
            data = bytearray(run_bytes(any_run(source)))
            if data and source.randrange(2):
                data[source.randrange(len(data))] ^= 1 << source.randrange(8)
            data += source.randbytes(source.choice((0, 0, 0, 1, 16)))
            records = [(int.from_bytes(data[i : i + 4], "little"),
                        int.from_bytes(data[i + 4 : i + 6], "little"),
                        int.from_bytes(data[i + 6 : i + 8], "little"))
                       for i in range(0, len(data), 16)]
            if len(data) % 16 or any(any(data[i + 8 : i + 16]) for i in range(0, len(data), 16)):
                wanted = (20, 0, 0, 0)
            elif any(a[0] >= b[0] for a, b in zip(records, records[1:])):
                wanted = (21, 0, 0, 0)
            else:
                week = direct(records)
                wanted = (0, 1, *week) if week else (0, 0, 0, 0)
            self.assertEqual(answer(bytes(data)), wanted, data.hex())

    def test_numbers(self):
        for played in ((2**32, 0, 0), (-1, 0, 0), (0, 65536, 0), (0, 0, -1)):
            with self.assertRaises(ValueError):
                best_week([played])


class Command(Calls):
    def week(self, text, *words, status=0):
        return self.call("week", *words, self.path("run", text.encode()), status=status)

    def test_text(self):
        text = "# the season\nday,par,moves\n\n" + "".join(f"{i}\t3, 1\r\n" for i in range(7))
        self.assertEqual(self.week(text)[0], "days 0 to 6: total -14 (moves 7, par 21)\n")
        self.assertEqual(self.week(text, "-q")[0], "-14 0\n")
        self.assertEqual(self.week("")[0], "no 7 consecutive days among 0 days\n")
        self.assertEqual(self.week("1 2 3\n", "--quiet")[0], "none\n")
        self.assertEqual(self.week('"Day";"Par";"Moves"\n1;2;3;\n', "-q")[0], "none\n")
        again = "".join(f"{i} 0 {moves}\n" for i, moves in enumerate((5, 5, 5, 5, 5, 5, 5, 1, 9)))
        self.assertEqual(self.week(again)[0], "days 1 to 7: total 31 (moves 31, par 0)\n")

    def test_example(self):
        """What --help names, and the same from standard input."""
        path = os.path.join(ROOT, "examples", "season.txt")
        out, _ = self.call("week", path)
        self.assertEqual(out, "days 12 to 18: total -6 (moves 61, par 67)\n")
        with open(path, "rb") as source:
            self.assertEqual(self.run_tool("week", "-", data=source.read())[0].decode(), out)
        self.assertEqual(self.call("week", "-f", path, "-o", self.path("out"))[0], out)
        self.assertEqual(self.call("week", self.path("out"))[0], out)

    def test_faults(self):
        for text, wanted in (
            ("1 2\n", "line 1: a line has a day, its par and the moves, and this has 2 words"),
            ("1 2 3 4\n", "this has 4 words"),
            ("1, , 3\n", "this has 2 words"),
            ("\n1 2 x\n", "line 2: moves is a number from 0 to 65535, not 'x'"),
            ("4294967296 2 3\n", "day is a number from 0 to 4294967295, not '4294967296'"),
            ("1 65536 3\n", "par is a number from 0 to 65535"),
            ("1 -2 3\n", "par is a number from 0 to 65535, not '-2'"),
            ("5 1 1\n\n5 1 1\n", "line 3: refusal 21: day 5 is not above the one before, 5"),
            ("1 1 1\nday par moves\n", "line 2: day is a number"),
            ("".join(f"{i} 1 1\n" for i in range(MOST + 1)), "refusal 20: a run has at most 4,096"),
        ):
            with self.subTest(text=text[:40]):
                out, err = self.week(text, status=1)
                self.assertEqual(out, "")
                self.assertIn(wanted, err)
        for data, wanted in (
            (bytes(17), "refusal 20: 17 bytes are no whole records of 16"),
            (bytes(8) + b"\1" + bytes(7), "record 0: refusal 20: bytes 8 to 15 must be 0"),
            (bytes(32), "record 1: refusal 21: day 0 is not above the one before, 0"),
        ):
            self.assertIn(wanted, self.call("week", self.path("run", data), status=1)[1])
        self.assertIn("one file at a time", self.call("week", "a", "b", status=2)[1])
        self.assertIn("No such file", self.call("week", self.path("none"), status=2)[1])

    def test_nothing_lost(self):
        """A refused run writes no file, and the file that is read is not replaced."""
        path = self.path("run", b"5 1 1\n5 1 1\n")
        self.call("week", "-o", self.path("out"), path, status=1)
        self.assertFalse(os.path.exists(self.path("out")))
        path = self.path("run", b"5 1 1\n")
        self.call("week", "-o", path, path, status=2)
        self.assertEqual(self.read("run"), b"5 1 1\n")
