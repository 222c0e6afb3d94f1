"""Masks upon masks, as (a & 60) & 15: four of the passes split an atom by all its masks at once."""

import itertools
import random

from hogzelt import Pass, Refused, normalize, run_pass, run_passes, shorten, value
from hogzelt.records import AND, CONSTANT, VARIABLE, Record, read_form

from calling import Calls
from samples import Evaluator, form_bytes, form_of_trees

# pass; atoms and terms before, at 8 bits; the sum after
BY_HAND = (
    (Pass.REFINE, ("(a & 60) & 15", "a & 3"), (1, 1), "1*(a & 15)"),
    (Pass.REFINE, ("15 & (60 & a)", "a & 3"), (1, 1), "1*(a & 15)"),
    (Pass.REFINE, ("15 & (a & 60)", "3 & a"), (1, 1), "1*(a & 15)"),
    (Pass.REFINE, ("((a & 61) & 14) & 253", "a & 3"), (1, 1), "1*(a & 15)"),
    (Pass.REFINE, ("(a & 48) & 15",), (1,), "0"),
    (Pass.REFINE, ("(a & 60) & 255",), (16,), "16*(a & 12)"),
    (Pass.REFINE, ("((a ^ b) & 60) & 15", "(a ^ b) & 3"), (1, 1), "1*((a ^ b) & 15)"),
    (Pass.REFINE, ("((a & b) & 60) & 15", "(a & b) & 3"), (1, 1), "1*(a & b & 15)"),
    (Pass.REFINE, ("(a & (~3 >> 1)) & 255", "a & 1"), (1, 1), "1*(a & 127)"),
    (Pass.COALESCE, ("(a & 60) & 15", "a & 3"), (1, 1), "1*(a & 15)"),
    (Pass.RECOVER, ("(a & 63) & 15", "a & 240"), (1, 255), "15 - 1*(15 ^ a)"),
    (Pass.FLATTEN, ("(~a & 60) & 15",), (1,), "12 - 1*(a & 12)"),
)

# forms that all passes leave as they are: nothing is cut, or nothing is joined
STAYING = (
    (("(a & 60) & 15",), (1,)),
    (("(a & 12) & 255",), (16,)),
    (("15 & (60 & a)",), (3,)),
    (("(a & 60) & 15", "(a & 60) & 240"), (1, 255)),
    (("(a & 60) & b",), (1,)),
    (("((a & 60) | b) & 15",), (1,)),
)


def form(atoms, coefficients, width=8):
    return form_bytes(width, 0, list(atoms), list(enumerate(coefficients)))


def masked(source, text, mask, width):
    """The text under one to four masks that come to the mask, on either side."""
    top = (1 << width) - 1
    masks = [mask | source.getrandbits(width) for _ in range(source.randint(1, 4))]
    common = top
    for one in masks:
        common &= one
    masks[source.randrange(len(masks))] &= top ^ (common & ~mask)
    for one in masks:
        text = f"({text}) & {one}" if source.random() < 0.6 else f"{one} & ({text})"
    return text


def chain(masks, on_left):
    """The records of a variable under masks, each on the side that `on_left` says."""
    records = [Record(VARIABLE, 0, 1, 0)]
    for number, mask in enumerate(masks):
        literal = [Record(CONSTANT, 0, 1, mask)]
        records = literal + records if on_left(number) else records + literal
        records.append(Record(AND, 0, len(records) + 1, 0))
    return records


class Passes(Calls):
    def test_by_hand(self):
        for number, atoms, coefficients, wanted in BY_HAND:
            with self.subTest(atoms=atoms, number=number):
                self.assertEqual(str(run_pass(number, form(atoms, coefficients))), wanted)

    def test_staying(self):
        for atoms, coefficients in STAYING:
            for number in Pass:
                data = form(atoms, coefficients)
                self.assertEqual(run_pass(number, data).data, data, (atoms, number))

    def test_several_masks_as_one(self):
        """Beside each other, an atom under several masks is worth what it is under the joined one: a
        refined or coalesced sum of them is that of the joined masks."""
        source = random.Random(108)
        joined = 0
        for _ in range(600):
            width = source.choice((1, 2, 3, 8, 31, 63, 64))
            basis = source.choice(("a", "a", "a ^ b", "a & b", "~a", "a >> 1"))
            masks = [source.getrandbits(width) for _ in range(source.randint(2, 5))]
            terms = [source.getrandbits(width) or 1 for _ in masks]
            deep = form([masked(source, basis, mask, width) for mask in masks], terms, width)
            plain = form([f"({basis}) & {mask}" for mask in masks], terms, width)
            for number in (Pass.REFINE, Pass.COALESCE):
                after = run_pass(number, plain)
                self.assertEqual(run_pass(number, deep).par, after.par, (basis, masks, terms))
                joined += after.par < len(terms)
            words = [source.getrandbits(width) for _ in range(2)]
            for number in Pass:
                after = run_pass(number, deep)
                self.assertEqual(value(after.data, words), value(plain, words), (number, masks))
        self.assertGreater(joined, 200)

    def test_any_list(self):
        """The value is kept under every assignment, along any list of passes."""
        source = random.Random(109)
        for _ in range(150):
            width = source.choice((1, 2, 3))
            parts = []
            for _ in range(source.randint(1, 4)):
                basis = source.choice(("a", "b", "a ^ b", "~a", "a | 1"))
                atom = masked(source, basis, source.getrandbits(width), width)
                parts.append(f"{source.getrandbits(width)}*({atom})")
            text = " + ".join(parts)
            passes = source.choices(list(Pass), k=source.randint(1, 8))
            after, short = str(run_passes(text, passes, width)), str(shorten(text, width))
            for a, b in itertools.product(range(1 << width), repeat=2):
                at = {"a": a, "b": b}
                wanted = Evaluator(text, width).at(at)
                self.assertEqual(Evaluator(after, width).at(at), wanted, (text, passes))
                self.assertEqual(Evaluator(short, width).at(at), wanted, text)

    def test_longest_chains(self):
        """1,535 masks on the right, on the left and by turns, as many as a sheet can hold: one split, no
        new atom where nothing is cut, and a full table where one would be made."""
        masks = [~(1 << i % 60) % (1 << 64) for i in range(1535)]
        b = [Record(VARIABLE, 1, 1, 0)]
        for on_left in (lambda i: False, lambda i: True, lambda i: i % 2 == 0):
            tree = chain(masks, on_left)
            data = form_of_trees(64, 0, [tree], [(0, 1)])
            for number in Pass:
                self.assertEqual(run_pass(number, data).data, data, number)
            self.assertEqual(value(data, [7 << 59]), 6 << 59)
            # the joined mask has the four highest bits, and 32 pushes them off the end
            with self.assertRaises(Refused) as caught:
                run_pass(Pass.REFINE, form_of_trees(64, 0, [tree, b], [(0, 32), (1, 1)]))
            self.assertEqual(caught.exception.number, 9)
            shorter = chain(masks[:1533], on_left)
            cut = run_pass(Pass.REFINE, form_of_trees(64, 0, [shorter, b], [(0, 32), (1, 1)]))
            self.assertEqual((str(cut), len(read_form(cut.data).atoms)), ("1*b", 3))


class Commands(Calls):
    def test_shorten(self):
        for text, wanted in (
            ("(a & 60 & 15) + (a & 3)", "1*(a & 15)\n"),
            ("((a ^ b) & 60 & 15) + ((a ^ b) & 3)", "1*((a ^ b) & 15)\n"),
            ("x & 60 & 15", "1*(x & 60 & 15)\n"),
            ("(a & 48 & 15) + b", "1*b\n"),
        ):
            out, err = self.call("shorten", "-q", "-w8", text)
            self.assertEqual((out, err), (wanted, ""), text)

    def test_passes_by_name(self):
        sheet = self.path("sheet", normalize("(a & 60 & 15) + (a & 3)", 8).data)
        out, _ = self.call("show", sheet)
        self.assertIn("a & 60 & 15", out)
        atoms = read_form(run_passes("(a & 60 & 15) + (a & 3)", [Pass.REFINE], 8).data).atoms
        self.assertEqual(len(atoms), 3)
