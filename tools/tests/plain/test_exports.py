"""tools/check_exports.py on the files as they are, and on each with one thing changed."""

import os
import sys
import unittest

from samples import ROOT

sys.path.insert(0, os.path.join(ROOT, "tools"))

import check_exports


class Exports(unittest.TestCase):
    def setUp(self):
        self.texts = [check_exports.read(os.path.join(ROOT, path))
                      for path in (check_exports.LIBRARY, check_exports.EXPORTS, check_exports.HEADER)]

    def faults(self, number, old, new):
        """What is found where one of the three has the new text in place of the old one."""
        texts = list(self.texts)
        self.assertIn(old, texts[number])
        texts[number] = texts[number].replace(old, new)
        return "\n".join(check_exports.check(*texts)[1])

    def test_as_they_are(self):
        self.assertEqual(check_exports.check(*self.texts), (16, []))

    def test_changed(self):
        for number, old, new, said in (
            (1, "hogzelt::hogzelt_reduce_mask(coeff, mask, w)", "hogzelt::hogzelt_reduce_mask(mask, coeff, w)", "the body"),
            (1, "hogzelt::hogzelt_best_week(run,", "0 & hogzelt::hogzelt_best_week(run,", "the body"),
            (1, "result ≡ reduce_mask coeff", "result ≡ reduce_mask mask", "another contract"),
            (1, "    ensures spare_after { spare.new ≡ replicate (length spare.old) 0 }\n", "", "another contract"),
            (0, "    ensures spare_after { spare.new ≡ replicate (length spare.old) 0 }\n", "", "another contract"),
            (0, "left: &[u8]", "left: &[u64]", "another signature"),
            (1, "Rattle.arith.specs.Effective", "Rattle.base.specs.Effective", "reduce_mask is imported from"),
            (1, 'pub extern "C" fn hogzelt_judge', "pub fn hogzelt_judge", "stands behind"),
            (1, "fn hogzelt_judge", "fn hogzelt_judged", "hogzelt_judge of crates/hogzelt/src/lib.rt is not exported"),
            (1, "fn hogzelt_judge", "fn hogzelt_judged", "hogzelt_judged is no public function"),
            (0, "pub fn hogzelt_judge", "fn hogzelt_judge", "hogzelt_judge is no public function"),
            (1, "\n{\n    hogzelt::hogzelt_judge(", " { hogzelt::hogzelt_judge(", "cannot be read"),
            (2, "hogzelt_judge", "hogzelt_judged", "does not declare hogzelt_judge"),
        ):
            with self.subTest(number=number, new=new):
                self.assertIn(said, self.faults(number, old, new))
