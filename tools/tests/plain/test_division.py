"""tools/check_division.py: what counts as a division by 16, and what does not."""

import importlib.util
import os
import shutil
import subprocess
import sys
import tempfile
import unittest

from samples import ROOT

SCRIPT = os.path.join(ROOT, "tools", "check_division.py")
loading = importlib.util.spec_from_file_location("check_division", SCRIPT)
check_division = importlib.util.module_from_spec(loading)
loading.loader.exec_module(check_division)

CONSTS = """pub const RECORD_LENGTH: usize = 16;
pub const RECORD_LENGTH_U64: u64 = RECORD_LENGTH as u64;
const HALF: usize = RECORD_LENGTH / 2;
const TWICE: usize = limits::HALF * 4;
const POWER: u32 = 4;
const LATE: usize = LATER;
const LATER: usize = 1 << POWER;
"""

BY_16 = """n / 16
n/16
n % 16
n %16u64
n / 16_usize
n / 1_6
n / 016
n / 0x10
n % 0x0010
n / 0b1_0000
n / 0o20
n / (16)
n / (8 + 8)
n / (2 * HALF)
n / (1 << 4)
n / (32 >> 1)
n / (TWICE - 16)
n / (31 & 0x30)
n / (16 | 0)
n / (24 ^ 8)
n / (16 as usize)
n / RECORD_LENGTH
n % limits::RECORD_LENGTH
n / base::limits::RECORD_LENGTH_U64 as usize
n / LATE
n / 4 / 4
n / 2 / 2 / 4
(n / 2) / 8
f((n / 2) / 8)
f(n) / 2 / 8
if (n / 2) / 8 == 1 { 1 } else { 0 }
return (n / 4) / 4
((n / HALF)) / 2
n / 8 / 2 * 16
n /* of bytes */ / /* a /* record */ */ 16
n /↵16
f(n, "text" , n / 16)"""

UNREADABLE = """n / k
n % t.len()
n / size(t)
n / sizes[0]
n / limits.record
n / (k + 1)
n / -16
n / *k
n / UNKNOWN"""

OTHERS = """n / 8
n % 2 == 1
n / 0x100
n % 0x1_0000_0000
n / TWICE
n / 2 + n / 8
n / 4 * 4 / 8
f(n / 2) / 8
a::f((n / 2)) / 8
n % 4 / 4
n / (RECORD_LENGTH + 1)
n >> 4
n & 15
n * 16
16 / 8
n // / 16
n + /* / 16 */ 1
f("n / 16", b"% 16", b'/')"""


def lines(text):
    """The samples; ↵ is the end of a line within one."""
    return [line.replace("↵", "\n") for line in text.split("\n")]


def function(body):
    return f"""{CONSTS}
fn f(n: usize) -> usize
    ghost k: {{ T (n / 16) }}
    requires {{ n % 16 ≡ 0 }}
    requires small {{ n / 16 < 4 }}
    requires* {{ ⌜ n / 16 < 4 ⌝ }}
    ensures {{ result ≡ n / 16 × (result ≡ (record {{ a = n / 16 }}).a) }}
    ensures other
        {{ result % 16 ≡ n / 16 }}
{{
    {body}
}}
"""


class Division(unittest.TestCase):
    def faults(self, text):
        return check_division.check({"crates/a/src/lib.rt": text})[1]

    def test_by_16(self):
        for body in lines(BY_16):
            found = self.faults(function(body))
            self.assertEqual([f"by {check_division.RECORD}; " in fault for fault in found], [True], body)
            self.assertIn("older phones", found[0])

    def test_unreadable(self):
        for body in lines(UNREADABLE):
            found = self.faults(function(body))
            self.assertEqual(["no number and no const" in fault for fault in found], [True], body)

    def test_others(self):
        for body in lines(OTHERS):
            self.assertEqual(self.faults(function(body)), [], body)

    def test_assignments(self):
        self.assertEqual(len(self.faults(function("let mut x = n; x /= 8 + 8; x %= LATE; x"))), 2)
        self.assertEqual(len(self.faults(function("let sixteen = 16; n / sixteen"))), 1)
        self.assertEqual(self.faults(function("let mut x = n; x /= 8; x %= 32; x")), [])

    def test_place(self):
        text = function("let a = n;\n    a % 16")
        line = 1 + text[: text.index("a % 16")].count("\n")
        self.assertTrue(self.faults(text)[0].startswith(f"crates/a/src/lib.rt:{line}: % by 16; "))

    def test_const_of_another_file(self):
        texts = {"crates/a/src/lib.rt": "const K: usize = 16;", "crates/b/src/lib.rt": "fn f() { n / a::K }"}
        self.assertEqual(len(check_division.check(texts)[1]), 1)

    def run_script(self, folder):
        done = subprocess.run([sys.executable, "-B", os.path.join(folder, "tools", "check_division.py")],
                              capture_output=True, text=True)
        return done.returncode, done.stdout, done.stderr

    def test_this_repository(self):
        status, out, err = self.run_script(ROOT)
        self.assertEqual((status, err), (0, ""))
        self.assertRegex(out, r"^check_division: [1-9]\d* divisions and remainders in [1-9]\d* files, none by 16\n$")

    def test_command(self):
        with tempfile.TemporaryDirectory() as folder:
            os.makedirs(os.path.join(folder, "tools"))
            shutil.copy(SCRIPT, os.path.join(folder, "tools"))
            self.assertEqual(self.run_script(folder)[0], 1)
            os.makedirs(os.path.join(folder, "crates", "a", "src", "deep"))
            with open(os.path.join(folder, "crates", "a", "src", "deep", "b.rt"), "w", encoding="utf-8") as out:
                out.write(function("n / 16"))
            status, out, err = self.run_script(folder)
            self.assertEqual((status, out), (1, ""))
            self.assertIn("crates/a/src/deep/b.rt:", err)


if __name__ == "__main__":
    unittest.main()
