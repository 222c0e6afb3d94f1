"""The Rust crate: its own tests, the stored answers and the examples of its documentation."""

import os
import subprocess
import unittest

from hogzelt import build

from samples import ROOT, need


class Crate(unittest.TestCase):
    def test_crate(self):
        need(self, "cargo", (1, 73))
        archive = os.environ.get("HOGZELT_LIB", os.path.join(ROOT, build.ARCHIVE))
        if not os.path.isfile(archive):
            self.skipTest(f"{build.ARCHIVE} is not built")
        manifest = os.path.join(ROOT, "bindings", "rust", "Cargo.toml")
        done = subprocess.run(
            ["cargo", "test", "--quiet", "--locked", "--offline", "--manifest-path", manifest],
            env={**os.environ, "HOGZELT_LIB": archive}, stdout=subprocess.PIPE,
            stderr=subprocess.STDOUT)
        self.assertEqual(done.returncode, 0, done.stdout.decode())
