"""What the archive asks for from outside."""

import os
import shutil
import subprocess
import unittest

from samples import ROOT

ARCHIVE = os.path.join(ROOT, "target", "staticlib", "libhogzelt.a")


def asked(archive):
    """The names that the archive leaves to whoever links it."""
    printed = subprocess.run(["nm", "-u", archive], check=True, capture_output=True, text=True)
    lines = map(str.split, printed.stdout.splitlines())
    return {words[1] for words in lines if len(words) == 2 and words[0] == "U"}


class Names(unittest.TestCase):
    @unittest.skipUnless(shutil.which("nm"), "nm is missing")
    def test_copies_and_clears_alone(self):
        self.assertLessEqual(asked(ARCHIVE), {"memcpy", "memset"})
