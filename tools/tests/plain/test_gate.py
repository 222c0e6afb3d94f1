"""The order of .ci/run and its last line, with doubles of rt, cc and the tests."""

import os
import shutil
import subprocess
import sys
import tempfile
import unittest

from samples import ROOT

RT = """#!/bin/sh
echo "rt $*" >> calls
printf '%s\\n' "arith proved" "${SUMMARY-rt: ok; handles allowed: none; must-fail edits: 3 refused; 1 of 2}" "${VERDICT:-7 passed, 0 failed}"
exit ${CI_STATUS:-0}
"""
BUILD = """#!/bin/sh
[ "$1 $#" = "--after-ci 2" ] && [ -f "$2" ] && [ ! "$2" -nt calls ] && echo "build" >> calls
exit ${LIBRARY_STATUS:-0}
"""
DOCS = "#!/bin/sh\necho docs >> calls\n"
LIMITS = "#!/bin/sh\necho limits >> calls\n"
DIVISION = "open('calls', 'a').write('division\\n')\n"
EXPORTS = "open('calls', 'a').write('exports\\n')\n"
TEST = """import os, unittest
class Test(unittest.TestCase):
    def test(self):
        with open("calls", "a") as out: out.write("tests {0}\\n")
        self.assertNotEqual(os.environ.get("BAD_TESTS"), "{0}")
"""
ALL = ["docs", "limits", "division", "exports", "tests plain", "rt ci", "build", "tests library"]
CLEAN = "7 passed, 0 failed"


class Gate(unittest.TestCase):
    def setUp(self):
        folder = tempfile.TemporaryDirectory()
        self.addCleanup(folder.cleanup)
        self.folder = folder.name
        os.makedirs(os.path.join(self.folder, ".ci"))
        shutil.copy(os.path.join(ROOT, ".ci", "run"), os.path.join(self.folder, ".ci"))
        self.write("bin/rt", RT)
        self.write("bin/cc", "#!/bin/sh\ncat > /dev/null\n")
        self.write("tools/check_docs.sh", DOCS)
        self.write("tools/check_limits.sh", LIMITS)
        self.write("tools/check_division.py", DIVISION)
        self.write("tools/check_exports.py", EXPORTS)
        self.write("tools/build.sh", BUILD)
        for sort in ("plain", "library"):
            self.write(f"tools/tests/{sort}/__init__.py", "")
            self.write(f"tools/tests/{sort}/test_it.py", TEST.format(sort))

    def write(self, name, text):
        path = os.path.join(self.folder, name)
        os.makedirs(os.path.dirname(path), exist_ok=True)
        with open(path, "w", encoding="ascii") as out:
            out.write(text)
        os.chmod(path, 0o755)

    def run_gate(self, path=None, **env):
        """The status, the last line of standard output, and what was called in which order."""
        found = path or os.path.dirname(sys.executable) + os.pathsep + os.environ["PATH"]
        env["PATH"] = os.path.join(self.folder, "bin") + os.pathsep + found
        done = subprocess.run([os.path.join(self.folder, ".ci", "run")], env={**os.environ, **env},
                              stdout=subprocess.PIPE, stderr=subprocess.DEVNULL)
        with open(os.path.join(self.folder, "calls"), encoding="ascii") as source:
            calls = source.read().splitlines()
        return done.returncode, done.stdout.decode().splitlines()[-1:], calls

    def test_good(self):
        self.assertEqual(self.run_gate(), (0, [CLEAN], ALL))

    def test_nothing_is_removed_or_left_out(self):
        for name in ("target/staticlib/libhogzelt.a", "crates/one/out/kept", "crates/one/src/lib.rt"):
            self.write(name, "of an earlier run")
        self.assertEqual(self.run_gate(), (0, [CLEAN], ALL))
        for name in ("target/staticlib/libhogzelt.a", "crates/one/out/kept", "crates/one/src/lib.rt"):
            self.assertTrue(os.path.isfile(os.path.join(self.folder, name)))

    def again(self):
        os.remove(os.path.join(self.folder, "calls"))

    def test_stops_before_proving(self):
        status, last, calls = self.run_gate(BAD_TESTS="plain")
        self.assertEqual((status, last, calls), (1, [], ALL[:5]))
        for name, count in (("check_exports.py", 4), ("check_division.py", 3)):
            self.again()
            self.write(f"tools/{name}", {4: EXPORTS, 3: DIVISION}[count] + "raise SystemExit(1)\n")
            status, last, calls = self.run_gate()
            self.assertEqual((status, last, calls), (1, [], ALL[:count]))
        for name, count in (("check_limits.sh", 2), ("check_docs.sh", 1)):
            self.again()
            self.write(f"tools/{name}", {2: LIMITS, 1: DOCS}[count] + "exit 1\n")
            status, last, calls = self.run_gate()
            self.assertEqual((status, last, calls), (1, [], ALL[:count]))

    def test_not_proved(self):
        bad = "5 passed, 2 failed"
        self.assertEqual(self.run_gate(VERDICT=bad, CI_STATUS="1"), (1, [bad], ALL[:6]))
        self.again()
        self.assertEqual(self.run_gate(VERDICT=bad), (1, [bad], ALL[:6]))
        self.again()
        status, last, calls = self.run_gate(CI_STATUS="3")
        self.assertEqual((status, calls), (3, ALL[:6]))
        self.again()
        part = "7 passed, 0 failed (one and the crates below alone: not the gate)"
        self.assertEqual(self.run_gate(VERDICT=part), (1, [part], ALL[:6]))

    def test_bad_edits(self):
        for summary in ("rt: ok; handles allowed: none; must-fail edits: 3 refused, 12 bad; 1 of 2",
                        "rt: ok; handles allowed: none; must-fail edits: 3 refused, 1 of them only by a limit, 1 bad; 1 of 2"):
            status, last, calls = self.run_gate(SUMMARY=summary)
            self.assertEqual((status, calls), (1, ALL[:6]))
            self.assertRegex(last[0], "^failed: must-fail edits, [0-9]+ bad$")
            self.again()
        by_limit = "rt: ok; handles allowed: none; must-fail edits: 3 refused, 1 of them only by a limit; 1 of 2"
        self.assertEqual(self.run_gate(SUMMARY=by_limit), (0, [CLEAN], ALL))
        self.again()
        self.assertEqual(self.run_gate(SUMMARY="")[::2], (1, ALL[:6]))

    def test_library_fails(self):
        for env, count in (({"LIBRARY_STATUS": "1"}, 7), ({"BAD_TESTS": "library"}, 8)):
            status, last, calls = self.run_gate(**env)
            self.assertEqual((status, calls), (1, ALL[:count]))
            self.assertIn("failed behind rt ci: ", last[0])
            self.again()

    def test_without_cc(self):
        self.write("bin/cc", "#!/bin/sh\nexit 1\n")
        self.assertEqual(self.run_gate(), (0, [CLEAN], ALL[:6]))
        for name in ("cc", "../calls"):
            os.remove(os.path.join(self.folder, "bin", name))
        for name in "bash cat dirname env grep mktemp python3 rm sh tail tee touch".split():
            found = sys.executable if name == "python3" else shutil.which(name)
            os.symlink(found, os.path.join(self.folder, "bin", name))
        self.assertEqual(self.run_gate(path="/nonexistent"), (0, [CLEAN], ALL[:6]))
