"""tools/build.sh in a folder that looks like a checkout, with doubles of rt and of the kit."""

import os
import shutil
import subprocess
import tempfile
import unittest

from samples import ROOT

CRATES = """# two crates below: hogzelt, and low
low:
hogzelt: low
beside: low
hogzelt_c staticlib: hogzelt
"""
RT = """#!/bin/sh
echo "rt $*" >> "$TOP/calls"
[ "$1" != doc ] || echo "$TOP/kit/START-HERE.md"
[ "$1" != lib ] || { mkdir -p out; printf '%s' "${MADE-by rt}" > out/libhogzelt_c.a; }
exit ${LIB_STATUS:-0}
"""
RATTLE = """#!/bin/sh
echo "rattle $*" >> "$TOP/calls"
while [ "$1" != -o ]; do shift; done
printf 'by rattle' > "$2"
"""


class Build(unittest.TestCase):
    def setUp(self):
        folder = tempfile.TemporaryDirectory()
        self.addCleanup(folder.cleanup)
        self.folder = folder.name
        for name, text in (("crates.txt", CRATES), ("bin/rt", RT), ("kit/bin/rattle", RATTLE), ("crates/hogzelt_c/src/lib.rt", "")):
            self.write(name, text)
        os.makedirs(os.path.join(self.folder, "tools"))
        shutil.copy(os.path.join(ROOT, "tools", "build.sh"), os.path.join(self.folder, "tools"))

    def write(self, name, text):
        path = os.path.join(self.folder, name)
        os.makedirs(os.path.dirname(path), exist_ok=True)
        with open(path, "w", encoding="ascii") as out:
            out.write(text)
        os.chmod(path, 0o755)
        return path

    def leave(self, crate, age, stamp=False):
        """What a run of rt ci, or with a stamp of rt lib, leaves of a library, so many seconds ago."""
        self.write(f"crates/{crate}/out/rlib/{crate}.rlib/format", "")
        if stamp:
            self.write(f"crates/{crate}/out/rlib/stamp", "")
        path = os.path.join(self.folder, "crates", crate, "out", "rlib", f"{crate}.rlib")
        when = os.stat(self.folder).st_mtime - age
        os.utime(path, (when, when))

    def run_build(self, *words, **env):
        """The status, what was called, and the archive."""
        env = {**os.environ, "TOP": self.folder, "PATH": os.path.join(self.folder, "bin") + os.pathsep + os.environ["PATH"], **env}
        done = subprocess.run([os.path.join(self.folder, "tools", "build.sh"), *words], env=env, stdout=subprocess.PIPE,
                              stderr=subprocess.PIPE)
        self.assertEqual(done.stdout, b"")
        calls, archive = [], None
        if os.path.isfile(os.path.join(self.folder, "calls")):
            with open(os.path.join(self.folder, "calls"), encoding="ascii") as source:
                calls = source.read().splitlines()
            os.remove(os.path.join(self.folder, "calls"))
        if os.path.isfile(os.path.join(self.folder, "target/staticlib/libhogzelt.a")):
            with open(os.path.join(self.folder, "target/staticlib/libhogzelt.a"), encoding="ascii") as source:
                archive = source.read()
        return done.returncode, calls, archive

    def begun(self, age):
        path = self.write("begun", "")
        when = os.stat(self.folder).st_mtime - age
        os.utime(path, (when, when))
        return path

    def test_by_rt(self):
        self.assertEqual(self.run_build(), (0, ["rt lib"], "by rt"))
        archive = os.path.join(self.folder, "target/staticlib/libhogzelt.a")
        first = os.stat(archive).st_mtime_ns
        self.assertEqual(self.run_build(), (0, ["rt lib"], "by rt"))
        self.assertEqual(os.stat(archive).st_mtime_ns, first)
        self.assertEqual(self.run_build(MADE="another"), (0, ["rt lib"], "another"))

    def test_after_ci(self):
        for crate in ("low", "hogzelt"):
            self.leave(crate, 10)
        status, calls, archive = self.run_build("--after-ci", self.begun(20))
        self.assertEqual((status, archive, calls[0]), (0, "by rattle", "rt doc"))
        self.assertEqual(len(calls), 2)
        words, crates = calls[1], os.path.join(os.path.realpath(self.folder), "crates")
        self.assertTrue(words.startswith("rattle build --crate-name hogzelt_c src/lib.rt "))
        for part in (f"--extern hogzelt={crates}/hogzelt/out/rlib/hogzelt.rlib ", f"-L dependency={crates}/low/out/rlib ",
                     "--crate-type staticlib ", f"--logic-built {self.folder}/kit/logic_built "):
            self.assertIn(part, words)
        self.assertNotIn("--extern low=", words)
        self.assertNotIn("beside", words)

    def test_after_another_ci(self):
        """A library is missing, older than this run of rt ci, or rt lib's own."""
        self.leave("hogzelt", 10)
        self.assertEqual(self.run_build("--after-ci", self.begun(20)), (0, ["rt lib"], "by rt"))
        self.leave("low", 30)
        self.assertEqual(self.run_build("--after-ci", self.begun(20)), (0, ["rt lib"], "by rt"))
        self.leave("low", 10, stamp=True)
        self.assertEqual(self.run_build("--after-ci", self.begun(20)), (0, ["rt lib"], "by rt"))

    def test_failures(self):
        self.assertEqual(self.run_build(LIB_STATUS="1"), (1, ["rt lib"], None))
        self.assertEqual(self.run_build("--after-ci")[0], 2)
        self.assertEqual(self.run_build("--after-ci", os.path.join(self.folder, "none"))[0], 2)
        self.assertEqual(self.run_build("hogzelt")[0], 2)
        shutil.rmtree(os.path.join(self.folder, "crates", "hogzelt_c", "out"))
        self.write("bin/rt", "#!/bin/sh\n")
        self.assertEqual(self.run_build(), (1, [], None))
