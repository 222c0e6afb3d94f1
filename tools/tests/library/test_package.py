"""The package: its functions on the stored answers of crates/vectors, threads, how the library is
found and built, installing it."""

import doctest
import os
import shutil
import subprocess
import sys
import threading
import unittest
from ctypes import byref, c_uint64
from importlib.util import find_spec

import hogzelt
from hogzelt import build
from hogzelt.calls import COLUMN_WORDS, OPAQUE, WRITERS, engine
from hogzelt.library import find
from hogzelt.records import FORM_BYTES

from calling import Calls
from plain.test_files import stored_entries
from samples import PACKAGE, ROOT


def header_number(name):
    with open(os.path.join(ROOT, "include", "hogzelt.h"), encoding="ascii") as source:
        for line in source:
            words = line.split()
            if words[:2] == ["#define", name]:
                return words[2]
    raise KeyError(name)


class Functions(unittest.TestCase):
    def answer(self, call, *words):
        try:
            return 0, call(*words)
        except hogzelt.Refused as bad:
            return bad.number, None

    def test_stored_answers(self):
        """Every entry of the vector file (docs/VECTORS.md) whose result slices have the right
        length."""
        passes = {7: hogzelt.Pass.COMPACT, 9: hogzelt.Pass.REFINE, 10: hogzelt.Pass.FLATTEN,
                  12: hogzelt.Pass.RECOVER, 13: hogzelt.Pass.COALESCE}
        numbers = {3: lambda a, b, c, w: hogzelt.reduce_mask(a, b, w),
                   4: hogzelt.can_change_mask_to, 5: hogzelt.can_change_coefficient_to}
        seen = {}
        for sort, refusal, value, words, data in stored_entries():
            split, terms = len(data) - value % 2**32, value >> 32 & 0x7FFFFFFF
            sheet = (data[split:], terms)
            if sort in (1, 6):
                call = engine().library.hogzelt_expr_value
                if sort == 6:
                    call = engine().library.hogzelt_semilinear_value
                found = c_uint64(7)
                given = (c_uint64 * len(words))(*words)
                number = call(data, len(data), given, len(words), byref(found))
                self.assertEqual((number, found.value), (refusal, value))
            elif sort in numbers:
                self.assertEqual(numbers[sort](*words), value)
            elif sort in passes and words == [FORM_BYTES]:
                found = self.answer(hogzelt.run_pass, passes[sort], data[:split])
                self.assertEqual(found, (refusal, None if refusal else sheet))
            elif sort == 8 and words == [FORM_BYTES]:
                found = self.answer(hogzelt.normalize, data[:split])
                self.assertEqual(found, (refusal, None if refusal else sheet))
            elif sort == 11 and words == [COLUMN_WORDS]:
                self.columns(data, split, refusal, terms)
            elif sort == 14 and words[:2] == [FORM_BYTES] * 2 and refusal != 32:
                if set(words[3::2]) <= {FORM_BYTES}:
                    found = self.answer(hogzelt.run_passes, data[:split], words[2::2])
                    self.assertEqual(found, (refusal, None if refusal else sheet))
            elif sort == 15 and words[1:] == [FORM_BYTES]:
                found = self.answer(hogzelt.normalize, data[:split], None, words[0])
                self.assertEqual(found, (refusal, None if refusal else sheet))
            elif sort == 16:
                left, right = data[: words[0]], data[words[0] :]
                equal, place, index = numbers_of = c_uint64(7), c_uint64(7), c_uint64(7)
                number = engine().library.hogzelt_judge(
                    left, len(left), right, len(right), *map(byref, numbers_of)
                )
                found = equal.value << 63 | place.value << 32 | index.value
                self.assertEqual((number, found), (refusal, value))
            else:  # among them types 2 and 17, which are no functions of the library
                continue
            seen[sort] = seen.get(sort, 0) + 1
        self.assertEqual(sorted(seen), [1, *range(3, 17)])

    def columns(self, data, split, refusal, classes):
        number, found = self.answer(hogzelt.columns, data[:split])
        self.assertEqual(number, refusal)
        if not refusal:
            words = [word for column in found for word in (column.mask, *column.tables)]
            self.assertEqual(len(found), classes)
            self.assertEqual(b"".join(word.to_bytes(8, "little") for word in words), data[split:])

    def test_examples(self):
        self.assertEqual(doctest.testmod(hogzelt).failed, 0)

    def test_values(self):
        self.assertEqual(hogzelt.value("a ^ 15", [5], 8), 10)
        self.assertEqual(hogzelt.value(hogzelt.normalize("a ^ 15", 8), [5]), 10)
        self.assertEqual(hogzelt.columns(hogzelt.normalize("a & 15", 8)),
                         [hogzelt.Column(15, [2]), hogzelt.Column(240, [0])])
        opaque = hogzelt.columns(hogzelt.normalize("a >> 1", 8))[0].tables[0]
        self.assertEqual(opaque, OPAQUE)
        self.assertRaises(TypeError, hogzelt.normalize, "a")
        self.assertRaises(hogzelt.BadText, hogzelt.normalize, "a +", 8)
        self.assertEqual(set(WRITERS) | {hogzelt.Pass.FLATTEN}, set(hogzelt.Pass))

    def test_threads(self):
        """Each thread has room of its own."""
        texts = [f"(a & {i}) + (b ^ {i})" for i in range(200)]
        expected = [str(hogzelt.shorten(text, 16)) for text in texts]
        found = {}

        def work(number):
            found[number] = [str(hogzelt.shorten(text, 16)) for text in texts]

        threads = [threading.Thread(target=work, args=(i,)) for i in range(4)]
        for thread in threads:
            thread.start()
        for thread in threads:
            thread.join()
        self.assertTrue(all(found[i] == expected for i in range(4)))

    def test_version(self):
        self.assertEqual(header_number("HOGZELT_VERSION_TEXT"), f'"{hogzelt.__version__}"')
        with open(os.path.join(PACKAGE, "pyproject.toml"), encoding="utf-8") as source:
            self.assertIn(f'version = "{hogzelt.__version__}"', source.read())
        with open(os.path.join(ROOT, "bindings/rust/Cargo.toml"), encoding="utf-8") as source:
            self.assertIn(f'version = "{hogzelt.__version__}"', source.read())


class Building(Calls):
    """A shared object is made in a folder that looks like a checkout, with a double of rt."""

    def setUp(self):
        super().setUp()
        self.top = self.path("top")
        os.makedirs(os.path.join(self.top, "crates", "one", "src"))
        os.makedirs(os.path.join(self.top, "crates", "hogzelt_c"))
        os.makedirs(os.path.join(self.top, "tools"))
        shutil.copy(os.path.join(ROOT, build.BUILD), os.path.join(self.top, build.BUILD))
        self.shared = os.path.join(self.top, build.SHARED)
        self.archive = os.path.join(ROOT, build.ARCHIVE)
        if not os.path.isfile(self.archive):
            self.skipTest(f"{build.ARCHIVE} is not built")
        saved = os.environ["PATH"]
        self.addCleanup(os.environ.__setitem__, "PATH", saved)

    def with_rt(self, script):
        os.makedirs(self.path("bin"), exist_ok=True)
        os.chmod(self.path("bin/rt", b"#!/bin/sh\n" + script.encode()), 0o755)
        os.environ["PATH"] = self.path("bin") + os.pathsep + os.environ["PATH"]

    def made(self):
        """What is said, as rt writes to the process's own standard error."""
        script = ("import sys; sys.path.insert(0, sys.argv[1]); from hogzelt import build\n"
                  "try: print(build.shared_object(sys.argv[2]))\n"
                  "except build.NoLibrary as bad: print(bad); sys.exit(2)")
        done = subprocess.run([sys.executable, "-B", "-c", script, PACKAGE, self.top],
                              stdout=subprocess.PIPE, stderr=subprocess.PIPE)
        return done.returncode, done.stdout.decode().strip(), done.stderr.decode()

    def test_made_and_made_again(self):
        self.with_rt('[ "$*" = lib ] && [ "${PWD##*/}" = hogzelt_c ] && mkdir -p out && cp'
                     f' "{self.archive}" out/libhogzelt_c.a; echo one proved')
        status, shared, said = self.made()
        self.assertEqual((status, shared), (0, self.shared))
        self.assertIn("takes long the first time", said)
        self.assertIn("one proved\n", said)
        first = os.stat(shared).st_mtime_ns
        self.assertEqual(self.made(), (0, shared, ""))
        self.assertEqual(os.stat(shared).st_mtime_ns, first)
        archive = os.path.join(self.top, build.ARCHIVE)
        os.utime(archive, ns=(first - 10**12, first - 10**12))
        self.assertEqual(self.made(), (0, shared, ""))
        self.assertGreater(os.stat(shared).st_mtime_ns, first)
        self.path("top/crates/one/src/lib.rt", b"newer")
        status, _, said = self.made()
        self.assertEqual(status, 0)
        self.assertIn("crates/one/src/lib.rt is newer than", said)

    def test_failures(self):
        self.with_rt("exit 1")
        self.assertEqual(self.made()[:2], (2, "tools/build.sh ended with status 1"))
        self.with_rt("exit 0")
        status, last, said = self.made()
        self.assertEqual((status, last), (2, "tools/build.sh ended with status 1"))
        self.assertIn("rt made no crates/hogzelt_c/out/libhogzelt_c.a", said)
        os.environ["PATH"] = self.path("nowhere")
        self.assertIn("and so is rt, the Rattle toolchain", self.made()[1])
        os.makedirs(os.path.join(self.top, "target", "staticlib"))
        shutil.copy(self.archive, os.path.join(self.top, build.ARCHIVE))
        self.assertIn("cc, a C compiler, is missing", self.made()[1])
        self.assertFalse(os.path.exists(self.shared))

    def test_named(self):
        out, err = self.run_tool("shorten", "-w8", "a", status=2, HOGZELT_SO=self.path("none.so"))
        self.assertEqual(out, b"")
        self.assertIn("none.so cannot be used", err)
        path = self.path("empty.so", b"")
        self.run_tool("shorten", "-w8", "a", status=2, HOGZELT_SO=path)


class Installing(Calls):
    def test_pip(self):
        """From the folder, without network; then elsewhere, without the checkout."""
        if not find_spec("pip"):
            sys.stderr.write("pip is absent: installing the package is left out\n")
            self.skipTest("pip is absent")
        subprocess.run([sys.executable, "-m", "pip", "install", "--quiet", "--no-index",
                        "--disable-pip-version-check", "--target", self.path("site"), PACKAGE],
                       env={**os.environ, "HOGZELT_SO": find(), "PIP_ROOT_USER_ACTION": "ignore"},
                       check=True)
        env = {**os.environ, "PYTHONPATH": self.path("site"), "PYTHONDONTWRITEBYTECODE": "1"}
        for words in ([sys.executable, "-m", "hogzelt"], [self.path("site/bin/hogzelt")]):
            done = subprocess.run([*words, "shorten", "-q", "-w8", "x ^ 15"], cwd=self.folder,
                                  env=env, stdout=subprocess.PIPE, check=True)
            self.assertEqual(done.stdout, b"15 + 1*x - 2*(x & 15)\n")
