"""The library for C: the header, what tools/install.sh installs, and the examples that use it."""

import os
import re
import subprocess

from hogzelt import build, records, refusals, week
from hogzelt.calls import COLUMN_WORDS, OPAQUE, Pass

from calling import Calls
from samples import ROOT, need

ANSWER = """\
shortened: accepted, 144 bytes, 2 terms
expression: accepted, value 10
form: accepted, value 10
cut short: the length of the input is 0, not a multiple of 16 or too great, value 0
"""
HEADER = os.path.join(ROOT, "include", "hogzelt.h")

# ~(a + b) at 8 bits by the rules that there are, and by others; as C and as C++
RULES = rb"""
#include "hogzelt.h"
#include <stdio.h>

static const uint8_t expr[4 * HOGZELT_RECORD_BYTES] = {
    HOGZELT_VARIABLE, 0, 1, 0, 8, 0, 0, 0, 0, 0, 0, 0, 0, 0, 0, 0,
    HOGZELT_VARIABLE, 1, 1, 0, 8, 0, 0, 0, 0, 0, 0, 0, 0, 0, 0, 0,
    HOGZELT_ADD, 0, 3, 0, 8, 0, 0, 0, 0, 0, 0, 0, 0, 0, 0, 0,
    HOGZELT_NOT, 0, 4, 0, 8, 0, 0, 0, 0, 0, 0, 0, 0, 0, 0, 0};
static const uint64_t vars[2] = {3, 4};
static uint8_t out[HOGZELT_FORM_BYTES];

static void by_rules(uint64_t rules)
{
    uint64_t used = 7, terms = 7, value = 7;
    uint64_t refusal = hogzelt_normalize_by_rules(rules, expr, sizeof expr, out, sizeof out, &used,
                                                  &terms);
    hogzelt_semilinear_value(out, (size_t)used, vars, 2, &value);
    printf("%s, %u bytes, %u terms, value %u\n", hogzelt_refusal_text(refusal), (unsigned)used,
           (unsigned)terms, (unsigned)value);
}

int main(void)
{
    by_rules(HOGZELT_RULES_1);
    by_rules(HOGZELT_RULES_2);
    by_rules(3);
    return HOGZELT_NO_RULES != 18;
}
"""
RULES_ANSWER = """\
not a sum of weighted bitwise atoms, 0 bytes, 0 terms, value 0
accepted, 112 bytes, 2 terms, value 248
rules other than 1 and 2, 0 bytes, 0 terms, value 0
"""

# a | b, a + b, a of another width and a shift, each beside a + b; as C and as C++
JUDGE = rb"""
#include "hogzelt.h"
#include <stdio.h>

#define RECORD(kind, argument, size, width) \
    kind, argument, size, 0, width, 0, 0, 0, 0, 0, 0, 0, 0, 0, 0, 0
#define A RECORD(HOGZELT_VARIABLE, 0, 1, 8)
#define B RECORD(HOGZELT_VARIABLE, 1, 1, 8)

static const uint8_t either[] = {A, B, RECORD(HOGZELT_OR, 0, 3, 8)};
static const uint8_t sum[] = {A, B, RECORD(HOGZELT_ADD, 0, 3, 8)};
static const uint8_t wide[] = {RECORD(HOGZELT_VARIABLE, 0, 1, 9)};
static const uint8_t shifted[] = {A, RECORD(HOGZELT_SHR, 1, 2, 8)};

static uint64_t beside_sum(const uint8_t *left, size_t left_len)
{
    uint64_t equal = 7, place = 7, index = 7;
    uint64_t refusal = hogzelt_judge(left, left_len, sum, sizeof sum, &equal, &place, &index);
    printf("%s, equal %u, place %u, index %u\n", hogzelt_refusal_text(refusal), (unsigned)equal,
           (unsigned)place, (unsigned)index);
    return refusal;
}

int main(void)
{
    return beside_sum(either, sizeof either) != HOGZELT_ACCEPTED ||
           beside_sum(sum, sizeof sum) != HOGZELT_ACCEPTED ||
           beside_sum(wide, sizeof wide) != HOGZELT_WIDTHS_DIFFER ||
           beside_sum(shifted, sizeof shifted) != HOGZELT_SHIFTED_VARIABLE ||
           HOGZELT_TOO_MANY_VARIABLES != 12;
}
"""
JUDGE_ANSWER = """\
accepted, equal 0, place 0, index 3
accepted, equal 1, place 0, index 0
the widths of the two differ, equal 0, place 0, index 0
a shift by more than 0 over a variable, equal 0, place 0, index 0
"""


class Installed(Calls):
    def setUp(self):
        super().setUp()
        need(self, "cc")
        self.prefix = self.path("prefix")
        self.env = dict(os.environ)
        self.env.setdefault("HOGZELT_LIB", os.path.join(ROOT, build.ARCHIVE))
        out = self.sh(os.path.join(ROOT, "tools", "install.sh"), self.prefix)
        self.assertEqual(out, f"hogzelt 1.6.0: {os.path.realpath(self.prefix)}\n")

    def sh(self, *words, **env):
        done = subprocess.run(words, cwd=self.folder, env={**self.env, **env}, check=False,
                              stdout=subprocess.PIPE, stderr=subprocess.PIPE)
        self.assertEqual(done.returncode, 0, done.stderr.decode())
        return done.stdout.decode()

    def test_files(self):
        found = sorted(os.path.relpath(os.path.join(folder, name), self.prefix)
                       for folder, _, names in os.walk(self.prefix) for name in names)
        self.assertEqual(found, [
            "include/hogzelt.h", "lib/cmake/hogzelt/hogzelt-config-version.cmake",
            "lib/cmake/hogzelt/hogzelt-config.cmake", "lib/libhogzelt.a", "lib/libhogzelt.so",
            "lib/libhogzelt.so.1", "lib/libhogzelt.so.1.6.0", "lib/pkgconfig/hogzelt.pc"])
        self.assertIn("usage", self.refused("install.sh"))
        self.assertIn("usage", self.refused("install.sh", "--help"))

    def refused(self, name, *words):
        done = subprocess.run([os.path.join(ROOT, "tools", name), *words], stderr=subprocess.PIPE)
        self.assertEqual(done.returncode, 2)
        return done.stderr.decode()

    def test_archive(self):
        source = os.path.join(ROOT, "examples", "use.c")
        self.sh("cc", "-std=c99", "-Wall", "-Wextra", "-pedantic", "-Werror",
                f"-I{self.prefix}/include", source, f"{self.prefix}/lib/libhogzelt.a", "-o", "use")
        self.assertEqual(self.sh("./use"), ANSWER)

    def test_programs(self):
        for source, answer in ((RULES, RULES_ANSWER), (JUDGE, JUDGE_ANSWER)):
            for compiler, name in (("cc", "program.c"), ("c++", "program.cc")):
                need(self, compiler)
                self.sh(compiler, "-Wall", "-Wextra", "-pedantic", "-Werror",
                        f"-I{self.prefix}/include", self.path(name, source),
                        f"{self.prefix}/lib/libhogzelt.a", "-o", "program")
                self.assertEqual(self.sh("./program"), answer)

    def test_pkg_config(self):
        need(self, "pkg-config")
        self.sh(os.path.join(ROOT, "examples", "pkg-config", "build.sh"), self.path("use"),
                PKG_CONFIG_PATH=f"{self.prefix}/lib/pkgconfig")
        self.assertEqual(self.sh("./use", LD_LIBRARY_PATH=f"{self.prefix}/lib"), ANSWER)

    def test_cmake(self):
        need(self, "cmake", (3, 13))
        self.sh("cmake", "-S", os.path.join(ROOT, "examples", "cmake"), "-B", "build",
                f"-DCMAKE_PREFIX_PATH={self.prefix}")
        self.sh("cmake", "--build", "build")
        for name in ("use", "use-shared"):
            self.assertEqual(self.sh(f"build/{name}"), ANSWER)

    def test_moved(self):
        """What pkg-config and CMake are told does not name the folder that it was installed to."""
        for name in ("lib/pkgconfig/hogzelt.pc", "lib/cmake/hogzelt/hogzelt-config.cmake"):
            self.assertNotIn(self.folder.encode(), self.read(f"prefix/{name}"))


class Header(Calls):
    def setUp(self):
        super().setUp()
        with open(HEADER, encoding="ascii") as source:
            self.text = source.read()

    def test_constants(self):
        """The names of the header have the numbers of the Python package."""
        named = {name: int(value, 0) for name, value in re.findall(
            r"^(?:#define|   ) HOGZELT_([A-Z_]+)(?: =)? (?:UINT64_C\()?(0x[0-9A-F]+|[0-9]+)",
            self.text, re.M)}
        for number, name in enumerate(records.KIND_NAMES):
            self.assertEqual(named[name.upper()], number)
        for number in Pass:
            self.assertEqual(named[number.name], number)
        for name, value in (
            ("SUM", records.SUM), ("HEAD", records.HEAD), ("TERM", records.TERM),
            ("RECORD_BYTES", records.RECORD), ("FORM_BYTES", records.FORM_BYTES),
            ("EXPR_BYTES", records.RECORD * records.MOST_RECORDS), ("COLUMN_WORDS", COLUMN_WORDS),
            ("MOST_ATOMS", records.MOST_ATOMS), ("OPAQUE", OPAQUE),
            ("MOST_TREE_RECORDS", records.MOST_TREE_RECORDS),
            ("RUN_BYTES", records.RECORD * week.MOST_RECORDS),
        ):
            self.assertEqual(named[name], value, name)
        listed = self.text.partition("enum hogzelt_rules {")[2].partition("}")[0]
        self.assertEqual(re.findall(r"HOGZELT_(\w+) = ([0-9]+)", listed),
                         [("RULES_1", "1"), ("RULES_2", "2")])
        listed = self.text.partition("enum hogzelt_refusal {")[2].partition("}")[0]
        numbers = sorted(int(number) for number in re.findall(r"= ([0-9]+)", listed))
        self.assertEqual(numbers, [0, *sorted(refusals.REFUSALS)])

    def test_cpp(self):
        need(self, "c++")
        source = self.path("x.cc", b'#include "hogzelt.h"\nint main() { return hogzelt_version() !='
                                   b" HOGZELT_VERSION || !*hogzelt_refusal_text(8); }\n")
        subprocess.run(["c++", "-Wall", "-Wextra", "-pedantic", "-Werror", "-I",
                        os.path.dirname(HEADER), source, "-o", self.path("x")], check=True)
        subprocess.run([self.path("x")], check=True)
