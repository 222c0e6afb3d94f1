"""README's walkthrough as it stands: each command prints there what it prints here."""

import os
import subprocess
import sys

from hogzelt import normalize
from hogzelt.command.picture import picture_of
from hogzelt.command.svg import svg_text

from calling import Calls
from samples import ROOT, need


class Readme(Calls):
    def setUp(self):
        super().setUp()
        with open(os.path.join(ROOT, "README.md"), encoding="utf-8") as source:
            self.text = source.read()

    def steps(self):
        """The commands behind '$ ', each with the lines that stand below it."""
        found = []
        for line in self.text.split("\n"):
            if line.startswith("    $ "):
                found.append((line[6:], []))
            elif found and (line.startswith("    ") or not line):
                found[-1][1].append(line[4:])
            elif found:
                yield from found
                found = []

    def test_walkthrough(self):
        need(self, "cc")
        for name in ("bindings", "crates", "examples", "include", "target", "tools"):
            os.symlink(os.path.join(ROOT, name), self.path(name))
        os.mkdir(self.path("bin"))  # the library is built: rt has nothing to do
        os.chmod(self.path("bin/rt", b'#!/bin/sh\n[ "$*" = lib ]\n'), 0o755)
        path = os.pathsep.join((self.path("bin"), os.path.dirname(sys.executable),
                                os.environ["PATH"]))
        env = {**os.environ, "PATH": path, "PYTHONDONTWRITEBYTECODE": "1"}
        steps = list(self.steps())
        self.assertGreaterEqual(len(steps), 8)
        for command, expected in steps:
            with self.subTest(command=command):
                done = subprocess.run(["sh", "-c", command], cwd=self.folder, env=env,
                                      stdout=subprocess.PIPE, stderr=subprocess.STDOUT)
                self.assertEqual(done.stdout.decode().rstrip(), "\n".join(expected).rstrip())

    def test_picture(self):
        """The picture is what hogzelt draw makes of the expression that stands first."""
        expression = self.text.partition("shorten -w 8 '")[2].partition("'")[0]
        with open(os.path.join(ROOT, "docs", "picture.svg"), encoding="utf-8") as source:
            self.assertEqual(source.read(), svg_text(picture_of(normalize(expression, 8))))
