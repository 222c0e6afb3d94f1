"""The command, called in this process or as one of its own."""

from __future__ import annotations

import contextlib
import io
import os
import subprocess
import sys
import tempfile
import unittest

import samples
from hogzelt.command.main import main


class Calls(unittest.TestCase):
    def setUp(self) -> None:
        folder = tempfile.TemporaryDirectory()
        self.addCleanup(folder.cleanup)
        self.folder = folder.name

    def path(self, name: str, data: bytes | None = None) -> str:
        path = os.path.join(self.folder, name)
        if data is not None:
            with open(path, "wb") as out:
                out.write(data)
        return path

    def read(self, name: str) -> bytes:
        with open(self.path(name), "rb") as source:
            return source.read()

    def call(self, *words: str, status: int | None = 0) -> tuple[str, str]:
        """In this process: what goes to standard output and to standard error. Any status is right
        where none is given."""
        out, err = io.StringIO(), io.StringIO()
        with contextlib.redirect_stdout(out), contextlib.redirect_stderr(err):
            found = main(list(words))
        self.assertIn(status, (found, None), err.getvalue())
        return out.getvalue(), err.getvalue()

    def run_tool(
        self, *words: str, data: bytes = b"", status: int = 0, **env: str
    ) -> tuple[bytes, str]:
        """As a process of its own."""
        done = subprocess.run([sys.executable, "-B", samples.COMMAND, *words], input=data,
                              env={**os.environ, **env}, cwd=self.folder, stdout=subprocess.PIPE,
                              stderr=subprocess.PIPE)
        self.assertEqual(done.returncode, status, done.stderr)
        return done.stdout, done.stderr.decode()
