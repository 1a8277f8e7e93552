"""What the tests of ./tg18 from outside share."""

import subprocess
import sys
import tempfile
import unittest
from pathlib import Path

from desk.build import ROOT


def tg18(*words, stdin=b"", env=None, stdout=subprocess.PIPE):
    command = [sys.executable, "-B", str(ROOT / "tg18"), *map(str, words)]
    return subprocess.run(command, input=stdin, stdout=stdout, stderr=subprocess.PIPE, env=env)


class Outside(unittest.TestCase):
    def setUp(self):
        folder = tempfile.TemporaryDirectory()
        self.addCleanup(folder.cleanup)
        self.folder = Path(folder.name)

    def file(self, name, content):
        path = self.folder / name
        path.write_bytes(content)
        return path

    def expect(self, done, status, *said):
        self.assertEqual(done.returncode, status, done.stderr)
        for part in said:
            self.assertIn(part, done.stderr.decode())
        if status != 0:
            self.assertIn(done.stdout, (None, b""))
