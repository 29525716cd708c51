"""The command run as people run it, in a folder of its own."""
import os
import subprocess
import sys
import tempfile
import unittest
from pathlib import Path

ROOT = Path(__file__).resolve().parents[2]
PLANS = str(ROOT / "scripts" / "plans")


class InFolder(unittest.TestCase):
    """A test with a folder of its own."""

    def setUp(self):
        folder = tempfile.TemporaryDirectory()
        self.addCleanup(folder.cleanup)
        self.folder = Path(folder.name)

    def put(self, name: str, data) -> str:
        (self.folder / name).write_bytes(data.encode() if isinstance(data, str) else data)
        return name

    def left(self) -> list:
        """What stands in the folder."""
        return sorted(path.name for path in self.folder.iterdir())

    def plans(self, *words: str, **settings) -> subprocess.CompletedProcess:
        settings = {"stdin": subprocess.DEVNULL, **settings} if "input" not in settings else settings
        environment = {**os.environ, **settings.pop("env", {})}
        settings = {"stdout": subprocess.PIPE, "stderr": subprocess.PIPE, **settings}
        command = [sys.executable, "-B", PLANS, *words]
        return subprocess.run(command, cwd=self.folder, check=False, env=environment, timeout=60, **settings)

    def answers(self, status: int, out: str, *words: str, said: str = "", **settings):
        """The exit status, and what is printed on standard output and on standard error."""
        done = self.plans(*words, **settings)
        found = done.returncode, done.stdout.decode(), done.stderr.decode()
        self.assertEqual(found, (status, out, said), words)

    def fails(self, said: str, *words: str, **settings):
        """An error: one line, status 2, nothing on standard output and nothing left behind."""
        before = self.left()
        self.answers(2, "", *words, said=said + "\n", **settings)
        self.assertEqual(self.left(), before)
