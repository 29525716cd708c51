"""The examples of the documents, the man page and --help, run as they stand and compared; those for the clinic once more through a
pseudo-terminal. In Markdown an example is a block marked `console`: lines with `$ ` are commands, what follows is what they print."""
import os
import pty
import re
import shutil
import subprocess
import unittest

import plans
from commands import PLANS, ROOT, InFolder
from plans import helps

NOT_RUN = ("make", "git", "cd", "sudo", "export")  # what sets a machine up; the rest is run


def examples(lines: list) -> list:
    """Each command with what it prints."""
    found = []
    for line in lines:
        if line.startswith("$ "):
            found.append((line[2:], []))
        elif found:
            found[-1][1].append(line)
    return [(command, "".join(line + "\n" for line in printed)) for command, printed in found if command.split()[0] not in NOT_RUN]


def in_markdown(name: str) -> list:
    blocks = re.findall(r"^```console\n(.*?)^```", (ROOT / name).read_text(), re.MULTILINE | re.DOTALL)
    return [example for block in blocks for example in examples(block.splitlines())]


def in_man_page() -> list:
    blocks = re.findall(r"^\.EX\n(.*?)^\.EE", (ROOT / "docs" / "plans.1").read_text(), re.MULTILINE | re.DOTALL)
    plain = "".join(blocks).replace("\\-", "-").replace("\\e", "\\")
    return examples(plain.splitlines())


def in_help(name: str) -> list:
    return examples([line[2:] for line in helps.SUBCOMMANDS[name].split("\n\n")[-1].splitlines()])


class Examples(InFolder):
    """The folder has the repository's examples and scripts, and `plans` is found."""

    def setUp(self):
        super().setUp()
        shutil.copytree(ROOT / "examples", self.folder / "examples")
        os.symlink(ROOT / "scripts", self.folder / "scripts")
        os.mkdir(self.folder / "bin")
        os.symlink(PLANS, self.folder / "bin" / "plans")
        self.environment = {**os.environ, "PATH": f"{self.folder / 'bin'}:{os.environ['PATH']}"}

    def compared(self, found: list, least: int):
        self.assertGreaterEqual(len(found), least)
        for command, printed in found:
            done = subprocess.run(["bash", "-c", command], cwd=self.folder, env=self.environment, stdout=subprocess.PIPE,
                                  stderr=subprocess.STDOUT, stdin=subprocess.DEVNULL, check=False)
            self.assertEqual(done.stdout.decode(), printed, command)

    def test_readme(self):
        self.compared(in_markdown("README.md"), 2)

    def test_formats(self):
        self.compared(in_markdown("docs/FORMATS.md"), 2)

    def test_man_page(self):
        self.compared(in_man_page(), 8)

    def test_help(self):
        for name in helps.SUBCOMMANDS:
            self.compared(in_help(name), 1)

    def in_terminal(self, command: str) -> tuple:
        """What a terminal shows, and the exit status."""
        ours, theirs = pty.openpty()
        with subprocess.Popen(["bash", "-c", command], cwd=self.folder, env=self.environment, stdin=theirs, stdout=theirs,
                              stderr=theirs) as process:
            os.close(theirs)
            shown = b""
            try:
                while True:
                    shown += os.read(ours, 4096)
            except OSError:  # the other end is closed
                pass
            os.close(ours)
        return shown.decode().replace("\r\n", "\n"), process.returncode

    def test_in_a_terminal(self):
        for command, printed in in_markdown("README.md"):
            self.assertEqual(self.in_terminal(command)[0], printed, command)
        refused = "plans: this is no text for a terminal; say where to write it, as -o FILE\n"
        self.assertEqual(self.in_terminal("plans build examples/books/days.book"), (refused, 2))


class Paths(unittest.TestCase):
    """What the documents name in backquotes is there. Words such as NAME, and wildcards, stand for any."""
    PATH = re.compile(r"`((?:crates|tests|scripts|docs|python|include|examples)/[^`\s]*)`")
    ANY = re.compile(r"NAME|MODULE|[*?]")

    def test_each_is_there(self):
        pages = [ROOT / "README.md", *ROOT.glob("docs/*.md")]
        found = {(page.name, path) for page in pages for path in self.PATH.findall(page.read_text())}
        self.assertGreater(len(found), 20)
        missing = [(page, path) for page, path in found if not self.ANY.search(path) and not (ROOT / path).exists()]
        self.assertEqual(sorted(missing), [])


class ManPage(unittest.TestCase):
    PAGE = (ROOT / "docs" / "plans.1").read_text()

    def test_version(self):
        self.assertIn(f'"plans {plans.__version__}"', self.PAGE)

    def test_synopsis_is_that_of_help(self):
        synopsis = re.search(r"\.SH SYNOPSIS\n\.nf\n(.*?)\.fi", self.PAGE, re.DOTALL)[1]
        plain = re.sub(r"\\f[BIR]", "", synopsis).replace("\\-", "-").splitlines()
        self.assertEqual(plain, [text.splitlines()[0] for text in helps.SUBCOMMANDS.values()])

    def test_formatted_without_a_warning(self):
        if shutil.which("groff"):
            command = ["groff", "-man", "-ww", "-z", str(ROOT / "docs" / "plans.1")]
            done = subprocess.run(command, capture_output=True, text=True, check=False)
            self.assertEqual((done.returncode, done.stderr), (0, ""))
