"""crates/*/must-fail/*.edit: each says first what it makes wrong, its old text is there, and docs/PROOFS.md counts them."""
import re
import unittest
from pathlib import Path

ROOT = Path(__file__).resolve().parents[2]
EDITS = {path: path.read_text() for path in ROOT.glob("crates/*/must-fail/*.edit")}
COUNTED = r"There are (\d+) edits: (\d+) of programs, .* and (\d+) of definitions or contracts"


def of_statement(text: str) -> bool:
    """The edit changes a definition or a contract, and not a program."""
    return re.search(r"^file: specs/|^old: *(requires|ensures) ", text, re.MULTILINE) is not None


class Edits(unittest.TestCase):
    def test_counted(self):
        counted = re.search(COUNTED, (ROOT / "docs" / "PROOFS.md").read_text().replace("\n", " "))
        statements = len(list(filter(of_statement, EDITS.values())))
        self.assertEqual(tuple(map(int, counted.groups())), (len(EDITS), len(EDITS) - statements, statements))

    def test_old_text_stands_once_in_its_file(self):
        """An edit whose file or text has moved away changes nothing."""
        stale = []
        for path, text in EDITS.items():
            # most change one file; one that renames what a proof answers changes the proof too
            for part in re.split(r"^file: *", text, flags=re.MULTILINE)[1:]:
                source = path.parents[1] / part.split("\n")[0]
                code = source.read_text() if source.is_file() else ""
                old = re.findall(r"^old: (.*)$", part, re.MULTILINE)
                if not old or any(code.count(line) != 1 for line in old):
                    stale.append(str(path.relative_to(ROOT)))
            if "\nfile: " not in text:
                stale.append(str(path.relative_to(ROOT)))
        self.assertEqual(sorted(stale), [])

    def test_says_what_it_makes_wrong(self):
        self.assertEqual([path for path, text in EDITS.items() if not text.startswith("# ")], [])
