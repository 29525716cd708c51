"""docs/ARCHITECTURE.md and its drawing speak of the crates that crates.txt lists. Graphviz is not needed."""
import re
import unittest
from importlib.machinery import SourceFileLoader
from importlib.util import module_from_spec, spec_from_loader
from pathlib import Path

ROOT = Path(__file__).resolve().parents[2]
LOADER = SourceFileLoader("crates", str(ROOT / "scripts" / "crates"))
SCRIPT = module_from_spec(spec_from_loader("crates", LOADER))
LOADER.exec_module(SCRIPT)
CRATES = SCRIPT.read_crates(ROOT / "crates.txt")


class Crates(unittest.TestCase):
    def test_drawing_is_of_crates_txt(self):
        titles = re.findall("<title>(.*)</title>", (ROOT / "docs" / "images" / "crates.svg").read_text())
        arrows = {f"{name}&#45;&gt;{other}" for name in CRATES for other in SCRIPT.needed(CRATES, name)}
        self.assertEqual(set(titles) - {"%3"}, arrows | set(CRATES))

    def test_each_crate_has_its_line(self):
        lines = re.findall(r"^\| `(\w+)` \|", (ROOT / "docs" / "ARCHITECTURE.md").read_text(), re.MULTILINE)
        self.assertEqual(sorted(lines), sorted(CRATES))

    def test_arrows_that_others_imply_are_left_out(self):
        cites = {"a": ["b", "c"], "b": ["c"], "c": []}
        self.assertEqual([SCRIPT.needed(cites, name) for name in cites], [["b"], ["c"], []])
