"""scripts/seeded-fault: its faults are those of tests/outside/fault/shim.c, and docs/PROOFS.md shows what it prints."""
import re
import unittest

from commands import ROOT


class Faults(unittest.TestCase):
    def setUp(self):
        listed = re.search(r"<<'FAULTS'\n(.*?)^FAULTS$", (ROOT / "scripts" / "seeded-fault").read_text(), re.DOTALL | re.MULTILINE).group(1)
        self.faults = [line.split() for line in listed.splitlines()]

    def test_each_is_in_the_shim_and_none_else(self):
        in_shim = re.findall(r'\bis\("(\w+)"\)', (ROOT / "tests" / "outside" / "fault" / "shim.c").read_text())
        self.assertEqual(sorted(in_shim), sorted(fault for fault, _ in self.faults))

    def test_document_shows_what_is_printed(self):
        told = [f"{fault}: {call} is shown with a mismatch: yes" for fault, call in self.faults]
        printed = ["no fault: the comparison passes: yes", *told, f"{1 + len(told)} passed, 0 failed"]
        self.assertIn("\n".join(["```", *printed, "```"]), (ROOT / "docs" / "PROOFS.md").read_text())
