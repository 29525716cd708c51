"""The listing program itself, target/bin/listing, on what docs/SCOPE.md shows of it."""
import subprocess
import unittest
from pathlib import Path

INPUT_LIMIT = 65535
PROGRAM = Path(__file__).resolve().parents[2] / "target" / "bin" / "listing"
EXAMPLE = bytes.fromhex("01 00 05 73 6E 61 63 6B 02 00 03 00 01 01 03 00 02 00 00")


class Listing(unittest.TestCase):
    def printed(self, data: bytes) -> str:
        return subprocess.run([PROGRAM], input=data, check=True, capture_output=True).stdout.decode()

    def test_the_example_book(self):
        self.assertEqual(self.printed(EXAMPLE), "states 2 joins 1 distinct 1\n0 - snack>1\n1 + snack>1\n")

    def test_empty_input(self):
        self.assertEqual(self.printed(b""), "refused 4\n")

    def test_the_longest_input_and_one_byte_more(self):
        self.assertEqual(self.printed(bytes(INPUT_LIMIT)), "refused 3\n")
        self.assertEqual(self.printed(bytes(INPUT_LIMIT + 1)), "refused 1\n")

    def test_arguments_are_told_how_it_is_used(self):
        ran = subprocess.run([PROGRAM, "days.book"], stdin=subprocess.DEVNULL, check=True, capture_output=True)
        self.assertEqual(ran.stdout, b"")
        self.assertRegex(ran.stderr, rb"\Ausage: listing < days\.book [^\n]*\n\Z")
