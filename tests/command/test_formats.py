"""docs/FORMATS.md and docs/SOURCES.md: the bytes, listings, refusals and counts that they show are those of the programs."""
import re
import unittest
from pathlib import Path

import plans
from plans import library
from plans.fields import prefix_tree
from samples import plainly

ROOT = Path(__file__).resolve().parents[2]
FORMATS = (ROOT / "docs" / "FORMATS.md").read_text()
SOURCES = (ROOT / "docs" / "SOURCES.md").read_text()
EXAMPLES = ROOT / "examples"


def block_under(heading: str) -> str:
    """The first fenced block under the heading."""
    return FORMATS.split(f"\n## {heading}\n")[1].split("```\n")[1]


def bytes_of(block: str) -> bytes:
    """The bytes at the front of the block's lines; two blanks or more end them."""
    return b"".join(bytes.fromhex(line.split("  ")[0]) for line in block.splitlines())


def bytes_shown(heading: str) -> bytes:
    return bytes_of(block_under(heading))


def counts_shown() -> list:
    """The counts files of the book above them, and of that with two rows more, which the page names."""
    return [bytes_of(block) for block in FORMATS.split("\n## Its counts\n")[1].split("\n## ")[0].split("```\n")[1::2]]


def counted_books() -> list:
    book = plans.read_book(bytes_shown("A book"))
    return [book, plans.Book(book.names, book.named_class, (*book.rows, ("lunch",), ("lunch", "snack", "snack", "snack")))]


def walked_as(outcome: str, beginning: str, following: str) -> plans.Walked:
    """What a walk tells, by the cells that show it."""
    ended = plans.Outcome[outcome.upper().replace(" ", "_")]
    names = () if following == "none" else tuple(following.split(", "))
    return plans.Walked(ended, () if beginning == "empty" else tuple(beginning.split()), names)


def book_at(path: Path) -> plans.Book:
    return plans.read_text(path.read_bytes()).book()


def counts(path: Path) -> tuple:
    """States of the prefix tree, states, joins, different rows: the second and third as the listing has them."""
    rows = book_at(path).rows
    first_line = rf"states (\d+) joins (\d+) distinct {len(set(rows))}\n"
    return len(prefix_tree(rows)), *map(int, re.match(first_line, path.with_suffix(".listing").read_text()).groups()), len(set(rows))


class Formats(unittest.TestCase):
    def test_book_table_listing_and_text(self):
        data = bytes_shown("A book")
        self.assertEqual(plans.list_book(data), block_under("Its listing"))
        self.assertEqual(plans.write_book(plans.read_text(block_under("A book as text")).book()), data)
        self.assertEqual(bytes_shown("Its table"), plans.build(data).table)

    def test_counts(self):
        counted = [plans.build_counted(book) for book in counted_books()]
        self.assertEqual([one.counts for one in counted], counts_shown())
        self.assertEqual([one.table for one in counted], 2 * [bytes_shown("Its table")])
        words = {"no": 0, "one": 1, "two": 2, "once": 1, "twice": 2, "three times": 3, "four times": 4}
        section = FORMATS.split("\n## Its counts\n")[1].split("\n## ")[0]
        said = re.findall(r"(no|one|two) rows? ends? there .*; (?:lunch|snack) is passed (once|twice|three times|four times) ", section)
        read = [state for one in counted for state in plans.read_counts(one.counts, one.table)]
        self.assertEqual([(words[ends], words[passed]) for ends, passed in said], [(one.ends, one.passes[0][1]) for one in read])

    def test_state_that_leads_to_no_end(self):
        heading = "A table with a state that leads to no end"
        data = bytes_shown(heading)
        self.assertEqual(data, (EXAMPLES / "tables" / "supplier.table").read_bytes())
        in_c = re.search(r"suppliers\[\] = \{(.*?)\};", (EXAMPLES / "walk.c").read_text(), re.DOTALL)[1]
        self.assertEqual(data, bytes.fromhex("".join(re.findall("0x(..)", in_c))))
        section = FORMATS.split(f"\n## {heading}\n")[1].split("\n## ")[0]
        none = bytes_of("".join(line + "\n" for line in block_under(heading).splitlines()[:3]) + section.split("```\n")[3])
        cells = 2 * r" (admitted|on the way|stops) \| ([a-z ]+) \| ([a-z, ]+) \|"
        shown = re.findall(rf"^\| ([a-z ]+) \|{cells}$", section, re.MULTILINE)
        self.assertEqual(len(shown), 5)
        for day, *told in shown:
            row = () if day == "the empty row" else tuple(day.split())
            self.assertEqual(plainly(plans.read_table(data), row), walked_as(*told[3:]))
            self.assertEqual(plans.walk(data, row), walked_as(*told[:3]))
            self.assertEqual(plans.walk(none, row), walked_as("stops", "empty", "none"))
        self.assertEqual(plainly(plans.read_table(none), 2 * ("breakfast",)), walked_as("on the way", "breakfast breakfast", "breakfast"))

    def test_plan_list_and_rows(self):
        names = bytes_shown("A plan, its list of names and its rows")
        shown = re.findall(r"^\| `([0-9A-F ]+)` \| (?:`(.+)`|a line end) \| [^|]*\|(?: `([0-9A-F ]+)`)? \|$", FORMATS, re.MULTILINE)
        plan, rows = (b"".join(bytes.fromhex(line[column]) for line in shown) for column in (0, 2))
        self.assertEqual("".join(text or "\n" for _, text, _ in shown).encode(), plan)
        self.assertEqual(library.plan_rows(plan, names, 0)[1], rows)
        self.assertEqual(plans.read_book(names + rows).rows, (("lunch", "snack"), ()))

    def test_places_of_refusals(self):
        shown = re.findall(r"^\| `(<.*>)` \| (\d+) at (\d+), (?:the `(.)`|the (blank)|the end)", FORMATS, re.MULTILINE)
        self.assertEqual(len(shown), 8)
        for plan, number, at, letter, blank in shown:
            with self.assertRaises(plans.Refused) as caught:
                plans.read_rows(plan.encode(), ("day", "lunch", "snack"), "day")
            self.assertEqual((caught.exception.number, caught.exception.offset), (int(number), int(at)), plan)
            self.assertEqual(plan[int(at):int(at) + 1], " " if blank else letter, plan)

    def test_refusals(self):
        shown = re.findall(r"^\| (\d+) \| [^|]* \| `([0-9A-F ]+)`", FORMATS, re.MULTILINE)
        self.assertEqual([number for number, _ in shown], ["2", "3", "4", "5", "6", "8", "9", "11", "12", "14", "15", "16"])
        for number, data in ((int(number), bytes.fromhex(data)) for number, data in shown):
            with self.assertRaises(plans.Refused) as caught:
                if number < 14:
                    (plans.build if number < 10 else plans.rewrite)(data)
                plans.read_rows((16 * b"<a>" if number == 15 else b"") + data, ("a",), "a")
            self.assertEqual(caught.exception.number, number)

    def test_shipped_books(self):
        shown = re.findall(r"^\| `(\w+)` \| [^|]* \| [^|]* \| (\d+), (\d+) \| (\d+), (\d+), (\d+), (\d+) \|$", FORMATS, re.MULTILINE)
        self.assertEqual(sorted(row[0] for row in shown), sorted(path.stem for path in (EXAMPLES / "books").glob("*.txt")))
        for name, *numbers in shown:
            path = EXAMPLES / "books" / (name + ".txt")
            book = book_at(path)
            found = (len(book.rows), len(book.names)) + counts(path)
            self.assertEqual(tuple(map(int, numbers)), found, name)


class Sources(unittest.TestCase):
    def test_counts(self):
        shown = re.findall(r"^\| `(\w+)` \| [^|]* \| [^|]* \| (\d+)[^|]* \| (\d+), (\d+), (\d+), (\d+) \|", SOURCES, re.MULTILINE)
        texts = {path.stem: path for path in (EXAMPLES / "sources").glob("*.txt")}
        self.assertEqual({row[0] for row in shown}, set(texts))
        for name, rows, *numbers in shown:
            self.assertEqual(int(rows), len(book_at(texts[name]).rows), name)
            self.assertEqual(tuple(map(int, numbers)), counts(texts[name]), name)

    def test_listings_shown(self):
        for path in (EXAMPLES / "sources").glob("*.listing"):
            self.assertIn("```\n" + path.read_text() + "```\n", SOURCES, path)
