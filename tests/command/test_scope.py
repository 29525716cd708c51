"""docs/SCOPE.md: its worked days, its example and its limits are those of the examples, the library and the definitions."""
import re
import unittest
from pathlib import Path

import plans
from plans.fields import prefix_tree

ROOT = Path(__file__).resolve().parents[2]
SCOPE = (ROOT / "docs" / "SCOPE.md").read_text()
DAYS = ROOT / "examples" / "worked_days"
NAMES = ("breakfast", "dinner", "lunch", "snack")


def section(heading: str) -> str:
    return SCOPE.split(f"\n## {heading}\n")[1].split("\n## ")[0]


def row_of(shown: str) -> tuple:
    """A row by the first letters of its names."""
    return () if shown == "the empty row" else tuple(NAMES["bdls".index(letter)] for letter in shown)


class Scope(unittest.TestCase):
    def test_worked_days(self):
        line = r"^\| ([PQ]\d+) \| ([^|]*) \| ([^|]*) \| (\d+), (\d+), (\d+), (\d+) \|"
        shown = re.findall(line, section("10. Worked days"), re.MULTILINE)
        self.assertEqual({row[0] for row in shown}, {path.stem for path in DAYS.glob("[PQ]*.txt")})
        for day, class_shown, rows, *numbers in shown:
            named_class = None if class_shown == "none" else plans.read_class(class_shown)
            book = plans.Book(NAMES, named_class, tuple(map(row_of, rows.split(", "))))
            self.assertEqual(plans.read_text((DAYS / (day + ".txt")).read_bytes()).book(), book, day)
            built = plans.build(book)
            found = (len(prefix_tree(book.rows)), built.states, built.joins, built.distinct)
            self.assertEqual(tuple(map(int, numbers)), found, day)

    def test_joining_step_by_step(self):
        shown = section("7. From rows to a table").split("```\n")[1]
        self.assertEqual(shown, (DAYS / "Q2.listing").read_text())

    def test_example(self):
        text = section("8. The listing")
        book, table = map(bytes.fromhex, re.findall(r"^    ([0-9A-F ]+)$", text, re.MULTILINE))
        self.assertEqual(table, plans.build(book).table)
        self.assertEqual(text.split("```\n")[1], plans.list_book(book))

    def test_fields_shown(self):
        shown = re.findall(r"^\| (0\d) \| .* \| `([0-9A-F ]+)`: ", section("3. Fields"), re.MULTILINE)
        self.assertEqual([mark for mark, _ in shown], ["01", "02", "03", "04", "05"])
        for mark, field in shown:
            data = bytes.fromhex(field)
            self.assertEqual((data[0], int.from_bytes(data[1:3], "big")), (int(mark), len(data) - 3))

    def test_plan(self):
        text = section("11. Plans")
        plan = re.search(r"^    (<.*>)$", text, re.MULTILINE)[1].encode()
        self.assertEqual(plans.read_rows(plan, ("day", "lunch", "snack"), "day"), (("lunch", "snack"), ()))
        for plan, number, letter in [("<ab></a>", 14, ">"), ('<day><soup a="1"/></day>', 16, " "), ('<day><soup="1"/></day>', 14, "=")]:
            self.assertIn(f"`{plan}`", text)
            with self.assertRaises(plans.Refused) as caught:
                plans.read_rows(plan.encode(), ("day",), "day")
            self.assertEqual((caught.exception.number, plan[caught.exception.offset]), (number, letter))

    def test_counts(self):
        book, table = map(bytes.fromhex, re.findall(r"^    ([0-9A-F ]+)$", section("8. The listing"), re.MULTILINE))
        text = section("12. How often each way is used")
        self.assertIn("The rows ss and, twice, sss, with context, k = 1, h = 1:", text)
        rows = tuple(("snack",) * length for length in (2, 3, 3))
        counted = [plans.build_counted(book), plans.build_counted(plans.Book(("snack",), plans.Class(0, 1, 1), rows))]
        self.assertEqual([bytes.fromhex(shown) for shown in re.findall(r"^    ([0-9A-F ]+)$", text, re.MULTILINE)],
                         [one.counts for one in counted])
        self.assertEqual([one.table for one in counted], [table, table])
        state = r"state \d has ends (\d+),\s(?:[^;:.]*?)passed (?:.*?, )?(\d+) times"
        told = [tuple(map(int, numbers)) for numbers in re.findall(state, text)]
        self.assertEqual(told, [(one.ends, one.passes[0][1]) for one in plans.read_counts(counted[1].counts, table)])

    def test_state_with_no_way_to_an_end(self):
        shown = re.findall(r"^    ([0-9A-F ]+)$", section("13. A state with no way to an end"), re.MULTILINE)
        table = bytes.fromhex("".join(shown))
        self.assertEqual(table, (ROOT / "examples" / "tables" / "supplier.table").read_bytes())
        self.assertEqual(plans.read_table(table).dead_states, (2,))
        self.assertEqual(plans.walk(table, ("dinner",)), plans.Walked(plans.Outcome.STOPS, (), ("breakfast",)))

    def test_limits(self):
        limits = "".join(path.read_text() for path in ROOT.glob("crates/*/specs/Limits.antt"))
        shown = re.findall(r"^\| [^|]* \| ([\d,]+) \| `([a-z_]+)` \|$", section("9. Limits"), re.MULTILINE)
        self.assertEqual([name for number, name in shown if f"\n{name} = {number.replace(',', '')}\n" not in limits], [])
        self.assertEqual(len(shown), 9)
        number_of = {name: int(number.replace(",", "")) for number, name in shown}
        bounds = re.findall(r"([\d,]+)\s(?:bytes\s)?\(`([a-z_]+)`\)", section("9. Limits"))
        self.assertEqual([name for _, name in bounds], ["table_bytes", "listing_bytes", "rows_bytes", "counts_bytes"])
        self.assertEqual([name for number, name in bounds[:2] if f"\n{name} = {number.replace(',', '')}\n" not in limits], [])
        self.assertIn("\nrows_bytes = book_rows * (3 + row_limit)\n", limits)
        self.assertEqual(bounds[2][0], f"{number_of['book_rows'] * (3 + number_of['row_limit']):,}")
        self.assertIn("\ncounts_bytes = 5 * state_limit + 2 * state_limit\n", limits)
        self.assertEqual(bounds[3][0], f"{7 * number_of['state_limit']:,}")

    def test_refusals(self):
        numbers = re.findall(r"^\| (\d+) \|", section("4. What a call gives back"), re.MULTILINE)
        self.assertEqual(list(map(int, numbers)), [number for number in plans.REFUSALS if number])
