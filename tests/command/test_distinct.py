"""How many different rows there are: the module, the command and the listing's first line say the same of generated books with copies;
the words for it; and that a refused call and a rewriting tell no such number."""
import dataclasses
import itertools
import random
import re

import plans
from commands import InFolder
from plans import library
from plans.showing import different
from reference import book_bytes, field
from samples import a_sample, a_small_sample, book_of, with_copies

COPIES = r"(?: \((\d+) (?:is a copy|are copies)\))?"


def numbers_in(pattern: str, said: str) -> tuple:
    """The numbers of the first words that match, 0 for those left out."""
    return tuple(int(number or 0) for number in re.search(pattern, said, re.MULTILINE).groups())


class Agreement(InFolder):
    def test_module_command_and_first_line(self):
        draw = random.Random(41)
        copies_seen = set()
        for _ in range(25):
            sample = with_copies(draw, a_sample(draw, rows=(1, 2, 10, 40), lengths=(0, 1, 3, 8)))
            given, count = len(sample.rows), len(set(sample.rows))
            data = book_bytes(sample)
            built = plans.build(data)
            first_line = f"states {built.states} joins {built.joins} distinct {count}"
            self.assertEqual(built.distinct, count, sample)
            self.assertEqual(plans.list_book(data).splitlines()[0], first_line)
            self.put("days.book", data)
            self.put("days.txt", plans.write_text(book_of(sample)))
            said = self.plans("build", "days.book", "-o", "days.table").stderr.decode()
            self.assertEqual(numbers_in(rf"^days\.table: .* joins?, (\d+) different rows?{COPIES}, ", said), (count, given - count), said)
            listed = self.plans("list", "days.txt")
            self.assertEqual(listed.stdout.decode().splitlines()[0], first_line)
            said = listed.stderr.decode()
            told = numbers_in(rf"^days\.txt: (\d+) days?, (\d+) different days?{COPIES}; ", said)
            self.assertEqual(told, (given, count, given - count), said)
            self.assertEqual(self.plans("list", "days.table").stdout.decode().splitlines()[0], f"states {built.states}")
            copies_seen.add(min(given - count, 2))
        self.assertEqual(copies_seen, {0, 1, 2})

    def test_copies_and_order_change_nothing(self):
        draw = random.Random(42)
        for _ in range(500):
            sample = a_small_sample(draw)
            self.assertEqual(plans.build(book_of(with_copies(draw, sample))), plans.build(book_of(sample)), sample)

    def test_as_many_as_a_book_may_have(self):
        """All rows of eight out of two names: 256, a tree of 511 states; and the first of them 256 times."""
        rows = [tuple(row) for row in itertools.product(("lunch", "tea"), repeat=8)]
        self.assertEqual(plans.build(plans.Book(("lunch", "tea"), None, tuple(rows))).distinct, 256)
        self.assertEqual(plans.build(plans.Book(("lunch", "tea"), None, 256 * tuple(rows[:1]))).distinct, 1)

    def test_plans_rows(self):
        self.put("week.xml", "<week>" + 3 * "<day><lunch/></day>" + "<day/></week>")
        self.answers(0, "", "rows", "week.xml", "--element", "day", "-o", "week.book", said=(
            "week.xml: 4 rows\n1 plan: 4 rows, 2 different rows (2 are copies); 2 names:\n  day 0, lunch 3\nweek.book: 29 bytes\n"))
        self.answers(0, "states 2 joins 0 distinct 2\n0 + lunch>1\n1 +\n", "list", "week.book")


class Words(InFolder):
    def test_one_and_many(self):
        self.assertEqual(different(1, 1, "day"), "1 different day")
        self.assertEqual(different(2, 2, "day"), "2 different days")
        self.assertEqual(different(1, 2, "row"), "1 different row (1 is a copy)")
        self.assertEqual(different(10, 40, "row"), "10 different rows (30 are copies)")
        self.assertEqual(different(1200, 2400, "day"), "1,200 different days (1,200 are copies)")

    def test_the_forty_days(self):
        self.put("days.txt", 4 * "".join(f"lunch {name}\n" for name in "abcdefghij"))
        self.answers(0, "", "book", "-q", "days.txt", "-o", "days.book")
        told = "out: 12 states, 0 joins, 10 different rows (30 are copies), 135 bytes\n"
        self.answers(0, "", "build", "days.book", "-o", "out", said=told)
        self.answers(0, "", "build", "-q", "days.book", "-o", "out")
        self.answers(0, "days.book: accepted: a book of 11 names, 40 rows, 10 different rows (30 are copies)\n"
                        "days.txt: accepted: a text of 40 days, 10 different days (30 are copies), 11 names\n",
                     "check", "-q", "days.book", "days.txt")

    def test_more_days_than_a_book_may_have(self):
        """All that were typed are counted; the book that is built has each once."""
        self.put("days.txt", 150 * "lunch\nlunch tea\n")
        self.answers(0, "days.txt: accepted: a text of 300 days, 2 different days (298 are copies), 2 names\n", "check", "-q", "days.txt")
        said = self.plans("build", "days.txt", "-o", "out").stderr.decode().splitlines()
        self.assertEqual(said[0], "days.txt: 300 days, 2 different days (298 are copies); 2 names:")
        self.assertEqual(said[-1], "out: 3 states, 0 joins, 2 different rows, 38 bytes")


class NoNumber(InFolder):
    NAME = field(1, b"lunch")

    def fields_of(self, call: str, data: bytes, room: int = 65535) -> dict:
        """What a call gives back, by the names of its fields."""
        result = library.written_by(call, data, room)[0]
        return {name: getattr(result, name) for name, _ in result._fields_}

    def test_refused(self):
        good = self.NAME + field(3, b"\x00") + field(3, b"\x00")
        thirteen = b"".join(field(1, bytes([letter])) for letter in b"abcdefghijklm")
        too_large = thirteen + b"".join(field(3, bytes([name] + 39 * [0])) for name in range(13))
        none = {"length": 0, "states": 0, "joins": 0, "distinct": 0}
        for data, room, number in [(b"", 65535, 4), (good + b"\x03", 65535, 2), (good + field(3, b"\x01"), 65535, 9),
                                   (too_large, 65535, 10), (good, 8, 13)]:
            self.assertEqual(self.fields_of("plans_build", data, room), {"refusal": number, **none})
        self.assertEqual(self.fields_of("plans_build", good)["distinct"], 1)
        with self.assertRaises(plans.Refused) as caught:
            plans.build(too_large)
        self.assertEqual(caught.exception.number, 10)
        self.put("bad.book", good + b"\x03")
        self.fails(f"bad.book: offset {len(good)}: refusal 2: {plans.REFUSALS[2]}", "build", "bad.book", "-o", "out")

    def test_rewriting(self):
        table = plans.build(self.NAME + field(3, b"\x00") + field(3, b"\x00")).table
        self.assertEqual(plans.rewrite(table), plans.Rewritten(table, 2))
        self.assertEqual([part.name for part in dataclasses.fields(plans.Rewritten)], ["table", "states"])
        self.assertEqual(self.fields_of("plans_rewrite", table), {"refusal": 0, "length": len(table), "states": 2})
        self.assertEqual(self.fields_of("plans_rewrite", table, 8), {"refusal": 13, "length": 0, "states": 0})
        self.assertEqual(self.fields_of("plans_rewrite", b""), {"refusal": 4, "length": 0, "states": 0})
