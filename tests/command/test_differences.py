"""plans.compare: the parting day against all rows of up to six names, on generated tables with the same and with other names."""
import itertools
import random
import unittest

from plans import Class, Outcome, State, Table, build, compare, read_table, walk, write_table
from plans.fields import ROW_LIMIT
from samples import a_small_sample, a_table, allows, book_of

MOST = 6


def first_parting(one: Table, two: Table, names: list):
    """A shortest row of up to six names that one allows and the other does not, by trying all."""
    rows = (row for count in range(MOST + 1) for row in itertools.product(names, repeat=count))
    return next((row for row in rows if allows(one, row) != allows(two, row)), None)


class Parting(unittest.TestCase):
    def compared(self, one: Table, two: Table) -> bool:
        found = compare(one, two)
        expected = first_parting(one, two, sorted({*one.names, *two.names}))
        if expected is None:
            self.assertTrue(found.day is None or len(found.day) > MOST, (one, two))
        else:
            self.assertEqual(len(found.day), len(expected), (one, two))
        if found.day is not None:
            self.assertEqual((allows(one, found.day), allows(two, found.day)), (found.first_allows, not found.first_allows))
        self.assertEqual(set(found.only_first), set(one.names) - set(two.names))
        self.assertEqual(set(found.only_second), set(two.names) - set(one.names))
        return expected is not None

    def test_all_rows_up_to_six_names(self):
        draw = random.Random(6)
        parted = 0
        for _ in range(400):
            ours, theirs = draw.choice([("ab", "ab"), ("abc", "abc"), ("ac", "ab"), ("a", "b")])
            one, two = a_table(draw, tuple(ours)), a_table(draw, tuple(theirs))
            self.assertEqual(read_table(write_table(one)), one)
            parted += self.compared(one, two)
        self.assertTrue(100 < parted < 400)

    def test_tables_of_books(self):
        draw = random.Random(7)
        for _ in range(150):
            one, two = (read_table(build(book_of(a_small_sample(draw))).table) for _ in range(2))
            if len({*one.names, *two.names}) < 5:
                self.compared(one, two)

    def test_a_table_and_itself_by_more_states(self):
        """a* by one state and by two."""
        once = Table(("a",), Class(1), (State(True, (("a", 0),)),))
        twice = Table(("a",), Class(1), (State(True, (("a", 1),)), State(True, (("a", 0),))))
        self.assertEqual((compare(once, twice).day, compare(once, once).day), (None, None))

    def test_states_that_lead_to_no_end(self):
        """Tables that differ in such states alone allow the same days, also where both allow none."""
        ours = Table(("a", "b"), Class(1), (State(False, (("a", 1),)), State(True, ())))
        theirs = Table(("a", "b"), Class(1), (State(False, (("a", 1), ("b", 2))), State(True, (("b", 2),)), State(False, (("a", 2),))))
        self.assertEqual((compare(ours, theirs).day, compare(theirs, ours).day), (None, None))
        none = Table(("a", "b"), Class(1), (State(False, ()),))
        circle = Table(("a", "b"), Class(1), (State(False, (("a", 1),)), State(False, (("a", 0), ("b", 1)))))
        self.assertEqual((compare(none, circle).day, compare(circle, none).day), (None, None))
        self.assertEqual((compare(none, ours).day, compare(none, ours).first_allows), (("a",), False))

    def test_long_parting_day(self):
        """Cycles of 16 and 17 states that accept but in their last: parted after 15 names; and the largest, quickly."""
        def cycle(count: int) -> Table:
            states = [State(number != count - 1, (("a", (number + 1) % count),)) for number in range(count)]
            return Table(("a",), Class(1), tuple(states))
        self.assertEqual(compare(cycle(16), cycle(17)).day, 15 * ("a",))
        self.assertEqual(len(compare(cycle(512), cycle(511)).day), 510)

    def test_library_agrees(self):
        draw = random.Random(8)
        for _ in range(200):
            one, two = a_table(draw, ("a", "b")), a_table(draw, ("a", "b"))
            found = compare(one, two)
            if found.day is not None and len(found.day) <= ROW_LIMIT:
                self.assertEqual([walk(table, found.day).outcome is Outcome.ADMITTED for table in (one, two)],
                                 [found.first_allows, not found.first_allows])
