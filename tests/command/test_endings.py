"""States that lead to no end: which a table has, what a walk over it tells, by the words of docs/SCOPE.md, sections 5 and 13, and what
people are told."""
import itertools
import random
import unittest
from pathlib import Path

import plans
from commands import InFolder
from plans import Class, Outcome, State, Table, Walked
from plans.command import answer
from plans.drawings import GREY, drawing
from plans.fields import STATE_LIMIT
from plans.showing import enumerated
from reference import field
from samples import a_sample, a_table, allows, book_of, plainly

ROOT = Path(__file__).resolve().parents[2]
SUPPLIER = (ROOT / "examples" / "tables" / "supplier.table").read_bytes()
NAMES = ("a", "b")
# enough for a way to an end in tables of up to four states, where there is one
REST = 3


def words_to(most: int) -> list:
    """All rows of at most so many names."""
    return [row for count in range(most + 1) for row in itertools.product(NAMES, repeat=count)]


def begins(table: Table, row: tuple) -> bool:
    """Whether some allowed row begins with this one, by trying what may follow."""
    return any(allows(table, row + rest) for rest in words_to(REST))


def by_words(table: Table, row: tuple) -> Walked:
    """What a walk shall tell."""
    outcome = Outcome.ADMITTED if allows(table, row) else Outcome.ON_THE_WAY if begins(table, row) else Outcome.STOPS
    beginning = max((row[:end] for end in range(len(row) + 1) if begins(table, row[:end])), key=len, default=())
    return Walked(outcome, beginning, tuple(name for name in NAMES if begins(table, beginning + (name,))))


def chain(length: int, accepting: bool) -> Table:
    """A table of so many states, each with an arc to the one after it; the last accepts or does not."""
    arcs = [State(False, (("a", number + 1),)) for number in range(length - 1)]
    return Table(NAMES, Class(1), (*arcs, State(accepting, ())))


class DeadStates(unittest.TestCase):
    """Without the library."""

    def test_supplier(self):
        self.assertEqual(plans.read_table(SUPPLIER).dead_states, (2,))

    def test_by_words(self):
        draw = random.Random(13)
        some = 0
        for _ in range(1000):
            table = a_table(draw, NAMES, accepting=0.4)
            ways = {number: [row for row in words_to(REST) if table.state_after(row) == number] for number in range(len(table.states))}
            dead = tuple(number for number, rows in ways.items() if not begins(table, rows[0]))
            self.assertEqual(table.dead_states, dead, table)
            self.assertEqual(0 in dead, not any(state.accepting for state in table.states), table)
            some += bool(dead) and 0 not in dead
        self.assertGreater(some, 50)

    def test_largest(self):
        self.assertEqual(chain(STATE_LIMIT, True).dead_states, ())
        self.assertEqual(chain(STATE_LIMIT, False).dead_states, tuple(range(STATE_LIMIT)))

    def test_table_that_is_not_judged(self):
        """An arc to a state that is not there leads to no end."""
        self.assertEqual(Table(NAMES, Class(1), (State(False, (("a", 7),)),)).dead_states, (0,))

    def test_state_after(self):
        rows = [(), ("breakfast",), ("dinner", "breakfast"), ("breakfast", "dinner", "dinner")]
        self.assertEqual([plans.read_table(SUPPLIER).state_after(row) for row in rows], [0, 1, 2, None])


class Said(unittest.TestCase):
    """What people are told, without the library."""

    def test_enumerated(self):
        self.assertEqual([enumerated(range(count)) for count in (1, 2, 3, 11)],
                         ["0", "0 and 1", "0, 1 and 2", "0, 1, 2, 3, 4, 5, 6, 7, 8, 9 and 10"])
        self.assertEqual(enumerated(range(12)), "0, 1, 2, 3, 4, 5, 6, 7, 8, 9 and 2 more")

    def test_answers(self):
        table = plans.read_table(SUPPLIER)
        stopped = Walked(Outcome.STOPS, (), ("breakfast",))
        self.assertEqual(answer(("dinner", "breakfast"), stopped, table),
                         "not allowed: a day may not begin with dinner (it leads to state 2, which leads to no end)")
        self.assertEqual(answer(("breakfast", "breakfast"), Walked(Outcome.STOPS, ("breakfast",), ()), table),
                         "not allowed: it goes as far as breakfast; then breakfast may not come")
        nothing = Walked(Outcome.STOPS, (), ())
        for day in ((), ("a",), ("c",)):
            self.assertEqual(answer(day, nothing, chain(2, False)), "not allowed: the model allows no day")

    def test_drawing(self):
        grey = f'fillcolor="{GREY}"'
        lines = [line for line in drawing(plans.read_table(SUPPLIER), None, None).splitlines() if grey in line]
        self.assertEqual(lines, [f's2 [label="2", {grey}]'])
        self.assertNotIn(grey, drawing(chain(3, True), None, None))


class Walks(unittest.TestCase):
    def test_by_words(self):
        """Every row of up to four names over generated tables."""
        draw = random.Random(14)
        met = {outcome: 0 for outcome in Outcome}
        changed = 0
        for _ in range(300):
            table = a_table(draw, NAMES, accepting=draw.choice([0.3, 0.5]))
            for row in words_to(4):
                told = plans.walk(table, row)
                self.assertEqual(told, by_words(table, row), (table, row))
                self.assertTrue(told == plainly(table, row) or table.dead_states, (table, row))
                met[told.outcome] += 1
                changed += told != plainly(table, row)
        self.assertTrue(all(count > 300 for count in (*met.values(), changed)), (met, changed))

    def test_no_row_admitted(self):
        nothing = Walked(Outcome.STOPS, (), ())
        for table in (chain(1, False), chain(2, False), chain(STATE_LIMIT, False)):
            for row in ((), ("a",), ("a", "a"), ("b",), ("c",), 40 * ("a",)):
                self.assertEqual(plans.walk(table, row), nothing)

    def test_an_admitted_row_of_any_length(self):
        """The only admitted row has 511 names: 40 of them are on the way, though no walk takes it whole."""
        table = chain(STATE_LIMIT, True)
        self.assertEqual(plans.walk(table, 40 * ("a",)), Walked(Outcome.ON_THE_WAY, 40 * ("a",), ("a",)))

    def test_unknown_name_behind_the_beginning(self):
        self.assertEqual(plans.walk(SUPPLIER, ("dinner", "lunch")), Walked(Outcome.STOPS, (), ("breakfast",)))

    def test_such_tables_are_rewritten(self):
        for table in (SUPPLIER, plans.write_table(chain(5, False))):
            self.assertEqual(plans.rewrite(table).table, table)


class BuiltTables(unittest.TestCase):
    def test_no_state_leads_to_no_end_and_walks_are_as_before(self):
        draw = random.Random(15)
        for _ in range(150):
            book = book_of(a_sample(draw))
            data = plans.build(book).table
            table = plans.read_table(data)
            self.assertEqual(table.dead_states, ())
            for _ in range(10):
                row = tuple(draw.choice(book.names) for _ in range(draw.choice([0, 1, 2, 5])))
                row = draw.choice(book.rows)[:draw.choice([0, 1, 3, 40 - len(row)])] + row
                self.assertEqual(plans.walk(data, row), plainly(table, row))


class Told(InFolder):
    """The command."""

    def setUp(self):
        super().setUp()
        self.put("supplier.table", SUPPLIER)

    def table(self, *states: bytes) -> bytes:
        return field(1, b"lunch") + field(1, b"tea") + field(2, b"\1\0\0") + b"".join(field(4, state) for state in states)

    def test_check(self):
        said = "supplier.table: accepted: a table of 2 names, context (2,1), 3 states\nsupplier.table: state 2 leads to no end\n"
        self.answers(0, said, "check", "supplier.table")
        self.answers(0, said, "check", "-q", "supplier.table")
        self.put("two.table", self.table(b"\1\0\0\1\1\0\2", b"\0", b"\0\1\0\2"))
        self.put("none.table", self.table(b"\0\1\0\1", b"\0"))
        self.answers(0, "two.table: accepted: a table of 2 names, seen set, 3 states\ntwo.table: states 1 and 2 lead to no end\n"
                        "none.table: accepted: a table of 2 names, seen set, 2 states\n"
                        "none.table: it allows no day: none of its states accepts\n", "check", "two.table", "none.table")

    def test_diff(self):
        self.put("ours.table", self.table(b"\0\0\0\1", b"\1"))
        self.put("theirs.table", self.table(b"\0\0\0\1\1\0\2", b"\1", b"\0\1\0\2"))
        self.answers(1, "states: 2 in ours.table, 3 in theirs.table\ndays: both allow the same\n", "diff", "ours.table", "theirs.table")

    def test_walk(self):
        no_end = "not allowed: a day may not begin with dinner (it leads to state 2, which leads to no end)\nnext: breakfast\n"
        self.answers(1, no_end, "walk", "supplier.table", "dinner")
        self.answers(1, no_end, "walk", "supplier.table", "dinner", "breakfast")
        self.answers(1, no_end, "walk", "supplier.table", "dinner", "soup")
        self.answers(1, "on the way: a day may not be empty\nnext: breakfast\n", "walk", "supplier.table")
        self.answers(0, "allowed\nnext: nothing\n", "walk", "supplier.table", "breakfast")
        self.put("further.table", self.table(b"\0\0\0\1", b"\1\1\0\2", b"\0"))
        self.answers(1, "not allowed: it goes as far as lunch; then tea may not come (it leads to state 2, which leads to no end)\n"
                        "next: nothing\n", "walk", "further.table", "lunch", "tea")

    def test_walk_where_no_day_is_allowed(self):
        self.put("none.table", self.table(b"\0\1\0\1", b"\0"))
        for day in ([], ["-"], ["tea"], ["lunch", "tea"], ["soup"]):
            self.answers(1, "not allowed: the model allows no day\nnext: nothing\n", "walk", "none.table", *day)
