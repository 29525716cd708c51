"""What lies under examples/: each text with its listing, the shipped books, the worked days and the sources' examples."""
import itertools
import re
import unittest
from collections import Counter
from pathlib import Path

import plans
from plans.drawings import homes
from plans.fields import prefix_tree
from reference import listing_of
from samples import sample_of

ROOT = Path(__file__).resolve().parents[2]
EXAMPLES = ROOT / "examples"
PROGRAM = ROOT / "crates" / "worked_days"
TEXTS = sorted(EXAMPLES.glob("*/*.txt"))

# The table of docs/SCOPE.md, section 10: states of the prefix tree, states, joins, different rows. Q1 to Q3 stand in
# crates/model/specs/WorkedDays.antt.
WORKED_DAYS = {
    "P1": (1, 1, 0, 1), "P2": (3, 2, 1, 1), "P3": (3, 3, 0, 1), "P4": (7, 5, 2, 2), "P5": (7, 6, 1, 2), "P6": (8, 6, 2, 3),
    "P7": (8, 7, 1, 3), "P8": (3, 2, 1, 2), "P9": (3, 1, 2, 2), "P10": (3, 2, 1, 2), "P11": (5, 4, 1, 2), "P12": (3, 3, 0, 1),
    "Q1": (6, 5, 1, 2), "Q2": (7, 5, 2, 4), "Q3": (6, 4, 2, 2), "example": (3, 2, 1, 1),
}


def book_at(path: Path) -> plans.Book:
    return plans.read_text(path.read_bytes()).book()


def table_of(name: str) -> plans.Table:
    """The table, by the library; its listing is compared with the reference's."""
    return plans.read_table(plans.build(book_at(EXAMPLES / (name + ".txt"))).table)


def admits(table: plans.Table, names) -> bool:
    state = 0
    for name in names:
        arcs = dict(table.states[state].arcs)
        if name not in arcs:
            return False
        state = arcs[name]
    return table.states[state].accepting


def admitted_to(table, names, most: int) -> set:
    """All admitted rows of at most so many of these names."""
    return {row for count in range(most + 1) for row in itertools.product(names, repeat=count) if admits(table, row)}


def equivalent_once(book) -> dict:
    """Definitions (35) and (36) of document 000 with Ter: for each beginning of a row the first one that is equivalent to it.
    Beginnings stand for the states of the skeleton, of which those with equal headstrings are equivalent."""
    first = {word: word for word in prefix_tree(book.rows)}
    for one, other in itertools.combinations(book.rows, 2):
        for head, front in ((one[:end], one[end:]) for end in range(len(one) + 1)):
            twin = other[:len(other) - len(front)]
            if twin + front == other and set(head) == set(twin):
                kept, gone = sorted([first[head], first[twin]])
                first = {word: kept if of == gone else of for word, of in first.items()}
    return first


def blocks(places: dict) -> set:
    """The partition of the keys by their values."""
    return {frozenset(key for key, value in places.items() if value == block) for block in places.values()}


class Shipped(unittest.TestCase):
    def test_books_are_those_of_the_texts(self):
        texts = sorted((EXAMPLES / "books").glob("*.txt"))
        self.assertEqual([path.stem for path in texts], [path.stem for path in sorted((EXAMPLES / "books").glob("*.book"))])
        for path in texts:
            self.assertEqual(path.with_suffix(".book").read_bytes(), plans.write_book(book_at(path)), path)

    def test_listings(self):
        self.assertEqual(sorted(path.with_suffix(".txt") for path in EXAMPLES.glob("*/*.listing")), TEXTS)
        for path in TEXTS:
            listing = path.with_suffix(".listing").read_text()
            self.assertEqual(listing, listing_of(sample_of(book_at(path))), path)
            self.assertEqual(listing, plans.list_book(book_at(path)), path)

    def test_rows_are_admitted(self):
        for path in TEXTS:
            book = book_at(path)
            table = plans.build(book).table
            for row in book.rows:
                self.assertIs(plans.walk(table, row).outcome, plans.Outcome.ADMITTED, path)

    def test_the_forty_days(self):
        book = book_at(EXAMPLES / "books" / "days.txt")
        self.assertEqual((len(book.rows), len(set(book.rows)), len(book.names)), (40, 22, 12))
        self.assertEqual(plans.build(book).distinct, 22)


class WorkedDays(unittest.TestCase):
    def test_all_are_there(self):
        self.assertEqual({path.stem for path in (EXAMPLES / "worked_days").glob("*.txt")}, set(WORKED_DAYS))

    def test_counts(self):
        for name, counts in WORKED_DAYS.items():
            path = EXAMPLES / "worked_days" / (name + ".txt")
            built = plans.build(book_at(path))
            self.assertEqual((len(prefix_tree(book_at(path).rows)), built.states, built.joins, built.distinct), counts, name)


class Program(unittest.TestCase):
    """The program worked_days reads the books of these texts, and its output is compared with their listings."""

    def test_data_are_the_books_of_the_texts(self):
        texts = {path.stem: path for folder in ["worked_days", "sources"] for path in (EXAMPLES / folder).glob("*.txt")}
        books = {path.stem: path for path in (PROGRAM / "data").iterdir()}
        self.assertEqual(sorted(books), sorted(texts))
        for name, path in books.items():
            self.assertEqual(path.read_bytes(), plans.write_book(book_at(texts[name])), name)

    def test_output_has_the_listings(self):
        output = (PROGRAM / "stdout").read_text()
        for path in (PROGRAM / "data").iterdir():
            listing = next(EXAMPLES.glob(f"*/{path.stem}.listing")).read_text()
            self.assertIn(f"{path.name}\n{listing}", output)


class Sources(unittest.TestCase):
    """What docs/SOURCES.md says of the sources' languages, for all rows up to a length."""

    def test_languages_of_document_000(self):
        for name, letters, expression in [
                ("example_32", {"a": "a", "b": "b"}, "a(a|b(a|b)*)"),
                ("surface_inventaris", {"boek": "b"}, "bb"),
                ("surface_boek", {"schrijver": "s", "titel": "t", "prijs": "p"}, "ss*tp"),
                ("surface_schrijver", {"voornaam": "v", "voorletter": "l", "achternaam": "a"}, "va|la"),
                ("surface_text", {"boek": "b", "titel": "t"}, "")]:
            table = table_of(f"sources/{name}")
            for count in range(7):
                for row in itertools.product(letters, repeat=count):
                    word = "".join(letters[part] for part in row)
                    self.assertEqual(admits(table, row), re.fullmatch(expression, word) is not None, (name, word))

    def test_expression_printed_for_example_32_lacks_its_own_sample(self):
        printed = re.compile("a(a|(b(ab)*))")
        self.assertEqual([word for word in ["aa", "ab", "aba", "abb"] if not printed.fullmatch(word)], ["aba", "abb"])

    def test_relation_of_document_000_applied_once(self):
        for name in ["example_32", "surface_inventaris", "surface_boek", "surface_schrijver", "surface_text"]:
            book = book_at(EXAMPLES / "sources" / (name + ".txt"))
            self.assertEqual(blocks(equivalent_once(book)), blocks(homes(book, table_of(f"sources/{name}"))), name)

    def test_relation_applied_once_leaves_two_arcs_of_one_name(self):
        book = book_at(EXAMPLES / "worked_days" / "Q2.txt")
        first = equivalent_once(book)
        self.assertEqual(first[("snack",)], first[("snack", "snack")])
        self.assertNotEqual(first[("snack", "breakfast")], first[("snack", "snack", "breakfast")])

    def test_definition_5_9_read_literally_would_join_what_document_002_keeps_apart(self):
        table = table_of("sources/entry_2_2")
        for row in ["Headword Inflection Example Example", "Headword Preferred_form Example Example"]:
            self.assertTrue(admits(table, row.split()))
        self.assertTrue(admits(table, "Headword Preferred_form Example".split()))
        self.assertFalse(admits(table, "Headword Inflection Example".split()))

    def test_states_of_document_002_in_ours(self):
        """The source numbers the states of its prefix tree from 1 in the order in which its productions add them."""
        for name, expected in [("entry_2_2", [{1}, {2}, {3}, {10}, {13}, {4}, {6}, {15}, {7, 11}, {14, 16}, {5, 8, 9, 12, 17}]),
                               ("entry_2_1", [{1}, {2}, {3}, {6, 10}, {13, 15}, {4, 5, 7, 8, 9, 11, 12, 14, 16, 17}])]:
            book = book_at(EXAMPLES / "sources" / (name + ".txt"))
            found = homes(book, table_of(f"sources/{name}"))
            numbers = prefix_tree(book.rows)
            ours = [{numbers[word] + 1 for word in found if found[word] == state} for state in range(len(expected))]
            self.assertEqual(ours, expected)

    def test_what_document_002_says_of_the_2_contextual_automaton(self):
        table = table_of("sources/entry_2_2")
        self.assertTrue(admits(table, "Headword Inflection Preferred_form Example".split()))
        self.assertTrue(admits(table, "Headword Inflection Example Example".split()))
        self.assertFalse(admits(table, "Headword Inflection Example".split()))
        self.assertTrue(admits(table_of("sources/entry_2_1"), "Headword Inflection Example".split()))

    def test_passes_beside_the_weights_of_section_5_3_4(self):
        """Arcs whose passes are not the number of rows that pass them: table, state, name, passes, rows."""
        found = []
        for name in ["entry_2_2", "entry_2_1"]:
            counted = plans.build_counted(book_at(EXAMPLES / "sources" / (name + ".txt")))
            states = plans.read_table(counted.table).states
            weights = Counter()
            for row in book_at(EXAMPLES / "sources" / (name + ".txt")).rows:
                places = [0]
                for part in row:
                    places.append(dict(states[places[-1]].arcs)[part])
                weights.update(set(zip(places, row)))
            for number, own in enumerate(plans.read_counts(counted.counts, counted.table)):
                found += [(name, number, part, count, weights[number, part]) for part, count in own.passes
                          if count != weights[number, part]]
        self.assertEqual(found, [("entry_2_1", 5, "Example", 5, 4)])

    def test_3_grams_of_example_5_22(self):
        names = ["Headword", "Inflection", "Example", "Parallel_form", "Preferred_form"]
        short = dict(zip(names, ["H", "I", "E", "Pa_F", "Pr_F"]))
        printed = """# # H, # H Pr_F, # H I, # H Pa_F, H Pr_F E, I Pr_F E, H I Pr_F, H I E, H I Pa_F, H Pa_F E, I Pa_F E, Pr_F E E,
                     Pa_F E E, I E E, E E E, Pr_F E #, Pa_F E #, I E #, E E #"""
        grams = {tuple(gram.split()) for gram in printed.split(",")}
        rows = admitted_to(table_of("sources/entry_2_1"), names, 6)
        found = set()
        for row in rows:
            padded = ["#", "#"] + [short[name] for name in row] + ["#"]
            found |= set(zip(padded, padded[1:], padded[2:]))
        self.assertEqual(found, grams)
