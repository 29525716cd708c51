"""How often each way is used: counts worked by hand, what they say of each other on generated books, counts files that are damaged, the
sub-command counts, build with counts, and drawings with counts. tests/command/test_module.py compares the counts of some thousand books
with the reference's."""
import os
import random
import re
import subprocess
from unittest import mock

import plans
from commands import PLANS, ROOT, InFolder
from plans import files, library
from plans.drawings import THICK, THIN, drawing
from reference import book_bytes, field
from samples import a_sample, book_of, with_copies
from test_formats import bytes_shown, counted_books, counts_shown

# In the class 1 1 all states after cake are one, and so are all after tea. By hand: three rows are tea; one is tea cake cake cake, which
# passes the arc from state 2 to itself twice; one is empty.
TEXT = "class = 1 1\ntea\ntea cake cake cake\n-\ntea\ntea\n"
BOOK = plans.read_text(TEXT).book()
TABLE = plans.read_table(plans.build(BOOK).table)
BYTES = bytes.fromhex("05 0004 0001 0004" "05 0004 0003 0001" "05 0004 0001 0002")
COUNTS = (plans.StateCounts(1, (("tea", 4),)), plans.StateCounts(3, (("cake", 1),)), plans.StateCounts(1, (("cake", 2),)))
PRINTED = ("days 5 distinct 3\n3 tea\n1 -\n1 tea cake cake cake\nstates 3 joins 2\n"
           "0 + ends 1 tea>1 passes 4\n1 + ends 3 cake>2 passes 1\n2 + ends 1 cake>2 passes 2\n")


def counts_in(book) -> tuple:
    counted = plans.build_counted(book)
    return plans.read_counts(counted.counts, counted.table)


class ByHand(InFolder):
    def test_bytes_and_numbers(self):
        counted = plans.build_counted(BOOK)
        self.assertEqual((counted.counts, counted.table), (BYTES, plans.build(BOOK).table))
        self.assertEqual((counted.states, counted.joins, counted.distinct), (3, 2, 3))
        self.assertEqual(plans.read_counts(BYTES, TABLE), COUNTS)
        self.assertEqual(plans.read_counts(bytearray(BYTES), counted.table), COUNTS)

    def test_a_row_that_passes_an_arc_twice_counts_two_there(self):
        """In the class 1 1 a row of 40 snacks passes one arc once and the other 39 times."""
        row = 40 * ("snack",)
        for copies in (1, 256):
            book = plans.Book(("snack",), plans.Class(0, 1, 1), copies * (row,))
            expected = plans.StateCounts(0, (("snack", copies),)), plans.StateCounts(copies, (("snack", 39 * copies),))
            self.assertEqual(counts_in(book), expected)

    def test_the_forty_days(self):
        """The first name of each day, as the lines of the text have it."""
        text = (ROOT / "examples" / "books" / "days.txt").read_text()
        counts = counts_in(plans.read_text(text).book())
        first = re.findall(r"^(?!class)([a-z_]+)", text, re.MULTILINE)
        self.assertEqual(len(first), 40)
        self.assertEqual(dict(counts[0].passes), {name: first.count(name) for name in first})
        self.assertEqual(sum(own.ends for own in counts), 40)


class Laws(InFolder):
    def test_what_the_numbers_say_of_each_other(self):
        draw = random.Random(51)
        for _ in range(300):
            sample = with_copies(draw, a_sample(draw, rows=(1, 2, 10, 40)))
            table = plans.read_table(plans.build(book_bytes(sample)).table)
            counts = counts_in(book_bytes(sample))
            arrivals = {number: 0 for number in range(len(table.states))}
            arrivals[0] = len(sample.rows)
            for state, own in zip(table.states, counts):
                for (name, target), (passed, count) in zip(state.arcs, own.passes):
                    self.assertEqual(name, passed)
                    self.assertGreater(count, 0)
                    arrivals[target] += count
            for number, (state, own) in enumerate(zip(table.states, counts)):
                self.assertEqual(arrivals[number], own.ends + sum(count for _, count in own.passes), sample)
                self.assertEqual(own.ends > 0, state.accepting)
            self.assertEqual(sum(own.ends for own in counts), len(sample.rows))

    def test_order_changes_nothing_and_a_copy_does(self):
        draw = random.Random(52)
        for _ in range(200):
            sample = a_sample(draw, rows=(1, 2, 10, 40))
            rows = list(sample.rows)
            draw.shuffle(rows)
            counted = plans.build_counted(book_of(sample))
            self.assertEqual(plans.build_counted(book_of(sample._replace(rows=tuple(rows)))), counted)
            more = plans.build_counted(book_of(sample._replace(rows=(*rows, draw.choice(rows)))))
            self.assertEqual((more.table, more.distinct), (counted.table, counted.distinct))
            self.assertNotEqual(more.counts, counted.counts)


class Refusals(InFolder):
    NAME = field(1, b"lunch")

    def test_those_of_build(self):
        good = self.NAME + field(3, b"\x00")
        thirteen = b"".join(field(1, bytes([letter])) for letter in b"abcdefghijklm")
        too_large = thirteen + b"".join(field(3, bytes([name] + 39 * [0])) for name in range(13))
        for data, number in [(good + bytes(65536), 1), (good + b"\x03", 2), (self.NAME + field(4, b"\x01"), 3), (b"", 4),
                             (field(1, b"9"), 5), (2 * self.NAME, 6), (self.NAME + 257 * field(3, b""), 7),
                             (self.NAME + field(2, b"\x07\x00\x00"), 8), (good + field(3, b"\x01"), 9), (too_large, 10)]:
            for call in (plans.build, plans.build_counted):
                with self.assertRaises(plans.Refused) as caught:
                    call(data)
                self.assertEqual(caught.exception.number, number)

    def test_13_for_either_output(self):
        data = plans.write_book(BOOK)
        whole = len(plans.build(BOOK).table)
        for room, counts_room, number in [(whole, len(BYTES), 0), (whole - 1, len(BYTES), 13), (whole, len(BYTES) - 1, 13), (whole, 1, 13)]:
            result, table, counts = library.built_counted(data, room, counts_room)
            self.assertEqual(result.refusal, number)
            self.assertEqual((len(table), len(counts)), (0, 0) if number else (whole, len(BYTES)))
            self.assertEqual((result.states, result.joins, result.distinct), (0, 0, 0) if number else (3, 2, 3))


class Damaged(InFolder):
    def bad(self, data: bytes, offset: int, reason: str, table=TABLE):
        with self.assertRaises(plans.BadCounts) as caught:
            plans.read_counts(data, table)
        self.assertEqual((caught.exception.offset, caught.exception.reason), (offset, reason))
        self.assertEqual(str(caught.exception), f"offset {offset}: {reason}")

    def test_cut_off_and_added(self):
        for length in range(len(BYTES)):
            if length % 7:
                self.bad(BYTES[:length], length - length % 7, "a field runs past the end")
            else:
                self.bad(BYTES[:length], length, f"the number of fields is {length // 7}, that of the table's states 3")
        self.bad(BYTES + field(5, b"\0\0"), 21, "the number of fields is 4, that of the table's states 3")
        self.bad(BYTES + b"\x05", 21, "a field runs past the end")

    def test_another_mark_or_length(self):
        self.bad(BYTES[:7] + b"\x04" + BYTES[8:], 7, "the mark 04, where the counts of state 1 are due, whose mark is 05")
        self.bad(BYTES[:14] + field(5, b"\0\1"), 14, "the counts of state 2 have 2 bytes, where its arcs need 4")
        self.bad(BYTES[:14] + field(5, b"\0\1\0\2\0"), 14, "the counts of state 2 have 5 bytes, where its arcs need 4")
        self.bad(field(5, b"") + BYTES[7:], 0, "the counts of state 0 have 0 bytes, where its arcs need 4")

    def test_numbers_that_cannot_be(self):
        self.bad(BYTES[:3] + b"\0\0" + BYTES[5:], 0, "the ends of state 0 are 0, and it accepts")
        self.bad(BYTES[:12] + b"\0\0" + BYTES[14:], 7, "no row passes the arc cake of state 1, and an arc is there only where one does")
        other = "these are the counts of another table, or damaged"
        self.bad(BYTES[:5] + b"\0\5" + BYTES[7:], 0, f"state 0 has arrivals 5, but departures and ends together 6: {other}")
        self.bad(BYTES[:12] + b"\0\2" + BYTES[14:], 7, f"state 1 has arrivals 4, but departures and ends together 5: {other}")

    LOOP = plans.Table(("tea",), plans.Class(2, 0), (plans.State(True, (("tea", 0),)),))
    CHAIN = plans.Table(("tea",), plans.Class(2, 1), (plans.State(True, (("tea", 1),)), plans.State(True, ())))

    def numbers(self, *states) -> bytes:
        return b"".join(field(5, b"".join(number.to_bytes(2, "big") for number in state)) for state in states)

    def test_more_rows_than_a_book_has(self):
        self.assertEqual(plans.read_counts(self.numbers((256, 7)), self.LOOP), (plans.StateCounts(256, (("tea", 7),)),))
        for ends in (257, 65535):
            self.bad(self.numbers((ends, 7)), 0, f"with {ends:,} ends of state 0 there are {ends:,} rows: a book has at most 256",
                     self.LOOP)
        self.assertEqual([own.ends for own in plans.read_counts(self.numbers((200, 56), (56,)), self.CHAIN)], [200, 56])
        self.bad(self.numbers((200, 57), (57,)), 7, "with 57 ends of state 1 there are 257 rows: a book has at most 256", self.CHAIN)

    def test_more_passes_than_rows_have_entries(self):
        self.assertEqual(plans.read_counts(self.numbers((1, 10240)), self.LOOP), (plans.StateCounts(1, (("tea", 10240),)),))
        for passes in (10241, 65535):
            self.bad(self.numbers((1, passes)), 0, f"the passes of the arc tea of state 0 are {passes:,}: "
                                                   "256 rows of 40 entries have at most 10,240", self.LOOP)

    def test_a_table_that_is_none(self):
        """A Table is judged as its bytes are."""
        front = ("cake", "tea"), plans.Class(2, 1)
        for states, number in [((plans.State(True, (("tea", 1),)),), 12), ((plans.State(True, (("tea", 0), ("cake", 0))),), 11), ((), 4),
                               ((plans.State(True, ()), plans.State(True, ())), 12)]:
            table = plans.Table(*front, states)
            for given in (table, plans.write_table(table)):
                with self.assertRaises(plans.Refused) as caught:
                    plans.read_counts(self.numbers((1, 1)), given)
                self.assertEqual(caught.exception.number, number)
        for arc, reason in [(("tea", -1), "the number -1 cannot be written"), (("soup", 0), "the name 'soup' cannot be written")]:
            with self.assertRaisesRegex(ValueError, "^" + reason):
                plans.read_counts(self.numbers((1, 1)), plans.Table(*front, (plans.State(True, (arc,)),)))

    def test_a_changed_number_is_seen(self):
        """But for the ends of state 0, where all rows arrive, and the passes of an arc to its own state."""
        for place in (6, 11, 13, 18):
            for number in (0, 7, 255):
                with self.assertRaises(plans.BadCounts):
                    plans.read_counts(BYTES[:place] + bytes([number]) + BYTES[place + 1:], TABLE)

    def test_with_another_table(self):
        built = plans.build_counted(plans.read_text("lunch\nlunch tea\n").book())
        not_accepting = "the ends of state 0 are 1, and it does not accept"
        self.bad(BYTES, 0, not_accepting, built.table)
        self.bad(built.counts, 0, "the ends of state 0 are 0, and it accepts")
        with self.assertRaises(plans.Refused):
            plans.read_counts(BYTES, BYTES)

    def test_given_to_the_command(self):
        self.put("tea.counts", BYTES)
        what = "this is a counts file, which goes with its table"
        self.fails(f"tea.counts: {what}; a text, a book or a table is wanted", "list", "tea.counts")
        for words in (["counts"], ["picture", "--counts"]):
            self.fails(f"tea.counts: {what}; a text or a book is wanted", *words, "tea.counts")
        self.answers(1, f"tea.counts: refused: offset 0: refusal 3: {plans.REFUSALS[3]} ({what})\n", "check", "tea.counts")


class Command(InFolder):
    def setUp(self):
        super().setUp()
        self.put("days.txt", TEXT)

    def test_days_states_and_arcs(self):
        notes = "days.txt: 5 days, 3 different days (2 are copies); 2 names:\n  cake 3, tea 4\n"
        self.answers(0, PRINTED, "counts", "days.txt", said=notes)
        self.put("days.book", plans.write_book(BOOK))
        self.answers(0, PRINTED, "counts", "days.book")
        self.answers(0, PRINTED, "counts", "-q", "-", input=TEXT.encode())
        self.answers(0, "", "counts", "-q", "days.txt", "-o", "out")
        self.assertEqual((self.folder / "out").read_text(), PRINTED)
        states = "states 5 joins 0\n0 + ends 1 tea>1 passes 4\n1 + ends 3 cake>2 passes 1\n2 - ends 0 cake>3 passes 1\n"
        self.answers(0, PRINTED.split("states")[0] + states + "3 - ends 0 cake>4 passes 1\n4 + ends 1\n",
                     "counts", "days.book", "--class", "3 3")

    def test_the_most_frequent_first_and_then_by_names(self):
        """The days stand in another order than they are printed in; b B is after b and before c."""
        days = ["c", "a c", "b B", "a b", "b", "b", "b", "c", "a b", "a", "b B"]
        printed = ["3 b", "2 a b", "2 b B", "2 c", "1 a", "1 a c"]
        draw = random.Random(53)
        for _ in range(5):
            draw.shuffle(days)
            self.put("days.txt", "".join(day + "\n" for day in days))
            lines = self.plans("counts", "-q", "days.txt").stdout.decode().splitlines()
            self.assertEqual(lines[:7], ["days 11 distinct 6", *printed])

    def test_agrees_with_the_listing(self):
        """But for the counts, the lines of states are those of plans list."""
        draw = random.Random(54)
        for _ in range(10):
            self.put("days.book", book_bytes(a_sample(draw, rows=(1, 2, 10, 40))))
            counted = self.plans("counts", "days.book").stdout.decode()
            listed = self.plans("list", "days.book").stdout.decode()
            states = counted[counted.index("states "):]
            self.assertEqual(re.sub(r" (ends|passes) \d+", "", states), re.sub(r" distinct \d+", "", listed))

    def test_no_copy_is_left_out(self):
        """A model of 300 days is built from each different one once; their counts would be wrong."""
        self.put("days.txt", 150 * "lunch\nlunch tea\n")
        said = ("days.txt:257: a 257th day: at most 256 are allowed; give fewer days "
                "(only 2 different days, but copies are counted: none may be left out)")
        self.fails(said, "counts", "days.txt")
        self.fails(said, "build", "days.txt", "-o", "days.table", "--counts", "days.counts")
        self.fails(said, "picture", "--counts", "days.txt", "-o", "days.dot")
        self.put("days.txt", 128 * "lunch\nlunch tea\n")
        self.answers(0, "days 256 distinct 2\n128 lunch\n128 lunch tea\nstates 3 joins 0\n0 - ends 0 lunch>1 passes 256\n"
                        "1 + ends 128 tea>2 passes 128\n2 + ends 128\n", "counts", "-q", "days.txt")

    def test_refused(self):
        self.put("days.txt", "lunch,morning snack\n")
        self.fails("days.txt:1: the name 'morning snack' holds a space, and no name may; write morning_snack", "counts", "days.txt")
        self.put("bad.book", field(1, b"lunch") + field(3, b"\1"))
        self.fails(f"bad.book: offset 8: refusal 9: {plans.REFUSALS[9]}: row 1 has the entry 1, which is no name's number",
                   "counts", "bad.book")
        self.fails("plans counts: there is no option --tree here ('plans counts --help' shows how)", "counts", "--tree", "bad.book")
        self.fails("plans list: there is no option --counts here ('plans list --help' shows how)", "list", "--counts", "bad.book")


class BuiltWithCounts(InFolder):
    TABLE = plans.write_table(TABLE)
    NOTES = "days.txt: 5 days, 3 different days (2 are copies); 2 names:\n  cake 3, tea 4\n"
    TOLD = f"days.table: 3 states, 2 joins, 3 different rows (2 are copies), {len(TABLE)} bytes\n"
    TWO = ["-o", "days.table", "--counts", "days.counts"]

    def setUp(self):
        super().setUp()
        self.put("days.txt", TEXT)

    def holds(self, name: str, data: bytes):
        self.assertEqual((self.folder / name).read_bytes(), data)

    def test_table_and_counts(self):
        self.answers(0, "", "build", "days.txt", *self.TWO, said=self.NOTES + self.TOLD + "days.counts: 21 bytes\n")
        self.holds("days.table", self.TABLE)
        self.holds("days.counts", BYTES)
        self.answers(0, "", "build", "days.txt", "-o", "days.table", said=self.NOTES + self.TOLD)
        self.holds("days.table", self.TABLE)
        self.assertEqual(self.left(), ["days.counts", "days.table", "days.txt"])

    def test_those_of_the_module_and_of_the_page(self):
        draw = random.Random(55)
        samples = [book_of(with_copies(draw, a_sample(draw, rows=(1, 2, 10, 40)))) for _ in range(5)]
        for book in (*samples, *counted_books()):
            self.put("days.book", plans.write_book(book))
            self.answers(0, "", "build", "-q", "days.book", *self.TWO)
            counted = plans.build_counted(book)
            self.holds("days.table", counted.table)
            self.holds("days.counts", counted.counts)
        self.holds("days.table", bytes_shown("Its table"))
        self.holds("days.counts", counts_shown()[1])
        self.answers(0, "", "build", "-q", "-", *self.TWO, input=bytes_shown("A book"))
        self.holds("days.counts", counts_shown()[0])
        self.answers(0, "", "build", "-q", "days.txt", "--class", "3 3", *self.TWO)
        self.holds("days.counts", plans.build_counted(plans.Book(BOOK.names, plans.Class(0, 3, 3), BOOK.rows)).counts)

    def test_one_to_standard_output(self):
        done = self.plans("build", "days.txt", "--counts", "days.counts")
        self.assertEqual((done.returncode, done.stdout, done.stderr.decode()), (0, self.TABLE, self.NOTES + "days.counts: 21 bytes\n"))
        self.holds("days.counts", BYTES)
        done = self.plans("build", "days.txt", "--counts", "-", "-o", "days.table")
        self.assertEqual((done.returncode, done.stdout, done.stderr.decode()), (0, BYTES, self.NOTES + self.TOLD))
        self.answers(0, "", "build", "-q", "days.txt", "-o", "/dev/null", "--counts", "/dev/null")

    def test_not_both_to_one_place(self):
        os.symlink("days.table", self.folder / "link")
        for words, place in [(["--counts", "-"], "standard output"), (["-o", "-", "--counts", "-"], "standard output"),
                             (["-o", "out", "--counts", "./out"], "out"), (["-o", "link", "--counts", "days.table"], "link")]:
            self.fails(f"plans build: the table and its counts cannot both go to {place} ('plans build --help' shows how)",
                       "build", "days.txt", *words)

    def test_a_file_that_cannot_be_written_leaves_both_as_they_were(self):
        (self.folder / "folder").mkdir()
        self.put("days.table", b"old")
        self.put("days.counts", b"old")
        for place, problem in [("none/out", "No such file or directory"), ("folder", "Is a directory"), ("", "Is a directory"),
                               ("/dev/full", "No space left on device")]:
            label = place or "''"
            self.fails(f"plans: {label}: {problem}", "build", "-q", "days.txt", "-o", "days.table", "--counts", place)
            self.fails(f"plans: {label}: {problem}", "build", "-q", "days.txt", "--counts", "days.counts", "-o", place)
        also = "plans: days.txt: this is also the input; give the output another name"
        self.fails(also, "build", "-q", "days.txt", "-o", "days.table", "--counts", "days.txt")
        with open("/dev/full", "wb") as full:
            done = self.plans("build", "-q", "days.txt", "--counts", "days.counts", stdout=full)
        self.assertEqual((done.returncode, done.stderr), (2, b"plans: standard output: No space left on device\n"))
        self.put("bad.txt", "9am\n")
        self.fails("bad.txt:1: the name '9am' must begin with an ASCII letter, _ or :; write _9am", "build", "bad.txt", *self.TWO)
        done = subprocess.run(["sh", "-c", f"ulimit -f 0; exec '{PLANS}' build -q days.txt {' '.join(self.TWO)}"], cwd=self.folder,
                              capture_output=True, check=False)
        self.assertEqual((done.returncode, done.stderr), (2, b"plans: days.table: File too large\n"))
        self.holds("days.table", b"old")
        self.holds("days.counts", b"old")
        self.assertEqual(self.left(), ["bad.txt", "days.counts", "days.table", "days.txt", "folder"])

    def test_a_name_that_cannot_be_taken_leaves_nothing_beside_it(self):
        with mock.patch("os.replace", side_effect=PermissionError(1, "Operation not permitted")):
            with self.assertRaises(files.Failure) as caught:
                files.write_outputs([(str(self.folder / name), BYTES) for name in ("one", "two")], [])
        self.assertEqual(caught.exception.lines, (f"plans: {self.folder / 'one'}: Operation not permitted",))
        self.assertEqual(self.left(), ["days.txt"])

    def test_usage(self):
        self.put("days.table", self.TABLE)
        self.fails("days.table: this is a table; a text or a book is wanted", "build", "days.table", "-o", "out", "--counts", "days.counts")
        how = "('plans build --help' shows how)"
        self.fails(f"plans build: option --counts requires argument {how}", "build", "days.txt", "--counts")
        self.fails(f"plans build: one file must be given, not 0 {how}", "build", "--counts", "days.txt")


class Drawn(InFolder):
    def parts(self, text: str) -> tuple:
        """What stands in nodes, and the width of each arrow, by its two halves, which are equally wide."""
        labels = dict(re.findall(r'^(\w+) \[label="([^"]*)"', text, re.MULTILINE))
        widths = re.findall(r"^(\w+) -> (\w+) \[(?:dir=none, )?penwidth=([\d.]+)\]$", text, re.MULTILINE)
        halves = {f"{source} {target}": float(width) for source, target, width in widths}
        arrows = {}
        for key in labels:
            if "_" in key:
                source, target = key.split("_")
                self.assertEqual(halves[f"{source} {key}"], halves[f"{key} {target}"])
                arrows[key] = halves[f"{source} {key}"]
        self.assertEqual(len(halves), 2 * len(arrows))
        return labels, arrows

    def test_numbers_and_widths(self):
        self.put("days.txt", TEXT)
        self.answers(0, "", "picture", "-q", "--counts", "days.txt", "-o", "days.dot")
        text = (self.folder / "days.dot").read_text()
        labels, arrows = self.parts(text)
        self.assertEqual(labels, {"start": "", "s0": "0\\nends 1", "s1": "1\\nends 3", "s2": "2\\nends 1", "s0_s1": "tea 4",
                                  "s1_s2": "cake 1", "s2_s2": "cake 2"})
        step = (THICK - THIN) / 4
        self.assertEqual(arrows, {"s0_s1": THICK, "s1_s2": round(THIN + step, 2), "s2_s2": THIN + 2 * step})
        self.assertIn('label="context (1,1): 3 states, 2 joins, 3 different rows (2 are copies)"\n', text)

    def test_names_of_one_arrow_are_used_together(self):
        labels, arrows = self.parts(self.drawn("class = seen\na b\na b a\na b b\na b b\n"))
        self.assertEqual((labels["s0_s1"], labels["s1_s2"], labels["s2_s2"], labels["s2"]), ("a 4", "b 4", "a 1\\nb 2", "2\\nends 4"))
        self.assertEqual(arrows, {"s0_s1": THICK, "s1_s2": THICK, "s2_s2": round(THIN + (THICK - THIN) * 3 / 4, 2)})

    def drawn(self, text: str) -> str:
        book = plans.read_text(text).book()
        counted = plans.build_counted(book)
        return drawing(plans.read_table(counted.table), counted, None, plans.read_counts(counted.counts, counted.table))

    def test_one_state_without_an_arc(self):
        labels, arrows = self.parts(self.drawn("names = tea\n-\n-\n"))
        self.assertEqual((labels, arrows), ({"start": "", "s0": "0\\nends 2"}, {}))

    def test_the_tree_beside_it_is_as_ever(self):
        self.put("days.txt", TEXT)
        drawings = []
        for words in (["--tree"], ["--tree", "--counts"]):
            self.answers(0, "", "picture", "-q", *words, "days.txt", "-o", "days.dot")
            drawings.append((self.folder / "days.dot").read_text().split("subgraph "))
        self.assertEqual(drawings[0][:2], drawings[1][:2])
        self.assertNotEqual(drawings[0][2], drawings[1][2])
        self.assertIn('s0_s1 [label="tea 4"', drawings[1][2])
