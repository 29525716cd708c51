"""Books and tables that break a rule: the refusal's number and the offset of the field that it concerns, and that the library
refuses them by the same number."""
import unittest

import plans
from plans import Refused, read_book, read_table
from reference import field

NAME, CLASS, ROW, STATE = 1, 2, 3, 4
INPUT_LIMIT = 65535
NAMES = field(NAME, b"lunch") + field(NAME, b"snack")
ROWS = field(ROW, b"\x01\x00")
SEEN = field(CLASS, b"\x01\x00\x00")
FRONT = NAMES + SEEN
START = field(STATE, b"\x00\x00\x00\x01")
END = field(STATE, b"\x01")


def rows_of(lengths: list) -> bytes:
    """Rows of these lengths, the first entry of each another name's number."""
    return b"".join(field(ROW, bytes([i] + (length - 1) * [0])) for i, length in enumerate(lengths))


def names_of(count: int) -> bytes:
    return b"".join(field(NAME, b"n%02d" % i) for i in range(count))


class Judged(unittest.TestCase):
    def compared(self, read, call, data: bytes, number: int, offset: int):
        with self.assertRaises(Refused) as caught:
            read(data)
        self.assertEqual((caught.exception.number, caught.exception.offset), (number, offset))
        what = f": {caught.exception.what}" if number == 9 else ""
        self.assertEqual(str(caught.exception), f"offset {offset}: refusal {number}: {plans.REFUSALS[number]}{what}")
        with self.assertRaises(Refused) as called:
            call(data)
        self.assertEqual((called.exception.number, called.exception.words), (number, plans.REFUSALS[number]))

    def refused(self, data: bytes, number: int, offset: int):
        for call in [plans.build, plans.list_book, plans.judged_book]:
            self.compared(read_book, call, data, number, offset)

    def refused_table(self, data: bytes, number: int, offset: int):
        for call in [plans.rewrite, plans.judged_table, lambda table: plans.walk(table, ["lunch"])]:
            self.compared(read_table, call, data, number, offset)

    def refused_both(self, data: bytes, number: int, offset: int):
        self.refused(data, number, offset)
        self.refused_table(data, number, offset)


class Books(Judged):
    def test_1_too_long(self):
        data = NAMES + ROWS
        self.refused_both(data + bytes(INPUT_LIMIT + 1 - len(data)), 1, INPUT_LIMIT)

    def test_2_past_the_end(self):
        for cut in [1, 2, 3, 4]:
            self.refused((NAMES + ROWS)[:len(NAMES) + cut], 2, len(NAMES))
            self.refused_table((FRONT + START)[:len(FRONT) + cut], 2, len(FRONT))
        self.refused_both(NAMES + b"\x09\x00\x01", 2, len(NAMES))

    def test_3_misplaced(self):
        for data in [ROWS, SEEN, END, field(0, b"")]:
            self.refused_both(data + NAMES, 3, 0)
        self.refused_both(NAMES + SEEN + SEEN, 3, len(NAMES + SEEN))
        self.refused_both(NAMES + SEEN + NAMES, 3, len(NAMES + SEEN))
        self.refused(NAMES + ROWS + SEEN, 3, len(NAMES + ROWS))
        self.refused(NAMES + ROWS + NAMES, 3, len(NAMES + ROWS))
        self.refused(FRONT + END, 3, len(FRONT))
        self.refused_table(NAMES + END, 3, len(NAMES))
        self.refused_table(FRONT + ROWS, 3, len(FRONT))
        self.refused_table(FRONT + END + SEEN, 3, len(FRONT + END))

    def test_4_unfinished(self):
        for data in [b"", NAMES, FRONT]:
            self.refused_both(data, 4, len(data))

    def test_5_bad_name(self):
        for name in [b"", 33 * b"x", b"9am", b"-", b"a b", b"caf\xe9", b"a\n"]:
            self.refused_both(NAMES + field(NAME, name), 5, len(NAMES))

    def test_6_name_order(self):
        for name in [b"snack", b"snac", b"lunch", b"Z"]:
            self.refused_both(NAMES + field(NAME, name), 6, len(NAMES))

    def test_7_too_many(self):
        read_book(names_of(64) + ROWS)
        self.refused_both(names_of(65) + ROWS, 7, len(names_of(64)))
        read_book(NAMES + 256 * ROWS)
        self.refused(NAMES + 257 * ROWS, 7, len(NAMES + 256 * ROWS))
        self.refused(NAMES + 256 * ROWS + field(ROW, b"\x02"), 7, len(NAMES + 256 * ROWS))
        chain = b"".join(field(STATE, b"\x01\x00" + number.to_bytes(2, "big")) for number in range(1, 512))
        read_table(FRONT + chain + END)
        self.refused_table(FRONT + chain + END + END, 7, len(FRONT + chain + END))

    def test_8_bad_class(self):
        for body in [b"", b"\x00\x02", b"\x00\x02\x01\x00", b"\x00\x09\x01", b"\x00\x02\x00", b"\x00\x02\x03", b"\x00\x00\x00",
                     b"\x01\x00\x01", b"\x01\x01\x00", b"\x02\x09\x00", b"\x02\x01\x01", b"\x03\x00\x00"]:
            self.refused_both(NAMES + field(CLASS, body), 8, len(NAMES))

    def test_9_bad_row(self):
        read_book(NAMES + field(ROW, bytes(40)))
        self.refused(NAMES + field(ROW, bytes(41)), 9, len(NAMES))
        for row, what in [(bytes(41), "41 entries"), (b"\x00\x02", "the entry 2, which is no name's number")]:
            with self.assertRaises(Refused) as caught:
                read_book(NAMES + ROWS + field(ROW, row))
            self.assertEqual(caught.exception.what, f"row 2 has {what}")
        self.refused(NAMES + ROWS + field(ROW, b"\x00\x02"), 9, len(NAMES + ROWS))
        with self.assertRaises(Refused) as caught:
            plans.walk(FRONT + END, 41 * ["lunch"])
        self.assertEqual(caught.exception.number, 9)

    def test_10_prefix_tree_too_large(self):
        read_book(names_of(13) + rows_of(12 * [40] + [31]))
        data = names_of(13) + rows_of(12 * [40] + [32])
        self.refused(data, 10, len(data) - 35)
        self.refused(data + field(ROW, b"\x00"), 10, len(data) - 35)

    def test_11_bad_state(self):
        for body in [b"", b"\x02", b"\x00\x00", b"\x00\x00\x00", b"\x01\x02\x00\x00", b"\x01\x01\x00\x00\x00\x00\x00",
                     b"\x01\x00\x00\x00\x00\x00\x00"]:
            self.refused_table(FRONT + START + field(STATE, body), 11, len(FRONT + START))

    def test_12_bad_numbering(self):
        self.refused_table(FRONT + START, 12, len(FRONT))
        self.refused_table(FRONT + END + END, 12, len(FRONT + END))
        self.refused_table(FRONT + field(STATE, b"\x00\x00\x00\x02\x01\x00\x01") + END + END, 12, len(FRONT))
        self.refused_table(FRONT + END + field(STATE, b"\x01\x00\x00\x01"), 12, len(FRONT + END))


class ThereAndBack(unittest.TestCase):
    def test_table(self):
        table = read_table(FRONT + START + END)
        states = plans.State(False, (("lunch", 1),)), plans.State(True, ())
        self.assertEqual(table, plans.Table(("lunch", "snack"), plans.Class(1), states))
        self.assertEqual(plans.write_table(table), FRONT + START + END)
        self.assertEqual(plans.rewrite(table), plans.Rewritten(FRONT + START + END, 2))
