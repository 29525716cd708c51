"""Texts: there and back, as people and spreadsheets write them, and what is said of a text that describes no book."""
import pickle
import random
import time
import tracemalloc
import unittest

from plans import BadClass, BadText, Book, Class, build, read_book, read_class, read_text, write_book, write_text
from plans.showing import nearest, plain, shown, suggested
from samples import a_sample, book_of, loosened


class ThereAndBack(unittest.TestCase):
    def test_books(self):
        draw = random.Random(1)
        for _ in range(200):
            book = book_of(a_sample(draw))
            data = write_book(book)
            self.assertEqual(read_book(data), book)
            self.assertEqual(write_book(read_text(write_text(book)).book()), data)

    def test_texts(self):
        draw = random.Random(2)
        for _ in range(120):
            text = write_text(book_of(a_sample(draw)))
            loose = loosened(draw, text)
            for data in [loose, loose.encode("utf-8"), loose.lstrip("\ufeff").encode("utf-16")]:
                self.assertEqual(write_text(read_text(data).book()), text, loose)

    def test_one_text_in_full(self):
        text = read_text("names = tea\nlunch dinner\n\n-\nlunch # twice\nlunch\n# no day\n")
        book = Book(("dinner", "lunch", "tea"), None, (("lunch", "dinner"), (), ("lunch",), ("lunch",)))
        self.assertEqual((text.book(), text.blank_lines, text.lines), (book, 1, (2, 4, 5, 6)))
        self.assertEqual(text.names(), {"dinner": 1, "lunch": 3, "tea": 0})
        self.assertEqual(write_text(book), "names = tea\nlunch dinner\n-\nlunch\nlunch\n")

    def test_class_equal_to_the_default_is_kept(self):
        book = read_text("class = 2 1\nlunch\n").book()
        self.assertEqual(book.named_class, Class(0, 2, 1))
        self.assertEqual(write_text(book), "class = 2 1\nlunch\n")
        self.assertIsNone(read_text("lunch\n").book().named_class)

    def test_names_that_look_like_settings(self):
        self.assertEqual(read_text("class names\nnames: class:\n").book().names, ("class", "class:", "names", "names:"))

    def test_every_class(self):
        words = [f"{k} {h}" for k in range(1, 9) for h in range(1, k + 1)]
        words += ["seen"] + [f"last {j}" for j in range(9)]
        for word in words:
            text = f"class = {word}\nlunch\n"
            self.assertEqual(write_text(read_book(write_book(read_text(text).book()))), text)

    def test_no_book_within_the_limits_is_too_long(self):
        names = tuple(chr(65 + i // 26) + chr(65 + i % 26) + 30 * "x" for i in range(64))
        longest = write_book(Book(names, Class(0, 2, 1), 256 * (40 * (names[0],),)))
        read_book(longest)
        self.assertEqual(len(longest), 13254)


class Spreadsheets(unittest.TestCase):
    def days(self, data, *expected: str):
        self.assertEqual(read_text(data).days, tuple(tuple(day.split()) for day in expected))

    def test_line_ends_and_marks(self):
        for end in ["\n", "\r\n", "\r"]:
            self.days(f"tea cake{end}tea{end}", "tea cake", "tea")
        self.days(b"\xef\xbb\xbftea cake\r\n", "tea cake")
        self.days("\ufefftea\tcake\r\ntea\t\r\n".encode("utf-16-le"), "tea cake", "tea")
        self.days("\ufefftea\tcake\n".encode("utf-16-be"), "tea cake")

    def test_cells(self):
        for line in ["tea,cake", "tea;cake;;", '"tea","cake"', ",,tea,,cake", "tea\tcake", " tea , cake ", '"tea" "cake"',
                     '"tea";cake;""']:
            self.days(line, "tea cake")
        self.days("sep=;\ntea;cake\n", "tea cake")
        self.days("-,,,\ntea,,,\n", "", "tea")

    def test_settings_out_of_cells(self):
        for line in ["class = last 2", "class=last 2", '"class = last 2",,', "class =,last,2", "class;=;last 2", " class = last 2 # c"]:
            self.assertEqual(read_text(line + "\ntea\n").named_class, Class(2, 2), line)
        for line in ["names = tea cake", "names = tea, cake", "names =,tea,cake,,", "names = tea cake,,", '"names = tea cake",,',
                     'names = "tea" "cake"']:
            self.assertEqual(read_text(line + "\ntea\n").declared, {"cake", "tea"}, line)

    def test_blank_lines_are_counted(self):
        self.assertEqual(read_text("\n  \n\t\n,,;\n# comment\ntea # x\n\n").blank_lines, 5)


class Copies(unittest.TestCase):
    def test_taken_once_where_more_than_256_are_typed(self):
        text = read_text(200 * "tea\ncake\n")
        self.assertEqual(text.book(copies=False), Book(("cake", "tea"), None, (("tea",), ("cake",))))
        with self.assertRaises(BadText):
            text.book()
        with self.assertRaises(BadText):
            text.book(copies=False, for_counts=True)
        few = read_text(128 * "tea\ncake\n")
        self.assertEqual(few.book(copies=False), few.book())
        self.assertEqual(len(few.book().rows), 256)


def words(count: int, first: int = 0) -> str:
    return " ".join(f"n{first + i}" for i in range(count))


class Faults(unittest.TestCase):
    def says(self, data, *problems, **settings):
        with self.assertRaises(BadText) as caught:
            read_text(data).book(**settings)
        self.assertEqual([(problem.line, problem.reason) for problem in caught.exception.problems], list(problems))

    def test_all_faulty_lines_are_told(self):
        self.says("lunch 9am\ntea\nclass = seen\n-x\n",
                  (1, "the name '9am' must begin with an ASCII letter, _ or :; write _9am"),
                  (3, "'class =' must stand before the first day"),
                  (4, "the name '-x' must begin with an ASCII letter, _ or :; write x"))

    def test_problems_are_pickled(self):
        with self.assertRaises(BadText) as caught:
            read_text("9am\n-x\n")
        again = pickle.loads(pickle.dumps(caught.exception))
        self.assertEqual((again.problems, str(again)), (caught.exception.problems, str(caught.exception)))

    def test_a_thousand_are_told(self):
        for data in ["9\n" * 5000, "9 " * 5000, "\n".join(f"9{i}" for i in range(5000))]:
            with self.assertRaises(BadText) as caught:
                read_text(data)
            self.assertLessEqual(len(caught.exception.problems), 1001)
        self.assertEqual(len(caught.exception.problems), 1001)
        self.assertEqual(caught.exception.problems[-1].reason, "1,000 faults are told; the rest of the text is not read")

    def test_name_too_long(self):
        read_text(32 * "x" + "\n").book()
        self.says("lunch\n" + 33 * "x", (2, f"the name '{33 * 'x'}' has 33 letters: at most 32 are allowed; write {32 * 'x'}"))
        self.says(1000000 * "x", (1, f"the name '{40 * 'x'}...' has 1000000 letters: at most 32 are allowed; write {32 * 'x'}"))

    def test_space_in_a_cell(self):
        told = (1, "the name 'morning snack' holds a space, and no name may; write morning_snack")
        for line in ['"morning snack" lunch', "morning snack,lunch", "lunch\tmorning snack", "lunch;morning snack;", '"morning snack"']:
            self.says(line, told)

    def test_space_in_a_declared_name(self):
        self.says('names = "morning snack"\ntea', (1, "the name 'morning snack' holds a space, and no name may; write morning_snack"))

    def test_other_letters(self):
        allowed = "which the format does not allow yet: ASCII letters, digits, _ : . and - are"
        self.says("Frühstück", (1, f"the name 'Frühstück' holds 'ü', {allowed}; write fruehstueck"))
        parts = "Fru\u0308hstu\u0308ck"
        self.says(parts.encode(), (1, f"the name '{parts}' holds '\u0308', {allowed}; write fruehstueck"))
        self.says("Frühstück".encode("cp1252"), (1, f"the name 'Fr\\xfchst\\xfcck' holds '\\xfc', {allowed}; write fruehstueck"))
        self.says("朝食", (1, f"the name '朝食' holds '朝', {allowed}"))
        self.says("a\x1b[31mb", (1, f"the name 'a\\x1b[31mb' holds '\\x1b', {allowed}; write a_31mb"))
        self.says("tea\u202ecake", (1, f"the name 'tea\\u202ecake' holds '\\u202e', {allowed}; write tea_cake"))
        self.says("tea\x0bcake", (1, f"the name 'tea\\x0bcake' holds '\\x0b', {allowed}; write tea_cake"))
        self.says("tea\xa0cake,tea", (1, "the name 'tea\xa0cake' holds a no-break space (U+00A0), and no name may; write tea_cake"))
        self.says("tea\u3000cake,tea", (1, "the name 'tea\u3000cake' holds a space (U+3000), and no name may; write tea_cake"))
        self.says("tea \x0b# tea", (1, f"the name '\\x0b' holds '\\x0b', {allowed}"))

    def test_line_break_in_a_quoted_cell(self):
        told = "which the format does not allow yet: ASCII letters, digits, _ : . and - are (a cell may not hold a line break)"
        self.says('"tea\ncake",tea\n', (1, f"the name '\"tea' holds '\"', {told}; write tea"),
                  (2, f"the name 'cake\"' holds '\"', {told}; write cake"))

    def test_mark_of_the_empty_day_beside_names(self):
        self.says("tea -\n", (1, "'-' stands for the empty day, in a line of its own"))

    def test_limits(self):
        smaller = "take a smaller element, such as a meal in place of a day"
        all_names = words(32) + "\n" + words(32, 32)
        read_text(all_names).book()
        self.says(all_names + "\nn0 more\n", (3, f"with this day there are over 64 different names; {smaller}"))
        self.says(f"names = {words(65)}\nn0\n", (1, f"65 names are declared: at most 64 are allowed; {smaller}"))
        self.says("x\n" + 41 * "x ", (2, f"a day of 41 names: at most 40 are allowed; {smaller}"))
        rows = [f"n{i} " + 39 * "x " for i in range(12)]
        read_text("\n".join(rows + ["last " + 30 * "x "])).book()
        self.says("\n".join(rows + ["last " + 31 * "x "]),
                  (13, f"with this day the prefix tree needs over 512 states; give fewer days, or {smaller}"))

    def test_257th_day(self):
        read_text(256 * "lunch\n").book()
        self.says(256 * "lunch\n" + "# more\nlunch\n",
                  (258, "a 257th day: at most 256 are allowed; give fewer days "
                        "(only 1 different day: leave copies out)"))
        self.says(257 * "lunch\n", (257, "a 257th day: at most 256 are allowed; give fewer days "
                                         "(only 1 different day, but copies are counted: none may be left out)"), for_counts=True)
        different = "\n".join(f"n{i // 26} m{i % 26}" for i in range(257))
        self.says(different, (257, "a 257th different day: at most 256 are allowed; give fewer days"), copies=False)
        self.says(different, (257, "a 257th day: at most 256 are allowed; give fewer days"), for_counts=True)

    def test_no_day_or_no_name(self):
        none = "the text ends without a day (a single - is the empty day)"
        for data, line in [("", 1), ("\n\n", 2), ("# days\nclass = seen\nnames = lunch\n", 3)]:
            self.says(data, (line, none))
        self.says("# days\n-\n", (2, "the text has no name: a book needs one, used or not ('names =' declares it)"))

    def test_settings(self):
        self.says("lunch\nnames = dinner\n", (2, "'names =' must stand before the first day"))
        self.says("class = seen\nclass = seen\nlunch\n", (2, "a second 'class =': one is allowed"))
        for line in ["=SUM(A1)", "= seen", '"=SUM(A1)",lunch', ";;="]:
            self.says(f"{line}\nlunch\n", (1, "a line with =: only 'class =' and 'names =' can be set"))
        self.says("colour = red\nlunch\n", (1, "'colour' cannot be set: only 'class =' and 'names =' can"))
        self.says("#\nclass = 2 3\nlunch\n", (2, "h is '3': it must be a number from 1 to 2"))
        self.says("names = lunch 1\nlunch\n", (1, "the name '1' must begin with an ASCII letter, _ or :; write _1"))

    def test_class_values(self):
        shape = "it must be 'k h' (two numbers), 'seen' or 'last j'"
        for given, reason in [("0 1", "k is '0': it must be a number from 1 to 8"),
                              ("9 1", "k is '9': it must be a number from 1 to 8"),
                              ("3 0", "h is '0': it must be a number from 1 to 3"),
                              ("3 4", "h is '4': it must be a number from 1 to 3"),
                              ("3 x", "h is 'x': it must be a number from 1 to 3"),
                              ("²3 1", "k is '²3': it must be a number from 1 to 8"),
                              ("last 9", "j is '9': it must be a number from 0 to 8"),
                              ("last -1", "j is '-1': it must be a number from 0 to 8"),
                              ("", f"the class is '': {shape}"), ("2", f"the class is '2': {shape}"),
                              ("2 1 1", f"the class is '2 1 1': {shape}"), ("seen 0", f"the class is 'seen 0': {shape}"),
                              ("last", f"the class is 'last': {shape}"), ("first 1", f"the class is 'first 1': {shape}")]:
            with self.assertRaises(BadClass) as caught:
                read_class(given)
            self.assertEqual(str(caught.exception), reason)


class LongTexts(unittest.TestCase):
    """Time and memory go with the length of a text, whatever it holds."""

    def test_long_lines(self):
        """Each would take hours if every part of it were tried."""
        for data in [";" * 4_000_000, '"' * 2_000_000, '"' * 2_000_001, ";" * 2_000_000 + "=", "=" * 4_000_000, " " * 2_000_000 + "#",
                     "names =" + '",' * 500_000, '"a' * 500_000, "; " * 500_000]:
            started = time.monotonic()
            with self.assertRaises(BadText):
                read_text(data)
            self.assertLess(time.monotonic() - started, 10, data[:10])

    def test_beginnings_are_kept_to_the_limit_only(self):
        tail = 39 * " x"
        text = read_text("".join(f"n{i}{tail}\n" for i in range(2000)))
        tracemalloc.start()
        self.addCleanup(tracemalloc.stop)
        with self.assertRaises(BadText) as caught:
            text.book()
        self.assertEqual([problem.line for problem in caught.exception.problems], [13, 64, 257])
        self.assertLess(tracemalloc.get_traced_memory()[1], 2_000_000)


class AnyText(unittest.TestCase):
    def test_what_is_read_is_accepted_and_the_rest_is_told(self):
        draw = random.Random(3)
        parts = [b"tea", b"cake", b"-", b" ", b" ", b"\n", b"\n", b",", b";", b"\t", b'"', b"#", b"=", b"class = ", b"names = ", b"seen",
                 b"2 1", b"\r", b"\xff", b"\xc3\xbc", b"9", b"\xef\xbb\xbf", b"\x1b", b"\x0b", b"\xe2\x80\xa8"]
        read = 0
        for _ in range(4000):
            data = b"".join(draw.choice(parts) for _ in range(draw.randint(0, 12)))
            try:
                book = read_text(data).book()
            except BadText as problem:
                self.assertTrue(problem.problems, data)
                continue
            read += 1
            build(book)
            self.assertEqual(read_book(write_book(book)), book, data)
        self.assertGreater(read, 100)


class Showing(unittest.TestCase):
    def test_shown(self):
        self.assertEqual(plain("a\n\x1b[0m\udcffé\u2028"), "a\\x0a\\x1b[0m\\xffé\\u2028")
        self.assertEqual(shown(100 * "é"), "'" + 40 * "é" + "...'")

    def test_suggested_names_are_names(self):
        for word, name in [("Morning Snack", "morning_snack"), ("Frühstück", "fruehstueck"), ("crème brûlée", "creme_brulee"),
                           ("9 a.m.", "_9_a.m"), ("Smørrebrød", "smoerrebroed"), ("Weiß-Brot", "weiss-brot"), ("...", None),
                           ("tea/coffee", "tea_coffee"), ("朝食", None), (50 * "ä", 16 * "ae")]:
            self.assertEqual(suggested(word), name)
            if name:
                self.assertEqual(read_text(name).days, ((name,),))

    def test_nearest(self):
        names = ["breakfast", "lunch", "dinner"]
        found = [nearest(word, names) for word in ["lucnh", "Breakfast", "xyz", 100 * "q"]]
        self.assertEqual(found, ["lunch", "breakfast", None, None])
