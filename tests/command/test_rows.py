"""`plans rows` and the module's read_rows: the rows, what is said of each plan and of each refusal with its place, the exit status, and
what is left behind. Rows are compared with those of another reader of XML."""
import os
import random
import subprocess
import sys
import unittest
from xml.parsers import expat

import plans
from commands import ROOT, InFolder
from plans.files import Failure, Input, Kind
from plans.plan_files import place_of
from plans.plan_rows import collected, plan_of, rows_of
from reference import field

WEEK = """<plan>Ward 3
  <day>Monday <breakfast>tea > coffee</breakfast><lunch><course/><course >soup</course ></lunch></day>
  <day/>
  <day>Wednesday<breakfast/><snack
  /><lunch/></day>
</plan>
"""
NAMES = ("breakfast", "day", "lunch", "snack")
ROWS = (("breakfast", "lunch"), (), ("breakfast", "snack", "lunch"))
NOTES = "1 plan: 3 rows, 3 different rows; 4 names:\n  breakfast 2, day 0, lunch 2, snack 1\n"
BOOK = plans.write_book(plans.Book(NAMES, None, ROWS))
NO_BOOK = "plans rows: no book is written"
IN_WORDS = "a < in the text has to be written in words"

# a plan, the place of its refusal 14, and what is said
FAULTS = [
    ("", "1:1", "the file is empty: a plan is one element"),
    (" \r\n\n", "3:1", "the file has only white space: a plan is one element"),
    ("<?xml version='1.0'?>\n<plan/>", "1:2", "a declaration, <?xml ..?>, stands here, and a plan has none: take it out"),
    ("<plan><?print now?></plan>", "1:8", "a processing instruction, <?..?>, stands here, and a plan has none: take it out"),
    ("<plan>\n<!-- x --></plan>", "2:2", "a comment, <!--..-->, stands here, and a plan has none: take it out"),
    ("<plan/>\n<!-- x -->", "2:1", "a comment, <!--..-->, stands here, and a plan has none: take it out"),
    ("<!doctype plan>\n<plan/>", "1:2", "a document type, <!DOCTYPE ..>, stands here, and a plan has none: take it out"),
    ("<!ELEMENT plan>", "1:2", "a declaration, <!..>, stands here, and a plan has none: take it out"),
    ("<plan><![CDATA[x]]></plan>", "1:8",
     "a CDATA section, <![CDATA[..]]>, stands here, and a plan has none: write its text by itself, without < and &"),
    ("<plan>\r\n  <day date='1'/></plan>", "2:8",
     "an attribute, date=, stands in the tag of day, and a plan has none: take it out, or write it as text"),
    (f"<plan {6000 * 'x'}='1'/>", "1:7",
     f"an attribute, {40 * 'x'}...=, stands in the tag of plan, and a plan has none: take it out, or write it as text"),
    ("<plan>\r  <day\n\tdate = '1'/></plan>", "3:2",
     "an attribute, date=, stands in the tag of day, and a plan has none: take it out, or write it as text"),
    ("<plan>Müsli & Obst</plan>", "1:13", "an & stands in the text, and a plan's text has none: write it in words, such as 'and'"),
    ("<plan>&uuml;</plan>", "1:7",
     "the reference &uuml; stands here, and a plan's text has no &: write the letter itself"),
    *((f"<plan>{what}</plan>", "1:7", f"the reference {what} stands here, and a plan's text has no &: write it in words, such as '{word}'")
      for what, word in [("&lt;", "under"), ("&#60;", "under"), ("&#x3C;", "under"), ("&#X03c;", "under"),
                         ("&amp;", "and"), ("&#38;", "and"), ("&#x26;", "and")]),
    ("\ufeff<plan/>", "1:1", "a byte order mark stands before the plan: save it as UTF-8 without one"),
    ("<plan/>".encode("utf-16"), "1:1", "this is UTF-16, and a plan is not: save it as UTF-8 without a byte order mark"),
    ("<plan/>".encode("utf-16-le"), "1:2", "this is UTF-16, and a plan is not: save it as UTF-8 without a byte order mark"),
    (b"PK\x03\x04...", "1:1", "this is an archive, such as a word processor's own file: save the plan as XML"),
    (BOOK, "1:1", "this is no plan, but fields, such as a book or a table, which the other sub-commands read"),
    (b"%PDF-1.7\n1 0 obj\n<</Type/Catalog>>", "1:1", "this is no plan, but a PDF: give the plan as XML"),
    (b"\x89PNG\r\n\x1a\n<", "1:1", "this is no plan, but a picture: give the plan as XML"),
    (b" \x90<a/>", "1:2", "this is no plan: it begins with the byte 90, and a plan with <"),
    (b"\0\2<a/>", "1:1", "this is no plan: it begins with the byte 00, and a plan with <"),
    ("\xa0<a/>", "1:1", "the byte C2 stands before the outermost element: only white space may"),
    (bytes(range(128, 256)), "1:1", "this is no plan: it has no tag"),
    ("lunch tea\n", "1:1", "this is no plan: it has no tag"),
    ("Monday <plan/>", "1:1", "'M' stands before the outermost element: only white space may"),
    ("<plan/>\nMonday", "2:1", "'M' stands after the end of the outermost element: only white space may"),
    (b"<plan/>\0", "1:8", "the byte 00 stands after the end of the outermost element: only white space may"),
    ("<plan/><plan/>", "1:8",
     "a second outermost element begins here, and a plan has one: put each into a file of its own, or one element around them"),
    ("<plan></plan></plan>", "1:14", "an end tag stands after the end of the outermost element: take it out, or open its element"),
    ("</plan>", "1:2", "an end tag stands where no element is open: a plan begins with a start tag"),
    ("<plan>\n<meal></plan>", "2:9", "the end tag of 'plan' stands where </meal> must: meal was opened in line 2"),
    ("<ab></a>", "1:8", "the end tag of 'a' stands where </ab> must: ab was opened in line 1"),
    ("<ab></abc>", "1:9", "the end tag of 'abc' stands where </ab> must: ab was opened in line 1"),
    ("<plan></ plan>", "1:9", "white space stands after </: the name comes right after it, </plan>"),
    ("<plan></plan x>", "1:14", "the end tag holds more than its name: write </plan>"),
    ("<plan></plan/>", "1:13", "the end tag holds more than its name: write </plan>"),
    ("<plan>1 < 2</plan>", "1:10",
     f"white space stands after <, where a tag's name must begin: {IN_WORDS}"),
    ("<plan>under <5 g</plan>", "1:14", f"the name '5' must begin with an ASCII letter, _ or :; write _5; {IN_WORDS}"),
    ("<plan/ >", "1:7", "/ and > belong together: write <plan/>"),
    ("<plan tea>", "1:7", "'t' stands in the tag of plan, which must end with > or />"),
    ("<plan<tea/></plan>", "1:6", "'<' stands in the tag of plan, which must end with > or />"),
    ("<9am/>", "1:2", "the name '9am' must begin with an ASCII letter, _ or :; write _9am"),
    ("<plan><Frühstück/></plan>", "1:10",
     "the name 'Frühstück' holds 'ü', which the format does not allow yet: ASCII letters, digits, _ : . and - are; write fruehstueck"),
    ('<plan><tea"/></plan>', "1:11",
     "the name 'tea\"' holds '\"', which the format does not allow yet: ASCII letters, digits, _ : . and - are; write tea"),
    ("<plan><main\xa0meal/></plan>", "1:12",
     "the name 'main\xa0meal' holds a no-break space (U+00A0), and no name may; write main_meal"),
    (f"<{33 * 'x'}/>", "1:34", f"the name '{33 * 'x'}' has 33 letters: at most 32 are allowed; write {32 * 'x'}"),
    ("<plan>\n<meal>soup", "2:11", "the file ends while meal, opened in line 2, is open: it was cut off, or </meal> is missing"),
    ("<plan>\n<meal", "2:6", "the file ends inside the tag '<meal': it was cut off, or the > is missing"),
    ("<plan></", "1:9", "the file ends inside the tag '</': it was cut off, or the > is missing"),
]


class Good(InFolder):
    def setUp(self):
        super().setUp()
        self.put("week.xml", WEEK)

    def test_one_plan(self):
        self.answers(0, "", "rows", "week.xml", "--element", "day", "-o", "week.book",
                     said=f"week.xml: 3 rows\n{NOTES}week.book: {len(BOOK)} bytes\n")
        self.assertEqual((self.folder / "week.book").read_bytes(), BOOK)
        self.answers(0, "breakfast lunch\n-\nbreakfast snack lunch\n".join(["names = day\n", ""]), "text", "week.book")

    def test_to_standard_output_and_from_standard_input(self):
        self.assertEqual(self.plans("rows", "--element=day", "-q", "week.xml").stdout, BOOK)
        done = self.plans("rows", "-", "--element", "day", input=WEEK.encode())
        self.assertEqual((done.returncode, done.stdout, done.stderr.decode()), (0, BOOK, f"standard input: 3 rows\n{NOTES}"))

    def test_the_outermost_and_nested_elements_give_rows(self):
        self.put("nested.xml", "<day><lunch/><day><day/></day></day>")
        self.answers(0, "", "rows", "nested.xml", "--element", "day", "-q", "-o", "nested.book")
        rows = plans.read_book((self.folder / "nested.book").read_bytes()).rows
        self.assertEqual(rows, (("lunch", "day"), ("day",), ()))

    def test_names_and_rows_of_all_plans_are_in_one_book(self):
        self.put("more.xml", "<day><tea/></day>")
        self.put("none.xml", "<plan><Day><cake/></Day></plan>")
        self.answers(0, "", "rows", "week.xml", "none.xml", "more.xml", "--element", "day", "--class", "last 1", "-o", "all.book", said=(
            "week.xml: 3 rows\nnone.xml: 0 rows: it has no element day (did you mean Day?)\nmore.xml: 1 row\n"
            "3 plans: 4 rows, 4 different rows; 5 names:\n  breakfast 2, day 0, lunch 2, snack 1, tea 1\nall.book: 64 bytes\n"))
        book = plans.judged_book((self.folder / "all.book").read_bytes())
        self.assertEqual(book, plans.Book((*NAMES, "tea"), plans.Class(2, 1), (*ROWS, ("tea",))))

    def test_names_from_a_file(self):
        names = (*NAMES, "tea")
        self.put("names.txt", "tea, snack # in any order\nlunch\n\nday\tday\nbreakfast\n")
        self.put("names", plans.write_names(names))
        self.put("names.book", plans.write_book(plans.Book(names, None, ((),))))
        self.put("names.table", plans.build(plans.Book(names, None, ((),))).table)
        self.put("days.txt", "sep=;\nclass = last 1\nnames = day tea\nbreakfast snack lunch\n-\nlunch;snack\nnames = day # again\n")
        self.put("long.txt", " ".join(20 * names) + "\n")
        for given in ("names.txt", "names", "names.book", "names.table", "days.txt", "long.txt"):
            self.answers(0, "", "rows", "week.xml", "--element", "day", "--names", given, "-q", "-o", "out")
            self.assertEqual((self.folder / "out").read_bytes(), plans.write_book(plans.Book(names, None, ROWS)))

    def test_the_shipped_week(self):
        files = sorted((ROOT / "examples" / "plans").glob("*.xml"))
        self.assertGreaterEqual(len(files), 5)
        for element in ("day", "lunch", "course", "plan"):
            done = self.plans("rows", *map(str, files), "--element", element, "-o", "out")
            self.assertEqual((done.returncode, done.stdout), (0, b""))
            rows = [row for path in files for row in by_expat(path.read_bytes(), element)]
            self.assertEqual(plans.read_book((self.folder / "out").read_bytes()).rows, tuple(rows))


class Refused(InFolder):
    def refused(self, said: str, *words: str):
        self.fails(f"{said}\n{NO_BOOK}", "rows", *words, "-o", "out")

    def test_each_fault_of_a_plan(self):
        for plan, place, said in FAULTS:
            self.put("plan.xml", plan)
            self.refused(f"plan.xml:{place}: refusal 14: {said}", "plan.xml", "--element", "day")

    def test_an_unknown_child(self):
        self.put("names.txt", "day lunch")
        self.put("plan.xml", "<plan><tea/>\n<day><lunhc a='1'/></day></plan>")
        self.refused("plan.xml:2:12: refusal 16: lunhc, a child of day, is not in names.txt; did you mean lunch?",
                     "plan.xml", "--element", "day", "--names", "names.txt")
        self.put("plan.xml", "<plan><day>\n<x/></day></plan>")
        self.refused("plan.xml:2:3: refusal 16: x, a child of day, is not in names.txt; add it there, or correct the plan",
                     "plan.xml", "--element", "day", "--names", "names.txt")

    def test_too_deep(self):
        self.put("plan.xml", 16 * "<a>" + "\n<b/>")
        self.refused("plan.xml:2:3: refusal 15: b stands inside 16 other elements: at most 15 are allowed; nest less deeply",
                     "plan.xml", "--element", "day")
        self.put("plan.xml", 16 * "<a>" + 16 * "</a>")
        self.answers(0, "", "rows", "plan.xml", "--element", "a", "-q", "-o", "out")

    def test_limits_of_one_plan(self):
        self.put("plan.xml", "<plan>" + 256 * "<day/>" + "\n <tea/><day/><day/></plan>")
        self.refused("plan.xml:2:8: refusal 7: over 256 elements day in one plan: at most 256 rows are allowed; divide the plan, or take "
                     "some out", "plan.xml", "--element", "day")
        smaller = "take a smaller element, such as a meal in place of a day"
        self.put("plan.xml", "<plan><day/>\n <day>" + 41 * "<tea/>" + "</day></plan>")
        self.refused(f"plan.xml:2:2: refusal 9: an element day of over 40 children: at most 40 are allowed; {smaller}",
                     "plan.xml", "--element", "day")
        self.put("plan.xml", "<plan>" + 256 * ("<day>" + 40 * "<t/>" + "</day>") + "</plan>")
        self.answers(0, "", "rows", "plan.xml", "--element", "day", "-q", "-o", "out")
        self.put("plan.xml", "<plan>" + 65536 * " ")
        self.refused("plan.xml: refusal 1: the plan is over 65,535 bytes: give it in parts, each with one outermost element",
                     "plan.xml", "--element", "day")
        self.put("plan.xml", "<plan/>" + 65528 * " ")
        self.answers(0, "", "rows", "plan.xml", "--element", "plan", "-q", "-o", "out")

    def counted(self, end: str, rows: str, said: str):
        self.put("one.xml", "<plan>" + rows + "</plan>")
        self.put("two.xml", "<plan>" + end + "</plan>")
        self.answers(2, "", "rows", "one.xml", "two.xml", "--element", "day", "-q", "-o", "out", said=f"{said}\n{NO_BOOK}\n")
        self.assertEqual(self.left(), ["one.xml", "two.xml"])

    def test_limits_of_all_plans(self):
        smaller = "take a smaller element, such as a meal in place of a day"
        self.counted("<day/>", 256 * "<day/>",
                     "two.xml: with this plan there are over 256 rows: at most 256 are allowed; give fewer plans")
        many = "".join(f"<day><n{i}/></day>" for i in range(60))
        more = "".join(f"<n{i}/>" for i in range(60, 65))
        self.counted(f"<day>{more}</day>", many,
                     f"two.xml: with this file there are over 64 different names: at most 64 are allowed; {smaller}")
        rows = [f"<day><n{i}/>" + 39 * "<a/>" + "</day>" for i in range(13)]
        self.counted(rows[12], "".join(rows[:12]),
                     f"two.xml: with this plan the prefix tree needs over 512 states; give fewer plans, or {smaller}")

    def test_all_plans_are_told_of_where_there_are_too_many_names(self):
        row = "".join("<day>" + "".join(f"<n{i}/>" for i in range(half, half + 30)) + "</day>" for half in (0, 30))
        more = row + "<day>" + "".join(f"<m{i}/>" for i in range(10)) + "</day>"
        for name, plan in [("one", row), ("two", more), ("three", more + "\n&"), ("four", more + 15 * "<a>" + "\n<a>"), ("five", "<_0/>"),
                           ("six", row.replace("n", "k") + 254 * "<day/>" + "\n<day/>"), ("seven", f"<_0>{more}</_0>")]:
            self.put(name, f"<plan>{plan}</plan>")
        self.put("eight", f"<plan>{more}{65536 * ' '}</plan>")
        smaller = "take a smaller element, such as a meal in place of a day"
        said = [
            "one: 2 rows", "two: 71 names",
            "three:2:1: refusal 14: an & stands in the text, and a plan's text has none: write it in words, such as 'and'",
            "four:2:3: refusal 15: a stands inside 16 other elements: at most 15 are allowed; nest less deeply",
            "five: 0 rows: it has no element day",
            "six:2:1: refusal 7: over 256 elements day in one plan: at most 256 rows are allowed; divide the plan, or take some out",
            "seven: 71 names", "eight: refusal 1: the plan is over 65,535 bytes: give it in parts, each with one outermost element",
            f"two: with this file there are over 64 different names: at most 64 are allowed; {smaller}", NO_BOOK]
        for quiet in ([], ["-q"]):
            told = [line for line in said if not quiet or "refusal" in line or line in said[-2:]]
            self.answers(2, "", "rows", "one", "two", "three", "four", "five", "six", "seven", "eight", "--element", "day", *quiet,
                         "-o", "out", said="".join(line + "\n" for line in told))
        self.assertNotIn("out", self.left())

    def test_all_plans_are_told_of(self):
        self.put("bad.xml", "<plan>&</plan>")
        self.put("good.xml", "<day/>")
        (self.folder / "folder").mkdir()
        before = self.left()
        self.answers(2, "", "rows", "none.xml", "bad.xml", "folder", "good.xml", "--element", "day", "-o", "out", said=(
            "plans: none.xml: No such file or directory\nplans: folder: Is a directory\nbad.xml:1:7: refusal 14: an & stands in the text, "
            "and a plan's text has none: write it in words, such as 'and'\ngood.xml: 1 row\n" + NO_BOOK + "\n"))
        self.assertEqual(self.left(), before)

    def test_no_row(self):
        self.put("one.xml", "<plan><Day/></plan>")
        self.put("two.xml", "<plan/>")
        said = "plans rows: no element day (did you mean Day?) in 2 plans: there is no row, and no book is written\n"
        self.answers(1, "", "rows", "one.xml", "two.xml", "--element", "day", "-o", "out", said=(
            f"one.xml: 0 rows: it has no element day (did you mean Day?)\ntwo.xml: 0 rows: it has no element day\n{said}"))
        self.answers(1, "", "rows", "one.xml", "two.xml", "--element", "day", "-q", said=said)
        self.assertEqual(self.left(), ["one.xml", "two.xml"])

    def test_names_files_that_will_not_do(self):
        self.put("plan.xml", "<day/>")
        wanted = "names are wanted: a text, a list of names, a book or a table"
        many = " ".join(f"n{i}" for i in range(65))
        yet = "which the format does not allow yet: ASCII letters, digits, _ : . and - are"
        for name, data, said in [
                ("days.txt", "Day lunch\n", "days.txt: day is not in this list, which must hold the element's own name; did you mean Day?"),
                ("bad.txt", "day\nsnäck\n", f"bad.txt:2: the name 'snäck' holds 'ä', {yet}; write snaeck"),
                ("many.txt", many, "many.txt: this list has 65 names, and a list has at most 64: take some out"),
                ("set.txt", "day\nmeal = day\n", "set.txt:2: 'meal' cannot be set: only 'class =' and 'names =' can"),
                ("empty", "", f"empty: this is an empty file; {wanted}"),
                ("other.xml", "<day/>", f"other.xml: this is a plan, in XML ('plans rows' makes a book of plans); {wanted}"),
                ("list", field(1, b"b") + field(1, b"a"), f"list: refusal 6: {plans.REFUSALS[6]}"),
                ("cut", field(1, b"day")[:-1], f"cut: refusal 2: {plans.REFUSALS[2]}"),
                ("bad.book", field(1, b"day") + field(3, b"\1"),
                 f"bad.book: offset 6: refusal 9: {plans.REFUSALS[9]}: row 1 has the entry 1, which is no name's number")]:
            self.put(name, data)
            self.fails(said, "rows", "plan.xml", "--element", "day", "--names", name, "-o", "out")
        self.fails("plans: none: No such file or directory", "rows", "plan.xml", "--element", "day", "--names", "none", "-o", "out")

    def test_usage(self):
        self.put("plan.xml", "<day/>")
        how = "('plans rows --help' shows how)"
        self.fails(f"plans rows: one file or more must be given, not 0 {how}", "rows", "--element", "day")
        self.fails(f"plans rows: say which element's children are the rows, as --element day {how}", "rows", "plan.xml")
        self.fails(f"plans rows: the name 'main meal' holds a space, and no name may; write main_meal {how}",
                   "rows", "plan.xml", "--element", "main meal")
        yet = "which the format does not allow yet: ASCII letters, digits, _ : . and - are"
        self.fails(f"plans rows: the name '{40 * 'é'}...' holds 'é', {yet}; write {32 * 'e'} {how}",
                   "rows", "plan.xml", "--element", 50 * "é")
        for words in (["-o", "out"], ["--names", "names.txt"], [""]):
            self.fails(f"plans rows: --element needs a name {how}", "rows", "plan.xml", "--element", *words)
        self.fails(f"plans rows: standard input can be read once {how}", "rows", "-", "--names", "-", "--element", "day")
        self.fails(f"plans rows: k is '9': it must be a number from 1 to 8 {how}", "rows", "plan.xml", "--element", "day", "--class", "9 9")
        self.fails("plans list: there is no option --element here ('plans list --help' shows how)", "list", "plan.xml", "--element", "day")

    def test_an_input_is_never_overwritten(self):
        self.put("plan.xml", "<day/>")
        self.put("names.txt", "day")
        for out in ("plan.xml", "names.txt"):
            self.fails(f"plans: {out}: this is also the input; give the output another name",
                       "rows", "plan.xml", "--element", "day", "--names", "names.txt", "-q", "-o", out)

    def test_other_commands_say_what_a_plan_is(self):
        self.put("plan.xml", WEEK)
        this = "this is a plan, in XML ('plans rows' makes a book of plans)"
        self.fails(f"plan.xml: {this}; a text, a book or a table is wanted", "list", "plan.xml")
        self.fails(f"plan.xml: {this}; a text is wanted", "book", "plan.xml")
        done = self.plans("check", "plan.xml")
        self.assertEqual((done.returncode, done.stderr), (1, b""))
        self.assertRegex(done.stdout.decode(), rf"^plan.xml: refused: .* \({this[:20]}.*\)\n$")

    def test_a_library_without_the_call(self):
        done = self.plans("rows", "plan.xml", "--element", "day", env={"PLANS_LIBRARY": "libc.so.6"})
        self.assertEqual(done.returncode, 2)
        self.assertNotIn(b"Traceback", done.stderr)


class Damaged(unittest.TestCase):
    """Plans with faults put in: one line is said, at the place that the library tells, and the names collected are never too few."""
    BITS = [b"<", b">", b"/", b"&", b" ", b"=", b"'", b"9", b"\0", b"\xc3", b"<!--", b"<?", b"</", b"/>", b"<day", b"</day>", b"\r",
            33 * b"x"]

    def damaged(self, draw: random.Random) -> bytes:
        data = bytearray(WEEK.encode())
        for _ in range(draw.choice([1, 1, 2])):
            place = draw.randrange(len(data) + 1)
            way = draw.randrange(4)
            if way == 0:
                del data[place:]
            else:
                data[place:place + (0, 0, 1, 4)[way]] = draw.choice(self.BITS) if way < 3 else b""
        return bytes(data)

    def test_messages(self):
        draw = random.Random(18)
        told = set()
        for _ in range(3000):
            data = self.damaged(draw)
            plan = plan_of(Input("week.xml", data, Kind.PLAN), "day")
            names = collected([plan], "day")
            try:
                rows_of(plan, names, "day")
            except Failure as problem:
                with self.assertRaises(plans.Refused) as caught:
                    plans.read_rows(data, names.names, "day")
                self.assertEqual(caught.exception.number, 14, data)
                front = f"week.xml:{place_of(data, caught.exception.offset)}: refusal 14: "
                self.assertEqual(len(problem.lines), 1)
                self.assertTrue(problem.lines[0].startswith(front) and problem.lines[0].isprintable(), problem.lines[0])
                told.add(problem.lines[0][len(front):][:20])
        self.assertGreater(len(told), 30)


def by_expat(plan: bytes, element: str) -> list:
    """The rows, by another reader of XML."""
    rows, path = [], []

    def start(name, _):
        if path and path[-1] is not None:
            rows[path[-1]] += (name,)
        path.append(len(rows) if name == element else None)
        if name == element:
            rows.append(())

    parser = expat.ParserCreate()
    parser.StartElementHandler = start
    parser.EndElementHandler = lambda _: path.pop()
    parser.Parse(plan, True)
    return rows


def a_plan(draw: random.Random, depth: int) -> str:
    """An element with random children and texts."""
    name = draw.choice(["a", "b", "c", "day", "x.y-z"])
    white = draw.choice(["", "", " ", "\n\t"])
    if depth == 0 or draw.random() < 0.3:
        return f"<{name}{white}/>"
    parts = [draw.choice(["", "tea", " > ", "\n", "]] ", "'\"="]) + a_plan(draw, depth - 1) for _ in range(draw.randrange(4))]
    return f"<{name}{white}>{''.join(parts)}text</{name}{draw.choice(['', ' '])}>"


class Module(unittest.TestCase):
    LIST = ("a", "b", "c", "day", "x.y-z")

    def test_against_another_reader(self):
        draw = random.Random(17)
        for _ in range(500):
            plan = draw.choice(["", " \n"]) + a_plan(draw, draw.randrange(8)) + draw.choice(["", "\r\n"])
            for element in ("day", "a"):
                self.assertEqual(plans.read_rows(plan.encode(), self.LIST, element), tuple(by_expat(plan.encode(), element)), plan)

    def test_a_list_is_names_or_bytes(self):
        plan = b"<day><a/><b/></day>"
        for names in (self.LIST, list(self.LIST), iter(self.LIST), plans.write_names(self.LIST), bytearray(plans.write_names(self.LIST))):
            self.assertEqual(plans.read_rows(memoryview(plan), names, "day"), (("a", "b"),))

    def test_refusals_and_their_places(self):
        many = [f"n{i:03}" for i in range(300)]
        for plan, names, element, number, offset in [
                (b"", (), "day", 4, None), (b"", ("b", "a"), "a", 6, None), (b"", many, "n299", 7, None),
                (b"", ("day", "9"), "day", 5, None), (b"", ("day",), "tea", 9, None),
                (b"", ("day",), "day", 14, 0), (b"<day><tea", ("day",), "day", 14, 9),
                (b"<day><tea/>", ("day",), "day", 16, 9), (16 * b"<a>" + b"<a>", ("day",), "day", 15, 50),
                (b"<a>" + 257 * b"<day/>" + b"</a>", ("day",), "day", 7, None), (bytes(65536), ("day",), "day", 1, None),
                (b"<day>" + 41 * b"<day/>" + b"</day>", ("day",), "day", 9, None),
                (b"", plans.write_names(("day",))[:-1], "day", 2, None)]:
            with self.assertRaises(plans.Refused) as caught:
                plans.read_rows(plan, names, element)
            self.assertEqual((caught.exception.number, caught.exception.offset), (number, offset), (plan[:20], names[:3]))

    def test_wrong_arguments(self):
        for plan in ("<day/>", 5, None):
            with self.assertRaisesRegex(TypeError, f"^a plan's bytes must be given, not {type(plan).__name__}$"):
                plans.read_rows(plan, ("day",), "day")
        for names in ("day", [b"day"], [5], None, 5):
            with self.assertRaisesRegex(TypeError, "^a list of names must be given as its names"):
                plans.read_rows(b"<day/>", names, "day")
        with self.assertRaisesRegex(ValueError, "^the name 'thé' cannot be written: it is not ASCII"):
            plans.read_rows(b"<day/>", ("day", "thé"), "day")

    def test_a_plan_of_the_greatest_size_is_soon_read(self):
        plan = b"<plan>" + 8190 * b"<a></a>" + b"</plan>"
        code = "import sys, plans; print(len(plans.read_rows(sys.stdin.buffer.read(), ['b'], 'b')))"
        done = subprocess.run([sys.executable, "-B", "-c", code], input=plan, capture_output=True, timeout=20, check=True,
                              env={**os.environ, "PYTHONPATH": str(ROOT / "python")})
        self.assertEqual(done.stdout, b"0\n")
