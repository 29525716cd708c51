"""Every sub-command on good and on bad input: what it prints, what it says, its exit status, and what it leaves behind."""
import os
import stat
import subprocess
import sys

import plans
from commands import PLANS, ROOT, InFolder
from reference import field

TEXT = "lunch\nlunch tea\nlunch tea cake\n"
NOTES = "days.txt: 3 days, 3 different days; 3 names:\n  cake 1, lunch 3, tea 2\n"
BOOK = plans.write_book(plans.read_text(TEXT).book())
TABLE = plans.build(BOOK).table
LISTED = "0 - lunch>1\n1 + tea>2\n2 + cake>3\n3 +\n"
COMMANDS = ["list", "counts", "build", "walk", "check", "diff", "text", "book", "picture"]  # and rows, which takes plans: test_rows.py


class Good(InFolder):
    def setUp(self):
        super().setUp()
        self.put("days.txt", TEXT)
        self.put("days.book", BOOK)
        self.put("days.table", TABLE)

    def test_list(self):
        self.answers(0, "states 4 joins 0 distinct 3\n" + LISTED, "list", "days.txt", said=NOTES)
        self.answers(0, "states 4 joins 0 distinct 3\n" + LISTED, "list", "-q", "days.book")
        self.answers(0, "states 4\n" + LISTED, "list", "days.table")
        self.answers(0, "states 4\n" + LISTED, "list", "-", input=TABLE)
        self.answers(0, "states 2 joins 2 distinct 3\n0 - lunch>1\n1 + cake>1 tea>1\n", "list", "days.book", "--class", "last 0")
        self.answers(0, "", "list", "days.txt", "-q", "-o", "listing")
        self.assertEqual((self.folder / "listing").read_text(), "states 4 joins 0 distinct 3\n" + LISTED)

    def test_build(self):
        self.answers(0, "", "build", "days.txt", "-o", "out", said=NOTES + "out: 4 states, 0 joins, 3 different rows, 52 bytes\n")
        self.assertEqual((self.folder / "out").read_bytes(), TABLE)
        for words in (["days.txt"], ["days.book"], ["-q", "-o", "-", "days.txt"]):
            self.assertEqual(self.plans("build", *words).stdout, TABLE)
        self.answers(0, "", "build", "-q", "days.txt", "--class=2 2", "-o", "out")
        self.assertEqual(plans.read_table((self.folder / "out").read_bytes()).named_class, plans.Class(0, 2, 2))

    def test_walk(self):
        for name in ["days.txt", "days.book", "days.table"]:
            self.answers(0, "allowed\nnext: cake\n", "walk", "-q", name, "lunch", "tea")
        self.answers(0, "allowed\nnext: nothing\n", "walk", "days.table", "lunch", "tea", "cake")
        on_the_way = "on the way: a day may not be empty\nnext: lunch\n"
        self.answers(1, on_the_way, "walk", "days.table")
        self.answers(1, on_the_way, "walk", "days.table", "-")
        self.answers(1, "not allowed: it goes as far as lunch tea; then lunch may not come\nnext: cake\n",
                     "walk", "-", "lunch", "tea", "lunch", input=TABLE)
        self.answers(1, "not allowed: a day may not begin with tea\nnext: lunch\n", "walk", "days.table", "tea")
        self.answers(1, "not allowed: a day may not begin with 'lucnh' (the model has no such name; did you mean lunch?)\nnext: lunch\n",
                     "walk", "days.table", "lucnh")
        self.answers(1, "on the way: a day may not end here\nnext: tea\n", "walk", "-q", "-", "lunch", input=b"lunch tea\n")

    def test_check(self):
        self.answers(0, "days.table: accepted: a table of 3 names, context (2,1), 4 states\n"
                        "days.book: accepted: a book of 3 names, 3 rows, 3 different rows\n"
                        "days.txt: accepted: a text of 3 days, 3 different days, 3 names\n",
                     "check", "days.table", "days.book", "days.txt", said=NOTES)

    def test_diff(self):
        self.answers(0, "same\n", "diff", "days.table", "days.table")
        self.answers(0, "same\n", "diff", "-q", "days.txt", "days.table")
        self.put("other.txt", "class = seen\nlunch\nlunch tea\nlunch tea soup\n")
        self.answers(1, "names: only in days.table: cake\nnames: only in other.txt: soup\n"
                        "class: context (2,1) in days.table, seen set in other.txt\nstates: 4 in both, but they are not the same\n"
                        "days: lunch tea cake is allowed by days.table, not by other.txt\n", "diff", "-q", "days.table", "other.txt")
        self.put("more.txt", TEXT + "-\nlunch lunch\n")
        self.answers(1, "states: 4 in days.table, 5 in more.txt\ndays: the empty day is allowed by more.txt, not by days.table\n",
                     "diff", "-q", "days.table", "more.txt")
        self.put("class.txt", "class = 3 1\n" + TEXT)
        self.answers(1, "class: context (2,1) in days.table, context (3,1) in class.txt\ndays: both allow the same\n",
                     "diff", "-q", "days.table", "class.txt")

    def test_diff_by_a_day_that_no_walk_takes(self):
        def chain(arcs: int) -> bytes:
            states = b"".join(field(4, b"\0\0" + number.to_bytes(2, "big")) for number in range(1, arcs + 1))
            return field(1, b"lunch") + field(2, b"\1\0\0") + states + field(4, b"\1")

        self.put("one.table", chain(40))
        self.put("two.table", chain(41))
        self.put("three.table", chain(50))
        parted = "is allowed by {}, not by {}\n"
        self.answers(1, "states: 41 in one.table, 42 in two.table\n"
                        "days: " + 40 * "lunch " + parted.format("one.table", "two.table"), "diff", "-q", "one.table", "two.table")
        self.answers(1, "states: 42 in two.table, 51 in three.table\n"
                        "days: of up to 40 names both allow the same; one of 41 names parts them\n"
                        "days: " + 41 * "lunch " + parted.format("two.table", "three.table"), "diff", "-q", "two.table", "three.table")

    def test_text_and_book(self):
        self.answers(0, TEXT, "text", "days.book")
        self.answers(0, "", "text", "days.book", "-o", "again.txt")
        self.assertEqual((self.folder / "again.txt").read_text(), TEXT)
        self.answers(0, "", "book", "days.txt", "-o", "again.book", said=NOTES + f"again.book: {len(BOOK)} bytes\n")
        self.assertEqual((self.folder / "again.book").read_bytes(), BOOK)
        self.assertEqual(self.plans("book", "-q", "-", input=b"class = seen\nlunch\n", ).stdout,
                         bytes.fromhex("01 00 05 6C 75 6E 63 68 02 00 03 01 00 00 03 00 01 00"))

    def test_picture(self):
        self.answers(0, "", "picture", "-q", "days.txt", "-o", "days.dot")
        self.assertIn('label="context (2,1): 4 states, 0 joins, 3 different rows"', (self.folder / "days.dot").read_text())
        self.answers(0, "", "picture", "days.book", "--tree", "-o", "days.dot")
        self.assertIn('label="prefix tree: 4 states"', (self.folder / "days.dot").read_text())
        dot = self.folder / "dot"
        dot.write_text('#!/bin/sh\necho "$1"; cat; echo warned >&2\n')
        dot.chmod(0o755)
        path = {"PATH": f"{self.folder}:{os.environ['PATH']}"}
        for form in ["svg", "png", "pdf"]:
            self.answers(0, "", "picture", "days.table", "-o", f"days.{form}", env=path)
            self.assertTrue((self.folder / f"days.{form}").read_text().startswith(f"-T{form}\ndigraph"))
        self.assertIn(b"-Tsvg\ndigraph", self.plans("picture", "days.table", env=path).stdout)
        dot.write_text("#!/bin/sh\nexit 7\n")
        self.fails("plans picture: 'dot' ended with status 7", "picture", "days.table", "-o", "out.svg", env=path)
        dot.unlink()
        self.fails("plans picture: the command 'dot' is missing: it is in Debian's package graphviz",
                   "picture", "days.table", "-o", "out.svg", env={"PATH": str(self.folder)})

    def test_help_and_version(self):
        shown = self.plans("--help").stdout.decode()
        for name in [*COMMANDS, "rows"]:
            self.assertIn(f"  plans {name} ", shown)
            done = self.plans(name, "--help")
            self.assertEqual((done.returncode, done.stderr), (0, b""))
            self.assertIn(f"plans {name} ", done.stdout.decode().splitlines()[0])
            self.assertIn("\n  $ ", done.stdout.decode())
            shown += done.stdout.decode()
            self.assertLessEqual(len(done.stdout.decode().splitlines()), 24)
        self.assertLessEqual(len(self.plans("--help").stdout.splitlines()), 24)
        self.assertLessEqual(max(map(len, shown.splitlines())), 80)
        walk = self.plans("walk", "--help").stdout.decode()
        for words in (["help", "walk"], ["--help", "walk"], ["-h", "walk"]):
            self.answers(0, walk, *words)
        self.answers(0, self.plans("--help").stdout.decode(), "help")
        self.answers(0, f"plans {(ROOT / 'VERSION').read_text()}", "--version")

    def test_as_a_module(self):
        done = subprocess.run([sys.executable, "-B", "-m", "plans", "walk", str(self.folder / "days.table"), "lunch"],
                              env={**os.environ, "PYTHONPATH": str(ROOT / "python")}, capture_output=True, check=False)
        self.assertEqual((done.returncode, done.stdout), (0, b"allowed\nnext: tea\n"))

    def test_from_any_folder_and_by_a_link(self):
        os.symlink(PLANS, self.folder / "linked")
        done = subprocess.run(["./linked", "walk", "days.table", "lunch"], cwd=self.folder, capture_output=True, check=False)
        self.assertEqual(done.stdout, b"allowed\nnext: tea\n")


class WhatPeopleType(InFolder):
    def test_names_are_told_so_that_slips_are_seen(self):
        self.put("days.txt", "breakfast lunch\nBreakfast lucnh\n\nbreakfast lunch\n-\n")
        self.answers(0, "", "build", "days.txt", "-o", "out", said=(
            "days.txt: 4 days, 3 different days (1 is a copy); 4 names:\n  Breakfast 1, breakfast 2, lucnh 1, lunch 2\n"
            "days.txt: 1 blank line passed over (a single - is the empty day)\n"
            "out: 5 states, 0 joins, 3 different rows (1 is a copy), 78 bytes\n"))

    def test_all_faulty_lines_are_told(self):
        self.put("days.txt", '"morning snack",lunch\nlunch\nFrühstück\n')
        yet = "which the format does not allow yet: ASCII letters, digits, _ : . and - are"
        told = ("days.txt:1: the name 'morning snack' holds a space, and no name may; write morning_snack\n"
                f"days.txt:3: the name 'Frühstück' holds 'ü', {yet}; write fruehstueck\n")
        self.answers(2, "", "list", "days.txt", said=told)
        self.answers(1, told, "check", "days.txt")

    def test_copies_are_taken_once_for_a_model(self):
        self.put("days.txt", 150 * "lunch\nlunch tea\n")
        once = "days.txt: over 256 days: each different one is taken once, which gives the same model\n"
        self.answers(0, "states 3 joins 0 distinct 2\n0 - lunch>1\n1 + tea>2\n2 +\n", "list", "days.txt", said=(
            "days.txt: 300 days, 2 different days (298 are copies); 2 names:\n  lunch 300, tea 150\n" + once))
        self.fails("days.txt:257: a 257th day: at most 256 are allowed; give fewer days (only 2 different days: leave copies out)",
                   "book", "days.txt", "-o", "out")
        self.answers(0, "", "build", "days.txt", "-o", "out", said=(
            "days.txt: 300 days, 2 different days (298 are copies); 2 names:\n  lunch 300, tea 150\n" + once
            + "out: 3 states, 0 joins, 2 different rows, 38 bytes\n"))

    def test_limits_say_what_to_do(self):
        self.put("days.txt", "\n".join(f"n{i // 26} m{i % 26}" for i in range(257)))
        self.fails("days.txt:257: a 257th different day: at most 256 are allowed; give fewer days", "list", "days.txt")


class Bad(InFolder):
    def setUp(self):
        super().setUp()
        self.put("days.txt", TEXT)
        self.put("days.book", BOOK)
        self.put("days.table", TABLE)

    def of_each(self, said: str, name: str, **settings):
        """Every sub-command but check says the same of this file."""
        for command in COMMANDS:
            if command != "check":
                done = self.plans(command, name, *(["days.table"] if command == "diff" else []), **settings)
                self.assertEqual((done.returncode, done.stdout), (2, b""), command)
                self.assertRegex(done.stderr.decode(), f"^{said}\n$", command)

    def test_missing_file_and_directory(self):
        self.of_each("plans: none.txt: No such file or directory", "none.txt")
        self.fails("plans: none.txt: No such file or directory", "check", "none.txt")
        (self.folder / "folder").mkdir()
        self.fails("plans: folder: Is a directory", "walk", "folder", "lunch")
        self.fails("plans: '': No such file or directory", "list", "")
        self.fails("plans: '': Is a directory", "build", "days.txt", "-q", "-o", "")
        self.fails("plans: folder: Is a directory", "build", "days.txt", "-q", "-o", "folder")
        self.fails("plans: none/out: No such file or directory", "build", "days.txt", "-q", "-o", "none/out")
        self.fails("plans: days.txt/x: Not a directory", "list", "days.txt/x")

    def test_check_judges_the_other_files_where_one_is_missing(self):
        accepted = "days.book: accepted: a book of 3 names, 3 rows, 3 different rows\n"
        missing = "plans: none: No such file or directory\n"
        self.answers(2, accepted, "check", "days.book", "none", said=missing)
        self.put("empty", b"")
        done = self.plans("check", "none", "empty", "days.book")
        self.assertEqual((done.returncode, done.stderr.decode()), (2, missing))
        self.assertRegex(done.stdout.decode(), f"^empty: refused: .*\n{accepted}$")
        self.assertEqual(self.plans("check", "empty", "days.book").returncode, 1)

    def test_binary_rubbish(self):
        rubbish = bytes(range(128, 256)) + bytes(128)
        self.put("rubbish", rubbish)
        self.of_each("rubbish: this is neither a text nor fields, which begin with the byte 01; .* is wanted", "rubbish")
        neither = "this is neither a text nor fields, which begin with the byte 01"
        self.answers(1, f"rubbish: refused: offset 0: refusal 2: {plans.REFUSALS[2]} ({neither})\n", "check", "rubbish")
        self.put("book.xlsx", b"PK\x03\x04" + rubbish)
        archive = "this is an archive, such as a spreadsheet's own file: save it as CSV or as text"
        self.answers(1, f"book.xlsx: refused: offset 0: refusal 2: {plans.REFUSALS[2]} ({archive})\n", "check", "book.xlsx")
        self.fails("book.xlsx: this is an archive, such as a spreadsheet's own file: save it as CSV or as text; a text is wanted",
                   "book", "book.xlsx")

    def test_wrong_kind(self):
        self.fails("days.table: this is a table; a text or a book is wanted", "build", "days.table")
        self.fails("days.table: this is a table; a book is wanted", "text", "days.table")
        self.fails("days.txt: this is a text; a book is wanted", "text", "days.txt")
        self.fails("days.table: this is a table; a text is wanted", "book", "days.table")
        self.fails("days.book: this is a book; a text is wanted", "book", "days.book")
        self.fails("days.table: this is a table, which has no days; --tree is for texts and books", "picture", "--tree", "days.table")
        self.fails("days.table: this is a table, which has no days; --counts is for texts and books", "picture", "--counts", "days.table")
        self.fails("days.table: this is a table; a text or a book is wanted", "counts", "days.table")
        self.fails("days.table: this is a table, which has its class; --class is for texts and books",
                   "list", "days.table", "--class", "seen")

    def test_empty_file(self):
        self.put("empty", b"")
        self.of_each("empty: this is an empty file; .* is wanted", "empty")
        self.fails("standard input: this is an empty file; a text, a book or a table is wanted", "diff", "-", "days.table")
        self.answers(1, "empty: refused: offset 0: refusal 4: the input ends while a field is still due (this is an empty file)\n",
                     "check", "empty")

    def test_200_megabytes(self):
        for name, start in [("zeros", b""), ("fields", TABLE), ("text", TEXT.encode())]:
            with open(self.folder / name, "wb") as file:
                file.write(start)
                file.truncate(200_000_000)
        too_long = "refusal 1: the input is over 65,535 bytes, or the working area under 65,536"
        neither = "this is neither a text nor fields, which begin with the byte 01"
        self.answers(1, f"zeros: refused: offset 65535: {too_long} ({neither})\n", "check", "zeros")
        self.answers(1, f"fields: refused: offset 65535: {too_long}\n", "check", "fields")
        self.fails(f"fields: offset 65535: {too_long}", "walk", "fields", "lunch")
        self.of_each("zeros: this is neither a text nor fields, which begin with the byte 01; .* is wanted", "zeros")
        with open(self.folder / "text", "wb") as file:
            file.write(b"lunch\n" * 1_000_000)
        self.of_each("text: the text is over 4,194,304 bytes; give fewer days", "text")
        self.fails("text: the text is over 4,194,304 bytes; give fewer days", "check", "text")

    def test_each_refusal(self):
        """By a file for each number that a file can have, as check and as walk tell it."""
        names = field(1, b"lunch") + field(1, b"tea")
        front = names + field(2, b"\1\0\0")
        many = b"".join(field(1, b"n%02d" % i) for i in range(13))
        tree = b"".join(field(3, bytes([i] + 39 * [0])) for i in range(13))
        cases = {1: front + bytes(65536), 2: front + b"\4\0", 3: front + field(9, b""), 4: front, 5: field(1, b"9"),
                 6: names + field(1, b"lunch"), 7: names + 257 * field(3, b"\0"), 8: names + field(2, b"\0\2\3") + field(4, b"\1"),
                 9: names + field(3, b"\2"), 10: many + tree, 11: front + field(4, b"\2"), 12: front + field(4, b"\1\0\0\1")}
        for number, data in cases.items():
            self.put("bad", data)
            what = ": row 1 has the entry 2, which is no name's number" if number == 9 else ""
            line = rf"offset \d+: refusal {number}: {plans.REFUSALS[number]}{what}\n"
            done = self.plans("check", "bad")
            self.assertEqual((done.returncode, done.stderr), (1, b""))
            self.assertRegex(done.stdout.decode(), f"^bad: refused: {line}$")
            done = self.plans("walk", "bad", "lunch")
            self.assertEqual((done.returncode, done.stdout), (2, b""))
            self.assertRegex(done.stderr.decode(), f"^bad: {line}$")

    def test_strange_file_names(self):
        ran = self.folder / "ran"
        for name in ["it's", 'a"b', "$(touch ran)", "`touch ran`", "a;touch ran", "a b", "ü", "-x", "line\nline", "bell\a", "*"]:
            self.put(name, TABLE)
            self.assertEqual(self.plans("walk", "--", name, "lunch").stdout, b"allowed\nnext: tea\n", name)
            done = self.plans("build", "-q", "days.txt", "-o" + name)
            self.assertEqual((done.returncode, (self.folder / name).read_bytes()), (0, TABLE), name)
        self.assertFalse(ran.exists())
        self.fails("plans: line\\x0aline\\x07: No such file or directory", "list", "line\nline\a")
        os.mkdir(os.fsencode(self.folder) + b"/bytes\xff")
        self.fails("plans: bytes\\xff: Is a directory", "list", b"bytes\xff")
        self.assertEqual(self.plans("list", 5000 * "x").stderr.decode(), f"plans: {200 * 'x'}...: File name too long\n")

    def test_words_that_are_no_names(self):
        self.fails("plans: the name 'lunch tea' holds a space, and no name may; write lunch_tea, or give each name by itself",
                   "walk", "days.table", "lunch tea")
        for word, parting in [("lunch,tea", ","), ("lunch;tea,cake", ";")]:
            self.fails(f"plans: '{word}' holds '{parting}', and no name may: give each name by itself", "walk", "days.table", word)
        self.fails("plans: a day of 41 names: a walk takes at most 40, though the model may allow longer days",
                   "walk", "days.table", *41 * ["lunch"])
        self.answers(1, "not allowed: a day may not begin with 'a\\x1b[1m' (the model has no such name)\nnext: lunch\n",
                     "walk", "days.table", "a\x1b[1m")
        done = self.plans("walk", "days.table", 10000 * "x")
        self.assertLess(len(done.stdout), 200)

    def test_usage(self):
        subs = "list, counts, build, walk, check, diff, text, book, picture, rows"
        self.fails(f"plans: say what to do: {subs} ('plans --help' shows how)")
        self.fails(f"plans: there is no sub-command 'wlak'; did you mean walk? there are {subs}", "wlak")
        self.fails(f"plans: there is no sub-command '\\x1b'; there are {subs}", "\x1b")
        for name in COMMANDS:
            done = self.plans(name)
            self.assertRegex(done.stderr.decode(), rf"^plans {name}: .* must be given, not 0 \('plans {name} --help' shows how\)\n$")
            self.assertEqual(done.returncode, 2)
        self.fails("plans list: option --colour not recognized ('plans list --help' shows how)", "list", "--colour", "days.txt")
        self.fails("plans diff: there is no option -o here ('plans diff --help' shows how)", "diff", "-o", "x", "a", "b")
        self.fails("plans walk: there is no option --tree here ('plans walk --help' shows how)", "walk", "--tree", "a", "b")
        self.fails("plans build: k is '9': it must be a number from 1 to 8 ('plans build --help' shows how)",
                   "build", "days.txt", "--class", "9 9")
        self.fails("plans list: one file must be given, not 2 ('plans list --help' shows how)", "list", "a", "b")
        self.fails("plans diff: standard input can be read once ('plans diff --help' shows how)", "diff", "-", "-")
        self.fails("plans picture: the output's name must end in .svg, .png, .pdf or .dot", "picture", "days.txt", "-o", "days.gif")

    def test_library_missing(self):
        done = self.plans("walk", "days.table", "lunch", env={"PLANS_LIBRARY": "/none/libplans.so"})
        self.assertEqual((done.returncode, done.stdout), (2, b""))
        self.assertRegex(done.stderr.decode(), r"^plans: /none/libplans.so is not this library: .*\n$")


class Writing(InFolder):
    def setUp(self):
        super().setUp()
        self.put("days.txt", TEXT)
        self.put("days.book", BOOK)

    def test_an_input_is_never_overwritten(self):
        os.symlink("days.txt", self.folder / "link")
        os.link(self.folder / "days.txt", self.folder / "hard")
        for out in ["days.txt", "./days.txt", "link", "hard", str(self.folder / "days.txt")]:
            self.fails(f"plans: {out}: this is also the input; give the output another name", "build", "-q", "days.txt", "-o", out)
        with open(self.folder / "days.txt", "rb") as file:
            self.fails("plans: days.txt: this is also the input; give the output another name",
                       "book", "-q", "-", "-o", "days.txt", stdin=file)
        self.fails("plans: days.book: this is also the input; give the output another name", "text", "days.book", "-o", "days.book")
        self.assertEqual((self.folder / "days.txt").read_text(), TEXT)

    def test_nothing_is_left_of_a_failure(self):
        self.put("old.table", b"old")
        self.put("bad.txt", "9am\n")
        self.fails("bad.txt:1: the name '9am' must begin with an ASCII letter, _ or :; write _9am",
                   "build", "bad.txt", "-o", "old.table")
        self.assertEqual((self.folder / "old.table").read_bytes(), b"old")

    def test_a_file_is_replaced_whole(self):
        self.put("old.table", b"old")
        (self.folder / "old.table").chmod(0o640)
        os.symlink("old.table", self.folder / "link")
        self.answers(0, "", "build", "-q", "days.txt", "-o", "link")
        self.assertTrue((self.folder / "link").is_symlink())
        self.assertEqual((self.folder / "old.table").read_bytes(), TABLE)
        self.assertEqual(stat.S_IMODE((self.folder / "old.table").stat().st_mode), 0o640)
        self.answers(0, "", "build", "-q", "days.txt", "-o", "new.table", umask=0o027)
        self.assertEqual(stat.S_IMODE((self.folder / "new.table").stat().st_mode), 0o640)
        self.assertEqual(self.left(), ["days.book", "days.txt", "link", "new.table", "old.table"])

    def test_full_device(self):
        for words in [["list", "-q", "days.txt"], ["counts", "days.book"], ["build", "days.book"],
                      ["walk", "-q", "days.txt", "lunch"], ["check", "days.book"],
                      ["diff", "-q", "days.txt", "days.book"], ["text", "days.book"], ["book", "-q", "days.txt"], ["--help"],
                      ["--version"]]:
            with open("/dev/full", "wb") as full:
                done = self.plans(*words, stdout=full)
            self.assertEqual((done.returncode, done.stderr), (2, b"plans: standard output: No space left on device\n"), words)
        self.fails("plans: /dev/full: No space left on device", "build", "-q", "days.txt", "-o", "/dev/full")
        with open("/dev/full", "wb") as full:
            self.assertEqual(self.plans("list", "days.txt", stderr=full).returncode, 0)

    def test_disk_full_leaves_nothing(self):
        """A limit on the size of files stands for a disk that is full half way."""
        done = subprocess.run(["sh", "-c", f"ulimit -f 0; exec '{PLANS}' build -q days.txt -o out.table"], cwd=self.folder,
                              capture_output=True, check=False)
        self.assertEqual((done.returncode, done.stdout), (2, b""))
        self.assertRegex(done.stderr.decode(), "^plans: out.table: File too large\n$")
        self.assertEqual(self.left(), ["days.book", "days.txt"])

    def test_closed_pipe_and_closed_streams(self):
        for words in [["list", "-q", "days.txt"], ["walk", "-q", "days.txt", "lunch"], ["text", "days.book"], ["--help"]]:
            reading, writing = os.pipe()
            os.close(reading)
            with os.fdopen(writing, "wb") as pipe:
                done = self.plans(*words, stdout=pipe)
            self.assertEqual((done.returncode, done.stderr), (2, b""), words)
        for closed in ["<&-", ">&-", "2>&-", "<&- >&- 2>&-"]:
            command = f"'{PLANS}' list -q days.txt {closed}"
            done = subprocess.run(["sh", "-c", command], cwd=self.folder, capture_output=True, check=False)
            self.assertNotIn(b"Traceback", done.stderr)
            self.assertEqual(done.returncode, 0 if closed in ("<&-", "2>&-") else 2, closed)

