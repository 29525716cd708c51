"""The module over the library: against the reference on generated books, its layouts against the header, and what it says where the
library is missing."""
import ctypes
import os
import pickle
import random
import re
import subprocess
import sys
import tempfile
import unittest
from pathlib import Path

import plans
from plans import fields as limits
from plans import library
from plans.plan_files import DEPTH_LIMIT
from reference import book_bytes, counts_bytes, counts_of, joined, listing, states_of, table_bytes, walked
from samples import a_sample, a_small_sample, book_of, damaged

ROOT = Path(__file__).resolve().parents[2]
LAYOUTS = {"plans_built": library.BuiltLayout, "plans_counted": library.CountedLayout, "plans_rewritten": library.RewrittenLayout,
           "plans_walked": library.WalkedLayout, "plans_written": library.WrittenLayout, "plans_plan_rows": library.PlanRowsLayout}


def number_of(read, data: bytes) -> int:
    """The refusal's number, 0 for none."""
    try:
        read(data)
    except plans.Refused as problem:
        return problem.number
    return 0


class AgainstTheReference(unittest.TestCase):
    def compared(self, draw: random.Random, sample):
        quotient = joined(sample)
        states = states_of(quotient)
        joins = len(quotient.tree) - len(states)
        built = plans.build(book_of(sample))
        self.assertEqual(built, plans.Built(table_bytes(sample, states), len(states), joins, len(set(sample.rows))), sample)
        self.assertEqual(plans.build(book_bytes(sample)), built)
        counts = counts_of(sample, states)
        counted = plans.Counted(built.table, len(states), joins, built.distinct, counts_bytes(counts))
        self.assertEqual(plans.build_counted(book_of(sample)), counted, sample)
        self.assertEqual(plans.build_counted(book_bytes(sample)), counted)
        read = [plans.StateCounts(ends, tuple((sample.names[name], count) for name, count in passes.items())) for ends, passes in counts]
        self.assertEqual(plans.read_counts(counted.counts, counted.table), tuple(read))
        self.assertEqual(plans.list_book(book_of(sample)), listing(sample, states, joins))
        self.assertEqual(plans.rewrite(built.table), plans.Rewritten(built.table, len(states)))
        self.assertEqual(plans.write_table(plans.read_table(built.table)), built.table)
        for _ in range(4):
            row = tuple(draw.randrange(len(sample.names)) for _ in range(draw.choice([0, 1, 2, 3, 6])))
            outcome, steps, following = walked(sample, states, row)
            day = [sample.names[entry] for entry in row]
            self.assertEqual(plans.walk(built.table, day), plans.Walked(plans.Outcome(outcome), tuple(day[:steps]), following), row)

    def test_some_thousand_books(self):
        draw = random.Random(13)
        for _ in range(3000):
            self.compared(draw, a_small_sample(draw))

    def test_damaged_books_and_tables_are_refused_alike(self):
        draw = random.Random(14)
        refused = set()
        for _ in range(3000):
            book = book_bytes(a_sample(draw, rows=(1, 2, 10)))
            for data, read, call in [(damaged(draw, book), plans.read_book, plans.build),
                                     (damaged(draw, plans.build(book).table), plans.read_table, plans.rewrite)]:
                number = number_of(read, data)
                self.assertEqual(number, number_of(call, data), data)
                refused.add(number)
        self.assertLessEqual({0, 2, 3, 4, 5, 6, 8, 9, 11, 12}, refused)


class Documented(unittest.TestCase):
    def test_the_readme(self):
        """Its block of Python: what an expression gives stands after `#`, on the same line or the next."""
        block = re.findall(r"^```python\n(.*?)^```", (ROOT / "README.md").read_text(), re.M | re.S)[0]
        names = {}
        told = []
        for line in re.sub(r"\n# ", "  # ", block).splitlines():
            code, _, given = line.partition("  # ")
            if not given:
                exec(code, names)
                continue
            result = eval(code, names)
            self.assertTrue(given.strip().startswith(repr(result)), (code, result))
            told.append(result)
        self.assertEqual(told[0], (5, 2, 2))
        self.assertEqual(told[2], plans.StateCounts(0, (("lunch", 1), ("snack", 1))))
        self.assertEqual(len(told), 3)

    def test_the_examples_run(self):
        names = {"plans": plans}
        results = []
        for block in re.findall(r"^(?:    .*\n)+", plans.__doc__, re.M):
            *lines, last = [line[4:] for line in block.splitlines()]
            exec("\n".join(lines), names)
            results.append(eval(last, names))
        self.assertEqual(results, [plans.Walked(plans.Outcome.ON_THE_WAY, ("breakfast", "lunch"), ("dinner",)),
                                   "states 3 joins 0 distinct 1\n0 - breakfast>1\n1 - lunch>2\n2 +\n",
                                   plans.StateCounts(0, (("breakfast", 2),))])

    def test_all_that_is_offered_says_what_it_is(self):
        for name in plans.__all__:
            self.assertTrue(getattr(plans, name).__doc__, name)


class Walks(unittest.TestCase):
    def test_unknown_name_stops(self):
        table = plans.build(plans.read_text("lunch\nlunch tea\n").book()).table
        self.assertEqual(plans.walk(table, ["lunch", "tee", "tea"]), plans.Walked(plans.Outcome.STOPS, ("lunch",), ("tea",)))
        self.assertEqual(plans.walk(table, ["tea", "tee"]), plans.Walked(plans.Outcome.STOPS, (), ("lunch",)))
        self.assertEqual(plans.walk(table, []), plans.Walked(plans.Outcome.ON_THE_WAY, (), ("lunch",)))

    def test_any_names_in_order_are_a_day(self):
        table = plans.build(plans.read_text("lunch\nlunch tea\n").book()).table
        expected = plans.Walked(plans.Outcome.ADMITTED, ("lunch", "tea"), ())
        for day in (["lunch", "tea"], ("lunch", "tea"), (name for name in ["lunch", "tea"]), {"lunch": 1, "tea": 2}):
            self.assertEqual(plans.walk(table, day), expected)


class WrongArguments(unittest.TestCase):
    BOOK = plans.read_text("lunch\nlunch tea\n").book()
    TABLE = plans.build(BOOK).table

    def test_neither_a_book_nor_bytes(self):
        for call in (plans.build, plans.build_counted, plans.list_book, plans.rewrite, plans.list_table, plans.judged_book,
                     plans.read_book, plans.read_table, lambda given: plans.walk(given, ["lunch"]),
                     lambda given: plans.read_counts(given, self.TABLE), lambda given: plans.read_counts(b"", given)):
            for given in (5, "lunch", [1, 2], None, plans.read_text("lunch")):
                with self.assertRaisesRegex(TypeError, f"bytes must be given, not {type(given).__name__}$"):
                    call(given)
        for given in (bytearray(self.TABLE), memoryview(self.TABLE)):
            self.assertEqual(plans.rewrite(given).table, self.TABLE)

    def test_no_day(self):
        for day in ("lunch", b"lunch", [b"lunch"], [0]):
            with self.assertRaisesRegex(TypeError, "^a day must be given as its names, each a str"):
                plans.walk(self.TABLE, day)

    def test_what_cannot_be_written(self):
        many = tuple(f"n{i:03}" for i in range(257))
        row, front = ("lunch",), (("lunch",), plans.Class(0, 2, 1))
        for given, reason in [(plans.Book(("lunch",), None, (("tea",),)), "the name 'tea' cannot be written: it is not among the names"),
                              (plans.Book(("thé",), None, ()), "the name 'thé' cannot be written: it is not ASCII"),
                              (plans.Book(("lunch",), plans.Class(0, 256, 1), (row,)), "the number 256 cannot be written"),
                              (plans.Book(many, None, (many[-1:],)), "the number 256 cannot be written: it must be from 0 to 255"),
                              (plans.Book(("lunch",), None, (65536 * row,)), "the number 65536 cannot be written: it must be .* 65535"),
                              (plans.Table(*front, (plans.State(True, (("lunch", 65536),)),)), "the number 65536 cannot be written"),
                              (plans.Table(*front, (plans.State(True, (("tea", 0),)),)), "the name 'tea' cannot be written")]:
            write, call = (plans.write_book, plans.build) if isinstance(given, plans.Book) else (plans.write_table, plans.rewrite)
            for tried in (write, call):
                with self.assertRaisesRegex(ValueError, "^" + reason):
                    tried(given)

    def test_what_can_be_written_is_refused_by_the_library(self):
        for book, number in [(plans.Book(("9",), None, ((),)), 5), (plans.Book(("lunch",), plans.Class(7), ((),)), 8)]:
            self.assertEqual(number_of(plans.build, book), number)

    def test_refusals_are_pickled(self):
        for problem in (plans.Refused(9, 4, "row 1 has 41 entries"), plans.Refused(9, 4), plans.Refused(1)):
            again = pickle.loads(pickle.dumps(problem))
            self.assertEqual((again.number, again.offset, again.words, str(again)),
                             (problem.number, problem.offset, problem.words, str(problem)))
        problem = plans.BadCounts(7, "a field runs past the end")
        again = pickle.loads(pickle.dumps(problem))
        self.assertEqual((again.offset, again.reason, str(again)), (7, problem.reason, "offset 7: a field runs past the end"))


class Layouts(unittest.TestCase):
    def test_structs_lie_as_the_header_has_them(self):
        lines = ['#include <stdio.h>', '#include "plans.h"', "int main(void) {"]
        expected = []
        for name, layout in LAYOUTS.items():
            lines.append(f'printf("{name} %zu\\n", sizeof({name}));')
            expected.append(f"{name} {ctypes.sizeof(layout)}")
            for part, _ in layout._fields_:
                place = getattr(layout, part)
                lines.append(f'printf("{part} %zu %zu\\n", offsetof({name}, {part}), sizeof((({name} *)0)->{part}));')
                expected.append(f"{part} {place.offset} {place.size}")
        with tempfile.TemporaryDirectory() as folder:
            source, program = Path(folder, "layouts.c"), Path(folder, "layouts")
            source.write_text("\n".join(lines + ["return 0; }", ""]))
            subprocess.run(["gcc", "-std=c99", f"-I{ROOT / 'include'}", "-o", program, source], check=True)
            printed = subprocess.run([program], check=True, capture_output=True, text=True).stdout
        self.assertEqual(printed.splitlines(), expected)

    def test_header_has_these_structs_sizes_and_outcomes(self):
        header = (ROOT / "include" / "plans.h").read_text()
        fields = {name: re.findall(r"uint\d+_t (\w+);", body)
                  for body, name in re.findall(r"typedef struct \{(.*?)\} (\w+);", header, re.S)}
        self.assertEqual(fields, {name: [part for part, _ in layout._fields_] for name, layout in LAYOUTS.items()})
        calls = {name: result for result, name in re.findall(r"^(plans_\w+) (plans_\w+)\(", header, re.M)}
        self.assertEqual({name: LAYOUTS[result] for name, result in calls.items()}, library.RESULTS)
        sizes = {"WORK_BYTES": library.WORK_BYTES, "LISTING_BYTES": library.LISTING_BYTES, "COUNTS_BYTES": library.COUNTS_BYTES,
                 "PLAN_DEPTH": DEPTH_LIMIT}
        for name in ("INPUT_LIMIT", "NAME_LIMIT", "NAME_BYTES", "BOOK_ROWS", "ROW_LIMIT", "STATE_LIMIT", "SETTING_LIMIT"):
            sizes[name] = getattr(limits, name)
        for name, size in sizes.items():
            self.assertIn(f"#define PLANS_{name} {size}\n", header)
        self.assertIn("#define PLANS_ROWS_BYTES (PLANS_BOOK_ROWS * (3 + PLANS_ROW_LIMIT))\n", header)
        self.assertEqual(library.ROWS_BYTES, 256 * (3 + 40))
        for outcome in plans.Outcome:
            self.assertRegex(header, rf"PLANS_{outcome.name} = {outcome.value}\b")


class Finding(unittest.TestCase):
    def run_with(self, setting: str) -> str:
        code = "import plans\ntry:\n    plans.rewrite(b'')\nexcept (plans.LibraryMissing, plans.Refused) as problem:\n    print(problem)"
        environment = dict(os.environ, PLANS_LIBRARY=setting, PYTHONPATH=str(ROOT / "python"))
        return subprocess.run([sys.executable, "-B", "-c", code], env=environment, capture_output=True, text=True, check=True).stdout

    def test_soname_of_this_version(self):
        self.assertEqual(library.FILE, f"libplans.so.{plans.__version__.split('.')[0]}")

    def test_named_by_the_environment(self):
        self.assertEqual(self.run_with(str(ROOT / "target" / "lib" / "libplans.so")), f"refusal 4: {plans.REFUSALS[4]}\n")

    def test_missing_or_another_library(self):
        self.assertIn("/none/libplans.so is not this library", self.run_with("/none/libplans.so"))
        self.assertIn("is not this library", self.run_with("libc.so.6"))
        self.assertIn("is not this library", self.run_with(__file__))

    def test_a_copy_of_the_module_says_where_it_looked(self):
        with tempfile.TemporaryDirectory() as folder:
            module = Path(folder) / "share" / "plans" / "python" / "plans"
            module.mkdir(parents=True)
            for path in (ROOT / "python" / "plans").iterdir():
                if path.is_file():
                    (module / path.name).write_bytes(path.read_bytes())
            (module / "VERSION").write_text("9.9.9\n")
            code = "import plans; print(plans.__version__); plans.rewrite(b'')"
            environment = {**os.environ, "PYTHONPATH": str(module.parent)}
            environment.pop("PLANS_LIBRARY", None)
            done = subprocess.run([sys.executable, "-B", "-c", code], env=environment, capture_output=True, text=True, check=False)
            self.assertEqual(done.stdout, "9.9.9\n")
            self.assertIn(f"{library.FILE} is not in {module} and {folder}/lib: 'make lib' builds it", done.stderr)
            (Path(folder) / "lib").mkdir()
            (Path(folder) / "lib" / library.FILE).write_bytes((ROOT / "target" / "lib" / "libplans.so").read_bytes())
            done = subprocess.run([sys.executable, "-B", "-c", code], env=environment, capture_output=True, text=True, check=False)
            self.assertIn("refusal 4: the input ends while a field is still due", done.stderr)
