"""Nothing that build reaches divides, but by 256 to split a number into its bytes: over the sources. How these are read is held against
the compiler's own reading (mir/, beside the archive), and divisions put into a copy are found."""
import re
import unittest
from collections import defaultdict
from typing import Any, Dict, List, Set

from entries import BUILDS, DIVIDING, READ, ROOT
from reading import Readings, divided_by, parts, read_made
from sources import LIBRARY_METHODS, NAMED, Module, Sources, divisions, findings, read_cites, read_modules

TREE = Sources(read_modules(ROOT), read_cites(ROOT))
READINGS = Readings(read_made(READ))
ENTRIES = TREE.entries()
BUILD = ENTRIES["plans_build"]
# a function that many calls lead to, with numbers `row` and `column`
DEEP = TREE.functions["base::cells::cell"]
# what is wrong without a seed, but for its lines
ANYWAY = {found.split(": ")[1] for name in BUILDS for found in findings(TREE, ENTRIES[name])}

FOUND = {
    "let seed = row / 3;": "divides by 3",
    "let seed = row%3;": "divides by 3",
    "let mut seed = row; seed /= 3;": "divides by 3",
    "let mut seed = row; seed %= 3;": "divides by 3",
    "let seed = row / column;": "divides by column",
    "let seed = row / (column + 1);": "divides by ..",
    "let seed = row /\n 3;": "divides by 3",
    "let seed = row / /* 256 */ 3;": "divides by 3",
    "let seed = row / 2560;": "divides by 2560",
    "let seed = row as f64 / 256.0;": "divides by 256.",
    "let seed = row % 256 / 3;": "divides by 3",
    "let seed = [1, row / 3];": "divides by 3",
    "let seed = listings::words::put_first_line(row, column);": "writing::decimals::put_decimal divides by 10",
    "let seed = name_search::Index::number_of;": "name_search::Index::number_of divides by 2",
    "let seed = std::num::quotient(row, 3);": "calls std::num::quotient, which is not followed",
    "let seed = row.div_euclid(3);": "calls div_euclid, which is not followed",
    "work.sort_unstable();": "calls sort_unstable, which is not followed",
    "work.copy_from_slice(work);": "calls copy_from_slice, which is not followed",
    "let seed = quotient!(row, 3);": "calls quotient, which is not followed",
    "let seed = std::num::quotient::<usize>(row, 3);": "calls std::num::quotient, which is not followed",
    "let seed = &work[0..third(row)];": "calls third, which is not followed",
    "let seed = super::third(row);": "calls super::third, which is not followed",
    "let seed = (|x: usize| x / 3)(row);": "divides by 3",
    'let seed = br"\\"; let more = row / 3; let last = br"\\";': "divides by 3",
    'let seed = br#"""#; let more = row / 3; let last = br#"""#;': "divides by 3",
    "let seed = row as f64 / 256 as f64;": "divides by 256 as",
    "let seed = (std::num::quotient)(row, 3);": "calls std::num::quotient, which is not followed",
    "let seed = Unknown::third(row);": "calls Unknown::third, which is not followed",
    "let seed = row.length(3);": "calls length, which is not followed",
    'let seed = b"\\""; let more = row / 3; let last = b"\\"";': "divides by 3",
}
NOT_FOUND = [
    "// row / 3",
    "/* row / 3 */",
    "let seed = row / 256;",
    "let seed = row % 256usize;",
    "let seed = b'/';",
    'let seed = b"row / 3";',
    "let seed = row >> 3;",
    "let seed = &work[row / 256..];",
    "let seed = loop { break (row); };",
]
NOT_READ = [
    "use writing::*;",
    "use writing::{self};",
    "use writing::{put_two as two};",
    "use writing::{put_two, *};",
    "use writing::put_two as two;",
    "pub use writing::put_two;",
    "use super::put_two;",
    "use writing::put_two; use base::put_two;",
    "mod inner { fn third(x: usize) -> usize { x / 3 } }",
    "fn Third(x: usize) -> usize { x / 3 }",
    '/* /* */ " */ // "',
    "fn third(x: usize) -> usize ensures { result ≡ x -- } {\n } { x / 3 }",
    "fn third(x: usize) -> usize ensures { result ≡ {- } { -} x } { x / 3 }",
    'fn third(x: usize) -> usize ensures { result ≡ "} {" } { x / 3 }',
]
# The kit's library: it calls nothing by a name of these sources, and what is handed to it the readings follow
BEYOND = re.compile(r"(?:core|std)::")


def written_in(name: str) -> str:
    """The function that the compiler's name stands for: that in which a closure stands, else itself."""
    parts = name.replace("::fn::", "::").split("::")
    paths = ("::".join(parts[:length]) for length in range(len(parts), 0, -1))
    return next((path for path in paths if path in TREE.functions), name) if "::fn::" in name else name


def compiled() -> Dict[str, Any]:
    """What the compiler makes of each function before it optimises, with the closures in it, and of what derives write."""
    made: Dict[str, Any] = defaultdict(list)
    for name, each in READINGS.made.items():
        made[written_in(name)].append(each["body"])
    return made


def compiled_reach(functions: Dict[str, Any], root: str) -> Set[str]:
    """All functions that are named, as what is called or otherwise, so also what is handed to a function that calls its parameter; a call
    of something else is none of these sources'."""
    found = {root}
    todo = [root]
    while todo:
        made = functions.get(todo.pop(), [])
        called = {written_in(part[0]) for kind, part in parts(made) if kind == "Fn" and not BEYOND.match(part[0])}
        called |= {f"a call of {list(part[0])}" for kind, part in parts(made) if kind == "Call" and not {"Fn", "Method"} & set(part[0])}
        todo += called - found
        found |= called
    return found


def found_with(file: str, place: int, seed: str, entry: str = BUILD) -> List[str]:
    """What is found of a build, beside what is found anyway, where a file has a text more."""
    text = (ROOT / file).read_text()
    changed = Module(file, f"{text[:place]} {seed}\n{text[place:]}")
    modules = [changed if module.file == file else module for module in TREE.modules]
    found = findings(Sources(modules, TREE.cites), entry)
    return [line for line in found if line.split(": ")[1] not in ANYWAY]


class Entries(unittest.TestCase):
    def test_build_table_is_reached(self):
        self.assertIn("plans::build_table", TREE.reached(BUILD).functions)

    def test_no_entry_divides_but_by_256(self):
        for name, path in ENTRIES.items():
            with self.subTest(name):
                self.assertEqual(findings(TREE, path, DIVIDING.get(name, frozenset())), [])

    def test_those_that_may_divide_do_so_and_are_no_build_entries(self):
        for name, allowed in DIVIDING.items():
            with self.subTest(name):
                self.assertEqual({found.split()[-1] for found in findings(TREE, ENTRIES[name])}, allowed)
                self.assertFalse(name.startswith("plans_build"))

    def test_compiler_follows_no_call_and_makes_no_division_more(self):
        functions = compiled()
        for name, path in ENTRIES.items():
            with self.subTest(name):
                read = TREE.reached(path).functions
                reached = READINGS.reached(path)
                self.assertEqual(reached.unfollowed, [])
                followed = compiled_reach(functions, path) | {written_in(function) for function in reached.functions}
                more = followed - set(read)
                self.assertEqual({function for function in more if function not in functions or function in TREE.functions}, set())
                for function in followed:
                    made = divided_by(functions[function])
                    if TREE.has_crate_of(function):
                        self.assertEqual(len(divisions(read[function])) if function in read else 0, len(made), function)
                    if name not in DIVIDING:
                        self.assertEqual(set(made) - {"256"}, set(), function)

    def test_each_method_of_the_library_that_is_listed_is_called(self):
        functions = [function for path in ENTRIES.values() for function in TREE.reached(path).functions.values()]
        named = [each for function in functions for each in NAMED.finditer(function.module.code, function.start, function.end)]
        self.assertEqual(set(LIBRARY_METHODS) - {each.group(2) for each in named if each.group(1) and each.group(3)}, set())


class Seeds(unittest.TestCase):
    def test_division_in_any_function_that_a_build_reaches(self):
        for name in BUILDS:
            for path, function in TREE.reached(ENTRIES[name]).functions.items():
                with self.subTest(path, entry=name):
                    (found,) = found_with(function.module.file, function.body + 1, "let seed = 7 / 3;", ENTRIES[name])
                    self.assertTrue(found.endswith(f": {path} divides by 3"), found)

    def test_each_form_of_division_and_call(self):
        for seed, told in FOUND.items():
            with self.subTest(seed):
                self.assertTrue(any(found.endswith(told) for found in found_with(DEEP.module.file, DEEP.body + 1, seed)))

    def test_no_division(self):
        for seed in NOT_FOUND:
            with self.subTest(seed):
                self.assertEqual(found_with(DEEP.module.file, DEEP.body + 1, seed), [])

    def test_contract_is_not_executed(self):
        self.assertEqual(found_with(DEEP.module.file, DEEP.body, "ensures thirds { result ≡ row / 3 }"), [])

    def test_body_after_a_contract(self):
        for contract in ("requires { row < 3 }", "ensures same { result ≡ row }", "ghost { Nat }", "ghost /* { */ { Nat }"):
            with self.subTest(contract):
                found = found_with(DEEP.module.file, DEEP.body, f"{contract} {{ row / 3 }}\nfn rest()")
                self.assertTrue(found and found[0].endswith("base::cells::cell divides by 3"), found)

    def test_braces_in_a_signature(self):
        self.assertNotEqual(found_with(DEEP.module.file, DEEP.start, "(row: [usize; { 3 }]) -> usize { row[0] / 3 }\nfn rest"), [])

    def test_ways_to_name_a_function(self):
        third = "fn third(x: usize) -> usize { deep(x) }"
        others = "fn deep(x: usize) -> usize { x / 3 } impl R { fn third(x: usize) -> usize { x } }"
        for call in ("third(x)", "self::third(x)", "super::m::third(x)", "crate::m::third(x)", "Self::third(x)", "x.third()"):
            text = f"{others} {third} impl S {{ {third} fn start(x: usize) -> usize {{ {call} }} }}"
            with self.subTest(call):
                (found,) = findings(Sources([Module("crates/t/src/m.rt", text)]), "t::m::S::start")
                self.assertTrue(found.endswith("deep divides by 3"), found)

    def test_names_in_braces(self):
        used = Module("crates/t/src/m.rt", "use a::{b, c::{d, e}, f::g,};\nuse crate::{\n    h,\n    i,\n};").uses
        self.assertEqual(used, {"b": "a::b", "d": "a::c::d", "e": "a::c::e", "g": "a::f::g", "h": "t::h", "i": "t::i"})

    def test_what_asks_for_tactics_is_no_code(self):
        seed = "#[tactic(auto, using(crate::proofs::Laws::third))] let seed = row;"
        self.assertEqual(found_with(DEEP.module.file, DEEP.body + 1, seed), [])

    def test_paths_of_files(self):
        paths = {"lib": "t", "main": "t", "m": "t::m", "m/k": "t::m::k", "m/lib": "t::m::lib"}
        self.assertEqual({file: Module(f"crates/t/src/{file}.rt", "").path for file in paths}, paths)

    def test_forms_that_are_not_read(self):
        for form in NOT_READ:
            with self.subTest(form), self.assertRaisesRegex(ValueError, "is not read"):
                found_with(DEEP.module.file, 0, form)

    def test_function_that_nothing_calls(self):
        self.assertEqual(found_with(DEEP.module.file, 0, "fn third(x: usize) -> usize { x / 3 }"), [])

    def test_line_is_told(self):
        (found,) = found_with(DEEP.module.file, DEEP.body + 1, "\n\nlet seed = row / 3;")
        line = DEEP.module.code.count("\n", 0, DEEP.body) + 3
        self.assertEqual(found, f"{DEEP.module.file}:{line}: base::cells::cell divides by 3")
