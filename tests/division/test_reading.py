"""Nothing that build reaches divides, but by 256 to split a number into its bytes: over the compiler's own reading, which is followed into
the kit's library. Divisions, and calls that lead to one or nowhere, are put into a copy and found."""
import unittest
from typing import Any, List, Set

from entries import BUILDS, DIVIDING, LIBRARY_DIVIDING, READ, ROOT
from reading import Readings, findings, read_made
from sources import Sources, read_modules

TREE = Sources(read_modules(ROOT))
ENTRIES = TREE.entries()
READINGS = Readings(read_made(READ))
UNDIVIDED = sorted(set(ENTRIES) - set(DIVIDING))
# a function of the library that build reaches by other functions, and that is handed what to call
DEEP = "core::clone::surely"

# pieces of readings: a place, what it holds, a number
PLACE = {"local": 0, "steps": []}
HELD = {"Copy": PLACE}
THREE = {"Int": {"width": 64, "value": 3}}


def made(kind: str, operation: Any, by: Any = THREE) -> Any:
    return {"Assign": [PLACE, {kind: [operation, HELD, by]}]}


def call(called: Any) -> Any:
    return {"Call": [called, [HELD], PLACE]}


def function(name: str, *bounds: Any) -> Any:
    return {"Fn": [name, {"types": [], "dicts": [*bounds]}]}


def method(bound: Any, number: int) -> Any:
    return {"Method": [bound, number, {"types": [], "dicts": []}]}


def impl(name: str, *bounds: Any) -> Any:
    return {"Impl": [name, [], [*bounds]]}


NUMBERS = [impl(f"core::cmp::numbers::U8{name}") for name in ("Ord", "Eq", "PartialEq", "PartialOrd")]
BYTES = impl("core::cmp::slices::RefSlicePartialEq", NUMBERS[2])
DIVIDES = "core::int::usize::div_euclid"
COMPARES = "core::cmp::PartialEq::ne"
FOUND = [
    (made("Op2", {"Div": "Unsigned"}), "core::clone::surely divides by 3"),
    (made("Op2", {"Rem": "Signed"}), "core::clone::surely divides by 3"),
    (made("Op2", {"Div": "Unsigned"}, {"Int": {"width": 64, "value": 2560}}), "core::clone::surely divides by 2560"),
    (made("Op2", {"Div": "Unsigned"}, HELD), "core::clone::surely divides by .."),
    (made("Op2", {"Rem": "Unsigned"}, {"SizeOf": {"Int": 64}}), "core::clone::surely divides by .."),
    (made("Op2", {"Div": "Unsigned"}, "Unit"), "core::clone::surely divides by .."),
    (made("Op2", "FloatDiv", {"Float": {"width": 64, "bits": 3}}), "core::clone::surely divides by .."),
    (made("Op2", "FloatRem", HELD), "core::clone::surely divides by .."),
    (made("Vec2", {"Map": "FloatDiv"}, HELD), "core::clone::surely divides by .."),
    ({"If": [HELD, ["Seq", "Block", made("Op2", {"Div": "Unsigned"})]]}, "core::clone::surely divides by 3"),
    # the library's functions
    (call(function(DIVIDES)), "core::int::usize::div_euclid divides by .."),
    (call(function("core::int::more::usize::checked_div_euclid")), "core::int::checked::usize::checked_div divides by .."),
    (call(function("core::slice::sort::slice+T::sort_unstable", *NUMBERS)), "core::slice::sort::heap::sift divides by 2"),
    (call(function("core::slice::reads::slice+T::binary_search", *NUMBERS)), "core::slice::reads::slice+T::binary_search divides by 2"),
    (call(function("writing::decimals::put_decimal")), "writing::decimals::put_decimal divides by 10"),
    # methods: of an impl, and of one that is handed on
    (call(method(BYTES, 0)), "core::cmp::slices::slices_equal divides by 8"),
    (call(function(COMPARES, BYTES)), "core::cmp::slices::slices_equal divides by 8"),
    # what is not followed
    (call(function("core::int::third")), "core::int::third is called, and is in no reading"),
    (call(function("std::vec::Vec::push")), "std::vec::Vec::push is called, and is in no reading"),
    (call(function("core::cmp::Ord::cmp+decl")), "core::cmp::Ord::cmp+decl is called, and is in no reading"),
    (call(method(impl("third"), 0)), "a method of third is called, and is in no reading"),
    (call(function(COMPARES)), f"{COMPARES} asks for ['core::cmp::PartialEq'], and is handed []"),
    (call(function(COMPARES, {"Given": 0})), f"{COMPARES} asks for ['core::cmp::PartialEq'], and is handed ['core::clone::Clone']"),
    (call(function(COMPARES, impl("third"))), f"{COMPARES} asks for ['core::cmp::PartialEq'], and is handed ['third']"),
    (call(HELD), "core::clone::surely has Call of Copy, which is not followed"),
    (call({"Prim": "Load"}), "core::clone::surely has Call of Load, Prim, which is not followed"),
    (call({"Fork": [function(DIVIDES), "Unit"]}), "core::clone::surely has Call of Fork, which is not followed"),
    (call({"Fork": [function(DIVIDES), "Unit"]}), "core::int::usize::div_euclid divides by .."),
    ({"CallV": [HELD, {"abi": "Rattle", "types": []}, [], PLACE]}, "core::clone::surely has CallV, which is not followed"),
    ({"Assign": [PLACE, {"Op1": [{"VtMethod": 1}, HELD]}]}, "core::clone::surely has VtMethod, which is not followed"),
    (made("Op3", {"Mul": "Unsigned"}), "core::clone::surely has Op3, which is not followed"),
]
NOT_FOUND = [
    made("Op2", {"Div": "Unsigned"}, {"Int": {"width": 64, "value": 256}}),
    made("Op2", {"Shr": "Unsigned"}),
    made("Op2", {"Mul": "Unsigned"}),
    made("Vec2", {"Map": "WrapAdd"}, HELD),
    call(function("core::int::usize::min")),
    call(method(NUMBERS[2], 0)),
    call(function(COMPARES, NUMBERS[2])),
    call(method({"Given": 0}, 0)),
]


def divisors(functions: Set[str]) -> Set[str]:
    return {by for function in functions for by in READINGS.function(function).divided_by} - {"256"}


def found_with(name: str, step: Any, entry: str = "plans_build") -> List[str]:
    return findings(READINGS.with_step(name, step), ENTRIES[entry])


class Entries(unittest.TestCase):
    def test_library_is_reached(self):
        for name in BUILDS:
            with self.subTest(name):
                called = {"core::int::u16::to_be_bytes", "core::slice::edits::slice+T::fill", DEEP, "core::clone::U8Clone::clone"}
                self.assertLessEqual(called, READINGS.reached(ENTRIES[name]).functions)

    def test_no_entry_divides_but_by_256(self):
        for name in UNDIVIDED:
            with self.subTest(name):
                self.assertEqual(findings(READINGS, ENTRIES[name]), [])

    def test_entries_divide_by_what_is_told(self):
        for name, path in ENTRIES.items():
            with self.subTest(name):
                reached = READINGS.reached(path)
                own = {function for function in reached.functions if TREE.has_crate_of(function)}
                self.assertEqual(reached.unfollowed, [])
                self.assertEqual(divisors(own), DIVIDING.get(name, frozenset()))
                self.assertEqual(divisors(reached.functions - own), LIBRARY_DIVIDING.get(name, frozenset()))

    def test_those_for_which_the_library_may_divide_are_no_build_entries(self):
        self.assertLessEqual(set(LIBRARY_DIVIDING), set(DIVIDING) - set(BUILDS))


class Seeds(unittest.TestCase):
    def test_division_in_any_function_that_is_reached_and_behind_it(self):
        for name in UNDIVIDED:
            for path in READINGS.reached(ENTRIES[name]).functions:
                with self.subTest(path, entry=name):
                    self.assertEqual(found_with(path, made("Op2", {"Div": "Unsigned"}), name), [f"{path} divides by 3"])
                    self.assertEqual(found_with(path, call(function(DIVIDES)), name), [f"{DIVIDES} divides by .."])

    def test_each_form_of_division_and_call(self):
        for step, told in FOUND:
            with self.subTest(step):
                self.assertIn(told, found_with(DEEP, step))

    def test_no_division(self):
        for step in NOT_FOUND:
            with self.subTest(step):
                self.assertEqual(found_with(DEEP, step), [])

    def test_function_that_no_build_calls(self):
        self.assertEqual(found_with("core::int::usize::div_euclid", made("Op2", {"Div": "Unsigned"})), [])
