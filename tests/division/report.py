"""Prints what the checks look at: for each entry how many functions it reaches, in the sources, in the archive, and of the kit's library,
and what they divide by."""
from typing import Set

from archive import Archive
from entries import LIBRARY, READ, ROOT
from reading import Readings, read_made
from sources import Sources, divisions, read_cites, read_modules


def told(by: Set[str]) -> str:
    return ", ".join(sorted(by)) or "none"


def main() -> None:
    sources = Sources(read_modules(ROOT), read_cites(ROOT))
    archive = Archive(LIBRARY)
    readings = Readings(read_made(READ))
    for name, path in sources.entries().items():
        functions = sources.reached(path).functions
        compiled = archive.reached(name) & set(archive.functions)
        by = {f"{function.path} by {division.by}" for function in functions.values() for division in divisions(function)}
        library = {function for function in readings.reached(path).functions if not sources.has_crate_of(function)}
        library_by = {f"{function} by {number or '..'}" for function in library for number in readings.function(function).divided_by}
        print(f"{name}: {len(functions)} functions, compiled to {len(compiled)}; divide: {told(by)}")
        print(f"    of the kit's library {len(library)} functions; divide: {told(library_by)}")


main()
