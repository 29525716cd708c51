"""The library's six calls through ctypes, as include/plans.h declares them. Every buffer lives for one call."""
import ctypes
import functools
import os
from pathlib import Path
from typing import Callable, List, Tuple

from .fields import BOOK_ROWS, INPUT_LIMIT, ROW_LIMIT

HERE = Path(__file__).resolve().parent
# the library by its soname: one with another first number has results of another layout
FILE = "libplans.so.3"

WORK_BYTES = 65536
LISTING_BYTES = 32768
COUNTS_BYTES = 3584
ROWS_BYTES = BOOK_ROWS * (3 + ROW_LIMIT)


class LibraryMissing(Exception):
    """The shared library cannot be loaded: where it was looked for, and what to do."""


class BuiltLayout(ctypes.Structure):
    _fields_ = [("refusal", ctypes.c_uint8), ("length", ctypes.c_uint32), ("states", ctypes.c_uint32), ("joins", ctypes.c_uint32),
                ("distinct", ctypes.c_uint32)]


class CountedLayout(ctypes.Structure):
    _fields_ = [*BuiltLayout._fields_, ("counts_length", ctypes.c_uint32)]


class RewrittenLayout(ctypes.Structure):
    _fields_ = [("refusal", ctypes.c_uint8), ("length", ctypes.c_uint32), ("states", ctypes.c_uint32)]


class WrittenLayout(ctypes.Structure):
    _fields_ = [("refusal", ctypes.c_uint8), ("length", ctypes.c_uint32)]


class WalkedLayout(ctypes.Structure):
    _fields_ = [("refusal", ctypes.c_uint8), ("outcome", ctypes.c_uint8), ("next_count", ctypes.c_uint8),
                ("walked", ctypes.c_uint32), ("next_names", ctypes.c_uint64)]


class PlanRowsLayout(ctypes.Structure):
    _fields_ = [("refusal", ctypes.c_uint8), ("length", ctypes.c_uint32), ("rows", ctypes.c_uint32), ("at", ctypes.c_uint32)]


# each call's result, and what it takes: slices, a slice being (pointer, length), and numbers
RESULTS = {"plans_build": BuiltLayout, "plans_build_counted": CountedLayout, "plans_rewrite": RewrittenLayout,
           "plans_walk": WalkedLayout, "plans_list": WrittenLayout, "plans_read_rows": PlanRowsLayout}
READ = [ctypes.c_char_p, ctypes.c_size_t]
LENT = [ctypes.c_void_p, ctypes.c_size_t]
TAKEN = {"plans_build": READ + LENT + LENT, "plans_build_counted": READ + LENT + LENT + LENT,
         "plans_rewrite": READ + LENT + LENT, "plans_walk": READ + READ + LENT, "plans_list": READ + LENT + LENT,
         "plans_read_rows": READ + READ + [ctypes.c_uint8] + LENT + LENT}


def _folders() -> List[Path]:
    """Where the library may lie: beside the module; in the repository's target/lib, or in lib of the prefix it is installed in."""
    above = list(HERE.parents)
    if (above[0].parent / "crates.txt").is_file():
        return [HERE, above[1] / "target" / "lib"]
    return [HERE] + [prefix / "lib" for prefix in above[3:4]]


def _path() -> str:
    given = os.environ.get("PLANS_LIBRARY")
    if given:
        return given
    found = [folder / FILE for folder in _folders() if (folder / FILE).is_file()]
    if not found:
        places = " and ".join(str(folder) for folder in _folders())
        raise LibraryMissing(f"{FILE} is not in {places}: 'make lib' builds it; or PLANS_LIBRARY names it")
    return str(found[0])


@functools.lru_cache(maxsize=None)
def _calls(path: str) -> ctypes.CDLL:
    try:
        library = ctypes.CDLL(path)
        for name, result in RESULTS.items():
            call = getattr(library, name)
            call.restype = result
            call.argtypes = TAKEN[name]
    except (OSError, AttributeError) as problem:
        raise LibraryMissing(f"{path} is not this library: {problem}") from None
    return library


def _call(name: str) -> Callable:
    return getattr(_calls(_path()), name)


def written_by(name: str, data: bytes, room: int) -> Tuple[ctypes.Structure, bytes]:
    """What a call that writes gives back, and the bytes that it wrote."""
    work = ctypes.create_string_buffer(WORK_BYTES)
    out = ctypes.create_string_buffer(room)
    result = _call(name)(data, len(data), work, WORK_BYTES, out, room)
    return result, out.raw[:result.length]


def built_counted(book: bytes, room: int = INPUT_LIMIT, counts_room: int = COUNTS_BYTES) -> Tuple[CountedLayout, bytes, bytes]:
    """What the counted build gives back, and the bytes that it wrote: the table and the counts."""
    work = ctypes.create_string_buffer(WORK_BYTES)
    out, counts = ctypes.create_string_buffer(room), ctypes.create_string_buffer(counts_room)
    result = _call("plans_build_counted")(book, len(book), work, WORK_BYTES, out, room, counts, counts_room)
    return result, out.raw[:result.length], counts.raw[:result.counts_length]


def walked(table: bytes, row: bytes) -> WalkedLayout:
    work = ctypes.create_string_buffer(WORK_BYTES)
    return _call("plans_walk")(table, len(table), row, len(row), work, WORK_BYTES)


def plan_rows(plan: bytes, names: bytes, chosen: int) -> Tuple[PlanRowsLayout, bytes]:
    """What the reading of a plan gives back, and the row fields that it wrote."""
    work = ctypes.create_string_buffer(WORK_BYTES)
    out = ctypes.create_string_buffer(ROWS_BYTES)
    result = _call("plans_read_rows")(plan, len(plan), names, len(names), chosen, work, WORK_BYTES, out, ROWS_BYTES)
    return result, out.raw[:result.length]
