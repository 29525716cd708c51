"""Models of meal plans: books of days, the tables inferred from them, and days walked over tables.

    book = plans.read_text("breakfast lunch dinner\\nbreakfast snack lunch dinner\\n").book()
    table = plans.build(book).table
    plans.walk(table, ["breakfast", "lunch"])

A plan in XML gives its days as rows:

    names = ("breakfast", "day", "lunch")
    rows = plans.read_rows(b"<week><day><breakfast>tea</breakfast><lunch/></day></week>", names, "day")
    plans.list_book(plans.Book(names, None, rows))

How often each way through a table is used, copies of days counted, comes with it where that is wanted:

    counted = plans.build_counted(book)
    plans.read_counts(counted.counts, counted.table)[0]

The inferring and judging is done by the proved library (libplans.so, include/plans.h). Nothing is kept between calls. What the
library refuses is raised as Refused. The formats are in docs/FORMATS.md.
"""
from pathlib import Path

from .differences import Difference, compare
from .fields import (DEFAULT_CLASS, REFUSALS, BadCounts, Book, Class, Refused, State, StateCounts, Table, read_book, read_counts,
                     read_table, write_book, write_names, write_table)
from .library import LibraryMissing
from .models import (Built, Counted, Outcome, Rewritten, Walked, build, build_counted, judged_book, judged_table, list_book,
                     list_table, read_rows, rewrite, walk)
from .texts import BadClass, BadText, Problem, Text, read_class, read_text, write_class, write_text


def _version() -> str:
    """VERSION lies beside the module where it is installed, and at the top of the repository."""
    here = Path(__file__).resolve().parent
    beside = here / "VERSION"
    return (beside if beside.is_file() else here.parent.parent / "VERSION").read_text("ascii").strip()


__version__ = _version()
__all__ = ["DEFAULT_CLASS", "REFUSALS", "BadClass", "BadCounts", "BadText", "Book", "Built", "Class", "Counted", "Difference",
           "LibraryMissing", "Outcome", "Problem", "Refused", "Rewritten", "State", "StateCounts", "Table", "Text", "Walked", "build",
           "build_counted", "compare", "judged_book", "judged_table", "list_book", "list_table", "read_book", "read_class",
           "read_counts", "read_rows", "read_table", "read_text", "rewrite", "walk", "write_book", "write_class", "write_names",
           "write_table", "write_text"]
