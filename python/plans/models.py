"""The library's calls with names in place of numbers and bits. A refusal is raised as Refused."""
import enum
from dataclasses import dataclass
from typing import Callable, Iterable, Sequence, Tuple, TypeVar, Union

from . import library
from .fields import (INPUT_LIMIT, NAME, ROW_LIMIT, Book, Bytes, Refused, Row, Table, as_bytes, fields_of, read_book, read_table,
                     write_book, write_names, write_table)

File = TypeVar("File", Book, Table)


class Outcome(enum.Enum):
    """What a walk comes to, by the numbers of include/plans.h: the day is allowed; it is not, but begins an allowed one; neither."""
    ADMITTED = 1
    ON_THE_WAY = 2
    STOPS = 3


@dataclass(frozen=True)
class Built:
    """The bytes of a book's table, how many states it has, how many joins made it, and how many different rows the book has."""
    table: bytes
    states: int
    joins: int
    distinct: int


@dataclass(frozen=True)
class Counted(Built):
    """What Built has, and the bytes of the counts: how often the book's rows, copies counted, use each state and each arc of the table.
    read_counts reads them with the table."""
    counts: bytes


@dataclass(frozen=True)
class Rewritten:
    """A table's bytes, and how many states it has; it does not say how many joins and different rows there were."""
    table: bytes
    states: int


@dataclass(frozen=True)
class Walked:
    """How a walk ended; the longest beginning of the day that begins an allowed day, empty where the table allows none; and the names
    that may come next: those with which that beginning still begins an allowed day."""
    outcome: Outcome
    walked: Row
    next_names: Tuple[str, ...]


def _book_bytes(book: Union[Book, Bytes]) -> bytes:
    return write_book(book) if isinstance(book, Book) else as_bytes(book, "a Book or its bytes")


def _table_bytes(table: Union[Table, Bytes]) -> bytes:
    return write_table(table) if isinstance(table, Table) else as_bytes(table, "a Table or its bytes")


def _day(day: Iterable[str]) -> Row:
    names = tuple(day)
    if isinstance(day, str) or not all(isinstance(name, str) for name in names):
        raise TypeError("a day must be given as its names, each a str, such as ['breakfast', 'lunch']")
    return names


def _written(call: str, data: bytes, room: int) -> Tuple:
    result, out = library.written_by(call, data, room)
    if result.refusal:
        raise Refused(result.refusal)
    return result, out


def build(book: Union[Book, Bytes]) -> Built:
    """The table of a book. A book that cannot be written is a ValueError (see write_book)."""
    result, table = _written("plans_build", _book_bytes(book), INPUT_LIMIT)
    return Built(table, result.states, result.joins, result.distinct)


def build_counted(book: Union[Book, Bytes]) -> Counted:
    """The table of a book as build gives it, and its counts. Refused and ValueError as of build."""
    result, table, counts = library.built_counted(_book_bytes(book))
    if result.refusal:
        raise Refused(result.refusal)
    return Counted(table, result.states, result.joins, result.distinct, counts)


def rewrite(table: Union[Table, Bytes]) -> Rewritten:
    """The table judged and written again, to the same bytes. A table that cannot be written is a ValueError (see write_book)."""
    result, again = _written("plans_rewrite", _table_bytes(table), INPUT_LIMIT)
    return Rewritten(again, result.states)


def _judged(call: Callable[[bytes], object], read: Callable[[bytes], File], data: bytes) -> File:
    try:
        call(data)
    except Refused as problem:
        try:
            read(data)
        except Refused as placed:
            if placed.number == problem.number:
                raise placed from None
        raise problem from None
    return read(data)


def judged_book(data: bytes) -> Book:
    """The book that the library accepts; a refusal is the library's, with the offset as this module reads the fields."""
    return _judged(build, read_book, data)


def judged_table(data: bytes) -> Table:
    """The table that the library accepts; a refusal is the library's, with the offset as this module reads the fields."""
    return _judged(rewrite, read_table, data)


def list_book(book: Union[Book, Bytes]) -> str:
    """The listing of a book's table."""
    return _written("plans_list", _book_bytes(book), library.LISTING_BYTES)[1].decode("ascii")


def list_table(table: Union[Table, Bytes]) -> str:
    """The listing of a table. Its first line has the states alone: a table does not say how many joins and different rows there were."""
    states = read_table(rewrite(table).table).states
    lines = [f"states {len(states)}"]
    for number, state in enumerate(states):
        arcs = [f"{name}>{target}" for name, target in state.arcs]
        lines.append(" ".join([str(number), "+" if state.accepting else "-", *arcs]))
    return "".join(line + "\n" for line in lines)


def front_names(data: bytes) -> Sequence[str]:
    """The names at the front of a table, a book or a list of names, unjudged: a call judges them."""
    names = []
    try:
        for _, mark, body in fields_of(data):
            if mark != NAME:
                break
            names.append(body.decode("latin-1"))
    except Refused:
        pass
    return names


def walk(table: Union[Table, Bytes], day: Iterable[str]) -> Walked:
    """Walks a day's names over a table from its start. A name that the table does not have stops the walk, and so does one that leads to
    a state from which no day comes to an end (Table.dead_states). Where the table allows no day, every day stops, the empty one too."""
    data = _table_bytes(table)
    day = _day(day)
    names = front_names(data)
    numbers = {name: number for number, name in enumerate(names[:256])}
    known = next((place for place, name in enumerate(day) if name not in numbers), len(day))
    if len(day) > ROW_LIMIT:
        row = bytes(len(day))  # refused by its length
    else:
        row = bytes(numbers[name] for name in day[:known])
    result = library.walked(data, row)
    if result.refusal:
        raise Refused(result.refusal)
    outcome = Outcome(result.outcome) if known == len(day) else Outcome.STOPS
    following = tuple(name for number, name in enumerate(names) if result.next_names >> number & 1)
    return Walked(outcome, day[:result.walked], following)


def _list_bytes(names: Union[Iterable[str], Bytes]) -> bytes:
    if isinstance(names, (bytes, bytearray, memoryview)):
        return bytes(names)
    given = tuple(names) if isinstance(names, Iterable) and not isinstance(names, str) else (None,)
    if not all(isinstance(name, str) for name in given):
        raise TypeError("a list of names must be given as its names, each a str, such as ['day', 'lunch'], or as its bytes")
    return write_names(given)


def read_rows(plan: Bytes, names: Union[Iterable[str], Bytes], element: str) -> Tuple[Row, ...]:
    """The rows of a plan: for each element of this name, in the order of start tags, the names of its children. None is no fault. The
    names, ascending, are those that the plan's rows may hold, the element's own among them; also as the bytes of a list of names.
    Refused has the place in the plan as its offset for 14, 15 and 16. Names that cannot be written are a ValueError (see write_book)."""
    data = _list_bytes(names)
    known = front_names(data)
    # a number that is no name's where the list has no such name, or too many: the call refuses it
    chosen = min(known.index(element), 255) if element in known else 255
    result, rows = library.plan_rows(as_bytes(plan, "a plan's bytes"), data, chosen)
    if result.refusal:
        raise Refused(result.refusal, result.at if result.refusal >= 14 else None)
    return tuple(tuple(known[entry] for entry in body) for _, _, body in fields_of(rows))
