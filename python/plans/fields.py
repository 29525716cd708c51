"""Books and tables as bytes: their fields, read with the refusals of docs/FORMATS.md, and written; and the counts of a table, read."""
import re
from dataclasses import dataclass
from pathlib import Path
from typing import Dict, Iterable, Iterator, List, Optional, Sequence, Tuple, Union

INPUT_LIMIT = 65535
NAME_LIMIT = 64
NAME_BYTES = 32
BOOK_ROWS = 256
ROW_LIMIT = 40
PASS_LIMIT = BOOK_ROWS * ROW_LIMIT
STATE_LIMIT = 512
SETTING_LIMIT = 8

NAME, CLASS, ROW, STATE, COUNT = 1, 2, 3, 4, 5
CONTEXT, SEEN, LAST = 0, 1, 2

NAME_SHAPE = re.compile(r"[A-Za-z_:][A-Za-z_:0-9.-]*")


def _words() -> Dict[int, str]:
    lines = (Path(__file__).parent / "refusals.txt").read_text("ascii").splitlines()
    return {int(number): words for number, words in (line.split("\t") for line in lines)}


# each refusal's number with its words
REFUSALS = _words()


class Refused(Exception):
    """A refusal: its number, its words, and its offset, if that is known: where the field begins that it concerns; of 14, 15 and 16
    the place in the plan. What is wrong there is told too where the words leave it open and the field shows it."""

    def __init__(self, number: int, offset: Optional[int] = None, what: str = ""):
        self.number = number
        self.words = REFUSALS[number]
        self.offset = offset
        self.what = what
        place = "" if offset is None else f"offset {offset}: "
        super().__init__(f"{place}refusal {number}: {self.words}" + (f": {what}" if what else ""))

    def __reduce__(self) -> Tuple:
        return Refused, (self.number, self.offset, self.what)


class BadCounts(ValueError):
    """Bytes that are no counts of the table that they were read with: the offset of the field at fault, and what is wrong."""

    def __init__(self, offset: int, reason: str):
        self.offset = offset
        self.reason = reason
        super().__init__(f"offset {offset}: {reason}")

    def __reduce__(self) -> Tuple:
        return BadCounts, (self.offset, self.reason)


@dataclass(frozen=True)
class Class:
    """The class of a book or table: kind and two settings, as the class field holds them."""
    kind: int
    one: int = 0
    two: int = 0

    def __str__(self) -> str:
        if self.kind == CONTEXT:
            return f"context ({self.one},{self.two})"
        return "seen set" if self.kind == SEEN else f"last {self.one}"


DEFAULT_CLASS = Class(CONTEXT, 2, 1)
Row = Tuple[str, ...]


@dataclass(frozen=True)
class Book:
    """Names in ascending order, the class if the book names one, and rows of names."""
    names: Tuple[str, ...]
    named_class: Optional[Class]
    rows: Tuple[Row, ...]


@dataclass(frozen=True)
class State:
    """Whether a day may end here, and each arc as a name and the number of the state that it leads to."""
    accepting: bool
    arcs: Tuple[Tuple[str, int], ...]


@dataclass(frozen=True)
class Table:
    """Names in ascending order, the class, and the states; state 0 is the start."""
    names: Tuple[str, ...]
    named_class: Class
    states: Tuple[State, ...]

    def state_after(self, row: Row) -> Optional[int]:
        """The state that the row's names lead to from the start; None where one of them has no arc."""
        state: Optional[int] = 0
        for name in row:
            state = None if state is None else dict(self.states[state].arcs).get(name)
        return state

    @property
    def dead_states(self) -> Tuple[int, ...]:
        """The states that lead to no end, ascending: those that do not accept, and from which no accepting state can be reached. No
        table that a build writes has one. State 0 is among them exactly where the table admits no row."""
        sources: Dict[int, List[int]] = {}
        for number, state in enumerate(self.states):
            for _, target in state.arcs:
                sources.setdefault(target, []).append(number)
        waiting = [number for number, state in enumerate(self.states) if state.accepting]
        live = set(waiting)
        while waiting:
            found = set(sources.get(waiting.pop(), ())) - live
            live |= found
            waiting += found
        return tuple(number for number in range(len(self.states)) if number not in live)


@dataclass(frozen=True)
class StateCounts:
    """How many of a book's rows end in a state, copies counted; and each arc of the state as a name and how often the rows pass it."""
    ends: int
    passes: Tuple[Tuple[str, int], ...]


def class_ok(kind: int, one: int, two: int) -> bool:
    if kind == CONTEXT:
        return 1 <= one <= SETTING_LIMIT and 1 <= two <= one
    if kind == SEEN:
        return one == 0 and two == 0
    return kind == LAST and one <= SETTING_LIMIT and two == 0


def prefix_tree(rows: Iterable[Sequence]) -> Dict[tuple, int]:
    """The states of the prefix tree: each different beginning of a row, numbered in the order in which they are met."""
    states: Dict[tuple, int] = {(): 0}
    for row in rows:
        for end in range(1, len(row) + 1):
            states.setdefault(tuple(row[:end]), len(states))
    return states


Field = Tuple[int, int, bytes]  # offset, mark, body
Bytes = Union[bytes, bytearray, memoryview]


def fields_of(data: bytes) -> Iterator[Field]:
    """Each field. One that runs past the end is met only after those before it were judged."""
    offset = 0
    while offset < len(data):
        end = offset + 3 + int.from_bytes(data[offset + 1:offset + 3], "big")
        if offset + 3 > len(data) or end > len(data):
            raise Refused(2, offset)
        yield offset, data[offset], data[offset + 3:end]
        offset = end


def kind_of(data: bytes) -> Optional[int]:
    """ROW for a book, STATE for a table: the first mark after names and class. None if no such mark is there."""
    try:
        marks = (mark for _, mark, _ in fields_of(data[:INPUT_LIMIT]) if mark not in (NAME, CLASS))
        return next((mark if mark in (ROW, STATE) else None for mark in marks), None)
    except Refused:
        return None


def name_fault(names: Sequence[bytes], name: bytes) -> int:
    if len(name) > NAME_BYTES or not NAME_SHAPE.fullmatch(name.decode("latin-1")):
        return 5
    if names and name <= names[-1]:
        return 6
    return 7 if len(names) == NAME_LIMIT else 0


def row_fault(names: int, before: int, body: bytes) -> int:
    if before == BOOK_ROWS:
        return 7
    return 9 if len(body) > ROW_LIMIT or any(entry >= names for entry in body) else 0


def bad_row(names: int, before: int, body: bytes) -> str:
    """Which of the faults of 9 a row has."""
    if len(body) > ROW_LIMIT:
        return f"row {before + 1} has {len(body)} entries"
    return f"row {before + 1} has the entry {next(entry for entry in body if entry >= names)}, which is no name's number"


def state_fault(names: int, before: int, body: bytes) -> int:
    if before == STATE_LIMIT:
        return 7
    if len(body) % 3 != 1 or body[0] > 1:
        return 11
    entries = body[1::3]
    ascending = all(one < two for one, two in zip(entries, entries[1:]))
    return 0 if ascending and all(entry < names for entry in entries) else 11


class _Reading:
    """What the fields read so far hold, of a book (last mark ROW) or of a table (last mark STATE)."""

    def __init__(self, last: int):
        self.last = last
        self.names: List[bytes] = []
        self.named_class: Optional[Class] = None
        self.items: List[Tuple[int, bytes]] = []  # each row or state: offset, body

    def take(self, offset: int, mark: int, body: bytes) -> None:
        fault = 3
        if mark == NAME and self.named_class is None and not self.items:
            fault = name_fault(self.names, body)
            self.names.append(body)
        elif mark == CLASS and self.names and self.named_class is None and not self.items:
            fault = 0 if len(body) == 3 and class_ok(*body) else 8
            self.named_class = None if fault else Class(*body)
        elif mark == self.last and self.names and (mark == ROW or self.named_class is not None):
            judge = row_fault if mark == ROW else state_fault
            fault = judge(len(self.names), len(self.items), body)
            self.items.append((offset, body))
        if fault:
            raise Refused(fault, offset, bad_row(len(self.names), len(self.items) - 1, body) if fault == 9 else "")

    def name(self, number: int) -> str:
        return self.names[number].decode("ascii")

    def all_names(self) -> Tuple[str, ...]:
        return tuple(name.decode("ascii") for name in self.names)


def as_bytes(given: Bytes, wanted: str = "bytes") -> bytes:
    """What was given, as bytes; TypeError if it is something else, such as a text or a number."""
    if not isinstance(given, (bytes, bytearray, memoryview)):
        raise TypeError(f"{wanted} must be given, not {type(given).__name__}")
    return bytes(given)


def _read(data: Bytes, last: int) -> _Reading:
    data = as_bytes(data)
    if len(data) > INPUT_LIMIT:
        raise Refused(1, INPUT_LIMIT)
    reading = _Reading(last)
    for offset, mark, body in fields_of(data):
        reading.take(offset, mark, body)
    if not reading.items:
        raise Refused(4, len(data))
    return reading


def read_book(data: Bytes) -> Book:
    """The book that the bytes are; Refused, with the offset, if they are none."""
    reading = _read(data, ROW)
    beginnings = {b""}
    for offset, body in reading.items:
        beginnings.update(body[:end] for end in range(1, len(body) + 1))
        if len(beginnings) > STATE_LIMIT:
            raise Refused(10, offset)
    rows = tuple(tuple(map(reading.name, body)) for _, body in reading.items)
    return Book(reading.all_names(), reading.named_class, rows)


def _numbers(body: bytes, first: int, step: int) -> List[int]:
    """The numbers of two bytes from a place on, one in so many bytes."""
    return [int.from_bytes(body[place:place + 2], "big") for place in range(first, len(body), step)]


def _targets(body: bytes) -> List[int]:
    return _numbers(body, 2, 3)


def _judge_numbering(items: Sequence[Tuple[int, bytes]]) -> None:
    """Refusal 12: states taken in ascending number, and arcs in ascending name, must meet new states in their order."""
    met = 1
    for number, (offset, body) in enumerate(items):
        if number >= met:
            raise Refused(12, offset)
        for target in _targets(body):
            if target > met or target >= len(items):
                raise Refused(12, offset)
            met = max(met, target + 1)


def read_table(data: Bytes) -> Table:
    """The table that the bytes are; Refused, with the offset, if they are none."""
    reading = _read(data, STATE)
    _judge_numbering(reading.items)
    states = tuple(State(body[0] == 1, tuple(zip(map(reading.name, body[1::3]), _targets(body)))) for _, body in reading.items)
    assert reading.named_class is not None
    return Table(reading.all_names(), reading.named_class, states)


def _state_counts(number: int, state: State, found: Field) -> StateCounts:
    """What a field says of a state; BadCounts where it cannot be said of this one."""
    offset, mark, body = found
    if mark != COUNT:
        raise BadCounts(offset, f"the mark {mark:02X}, where the counts of state {number} are due, whose mark is {COUNT:02X}")
    due = 2 + 2 * len(state.arcs)
    if len(body) != due:
        raise BadCounts(offset, f"the counts of state {number} have {len(body)} bytes, where its arcs need {due}")
    ends, *numbers = _numbers(body, 0, 2)
    if state.accepting != (ends > 0):
        raise BadCounts(offset, f"the ends of state {number} are {ends}, and it {'accepts' if state.accepting else 'does not accept'}")
    passes = tuple(zip((name for name, _ in state.arcs), numbers))
    unused = next((name for name, count in passes if count == 0), None)
    if unused is not None:
        raise BadCounts(offset, f"no row passes the arc {unused} of state {number}, and an arc is there only where one does")
    over = next(((name, count) for name, count in passes if count > PASS_LIMIT), None)
    if over is not None:
        raise BadCounts(offset, f"the passes of the arc {over[0]} of state {number} are {over[1]:,}: "
                                f"{BOOK_ROWS} rows of {ROW_LIMIT} entries have at most {PASS_LIMIT:,}")
    return StateCounts(ends, passes)


def _judge_rows(offsets: Sequence[int], counts: Sequence[StateCounts]) -> None:
    """BadCounts at the first state with which more rows have ended than a book has."""
    rows = 0
    for number, (offset, own) in enumerate(zip(offsets, counts)):
        rows += own.ends
        if rows > BOOK_ROWS:
            raise BadCounts(offset, f"with {own.ends:,} ends of state {number} there are {rows:,} rows: a book has at most {BOOK_ROWS}")


def _judge_flow(states: Sequence[State], offsets: Sequence[int], counts: Sequence[StateCounts]) -> None:
    """BadCounts where a state's arrivals, for state 0 plus one for each row, are not its departures and ends."""
    arrivals = [sum(own.ends for own in counts), *[0] * (len(states) - 1)]
    for state, own in zip(states, counts):
        for (_, target), (_, count) in zip(state.arcs, own.passes):
            arrivals[target] += count
    for number, (offset, own) in enumerate(zip(offsets, counts)):
        leaving = own.ends + sum(count for _, count in own.passes)
        if arrivals[number] != leaving:
            raise BadCounts(offset, f"state {number} has arrivals {arrivals[number]}, but departures and ends together {leaving}: "
                                    "these are the counts of another table, or damaged")


def read_counts(data: Bytes, table: Union[Table, Bytes]) -> Tuple[StateCounts, ...]:
    """The counts of a table's states, in the table's order. A counts file has no names and no targets, so the table that it was
    written with is needed. BadCounts, with the offset, if the bytes are no counts of this table; Refused if the table is none, and
    ValueError if it cannot be written (see write_table)."""
    states = read_table(write_table(table) if isinstance(table, Table) else table).states
    data = as_bytes(data)
    try:
        fields = list(fields_of(data))
    except Refused as problem:
        raise BadCounts(problem.offset or 0, "a field runs past the end") from None
    if len(fields) != len(states):
        offset = fields[len(states)][0] if len(fields) > len(states) else len(data)
        raise BadCounts(offset, f"the number of fields is {len(fields)}, that of the table's states {len(states)}")
    counts = tuple(_state_counts(number, state, found) for number, (state, found) in enumerate(zip(states, fields)))
    offsets = [offset for offset, _, _ in fields]
    _judge_rows(offsets, counts)
    _judge_flow(states, offsets, counts)
    return counts


def _fitted(number: int, size: int) -> bytes:
    """The number in so many bytes."""
    if not 0 <= number < 256 ** size:
        raise ValueError(f"the number {number} cannot be written: it must be from 0 to {256 ** size - 1}")
    return number.to_bytes(size, "big")


def field(mark: int, body: bytes) -> bytes:
    return _fitted(mark, 1) + _fitted(len(body), 2) + body


def _front(names: Sequence[str], named_class: Optional[Class]) -> bytes:
    strange = next((name for name in names if not name.isascii()), None)
    if strange is not None:
        raise ValueError(f"the name {strange!r} cannot be written: it is not ASCII")
    front = b"".join(field(NAME, name.encode("ascii")) for name in names)
    if named_class is None:
        return front
    settings = (named_class.kind, named_class.one, named_class.two)
    return front + field(CLASS, b"".join(_fitted(number, 1) for number in settings))


class _Numbers:
    """Each name's number, as it is written."""

    def __init__(self, names: Sequence[str]):
        self.names = {name: number for number, name in enumerate(names)}

    def of(self, name: str) -> bytes:
        if name not in self.names:
            raise ValueError(f"the name {name!r} cannot be written: it is not among the names")
        return _fitted(self.names[name], 1)


def write_names(names: Sequence[str]) -> bytes:
    """A list of names as its bytes, in the order given. They are not judged; ValueError as for a book."""
    return _front(names, None)


def write_book(book: Book) -> bytes:
    """The book's bytes. They are not judged: what is wrong with the book, a call's refusal says. ValueError where there can be no
    bytes: a row has a name that is not among the names, a name is not ASCII, or a number is too large for its bytes."""
    numbers = _Numbers(book.names)
    rows = (field(ROW, b"".join(map(numbers.of, row))) for row in book.rows)
    return _front(book.names, book.named_class) + b"".join(rows)


def write_table(table: Table) -> bytes:
    """The table's bytes, not judged either; ValueError as for a book."""
    numbers = _Numbers(table.names)
    states = []
    for state in table.states:
        arcs = (numbers.of(name) + _fitted(target, 2) for name, target in state.arcs)
        states.append(field(STATE, _fitted(int(state.accepting), 1) + b"".join(arcs)))
    return _front(table.names, table.named_class) + b"".join(states)
