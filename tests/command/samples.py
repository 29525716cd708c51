"""Random books, tables and texts for the tests, from a generator that the test seeds; and books as the reference takes them."""
import random

from plans import Book, Class, Outcome, State, Table, Walked
from reference import Sample

FIRST = "ABCXYZabcxyz_:"
LATER = FIRST + "0189.-"
STATE_LIMIT = 512
BOOK_ROWS = 256


def a_name(draw: random.Random) -> str:
    length = draw.choice([1, 2, 3, 8, 31, 32])
    return draw.choice(FIRST) + "".join(draw.choice(LATER) for _ in range(length - 1))


def a_class(draw: random.Random):
    """Any class, or None for a book without the field."""
    k = draw.randint(1, 8)
    return draw.choice([None, (0, 2, 1), (0, k, draw.randint(1, k)), (1, 0, 0), (2, draw.randint(0, 8), 0)])


def a_sample(draw: random.Random, names=(1, 2, 5, 30, 64), rows=(1, 2, 10, 40, 256), lengths=(0, 1, 3, 8, 40)) -> Sample:
    """A book that is accepted. Some names stay unused, some rows are empty and some are repeated."""
    chosen = tuple(sorted({a_name(draw) for _ in range(draw.choice(names))}))
    days, beginnings = [], {()}
    for _ in range(draw.choice(rows)):
        row = tuple(draw.randrange(len(chosen)) for _ in range(draw.choice(lengths)))
        more = beginnings.union(row[:end] for end in range(1, len(row) + 1))
        if days and (draw.random() < 0.3 or len(more) > STATE_LIMIT):
            days.append(draw.choice(days))
        else:
            days.append(row)
            beginnings = more
    return Sample(chosen, a_class(draw), tuple(days))


def a_small_sample(draw: random.Random) -> Sample:
    """One that the reference joins quickly."""
    return a_sample(draw, names=(1, 2, 3, 4), rows=(1, 2, 3, 5, 8), lengths=(0, 1, 2, 3, 4, 5))


def with_copies(draw: random.Random, sample: Sample) -> Sample:
    """The sample with some of its rows repeated, and all in another order."""
    rows = list(sample.rows)
    rows += draw.choices(rows, k=min(draw.choice([0, 1, 2, 30]), BOOK_ROWS - len(rows)))
    draw.shuffle(rows)
    return sample._replace(rows=tuple(rows))


def book_of(sample: Sample) -> Book:
    rows = tuple(tuple(sample.names[entry] for entry in row) for row in sample.rows)
    return Book(sample.names, sample.named_class and Class(*sample.named_class), rows)


def sample_of(book: Book) -> Sample:
    named = book.named_class and (book.named_class.kind, book.named_class.one, book.named_class.two)
    return Sample(book.names, named, tuple(tuple(map(book.names.index, row)) for row in book.rows))


def a_table(draw: random.Random, names: tuple, accepting: float = 0.5) -> Table:
    """A table with any arcs, each state accepting with this probability; states that are never met are left out, and the rest are
    numbered first-met."""
    count = draw.randint(1, 4)
    states = []
    for _ in range(count):
        arcs = [(name, draw.randrange(count)) for name in names if draw.random() < 0.6]
        states.append((draw.random() < accepting, arcs))
    met = [0]
    for number in met:
        met += [to for place, (_, to) in enumerate(states[number][1])
                if to not in met and to not in [other for _, other in states[number][1][:place]]]
    renumbered = [State(states[old][0], tuple((name, met.index(to)) for name, to in states[old][1])) for old in met]
    return Table(names, Class(0, 2, 1), tuple(renumbered))


def allows(table: Table, row: tuple) -> bool:
    """Whether the row leads from the start to an accepting state, by its arcs alone."""
    state = 0
    for name in row:
        arcs = dict(table.states[state].arcs)
        if name not in arcs:
            return False
        state = arcs[name]
    return table.states[state].accepting


def plainly(table: Table, row: tuple) -> Walked:
    """What a walk tells that takes every arc there is, as before version 3.2.0."""
    taken = next(end for end in range(len(row), -1, -1) if table.state_after(row[:end]) is not None)
    state = table.states[table.state_after(row[:taken])]
    ended = Outcome.STOPS if taken < len(row) else Outcome.ADMITTED if state.accepting else Outcome.ON_THE_WAY
    return Walked(ended, row[:taken], tuple(name for name, _ in state.arcs))


def damaged(draw: random.Random, data: bytes) -> bytes:
    """The bytes with one or two small faults put in."""
    data = bytearray(data)
    for _ in range(draw.choice([1, 1, 2])):
        place = draw.randrange(len(data) + 1)
        way = draw.randrange(5)
        if way == 0:
            del data[place:]
        elif way == 1:
            data[place:place] = bytes([draw.choice([0, 1, 2, 3, 4, draw.randrange(256)])])
        elif way == 2 and place < len(data):
            data[place] = draw.choice([0, 1, 2, 3, 4, 255, draw.randrange(256)])
        elif way == 3:
            del data[place:place + 1]
        else:
            other = draw.randrange(len(data) + 1)
            data[place:place] = data[min(place, other):max(place, other)]
    return bytes(data)


def another_way(draw: random.Random, line: str) -> str:
    """The same day, its names parted in another way."""
    parting = draw.choice([" ", "  ", "\t", ",", ";", ", ", " \t", ";;", "quoted"])
    if parting == "quoted":
        return ",".join(f'"{name}"' for name in line.split())
    ends = ["", " ", " # breakfast", "#"] + ([",,,"] if parting.strip(" ") else [])
    return draw.choice(["", " "]) + line.replace(" ", parting) + draw.choice(ends)


def loosened(draw: random.Random, text: str) -> str:
    """The text with comments and blank lines put in, and days written in other ways, where that changes nothing."""
    lines = []
    for line in text.split("\n")[:-1]:
        if draw.random() < 0.3:
            lines.append(draw.choice(["# a comment", "  \t# class = seen", "#", "", "  ", ",,,", ";\t;"]))
        lines.append(line if "=" in line else another_way(draw, line))
    end = draw.choice(["\n", "\r\n", "\r"])
    return draw.choice(["", "\ufeff"]) + end.join(lines) + draw.choice([end, end + "# end", ""])
