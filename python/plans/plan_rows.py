"""From plan files to the rows of one book, for the command: names collected or taken from a file, each plan read by the library, and
refusals in words."""
from dataclasses import dataclass
from itertools import count
from typing import FrozenSet, Iterable, Optional, Sequence, Set, Tuple

from .fields import BOOK_ROWS, INPUT_LIMIT, NAME_LIMIT, REFUSALS, ROW_LIMIT, STATE_LIMIT, Book, Refused, Row
from .files import Failure, Input, Kind, read_input
from .models import build, front_names, judged_book, judged_table, read_rows
from .plan_files import DEPTH_LIMIT, place_of, scan, tag_at, what_stands
from .showing import nearest
from .texts import SMALLER, BadText, names_in_text

SIZES, TOO_MANY, BAD_ROW, TREE_TOO_LARGE, BAD_PLAN, TOO_DEEP, UNKNOWN_CHILD = 1, 7, 9, 10, 14, 15, 16
NO_BOOK = "plans rows: no book is written"


@dataclass(frozen=True)
class Plan:
    """A plan file; and, as the scan sees them, the names of the children of one element, and of all elements."""
    source: Input
    children: FrozenSet[str]
    elements: FrozenSet[str]


@dataclass(frozen=True)
class Names:
    """The list of names, and the file that it was taken from, if it was."""
    names: Tuple[str, ...]
    source: Optional[Input]


def plan_of(source: Input, element: str) -> Plan:
    seen = scan(source.data)
    return Plan(source, frozenset(tag.name for tag in seen.children(element)), frozenset(tag.name for tag in seen.tags))


def read_plan(path: str, element: str) -> Plan:
    return plan_of(read_input(path, texts=False), element)


def collected(plans: Iterable[Plan], element: str) -> Names:
    """The element's name and those of its children, over all plans."""
    names: Set[str] = {element}
    for plan in plans:
        names.update(plan.children)
        if len(names) > NAME_LIMIT:
            over = f"over {NAME_LIMIT} different names: at most {NAME_LIMIT} are allowed; {SMALLER}"
            raise Failure(f"{plan.source.label}: with this file there are {over}", NO_BOOK)
    return Names(tuple(sorted(names)), None)


def _names_in_text(source: Input) -> Tuple[str, ...]:
    """The names of a text, sorted."""
    try:
        names = names_in_text(source.data)
    except BadText as problem:
        raise Failure(*source.faulty_lines(problem)) from None
    if len(names) > NAME_LIMIT:
        raise Failure(f"{source.label}: this list has {len(names)} names, and a list has at most {NAME_LIMIT}: take some out")
    return tuple(sorted(names))


def _names_in_fields(source: Input) -> Tuple[str, ...]:
    """The names of a book, a table or a list of names; Refused as the library refuses it."""
    if source.kind is Kind.BOOK:
        return judged_book(source.data).names
    if source.kind is Kind.TABLE:
        return judged_table(source.data).names
    names = tuple(front_names(source.data))
    try:
        read_rows(b"", source.data, names[0] if names else "")
    except Refused as problem:
        if problem.number < BAD_PLAN:
            raise
    return names


def names_in(path: str, element: str) -> Names:
    """The names that a file fixes, the element's among them."""
    source = read_input(path)
    try:
        if source.kind is Kind.TEXT:
            names = _names_in_text(source)
        elif source.kind in (Kind.BOOK, Kind.TABLE, Kind.FIELDS):
            names = _names_in_fields(source)
        else:
            raise Failure(f"{source.label}: this is {source.kind.value}; names are wanted: a text, a list of names, a book or a table")
    except Refused as problem:
        raise source.refused(problem) from None
    if element not in names:
        near = nearest(element, names)
        meant = f"; did you mean {near}?" if near else ""
        raise Failure(f"{source.label}: {element} is not in this list, which must hold the element's own name{meant}")
    return Names(names, source)


def _unknown_child(plan: Plan, at: int, names: Names, element: str) -> str:
    child = tag_at(plan.source.data, at)
    near = nearest(child, [name for name in names.names if name != element])
    meant = f"did you mean {near}?" if near else "add it there, or correct the plan"
    where = names.source.label if names.source else "the list of names"
    return f"{child}, a child of {element}, is not in {where}; {meant}"


def _explained(plan: Plan, problem: Refused, names: Names, element: str) -> str:
    """What a refusal of this plan says, and what to do."""
    data, at = plan.source.data, problem.offset or 0
    if problem.number == SIZES:
        return f"the plan is over {INPUT_LIMIT:,} bytes: give it in parts, each with one outermost element"
    if problem.number == TOO_MANY:
        return f"over {BOOK_ROWS} elements {element} in one plan: at most {BOOK_ROWS} rows are allowed; divide the plan, or take some out"
    if problem.number == BAD_ROW:
        return f"an element {element} of over {ROW_LIMIT} children: at most {ROW_LIMIT} are allowed; {SMALLER}"
    if problem.number == BAD_PLAN:
        return what_stands(data, at)
    if problem.number == TOO_DEEP:
        return f"{tag_at(data, at)} stands inside {DEPTH_LIMIT} other elements: at most {DEPTH_LIMIT - 1} are allowed; nest less deeply"
    if problem.number == UNKNOWN_CHILD:
        return _unknown_child(plan, at, names, element)
    return problem.words


def _placed(plan: Plan, problem: Refused, element: str) -> str:
    """The file, with line and column where the refusal has a place."""
    at = problem.offset
    if problem.number == TOO_MANY:
        at = scan(plan.source.data).too_many(element)
    if problem.number == BAD_ROW:
        at = scan(plan.source.data).too_long(element)
    return plan.source.label if at is None else f"{plan.source.label}:{place_of(plan.source.data, at)}"


def rows_of(plan: Plan, names: Names, element: str) -> Tuple[Row, ...]:
    """The plan's rows, by the library; a Failure, in words, where it refuses the plan."""
    try:
        return read_rows(plan.source.data, names.names, element)
    except Refused as problem:
        said = _explained(plan, problem, names, element)
        raise Failure(f"{_placed(plan, problem, element)}: refusal {problem.number}: {said}") from None


def rows_alone(plan: Plan, element: str) -> Optional[Tuple[Row, ...]]:
    """The plan's rows by the names that it has itself. None where these are too many for a list; the plan is then read for an element
    that it does not have, which finds what is wrong with it as a plan. A Failure as of rows_of."""
    own = plan.children | {element}
    if len(own) <= NAME_LIMIT:
        return rows_of(plan, Names(tuple(sorted(own)), None), element)
    other = next(name for name in map("_{}".format, count()) if name not in plan.elements)
    rows_of(plan, Names((other,), None), other)
    return None


def missing(plans: Sequence[Plan], element: str) -> str:
    """That no plan has the element, and which may have been meant."""
    near = nearest(element, sorted({name for plan in plans for name in plan.elements}))
    return f"no element {element}{f' (did you mean {near}?)' if near else ''}"


def _over_limit(plans: Sequence[Plan], rows: Sequence[Sequence[Row]], number: int) -> str:
    """The plan with which the rows, or their beginnings, are more than a book may have."""
    count, beginnings = 0, {()}
    for plan, own in zip(plans, rows):
        count += len(own)
        if number == TOO_MANY and count > BOOK_ROWS:
            return f"{plan.source.label}: with this plan there are over {BOOK_ROWS} rows: at most {BOOK_ROWS} are allowed; give fewer plans"
        beginnings.update(row[:end] for row in own for end in range(1, len(row) + 1))
        if number == TREE_TOO_LARGE and len(beginnings) > STATE_LIMIT:
            return (f"{plan.source.label}: with this plan the prefix tree needs over {STATE_LIMIT} states; give fewer plans, "
                    f"or {SMALLER}")
    return f"plans rows: the book of these plans has refusal {number}: {REFUSALS[number]}"


def judge_book(plans: Sequence[Plan], rows: Sequence[Sequence[Row]], book: Book) -> None:
    """A Failure that names the plan with which the book goes over a limit, where the library refuses it."""
    try:
        build(book)
    except Refused as problem:
        raise Failure(_over_limit(plans, rows, problem.number), NO_BOOK) from None
