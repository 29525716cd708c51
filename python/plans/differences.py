"""How two tables differ, and a shortest day that one allows and the other does not."""
from collections import deque
from dataclasses import dataclass
from typing import Dict, List, Optional, Tuple

from .fields import Row, Table

NOWHERE = None  # where a walk is that has stopped
Place = Tuple[int, Optional[int]]  # which of the two tables, and a state of it or NOWHERE


@dataclass(frozen=True)
class Difference:
    """Names that only one table has, and a shortest day that only one allows; None if both allow the same days."""
    only_first: Tuple[str, ...]
    only_second: Tuple[str, ...]
    day: Optional[Row]
    first_allows: bool


class _Groups:
    """Places known to be alike, if no shorter day parts them: a union-find structure."""

    def __init__(self) -> None:
        self.above: Dict[Place, Place] = {}

    def root(self, place: Place) -> Place:
        while place in self.above:
            place = self.above[place]
        return place

    def join(self, one: Place, other: Place) -> bool:
        """Whether the two were apart."""
        one, other = self.root(one), self.root(other)
        if one != other:
            self.above[one] = other
        return one != other


def _arcs(table: Table, state: Optional[int]) -> Dict[str, int]:
    return {} if state is NOWHERE else dict(table.states[state].arcs)


def _accepts(table: Table, state: Optional[int]) -> bool:
    return state is not NOWHERE and table.states[state].accepting


def _row(steps: List[Tuple[int, str]], last: int) -> Row:
    """The names that led to a pair: each pair has the pair before it and a name."""
    names = []
    while last:
        last, name = steps[last]
        names.append(name)
    return tuple(reversed(names))


def parting_day(first: Table, second: Table) -> Optional[Row]:
    """Breadth first over pairs of states, by name. A pair is passed over where pairs met before it, chained, join its two states: a
    day that parts these parts one of those, after no more names."""
    groups = _Groups()
    steps: List[Tuple[int, str]] = [(0, "")]
    waiting = deque([(0, 0, 0)])  # the number of the step that led here, a state of the first table, one of the second
    groups.join((1, 0), (2, 0))
    while waiting:
        step, one, two = waiting.popleft()
        if _accepts(first, one) != _accepts(second, two):
            return _row(steps, step)
        ours, theirs = _arcs(first, one), _arcs(second, two)
        for name in sorted({*ours, *theirs}):
            pair = ours.get(name, NOWHERE), theirs.get(name, NOWHERE)
            if groups.join((1, pair[0]), (2, pair[1])):
                steps.append((step, name))
                waiting.append((len(steps) - 1, *pair))
    return None


def compare(first: Table, second: Table) -> Difference:
    """How the two tables differ in names and in the days that they allow."""
    day = parting_day(first, second)
    return Difference(tuple(name for name in first.names if name not in second.names),
                      tuple(name for name in second.names if name not in first.names),
                      day, day is not None and _accepts(first, first.state_after(day)))
