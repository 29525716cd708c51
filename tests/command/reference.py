"""The table of a book, by the rules of docs/SCOPE.md taken one step at a time: slow, only for tests, and without any code of the module
plans. A step joins two groups of states of the prefix tree. Forks (one group, one name, two targets) are joined before the class's
rule is asked, so that the rule is asked of deterministic automata only; docs/SCOPE.md lets any open step come next."""
from typing import NamedTuple, Optional, Tuple

CONTEXT, SEEN = 0, 1
DEFAULT_CLASS = (CONTEXT, 2, 1)


class Sample(NamedTuple):
    """A book: names in ascending order, kind and settings of the class if it names one, rows of names' numbers."""
    names: Tuple[str, ...]
    named_class: Optional[Tuple[int, int, int]]
    rows: Tuple[Tuple[int, ...], ...]


def field(mark: int, body: bytes) -> bytes:
    return bytes([mark]) + len(body).to_bytes(2, "big") + body


def book_bytes(sample: Sample) -> bytes:
    fields = [field(1, name.encode()) for name in sample.names]
    fields += [field(2, bytes(sample.named_class))] if sample.named_class else []
    return b"".join(fields + [field(3, bytes(row)) for row in sample.rows])


class Quotient:
    """The groups of a book's prefix tree: arcs, accepting groups, and f of each (kinds 1 and 2)."""

    def __init__(self, sample: Sample):
        self.kind, self.one, self.two = sample.named_class or DEFAULT_CLASS
        beginnings = [row[:end] for row in sample.rows for end in range(len(row) + 1)]
        self.tree = {word: number for number, word in enumerate(dict.fromkeys([(), *beginnings]))}
        self.group = list(range(len(self.tree)))
        self.ends = {self.tree[row] for row in sample.rows}

    def f(self, word: tuple):
        if self.kind == SEEN:
            return frozenset(word)
        return word[max(0, len(word) - self.one):]

    def arcs(self) -> dict:
        """Group and name to the set of target groups."""
        found = {}
        for word, state in self.tree.items():
            if word:
                source = self.group[self.tree[word[:-1]]]
                found.setdefault((source, word[-1]), set()).add(self.group[state])
        return found

    def join(self, one: int, other: int):
        self.group = [min(one, other) if group in (one, other) else group for group in self.group]

    def open_step(self):
        """Two different groups that the rules join, or None where the joining is full."""
        arcs = self.arcs()
        for targets in arcs.values():
            if len(targets) > 1:
                return sorted(targets)[:2]
        delta = {place: min(targets) for place, targets in arcs.items()}
        return self.context_step(delta) if self.kind == CONTEXT else self.f_step(delta)

    def context_step(self, delta: dict):
        leaving = {}
        for (source, name), target in delta.items():
            leaving.setdefault(source, []).append((name, target))
        paths = {(): [(group,) for group in sorted(set(self.group))]}
        for _ in range(self.one):
            longer = {}
            for names, ways in paths.items():
                for way in ways:
                    for name, target in leaving.get(way[-1], []):
                        longer.setdefault(names + (name,), []).append(way + (target,))
            paths = longer
        for ways in paths.values():
            for way in ways[1:]:
                for i in range(self.two, self.one + 1):
                    if way[i] != ways[0][i]:
                        return ways[0][i], way[i]
        return None

    def f_step(self, delta: dict):
        accepting = {self.group[state] for state in self.ends}
        met = {}
        for word, state in self.tree.items():
            group = self.group[state]
            reasons = [(name, target) for (source, name), target in delta.items() if source == group]
            if group in accepting:
                reasons.append("accepting")
            for reason in reasons:
                other = met.setdefault((self.f(word), reason), group)
                if other != group:
                    return other, group
        return None


def joined(sample: Sample) -> Quotient:
    quotient = Quotient(sample)
    step = quotient.open_step()
    while step is not None:
        quotient.join(*step)
        step = quotient.open_step()
    return quotient


def states_of(quotient: Quotient) -> list:
    """The table's states, numbered first-met: (accepting, [(name's number, target)])."""
    delta = {place: min(targets) for place, targets in quotient.arcs().items()}
    accepting = {quotient.group[state] for state in quotient.ends}
    met = [quotient.group[0]]
    states = []
    for group in met:
        leaving = sorted((name, target) for (source, name), target in delta.items() if source == group)
        for _, target in leaving:
            if target not in met:
                met.append(target)
        states.append((group in accepting, [(name, met.index(target)) for name, target in leaving]))
    return states


def table_bytes(sample: Sample, states: list) -> bytes:
    front = book_bytes(Sample(sample.names, sample.named_class or DEFAULT_CLASS, ()))
    arcs = (b"".join(bytes([name]) + target.to_bytes(2, "big") for name, target in leaving) for _, leaving in states)
    return front + b"".join(field(4, bytes([accepts]) + leaving) for (accepts, _), leaving in zip(states, arcs))


def counts_of(sample: Sample, states: list) -> list:
    """For each state how many rows end there, and for each of its arcs how often the rows pass it: every row walked by itself."""
    ends = [0] * len(states)
    passes = [{name: 0 for name, _ in arcs} for _, arcs in states]
    for row in sample.rows:
        state = 0
        for name in row:
            passes[state][name] += 1
            state = dict(states[state][1])[name]
        ends[state] += 1
    return list(zip(ends, passes))


def counts_bytes(counts: list) -> bytes:
    return b"".join(field(5, b"".join(number.to_bytes(2, "big") for number in (ends, *passes.values()))) for ends, passes in counts)


def listing(sample: Sample, states: list, joins: int) -> str:
    lines = [f"states {len(states)} joins {joins} distinct {len(set(sample.rows))}"]
    for number, (accepts, arcs) in enumerate(states):
        shown = [f"{sample.names[name]}>{target}" for name, target in arcs]
        lines.append(" ".join([str(number), "+" if accepts else "-"] + shown))
    return "".join(line + "\n" for line in lines)


def listing_of(sample: Sample) -> str:
    """What the listing program prints for the book."""
    quotient = joined(sample)
    states = states_of(quotient)
    return listing(sample, states, len(quotient.tree) - len(states))


def walked(sample: Sample, states: list, row: tuple) -> tuple:
    """The walk's outcome (1 admitted, 2 on the way, 3 stops), how many names can be walked, and the names that may come next."""
    state = 0
    for place, name in enumerate(row):
        arcs = dict(states[state][1])
        if name not in arcs:
            return 3, place, tuple(sample.names[other] for other in arcs)
        state = arcs[name]
    return (1 if states[state][0] else 2), len(row), tuple(sample.names[other] for other, _ in states[state][1])
