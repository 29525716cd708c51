"""Which functions a function reaches, and what they divide by: by the compiler's own reading (mir.json), which is what it makes of each
function before it optimises, of the crates and of the kit's library alike. A generic function calls methods of what its callers hand it:
that is followed with it, so that of all methods with a name only those count that can run. What is called and is in no reading, and a call
of something else than a function or a method, is told like a division."""
import gc
import json
import re
from copy import copy
from functools import lru_cache
from pathlib import Path
from typing import Any, Dict, Iterator, List, NamedTuple, Set, Tuple

# The kinds of parts that are known; of these a function and a method are followed, where they are called. Another kind is told: a call of
# what a table has, of what runs beside it, of what the processor does by itself; or one that came later.
KINDS = set(
    """Add AddrOf Aggregate AlignOf Array Assign Bitmask Bool Bound Call Cast Const Copy Deref Div Exit Field Float FloatFromBits
    FloatToFloat Fn Given If Impl Int IntToFloat Ints Le LendStatic Lit Lt Map Mask Method Mul Named NumOf Op1 Op2 Opd Param Parts Ref
    Rem Repeat Select Shr Shuffle SizeOf Struct Sub Switch Variant Vec1 Vec2 Vector""".split()
)
FOLLOWED = {"Fn", "Method"}
# what computes with two numbers, or with two rows of them, and the divisions among it
OF_TWO = {"Op2", "Vec2"}
DIVIDE = re.compile("Div|Rem")


class Impl(NamedTuple):
    """A trait, and its methods for a type."""

    trait: str
    methods: List[str]


class Handed(NamedTuple):
    """The impl that meets a bound of a generic function, by its name, with what meets the impl's own bounds."""

    impl: str
    bounds: Tuple["Handed", ...]


class Function(NamedTuple):
    """What the compiler makes of a function."""

    bounds: List[str]  # their traits
    calls: List[Tuple[str, Any]]
    unfollowed: List[str]
    divided_by: List[str]


class Call(NamedTuple):
    function: str
    handed: Tuple[Handed, ...]


class Reached(NamedTuple):
    functions: Set[str]
    unfollowed: List[str]


def parts(made: Any) -> Iterator[Tuple[str, Any]]:
    """Everything that has a kind, with that, however deep."""
    for kind, part in made.items() if isinstance(made, dict) else ():
        yield kind, part
    for part in made.values() if isinstance(made, dict) else made if isinstance(made, list) else ():
        yield from parts(part)


def words(operation: Any) -> Set[str]:
    """An operation's name, which may be inside another's: {"Div": "Unsigned"}, "FloatDiv", {"Map": "FloatDiv"}."""
    inner = [word for word in operation.values() if isinstance(word, str)] if isinstance(operation, dict) else []
    return {*inner, *([operation] if isinstance(operation, str) else operation)}


def divided_by(made: Any) -> List[str]:
    """The number that each division is by, or nothing."""
    found = []
    for kind, part in parts(made):
        if kind in OF_TWO and any(DIVIDE.search(word) for word in words(part[0])):
            found.append(str(part[2].get("Int", {}).get("value", "")) if isinstance(part[2], dict) else "")
    return found


def not_followed(made: Any) -> List[str]:
    """The parts of other kinds, and the calls of something else than a function or a method; a field's name is small."""
    found = []
    for kind, part in parts(made):
        if kind[0].isupper() and kind not in KINDS:
            found.append(kind)
        if kind == "Call" and not FOLLOWED & words(part[0]):
            found.append(f"Call of {', '.join(sorted(words(part[0])))}")
    return found


def read_function(made: Any) -> Function:
    calls = [(kind, part) for kind, part in parts(made["body"]) if kind in FOLLOWED]
    bounds = [bound["of"] for bound in made["generics"]["bounds"]]
    return Function(bounds, calls, not_followed(made["body"]), divided_by(made["body"]))


def handed_on(bound: Any, handed: Tuple[Handed, ...]) -> Handed:
    """What meets a bound of what is called: what the caller was handed itself, or an impl."""
    if "Given" in bound:
        return handed[bound["Given"]]
    impl, _, bounds = bound["Impl"]
    return Handed(impl, tuple(handed_on(each, handed) for each in bounds))


class Readings:
    """The readings of several crates: what the compiler made of each function."""

    def __init__(self, made: Dict[str, Any]):
        self.made = made
        impls = [impl for each in made.values() for impl in each["generics"]["impls"]]
        self.impls = {impl["name"]: Impl(impl["of"]["of"], impl["methods"]) for impl in impls}
        # those that were looked through, each when it was reached first
        self.functions: Dict[str, Function] = {}

    def function(self, name: str) -> Function:
        if name not in self.functions:
            self.functions[name] = read_function(self.made[name])
        return self.functions[name]

    def with_step(self, name: str, step: Any) -> "Readings":
        """A copy in which a function begins with a step more."""
        made = self.made[name]
        changed = copy(self)
        changed.functions = {**self.functions, name: read_function({**made, "body": ["Seq", step, *made["body"]]})}
        return changed

    def called(self, kind: str, part: Any, handed: Tuple[Handed, ...]) -> Call:
        """The function that a call leads to, and what meets its bounds: of a method those of its impl come first."""
        own = tuple(handed_on(each, handed) for each in part[-1]["dicts"])
        if kind == "Fn":
            return Call(part[0], own)
        by = handed_on(part[0], handed)
        methods = self.impls[by.impl].methods if by.impl in self.impls else {part[1]: f"a method of {by.impl}"}
        return Call(methods[part[1]], by.bounds + own)

    def reached(self, root: str) -> Reached:
        """All functions that calls lead to, and the calls that lead nowhere. A function is followed anew for all else that it is handed."""
        found: Set[Call] = set()
        unfollowed = []
        todo = [Call(root, ())]
        while todo:
            call = todo.pop()
            if call in found:
                continue
            found.add(call)
            if call.function not in self.made:
                unfollowed.append(f"{call.function} is called, and is in no reading")
                continue
            function = self.function(call.function)
            unfollowed += [f"{call.function} has {other}, which is not followed" for other in function.unfollowed]
            handed = [self.impls[each.impl].trait if each.impl in self.impls else each.impl for each in call.handed]
            if handed == function.bounds:
                todo += [self.called(kind, part, call.handed) for kind, part in function.calls]
            else:
                unfollowed.append(f"{call.function} asks for {function.bounds}, and is handed {handed}")
        return Reached({call.function for call in found} & set(self.made), unfollowed)


def findings(readings: Readings, root: str) -> List[str]:
    """What a function reaches that it is not to reach: divisions but by 256, and calls not followed."""
    reached = readings.reached(root)
    divisions = [(name, by) for name in sorted(reached.functions) for by in readings.function(name).divided_by]
    return reached.unfollowed + [f"{name} divides by {by or '..'}" for name, by in divisions if by != "256"]


@lru_cache(maxsize=None)
def read_made(folder: Path) -> Dict[str, Any]:
    """What the compiler made of each function, by the files that were kept of each crate. Of a method that a trait only declares it made
    nothing: a call that leads there leads nowhere."""
    gc.disable()
    read = [each for file in sorted(folder.glob("*.json")) for each in json.loads(file.read_text())]
    # what is read stays, and is much: the collector is not to go over it again and again
    gc.freeze()
    gc.enable()
    made = {name: each for name, each in read if not name.endswith("+decl")}
    if len({name for name, _ in read}) < len(read):
        raise ValueError(f"{folder} has two readings of a function")
    return made
