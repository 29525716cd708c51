"""The command `plans`: its sub-commands over the module. Each gives its exit status; an error is a Failure."""
import getopt
import textwrap
from collections import Counter
from dataclasses import dataclass
from typing import Callable, Dict, Iterable, List, Mapping, NamedTuple, Optional, Sequence, Tuple

from . import drawings, helps
from .differences import Difference, compare
from .fields import BOOK_ROWS, ROW_LIMIT, Book, Class, Refused, Row, StateCounts, Table, read_counts, read_table, write_book
from .files import STANDARD, Failure, Input, Kind, label_of, one_place, put, read_input, say, write_output, write_outputs
from .models import (Built, Counted, Outcome, Walked, build, build_counted, judged_book, judged_table, list_book, list_table, rewrite,
                     walk)
from .plan_rows import NO_BOOK, Names, Plan, collected, judge_book, missing, names_in, read_plan, rows_alone, rows_of
from .showing import all_and_different, counted, cut, different, enumerated, nearest, plain, shown
from .texts import EMPTY_DAY, BadClass, BadText, Text, name_problem, read_class, read_text, write_text

YES, NO, ERROR = 0, 1, 2


@dataclass(frozen=True)
class Asked:
    """What stands on the command line after the sub-command; counts is whether counts are wanted, by that or by the sub-command."""
    words: Tuple[str, ...]
    out: Optional[str]
    named_class: Optional[Class]
    quiet: bool
    tree: bool
    counts: bool
    counts_out: Optional[str]
    element: str
    names: Optional[str]


@dataclass(frozen=True)
class Model:
    """A table with its bytes; and, if it was built, the book that it was built from, what the build told, and the counts, if they were
    asked for."""
    source: Input
    data: bytes
    table: Table
    book: Optional[Book]
    built: Optional[Built]
    counts: Optional[Sequence[StateCounts]] = None


def name_lines(names: Mapping[str, int]) -> List[str]:
    """Each name with how often it stands there, so that slips of the pen are seen."""
    # a hard space keeps a name and its count in one line
    words = ", ".join(f"{name}\xa0{names[name]:,}" for name in sorted(names, key=lambda name: (name.lower(), name)))
    wrapped = textwrap.wrap(words, 80, initial_indent="  ", subsequent_indent="  ", break_long_words=False, break_on_hyphens=False)
    return [line.replace("\xa0", " ") for line in wrapped]


def notes(source: Input, text: Text, copies: bool) -> List[str]:
    """What was read of a text."""
    names = text.names()
    lines = [f"{source.label}: {all_and_different(text.days, 'day')}; {counted(len(names), 'name')}:", *name_lines(names)]
    if text.blank_lines:
        passed = counted(text.blank_lines, "blank line")
        lines.append(f"{source.label}: {passed} passed over (a single - is the empty day)")
    if not copies and len(text.days) > BOOK_ROWS:
        lines.append(f"{source.label}: over {BOOK_ROWS} days: each different one is taken once, which gives the same model")
    return lines


def put_lines(lines: Iterable[str]) -> None:
    put("".join(line + "\n" for line in lines).encode("utf-8", "backslashreplace"))


def text_and_book(source: Input, asked: Asked, copies: bool) -> Tuple[Text, Book]:
    """The text and its book, with notes on it; BadText if it has none."""
    text = read_text(source.data)
    book = text.book(copies, asked.counts)
    if not asked.quiet:
        for line in notes(source, text, copies):
            say(line)
    return text, book


def wrong_kind(source: Input, wanted: str) -> Failure:
    """Fields that no row or state follows get their refusal, which says more."""
    if source.kind is Kind.FIELDS:
        try:
            judged_table(source.data)
        except Refused as problem:
            return source.refused(problem)
    return Failure(f"{source.label}: this is {source.kind.value}; {wanted} is wanted")


def book_of(source: Input, asked: Asked, copies: bool = False, wanted: str = "a text or a book") -> Book:
    if source.kind not in (Kind.TEXT, Kind.BOOK):
        raise wrong_kind(source, wanted)
    try:
        book = text_and_book(source, asked, copies)[1] if source.kind is Kind.TEXT else judged_book(source.data)
    except BadText as problem:
        raise Failure(*source.faulty_lines(problem)) from None
    except Refused as problem:
        raise source.refused(problem) from None
    return book if asked.named_class is None else Book(book.names, asked.named_class, book.rows)


def counted_book(source: Input, asked: Asked) -> Tuple[Book, Counted, Table, Sequence[StateCounts]]:
    """The book of a text or a book, with every copy of a day; what the build told; the table and its counts."""
    book = book_of(source, asked, copies=True)
    built = build_counted(book)
    table = read_table(built.table)
    return book, built, table, read_counts(built.counts, table)


def model_of(path: str, asked: Asked) -> Model:
    """The model of a text, a book or a table."""
    source = read_input(path)
    try:
        if source.kind is Kind.TABLE:
            if asked.named_class is not None:
                raise Failure(f"{source.label}: this is a table, which has its class; --class is for texts and books")
            table = judged_table(source.data)
            return Model(source, rewrite(source.data).table, table, None, None)
        if asked.counts:
            book, built, table, counts = counted_book(source, asked)
            return Model(source, built.table, table, book, built, counts)
        book = book_of(source, asked, wanted="a text, a book or a table")
        built = build(book)
        return Model(source, built.table, read_table(built.table), book, built)
    except Refused as problem:
        raise source.refused(problem) from None


def listing(asked: Asked) -> int:
    model = model_of(asked.words[0], asked)
    text = list_table(model.data) if model.book is None else list_book(model.book)
    write_output(asked.out, text.encode("ascii"), [model.source], binary=False)
    return YES


def day_lines(rows: Sequence[Row]) -> List[str]:
    """Each different day with how often it is there, the most frequent first; those equally often in the order of their names."""
    days = sorted(Counter(rows).items(), key=lambda item: (-item[1], item[0]))
    return [f"{count} {' '.join(day) or EMPTY_DAY}" for day, count in days]


def count_lines(table: Table, counts: Sequence[StateCounts]) -> List[str]:
    """Each state with how many days end there, and each of its arcs with how often the days pass it."""
    lines = []
    for number, (state, used) in enumerate(zip(table.states, counts)):
        arcs = [f"{name}>{target} passes {count}" for (name, target), (_, count) in zip(state.arcs, used.passes)]
        lines.append(" ".join([str(number), "+" if state.accepting else "-", f"ends {used.ends}", *arcs]))
    return lines


def counting(asked: Asked) -> int:
    source = read_input(asked.words[0])
    try:
        book, built, table, counts = counted_book(source, asked)
    except Refused as problem:
        raise source.refused(problem) from None
    lines = [f"days {len(book.rows)} distinct {built.distinct}", *day_lines(book.rows),
             f"states {built.states} joins {built.joins}", *count_lines(table, counts)]
    write_output(asked.out, "".join(line + "\n" for line in lines).encode("ascii"), [source], binary=False)
    return YES


def written(asked: Asked, sources: Sequence[Input], outputs: Sequence[Tuple[Optional[str], bytes, str]]) -> int:
    """Each output written, and of each that is a file what there is to say."""
    write_outputs([(path, data) for path, data, _ in outputs], sources)
    for path, _, what in outputs:
        if path not in (None, STANDARD) and not asked.quiet:
            say(f"{label_of(path, '')}: {what}")
    return YES


def building(asked: Asked) -> int:
    if asked.counts and one_place(asked.out, asked.counts_out):
        place = label_of(STANDARD if asked.out is None else asked.out, "standard output")
        raise usage("build", f"the table and its counts cannot both go to {place}")
    source = read_input(asked.words[0])
    try:
        book = book_of(source, asked, copies=asked.counts)
        built = build_counted(book) if asked.counts else build(book)
    except Refused as problem:
        raise source.refused(problem) from None
    told = [counted(built.states, "state"), counted(built.joins, "join"), different(built.distinct, len(book.rows), "row"),
            counted(len(built.table), "byte")]
    outputs = [(asked.out, built.table, ", ".join(told))]
    if isinstance(built, Counted):
        outputs.append((asked.counts_out, built.counts, counted(len(built.counts), "byte")))
    return written(asked, [source], outputs)


def day_of(words: Sequence[str]) -> Row:
    """The names on a command line; a single '-' is the empty day."""
    day = () if list(words) == ["-"] else tuple(words)
    for word in day:
        if any(letter.isspace() for letter in word):
            raise Failure(f"plans: {name_problem(word)}, or give each name by itself")
        parting = next((letter for letter in word if letter in ",;"), None)
        if parting:
            raise Failure(f"plans: {shown(word)} holds {shown(parting)}, and no name may: give each name by itself")
    if len(day) > ROW_LIMIT:
        raise Failure(f"plans: a day of {len(day)} names: a walk takes at most {ROW_LIMIT}, though the model may allow longer days")
    return day


def why_not(stop: str, result: Walked, table: Table) -> str:
    """Why this name stops the walk, in brackets, where it is not that the state reached has no arc by it."""
    if stop not in table.names:
        near = nearest(stop, table.names)
        return f" (the model has no such name{f'; did you mean {near}?' if near else ''})"
    target = table.state_after((*result.walked, stop))
    return "" if target is None else f" (it leads to state {target}, which leads to no end)"


def answer(day: Row, result: Walked, table: Table) -> str:
    if result.outcome is Outcome.ADMITTED:
        return "allowed"
    if result.outcome is Outcome.ON_THE_WAY:
        return "on the way: a day may not end here" if day else "on the way: a day may not be empty"
    if 0 in table.dead_states:
        return "not allowed: the model allows no day"
    stop = day[len(result.walked)]
    word = stop if stop in table.names else shown(stop)
    if result.walked:
        said = f"not allowed: it goes as far as {' '.join(result.walked)}; then {word} may not come"
    else:
        said = f"not allowed: a day may not begin with {word}"
    return said + why_not(stop, result, table)


def walking(asked: Asked) -> int:
    day = day_of(asked.words[1:])
    model = model_of(asked.words[0], asked)
    result = walk(model.data, day)
    following = ", ".join(result.next_names) or "nothing"
    put_lines([answer(day, result, model.table), f"next: {following}"])
    return YES if result.outcome is Outcome.ADMITTED else NO


def ends_missing(table: Table) -> List[str]:
    """What a table's programmer should know, though it is legal: that it allows no day, or which of its states lead to no end."""
    dead = table.dead_states
    if 0 in dead:
        return ["it allows no day: none of its states accepts"]
    words = "states {} lead to no end" if dead[1:] else "state {} leads to no end"
    return [words.format(enumerated(dead))] if dead else []


def accepted_fields(source: Input) -> List[str]:
    """What accepted fields are, and what else is to be said of them; Refused if they are not."""
    if source.kind is Kind.BOOK:
        book = judged_book(source.data)
        return [f"accepted: a book of {counted(len(book.names), 'name')}, {all_and_different(book.rows, 'row')}"]
    table = judged_table(source.data)
    parts = [counted(len(table.names), "name"), str(table.named_class), counted(len(table.states), "state")]
    return [f"accepted: a table of {', '.join(parts)}", *ends_missing(table)]


def judged(source: Input, asked: Asked) -> Tuple[bool, List[str]]:
    """Whether a file is accepted, and the lines that say so."""
    try:
        if source.kind is Kind.TEXT:
            text, book = text_and_book(source, asked, copies=False)
            counts = f"{all_and_different(text.days, 'day')}, {counted(len(book.names), 'name')}"
            return True, [f"{source.label}: accepted: a text of {counts}"]
        return True, [f"{source.label}: {said}" for said in accepted_fields(source)]
    except BadText as problem:
        return False, source.faulty_lines(problem)
    except Refused as problem:
        known = source.kind in (Kind.TEXT, Kind.BOOK, Kind.TABLE, Kind.FIELDS)
        what = "" if known else f" (this is {source.kind.value})"
        return False, [f"{source.label}: refused: {problem}{what}"]


def checking(asked: Asked) -> int:
    """A file that cannot be read is told of, and the others are judged all the same."""
    status = YES
    for path in asked.words:
        try:
            accepted, lines = judged(read_input(path), asked)
        except Failure as problem:
            problem.say()
            status = ERROR
            continue
        put_lines(lines)
        status = max(status, YES if accepted else NO)
    return status


def difference_lines(ours: Model, theirs: Model, found: Difference) -> List[str]:
    one, two = ours.source.label, theirs.source.label
    lines = [f"names: only in {label}: {', '.join(names)}"
             for label, names in ((one, found.only_first), (two, found.only_second)) if names]
    if ours.table.named_class != theirs.table.named_class:
        lines.append(f"class: {ours.table.named_class} in {one}, {theirs.table.named_class} in {two}")
    if len(ours.table.states) != len(theirs.table.states):
        lines.append(f"states: {len(ours.table.states)} in {one}, {len(theirs.table.states)} in {two}")
    elif ours.table.states != theirs.table.states:
        lines.append(f"states: {len(ours.table.states)} in both, but they are not the same")
    if found.day is None:
        return lines + ["days: both allow the same"]
    day = " ".join(found.day) or "the empty day"
    if len(found.day) > ROW_LIMIT:
        lines.append(f"days: of up to {ROW_LIMIT} names both allow the same; one of {len(found.day)} names parts them")
    allows, refuses = (one, two) if found.first_allows else (two, one)
    return lines + [f"days: {day} is allowed by {allows}, not by {refuses}"]


def differing(asked: Asked) -> int:
    ours, theirs = (model_of(path, asked) for path in asked.words)
    if ours.data == theirs.data:
        put(b"same\n")
        return YES
    lines = difference_lines(ours, theirs, compare(ours.table, theirs.table))
    put_lines(lines)
    return NO


def to_text(asked: Asked) -> int:
    source = read_input(asked.words[0])
    if source.kind is Kind.TEXT:
        raise wrong_kind(source, "a book")
    data = write_text(book_of(source, asked, wanted="a book")).encode("ascii")
    write_output(asked.out, data, [source], binary=False)
    return YES


def to_book(asked: Asked) -> int:
    source = read_input(asked.words[0])
    if source.kind is Kind.BOOK:
        raise wrong_kind(source, "a text")
    data = write_book(book_of(source, asked, copies=True, wanted="a text"))
    return written(asked, [source], [(asked.out, data, counted(len(data), "byte"))])


def picturing(asked: Asked) -> int:
    try:
        form = drawings.form_of(asked.out)
        model = model_of(asked.words[0], asked)
        option = "--tree" if asked.tree else "--counts" if asked.counts else None
        if option and model.book is None:
            raise Failure(f"{model.source.label}: this is a table, which has no days; {option} is for texts and books")
        text = drawings.drawing(model.table, model.built, model.book if asked.tree else None, model.counts)
        write_output(asked.out, drawings.rendered(text, form), [model.source])
    except drawings.NotDrawn as problem:
        raise Failure(f"plans picture: {problem}") from None
    return YES


def read_plans(asked: Asked) -> Tuple[List[Plan], bool]:
    """The plans that can be read, and whether all can; those that cannot are told of."""
    plans = []
    for path in asked.words:
        try:
            plans.append(read_plan(path, asked.element))
        except Failure as problem:
            problem.say()
    return plans, len(plans) == len(asked.words)


def rows_told(plan: Plan, rows: Optional[Sequence[Row]], element: str) -> str:
    """What is said of a plan that is not refused: how many rows it gave; or how many names it has, where these are too many for a list."""
    if rows is None:
        return f"{plan.source.label}: {counted(len(plan.children | {element}), 'name')}"
    none = "" if rows else f": it has {missing([plan], element)}"
    return f"{plan.source.label}: {counted(len(rows), 'row')}{none}"


def read_all_rows(plans: Sequence[Plan], names: Optional[Names], asked: Asked) -> Tuple[List[Sequence[Row]], bool]:
    """The rows of each plan, and whether none is refused; each is told of. Without a list of names each is read by its own."""
    rows: List[Sequence[Row]] = []
    for plan in plans:
        try:
            own = rows_alone(plan, asked.element) if names is None else rows_of(plan, names, asked.element)
            if not asked.quiet:
                say(rows_told(plan, own, asked.element))
            rows.append(own or ())
        except Failure as problem:
            problem.say()
    return rows, len(rows) == len(plans)


def names_of(plans: Sequence[Plan], asked: Asked) -> Names:
    """The list of names, from the file that is given or of all plans; where these have too many, each is told of first."""
    if asked.names is not None:
        return names_in(asked.names, asked.element)
    try:
        return collected(plans, asked.element)
    except Failure:
        read_all_rows(plans, None, asked)
        raise


def row_notes(plans: Sequence[Plan], book: Book) -> List[str]:
    """What was read of plans."""
    front = f"{counted(len(plans), 'plan')}: {all_and_different(book.rows, 'row')}; {counted(len(book.names), 'name')}:"
    counts = Counter(name for row in book.rows for name in row)
    return [front, *name_lines({name: counts[name] for name in book.names})]


def rows_to_book(asked: Asked) -> int:
    """Every plan is read, and all that is wrong is told, before a book is written."""
    problem = "--element needs a name" if asked.element[:1] in ("", "-") else name_problem(asked.element)
    if problem:
        raise usage("rows", problem)
    plans, all_read = read_plans(asked)
    names = names_of(plans, asked)
    rows, none_refused = read_all_rows(plans, names, asked)
    if not all_read or not none_refused:
        say(NO_BOOK)
        return ERROR
    book = Book(names.names, asked.named_class, tuple(row for own in rows for row in own))
    if not book.rows:
        say(f"plans rows: {missing(plans, asked.element)} in {counted(len(plans), 'plan')}: there is no row, and no book is written")
        return NO
    judge_book(plans, rows, book)
    data = write_book(book)
    if not asked.quiet:
        for line in row_notes(plans, book):
            say(line)
    inputs = [plan.source for plan in plans] + ([names.source] if names.source else [])
    return written(asked, inputs, [(asked.out, data, counted(len(data), "byte"))])


class Subcommand(NamedTuple):
    """What does it, which options it has besides -q, and how many files it takes; walk takes one, and names."""
    run: Callable[[Asked], int]
    options: Tuple[str, ...]
    files: str


SUBCOMMANDS: Dict[str, Subcommand] = {
    "list": Subcommand(listing, ("--class", "-o"), "one file"),
    "counts": Subcommand(counting, ("--class", "-o"), "one file"),
    "build": Subcommand(building, ("--counts", "--class", "-o"), "one file"),
    "walk": Subcommand(walking, ("--class",), "a file and names"),
    "check": Subcommand(checking, (), "one file or more"),
    "diff": Subcommand(differing, (), "two files"),
    "text": Subcommand(to_text, ("-o",), "one file"),
    "book": Subcommand(to_book, ("--class", "-o"), "one file"),
    "picture": Subcommand(picturing, ("--tree", "--counts", "--class", "-o"), "one file"),
    "rows": Subcommand(rows_to_book, ("--element", "--names", "--class", "-o"), "one file or more"),
}


def usage(name: str, reason: str) -> Failure:
    return Failure(f"plans {name}: {reason} ('plans {name} --help' shows how)")


def judge_words(name: str, words: Sequence[str], names: Optional[str]) -> None:
    files = SUBCOMMANDS[name].files
    enough = {"one file": len(words) == 1, "two files": len(words) == 2}.get(files, len(words) > 0)
    if not enough:
        raise usage(name, f"{files} must be given, not {len(words)}")
    if files in ("two files", "one file or more") and [*words, names].count("-") > 1:
        raise usage(name, "standard input can be read once")


def parsed(name: str, words: Sequence[str]) -> Optional[Asked]:
    """What is asked; None where help is."""
    try:
        counts = "counts=" if name == "build" else "counts"  # build's have a file; picture's are drawn
        given, rest = getopt.gnu_getopt(list(words), "o:qh", ["class=", "tree", counts, "element=", "names=", "help"])
        options = dict(given)
        if "-h" in options or "--help" in options:
            return None
        strange = [option for option in options if option not in ("-q", *SUBCOMMANDS[name].options)]
        if strange:
            raise usage(name, f"there is no option {strange[0]} here")
        judge_words(name, rest, options.get("--names"))
        named_class = read_class(options["--class"]) if "--class" in options else None
        if name == "rows" and "--element" not in options:
            raise usage(name, "say which element's children are the rows, as --element day")
    except BadClass as problem:
        raise usage(name, str(problem)) from None
    except getopt.GetoptError as problem:
        raise usage(name, plain(cut(str(problem), 120))) from None
    return Asked(tuple(rest), options.get("-o"), named_class, "-q" in options, "--tree" in options,
                 name == "counts" or "--counts" in options, options.get("--counts"), options.get("--element", ""),
                 options.get("--names"))


def run(words: Sequence[str]) -> int:
    """The sub-command that the words name."""
    names = ", ".join(SUBCOMMANDS)
    if not words:
        raise Failure(f"plans: say what to do: {names} ('plans --help' shows how)")
    name, *rest = words
    if name not in SUBCOMMANDS:
        near = nearest(name, SUBCOMMANDS)
        meant = f"; did you mean {near}?" if near else ";"
        raise Failure(f"plans: there is no sub-command {shown(name)}{meant} there are {names}")
    asked = parsed(name, rest)
    if asked is None:
        put(helps.SUBCOMMANDS[name].encode("ascii"))
        return YES
    return SUBCOMMANDS[name].run(asked)
