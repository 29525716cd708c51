"""Books as text, one day a line: read as people and spreadsheets write it, and written. The format is in docs/FORMATS.md."""
import re
import unicodedata
from collections import Counter
from dataclasses import dataclass
from typing import Dict, FrozenSet, Iterable, List, Optional, Set, Tuple, Union

from .fields import (BOOK_ROWS, CONTEXT, LAST, NAME_BYTES, NAME_LIMIT, NAME_SHAPE, ROW_LIMIT, SEEN, SETTING_LIMIT, STATE_LIMIT,
                     Book, Class, Row)
from .showing import counted, shown, suggested

EMPTY_DAY = "-"
LINE_ENDS = re.compile("\r\n|\r|\n")
FAULT_LIMIT = 1000
MARKS = re.compile('["#,;\t]')
# in a line: a quoted cell, in which "" stands for a quote, a comment, what parts cells, blanks, and anything else
TOKENS = re.compile(r'(?P<quoted>(?:"[^"]*")+)|(?P<comment>#.*)|(?P<parting>[,;\t]+)|(?P<blank> +)|(?P<word>"|[^",;\t #]+)')
# two expressions: one for both would try every part of a long front
FRONT = re.compile(r'[\s",;]*')
SETTING = re.compile(r'([^\s",;=#]*)[\s",;]*=([^#]*)')
SMALLER = "take a smaller element, such as a meal in place of a day"
BYTE_ORDER_MARK = "\ufeff"
NO_BREAK = "\u00a0\u202f"
UTF_16 = {b"\xff\xfe": "utf-16-le", b"\xfe\xff": "utf-16-be"}


@dataclass(frozen=True)
class Problem:
    """What is wrong in a line (counted from 1)."""
    line: int
    reason: str


class BadText(Exception):
    """A text that describes no book: every problem, in the order of the lines."""

    def __init__(self, problems: Iterable[Problem]):
        self.problems = tuple(sorted(problems, key=lambda problem: problem.line))
        super().__init__("; ".join(f"line {problem.line}: {problem.reason}" for problem in self.problems))

    def __reduce__(self) -> Tuple:
        return BadText, (self.problems,)


class BadClass(ValueError):
    """Words that are no class."""


def _setting(word: str, what: str, least: int, most: int) -> int:
    if not re.fullmatch("[0-9]{1,4}", word) or not least <= int(word) <= most:
        raise BadClass(f"{what} is {shown(word)}: it must be a number from {least} to {most}")
    return int(word)


def read_class(text: str) -> Class:
    """The class that `k h`, `seen` or `last j` names; BadClass if it names none."""
    words = text.split()
    if words == ["seen"]:
        return Class(SEEN)
    if len(words) == 2 and words[0] == "last":
        return Class(LAST, _setting(words[1], "j", 0, SETTING_LIMIT))
    if len(words) == 2 and words[0].isdigit():
        k = _setting(words[0], "k", 1, SETTING_LIMIT)
        return Class(CONTEXT, k, _setting(words[1], "h", 1, k))
    raise BadClass(f"the class is {shown(' '.join(words))}: it must be 'k h' (two numbers), 'seen' or 'last j'")


def write_class(named_class: Class) -> str:
    """The class as a text names it, such as `2 1`."""
    if named_class.kind == CONTEXT:
        return f"{named_class.one} {named_class.two}"
    return "seen" if named_class.kind == SEEN else f"last {named_class.one}"


def _space(letter: str) -> str:
    """What a space is called."""
    if letter == " ":
        return "a space"
    return f"a {'no-break ' if letter in NO_BREAK else ''}space (U+{ord(letter):04X})"


def name_problem(name: str, in_cell: bool = False) -> Optional[str]:
    """Why the word is no name, with a suggestion, or None; of a text's cell, that it may have been cut by a line break."""
    if NAME_SHAPE.fullmatch(name) and len(name) <= NAME_BYTES:
        return None
    allowed = len(NAME_SHAPE.match("a" + name)[0]) - 1
    wrong = name[allowed:allowed + 1]
    if wrong and unicodedata.category(wrong) == "Zs":
        reason = f"holds {_space(wrong)}, and no name may"
    elif wrong:
        reason = f"holds {shown(wrong)}, which the format does not allow yet: ASCII letters, digits, _ : . and - are"
        reason += " (a cell may not hold a line break)" if in_cell and name.count('"') % 2 else ""
    elif len(name) > NAME_BYTES:
        reason = f"has {len(name)} letters: at most {NAME_BYTES} are allowed"
    else:
        reason = "must begin with an ASCII letter, _ or :"
    instead = suggested(name[:4 * NAME_BYTES])
    return f"the name {shown(name)} {reason}" + (f"; write {instead}" if instead and instead != name else "")


def _unquoted(cell: str) -> str:
    cell = cell.strip(" ")
    if len(cell) > 1 and cell[0] == cell[-1] == '"':
        return cell[1:-1].replace('""', '"')
    return cell


def _uncommented(line: str) -> Tuple[str, bool]:
    """The line without a comment and the blanks before that, and whether there was one."""
    comments = (found.start() for found in TOKENS.finditer(line) if found.lastgroup == "comment")
    start = next(comments, None) if "#" in line else None
    return (line, False) if start is None else (line[:start].rstrip(" \t"), True)


def cells_of(line: str) -> Tuple[List[str], bool]:
    """The cells that hold something, and whether the line holds a comment. Commas, semicolons and tabs part cells where the line
    has any; else blanks do."""
    if not MARKS.search(line):
        return [cell for cell in line.split(" ") if cell], False
    line, comment = _uncommented(line)
    parts = "parting" if any(found.lastgroup == "parting" for found in TOKENS.finditer(line)) else "blank"
    cells, start = [], 0
    for found in TOKENS.finditer(line):
        if found.lastgroup == parts:
            cells.append(_unquoted(line[start:found.start()]))
            start = found.end()
    cells.append(_unquoted(line[start:]))
    return [cell for cell in cells if cell], comment


@dataclass(frozen=True)
class Text:
    """What a text says: the class if it names one, the names that it declares, its days, the line of each, and how many lines were
    blank."""
    named_class: Optional[Class]
    declared: FrozenSet[str]
    days: Tuple[Row, ...]
    lines: Tuple[int, ...]
    blank_lines: int

    def names(self) -> Dict[str, int]:
        """Each name with how often it stands in a day."""
        counts = Counter(name for day in self.days for name in day)
        return {**dict.fromkeys(self.declared, 0), **counts}

    def book(self, copies: bool = True, for_counts: bool = False) -> Book:
        """The book; BadText over the limits. Without copies each day is taken once where more than 256 are typed. Of a book for its
        counts, which has every copy, it is not said that copies can be left out."""
        once = not copies and not for_counts and len(self.days) > BOOK_ROWS
        problems = limit_problems(self, once, for_counts)
        if problems:
            raise BadText(problems)
        days = tuple(dict.fromkeys(self.days)) if once else self.days
        return Book(tuple(sorted(self.names())), self.named_class, days)


def _too_many_days(text: Text, first: Dict[Row, int], once: bool, for_counts: bool) -> List[Problem]:
    lines = list(first.values()) if once else text.lines
    if len(lines) <= BOOK_ROWS:
        return []
    copies = ""
    if len(first) <= BOOK_ROWS:
        advice = ", but copies are counted: none may be left out" if for_counts else ": leave copies out"
        copies = f" (only {counted(len(first), 'different day')}{advice})"
    what = "different day" if once else "day"
    reason = f"a {BOOK_ROWS + 1}th {what}: at most {BOOK_ROWS} are allowed; give fewer days{copies}"
    return [Problem(lines[BOOK_ROWS], reason)]


def limit_problems(text: Text, once: bool, for_counts: bool) -> List[Problem]:
    """What breaks a limit of the whole book, each at the first line that does. `first` has the first line of each different day."""
    first: Dict[Row, int] = {}
    for day, line in zip(text.days, text.lines):
        first.setdefault(day, line)
    problems = _too_many_days(text, first, once, for_counts)
    names, beginnings = set(text.declared), {()}
    if len(names) > NAME_LIMIT:
        problems.append(Problem(1, f"{len(names)} names are declared: at most {NAME_LIMIT} are allowed; {SMALLER}"))
    for day, line in first.items():
        if len(names) <= NAME_LIMIT:
            names.update(day)
            if len(names) > NAME_LIMIT:
                problems.append(Problem(line, f"with this day there are over {NAME_LIMIT} different names; {SMALLER}"))
        if len(beginnings) <= STATE_LIMIT:
            beginnings.update(day[:end] for end in range(1, len(day) + 1))
            if len(beginnings) > STATE_LIMIT:
                problems.append(Problem(line, f"with this day the prefix tree needs over {STATE_LIMIT} states; "
                                              f"give fewer days, or {SMALLER}"))
    return problems


class _Enough(Exception):
    """So much is wrong that the rest is not read."""


class _Reader:
    """What the lines read so far hold, and what is wrong with them."""

    def __init__(self) -> None:
        self.named_class: Optional[Class] = None
        self.declared: Set[str] = set()
        self.days: List[Row] = []
        self.lines: List[int] = []
        self.blank_lines = 0
        self.problems: List[Problem] = []

    def line(self, number: int, line: str) -> None:
        setting = "=" in line and SETTING.match(line, FRONT.match(line).end())
        if setting:
            ends = '",; \t' if line.lstrip().startswith('"') else ",; \t"  # a cell may hold the whole line, and be quoted
            self.setting(number, setting[1], cells_of(setting[2].rstrip(ends))[0])
            return
        cells, comment = cells_of(line)
        if not cells:
            self.blank_lines += not comment
        elif cells == [EMPTY_DAY]:
            self.day(number, ())
        else:
            self.names(number, cells)
            self.day(number, tuple(cells))

    def wrong(self, number: int, reason: str) -> None:
        self.problems.append(Problem(number, reason))
        if len(self.problems) == FAULT_LIMIT:
            self.problems.append(Problem(number, f"{FAULT_LIMIT:,} faults are told; the rest of the text is not read"))
            raise _Enough

    def setting(self, number: int, what: str, cells: List[str]) -> None:
        if what.lower() == "sep" and number == 1:
            return  # a spreadsheet's word on what parts its cells
        if not what:
            self.wrong(number, "a line with =: only 'class =' and 'names =' can be set")
        elif what not in ("class", "names"):
            self.wrong(number, f"{shown(what)} cannot be set: only 'class =' and 'names =' can")
        elif self.days:
            self.wrong(number, f"'{what} =' must stand before the first day")
        elif what == "names":
            self.names(number, cells)
            self.declared.update(cells)
        elif self.named_class is not None:
            self.wrong(number, "a second 'class =': one is allowed")
        else:
            try:
                self.named_class = read_class(" ".join(cells))
            except BadClass as problem:
                self.wrong(number, str(problem))

    def day(self, number: int, names: Row) -> None:
        if len(names) > ROW_LIMIT:
            self.wrong(number, f"a day of {len(names)} names: at most {ROW_LIMIT} are allowed; {SMALLER}")
        self.days.append(names)
        self.lines.append(number)

    def names(self, number: int, names: List[str]) -> None:
        for name in dict.fromkeys(names):
            if name == EMPTY_DAY:
                self.wrong(number, f"{shown(name)} stands for the empty day, in a line of its own")
                continue
            problem = name_problem(name, in_cell=True)
            if problem:
                self.wrong(number, problem)

    def read(self, data: Union[str, bytes]) -> None:
        """All lines of the text, as far as it is read."""
        text = data if isinstance(data, str) else decoded(data)
        lines = LINE_ENDS.split(text.removeprefix(BYTE_ORDER_MARK))
        if not lines[-1]:
            lines.pop()
        try:
            for number, line in enumerate(lines, 1):
                self.line(number, line)
            self.end(len(lines))
        except _Enough:
            pass
        if self.problems:
            raise BadText(self.problems)

    def end(self, lines: int) -> None:
        """What a text of so many lines lacks."""
        if not self.days:
            self.wrong(max(1, lines), "the text ends without a day (a single - is the empty day)")
        elif not self.declared and not any(self.days):
            self.wrong(lines, "the text has no name: a book needs one, used or not ('names =' declares it)")


class _NamesReader(_Reader):
    """The names alone: those that lines declare and those of days, of any number and in any order; the class is passed over."""

    def setting(self, number: int, what: str, cells: List[str]) -> None:
        if what == "names":
            self.names(number, cells)
            self.declared.update(cells)
        elif what != "class":
            super().setting(number, what, cells)

    def day(self, number: int, names: Row) -> None:
        self.declared.update(names)

    def end(self, lines: int) -> None:
        """Nothing is lacking: whoever wants the names looks at them."""


def decoded(data: bytes) -> str:
    """The text; bytes that are not UTF-8 are kept, for messages that show them."""
    if data[:2] in UTF_16:
        return data.decode(UTF_16[data[:2]], "replace")
    return data.decode("utf-8", "surrogateescape")


def read_text(data: Union[str, bytes]) -> Text:
    """What the text says; BadText, with every faulty line (up to 1,000 faults), if it describes no book."""
    reader = _Reader()
    reader.read(data)
    return Text(reader.named_class, frozenset(reader.declared), tuple(reader.days), tuple(reader.lines), reader.blank_lines)


def names_in_text(data: bytes) -> FrozenSet[str]:
    """The names of a text of names or of days, in any number of lines; BadText as of read_text."""
    reader = _NamesReader()
    reader.read(data)
    return frozenset(reader.declared)


def write_text(book: Book) -> str:
    """The book as text that read_text makes the same book of."""
    lines = []
    if book.named_class is not None:
        lines.append("class = " + write_class(book.named_class))
    used = {name for row in book.rows for name in row}
    unused = [name for name in book.names if name not in used]
    if unused:
        lines.append("names = " + " ".join(unused))
    lines += [" ".join(row) or EMPTY_DAY for row in book.rows]
    return "".join(line + "\n" for line in lines)
