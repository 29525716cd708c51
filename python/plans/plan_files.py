"""Plans in XML as people write them: the names of an element's children, by a scan that judges nothing, and what stands at the place
where the library refuses a plan, in words. The format is in docs/FORMATS.md."""
import re
from collections import Counter
from dataclasses import dataclass
from itertools import islice
from typing import Iterator, List, NamedTuple, Optional, Tuple

from .fields import BOOK_ROWS, NAME_BYTES, ROW_LIMIT
from .showing import WORD_CUT, cut, plain, shown
from .texts import name_problem

DEPTH_LIMIT = 16
WHITE = b" \t\r\n"
# the text before a tag, and the tag's name; then the rest of the tag
FRONT = re.compile(rb"[^<&]*<(/?)([A-Za-z_:][A-Za-z_:0-9.-]*)(?=[ \t\r\n/>])")
REST = re.compile(rb"[ \t\r\n]*(/?)>")
LINE_ENDS = re.compile(rb"\r\n|\r|\n")
WORD = re.compile(rb"[^\s<>/=&]*")
ATTRIBUTE = re.compile(rb"([^\s<>/=&]+)[ \t\r\n]*=")
REFERENCE = re.compile(rb"&#?[A-Za-z0-9]+;")
# references to < and &, which no text has
LESS = re.compile(rb"&(?:lt|#0*60|#x0*3c);", re.IGNORECASE)
AND = re.compile(rb"&(?:amp|#0*38|#x0*26);", re.IGNORECASE)
NO_TEXT = re.compile("[\udc80-\udcff]")  # a byte that is not UTF-8
PICTURES = (b"\x89PNG", b"\xff\xd8\xff", b"GIF8")
# what stands after <, and what it is
SPECIAL = [(b"?xml", "a declaration, <?xml ..?>"), (b"?", "a processing instruction, <?..?>"), (b"!--", "a comment, <!--..-->"),
           (b"!DOCTYPE", "a document type, <!DOCTYPE ..>"), (b"![CDATA[", "a CDATA section, <![CDATA[..]]>"),
           (b"!", "a declaration, <!..>")]
TAKE_OUT = "a plan has none: take it out"
IN_WORDS = "a < in the text has to be written in words"


class Tag(NamedTuple):
    """A start tag or an empty-element tag: its name, where it begins, and which tag's element it stands in, by its number."""
    name: str
    at: int
    parent: Optional[int]


@dataclass(frozen=True)
class Scan:
    """The tags of a plan up to the first place that the scan does not understand, and the numbers of those that are open there."""
    tags: Tuple[Tag, ...]
    open: Tuple[int, ...]

    def children(self, element: str) -> Iterator[Tag]:
        """The children of the elements of this name."""
        return (tag for tag in self.tags if tag.parent is not None and self.tags[tag.parent].name == element)

    def too_long(self, element: str) -> Optional[int]:
        """Where the first element of this name begins that has too many children."""
        counts = Counter(tag.parent for tag in self.children(element))
        return min((self.tags[number].at for number, count in counts.items() if count > ROW_LIMIT), default=None)

    def too_many(self, element: str) -> Optional[int]:
        """Where the first element of this name begins that is one row too many."""
        return next(islice((tag.at for tag in self.tags if tag.name == element), BOOK_ROWS, None), None)


def scan(plan: bytes) -> Scan:
    """The plan's tags. The name of a tag that is not understood as a whole is taken too, as the library takes it."""
    tags: List[Tag] = []
    path: List[int] = []
    front = FRONT.match(plan, len(plan) - len(plan.lstrip(WHITE)))
    while front and len(front[2]) <= NAME_BYTES and (path or not tags and not front[0].partition(b"<")[0]):
        name = front[2].decode("ascii")
        if front[1] and (not path or tags[path[-1]].name != name):
            break
        if not front[1]:
            tags.append(Tag(name, front.start(2) - 1, path[-1] if path else None))
        rest = REST.match(plan, front.end())
        if not rest or front[1] and rest[1]:
            break
        if front[1]:
            path.pop()
        elif not rest[1]:
            path.append(len(tags) - 1)
        front = FRONT.match(plan, rest.end())
    return Scan(tuple(tags), tuple(path))


def _decoded(data: bytes) -> str:
    return data.decode("utf-8", "surrogateescape")


def place_of(plan: bytes, at: int) -> str:
    """A place as line and column, each counted from 1, the column in letters."""
    ends = [found.end() for found in LINE_ENDS.finditer(plan, 0, at)]
    return f"{len(ends) + 1}:{len(_decoded(plan[ends[-1] if ends else 0:at])) + 1}"


def _open_name(scanned: Scan) -> str:
    return scanned.tags[scanned.open[-1]].name


def _no_plan(plan: bytes) -> Optional[str]:
    """What the file is, where its first bytes say that it is something else."""
    if plan.startswith(b"PK\x03\x04"):
        return "this is an archive, such as a word processor's own file: save the plan as XML"
    if plan[:2] in (b"\xff\xfe", b"\xfe\xff") or plan[:2] in (b"<\0", b"\0<"):
        return "this is UTF-16, and a plan is not: save it as UTF-8 without a byte order mark"
    if plan.startswith(b"\xef\xbb\xbf"):
        return "a byte order mark stands before the plan: save it as UTF-8 without one"
    if plan.startswith(b"\1"):
        return "this is no plan, but fields, such as a book or a table, which the other sub-commands read"
    if plan.startswith(b"%PDF"):
        return "this is no plan, but a PDF: give the plan as XML"
    if plan.startswith(PICTURES):
        return "this is no plan, but a picture: give the plan as XML"
    return None


def _special(rest: bytes) -> Optional[str]:
    """A declaration, a comment or the like, by what stands after its <."""
    found = next((what for front, what in SPECIAL if rest.upper().startswith(front.upper())), None)
    if found and "CDATA" in found:
        return f"{found}, stands here, and a plan has none: write its text by itself, without < and &"
    return found and f"{found}, stands here, and {TAKE_OUT}"


def _at_end(plan: bytes, scanned: Scan) -> str:
    if not plan.strip(WHITE):
        return "the file is empty: a plan is one element" if not plan else "the file has only white space: a plan is one element"
    tail = plan[plan.rfind(b"<"):]
    if b"<" in plan and b">" not in tail:
        return f"the file ends inside the tag {shown(_decoded(tail))}: it was cut off, or the > is missing"
    if not scanned.open:
        return "the file ends here, and the plan does not: it was cut off, or an end tag is missing"
    opened = scanned.tags[scanned.open[-1]]
    line = place_of(plan, opened.at).split(":", maxsplit=1)[0]
    return f"the file ends while {opened.name}, opened in line {line}, is open: it was cut off, or </{opened.name}> is missing"


def _letter(plan: bytes, at: int) -> str:
    """What stands at a place, as a message shows it."""
    letter = _decoded(plan[at:at + 4])[:1]
    if plan[at] in WHITE:
        return "white space"
    return shown(letter) if letter.isprintable() else f"the byte {plan[at]:02X}"


def _outside(plan: bytes, at: int, scanned: Scan) -> str:
    """What stands before or after the outermost element."""
    if b"<" not in plan:
        return "this is no plan: it has no tag"
    if not scanned.tags or at < scanned.tags[0].at:
        if plan[at] < 32 or NO_TEXT.match(_decoded(plan[at:at + 4])):
            return f"this is no plan: it begins with {_letter(plan, at)}, and a plan with <"
        return f"{_letter(plan, at)} stands before the outermost element: only white space may"
    if plan[at:at + 1] != b"<":
        return f"{_letter(plan, at)} stands after the end of the outermost element: only white space may"
    special = _special(plan[at + 1:at + 20])
    if special:
        return special
    if plan[at + 1:at + 2] == b"/":
        return "an end tag stands after the end of the outermost element: take it out, or open its element"
    return "a second outermost element begins here, and a plan has one: put each into a file of its own, or one element around them"


def _reference(plan: bytes, at: int) -> str:
    found = REFERENCE.match(plan, at)
    if not found:
        return "an & stands in the text, and a plan's text has none: write it in words, such as 'and'"
    instead = "the letter itself"
    if LESS.fullmatch(found[0]):
        instead = "it in words, such as 'under'"
    elif AND.fullmatch(found[0]):
        instead = "it in words, such as 'and'"
    return f"the reference {cut(_decoded(found[0]), WORD_CUT)} stands here, and a plan's text has no &: write {instead}"


def _end_tag(plan: bytes, slash: int, scanned: Scan) -> str:
    if not scanned.open:
        return "an end tag stands where no element is open: a plan begins with a start tag"
    due = f"</{_open_name(scanned)}>"
    name = WORD.match(plan, slash + 1)[0]
    if not name and plan[slash + 1:slash + 2] in (b" ", b"\t", b"\r", b"\n"):
        return f"white space stands after </: the name comes right after it, {due}"
    if _decoded(name) == _open_name(scanned):
        return f"the end tag holds more than its name: write {due}"
    opened = place_of(plan, scanned.tags[scanned.open[-1]].at).split(":", maxsplit=1)[0]
    return f"the end tag of {shown(_decoded(name))} stands where {due} must: {_open_name(scanned)} was opened in line {opened}"


def _start_tag(plan: bytes, at: int, start: int, scanned: Scan) -> str:
    """What is wrong in a start tag: its name, an attribute, or how it ends."""
    word = WORD.match(plan, start + 1)
    name = _decoded(word[0])
    if at > word.end() and plan[at - 1:at] == b"/":
        return f"/ and > belong together: write <{plain(name)}/>"
    attribute = ATTRIBUTE.match(plan, at)
    if at > word.end() and attribute:
        what = plain(cut(_decoded(attribute[1]), WORD_CUT))
        return f"an attribute, {what}=, stands in the tag of {plain(name)}, and {TAKE_OUT}, or write it as text"
    if at >= word.end() or not word[0]:
        found = _letter(plan, at)
        return (f"{found} stands in the tag of {plain(name)}, which must end with > or />" if name
                else f"{found} stands after <, where a tag's name must begin: {IN_WORDS}")
    problem = name_problem(name) or f"{_letter(plan, at)} stands in the name {shown(name)}"
    return f"{problem}; {IN_WORDS}" if at == start + 1 and plan[at] < 128 and scanned.open else problem


def what_stands(plan: bytes, at: int) -> str:
    """What stands where refusal 14 is told, and what to do about it."""
    scanned = scan(plan)
    other = _no_plan(plan) if at <= 1 else None
    if other:
        return other
    if at >= len(plan):
        return _at_end(plan, scanned)
    start = plan.rfind(b"<", 0, at)
    if start >= 0 and b">" not in plan[start:at]:  # inside a tag
        special = _special(plan[at:at + 20]) if start + 1 == at else None
        if special:
            return special
        if plan[start + 1:start + 2] == b"/":
            return _end_tag(plan, start + 1, scanned)
        return _start_tag(plan, at, start, scanned)
    return _reference(plan, at) if scanned.open else _outside(plan, at, scanned)


def tag_at(plan: bytes, at: int) -> str:
    """The name of the tag that ends before this place: where 15 and 16 are told."""
    return _decoded(plan[plan.rfind(b"<", 0, at) + 1:at])

