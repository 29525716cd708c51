"""Files for the command: read no further than needed, told apart by their first bytes, and written whole or not at all."""
import contextlib
import enum
import itertools
import operator
import os
import re
import stat
import time
from dataclasses import dataclass
from typing import Iterator, List, Optional, Sequence, Tuple

from .fields import COUNT, INPUT_LIMIT, ROW, STATE, Refused, kind_of
from .showing import cut, plain
from .texts import UTF_16, BadText

TEXT_LIMIT = 4 * 1024 * 1024
NAME_CUT = 200
PLAN_FRONT = re.compile(rb"(?:\xef\xbb\xbf)?[ \t\r\n]*<")
STANDARD = "-"


class Kind(enum.Enum):
    TEXT = "a text"
    BOOK = "a book"
    TABLE = "a table"
    FIELDS = "neither a book nor a table: no row and no state follows its names"
    COUNTS = "a counts file, which goes with its table"
    PLAN = "a plan, in XML ('plans rows' makes a book of plans)"
    EMPTY = "an empty file"
    NEITHER = "neither a text nor fields, which begin with the byte 01"
    ARCHIVE = "an archive, such as a spreadsheet's own file: save it as CSV or as text"


class Failure(Exception):
    """An error: its lines, for standard error."""

    def __init__(self, *lines: str):
        super().__init__("\n".join(lines))
        self.lines = lines

    def say(self) -> None:
        for line in self.lines:
            say(line)


@dataclass(frozen=True)
class Input:
    """A file that was read: what it was called, its bytes as far as they were wanted, and what they are."""
    path: str
    data: bytes
    kind: Kind

    @property
    def label(self) -> str:
        return label_of(self.path, "standard input")

    def refused(self, problem: Refused) -> Failure:
        return Failure(f"{self.label}: {problem}")

    def faulty_lines(self, problem: BadText) -> List[str]:
        return [f"{self.label}:{one.line}: {one.reason}" for one in problem.problems]


def label_of(path: str, standard: str) -> str:
    return standard if path == STANDARD else cut(plain(path), NAME_CUT) or "''"


def failed(label: str, problem: OSError) -> Failure:
    return Failure(f"plans: {label}: {problem.strerror or problem}")


def _read_to(file: int, most: int) -> bytes:
    """At most so many bytes, and fewer only at the end."""
    parts: List[bytes] = []
    while most:
        part = os.read(file, min(most, 1 << 20))
        if not part:
            break
        parts.append(part)
        most -= len(part)
    return b"".join(parts)


def _kind(data: bytes) -> Kind:
    if not data:
        return Kind.EMPTY
    if data[0] == 1:
        return {ROW: Kind.BOOK, STATE: Kind.TABLE}.get(kind_of(data), Kind.FIELDS)
    if data[0] == COUNT:
        return Kind.COUNTS
    if data.startswith(b"PK\x03\x04"):
        return Kind.ARCHIVE
    if b"\0" in data and data[:2] not in UTF_16:
        return Kind.NEITHER
    return Kind.PLAN if PLAN_FRONT.match(data) else Kind.TEXT


def read_input(path: str, texts: bool = True) -> Input:
    """The file, or standard input for '-'. Fields and plans are read to one byte over their limit, which is enough to refuse them; so
    is a text where none is wanted."""
    label = label_of(path, "standard input")
    file = 0
    try:
        file = 0 if path == STANDARD else os.open(path, os.O_RDONLY | os.O_CLOEXEC)
        data = _read_to(file, INPUT_LIMIT + 1)
        kind = _kind(data)
        if texts and kind is Kind.TEXT and len(data) > INPUT_LIMIT:
            data += _read_to(file, TEXT_LIMIT + 1 - len(data))
            kind = _kind(data)
    except OSError as problem:
        raise failed(label, problem) from None
    finally:
        if file > 0:
            os.close(file)
    if kind is Kind.TEXT and len(data) > TEXT_LIMIT:
        raise Failure(f"{label}: the text is over {TEXT_LIMIT:,} bytes; give fewer days")
    return Input(path, data, kind)


def _write_all(file: int, data: bytes) -> None:
    rest = memoryview(data)
    while rest:
        rest = rest[os.write(file, rest):]


def say(text: str) -> None:
    """A line on standard error; nothing can be done where that fails."""
    try:
        _write_all(2, (text + "\n").encode("utf-8", "backslashreplace"))
    except OSError:
        pass


def put(data: bytes) -> None:
    """To standard output. A reader that wants no more is no error to tell of."""
    try:
        _write_all(1, data)
    except BrokenPipeError:
        raise Failure() from None
    except OSError as problem:
        raise failed("standard output", problem) from None


def _refuse_input(path: str, inputs: Sequence[Input]) -> None:
    for given in inputs:
        try:
            same = given.path != STANDARD and os.path.samefile(path, given.path)
            same = same or given.path == STANDARD and os.path.samestat(os.stat(path), os.fstat(0))
        except OSError:
            same = False
        if same and stat.S_ISREG(os.stat(path).st_mode):
            raise Failure(f"plans: {label_of(path, '')}: this is also the input; give the output another name")


def _write_beside(path: str, data: bytes) -> str:
    """To a file beside it, which is to take its name: what it is called until then."""
    beside = os.path.join(os.path.dirname(path), f".plans-{os.getpid()}-{time.monotonic_ns()}")
    old = None
    if os.path.exists(path):
        os.close(os.open(path, os.O_WRONLY))  # a file that may not be written is not replaced either
        old = os.stat(path).st_mode
    file = os.open(beside, os.O_WRONLY | os.O_CREAT | os.O_EXCL, 0o666)
    try:
        try:
            _write_all(file, data)
            if old is not None:
                os.fchmod(file, stat.S_IMODE(old))
        finally:
            os.close(file)
    except BaseException:
        os.unlink(beside)
        raise
    return beside


def _to_standard(path: Optional[str]) -> bool:
    return path in (None, STANDARD)


def _replaced(path: Optional[str]) -> bool:
    """Whether a file takes the name; a device or a pipe cannot be replaced."""
    return not _to_standard(path) and (os.path.isfile(path) or not os.path.exists(path))


def one_place(one: Optional[str], two: Optional[str]) -> bool:
    """Whether two outputs would go to one file, or both to standard output."""
    if _to_standard(one) or _to_standard(two):
        return _to_standard(one) and _to_standard(two)
    return _replaced(one) and os.path.realpath(one) == os.path.realpath(two)


@contextlib.contextmanager
def _telling(path: str) -> Iterator[None]:
    """What fails is told of this file."""
    try:
        yield
    except OSError as problem:
        raise failed(label_of(path, ""), problem) from None


def _stream(path: Optional[str], data: bytes) -> None:
    if _to_standard(path):
        put(data)
        return
    with _telling(path), open(path, "wb", buffering=0) as file:
        _write_all(file.fileno(), data)


def write_outputs(outputs: Sequence[Tuple[Optional[str], bytes]], inputs: Sequence[Input], binary: bool = True) -> None:
    """Each to its file, or to standard output for '-' and for none. No file takes its name before all the bytes are written, so where
    one cannot be written the others are as they were."""
    for path, _ in outputs:
        if not _to_standard(path):
            _refuse_input(path, inputs)
        elif binary and os.isatty(1):
            raise Failure("plans: this is no text for a terminal; say where to write it, as -o FILE")
    files = [_replaced(path) for path, _ in outputs]
    waiting: List[Tuple[str, str, str]] = []  # the name that was given, the file's, and what it is called until then
    try:
        for path, data in itertools.compress(outputs, files):
            with _telling(path):
                real = os.path.realpath(path)
                waiting.append((path, real, _write_beside(real, data)))
        for path, data in itertools.compress(outputs, map(operator.not_, files)):
            _stream(path, data)
        while waiting:
            path, real, beside = waiting[0]
            with _telling(path):
                os.replace(beside, real)
            waiting.pop(0)
    except BaseException:
        for _, _, beside in waiting:
            with contextlib.suppress(OSError):
                os.unlink(beside)
        raise


def write_output(path: Optional[str], data: bytes, inputs: Sequence[Input], binary: bool = True) -> None:
    """To the file, or to standard output for '-' and for none."""
    write_outputs([(path, data)], inputs, binary)
