"""What people are shown: words that cannot disturb a terminal, and names that the format would allow."""
import difflib
import re
import unicodedata
from typing import Iterable, Optional, Sequence

from .fields import NAME_BYTES

WORD_CUT = 40
LETTERS = {"ä": "ae", "ö": "oe", "ü": "ue", "ß": "ss", "æ": "ae", "ø": "oe", "å": "aa", "œ": "oe", "ł": "l", "đ": "d", "þ": "th"}


def _escaped(letter: str) -> str:
    code = ord(letter)
    if 0xDC80 <= code <= 0xDCFF:  # a byte that is not UTF-8
        return f"\\x{code - 0xDC00:02x}"
    if unicodedata.category(letter) in ("Cc", "Cf", "Cs", "Co", "Cn", "Zl", "Zp"):
        return f"\\x{code:02x}" if code < 256 else f"\\u{code:04x}"
    return letter


def plain(text: str) -> str:
    """The text with control characters, and bytes that are no text, escaped."""
    return "".join(map(_escaped, text))


def cut(text: str, most: int) -> str:
    return text if len(text) <= most else text[:most] + "..."


def shown(word: str) -> str:
    """A word as a message shows it: quoted, escaped, cut where it is long."""
    return "'" + plain(cut(word, WORD_CUT)) + "'"


def counted(count: int, what: str) -> str:
    """A count with its noun: '1 join', '1,200 states'."""
    return f"{count:,} {what}" if count == 1 else f"{count:,} {what}s"


def enumerated(numbers: Sequence[int]) -> str:
    """Numbers in a sentence: '3', '3, 7 and 9'; of many the first ten, and how many more there are."""
    named = [str(number) for number in numbers] if len(numbers) <= 11 else [*map(str, numbers[:10]), f"{len(numbers) - 10:,} more"]
    return " and ".join([", ".join(named[:-1]), named[-1]] if named[1:] else named)


def different(count: int, given: int, what: str) -> str:
    """How many different ones there are, and how many of those given are copies, if any: '22 different days (18 are copies)'."""
    copies = given - count
    told = f" ({copies:,} {'is a copy' if copies == 1 else 'are copies'})" if copies else ""
    return counted(count, f"different {what}") + told


def all_and_different(given: Sequence, what: str) -> str:
    """How many there are, and how many of them are different: '40 days, 22 different days (18 are copies)'."""
    return f"{counted(len(given), what)}, {different(len(set(given)), len(given), what)}"


def suggested(word: str) -> Optional[str]:
    """A name that the format allows, much like the word; None if nothing of the word would be left."""
    word = "".join(bytes([ord(letter) - 0xDC00]).decode("cp1252", "ignore") if 0xDC80 <= ord(letter) <= 0xDCFF else letter
                   for letter in word)
    lower = unicodedata.normalize("NFC", word).lower()
    spelled = unicodedata.normalize("NFKD", "".join(LETTERS.get(letter, letter) for letter in lower))
    letters = "".join(letter for letter in spelled if not unicodedata.combining(letter))
    name = re.sub(r"[^a-z0-9_:.-]+", "_", letters).strip("_.-")
    if not re.search("[a-z0-9]", name):
        return None
    if not re.match("[a-z_:]", name):
        name = "_" + name
    return name[:NAME_BYTES].rstrip("_.-")


def nearest(word: str, names: Iterable[str]) -> Optional[str]:
    """The name that the word may have been meant for."""
    lower = {name.lower(): name for name in names}
    close = difflib.get_close_matches(cut(word, WORD_CUT).lower(), lower, 1)
    return lower[close[0]] if close else None
