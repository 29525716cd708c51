"""`python3 -m plans`: the command."""
import sys
from typing import Optional, Sequence

from . import __version__, helps
from .command import ERROR, run
from .files import Failure, put, say
from .library import LibraryMissing


def main(words: Optional[Sequence[str]] = None) -> int:
    """Runs the command and gives its exit status: 0 yes or done, 1 no, 2 an error."""
    words = sys.argv[1:] if words is None else words
    try:
        if words and words[0] in ("--help", "-h", "help"):
            if len(words) > 1:
                return run([words[1], "--help"])
            put(helps.MAIN.encode("ascii"))
            return 0
        if list(words) == ["--version"]:
            put(f"plans {__version__}\n".encode("ascii"))
            return 0
        return run(words)
    except Failure as problem:
        problem.say()
    except LibraryMissing as problem:
        say(f"plans: {problem}")
    except KeyboardInterrupt:
        say("plans: interrupted")
    return ERROR


if __name__ == "__main__":
    sys.exit(main())
