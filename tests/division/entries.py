"""What both checks share: where the library and the compiler's reading of it are, which entries build, and which may divide."""
import os
from pathlib import Path

ROOT = Path(__file__).resolve().parents[2]
LIBRARY = Path(os.environ["PLANS_LIB"]) / "libplans.a"

# What the compiler read in each crate of the library, and in the kit's library, which is written when that is built.
READ = ROOT / "target" / "staticlib" / "mir"

# Every entry of the library is held to it that nothing divides but by 256, also one that comes later, but for these, with what they
# divide by: a listing has decimal numbers, and a plan's names are found by halving a list. None of them is a build entry.
DIVIDING = {"plans_list": frozenset({"10"}), "plans_read_rows": frozenset({"2"})}

# The same holds of all that they reach of the kit's library, but for these, with what that divides by: a plan's names are compared whole,
# which the library does in groups of 8 and of 4, and by halves.
LIBRARY_DIVIDING = {"plans_read_rows": frozenset({"2", "4", "8"})}

# The entries that build.
BUILDS = ("plans_build", "plans_build_counted")
