"""Drawings in Graphviz's language: a table and, if wanted, the prefix tree of its book beside it. Each name stands in a node of its
own on its arrow: no line is drawn through a node."""
import colorsys
import os
import shutil
import subprocess
from collections import Counter
from typing import Dict, List, Mapping, Optional, Sequence, Tuple

from .fields import Book, State, StateCounts, Table, prefix_tree
from .models import Built
from .showing import counted, different

FORMS = ("svg", "png", "pdf", "dot")
ATTRIBUTES = [
    'graph [fontname="Helvetica", fontsize=12, nodesep=0.15, ranksep=0.2]',
    'node [fontname="Helvetica", fontsize=12, shape=circle, style=filled, fillcolor=white, fixedsize=true, width=0.36]',
    'edge [fontname="Helvetica", arrowsize=0.6]',
]
# a state that shows how many rows end there is larger
WITH_ENDS = "fontsize=10, width=0.7"
# of arrows that are as wide as they are used: the least width and the greatest, in points
THIN, THICK = 0.5, 6
# a state that leads to no end
GREY = "#cccccc"
WORDS = "shape=none, fontsize=11, style=solid, fixedsize=false, width=0, height=0, margin=0.03"


class NotDrawn(Exception):
    """Why there is no drawing."""


def form_of(out: Optional[str]) -> str:
    """The form that the output's ending names; standard output gets svg."""
    form = "svg" if out in (None, "-") else os.path.splitext(out)[1][1:].lower()
    if form not in FORMS:
        raise NotDrawn("the output's name must end in .svg, .png, .pdf or .dot")
    return form


def homes(book: Book, table: Table) -> Dict[tuple, int]:
    """For each state of the prefix tree the table's state that it was joined into: the one that its names lead to."""
    arcs = [dict(state.arcs) for state in table.states]
    found: Dict[tuple, int] = {}
    for word in prefix_tree(book.rows):
        found[word] = arcs[found[word[:-1]]][word[-1]] if word else 0
    return found


def fills(found: Dict[tuple, int]) -> Dict[int, str]:
    """A colour of its own for each state of the table that is home to more than one state of the prefix tree."""
    shared = sorted(home for home, count in Counter(found.values()).items() if count > 1)
    colours = {}
    for place, home in enumerate(shared):
        light = 0.86 if place % 2 == 0 or len(shared) < 8 else 0.74
        parts = colorsys.hls_to_rgb(0.58 + place / len(shared), light, 0.8)
        colours[home] = "#" + "".join(f"{round(255 * part):02x}" for part in parts)
    return colours


def node(key: str, label: int, accepting: bool, fill: Optional[str], ends: int = 0) -> str:
    attributes = [f'label="{label}\\nends {ends}", {WITH_ENDS}' if ends else f'label="{label}"']
    if accepting:
        attributes.append("peripheries=2")
    if fill:
        attributes.append(f'fillcolor="{fill}"')
    return f"{key} [{', '.join(attributes)}]"


def entry(key: str, target: str) -> List[str]:
    """The arrow that marks the start."""
    return [f'{key} [label="", shape=none, width=0, height=0]', f"{key} -> {target}"]


def arc(source: str, target: str, names: Sequence[str], width: str = "") -> List[str]:
    """An arrow with its names, one a line, half way; of a width, if one is given."""
    words = f"{source}_{target}"
    label = "\\n".join(names)
    front, back = (f" [dir=none, {width}]", f" [{width}]") if width else (" [dir=none]", "")
    return [f'{words} [label="{label}", {WORDS}]', f"{source} -> {words}{front}", f"{words} -> {target}{back}"]


def arrows_of(state: State) -> List[Tuple[int, List[str]]]:
    """Each target of a state's arcs, ascending, with the names that lead there: one arrow."""
    return [(target, [name for name, to in state.arcs if to == target]) for target in sorted({to for _, to in state.arcs})]


def together(names: Sequence[str], passes: Mapping[str, int]) -> int:
    """How often the arrow of these names is passed."""
    return sum(passes[name] for name in names)


def table_lines(table: Table, colours: Dict[int, str], counts: Optional[Sequence[StateCounts]]) -> List[str]:
    """The states and arrows. With counts, accepting states have their ends, names their passes, and arrows are as wide as their names
    together are used. States that lead to no end are grey."""
    colours = {**colours, **dict.fromkeys(table.dead_states, GREY)}
    arrows = [arrows_of(state) for state in table.states]
    passes = [dict(own.passes) for own in counts or ()]
    most = max((together(names, own) for leaving, own in zip(arrows, passes) for _, names in leaving), default=1)
    lines = entry("start", "s0")
    for number, state in enumerate(table.states):
        lines.append(node(f"s{number}", number, state.accepting, colours.get(number), counts[number].ends if counts else 0))
        for target, names in arrows[number]:
            labels, width = names, ""
            if counts:
                labels = [f"{name} {passes[number][name]}" for name in names]
                width = f"penwidth={THIN + (THICK - THIN) * together(names, passes[number]) / most:.2f}"
            lines += arc(f"s{number}", f"s{target}", labels, width)
    return lines


def tree_lines(book: Book, found: Dict[tuple, int], colours: Dict[int, str]) -> List[str]:
    numbers = prefix_tree(book.rows)
    ends = set(book.rows)
    lines = entry("root", "t0")
    for word in sorted(numbers):
        lines.append(node(f"t{numbers[word]}", found[word], word in ends, colours.get(found[word])))
        if word:
            lines += arc(f"t{numbers[word[:-1]]}", f"t{numbers[word]}", [word[-1]])
    return lines


def cluster(key: str, label: str, lines: List[str]) -> List[str]:
    return [f"subgraph cluster_{key} {{", f'label="{label}"', "pencolor=none", *lines, "}"]


def drawing(table: Table, built: Optional[Built], book: Optional[Book], counts: Optional[Sequence[StateCounts]] = None) -> str:
    """The drawing's text, with the numbers of the build, if the table was built. With a book its prefix tree stands beside the table,
    and both show which states were joined. With counts the table shows how often it is used, and the title how many rows are copies."""
    title = f"{table.named_class}: {counted(len(table.states), 'state')}"
    if built is not None:
        rows = sum(used.ends for used in counts) if counts else built.distinct
        title += f", {counted(built.joins, 'join')}, {different(built.distinct, rows, 'row')}"
    if book is None:
        parts = [f'label="{title}"', "labelloc=t", *table_lines(table, {}, counts)]
    else:
        found = homes(book, table)
        colours = fills(found)
        parts = cluster("tree", f"prefix tree: {counted(len(found), 'state')}", tree_lines(book, found, colours))
        parts += cluster("table", title, table_lines(table, colours, counts))
    return "\n".join(["digraph model {", *ATTRIBUTES, *parts, "}"]) + "\n"


def rendered(text: str, form: str) -> bytes:
    """The drawing in a form, by Graphviz's command dot; its own text needs no command."""
    if form == "dot":
        return text.encode("ascii")
    if shutil.which("dot") is None:
        raise NotDrawn("the command 'dot' is missing: it is in Debian's package graphviz")
    done = subprocess.run(["dot", f"-T{form}"], input=text.encode("ascii"), stdout=subprocess.PIPE, stderr=subprocess.DEVNULL,
                          check=False)
    if done.returncode != 0:
        raise NotDrawn(f"'dot' ended with status {done.returncode}")
    return done.stdout
