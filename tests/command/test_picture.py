"""Drawings: their text, and that docs/images are drawings of the examples that they stand for. Graphviz is not needed: drawings are
compared by their nodes and edges."""
import re
import unittest
import xml.etree.ElementTree
from pathlib import Path

import plans
from plans.drawings import drawing, fills, homes

ROOT = Path(__file__).resolve().parents[2]
IMAGES = ROOT / "docs" / "images"
SPACE = "{http://www.w3.org/2000/svg}"


def drawn(text: Path, with_tree: bool) -> str:
    book = plans.read_text(text.read_bytes()).book()
    built = plans.build(book)
    return drawing(plans.read_table(built.table), built, book if with_tree else None)


def svg_parts(path: Path) -> tuple:
    """By what Graphviz calls them: nodes with their texts, rings and fill, edges, and the labels of clusters and of the whole."""
    found = {"node": {}, "edge": {}, "cluster": {}, "graph": {}}
    for group in xml.etree.ElementTree.parse(path).iter(SPACE + "g"):
        if group.get("class") not in found:
            continue
        part = [text.text.strip() for text in group.findall(SPACE + "text")]
        rings = group.findall(SPACE + "ellipse")
        if rings:
            part += [len(rings), rings[0].get("fill")]
        found[group.get("class")][group.find(SPACE + "title").text] = part
    return found["node"], set(found["edge"]), found["cluster"], *found["graph"].values()


def dot_parts(text: str) -> tuple:
    """The same of a drawing's text."""
    nodes = {}
    for key, label, more in re.findall(r'^(\w+) \[label="([^"]*)"(.*)\]$', text, re.MULTILINE):
        fill = re.search('fillcolor="(.*)"', more)
        rings = [] if "shape=none" in more else [2 if "peripheries=2" in more else 1, fill[1] if fill else "white"]
        nodes[key] = [line for line in label.split("\\n") if line] + rings
    edges = {f"{source}->{target}" for source, target in re.findall(r"^(\w+) -> (\w+)", text, re.MULTILINE)}
    clusters = re.findall(r'^subgraph (\w+) {\nlabel="(.*)"$', text, re.MULTILINE)
    whole = re.findall(r'^label="(.*)"\nlabelloc', text, re.MULTILINE)
    return nodes, edges, {key: [label] for key, label in clusters}, whole


def boxes(path: Path) -> list:
    """The box that each text takes, in a font whose letters are half as wide as high, a little less than the whole."""
    found = []
    for text in xml.etree.ElementTree.parse(path).iter(SPACE + "text"):
        x, y, size = (float(text.get(key)) for key in ("x", "y", "font-size"))
        half = 0.23 * size * len(text.text)
        found.append((x - half, x + half, y - 0.6 * size, y))
    return found


def points(path: Path) -> list:
    """Points along every line: Graphviz draws cubic curves, each from the end of the one before."""
    found = []
    for line in xml.etree.ElementTree.parse(path).iter(SPACE + "path"):
        given = [complex(*map(float, pair.split(","))) for pair in re.findall(r"-?[\d.]+,-?[\d.]+", line.get("d"))]
        for start in range(0, len(given) - 3, 3):
            a, b, c, d = given[start:start + 4]
            for step in range(201):
                t = step / 200
                found.append((1 - t) ** 3 * a + 3 * (1 - t) ** 2 * t * b + 3 * (1 - t) * t * t * c + t ** 3 * d)
    return found


class Drawings(unittest.TestCase):
    def test_images_are_of_the_examples(self):
        texts = sorted((ROOT / "examples" / "classes").glob("*.txt"))
        self.assertEqual({path.stem for path in IMAGES.glob("*")}, {path.stem for path in texts} | {"crates", "course", "days"})
        for text in texts:
            self.assertEqual(svg_parts(IMAGES / (text.stem + ".svg")), dot_parts(drawn(text, True)), text)
        for name in ["course", "days"]:
            text = ROOT / "examples" / "books" / (name + ".txt")
            self.assertEqual(svg_parts(IMAGES / (name + ".svg")), dot_parts(drawn(text, False)), name)

    def test_no_line_goes_through_a_word(self):
        for path in IMAGES.glob("*.svg"):
            along = points(path)
            self.assertGreater(len(along), 100, path)
            for left, right, top, bottom in boxes(path):
                self.assertEqual([point for point in along if left < point.real < right and top < point.imag < bottom], [], path)

    def test_images_fit_a_page(self):
        """800 pixels are 600 points."""
        for path in IMAGES.glob("*.svg"):
            width = re.search(r'<svg width="(\d+)pt"', path.read_text())[1]
            self.assertLessEqual(int(width), 600, path)

    def test_tree_beside_table(self):
        nodes, edges, clusters, whole = dot_parts(drawn(ROOT / "examples" / "classes" / "last_1.txt", True))
        one, two = nodes["s2"], nodes["s3"]
        self.assertNotEqual(one[2], two[2])
        self.assertEqual((one[:2], two[:2]), (["2", 1], ["3", 2]))
        words = {key: part for key, part in nodes.items() if "_" in key}
        self.assertEqual(words, {"t0_t1": ["breakfast"], "t1_t2": ["snack"], "t2_t3": ["lunch"], "t0_t4": ["snack"], "t4_t5": ["lunch"],
                                 "s0_s1": ["breakfast"], "s0_s2": ["snack"], "s1_s2": ["snack"], "s2_s3": ["lunch"]})
        self.assertEqual({key: part for key, part in nodes.items() if "_" not in key},
                         {"root": [], "t0": ["0", 1, "white"], "t1": ["1", 1, "white"], "t2": one, "t3": two, "t4": one, "t5": two,
                          "start": [], "s0": ["0", 1, "white"], "s1": ["1", 1, "white"], "s2": one, "s3": two})
        halves = [[f"{key.split('_')[0]}->{key}", f"{key}->{key.split('_')[1]}"] for key in words]
        self.assertEqual(edges, {edge for both in halves for edge in both} | {"root->t0", "start->s0"})
        self.assertEqual(clusters, {"cluster_tree": ["prefix tree: 6 states"],
                                    "cluster_table": ["last 1: 4 states, 2 joins, 2 different rows"]})
        self.assertEqual(whole, [])

    def test_titles(self):
        for text, title in [("snack\n", "context (2,1): 2 states, 0 joins, 1 different row"),
                            ("class = seen\nsnack\nsnack snack\n", "seen set: 2 states, 1 join, 2 different rows"),
                            ("class = last 0\nsnack\n-\nsnack\n", "last 0: 1 state, 1 join, 2 different rows")]:
            built = plans.build(plans.read_text(text).book())
            self.assertIn(f'label="{title}"', drawing(plans.read_table(built.table), built, None))
        self.assertIn('label="last 0: 1 state"', drawing(plans.read_table(built.table), None, None))

    def test_as_many_colours_as_joined_groups(self):
        book = plans.read_text((ROOT / "examples" / "books" / "days.txt").read_bytes()).book()
        found = homes(book, plans.read_table(plans.build(book).table))
        colours = fills(found)
        joined = {home for home in found.values() if list(found.values()).count(home) > 1}
        self.assertEqual(set(colours), joined)
        self.assertEqual(len(set(colours.values())), len(joined))
        self.assertGreater(len(joined), 6)
