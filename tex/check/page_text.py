"""Reads what `pg run` writes, the page text, and the style that it was made with."""

import re
import tomllib
from collections import Counter

from listing import UNIT, Node, add_line, elastic, lines_of, units

BARRIER = ".\\special{pg:flush}"  # what pgtex tells pg; TeX has a mark there
AREAS = ("wide", "top", "text", "bottom", "notes")
AROUND = ("top", "bottom", "notes")  # whose gaps give
GAP = re.compile(r"\\glue\((sep|gap|skip)\) .*, set ([\d.]+)")


class Column:
    """A column of the page text: its areas, the gaps in them, and of one with text the goal and the total in units."""

    def __init__(self):
        self.areas, self.gaps = {}, {}
        self.goal = self.total = None
        self.is_left = False  # its glue and its gaps are natural, whatever is printed

    def has_text(self):
        return self.goal is not None

    def leave(self):
        """Leaves a text that is no longer than its goal as it is."""
        if self.has_text() and self.total <= self.goal:
            self.is_left = True
            for gap in sum(self.gaps.values(), []):
                gap.set = gap.size

    def own_height(self):
        """What the text has to fill: the goal less what the gaps around it take beyond their sizes."""
        return self.goal - sum(gap.set - gap.size for area in AROUND for gap in self.gaps.get(area, []))


class Gap:
    """A gap of an area: what kind it is, its size, what it is set to, and how many inserts of the area stand before it."""

    def __init__(self, kind, size, width, before):
        self.kind, self.size, self.set, self.before = kind, size, width, before

    def form(self):
        return self.kind, self.size, self.before

    def __str__(self):
        return f"{self.kind} {self.size / UNIT:.5f} set {self.set / UNIT:.5f} behind {self.before}"


def take_gaps(nodes):
    """Takes the gaps out of the lines of an area; what is left are its inserts."""
    gaps, inserts = [], []
    for node in nodes:
        found = GAP.fullmatch(node.line)
        if found:
            gaps.append(Gap(found[1], node.width, units(found[2]), len(inserts)))
        else:
            inserts.append(node)
    nodes[:] = inserts
    return gaps


class Page:
    def __init__(self, number, run):
        self.number, self.run = number, run
        self.wide, self.gaps, self.columns = [], [], []


class Item:
    """An item of a text: a node, the width of its glue on this page, and its place below the start of the text."""

    def __init__(self, node, start, is_natural, more=0):
        self.node = node
        line, comma, width = node.line.rpartition(", set ")
        is_set = comma and node.kind == "glue"
        self.line = line if is_set else node.line
        size = more + (units(width) if is_set and not is_natural else node.width)
        if node.is_box():
            self.base, self.end = start + node.height, start + node.height + node.depth
        else:
            self.base = self.end = start + (size if node.kind in ("glue", "kern") else 0)
        self.size = size


def read_parts(paths):
    """The pages of the page texts of all parts, numbered through."""
    pages = [page for path in paths for page in read_pages(path)]
    for number, page in enumerate(pages, 1):
        page.number = number
    return pages


def read_pages(path):
    """The pages of a page text; none where no pagination is legal."""
    pages, root = [], None
    for line in lines_of(path):
        words = line.split(" ")
        if line == BARRIER:
            continue
        if line.startswith("."):
            add_line(root, line)
        elif words[0] == "page":
            pages.append(Page(int(words[1]), int(words[5])))
        elif words[0] == "column":
            pages[-1].columns.append(Column())
        elif words[0] == "set":
            pages[-1].columns[-1].goal, pages[-1].columns[-1].total = units(words[2]), units(words[4])
        elif words[0] == "area":
            root = [Node("")]
            if words[1] == "wide":
                pages[-1].wide = root[0].items
            else:
                pages[-1].columns[-1].areas[words[1]] = root[0].items
        elif words[0] == "labels":
            break
    for page in pages:
        page.gaps = take_gaps(page.wide)
        for column in page.columns:
            column.gaps = {area: take_gaps(column.areas[area]) for area in AROUND if area in column.areas}
    return pages


def items_of(column):
    """The items of a column's text, each with its place: as its glue is set, or of its own width. A text that pg left short is
    stretched to its goal where it has glue for that without bound."""
    items, end, given, before = [], 0, 0, 0
    room, order, amount = (0, 0, 1) if column.is_left else left_to_fill(column)
    for node in column.areas["text"]:
        stretch = elastic(node)[0] if node.kind == "glue" and order else (0, 0)
        given += stretch[0] if stretch[1] == order else 0
        after = round(given * room / amount) if order else 0
        items.append(Item(node, end, column.is_left, after - before))
        end, before = items[-1].end, after
    return items


def left_to_fill(column):
    """How much a text is too short for its goal, the highest order of its glue without bound, and how much of that it has."""
    amounts = Counter()
    for node in column.areas["text"]:
        if node.kind == "glue":
            amount, order = elastic(node)[0]
            amounts[order] += amount
            if ", set " in node.line and units(node.line.rpartition(", set ")[2]) != node.width:
                return 0, 0, 1
    order = max((order for order, amount in amounts.items() if order and amount), default=0)
    return max(0, column.own_height() - column.total), order, amounts[order] or 1


class Style:
    """What of a style says where things stand, in units."""

    def __init__(self, path):
        with open(path, "rb") as file:
            table = tomllib.load(file)
        self.version, self.columns = table["version"], table["columns"]
        self.height, self.topskip, self.maxdepth = (units(table[key]) for key in ("height", "topskip", "maxdepth"))
        self.extras = [units(run["extra"]) for run in table["runs"]]
        self.is_ragged = "ragged" in table
        self.seps = {area: size_of(table[area]["sep"]) for area in ("top", "bottom", "wide")}
        self.gaps = {area: size_of(table[area]["gap"]) for area in ("top", "bottom", "wide")}
        self.skips = {entry["number"]: size_of(entry["skip"]) for entry in table.get("classes", []) if entry["kind"] == "note"}

    def gaps_of(self, area, inserts):
        """The gaps that an area has with these inserts, as a page text of version 3 shows them."""
        if area == "notes":
            classes = [insert_class(node) for node in inserts]
            return [Gap("skip", self.skips[one], self.skips[one], classes.index(one)) for one in sorted(set(classes))]
        size = {"sep": self.seps[area], "gap": self.gaps[area]}
        spots = range(len(inserts)) if area == "bottom" else range(1, len(inserts) + 1)
        kinds = ["gap" if spot == (0 if area == "bottom" else len(inserts)) else "sep" for spot in spots]
        return [Gap(kind, size[kind], size[kind], spot) for kind, spot in zip(kinds, spots)]


def size_of(gap):
    """The size of a gap in the style, whatever it gives."""
    return units(gap.split(" ")[0])


def insert_class(node):
    return int(re.match(r"\\insert(\d+)", node.line)[1])


def insert_size(node):
    """The natural size of an insert; -1 of what is none."""
    found = re.match(r"\\insert\d+, natural size (-?[\d.]+)", node.line)
    return units(found[1]) if found else -1
