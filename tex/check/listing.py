"""Reads boxes as TeX shows them in its log, and says where TeX puts what is in them."""

import re
from itertools import zip_longest

UNIT = 65536
BOX_SIZE = re.compile(r"\\([hv]box|rule)\((-?[\d.]+|\*)\+(-?[\d.]+|\*)\)x(-?[\d.]+|\*)")
GLUE_SET = re.compile(r", glue set (- )?[<>]? ?(-?[\d.]+)(fi*l*)?")
SHIFTED = re.compile(r", shifted (-?[\d.]+)")
GLUE = re.compile(
    r"\\(?:glue|leaders|cleaders|xleaders)(?:\([^)]*\))? (-?[\d.]+)"
    r"(?: plus (-?[\d.]+)(fi*l*)?)?(?: minus (-?[\d.]+)(fi*l*)?)?"
)
KERN = re.compile(r"\\kern ?(-?[\d.]+)")
CHARACTER = re.compile(r"\\(\S+) (.+)", re.DOTALL)
# what TeX shows with a blank behind its name and is no character of a font
NO_FONTS = re.compile(
    r"(glue|kern|penalty|mark|special|write|open|close|insert|vadjust|discretionary|math|rule|[cx]?leaders|pdf|local|"
    r"hbox|vbox|whatsit|XeTeX|latelua|save|boundary|setlanguage|attr|par)[^/]*$"
)


def units(word):
    """Scaled units of a number of points as TeX prints it; the height and depth of a running rule are none."""
    return 0 if word == "*" else round(float(word) * UNIT)


class Node:
    """An item of a list: its line without the points in front, and what stands within it."""

    __slots__ = ("line", "items", "kind", "height", "depth", "width", "x", "top", "base", "foot", "covered")

    def __init__(self, line):
        self.line = line
        self.items = []
        self.kind = kind_of(line)
        self.height = self.depth = self.width = 0
        self.x = self.top = self.base = self.foot = None
        self.covered = False
        if self.kind in ("hbox", "vbox", "rule"):
            self.height, self.depth, self.width = map(units, BOX_SIZE.match(line).groups()[1:])
        elif self.kind == "kern":
            self.width = units(KERN.match(line)[1])
        elif self.kind == "glue":
            self.width = units(GLUE.match(line)[1])

    def is_box(self):
        return self.kind in ("hbox", "vbox", "rule")

    def is_space(self):
        return self.kind in ("glue", "kern", "penalty")


def kind_of(line):
    """hbox, vbox, rule, glue, kern, penalty, or carry for all that takes no room in a vertical list."""
    if BOX_SIZE.match(line):
        return BOX_SIZE.match(line)[1]
    if GLUE.match(line):
        return "glue"
    if KERN.match(line):
        return "kern"
    return "penalty" if line.startswith("\\penalty ") else "carry"


def add_line(stack, line):
    """Hangs a line that begins with points below the node that it belongs to; the stack has the nodes from the root on."""
    depth = len(line) - len(line.lstrip("."))
    node = Node(line[depth:])
    del stack[max(1, depth):]
    stack[-1].items.append(node)
    stack.append(node)


def lines_of(path):
    """The lines of a file, byte for byte: whatever the engine writes, equal bytes are equal characters."""
    with open(path, encoding="latin-1", newline="\n") as file:
        for line in file:
            yield line.rstrip("\n")


def shipped_boxes(path):
    """The boxes that TeX shipped out, from a log with `\\tracingoutput=1`, all levels and items, and lines of any length."""
    root, stack, waits = None, [], False
    for line in lines_of(path):
        if line.startswith("Completed box being shipped out"):
            stack, waits = [], True
        elif waits and BOX_SIZE.match(line):
            root, waits = Node(line), False
            stack = [root]
        elif stack and line.startswith("."):
            add_line(stack, line)
        elif stack and line:
            stack[-1].line += "\n" + line  # a line end within a \write
        elif stack:
            yield root
            stack = []
    if stack:
        yield root


def shipped_count(path):
    """How many boxes TeX shipped out."""
    return sum(line.startswith("Completed box being shipped out") for line in lines_of(path))


def all_nodes(root):
    """The node and all below it, in the order of the log."""
    waiting = [root]
    while waiting:
        node = waiting.pop()
        yield node
        waiting.extend(reversed(node.items))


def inner_lines(node, level=0):
    """The lines below a node, each with its level."""
    out = []
    for item in node.items:
        out.append((level, item.line))
        out.extend(inner_lines(item, level + 1))
    return out


def first_difference(due, node):
    """The first lines within two nodes that differ, or nothing; a wanting line is none."""
    for one, other in zip_longest(due.items, node.items):
        if one is None or other is None or one.line != other.line:
            return (one and one.line), (other and other.line)
        if one.items or other.items:
            found = first_difference(one, other)
            if found:
                return found
    return None


def letters(items):
    """The characters that these items of a list show, without blanks."""
    out = []
    for item in items:
        for node in all_nodes(item):
            found = CHARACTER.fullmatch(node.line)
            if found and not NO_FONTS.match(found[1]):
                out.append(re.sub(r" \(ligature .*\)$", "", found[2]).strip())
    return "".join(out)


# ---------------------------------------------------------------- where TeX puts the items of a box


def elastic(node):
    """The stretch and the shrink of glue, each with its order."""
    found = GLUE.match(node.line)
    return (units(found[2] or "0"), len(found[3] or "")), (units(found[4] or "0"), len(found[5] or ""))


def natural_height(box):
    """The height of a vertical box before its glue is set. What of the last depth is more than the box's own is height."""
    total = last = 0
    for item in box.items:
        if item.is_box():
            total += last + item.height
            last = item.depth
        elif item.kind in ("glue", "kern"):
            total += last + item.width
            last = 0
    return total + max(0, last - max(0, box.depth))


def setting(box):
    """How the box sets its glue: which glue, its order, the ratio; a vertical box's is computed, since TeX shows few digits."""
    shown = GLUE_SET.search(box.line)
    if not shown:
        return None
    which, order, ratio = (1 if shown[1] else 0), len(shown[3] or ""), float(shown[2])
    if box.kind == "vbox":
        given = sum(amount for item in box.items if item.kind == "glue" for amount, at in [elastic(item)[which]] if at == order)
        wanted = box.height - natural_height(box)
        if given and abs(abs(wanted) / given - ratio) < 2 / UNIT:
            ratio = abs(wanted) / given
    return which, order, ratio


def widths_of_glue(box):
    """The width of each glue of the box as it is set, in order: TeX rounds the sum so far, not each one."""
    way, total, before = setting(box), 0, 0
    for item in box.items:
        if item.kind != "glue":
            continue
        moved = before
        if way:
            amount, order = elastic(item)[way[0]]
            if order == way[1]:
                total += amount
                moved = round(total * way[2]) * (-1 if way[0] else 1)
        yield item.width + moved - before
        before = moved


def place(box, x, base):
    """Gives the box and all within it their places on the page: left edge, top, baseline and foot, in units, downwards."""
    waiting = [(box, x, base)]
    while waiting:
        node, node.x, node.base = waiting.pop()
        node.top, node.foot = node.base - node.height, node.base + node.depth
        if node.kind == "vbox":
            waiting.extend(placed_down(node))
        elif node.kind == "hbox":
            waiting.extend(placed_along(node))


def shift_of(node):
    found = SHIFTED.search(node.line)
    return units(found[1]) if found else 0


def placed_down(box):
    """The boxes of a vertical box, with their places."""
    y, glue = box.top, widths_of_glue(box)
    for item in box.items:
        if item.is_box():
            yield item, box.x + shift_of(item), y + item.height
            y += item.height + item.depth
        else:
            item.top = y
            y += next(glue) if item.kind == "glue" else item.width
            item.foot = y


def placed_along(box):
    """The boxes of a line, with their places. Characters have no width in the log: left edges of boxes behind them are not true."""
    x, glue = box.x, widths_of_glue(box)
    for item in box.items:
        if item.is_box():
            yield item, x, box.base + shift_of(item)
            x += item.width
        elif item.kind in ("glue", "kern"):
            x += next(glue) if item.kind == "glue" else item.width
