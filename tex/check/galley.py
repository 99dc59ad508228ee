#!/usr/bin/env python3
"""Does the page text have all that the galley has, once and in order?

    tex/check/galley.py PAGES.. LOG

PAGES are what `pg run` wrote of the parts of the galley in LOG, in order. The boxes and rules of the texts, from the first column to the
last, are those of the galley's list; between two of a column stand the same glue, kerns and penalties; the inserts are those of
the notes and floats, and marks and whatsits are all there. It prints what is not, and ends with 1 then."""

import sys
from collections import Counter

from listing import Node, add_line, inner_lines, lines_of
from page_text import read_parts


def galley_items(path):
    """The items of the last galley that the log shows, without the marks by which the macros tell pgtex something."""
    root, is_inside, markers = [Node("")], False, None
    for line in lines_of(path):
        if line.startswith("pg: markers "):
            markers = f"\\marks{line.split(' ')[2]}{{"
        elif line == "pg: galley begins":
            root, is_inside = [Node("")], True
        elif line == "pg: galley ends":
            is_inside = False
        elif is_inside and line.startswith("."):
            add_line(root, line)
        elif is_inside and line and len(root) > 1:
            root[-1].line += line if line.startswith("\n") else "\n" + line
    return [node for node in root[0].items if not (markers and node.line.startswith(markers))]


def key(node):
    return node.line, tuple(inner_lines(node))


def space(node):
    """The line of glue, a kern or a penalty without the width that it is set to."""
    return node.line.rpartition(", set ")[0] or node.line if node.kind == "glue" else node.line


class Flow:
    """Boxes in order, each with the spaces in front of it, and bags of inserts and of all that takes no room."""

    def __init__(self):
        self.boxes, self.spaces, self.inserts, self.carries = [], [[]], Counter(), Counter()

    def add(self, node):
        if node.is_box():
            self.boxes.append(node.line)
            self.spaces.append([])
        elif node.is_space():
            self.spaces[-1].append(space(node))
        elif node.line.startswith("\\insert"):
            self.inserts[key(node)] += 1
        else:
            self.carries[node.line] += 1


def flow_of_pages(paths):
    """The flow of page texts, and which boxes begin a column."""
    flow, first = Flow(), set()
    for page in read_parts(paths):
        for node in page.wide:
            flow.add(node)
        for column in page.columns:
            for area in ("top", "text", "bottom", "notes"):
                if area == "text" and column.has_text():
                    first.add(len(flow.boxes))
                for node in column.areas.get(area, []):
                    flow.add(node)
    return flow, first


def more_and_less(one, other, what):
    """In words, what stands in one bag more often than in another."""
    for line in sorted(set(one - other) | set(other - one))[:3]:
        shown = line if isinstance(line, str) else line[0]
        yield f"{shown[:80]!r} is {one[line]} times {what}, {other[line]} times in the page text"


def compare(pages, log):
    """What differs, in words."""
    due, faults = Flow(), []
    for node in galley_items(log):
        due.add(node)
    flow, first = flow_of_pages(pages)
    if flow.boxes != due.boxes:
        pairs = zip(flow.boxes, due.boxes)
        end = min(len(flow.boxes), len(due.boxes))
        spot = next((k for k, (here, there) in enumerate(pairs) if here != there), end)
        return [
            f"box {spot + 1} of {len(due.boxes)} of the galley is {due.boxes[spot : spot + 1]}, "
            f"of the page text {flow.boxes[spot : spot + 1]}"
        ]
    for spot, (here, there) in enumerate(zip(flow.spaces[:-1], due.spaces)):
        if spot not in first and here != there:
            faults.append(f"in front of box {spot + 1} the galley has {there}, and the page text {here}")
            break
    faults += more_and_less(due.inserts, flow.inserts, "in the galley")
    return faults + list(more_and_less(due.carries, flow.carries, "in the galley"))


def main():
    if len(sys.argv) < 3:
        raise SystemExit(__doc__)
    faults = compare(sys.argv[1:-1], sys.argv[-1])
    print("\n".join(faults) or "all of the galley, in order")
    return 1 if faults else 0


if __name__ == "__main__":
    sys.exit(main())
