#!/usr/bin/env python3
"""Are the pages that TeX shipped out those of the page text?

    tex/check/shipped.py [--lengths] [--ragged] PAGES.. LOG STYLE

PAGES are what `pg run` wrote of the parts of the galley, in order, STYLE the style that it was made with, LOG the log of the run that made the pages, with
`\\tracingoutput=1`, all levels and items shown, and lines of any length (`max_print_line`). Item by item: the boxes of each
column of text stand one after another in one list of the page, of the same sizes and with the same lines within them, where
the galley shows these; between them stand the same glue, kerns and penalties, and each box is within a unit of its place; the
text begins where the floats above it end, as on all pages, and fills its goal together with the gaps around it; notes and floats
stand on their page, in their order, on their side of the text; what lies between floats, between them and the text, and above
the notes is what the page text says, or the style where it is of version 1 or 2; no other letters stand between head and foot.
`--lengths`: paragraphs were set in several lengths, so a first line may have another height and a last one another depth, and its
baseline decides. `--ragged`: a text that is shorter than its goal has its own height, though the style stretches it.

One thing may differ: marks, destinations and other whatsits stand behind the glue and the penalties in front of a box, not
among them. It is counted as `moved`. A penalty may have become 10000, as TeX's page builder leaves one at which it cut; it takes
no room. The last text of a part, which pg leaves short, is stretched to its foot where it has a \\vfil or the like. A page that has
nothing between head and foot may stand in front of any other.
It prints a line of counts and a line for each fault, and ends with 1 where there is one."""

import sys
from collections import Counter
from itertools import takewhile, zip_longest

from listing import all_nodes, first_difference, letters, place, shipped_boxes, shipped_count
from page_text import AROUND, Style, insert_size, items_of, read_parts

COUNTS = ("pages", "blank", "columns", "items", "glue", "bodies", "notes", "floats", "gaps", "moved")
POINT = 65536


def points(number):
    return f"{number / POINT:.5f}pt"


class Sheet:
    """A page that was shipped out, with the place of each box, and its lists."""

    def __init__(self, root):
        self.root = root
        place(root, 0, root.height)
        self.lists = [node for node in all_nodes(root) if node.kind == "vbox" and node.items and node.x is not None]

    def stray(self, top, foot):
        """The letters between two heights that belong to nothing that was found."""
        out, waiting = [], [self.root]
        while waiting:
            node = waiting.pop()
            if node.covered or node.x is None:
                continue
            text = letters(item for item in node.items if not item.is_box()) if node.kind == "hbox" else ""
            if text and node.base > top and node.top < foot:
                out.append(text)
            waiting.extend(reversed([item for item in node.items if item.is_box()]))
        return "".join(out)


class Text:
    """Where the text of a column stands: the list that has it, its start, its foot, how much of that hangs below its height, and the
    room that is left below."""

    def __init__(self, box, start, end, over, room):
        self.box, self.start, self.foot, self.over, self.room = box, start, start + end, over, room


class Check:
    """The comparison of one document."""

    def __init__(self, style, by_lengths):
        self.style, self.by_lengths = style, by_lengths
        self.counts, self.faults, self.off = Counter(), [], 0
        self.top = None  # where columns begin

    def fault(self, page, column, what):
        where = f"page {page.number}" + (f" column {column}" if column else "")
        self.faults.append(f"{where}: {what}")

    # ------------------------------------------------------------ a column's text

    def same_box(self, item, node):
        """Whether a box of the page may be this one."""
        due = item.node
        if due.kind != node.kind or due.width != node.width:
            return False
        if self.by_lengths:
            return not due.items or first_difference(due, node) is None
        return (due.height, due.depth) == (node.height, node.depth)

    def find(self, boxes, sheet):
        """The longest row of boxes that are the first of these, in a list, behind `\\topskip`: how many, the list, their positions."""
        best = (0, None, [])
        for box in sheet.lists:
            spots = [i for i, item in enumerate(box.items) if item.is_box()]
            for start, spot in enumerate(spots):
                if not spot or not box.items[spot - 1].line.startswith("\\glue(\\topskip)"):
                    continue
                pairs = zip(boxes, (box.items[i] for i in spots[start:]))
                count = next((k for k, pair in enumerate(pairs) if not self.same_box(*pair)), None)
                count = min(len(boxes), len(spots) - start) if count is None else count
                row = spots[start : start + count]
                if count > best[0] and not any(box.items[i].covered for i in row):
                    best = (count, box, row)
        return best

    def text(self, page, number, column, sheet):
        """Looks for the text of a column; gives where it stands."""
        items = items_of(column)
        boxes = [item for item in items if item.node.is_box()]
        count, box, spots = self.find(boxes, sheet)
        if count < len(boxes):
            got = shown_instead(box, spots)
            self.fault(page, number, f"{count} of {len(boxes)} boxes, then {boxes[count].line!r} is due, shipped {got!r}")
            return None
        self.counts["columns"] += 1
        nodes = [box.items[i] for i in spots]
        for item, node in zip(boxes, nodes):
            self.body(page, number, item.node, node)
            node.covered = True
        self.spaces(page, number, items, box, spots)
        start = nodes[0].base - boxes[0].base
        self.places(page, number, boxes, nodes, start)
        over = self.heights(page, number, column, items)
        self.counts["items"] += len(items)
        return Text(box, start, items[-1].end, over, column.own_height() - (items[-1].end - over))

    def body(self, page, number, due, node):
        """Compares how a box sets its glue, and what stands within it, where the galley shows it."""
        if due.line.removesuffix(" []") != node.line.removesuffix(" []") and not self.by_lengths:
            self.fault(page, number, f"{node.line!r} is shipped, and {due.line!r} is due")
        if not due.items:
            return
        other = first_difference(due, node)
        if other:
            self.fault(page, number, f"within {due.line!r} stands {other[1]!r}, and {other[0]!r} is due")
        else:
            self.counts["bodies"] += 1

    def spaces(self, page, number, items, box, spots):
        """Compares what stands in front of each box of the text, and behind the last."""
        due = [[]]
        for item in items:
            if item.node.is_box():
                due.append([])
            else:
                due[-1].append(item)
        ends = [0] + [i + 1 for i in spots] + [len(box.items)]
        for k, gap in enumerate(due):
            got = box.items[ends[k] : spots[k] if k < len(spots) else ends[-1]]
            self.gap(page, number, gap, got, k == 0, k == len(spots))

    def gap(self, page, number, due, got, is_first, is_last):
        """Compares what is no box between two boxes; the list may have more at its ends."""
        spaces = [item for item in due if item.node.is_space()]
        wanted = [item for item in spaces if not (is_empty(item.node) and item.size == 0)]
        found = [node for node in got if node.is_space() and not is_empty(node)]
        if is_first:
            found = found[max(0, len(found) - len(wanted)) :]
        elif is_last:
            found = found[: len(wanted)]
        if len(wanted) != len(found) or not all(map(self.same_space, wanted, found)):
            pairs = zip_longest(wanted, found)
            other = next(pair for pair in pairs if None in pair or not self.same_space(*pair))
            space, shown = (one.line if one else "a box" for one in other)
            self.fault(page, number, f"in front of a box stands {shown!r}, and {space!r} is due")
        self.counts["glue"] += sum(item.node.kind == "glue" for item in spaces)
        self.carries(page, number, due, got)

    def same_space(self, item, node):
        """Whether a glue, kern or penalty of the page is this one: as the galley has it, or glue of the printed width."""
        due = item.node
        if due.kind != node.kind:
            return False
        if due.kind == "glue":
            if self.by_lengths and item.line.startswith("\\glue(\\baselineskip)"):
                return node.line.startswith("\\glue(\\baselineskip)")
            return node.line == item.line or node.width == item.size and "plus" not in node.line and "minus" not in node.line
        if due.kind == "kern":
            return due.width == node.width
        return node.line in (due.line, "\\penalty 10000")

    def carries(self, page, number, due, got):
        """Marks and whatsits have to be there; where they stand among the glue and the penalties may differ."""
        wanted = [item.line for item in due if item.node.kind == "carry"]
        lost = Counter(wanted) - Counter(node.line for node in got if node.kind == "carry")
        for line in lost:
            self.fault(page, number, f"{line!r} is not there")
        before = [item.line for item in due if item.node.is_space() or item.line in wanted]
        after = [node.line for node in got if node.is_space() or node.line in wanted]
        if wanted and [line in wanted for line in before] != [line in wanted for line in after]:
            self.counts["moved"] += len(wanted)

    def places(self, page, number, boxes, nodes, start):
        """Compares the baselines."""
        far = max(abs(node.base - start - item.base) for item, node in zip(boxes, nodes))
        self.off = max(self.off, far)
        if far > 1:
            self.fault(page, number, f"a box stands {points(far)} from its place")

    def heights(self, page, number, column, items):
        """Adds up the items: as they are set what they have to fill, or where nothing is stretched the total; as the galley has them the
        total. It gives how much hangs below."""
        total = sum(item.node.width for item in items if item.node.kind in ("glue", "kern"))
        total += sum(item.node.height + item.node.depth for item in items if item.node.is_box())
        last = next((item.node for item in reversed(items) if item.node.kind not in ("penalty", "carry")), None)
        over = min(last.depth if last and last.is_box() else 0, self.style.maxdepth)
        if total - over != column.total:
            high, due = points(total - over), points(column.total)
            self.fault(page, number, f"the galley's items are {high} high, and the total is {due}")
        if items[-1].end - over not in (column.own_height(), column.total):
            high, due = points(items[-1].end - over), points(column.own_height())
            self.fault(page, number, f"the items are {high} high, and have to fill {due}")
        return over

    # ------------------------------------------------------------ notes and floats

    def notes(self, page, number, column, sheet, x, foot):
        """Looks for the notes of a column, below its text and in their order; gives where they begin, how high they are, and how deep
        the last line is."""
        start, inserts, node = None, column.areas.get("notes", []), None
        for insert in inserts:
            boxes = [BoxItem(node) for node in insert.items if node.is_box()]
            if not boxes:
                continue
            found = self.below(boxes, sheet, x, foot)
            if found is None:
                shown = letters(insert.items)[:40]
                self.fault(page, number, f"the note {shown!r} of {points(insert_size(insert))} is not below the text")
                continue
            for due, node in zip(boxes, found):
                self.body(page, number, due.node, node)
                node.covered = True
            foot = found[-1].foot
            if insert is inserts[0]:
                start = found[0].top - space_above(insert)
            self.counts["notes"] += 1
        return None if start is None else (start, sum(map(insert_size, inserts)), min(node.depth, self.style.maxdepth))

    def below(self, boxes, sheet, x, foot):
        """The boxes of the page that are these, below a height: of those that have the same lines within them, the uppermost."""
        best = None
        for box in sheet.lists:
            nodes = [item for item in box.items if item.is_box()]
            for start in range(len(nodes) - len(boxes) + 1):
                row = nodes[start : start + len(boxes)]
                if row[0].covered or row[0].top < foot - self.style.maxdepth or abs(row[0].x - x) > POINT:
                    continue
                if all(map(self.same_box, boxes, row)) and all(
                    not due.node.items or first_difference(due.node, node) is None for due, node in zip(boxes, row)
                ):
                    if best is None or row[0].top < best[0].top:
                        best = row
        return best

    def floats(self, page, number, inserts, sheet, x, top, foot, area):
        """Looks for the floats of an area between two heights, in their order; gives their boxes."""
        found = []
        for insert in inserts:
            size = insert_size(insert)
            node = self.float_box(insert, sheet, x, top, foot)
            if node is None:
                self.fault(page, number, f"no float of {points(size)} stands in the area {area}")
                continue
            node.covered = True
            top = node.foot
            found.append(node)
            self.counts["floats"] += 1
        return found

    def float_box(self, insert, sheet, x, top, foot):
        """The uppermost box of a float's size between two heights."""
        boxes, size = [node for node in insert.items if node.kind == "vbox" and node.items], insert_size(insert)
        best = None
        for node in all_nodes(sheet.root):
            if node.kind not in ("vbox", "hbox") or node.x is None or node.covered:
                continue
            if size < 0 or abs(node.height + node.depth - size) > 1 or x is not None and abs(node.x - x) > POINT:
                continue
            if node.top < top - 1 or node.foot > foot + self.style.maxdepth:
                continue
            if boxes and not any(first_difference(box, inner) is None for box in boxes for inner in all_nodes(node)):
                continue
            if best is None or node.top < best.top:
                best = node
        return best

    # ------------------------------------------------------------ gaps

    def gaps(self, page, number, area, inserts, shown, gives=True):
        """The gaps of an area as they are set: those of the page text, which have to be those of the style."""
        due = self.style.gaps_of(area, inserts)
        if self.style.version < 3:
            return due
        if [gap.form() for gap in shown] != [gap.form() for gap in due]:
            self.fault(page, number, f"the area {area} has the gaps {list(map(str, shown))}, and {list(map(str, due))} are due")
            return due
        if not gives and any(gap.set != gap.size for gap in shown):
            self.fault(page, number, f"the gaps of the area {area} give {list(map(str, shown))}")
        return shown

    def place_of(self, page, number, area, nodes, gaps, top):
        """Floats of an area stand one below the other, from a height on, with their gaps between them."""
        for spot, node in enumerate(nodes):
            top += sum(gap.set for gap in gaps if gap.before == spot)
            self.near(page, number, f"a float of the area {area}", node.top, top)
            top += node.height + node.depth

    def near(self, page, number, what, place, due):
        """Is something within two units of its place?"""
        self.counts["gaps"] += 1
        if abs(place - due) > 2:
            self.fault(page, number, f"{what} stands {points(place - due)} lower than is due")

    def under_text(self, page, number, text, floats, notes, gaps):
        """What lies between the text, its notes and the floats below is the gaps of the page text, one with a rest: what hangs
        below the text has no room of its own, nor what hangs below the page; and where the text is short, the room. The rest is in
        the first gap, but in the lower one where a text that is not short has notes and floats. In plain TeX nothing hangs below a
        ragged page."""
        hangs = notes[2] if notes and not floats else 0
        late = text.over if notes and floats and not text.room else 0
        place = text.foot + text.room + hangs - text.over
        if notes:
            place += late + gaps["notes"][0].set
            if self.style.is_ragged and abs(notes[0] - place) > 2:
                place -= hangs
            self.near(page, number, "its first note", notes[0], place)
            place += notes[1] - late
        if floats:
            place += gaps["bottom"][0].set
            self.near(page, number, "the float below it", floats[0].top, place)

    # ------------------------------------------------------------ pages

    def page(self, page, sheet):
        """Compares a page: the texts of its columns, then what stands above and below them."""
        wide = self.gaps(page, 0, "wide", page.wide, page.gaps, gives=False)
        found = []
        for number, column in enumerate(page.columns, 1):
            found.append(self.text(page, number, column, sheet) if column.has_text() else None)
            if found[-1]:
                top = column.areas.get("top", [])
                above = height_of(page.wide, wide) + height_of(top, self.gaps(page, number, "top", top, column.gaps.get("top", [])))
                self.same_start(page, number, found[-1].start - above)
        self.counts["pages"] += 1
        self.around(page, sheet, found, wide)

    def same_start(self, page, number, start):
        """All columns begin at one height of the paper, that of the first."""
        if self.top is None:
            self.top = start
        elif start != self.top:
            self.fault(page, number, f"it begins {points(start - self.top)} lower than the first column of all")

    def around(self, page, sheet, found, wide):
        """Compares what stands around the texts of a page."""
        top = self.top or 0
        end = top + self.style.height + self.style.extras[page.run]
        below = top + height_of(page.wide, wide)
        nodes = self.floats(page, 0, page.wide, sheet, None, top, below, "wide")
        self.place_of(page, 0, "wide", nodes, wide, top)
        for number, (column, text) in enumerate(zip(page.columns, found), 1):
            if text:
                self.around_text(page, number, column, text, sheet, below, end)
            elif not column.has_text():
                for area in ("top", "bottom"):
                    self.gaps(page, number, area, column.areas.get(area, []), column.gaps.get(area, []), gives=False)
                    self.floats(page, number, column.areas.get(area, []), sheet, None, below, end, area)
        stray = sheet.stray(top, end)
        if stray and not any(column.has_text() and not text for column, text in zip(page.columns, found)):
            self.fault(page, 0, f"letters that belong to nothing: {stray[:60]!r}")

    def around_text(self, page, number, column, text, sheet, top, end):
        """Compares the floats and the notes of a column with text, and the gaps around them."""
        inserts = {area: column.areas.get(area, []) for area in AROUND}
        gaps = {area: self.gaps(page, number, area, inserts[area], column.gaps.get(area, [])) for area in AROUND}
        above = self.floats(page, number, inserts["top"], sheet, text.box.x, top, text.start, "top")
        below = self.floats(page, number, inserts["bottom"], sheet, text.box.x, text.foot - text.over, end, "bottom")
        notes = self.notes(page, number, column, sheet, text.box.x, text.foot - text.over)
        self.place_of(page, number, "top", above, gaps["top"], top)
        self.place_of(page, number, "bottom", below, gaps["bottom"], end - height_of(inserts["bottom"], gaps["bottom"]))
        self.under_text(page, number, text, below, notes, gaps)
        taken = sum(insert_size(insert) for area in AROUND for insert in inserts[area])
        room = end - top - taken - sum(gap.size for area in AROUND for gap in gaps[area])
        if column.goal != room:
            self.fault(page, number, f"the goal is {points(column.goal)}, and floats and notes leave {points(room)}")

    def pages(self, pages, sheets, count):
        """Compares all pages with the sheets, of which there are so many; a sheet without letters may stand in front of any."""
        blank = []
        for page in pages:
            sheet = next(sheets, None)
            while sheet and len(blank) < count - len(pages) and not self.begins(page, sheet):
                blank.append(sheet)
                sheet = next(sheets, None)
            if not sheet:
                self.fault(page, 0, "not shipped out")
                break
            self.page(page, sheet)
        for sheet in blank + list(sheets):
            stray = sheet.stray(self.top or 0, (self.top or 0) + self.style.height)
            if stray:
                self.faults.append(f"a page that is none of pg's: {stray[:60]!r}")
            else:
                self.counts["blank"] += 1

    def begins(self, page, sheet):
        """Whether the page may be this one: the first boxes of its first text stand on it."""
        texts = [column for column in page.columns if column.has_text()]
        if not texts:
            return True
        boxes = [item for item in items_of(texts[0]) if item.node.is_box()]
        return self.find(boxes, sheet)[0] >= min(3, len(boxes))


class BoxItem:
    """A box of a note, as an item of a text."""

    def __init__(self, node):
        self.node, self.line = node, node.line


def is_empty(node):
    """Glue of no width at all, as TeX puts it where it splits a list."""
    return node.kind == "glue" and node.width == 0 and " plus " not in node.line and " minus " not in node.line


def space_above(insert):
    """What stands above the first box of an insert."""
    return sum(node.width for node in takewhile(lambda node: not node.is_box(), insert.items) if node.kind in ("glue", "kern"))


def height_of(inserts, gaps):
    """How much room these inserts take with their gaps."""
    return sum(map(insert_size, inserts)) + sum(gap.set for gap in gaps)


def shown_instead(box, spots):
    """The line of the box behind a row of boxes."""
    if box is None:
        return "none of them"
    behind = [item.line for item in box.items[spots[-1] + 1 :] if item.is_box()]
    return behind[0] if behind else "the end of the list"


def compare(pages_paths, log_path, style_path, by_lengths=False, is_ragged=False):
    """The counts, how far the farthest box is off, and the faults."""
    check, pages = Check(Style(style_path), by_lengths), read_parts(pages_paths)
    if is_ragged and not check.style.is_ragged:
        for column in (column for page in pages for column in page.columns):
            column.leave()
    check.pages(pages, map(Sheet, shipped_boxes(log_path)), shipped_count(log_path))
    return check.counts, check.off, check.faults


def main():
    words = [word for word in sys.argv[1:] if word not in ("--lengths", "--ragged")]
    if len(words) < 3:
        raise SystemExit(__doc__)
    counts, off, faults = compare(words[:-2], *words[-2:], "--lengths" in sys.argv, "--ragged" in sys.argv)
    told = " ".join(f"{name} {counts[name]}" for name in COUNTS)
    print(f"{told} off {off} faults {len(faults)}")
    for fault in faults[:20]:
        print(f"  {fault}")
    return 1 if faults else 0


if __name__ == "__main__":
    sys.exit(main())
