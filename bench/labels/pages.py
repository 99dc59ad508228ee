"""The page text of a legal pagination, line by line as docs/output.md says, and the label text of a list of labels."""

from dataclasses import dataclass

from texts import counts, gap_text, numbers_line, place, points

ORDERS = ("", "fil", "fill", "filll")


def shares(amounts, excess):
    """What each glue gets of an excess, by its order and amount: all goes to the highest order that does not cancel."""
    for order in reversed(ORDERS):
        whole = sum(amount for own, amount in amounts if own == order)
        if whole != 0:
            break
    else:
        return [0] * len(amounts)
    given, before = [], 0
    for own, amount in amounts:
        behind = before + (amount if own == order else 0)
        given.append(excess * behind // whole - excess * before // whole if whole > 0 else 0)
        before = behind
    return given


def segment(items):
    """The items without what is discarded in front of the first box."""
    first = next((at for at, it in enumerate(items) if it.is_box()), len(items))
    return [it for it in items[:first] if not it.is_discardable()] + items[first:]


def shown(body):
    """A body with a point in front of each line."""
    return ["." + line for line in body.split("\n")]


@dataclass
class Elastic:
    """Glue or a gap, as far as it is set."""

    width: int
    order: str
    stretch: int
    shrink: int


def glue_of(items):
    return [Elastic(it.width, it.order, it.stretch, it.shrink) for it in items if it.kind == "glue"]


def gaps_of(gaps):
    return [Elastic(it.size, "", it.stretch, it.shrink) for it in gaps]


def is_endless(elastics):
    return any(sum(it.stretch for it in elastics if it.order == order) for order in ORDERS[1:])


def set_widths(style, numbers, is_spent, elastics):
    """The widths to which glue and gaps are set, in the order in which they stand on the page."""
    is_ragged = style.ragged is not None and not is_endless(elastics)
    changes = [0] * len(elastics)
    if numbers.total < numbers.goal and not is_spent and not is_ragged:
        changes = shares([(it.order, it.stretch) for it in elastics], numbers.goal - numbers.total)
    elif numbers.total > numbers.goal:
        changes = [-it for it in shares([("", it.shrink) for it in elastics], numbers.total - numbers.goal)]
    return [it.width + change for it, change in zip(elastics, changes)]


def gap_line(name, gap, width):
    return f".\\glue({name}) {gap_text(gap)}, set {points(width)}"


def text_lines(document, items, widths):
    """The lines of the text of a column, of which the glue has these widths."""
    widths, lines, has_box = iter(widths), ["area text"], False
    for it in items:
        if it.kind == "insert":
            continue
        if it.is_box() and not has_box:
            has_box = True
            lines.append(f".\\glue(\\topskip) {points(max(0, document.style.topskip - it.height))}")
        own = shown(it.body)
        if it.kind == "glue":
            own[0] += f", set {points(next(widths))}"
        lines += own
    return lines


def inserts(blocks):
    """The bodies of the inserts of each class, in order; they are the same whatever is picked."""
    found = {}
    for block in blocks:
        for it in block.variants[0].items if hasattr(block, "variants") else (block,):
            if it.kind == "insert":
                found.setdefault(it.number, []).append(it.body)
    return found


def gaps_between(rule, bodies, name):
    """The gaps of an area with so many floats, with their names, in the order in which they stand on the page."""
    seps, gap = [("sep", rule.sep)] * (len(bodies) - 1), [("gap", rule.gap)] * min(1, len(bodies))
    return gap + seps if name == "bottom" else seps + gap


class Printer:
    """Prints paginations of a document, whose galley is so wide."""

    def __init__(self, document, width):
        self.document, self.width = document, width
        self.has_gaps = document.style.version == 3
        bodies = inserts(document.blocks)
        self.floats = [bodies.get(it.number, []) for it in document.classes]

    def dealt(self, placed, counts):
        """The bodies of the next floats, and the counts that are then placed."""
        bodies = [body for own, at, count in zip(self.floats, placed, counts) for body in own[at : at + count]]
        return bodies, tuple(at + count for at, count in zip(placed, counts))

    def area(self, name, bodies, widths=None):
        """The lines of an area with floats; where the style is of version 3 with its gaps, which are set to these widths
        or to their own. The bottom's gap stands above its floats."""
        if not bodies:
            return []
        rule = getattr(self.document.style, name)
        lines = [shown(body) for body in bodies]
        if self.has_gaps:
            gaps = gaps_between(rule, bodies, name)
            widths = [it.size for _, it in gaps] if widths is None else widths
            between = [[gap_line(kind, it, width)] for (kind, it), width in zip(gaps, widths)]
            pairs = zip(between, lines) if name == "bottom" else zip(lines, between)
            lines = [part for pair in pairs for part in pair]
        return [f"area {name}"] + sum(lines, [])

    def noted(self, items):
        """The note classes that have a note among items, by number, with their notes."""
        classes = sorted(self.document.style.notes(), key=lambda it: it.number)
        pairs = [(it, [note for note in items if note.kind == "insert" and note.number == it.number]) for it in classes]
        return [(it, notes) for it, notes in pairs if notes]

    def notes(self, noted, widths):
        lines = []
        for (it, notes), width in zip(noted, widths):
            if self.has_gaps:
                lines.append(gap_line("skip", it.skip, width))
            for note in notes:
                lines += shown(note.body)
        return ["area notes"] + lines if lines else []

    def text(self, column, items, numbers, is_spent, top, bottom):
        """The lines of a column with text, and of its areas with these bodies."""
        style, items = self.document.style, segment(items)
        noted, glue = self.noted(items), glue_of(items)
        above = gaps_of(it for _, it in gaps_between(style.top, top, "top"))
        below = gaps_of(it for _, it in gaps_between(style.bottom, bottom, "bottom"))
        skips = gaps_of(it.skip for it, _ in noted)
        widths, parts = set_widths(style, numbers, is_spent, above + glue + skips + below), []
        for part in (above, glue, skips, below):
            parts.append(widths[: len(part)])
            widths = widths[len(part) :]
        lines = self.area("top", top, parts[0]) + text_lines(self.document, items, parts[1])
        return lines + self.area("bottom", bottom, parts[3]) + self.notes(noted, parts[2])

    def column(self, before, number, page, column, placed):
        """The lines of a column, and the floats that are then placed."""
        document = self.document
        after = document.add(before, page, column)[1]
        found, size = document.text_of(before, column)
        items = [item for _, item, _ in found]
        lines = [
            f"column {number} from {place(column.start)} to {place(column.end)} top {counts(column.top)} "
            f"bottom {counts(column.bottom)} picks {counts(column.picks)}",
            numbers_line(after.numbers, document.style.float_demerits),
        ]
        top, placed = self.dealt(placed, column.top)
        bottom, placed = self.dealt(placed, column.bottom)
        if size > 0:
            is_spent = all(it.is_discardable() for it in items[size:])
            lines += self.text(column, items[:size], after.numbers, is_spent, top, bottom)
        else:
            lines += self.area("top", top)
        return lines, placed, after

    def pages(self, plan, cost):
        """The lines of the page text of a pagination that is legal."""
        style, before = self.document.style, self.document.start()
        placed = before.placed
        lines = [f"pages {len(plan)} cost {cost} width {points(self.width)}"]
        for number, page in enumerate(plan, 1):
            side = "S" if style.first == "single" else "R" if self.document.is_right(number) else "L"
            lines.append(f"page {number} side {side} run {page.run} wide {counts(page.wide)}")
            wide, placed = self.dealt(placed, page.wide)
            lines += self.area("wide", wide)
            for at, column in enumerate(page.columns, 1):
                own, placed, before = self.column(before, at, page, column, placed)
                lines += own
        return lines


def label_line(number, label, has_fitness):
    """The line of a label, a state with a cost."""
    it, cost = label
    run = "-" if it.run is None else it.run
    wide = "-" if it.wide is None else points(it.wide)
    fitness = ("- " if it.fitness is None else f"{it.fitness} ") if has_fitness else ""
    return (
        f"label {number} {place(it.place)} {it.column} {it.side} {run} {wide} {fitness}{counts(it.placed)} "
        f"{counts(it.ages)} {cost}"
    )


def label_lines(labels, has_fitness):
    """The lines of a label text."""
    lines = [label_line(number, it, has_fitness) for number, it in enumerate(labels, 1)]
    return [f"labels {len(labels)}" + (" fitness" if has_fitness else "")] + lines
