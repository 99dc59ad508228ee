"""The fourteen rules on paginations, the cost and the order, read from docs/definitions.md and written in the plainest way.

It shares no code with the program: a text is added up item by item as TeX does it, floats are dealt out one by one,
and each column is looked at once, behind those before it. `breach` answers the least rule that is broken with its least
column, `cost` what a pagination costs that breaks none, and `order` a key by which paginations of equal cost are compared."""

from dataclasses import dataclass, field, replace

POINT = 65536


@dataclass(frozen=True)
class Item:
    """One item: kind is box, rule, glue, kern, penalty, insert, barrier or mark. Lengths are in scaled units."""

    kind: str
    height: int = 0
    depth: int = 0
    width: int = 0
    stretch: int = 0
    order: str = ""  # "", fil, fill or filll
    shrink: int = 0
    penalty: int = 0
    number: int = 0
    size: int = 0
    body: str = ""  # the lines that show it, where they were read

    def is_box(self):
        return self.kind in ("box", "rule")

    def is_discardable(self):
        return self.kind in ("glue", "kern", "penalty")


@dataclass(frozen=True)
class Variant:
    looseness: int
    demerits: int
    items: tuple


@dataclass(frozen=True)
class Choice:
    variants: tuple


@dataclass(frozen=True)
class Column:
    start: tuple
    end: tuple
    top: tuple
    bottom: tuple
    picks: tuple


@dataclass(frozen=True)
class Page:
    run: int
    wide: tuple
    columns: tuple


@dataclass(frozen=True)
class Gap:
    """A length, and by how much it may be longer or shorter; only in version 3 it may be so at all."""

    size: int = 0
    stretch: int = 0
    shrink: int = 0


@dataclass(frozen=True)
class Area:
    count: int
    sep: Gap
    gap: Gap


@dataclass(frozen=True)
class Class:
    """A class of inserts: of notes with skip and limit, or of floats with area and distance."""

    number: int
    kind: str
    skip: Gap = Gap()
    limit: int = 0
    area: str = ""
    distance: tuple = ()


@dataclass(frozen=True)
class Style:
    version: int
    columns: int
    first: str
    height: int
    topskip: int
    maxdepth: int
    min_text: int
    tolerance: int
    line: int
    max_looseness: int
    fitness: int
    runs: tuple  # pairs of extra and demerits
    top: Area
    bottom: Area
    wide: Area
    float_count: int
    float_demerits: int
    classes: tuple
    ragged: int = None  # what the foot of a short text may be stretched by; None where texts are flush

    def floats(self):
        """The float classes by their numbers."""
        return sorted((it for it in self.classes if it.kind == "float"), key=lambda it: it.number)

    def notes(self):
        return [it for it in self.classes if it.kind == "note"]


# ---- the galley


def items_from(blocks, place, picks):
    """The items from a place on, each with its place and whether a choice begins with it; None where a pick names no
    variant. Where no pick is left a choice has its first variant."""
    block, variant, index = place
    found, picks = [], list(picks)
    if index > 0:
        items = blocks[block].variants[variant].items
        found += [((block, variant, at), items[at], False) for at in range(index, len(items))]
        block += 1
    for number in range(block, len(blocks)):
        it = blocks[number]
        if isinstance(it, Item):
            found.append(((number, 0, 0), it, False))
            continue
        pick = picks.pop(0) if picks else 0
        if pick >= len(it.variants):
            return None
        for at, item in enumerate(it.variants[pick].items):
            found.append(((number, pick if at else 0, at), item, at == 0))
    return found


def items_before(blocks, place):
    """The items before a place of the galley, where a choice that is passed has its first variant."""
    block, variant, index = place
    items = []
    for it in blocks[:block]:
        items += [it] if isinstance(it, Item) else it.variants[0].items
    return items + list(blocks[block].variants[variant].items[:index] if index > 0 else ())


def called(items, classes):
    """For each of these classes how many of its floats are called in items."""
    return [sum(it.kind == "insert" and it.number == one.number for it in items) for one in classes]


def called_before_barrier(items, classes):
    """The same of the items before the last barrier among them."""
    barriers = [at for at, it in enumerate(items) if it.kind == "barrier"]
    return called(items[: max(barriers, default=0)], classes)


def floats_of(blocks, style):
    """For each float class the sizes of its floats in order."""
    items = [item for _, item, _ in items_from(blocks, (0, 0, 0), ())]
    return [[it.size for it in items if it.kind == "insert" and it.number == one.number] for one in style.floats()]


# ---- a text


def penalty_at(items, at):
    """The penalty of a break at an offset; None where it is no break."""
    if at == len(items):
        return 0
    item = items[at]
    if item.kind == "glue" and at > 0 and not items[at - 1].is_discardable():
        return 0
    if item.kind == "kern" and at + 1 < len(items) and items[at + 1].kind == "glue":
        return 0
    if item.kind == "penalty" and item.penalty < 10000:
        return item.penalty
    return None


def is_forced(items, at):
    if at == len(items):
        return True
    return items[at].kind == "penalty" and items[at].penalty <= -10000 and any(it.is_box() for it in items[at + 1 :])


def is_spent(items, at):
    return all(it.is_discardable() for it in items[at:])


@dataclass
class Text:
    """What the items of a text add up to."""

    total: int = 0
    depth: int = 0
    has_box: bool = False
    stretch: dict = field(default_factory=dict)
    shrink: int = 0
    notes: dict = field(default_factory=dict)  # the sizes by class number

    def add(self, item, style):
        if item.is_box():
            if not self.has_box:
                self.total += max(0, style.topskip - item.height)
            self.total, self.depth, self.has_box = self.total + self.depth + item.height, item.depth, True
        elif item.kind in ("glue", "kern") and self.has_box:
            self.total, self.depth = self.total + self.depth + item.width, 0
            if item.kind == "glue":
                self.stretch[item.order] = self.stretch.get(item.order, 0) + item.stretch
                self.shrink += item.shrink
        elif item.kind == "insert":
            self.notes.setdefault(item.number, []).append(item.size)
        if self.depth > style.maxdepth:
            self.total, self.depth = self.total + self.depth - style.maxdepth, style.maxdepth

    def goal(self, style, room):
        """What is left of a room beside the notes."""
        return room - sum(it.skip.size + sum(self.notes[it.number]) for it in self.noted(style))

    def noted(self, style):
        """The note classes that have a note in the text."""
        return [it for it in style.notes() if self.notes.get(it.number)]

    def gaps(self, style, gaps):
        """The gaps around the text: those of its column's areas, and the skips of its notes."""
        return gaps + [it.skip for it in self.noted(style)]

    def is_over(self, goal, gaps):
        """Whether it is too long even where all gaps are as short as may be, and all its glue."""
        shortest = sum(it.shrink for it in gaps)
        return self.total >= goal + shortest and self.total - (goal + shortest) > self.shrink

    def is_endless(self):
        return any(self.stretch.get(order, 0) for order in ("fil", "fill", "filll"))

    def badness(self, goal, gaps, ragged, spent):
        if spent and self.total <= goal:
            return 0
        if self.total >= goal:
            return badness_of(self.total - goal, self.shrink + sum(it.shrink for it in gaps))
        if self.is_endless():
            return 0
        if ragged is not None:
            return badness_of(goal - self.total, ragged)
        return badness_of(goal - self.total, self.stretch.get("", 0) + sum(it.stretch for it in gaps))


def badness_of(excess, amount):
    """TeX's badness."""
    if excess == 0:
        return 0
    if amount <= 0:
        return 10000
    if excess <= 7230584:
        ratio = excess * 297 // amount
    elif amount >= 1663497:
        ratio = excess // (amount // 297)
    else:
        ratio = excess
    return 10000 if ratio > 1290 else (ratio**3 + 131072) // 262144


def demerits_of(style, badness, penalty):
    """What a text costs by its badness and the penalty at its end."""
    if style.version == 3 and -10000 < penalty < 0:
        return (style.line + max(0, badness + penalty)) ** 2
    demerits = (style.line + badness) ** 2
    if penalty > 0:
        return demerits + penalty**2
    return demerits - penalty**2 if penalty > -10000 else demerits


def fitness_of(total, goal, badness):
    """Very loose 0, loose 1, decent 2, tight 3."""
    if total < goal:
        return 0 if badness > 99 else 1 if badness > 12 else 2
    return 3 if total > goal and badness > 12 else 2


# ---- floats


def entry(counts, slot):
    return counts[slot] if slot < len(counts) else 0


def is_area_allowed(style, areas, limit, counts):
    """A count for each class, no more floats than the limit, and of classes alone that may stand there."""
    classes = style.floats()
    return (
        len(counts) == len(classes)
        and sum(counts) <= limit
        and all(count == 0 or it.area in areas for count, it in zip(counts, classes))
    )


def deal(floats, placed, counts):
    """The slots and numbers of the next floats that counts deal out, and the counts that are then placed."""
    dealt = [(slot, number) for slot in range(len(floats))
             for number in range(placed[slot], placed[slot] + entry(counts, slot))]
    return dealt, tuple(placed[slot] + entry(counts, slot) for slot in range(len(floats)))


def are_there(floats, dealt):
    return all(number < len(floats[slot]) for slot, number in dealt)


def area_gaps(floats, area, is_allowed, dealt):
    """What stands between the floats of an area, and its gap; none where it is not allowed or its floats are not there."""
    if not dealt or not is_allowed or not are_there(floats, dealt):
        return []
    return [area.sep] * (len(dealt) - 1) + [area.gap]


def area_height(floats, area, is_allowed, dealt):
    """Sizes and gaps; 0 where the area is not allowed or its floats are not there."""
    gaps = area_gaps(floats, area, is_allowed, dealt)
    return sum(floats[slot][number] for slot, number in dealt) + sum(it.size for it in gaps) if gaps else 0


# ---- columns one after another


@dataclass(frozen=True)
class Numbers:
    """What a page text tells of a column with text."""

    goal: int
    total: int
    badness: int
    penalty: int
    demerits: int


@dataclass(frozen=True)
class Before:
    """What the columns so far leave to the next."""

    place: tuple = (0, 0, 0)
    columns: int = 0  # how many there are
    number: int = 1  # of the next column in its page
    page: int = 1
    run: int = None  # of the last column's page
    wide: int = None  # the height of the wide area of the last column's page
    placed: tuple = ()
    calls: tuple = ()  # for each class, the pages on which its floats are called
    fitness: int = None
    cost: int = 0
    numbers: Numbers = None  # of the last column, where it has text


class Document:
    """A galley with a style."""

    def __init__(self, blocks, style):
        self.blocks, self.style = blocks, style
        self.end = (len(blocks), 0, 0)
        self.floats = floats_of(blocks, style)
        self.classes = style.floats()

    def start(self):
        return Before(placed=(0,) * len(self.floats), calls=((),) * len(self.floats))

    def is_right(self, page):
        return {"single": False, "left": page % 2 == 0, "right": page % 2 == 1}[self.style.first]

    def text_of(self, before, column):
        """The items from the column's start on, and how many are its own; None where the column does not go on from
        the one before, or its picks do not lead to its end."""
        if column.start != before.place:
            return None
        found = items_from(self.blocks, column.start, column.picks)
        if found is None:
            return None
        places = [place for place, _, _ in found]
        if column.end == self.end:
            size = len(places)
        elif column.end in places:
            size = places.index(column.end)
        else:
            return None
        if sum(is_front for _, _, is_front in found[:size]) != len(column.picks):
            return None
        return found, size

    def picked(self, found, size, picks):
        """The variants that are picked."""
        fronts = [place[0] for place, _, is_front in found[:size] if is_front]
        return [self.blocks[block].variants[pick] for block, pick in zip(fronts, picks)]

    def add(self, before, page, column):
        """The rules that a column breaks behind those before it, and what it leaves; [2] and nothing where it does not
        go on from them."""
        text = self.text_of(before, column)
        if text is None:
            return [2], None
        found, size = text
        style, floats = self.style, self.floats
        is_first, is_text = before.number == 1, size > 0
        items = [item for _, item, _ in found]
        broken = set()

        # the floats
        wide_dealt, placed = deal(floats, before.placed, page.wide if is_first else ())
        top_dealt, placed = deal(floats, placed, column.top)
        bottom_dealt, placed = deal(floats, placed, column.bottom)
        dealt = wide_dealt + top_dealt + bottom_dealt
        is_wide_allowed = is_area_allowed(style, ("wide",), style.wide.count, page.wide)
        if is_text:
            top_allowed = is_area_allowed(style, ("top", "both"), style.top.count, column.top)
            bottom_allowed = is_area_allowed(style, ("bottom", "both"), style.bottom.count, column.bottom)
        else:
            anywhere = ("top", "bottom", "both")
            top_allowed = is_area_allowed(style, anywhere, style.float_count, column.top)
            bottom_allowed = is_area_allowed(style, anywhere, style.float_count, column.bottom)
        if not (top_allowed and bottom_allowed and (is_wide_allowed or not is_first)):
            broken.add(7)
        if not are_there(floats, dealt):
            broken.add(8)

        # heights
        wide = before.wide
        if is_first:
            wide = area_height(floats, style.wide, is_wide_allowed, wide_dealt) if wide_dealt else None
        extra, run_demerits = style.runs[page.run] if page.run < len(style.runs) else (0, 0)
        full = style.height + extra
        top_height = area_height(floats, style.top, top_allowed, top_dealt)
        room = full - (wide or 0) - top_height - area_height(floats, style.bottom, bottom_allowed, bottom_dealt)
        gaps = area_gaps(floats, style.top, top_allowed, top_dealt)
        gaps += area_gaps(floats, style.bottom, bottom_allowed, bottom_dealt)

        cost, fitness, numbers = before.cost, before.fitness, None
        if is_text:
            rules, numbers = self.judge_text(items, size, room, gaps)
            broken |= rules
            if not self.keeps_barriers(column.start, items, size, before.placed, placed):
                broken.add(14)
            cost += numbers.demerits
            if style.version >= 2:
                own = fitness_of(numbers.total, numbers.goal, numbers.badness)
                if fitness is not None and abs(fitness - own) > 1:
                    cost += style.fitness
                fitness = own
        else:
            has_floats = len(top_dealt) > 0 and not bottom_dealt
            is_idle = not top_dealt and not bottom_dealt and wide is not None
            if not (has_floats or is_idle):
                broken.add(3)
            gap = style.top.gap if top_dealt else style.wide.gap
            if (wide or 0) + top_height - gap.size > full:
                broken.add(6)
            cost += style.float_demerits

        # callouts and distances
        here = called(items[:size], self.classes)
        calls = tuple(own + (before.page,) * count for own, count in zip(before.calls, here))
        for slot, number in dealt:
            if number >= len(calls[slot]):
                broken.add(9)
                continue
            waited, table = before.page - calls[slot][number], self.classes[slot].distance
            if waited >= len(table):
                broken.add(10)
            else:
                cost += table[waited]

        # runs, picks
        if is_first:
            if page.run >= len(style.runs):
                broken.add(12)
            if self.is_right(before.page) and before.run is not None and before.run != page.run:
                broken.add(12)
            cost += run_demerits
        for variant in self.picked(found, size, column.picks):
            if abs(variant.looseness) > style.max_looseness:
                broken.add(13)
            cost += variant.demerits

        is_full = before.number == style.columns
        return sorted(broken), Before(
            place=column.end,
            columns=before.columns + 1,
            number=1 if is_full else before.number + 1,
            page=before.page + 1 if is_full else before.page,
            run=page.run,
            wide=wide,
            placed=placed,
            calls=calls,
            fitness=fitness,
            cost=cost,
            numbers=numbers,
        )

    def keeps_barriers(self, start, items, size, placed_before, placed):
        """Whether the floats that are called before a barrier are placed before a text that begins behind it, as far as
        they are called before its column, and with a text that ends behind it at the latest."""
        ahead = items_before(self.blocks, start)
        head = next((at for at, it in enumerate(items) if it.is_box()), len(items))
        before_text = map(min, called_before_barrier(ahead + items[:head], self.classes), called(ahead, self.classes))
        before_end = called_before_barrier(ahead + items[:size], self.classes)
        return all(a <= b for a, b in zip(before_text, placed_before)) and all(a <= b for a, b in zip(before_end, placed))

    def judge_text(self, items, size, room, gaps):
        """The rules that a text breaks in a room, below and above areas with these gaps, and its numbers."""
        style, broken = self.style, set()
        text = Text()
        for at, item in enumerate(items[:size]):
            if at > 0 and text.has_box and penalty_at(items, at) is not None:
                if is_forced(items, at) or text.is_over(text.goal(style, room), text.gaps(style, gaps)):
                    broken.add(5)
            text.add(item, style)
        penalty = penalty_at(items, size)
        if not text.has_box or penalty is None:
            broken.add(3)
        goal, gaps = text.goal(style, room), text.gaps(style, gaps)
        badness = text.badness(goal, gaps, style.ragged, is_spent(items, size))
        if text.is_over(goal, gaps) or not (is_forced(items, size) or badness <= style.tolerance):
            broken.add(4)
        if room < style.min_text:
            broken.add(6)
        if any(sum(text.notes.get(it.number, ())) > it.limit for it in style.notes()):
            broken.add(11)
        penalty = penalty or 0
        return broken, Numbers(goal, text.total, badness, penalty, demerits_of(style, badness, penalty))

    def is_done(self, before):
        """Whether only discardable items are left, and whether all floats are placed."""
        items = [item for _, item, _ in items_from(self.blocks, before.place, ())]
        return is_spent(items, 0), all(count == len(own) for count, own in zip(before.placed, self.floats))


# ---- paginations


def misfilled(style, plan):
    """The first column of the first page that lacks columns or has too many; None where all are full."""
    count = 0
    for number, page in enumerate(plan, 1):
        own = len(page.columns)
        if own == 0 or own > style.columns or (number < len(plan) and own < style.columns):
            return count + 1
        count += own
    return None


def judged(document, plan):
    """The least rule that is broken with its least column, or None, and the cost."""
    column = misfilled(document.style, plan)
    if column is not None:
        return (1, column), None
    before, faults = document.start(), []
    for page in plan:
        for column in page.columns:
            broken, after = document.add(before, page, column)
            if after is None:
                return (2, before.columns + 1), None
            faults += [(rule, after.columns) for rule in broken]
            before = after
    is_spent_there, has_dealt = document.is_done(before)
    if not is_spent_there:
        faults.append((2, before.columns))
    if not has_dealt:
        faults.append((8, before.columns))
    return (min(faults), None) if faults else (None, before.cost)


def order(plan):
    """The key of the order among equals: columns from the last to the first."""
    return [
        (column.end, column.start, page.run, page.wide if at == 0 else (0,) * len(page.wide), column.bottom, column.top,
         tuple(reversed(column.picks)))
        for page in reversed(plan)
        for at, column in reversed(list(enumerate(page.columns)))
    ]


def with_columns(plan, page, columns):
    """A pagination with other columns on one page."""
    return plan[:page] + (replace(plan[page], columns=tuple(columns)),) + plan[page + 1 :]
