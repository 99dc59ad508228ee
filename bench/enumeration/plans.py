"""Paginations of a small galley: all legal ones, those that break off at a column that breaks a rule, and spoilt ones."""

import itertools
from dataclasses import replace

from rules import Column, Item, Page, judged, order


def ends_of(document, place):
    """The ends of a column from a place, each with picks that lead to it."""
    blocks, ends = document.blocks, [(place, ())]
    block, variant, index = place
    if index > 0:
        ends += [((block, variant, at), ()) for at in range(index + 1, len(blocks[block].variants[variant].items))]
        block += 1
    open_picks = [()]
    for number in range(block, len(blocks)):
        it = blocks[number]
        if (number, 0, 0) != place:
            ends += [((number, 0, 0), picks) for picks in open_picks]
        if isinstance(it, Item):
            continue
        open_picks = [picks + (pick,) for picks in open_picks for pick in range(len(it.variants))]
        for picks in open_picks:
            ends += [((number, picks[-1], at), picks) for at in range(1, len(it.variants[picks[-1]].items))]
    if document.end != place:
        ends += [(document.end, picks) for picks in open_picks]
    return ends


def count_lists(document, placed, limit, areas):
    """Counts of the floats that are left, of classes of these areas, no more than the limit together."""
    left = [len(own) - count if it.area in areas else 0
            for it, own, count in zip(document.classes, document.floats, placed)]
    ranges = [range(min(limit, count) + 1) for count in left]
    return [it for it in itertools.product(*ranges) if sum(it) <= limit]


def columns_from(document, before, plan):
    """All columns with which a pagination may go on, each with its page, and many that break a rule."""
    style = document.style
    texts = count_lists(document, before.placed, style.top.count, ("top", "both"))
    bottoms = count_lists(document, before.placed, style.bottom.count, ("bottom", "both"))
    alone = count_lists(document, before.placed, style.float_count, ("top", "bottom", "both"))
    none = (0,) * len(document.classes)
    if before.number == 1:
        wides = count_lists(document, before.placed, style.wide.count, ("wide",))
        heads = [Page(run, wide, ()) for run in range(len(style.runs)) for wide in wides]
    else:
        heads = [replace(plan[-1], columns=())]
    for end, picks in ends_of(document, before.place):
        kinds = itertools.product(alone, (none,)) if end == before.place else itertools.product(texts, bottoms)
        for top, bottom in kinds:
            for head in heads:
                yield head, Column(before.place, end, top, bottom, picks)


def with_column(before, plan, head, column):
    """The pagination with one more column."""
    if before.number == 1:
        return plan + (replace(head, columns=(column,)),)
    return plan[:-1] + (replace(plan[-1], columns=plan[-1].columns + (column,)),)


class Listing:
    """All paginations of a document that break no rule but at their end, and for each rule some that break it in their
    last column, and no lesser rule.

    It gives up, and is not whole, where it has looked at too many columns."""

    def __init__(self, document, chance, budget):
        self.document, self.chance = document, chance
        self.left, self.is_whole = budget, True
        self.unbroken, self.broken = [], {}
        self.go_on(document.start(), ())

    def go_on(self, before, plan):
        self.unbroken.append(plan)
        steps = list(columns_from(self.document, before, plan))
        self.chance.shuffle(steps)
        for head, column in steps:
            if self.left == 0:
                self.is_whole = False
                return
            self.left -= 1
            broken, after = self.document.add(before, head, column)
            longer = with_column(before, plan, head, column)
            if not broken:
                self.go_on(after, longer)
                continue
            kept = self.broken.setdefault(min(broken), [])
            if after is not None and len(kept) < 8:
                kept.append(self.ended(after, longer))

    def ended(self, before, plan):
        """A pagination with more columns, up to the end of the galley and of its floats if that comes about."""
        for _ in range(8):
            if all(self.document.is_done(before)):
                return plan
            steps = list(columns_from(self.document, before, plan))
            self.chance.shuffle(steps)
            for head, column in steps:
                broken, after = self.document.add(before, head, column)
                if not broken:
                    plan, before = with_column(before, plan, head, column), after
                    break
            else:
                return plan
        return plan


# ---- spoilt paginations


def random_place(chance, document):
    blocks = document.blocks
    kind = chance.random()
    if kind < 0.7 or not blocks:
        return (chance.randint(0, len(blocks)), 0, 0)
    return (chance.randint(0, len(blocks) + 1), chance.choice([0, 0, 1, 2, 4294967295]), chance.choice([0, 1, 2, 5, 4294967295]))


def spoilt_counts(chance, numbers):
    numbers = list(numbers)
    kind = chance.random()
    if kind < 0.2:
        numbers.append(chance.choice([0, 0, 1, 65535]))
    elif kind < 0.35 and numbers:
        numbers.pop(chance.randrange(len(numbers)))
    elif numbers:
        at = chance.randrange(len(numbers))
        numbers[at] = chance.choice([0, 1, 2, 3, 5, 65535, max(0, numbers[at] - 1), min(65535, numbers[at] + 1)])
    return tuple(numbers)


def spoilt_picks(chance, picks):
    picks = list(picks)
    kind = chance.random()
    if kind < 0.3 or not picks:
        picks.insert(chance.randint(0, len(picks)), chance.choice([0, 0, 1, 2, 4294967295]))
    elif kind < 0.6:
        picks.pop(chance.randrange(len(picks)))
    else:
        picks[chance.randrange(len(picks))] = chance.choice([0, 1, 2, 9, 4294967295])
    return tuple(picks)


def spoilt_column(chance, document, column):
    kind = chance.randrange(8)
    if kind == 0:
        return replace(column, start=random_place(chance, document))
    if kind in (1, 2):
        return replace(column, end=random_place(chance, document))
    if kind == 3:
        return replace(column, picks=spoilt_picks(chance, column.picks))
    if kind == 4:
        return replace(column, end=column.start)
    if kind in (5, 6):
        return replace(column, top=spoilt_counts(chance, column.top))
    return replace(column, bottom=spoilt_counts(chance, column.bottom))


def spoilt(chance, document, plan):
    """A pagination with one thing changed."""
    pages = list(plan)
    if not pages:
        none = (0,) * len(document.classes)
        column = Column((0, 0, 0), random_place(chance, document), none, none, ())
        return (Page(0, none, chance.choice([(), (column,)])),)
    at = chance.randrange(len(pages))
    page, kind = pages[at], chance.randrange(10)
    columns = list(page.columns)
    if kind == 0:
        pages[at] = replace(page, run=chance.choice([0, 1, 2, 3, 255]))
    elif kind == 1:
        pages[at] = replace(page, wide=spoilt_counts(chance, page.wide))
    elif kind == 2:
        pages.insert(at, chance.choice([replace(page, columns=()), page]))
    elif kind == 3:
        del pages[at]
    elif kind == 4 and columns:
        del columns[chance.randrange(len(columns))]
        pages[at] = replace(page, columns=tuple(columns))
    elif kind == 5 and columns:
        columns.insert(chance.randint(0, len(columns)), chance.choice(columns))
        pages[at] = replace(page, columns=tuple(columns))
    elif columns:
        which = chance.randrange(len(columns))
        columns[which] = spoilt_column(chance, document, columns[which])
        pages[at] = replace(page, columns=tuple(columns))
    return tuple(pages)


def chained(plan):
    """The pagination with each column starting where the one before ends, and without text where that is its end too."""
    place, pages = (0, 0, 0), []
    for page in plan:
        columns = []
        for column in page.columns:
            columns.append(replace(column, start=place))
            place = column.end
        pages.append(replace(page, columns=tuple(columns)))
    return tuple(pages)


def random_plans(chance, document, listing, count):
    """Paginations of the listing and spoilt ones, of each kind and each rule no more than a number. Those that break the
    first two rules are not taken as often as they come."""
    legal = [plan for plan in listing.unbroken if judged(document, plan)[0] is None]
    found = chance.sample(legal, min(count, len(legal)))
    found += chance.sample(listing.unbroken, min(count // 3, len(listing.unbroken)))
    for kept in listing.broken.values():
        found += chance.sample(kept, min(count // 3, len(kept)))
    sources = found[:]
    for _ in range(count):
        for _ in range(5):
            plan = chance.choice(sources)
            for _ in range(chance.choice([1, 1, 1, 2, 3])):
                plan = spoilt(chance, document, plan)
            if chance.random() < 0.5:
                plan = chained(plan)
            fault = judged(document, plan)[0]
            if fault is None or fault[0] > 2 or chance.random() < 0.1:
                break
        found.append(plan)
    return found


def best_of(document, listing):
    """The cost, the key and the pages of the cheapest legal pagination, of equal ones the first; None where there is none."""
    found = []
    for plan in listing.unbroken:
        fault, cost = judged(document, plan)
        if fault is None:
            found.append((cost, order(plan), plan))
    return min(found, key=lambda it: it[:2]) if found else None
