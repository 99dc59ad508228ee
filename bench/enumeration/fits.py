"""First fit, as TeX's page builder makes pages (TeX: The Program, §1000 to §1009), read from docs/definitions.md.

From the start of a page it adds up item by item. At each break behind the first box it knows what the page would cost that ends
there, and it goes on until a break ejects the page or the page is too long. The last of the cheapest breaks ends the page.
The skip of a class of notes counts from its first note on, in version 3 of the style with its stretch and shrink: these are
added to those of the text, as TeX adds them. The foot of a ragged style is none of TeX's, and counts nothing here."""

import rules

AWFUL, DEPLORABLE, EJECT = 1073741823, 100000, -10000


def shrink_of(text, style):
    return text.shrink + sum(it.shrink for it in text.gaps(style, []))


def is_over(text, style, goal):
    return text.total >= goal and text.total - goal > shrink_of(text, style)


def cost_at(items, at, text, style, goal):
    """What the page would cost that ends at a break."""
    penalty = EJECT if at == len(items) else rules.penalty_at(items, at)
    if is_over(text, style, goal):
        return AWFUL, True
    if penalty <= EJECT:
        return penalty, True
    badness = text.badness(goal, text.gaps(style, []), None, rules.is_spent(items, at))
    return (badness + penalty if badness < 10000 else DEPLORABLE), False


def page_size(items, style):
    """How many items the first page takes."""
    room = style.height + style.runs[0][0]
    text, least, best = rules.Text(), None, len(items)
    for at in range(len(items) + 1):
        if text.has_box and rules.penalty_at(items, at) is not None:
            cost, is_last = cost_at(items, at, text, style, text.goal(style, room))
            if least is None or cost <= least:
                least, best = cost, at
            if is_last:
                break
        if at < len(items):
            text.add(items[at], style)
    return best


def first_fit(document):
    """The pages, of a galley without choices and floats and a style of one column."""
    items, none = list(document.blocks), (0,) * len(document.classes)
    pages, start = [], 0
    while not rules.is_spent(items[start:], 0):
        end = start + page_size(items[start:], document.style)
        column = rules.Column((start, 0, 0), (end, 0, 0), none, none, ())
        pages.append(rules.Page(0, none, (column,)))
        start = end
    return tuple(pages)


def told(document, best):
    """What `pg compare` writes; `best` is the cost, the key and the pages of the best pagination, or None."""
    pages = first_fit(document)
    fault, cost = rules.judged(document, pages)
    if fault is None:
        first = f"cost {cost} saved {cost - best[0]}"
    else:
        first = f"illegal rule {fault[0]} column {fault[1]}"
    last = "no legal pagination" if best is None else f"best pages {len(best[2])} cost {best[0]}"
    return f"first fit pages {len(pages)} {first}\n{last}\n"
