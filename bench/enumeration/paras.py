"""Paragraphs as finished horizontal lists, and all ways to break them, one by one, read from docs/definitions.md and written in
the plainest way.

`due_for` answers what `pg lines` has to write for a file of paragraphs, with its status and its line; `some_para` and `file_text`
make random ones. It shares no code with the program."""

from collections import Counter
from dataclasses import dataclass

from rules import POINT, Item, badness_of, is_forced, penalty_at
from texts import points

ORDERS = ("", "fil", "fill", "filll")


@dataclass(frozen=True)
class Rule:
    width: int
    tolerance: int
    around: int

    def words(self, file):
        return ["lines", "--width", points(self.width), "--tolerance", str(self.tolerance), "--around", str(self.around), file]


# ---- ways, one by one


def line_of(items, start, end):
    """The items of a line, from its first box on."""
    line = items[start:end]
    while line and not line[0].is_box():
        line = line[1:]
    return line


def total_of(line):
    return sum(it.width for it in line)


def badness(rule, line):
    total = total_of(line)
    if total >= rule.width:
        return badness_of(total - rule.width, sum(it.shrink for it in line))
    stretch = {order: sum(it.stretch for it in line if it.order == order) for order in ORDERS}
    return 0 if any(stretch[order] for order in ORDERS[1:]) else badness_of(rule.width - total, stretch[""])


def may_stand(rule, items, start, end):
    """Whether a line may go from one place to another."""
    line = line_of(items, start, end)
    if not line or penalty_at(items, end) is None:
        return False
    if any(is_forced(items, at) and line_of(items, start, at) for at in range(start + 1, end)):
        return False
    total = total_of(line)
    if total >= rule.width and total - rule.width > sum(it.shrink for it in line):
        return False
    return badness(rule, line) <= rule.tolerance or is_forced(items, end)


def demerits(rule, items, start, end):
    penalty = penalty_at(items, end)
    extra = penalty**2 if penalty >= 0 else -(penalty**2) if penalty > -10000 else 0
    return (10 + badness(rule, line_of(items, start, end))) ** 2 + extra


def ways_from(rule, items, start):
    """All ways to go on from a place: what each costs, with the places where its lines end."""
    if start == len(items):
        yield 0, ()
    for end in range(start + 1, len(items) + 1):
        if may_stand(rule, items, start, end):
            cost = demerits(rule, items, start, end)
            for more, ends in ways_from(rule, items, end):
                yield cost + more, (end, *ends)


def variants_of(rule, items):
    """The looseness, the demerits and the ends of each variant; None where no way is legal."""
    ways = [way for way in ways_from(rule, items, 0) if way[1]]
    if not ways:
        return None
    best_cost, _, best = min((cost, len(ends), len(ends)) for cost, ends in ways)
    found = []
    for looseness in (0, -1, 1, -2, 2)[: 1 + 2 * rule.around]:
        some = [(cost, ends[::-1]) for cost, ends in ways if len(ends) == best + looseness]
        if some:
            cost, back = min(some)
            found.append((looseness, min(abs(cost - best_cost), 10**8), back[::-1]))
    return found


# ---- what is written


def set_widths(rule, line):
    """The width of each glue of a line, set to the width of lines."""
    glue = [it for it in line if it.kind == "glue"]
    short = rule.width - total_of(line)
    if short == 0:
        return [it.width for it in glue]
    amounts = [(it.stretch, it.order) if short > 0 else (it.shrink, "") for it in glue]
    sums = {order: sum(amount for amount, own in amounts if own == order) for order in ORDERS}
    chosen = next((order for order in reversed(ORDERS) if sums[order]), "")
    widths, front, before = [], 0, 0
    for it, (amount, order) in zip(glue, amounts):
        front += amount if order == chosen else 0
        share = abs(short) * front // sums[chosen] if sums[chosen] > 0 else 0
        widths.append(it.width + (share - before) * (1 if short > 0 else -1))
        before = share
    return widths


def line_text(rule, line):
    """A line as an item of a galley."""
    height = max(557056, *(it.height for it in line))
    depth = max(229376, *(it.depth for it in line if it.is_box()))
    texts, widths = [f".\\hbox({points(height)}+{points(depth)})x{points(rule.width)}\n"], set_widths(rule, line)
    for it in line:
        first, *later = it.body.split("\n")
        if it.kind == "glue":
            first += f", set {points(widths.pop(0))}"
        texts += [f"..{text}\n" for text in (first, *later)]
    return "".join(texts)


def variant_text(rule, items, variant):
    looseness, cost, ends = variant
    texts, start = [f".\\special{{pg:variant {looseness} {cost}}}\n"], 0
    for number, end in enumerate(ends, 1):
        texts.append(line_text(rule, line_of(items, start, end)))
        if number < len(ends):
            texts.append(f".\\penalty {150 * (number == 1) + 150 * (number + 1 == len(ends))}\n")
        start = end
    return "".join(texts)


def due_for(rule, paras, file):
    """The text, the status and the line that are due for the paragraphs of a file."""
    texts = []
    for number, items in enumerate(paras, 1):
        variants = variants_of(rule, items)
        if variants is None:
            return "", 3, f"pg: {file}: paragraph {number} cannot be broken\n", Counter()
        texts.append(
            ".\\special{pg:choice}\n" + "".join(variant_text(rule, items, it) for it in variants) + ".\\special{pg:end}\n"
        )
    galley = f"\\vbox(0.0+0.0)x{points(rule.width)}\n" + ".\\glue(\\parskip) 0.0 plus 1.0\n".join(texts)
    return galley, 0, "", Counter(text.count("{pg:variant ") for text in texts)


# ---- random paragraphs


def size(chance, most):
    """A length, mostly in half points, now and then odd, 0 or below 0."""
    units = chance.choice([chance.randint(0, 2 * most) * POINT // 2] * 6 + [chance.randint(0, most * POINT), 0])
    return -units if chance.random() < 0.04 else units


def random_item(chance):
    """An item with the text that shows it."""
    kind = chance.choice(["box"] * 4 + ["glue"] * 4 + ["penalty", "kern", "leaders"])
    deeper = "\n.\\x a\n..\\x b" if chance.random() < 0.1 else "\n.\\x c" if chance.random() < 0.1 else ""
    if kind == "box":
        height, depth, width = size(chance, 12), size(chance, 5), size(chance, 14)
        name = chance.choice(["hbox", "hbox", "vbox"])
        body = f"\\{name}({points(height)}+{points(depth)})x{points(width)}" + chance.choice(["", "", ", glue set 1.0", " []"])
        return Item("box", height=height, depth=depth, width=width, body=body + deeper)
    if kind in ("glue", "leaders"):
        width, stretch, shrink = size(chance, 4), size(chance, 3), size(chance, 2)
        order = chance.choice(ORDERS) if chance.random() < 0.15 else ""
        name = chance.choice(["\\glue", "\\glue(\\spaceskip)"])
        if kind == "leaders":
            name = chance.choice(["\\leaders", "\\cleaders", "\\xleaders"])
        body = f"{name} {points(width)}"
        body += f" plus {points(stretch)}{order}" if stretch or order else ""
        body += f" minus {points(shrink)}" if shrink else ""
        return Item("glue", width=width, stretch=stretch, order=order, shrink=shrink, body=body + deeper)
    if kind == "kern":
        width = size(chance, 3)
        return Item("kern", width=width, body=chance.choice(["\\kern", "\\kern "]) + points(width) + deeper)
    penalty = chance.choice([-10001, -10000, -10000, -9999, -50, 0, 50, 50, 200, 9999, 10000, chance.randint(-(2**31), 2**31 - 1)])
    return Item("penalty", penalty=penalty, body=f"\\penalty {penalty}" + deeper)


def random_para(chance):
    """Up to twelve items, mostly words with glue between them, and what fills the last line."""
    items = [random_item(chance) for _ in range(chance.randint(0, 9))]
    if chance.random() < 0.5:
        items = [part for it in items[:5] for part in (it, random_item(chance))]
    if chance.random() < 0.6:
        items.append(Item("penalty", penalty=10000, body="\\penalty 10000"))
        items.append(Item("glue", stretch=POINT, order="fil", body="\\glue 0.0 plus 1.0fil"))
    return tuple(items)


def some_para(chance, rule):
    """Of a few paragraphs mostly the one that has most variants."""
    paras = [random_para(chance) for _ in range(chance.choice([1, 4, 8]))]
    return max(paras, key=lambda items: len(variants_of(rule, items) or ()))


def item_text(item):
    return "".join(f".{line}\n" for line in item.body.split("\n"))


def file_text(chance, paras):
    """The file of paragraphs, with talk in front of some, and now and then no line feed at its end."""
    texts = []
    for items in paras:
        talk = chance.choice(["", "", "> \\box0=\n", ".\\hbox(1.0+1.0)x1.0\n\n"])
        root = f"\\hbox({points(size(chance, 9))}+0.0)x{chance.choice(['0.0', '345.0', '99999.0'])}\n"
        texts.append(talk + root + "".join(map(item_text, items)))
    text = "\n".join(texts)
    return text[:-1] if chance.random() < 0.1 else text.replace("\n", "\r\n") if chance.random() < 0.05 else text
