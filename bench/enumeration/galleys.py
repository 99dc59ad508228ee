"""Small random galleys and styles, of which sizes come from a few, so that pages are often just full."""

from dataclasses import replace

from rules import POINT, Area, Choice, Class, Gap, Item, Style, Variant


def random_class(chance, number, is_plain_table):
    if chance.random() < 0.35:
        skip, limit = chance.choice([0, 2, 4]) * POINT, chance.choice([0, 5, 9, 12, 100]) * POINT
        return Class(number, "note", skip=Gap(skip), limit=limit)
    distance = sorted(chance.choice([0, 0, 7, 50, 100, 400]) for _ in range(chance.choice([1, 2, 2, 3, 4])))
    if is_plain_table:
        distance = [0, 100, 400]
    return Class(number, "float", area=chance.choice(["top", "bottom", "both", "both", "wide"]), distance=tuple(distance))


def random_area(chance):
    count, sep, gap = chance.choice([0, 1, 1, 2, 4]), chance.choice([0, 2]) * POINT, chance.choice([0, 0, 4]) * POINT
    return Area(count, Gap(sep), Gap(gap))


def random_style(chance):
    version = chance.choice([1, 2])
    height = chance.choice([10, 15, 20, 22, 22, 34, 34, 46, 58]) * POINT
    runs = [(chance.choice([0, 0, 0, 5 * POINT]), chance.choice([0, 0, 7, 100]))]
    for _ in range(chance.choice([0, 0, 0, 1, 1, 2])):
        runs.append((chance.choice([12 * POINT, -9 * POINT, 1, -1, 24 * POINT]), chance.choice([0, 50, 300])))
    numbers = chance.sample([0, 7, 99, 100, 101, 200, 254, 253], chance.choice([0, 1, 1, 2, 2, 3, 4, 8 if version == 2 else 4]))
    return Style(
        version=version,
        columns=chance.choice([1, 1, 2]),
        first=chance.choice(["single", "single", "left", "right"]),
        height=height,
        topskip=chance.choice([0, 5, 10, 10]) * POINT,
        maxdepth=chance.choice([0, 1, 4, 4]) * POINT,
        min_text=chance.choice([0, 0, 0, 12, 20]) * POINT,
        tolerance=chance.choice([10000] * 5 + [9999, 2000, 200, 0]),
        line=chance.choice([0, 1, 10, 100]),
        max_looseness=chance.choice([0, 1, 1, 100]),
        fitness=chance.choice([0, 3000, 3000, 10**8]) if version == 2 else 0,
        runs=tuple(runs),
        top=random_area(chance),
        bottom=random_area(chance),
        wide=random_area(chance),
        float_count=chance.choice([0, 1, 2, 4]),
        float_demerits=chance.choice([1, 1000]),
        classes=tuple(random_class(chance, number, chance.random() < 0.2) for number in numbers),
    )


def random_box(chance):
    if chance.random() < 0.15:
        height = chance.choice([0, 3, 10, 12, -2]) * POINT + chance.choice([0, 1, 7])
        return Item(chance.choice(["box", "rule"]), height=height, depth=chance.choice([0, 5, 1, -1]) * POINT)
    return Item("box", height=7 * POINT, depth=2 * POINT)


def random_glue(chance):
    if chance.random() < 0.4:
        return Item("glue", width=3 * POINT)
    order = chance.choice(["", "", "", "", "fil", "fill", "filll"])
    return Item(
        "glue",
        width=chance.choice([0, 3, 3, 3, -3, 12]) * POINT + chance.choice([0, 0, 0, 1]),
        stretch=chance.choice([0, 0, 1, 4, 6, 12, -1]) * POINT,
        order=order,
        shrink=chance.choice([0, 0, 0, 1, 3, -1]) * POINT,
    )


def random_penalty(chance):
    return Item("penalty", penalty=chance.choice([0, 150, 50, -50, -300, 9999, -9999, 10000, 20000, -10000, -10000, -20000]))


def random_insert(chance, style):
    if not style.classes:
        return Item("mark")
    it = chance.choice(style.classes)
    return Item("insert", number=it.number, size=chance.choice([0, 3, 5, 9, 10]) * POINT + chance.choice([0, 0, 0, 1]))


def random_item(chance, style):
    """An item that may stand anywhere."""
    kind = chance.random()
    if kind < 0.42:
        return random_box(chance)
    if kind < 0.7:
        return random_glue(chance)
    if kind < 0.8:
        return random_penalty(chance)
    if kind < 0.86:
        return Item("kern", width=chance.choice([3, 0, -2]) * POINT)
    if kind < 0.97:
        return random_insert(chance, style)
    return Item("mark")


def random_choice(chance, style):
    """One to three variants with the same inserts, each between two boxes."""
    inserts = [random_insert(chance, style) for _ in range(chance.choice([0, 0, 0, 1, 2]))]
    variants = []
    for _ in range(chance.choice([1, 2, 2, 3])):
        items = [Item("box", height=7 * POINT, depth=2 * POINT)]
        for _ in range(chance.choice([0, 1, 1, 2])):
            if chance.random() < 0.4:
                items.append(random_penalty(chance))
            items += [random_glue(chance), Item("box", height=7 * POINT, depth=2 * POINT)]
        behind = 1
        for insert in inserts:
            behind = chance.randint(behind, len(items))
            items.insert(behind, insert)
            behind += 1
        variants.append(Variant(chance.choice([0, 0, 0, 1, -1, 2]), chance.choice([0, 0, 7, 400]), tuple(items)))
    return Choice(tuple(variants))


def random_galley(chance, style):
    blocks = []
    for _ in range(chance.choice([0, 1, 3, 5, 6, 7, 8, 9, 10, 11, 12])):
        if chance.random() < 0.08:
            blocks.append(random_choice(chance, style))
        else:
            blocks.append(random_item(chance, style))
    return tuple(blocks)


# ---- version 3 of the style, and barriers


def soft(chance, gap):
    """A gap that may stretch and shrink, at times longer than it was."""
    size = gap.size + chance.choice([0, 0, 3, 6]) * POINT + chance.choice([0, 0, 0, 1])
    stretch = chance.choice([0, 0, 1, 2, 6, 12]) * POINT + chance.choice([0, 0, 0, 1])
    return Gap(size, stretch, min(size, chance.choice([0, 1, 2, 2, 4, 12]) * POINT + chance.choice([0, 0, 0, 1])))


def soft_area(chance, area):
    return replace(area, sep=soft(chance, area.sep), gap=soft(chance, area.gap))


def of_version_3(chance, style):
    """The style with gaps that give, and now and then with ragged texts."""
    classes = tuple(replace(it, skip=soft(chance, it.skip)) if it.kind == "note" else it for it in style.classes)
    return replace(
        style,
        version=3,
        fitness=chance.choice([0, 3000]),
        top=soft_area(chance, style.top),
        bottom=soft_area(chance, style.bottom),
        wide=soft_area(chance, style.wide),
        classes=classes,
        ragged=chance.choice([None, None, None, 1, POINT, 6 * POINT, 30 * POINT]),
    )


def busy_style(chance):
    """A style with a few classes of floats and notes, for which there is room."""
    areas = [Area(chance.choice([1, 1, 2]), Gap(2 * POINT), Gap(4 * POINT)) for _ in range(3)]
    numbers = chance.sample([7, 100, 101, 200], chance.choice([1, 2, 2]))
    classes = [random_class(chance, number, chance.random() < 0.4) for number in numbers]
    style = replace(
        random_style(chance),
        height=chance.choice([20, 28, 34, 41]) * POINT + chance.choice([0, 0, 1]),
        min_text=0,
        tolerance=chance.choice([10000, 10000, 10000, 800, 100]),
        top=areas[0],
        bottom=areas[1],
        wide=areas[2],
        float_count=chance.choice([0, 1, 2]),
        classes=tuple(replace(it, limit=100 * POINT) if it.kind == "note" else it for it in classes),
    )
    return replace(style, runs=style.runs[:2])


def busy_galley(chance, style):
    """Lines with glue between that may be soft, a few of which call floats and notes."""
    items = []
    for number in range(chance.choice([2, 3, 4, 5, 6])):
        if number:
            kind = chance.random()
            if kind < 0.3:
                items.append(random_penalty(chance))
            items.append(random_glue(chance) if chance.random() < 0.5 else Item("glue", width=3 * POINT))
        items.append(Item("box", height=7 * POINT, depth=2 * POINT))
        if chance.random() < 0.5:
            items.append(random_insert(chance, style))
    return tuple(items)


def with_barriers(chance, blocks):
    """The blocks with a barrier or two between them."""
    found = list(blocks)
    for _ in range(chance.choice([0, 0, 1, 1, 2])):
        found.insert(chance.randint(0, len(found)), Item("barrier"))
    return tuple(found)


def random_document(number, chance, has_version_3):
    """A style and a galley: of four one plain, two random, and one with many floats and notes; every second four have barriers.
    With version 3 two of the four are of it, else none is."""
    if number % 4 == 0:
        return plain_style(chance), plain_galley(chance)
    style = busy_style(chance) if number % 4 == 3 else random_style(chance)
    blocks = busy_galley(chance, style) if number % 4 == 3 else random_galley(chance, style)
    if has_version_3 and number % 4 >= 2:
        style = of_version_3(chance, style)
    return style, with_barriers(chance, blocks) if number // 4 % 2 else blocks


def words_and_version(words):
    """The words of a call without `--version-3`, and whether that was among them."""
    return [it for it in words if it != "--version-3"], "--version-3" in words


# ---- boxes and rigid glue


def plain_galley(chance):
    """Up to fourteen items, boxes and glue that neither stretches nor shrinks."""
    heights = [chance.choice([0, 3, 5, 7, 7, 10, 12]) * POINT + chance.choice([0, 0, 0, 1, 7]) for _ in range(3)]
    items = []
    for _ in range(chance.randint(0, 14)):
        if chance.random() < 0.6:
            height = chance.choice(heights + [-2 * POINT])
            items.append(Item("box", height=height, depth=chance.choice([0, 2, 5, 1, -1]) * POINT))
        else:
            items.append(Item("glue", width=chance.choice([0, 0, 3 * POINT, -3 * POINT, 12 * POINT, 1])))
    return tuple(items)


def plain_style(chance):
    """One column, single sides, one run, no notes and no floats."""
    none = Area(0, Gap(), Gap())
    return Style(
        version=1,
        columns=1,
        first="single",
        height=chance.choice([10, 12, 15, 20, 22, 30, 34]) * POINT,
        topskip=chance.choice([0, 5, 10]) * POINT,
        maxdepth=chance.choice([0, 1, 4]) * POINT,
        min_text=chance.choice([0, 0, 0, 12]) * POINT,
        tolerance=chance.choice([10000] * 7 + [9999, 200, 0]),
        line=chance.choice([0, 1, 10, 100]),
        max_looseness=0,
        fitness=0,
        runs=((chance.choice([0, 0, 0, 1, -1, 5]) * POINT, chance.choice([0, 0, 7, 100])),),
        top=none,
        bottom=none,
        wide=none,
        float_count=0,
        float_demerits=1000,
        classes=(),
    )
