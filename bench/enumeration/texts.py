"""Galleys, styles and paginations as texts: the notation of TeX's log, a style file, and lines for test_plans."""

from rules import POINT, Item


def points(units):
    """Scaled units in points, as TeX prints them: the shortest fraction that reads back."""
    sign, units = ("-", -units) if units < 0 else ("", units)
    text, rest, delta = f"{sign}{units // POINT}.", 10 * (units % POINT) + 5, 10
    while True:
        if delta > POINT:
            rest += 32768 - 50000
        text += str(rest // POINT)
        rest, delta = 10 * (rest % POINT), 10 * delta
        if rest <= delta:
            return text


def glue_text(width, stretch, order, shrink):
    """A width, and what it may be stretched and shrunk by where that is something."""
    plus = f" plus {points(stretch)}{order}" if stretch or order else ""
    return f"{points(width)}{plus}{' minus ' + points(shrink) if shrink else ''}"


def gap_text(gap):
    return glue_text(gap.size, gap.stretch, "", gap.shrink)


def item_line(item):
    if item.kind == "box":
        return f".\\hbox({points(item.height)}+{points(item.depth)})x345.0\n"
    if item.kind == "rule":
        return f".\\rule({points(item.height)}+{points(item.depth)})x*\n"
    if item.kind == "glue":
        return f".\\glue {glue_text(item.width, item.stretch, item.order, item.shrink)}\n"
    if item.kind == "kern":
        return f".\\kern {points(item.width)}\n"
    if item.kind == "penalty":
        return f".\\penalty {item.penalty}\n"
    if item.kind == "insert":
        return f".\\insert{item.number}, natural size {points(item.size)}; split(0.0,0.0); float cost 0\n"
    return ".\\special{pg:flush}\n" if item.kind == "barrier" else ".\\mark{x}\n"


def galley_text(blocks):
    lines = ["\\vbox(0.0+0.0)x345.0\n"]
    for block in blocks:
        if isinstance(block, Item):
            lines.append(item_line(block))
            continue
        lines.append(".\\special{pg:choice}\n")
        for variant in block.variants:
            lines.append(f".\\special{{pg:variant {variant.looseness} {variant.demerits}}}\n")
            lines += map(item_line, variant.items)
        lines.append(".\\special{pg:end}\n")
    return "".join(lines)


def style_text(style):
    lines = [
        f"version = {style.version}",
        f"columns = {style.columns}",
        f'first = "{style.first}"',
        *(f'{key} = "{points(getattr(style, key))}"' for key in ("height", "topskip", "maxdepth", "min_text")),
        *(f"{key} = {getattr(style, key)}" for key in ("tolerance", "line", "max_looseness")),
    ]
    if style.version >= 2:
        lines.append(f"fitness = {style.fitness}")
    if style.ragged is not None:
        lines.append(f'ragged = "{points(style.ragged)}"')
    for extra, demerits in style.runs:
        lines += ["[[runs]]", f'extra = "{points(extra)}"', f"demerits = {demerits}"]
    for name in ("top", "bottom", "wide"):
        area = getattr(style, name)
        lines += [f"[{name}]", f"count = {area.count}", f'sep = "{gap_text(area.sep)}"', f'gap = "{gap_text(area.gap)}"']
    lines += ["[float_column]", f"count = {style.float_count}", f"demerits = {style.float_demerits}"]
    for it in style.classes:
        lines += ["[[classes]]", f"number = {it.number}", f'kind = "{it.kind}"']
        if it.kind == "note":
            lines += [f'skip = "{gap_text(it.skip)}"', f'limit = "{points(it.limit)}"']
        else:
            lines += [f'area = "{it.area}"', f"distance = {list(it.distance)}"]
    return "\n".join(lines) + "\n"


def counts(numbers):
    return ",".join(map(str, numbers)) or "-"


def place(numbers):
    return " ".join(map(str, numbers))


def plan_text(name, plan):
    lines = [f"plan {name}"]
    for page in plan:
        lines.append(f"page run {page.run} wide {counts(page.wide)}")
        for it in page.columns:
            lines.append(
                f"column from {place(it.start)} to {place(it.end)} top {counts(it.top)} bottom {counts(it.bottom)} "
                f"picks {counts(it.picks)}"
            )
    return "\n".join(lines) + "\n"


def numbers_line(numbers, float_demerits):
    if numbers is None:
        return f"without text demerits {float_demerits}"
    return (
        f"set goal {points(numbers.goal)} total {points(numbers.total)} badness {numbers.badness} "
        f"penalty {numbers.penalty} demerits {numbers.demerits}"
    )


def page_lines(document, plan, cost):
    """The first line, and the lines that begin a page and a column, of the page text that is due."""
    style, before = document.style, document.start()
    lines = [f"pages {len(plan)} cost {cost} width 345.0"]
    for number, page in enumerate(plan, 1):
        side = "S" if style.first == "single" else "R" if document.is_right(number) else "L"
        lines.append(f"page {number} side {side} run {page.run} wide {counts(page.wide)}")
        for at, it in enumerate(page.columns, 1):
            lines.append(
                f"column {at} from {place(it.start)} to {place(it.end)} top {counts(it.top)} bottom {counts(it.bottom)} "
                f"picks {counts(it.picks)}"
            )
            before = document.add(before, page, it)[1]
            lines.append(numbers_line(before.numbers, style.float_demerits))
    return lines
