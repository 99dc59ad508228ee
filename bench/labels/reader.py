"""Reads galleys and styles as docs/input.md says, of files without a fault: lines that are not wrapped, and TOML."""

import re
import tomllib

from rules import POINT, Area, Choice, Class, Gap, Item, Style, Variant

NUMBER = r"(-?\d+\.\d+)"
BOX = re.compile(rf"\\(hbox|vbox|rule)\({NUMBER}\+{NUMBER}\)x")
GLUE = re.compile(
    rf"\\(?:glue |glue\([^)]*\) |leaders |cleaders |xleaders ){NUMBER}(?: plus {NUMBER}(fil|fill|filll)?)?"
    rf"(?: minus {NUMBER})?(?: \[\])?$"
)
KERN = re.compile(rf"\\kern ?{NUMBER}")
PENALTY = re.compile(r"\\penalty (-?\d+)")
INSERT = re.compile(rf"\\insert(\d+), natural size {NUMBER}")
GAP = re.compile(rf"{NUMBER}(?: plus {NUMBER})?(?: minus {NUMBER})?$")
VARIANT = re.compile(r"\.\\special\{pg:variant (-?\d+) (\d+)\}$")


def units(text):
    """The scaled units of a number of points, of which 17 digits behind the point count."""
    sign, text = (-1, text[1:]) if text.startswith("-") else (1, text)
    whole, digits = text.split(".")
    rest = 0
    for digit in reversed(digits[:17]):
        rest = (rest + int(digit) * 2 * POINT) // 10
    return sign * (int(whole) * POINT + (rest + 1) // 2)


def item(body):
    """The item that these lines show."""
    first = body.partition("\n")[0]
    if found := BOX.match(first):
        kind = "rule" if found[1] == "rule" else "box"
        return Item(kind, height=units(found[2]), depth=units(found[3]), body=body)
    if found := GLUE.match(first):
        width, stretch, order, shrink = found.groups()
        return Item("glue", width=units(width), stretch=units(stretch or "0.0"), order=order or "",
                    shrink=units(shrink or "0.0"), body=body)
    if found := KERN.match(first):
        return Item("kern", width=units(found[1]), body=body)
    if found := PENALTY.match(first):
        return Item("penalty", penalty=int(found[1]), body=body)
    if found := INSERT.match(first):
        return Item("insert", number=int(found[1]), size=units(found[2]), body=body)
    return Item("barrier" if body == "\\special{pg:flush}" else "mark", body=body)


def galley(text):
    """The width of a galley, and its blocks."""
    width, blocks, variants, bodies = None, [], None, []
    is_listing = False

    def close():
        """The items of the bodies so far."""
        items = tuple(map(item, bodies))
        bodies.clear()
        if variants:
            variants[-1] = Variant(variants[-1].looseness, variants[-1].demerits, items)
        else:
            blocks.extend(items)

    for line in (it.rstrip("\r") for it in text.split("\n")):
        if line.startswith("\\vbox("):
            is_listing = True
            width = units(re.search(rf"x{NUMBER}", line)[1]) if width is None else width
        elif not line:
            is_listing = False
        elif not is_listing:
            continue
        elif line.startswith(".."):
            bodies[-1] += "\n" + line[1:]
        elif line == ".\\special{pg:choice}":
            close()
            variants = []
        elif found := VARIANT.match(line):
            close()
            variants.append(Variant(int(found[1]), int(found[2]), ()))
        elif line == ".\\special{pg:end}":
            close()
            blocks.append(Choice(tuple(variants)))
            variants = None
        else:
            bodies.append(line[1:])
    close()
    return width, tuple(blocks)


def gap(text):
    return Gap(*(units(it or "0.0") for it in GAP.match(text).groups()))


def area(table):
    return Area(table["count"], gap(table["sep"]), gap(table["gap"]))


def insert_class(table):
    if table["kind"] == "note":
        return Class(table["number"], "note", skip=gap(table["skip"]), limit=units(table["limit"]))
    return Class(table["number"], "float", area=table["area"], distance=tuple(table["distance"]))


def style(text):
    """The style of a file."""
    it = tomllib.loads(text)
    return Style(
        version=it["version"],
        columns=it["columns"],
        first=it["first"],
        height=units(it["height"]),
        topskip=units(it["topskip"]),
        maxdepth=units(it["maxdepth"]),
        min_text=units(it["min_text"]),
        tolerance=it["tolerance"],
        line=it["line"],
        max_looseness=it["max_looseness"],
        fitness=it.get("fitness", 0),
        runs=tuple((units(run["extra"]), run["demerits"]) for run in it["runs"]),
        top=area(it["top"]),
        bottom=area(it["bottom"]),
        wide=area(it["wide"]),
        float_count=it["float_column"]["count"],
        float_demerits=it["float_column"]["demerits"],
        classes=tuple(map(insert_class, it.get("classes", ()))),
        ragged=units(it["ragged"]) if "ragged" in it else None,
    )
