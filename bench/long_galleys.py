"""The long galleys, styles and scripts by which speed is measured, as texts."""

import os

HERE = os.path.dirname(os.path.abspath(__file__))
ROOT = "\\vbox(0.0+0.0)x345.0\n"
BOX, GLUE = ".\\hbox(7.0+2.0)x345.0\n", ".\\glue 3.0\n"
BETWEEN, PARAGRAPHS = ".\\glue(\\baselineskip) 3.0\n", ".\\glue(\\parskip) "


def example(name):
    """A style of examples/."""
    with open(os.path.join(HERE, "..", "examples", name), encoding="ascii") as file:
        return file.read()


def insert(number, size):
    return f".\\insert{number}, natural size {size}.0; split(0.0,0.0); float cost 0\n"


# ---- lines


def plain_style(height):
    """One column without floats and notes. A page of 58 points has five lines, and one of 550 has 46."""
    return example("plain.toml").replace('height = "58.0"', f'height = "{height}.0"')


def lines(count):
    """Lines with rigid glue between."""
    return ROOT + GLUE.join([BOX] * count)


def edits(at, shows):
    """A line of a galley of lines is set anew again and again, and the pages are shown each time."""
    return f"replace {at} 1\n{BOX}show\n" * shows


# ---- paragraphs in three lengths


def paragraph(number, length):
    """A paragraph of `made` in so many lines."""
    found = []
    for line in range(1, length + 1):
        found.append(BOX)
        if line == 1 and number % 5 == 4:
            found.append(insert(200, 9))
        if line == 1 and number % 7 == 3:
            found.append(insert(100, (40, 50, 60)[number % 3]))
        if line < length:
            found.append(f".\\penalty {150 * (line == 1) + 150 * (line == length - 1)}\n" + BETWEEN)
    return "".join(found)


def made(count):
    """The galley of `make`, as docs/output.md tells it."""
    found = [ROOT]
    for number in range(count):
        found.append(PARAGRAPHS + "3.0 plus 1.0\n" if number else "")
        found.append(".\\special{pg:choice}\n")
        for more, demerits in ((0, 0), (-1, 400), (1, 400)):
            found.append(f".\\special{{pg:variant {more} {demerits}}}\n")
            found.append(paragraph(number, 4 + 5 * number % 9 + more))
        found.append(".\\special{pg:end}\n")
    return "".join(found)


THREE_RUNS = """[[runs]]
extra = "0.0"
demerits = 0
[[runs]]
extra = "12.0"
demerits = 1000
[[runs]]
extra = "-12.0"
demerits = 1000
"""


def floats_style(columns, first, max_looseness, bottom, classes):
    """A style with floats and three heights of a page."""
    return f"""version = 1
columns = {columns}
first = "{first}"
height = "550.0"
topskip = "10.0"
maxdepth = "4.0"
min_text = "100.0"
tolerance = 10000
line = 10
max_looseness = {max_looseness}
{THREE_RUNS}[top]
count = 2
sep = "12.0"
gap = "20.0"
[bottom]
count = {bottom}
sep = "0.0"
gap = "{20 * bottom}.0"
[wide]
count = 0
sep = "0.0"
gap = "0.0"
[float_column]
count = 2
demerits = 5000
{classes}"""


def float_class(area):
    return f'[[classes]]\nnumber = 100\nkind = "float"\narea = "{area}"\ndistance = [0, 500, 2000]\n'


NOTES = '[[classes]]\nnumber = 200\nkind = "note"\nskip = "12.0"\nlimit = "200.0"\n'
MADE_STYLE = floats_style(1, "left", 1, 0, float_class("top") + NOTES)


# ---- floats and notes

FLOATS_STYLE = floats_style(2, "right", 0, 1, float_class("both"))


def floats(count):
    """Lines with glue that gives, and a float behind every fiftieth."""
    found = [ROOT]
    for line in range(count):
        found.append(BOX)
        if line % 50 == 25:
            found.append(insert(100, 30 + line // 50 % 4 * 10))
        found.append(".\\glue 3.0 plus 1.0 minus 1.0\n")
    return "".join(found)


BOOK_STYLE = plain_style(550) + NOTES


def book(pages):
    """So many pages of 46 lines, in paragraphs of ten, with two notes a page."""
    found = [ROOT]
    for line in range(46 * pages):
        found.append(BOX)
        if line % 23 == 7:
            found.append(insert(200, 9))
        if line % 10 == 9:
            found.append(PARAGRAPHS + "0.0 plus 1.0\n")
        if line % 10 in (0, 8):
            found.append(".\\penalty 150\n")
        found.append(BETWEEN)
    return "".join(found)


JOURNAL_STYLE = example("journal.toml")


def journal(items):
    """Lines in paragraphs of ten with glue that gives, a note behind every 61st and a figure behind every 512th."""
    found, line = [], 0
    while len(found) < items:
        found.append(BOX)
        if line % 61 == 30:
            found.append(insert(254, 9))
        if line % 512 == 100:
            found.append(insert(100, 30 + line // 50 % 4 * 10))
        if line % 7 == 0:
            found.append(".\\penalty 150\n")
        found.append(".\\glue 3.0 plus 0.2 minus 0.1\n" if line % 10 else PARAGRAPHS + "3.0 plus 1.0\n")
        line += 1
    return ROOT + "".join(found[:items])


# ---- show


def boxes_and_glue(items):
    return ROOT + (BOX + GLUE) * (items // 2)


def penalties(items):
    return ROOT + ".\\penalty 0\n" * items


# ---- real galleys


def items_of(galley):
    """How many items a shown galley has: what is in a body begins with two points."""
    return sum(line.startswith(".") and not line.startswith("..") for line in galley.split("\n"))


def repeated(galley, times):
    """A shown galley again and again, with its root once."""
    root, end, body = galley.partition("\n")
    return root + end + body * times
