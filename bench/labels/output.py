"""The form of output texts, as docs/output.md says: what each line may be behind those before it."""

import re
from dataclasses import dataclass, field

from reader import units
from rules import Column, Page
from states import State
from texts import points

NATURAL = r"(0|[1-9]\d*)"
WHOLE = r"(0|-?[1-9]\d*)"
SCALED = r"(-?\d+\.\d+)"
PLACE = f"{NATURAL} {NATURAL} {NATURAL}"
LIST = r"(-|\d+(?:,\d+)*)"
HEAD = re.compile(rf"pages {NATURAL} cost {WHOLE} width {SCALED}")
PAGE = re.compile(rf"page {NATURAL} side [LRS] run {NATURAL} wide {LIST}")
COLUMN = re.compile(rf"column {NATURAL} from {PLACE} to {PLACE} top {LIST} bottom {LIST} picks {LIST}")
SET = re.compile(rf"set goal {SCALED} total {SCALED} badness {WHOLE} penalty {WHOLE} demerits {WHOLE}")
WITHOUT = re.compile(rf"without text demerits {WHOLE}")
LABELS = re.compile(rf"labels {NATURAL}( fitness)?")
FRONT = rf"label {NATURAL} {PLACE} ([12]) ([LRS]) (-|0|[1-9]\d*) (-|-?\d+\.\d+)"
LABEL = re.compile(rf"{FRONT} {LIST} {LIST} {WHOLE}")
FITNESS_LABEL = re.compile(rf"{FRONT} ([-0-3]) {LIST} {LIST} {WHOLE}")
AREAS = ["area top", "area text", "area bottom", "area notes"]


class BadText(Exception):
    """The first line at which a text is no output text."""


class Strange(Exception):
    """A line is none of the form."""


def need(is_right):
    if not is_right:
        raise Strange


def match(pattern, line):
    found = pattern.fullmatch(line)
    need(found)
    return found.groups()


def natural(word, bound):
    need(int(word) < bound)
    return int(word)


def whole(word):
    """A number of 128 bits."""
    need(-(2**127) <= int(word) < 2**127)
    return int(word)


def scaled(word):
    """A number of points as it is printed, of at most 2^60 units."""
    value = units(word)
    need(points(value) == word and abs(value) <= 2**60)
    return value


def numbers(word, bound):
    """A list of numbers."""
    if word == "-":
        return ()
    for it in word.split(","):
        need(re.fullmatch(NATURAL, it))
    return tuple(natural(it, bound) for it in word.split(","))


def place(words):
    return tuple(natural(it, 2**32) for it in words)


@dataclass
class Output:
    """What an output text says. The pages are None where it says that no pagination is legal."""

    pages: list = None
    cost: int = None
    page_lines: list = field(default_factory=list)
    labels: list = field(default_factory=list)  # pairs of a state and a cost


class Form:
    """Takes the lines of an output text one after the other; `due` tells what the next one may be."""

    def __init__(self):
        self.output, self.due, self.next_area = Output(), "head", None
        self.is_in_area, self.count, self.has_fitness = False, None, False

    def take(self, line):
        if self.due != "labels" and not line.startswith("labels "):
            self.output.page_lines.append(line)
        if line.startswith("."):
            need(self.is_in_area)
        elif line.startswith("area "):
            self.area(line)
        else:
            self.is_in_area = False
            kind = line.partition(" ")[0]
            takers = {"pages": self.head, "no": self.none, "page": self.page, "column": self.column,
                      "set": self.numbers, "without": self.numbers, "labels": self.labels, "label": self.label}
            need(kind in takers)
            takers[kind](line)

    def is_whole(self):
        return self.due == "labels" and len(self.output.labels) == self.count

    def head(self, line):
        need(self.due == "head")
        _, cost, width = match(HEAD, line)
        scaled(width)
        self.output.pages, self.output.cost, self.due = [], whole(cost), "page"

    def none(self, line):
        need(self.due == "head" and line == "no legal pagination")
        self.due = "count"

    def page(self, line):
        need(self.due in ("page", "column"))
        number, run, wide = match(PAGE, line)
        need(int(number) == len(self.output.pages) + 1)
        self.output.pages.append(Page(natural(run, 2**8), numbers(wide, 2**16), ()))
        self.due, self.next_area = "column", "wide"

    def column(self, line):
        need(self.due == "column")
        number, *words, top, bottom, picks = match(COLUMN, line)
        page = self.output.pages[-1]
        need(int(number) == len(page.columns) + 1)
        column = Column(place(words[:3]), place(words[3:]), numbers(top, 2**16), numbers(bottom, 2**16),
                        numbers(picks, 2**32))
        self.output.pages[-1] = Page(page.run, page.wide, page.columns + (column,))
        self.due, self.next_area = "numbers", None

    def numbers(self, line):
        need(self.due == "numbers")
        if line.startswith("set "):
            goal, total, *rest = match(SET, line)
            scaled(goal)
            scaled(total)
        else:
            rest = match(WITHOUT, line)
        for word in rest:
            whole(word)
        self.due, self.next_area = "column", 0

    def area(self, line):
        need(self.due == "column")
        if self.next_area == "wide":
            need(line == "area wide")
            self.next_area = None
        else:
            need(self.next_area is not None and line in AREAS[self.next_area :])
            self.next_area = AREAS.index(line) + 1
        self.is_in_area = True

    def labels(self, line):
        need(self.due in ("page", "column", "count"))
        count, fitness = match(LABELS, line)
        self.count, self.has_fitness, self.due = int(count), fitness is not None, "labels"

    def label(self, line):
        need(self.due == "labels" and len(self.output.labels) < self.count)
        words = list(match(FITNESS_LABEL if self.has_fitness else LABEL, line))
        need(int(words[0]) == len(self.output.labels) + 1)
        fitness = words.pop(8) if self.has_fitness else "-"
        _, _, _, _, column, side, run, wide, placed, ages, cost = words
        state = State(
            place=place(words[1:4]),
            column=int(column),
            side=side,
            run=None if run == "-" else natural(run, 2**8),
            wide=None if wide == "-" else scaled(wide),
            fitness=None if fitness == "-" else int(fitness),
            placed=numbers(placed, 2**16),
            ages=numbers(ages, 2**8),
        )
        self.output.labels.append((state, whole(cost)))


def read(text):
    """What an output text says; BadText with the first line at which it is none."""
    *lines, rest = text.split("\n")
    form = Form()
    for number, line in enumerate(lines, 1):
        try:
            form.take(line)
        except Strange:
            raise BadText(number) from None
    if rest or not form.is_whole():
        raise BadText(len(lines) + 1)
    return form.output
