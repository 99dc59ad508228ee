"""The rows of bench/all: calls, the files that they name, and of what units their work is counted."""

import glob
import os
import subprocess
from dataclasses import dataclass
from functools import partial

import long_galleys as galleys

TOP = os.path.realpath(os.path.join(os.path.dirname(os.path.abspath(__file__)), ".."))
MADE, SHOWS, FEWER_SHOWS, PAGES, MANUAL = (12, 40, 100, 400, 500, 2000), 200, 20, 600, 2**17
SIZES = {"10^3": 10**3, "10^4": 10**4, "10^5": 10**5, "2^17": 2**17, "2^18": 2**18, "2^19": 2**19, "2^20": 2**20}


@dataclass
class Row:
    """A call, and how many units its work has: the labels that its answer tells, where their number is left out. `before`
    is the row of a smaller size. `counted` is the call whose instructions are counted in the place of this one's, with its
    units, where this would take too long; `note` is printed behind the row."""

    name: str
    unit: str
    words: list
    units: int = 0
    before: str = ""
    counted: tuple = ()
    note: str = ""


# ---- the files that are read


TEXTS = {
    "5": partial(galleys.plain_style, 58),
    "46": partial(galleys.plain_style, 550),
    "made-style": lambda: galleys.MADE_STYLE,
    "made": partial(galleys.made, 100),
    "items": partial(galleys.boxes_and_glue, SIZES["2^20"]),
    "penalties": partial(galleys.penalties, SIZES["2^20"]),
    "book-style": lambda: galleys.BOOK_STYLE,
    "book": partial(galleys.book, PAGES),
    "floats-style": lambda: galleys.FLOATS_STYLE,
    "journal-style": lambda: galleys.JOURNAL_STYLE,
    **{f"lines-{size}": partial(galleys.lines, SIZES[size]) for size in ("10^4", "10^5", "2^19")},
    **{f"floats-{size}": partial(galleys.floats, SIZES[size]) for size in ("10^3", "10^4")},
    **{f"journal-{size}": partial(galleys.journal, SIZES[size]) for size in ("2^17", "2^18", "2^20")},
    **{
        f"{place}-{shows}": partial(galleys.edits, at, shows)
        for place, at in (("end", 2 * SIZES["10^4"] - 2), ("middle", SIZES["10^4"]), ("front", 0))
        for shows in (SHOWS, FEWER_SHOWS)
    },
}


class Inputs:
    """A folder with the files that calls name. Each is made when it is first needed: a text, or what the program answers."""

    def __init__(self, folder, program):
        self.folder, self.program, self.texts, self.answers = folder, program, dict(TEXTS), {}

    def path(self, name):
        return os.path.join(self.folder, name)

    def need(self, words):
        for word in words:
            if os.path.exists(self.path(word)):
                continue
            if word in self.texts:
                with open(self.path(word), "w", encoding="latin-1", newline="") as file:
                    file.write(self.texts[word]())
            elif word in self.answers:
                self.need(self.answers[word])
                with open(self.path(word), "wb") as out:
                    subprocess.run([self.program, *self.answers[word]], cwd=self.folder, stdout=out, check=True)


# ---- the rows


def make_rows():
    before = ""
    for count in MADE:
        yield Row(f"make {count}", "label", ["make", str(count)], before=before)
        before = f"make {count}"


def line_rows():
    """By how many lines a page has, which are the names of the styles."""
    for style in ("5", "46"):
        before = ""
        for size in ("10^4", "10^5", "2^19"):
            name = f"run {style} a page {size}"
            yield Row(name, "line", ["run", style, f"lines-{size}"], SIZES[size], before)
            before = name


def with_labels(name, words, inputs):
    """`run --labels` of a style and a galley, and `check` of what it writes."""
    inputs.answers[f"{name} answer"] = ["run", "--labels", *words]
    yield Row(f"labels {name}", "label", ["run", "--labels", *words])
    yield Row(f"check {name}", "label", ["check", *words, f"{name} answer"])


def label_rows(inputs):
    for style in ("5", "46"):
        yield from with_labels(f"{style} a page 10^4", [style, "lines-10^4"], inputs)
    yield from with_labels("made 100", ["made-style", "made"], inputs)
    yield from with_labels("book", ["book-style", "book"], inputs)


def show_rows():
    for name in ("items", "penalties"):
        yield Row(f"show {name} 2^20", "item", ["show", name], SIZES["2^20"])


def edit_rows():
    words = ["edit", "46", "lines-10^4"]
    yield Row("edit end", "show", [*words, f"end-{SHOWS}"], SHOWS)
    for place in ("middle", "front"):
        counted, note = ([*words, f"{place}-{FEWER_SHOWS}"], FEWER_SHOWS), f"instructions of {FEWER_SHOWS} shows"
        yield Row(f"edit {place}", "show", [*words, f"{place}-{SHOWS}"], SHOWS, counted=counted, note=note)


def long_rows():
    """Notes, floats, and both in two columns."""
    yield Row("book", "line", ["run", "book-style", "book"], 46 * PAGES)
    words = ["run", "floats-style"]
    yield Row("floats 10^3", "line", [*words, "floats-10^3"], SIZES["10^3"])
    yield Row("floats 10^4", "line", [*words, "floats-10^4"], SIZES["10^4"], "floats 10^3")
    words = ["run", "journal-style"]
    counted, note = ([*words, "journal-2^18"], SIZES["2^18"]), "instructions of 2^18 items"
    yield Row("journal 2^17", "item", [*words, "journal-2^17"], SIZES["2^17"])
    yield Row("journal 2^20", "item", [*words, "journal-2^20"], SIZES["2^20"], "journal 2^17", counted, note)


def documents(folder):
    """The logs of a folder that have a style beside them."""
    for log in sorted(glob.glob(os.path.join(os.path.abspath(folder), "*.log"))):
        if os.path.exists(log[:-4] + ".toml"):
            yield log


def real_rows(folder):
    lengths = [os.path.join(TOP, "examples", name) for name in ("latex.toml", "latex-lengths.log")]
    yield Row("real latex-lengths", "document", ["run", "--wrap", "79", *lengths], 1)
    for log in documents(folder) if folder else ():
        name = os.path.basename(log)[:-4]
        yield Row(f"real {name}", "document", ["run", "--wrap", "79", log[:-4] + ".toml", log], 1)


def has_choices(log):
    with open(log, "rb") as file:
        return b"\\special{pg:choice}" in file.read()


def manual_rows(folder, inputs):
    """The longest document without choices, again and again."""
    log = max((log for log in documents(folder) if not has_choices(log)), key=os.path.getsize, default=None)
    if not log:
        return
    shown = subprocess.run([inputs.program, "show", "--wrap", "79", log], capture_output=True, check=True)
    once = shown.stdout.decode("latin-1")
    times = -(-MANUAL // galleys.items_of(once))
    inputs.texts["manual"] = partial(galleys.repeated, once, times)
    words, note = [log[:-4] + ".toml", "manual"], f"{os.path.basename(log)} {times} times"
    yield Row("manual show", "item", ["show", "manual"], times * galleys.items_of(once), note=note)
    yield Row("manual run", "item", ["run", *words], times * galleys.items_of(once), note=note)
    yield from with_labels("manual", words, inputs)


def all_rows(folder, inputs):
    """All rows, of which those of real documents are there if a folder of them is."""
    return [
        *make_rows(),
        *line_rows(),
        *show_rows(),
        *edit_rows(),
        *label_rows(inputs),
        *long_rows(),
        *real_rows(folder),
        *(manual_rows(folder, inputs) if folder else ()),
    ]
