"""Output texts with one thing changed each: a field, a label, the count of labels, an end that is cut off."""

import re

from reader import units
from texts import points

FIELD = re.compile(r"-?\d+\.\d+|-?\d+")
SCALED = re.compile(r"-?\d+\.\d+")
# what numbers of the form may be at most, and what they may not be any more
BOUNDS = (2**8, 2**16, 2**32, 2**127, -(2**127))
EXTREMES = [str(it + one) for it in BOUNDS for one in (-1, 0)]
SCALED_EXTREMES = [points(it) for it in (-1, 2**33 - 1, 2**33, 2**60, 2**60 + 1)]
OTHER_SPELLINGS = ["-0", "00", "01", "+1", ""]


def neighbours(word):
    """A number one less and one more."""
    if SCALED.fullmatch(word):
        return [points(units(word) - 1), points(units(word) + 1)]
    return [str(int(word) - 1), str(int(word) + 1)]


def list_changes(word):
    """A list of numbers with one of them changed, left out or added."""
    parts, found = word.split(","), ["-"]
    for at, part in enumerate(parts):
        found += [",".join(parts[:at] + [it] + parts[at + 1 :]) for it in neighbours(part)]
        if len(parts) > 1:
            found.append(",".join(parts[:at] + parts[at + 1 :]))
    return found + [word + ",0", "0," + word]


def word_changes(word, is_thorough):
    """What may stand in the place of a word."""
    if word in ("L", "R", "S"):
        return [it for it in ("L", "R", "S", "-") if it != word]
    if word == "-":
        return ["0", "1", "0.0", "1.0", "0,0"]
    if SCALED.fullmatch(word):
        return neighbours(word) + ["-", "0"] + (SCALED_EXTREMES if is_thorough else [])
    if re.fullmatch(r"\d+(,\d+)*", word) or re.fullmatch(r"-\d+", word):
        found = neighbours(word) + ["-"] if word.startswith("-") else list_changes(word)
        return found + (EXTREMES + OTHER_SPELLINGS if is_thorough else [])
    return []


def field_changes(line, is_thorough):
    """A line with one word changed; of a line that shows an item one number in it."""
    if line.startswith("."):
        for it in FIELD.finditer(line):
            for other in neighbours(it[0]):
                yield line[: it.start()] + other + line[it.end() :]
        return
    words = line.split(" ")
    for at, word in enumerate(words):
        for other in word_changes(word, is_thorough):
            yield " ".join(words[:at] + [other] + words[at + 1 :])


def other_spellings(line):
    """A line with blanks that are not due."""
    return [line + " ", " " + line, line + "\r", line.replace(" ", "  ", 1), line.replace(" ", "\t", 1), ""]


def renumbered(head, labels):
    """A label text with these lines, numbered anew and counted."""
    lines = [" ".join(["label", str(number)] + line.split(" ")[2:]) for number, line in enumerate(labels, 1)]
    words = head.split(" ")
    return [" ".join([words[0], str(len(labels))] + words[2:])] + lines


def label_changes(head, labels):
    """The label text with a label left out, doubled, or exchanged with the next one, numbered anew or as they were, and
    with a changed label behind its own."""
    for at in range(len(labels)):
        without, doubled = labels[:at] + labels[at + 1 :], labels[: at + 1] + labels[at:]
        exchanged = labels[:at] + labels[at + 1 : at + 2] + [labels[at]] + labels[at + 2 :]
        for changed in (without, doubled, exchanged):
            if changed != labels:
                yield renumbered(head, changed)
                yield [head] + changed
        for other in field_changes(labels[at], False):
            yield renumbered(head, labels[: at + 1] + [other] + labels[at + 1 :])
    yield renumbered(head, [])


def changed(text):
    """All changed texts of an output text, some of which may be equal."""
    lines = text.split("\n")[:-1]
    first = next(at for at, line in enumerate(lines) if line.startswith("labels "))
    head, labels = lines[first], lines[first + 1 :]
    thorough = {0, 1, 2, 3, first, first + 1, first + 2, len(lines) // 2, len(lines) - 1}
    for at, line in enumerate(lines):
        spellings = other_spellings(line) if at in thorough else []
        for other in [*field_changes(line, at in thorough), *spellings]:
            yield lines[:at] + [other] + lines[at + 1 :]
        yield lines[:at] + lines[at + 1 :]
        yield lines[: at + 1] + lines[at:]
        yield lines[:at] + lines[at + 1 : at + 2] + [line] + lines[at + 2 :]
    for other in label_changes(head, labels):
        yield lines[:first] + other
    yield lines[:first] + [head.removesuffix(" fitness") if head.endswith(" fitness") else head + " fitness"] + labels
    yield ["no legal pagination"] + lines[first:]


def texts(text):
    """Each changed text once, and the text cut behind each line and without its last line feed."""
    found = {"\n".join(lines) + "\n" for lines in changed(text)}
    ends = [at + 1 for at, it in enumerate(text) if it == "\n"]
    found |= {text[:at] for at in [0, *ends]} | {text[: at - 1] for at in ends}
    found |= {text + "\n", text + ".\n", text + "label"}
    return sorted(found - {text})
