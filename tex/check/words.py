#!/usr/bin/env python3
"""Compares the words of two PDFs, in whatever order they stand.

    tex/check/words.py [--between TOP FOOT] ONE.pdf OTHER.pdf

Words of two letters and more count; numbers do not, since pages differ. `--between` leaves out heads and feet: two heights from
the top of the page, in big points. A word that one of them parts at the end of a line is joined again. It prints the words that
only one of them has, and ends with 1 where there is one. It needs `pdftotext`."""

import html
import re
import subprocess
import sys
import unicodedata
from collections import Counter

WORD = re.compile(r'<word xMin="[\d.]+" yMin="([\d.]+)" xMax="[\d.]+" yMax="([\d.]+)">(.*)</word>')
HYPHENS = "-\u00ad\u2010"


def page_words(path, between=None):
    """The words of each page, heads and feet left out."""
    shown = subprocess.run(["pdftotext", "-bbox", path, "-"], capture_output=True, encoding="utf-8", check=True).stdout
    pages = []
    for line in shown.splitlines():
        found = WORD.search(line)
        if "<page " in line:
            pages.append([])
        elif found and (between is None or between[0] < (float(found[1]) + float(found[2])) / 2 < between[1]):
            pages[-1].append(unicodedata.normalize("NFKC", html.unescape(found[3])))
    return pages


def page_heights(path):
    """The page of each word and its top, from the top of the page in big points; of a word that stands twice, the last."""
    shown = subprocess.run(["pdftotext", "-bbox", path, "-"], capture_output=True, encoding="utf-8", check=True).stdout
    page, out = 0, {}
    for line in shown.splitlines():
        found = WORD.search(line)
        page += "<page " in line
        for part in re.findall(r"[^\W\d_]+", html.unescape(found[3])) if found else ():
            out[part] = page, float(found[1])
    return out


def bag(path, between=None):
    """How often each word stands in a PDF; the first part of a parted word has its hyphen."""
    words = Counter()
    for page in page_words(path, between):
        for word in page:
            parts = re.findall(r"[^\W\d_]+", word)
            if parts and word[-1] in HYPHENS and word[:-1].endswith(parts[-1]):
                words[parts.pop() + "-"] += 1
            words.update(part for part in parts if len(part) > 1)
    return words


def joins(words):
    """The words that the parts among these make, each with a pair of parts."""
    firsts = [word for word in words if word.endswith("-")]
    return {first[:-1] + second: (first, second) for first in firsts for second in words if not second.endswith("-")}


def take(words, parts):
    """Takes these parts out of a bag, if all are there."""
    if all(words[part] > 0 for part in parts):
        words.subtract(Counter(parts))
        return True
    return False


def without_parted(first, second):
    """What two bags have beyond each other, without the words that are the same but for where they are parted."""
    lost, more = first - second, second - first
    if lost or more:  # first parts that both have may belong to different words
        both = Counter({word: count for word, count in (first & second).items() if word.endswith("-")})
        lost, more = lost + both, more + both
    for one, other in ((lost, more), (more, lost)):
        for _ in range(sum(one.values())):
            made = joins(+one)
            whole = next((word for word in made if other[word] > 0), None)
            made_there = joins(+other) if whole is None else {}
            both = next((word for word in made if word in made_there and made[word] != made_there[word]), None)
            if whole is not None:
                take(one, made[whole])
                take(other, [whole])
            elif both is not None:
                take(other, made_there[both])
                take(one, made[both])
            else:
                break
    lost, more = lost - more, more - lost
    if only_first_parts(lost + more) and spelt(lost) == spelt(more):  # they were joined with others
        return Counter(), Counter()
    return lost, more


def only_first_parts(words):
    return all(word.endswith("-") for word in words)


def spelt(words):
    """The letters of a bag, in the order of the alphabet."""
    return sorted("".join(words.elements()).replace("-", ""))


def differences(one, other, between=None, may_differ=()):
    """The words that only the first has, and those that only the second has."""
    first, second = bag(one, between), bag(other, between)
    lost, more = without_parted(first, second)
    for words in (lost, more):
        for word in may_differ:
            del words[word]
    return lost, more


def told(words):
    return " ".join(sorted(words.elements())[:20])


def main():
    words, between = sys.argv[1:], None
    if words[:1] == ["--between"]:
        between, words = (float(words[1]), float(words[2])), words[3:]
    if len(words) != 2:
        raise SystemExit(__doc__)
    lost, more = differences(*words, between)
    print(f"only the first: {told(lost)}\nonly the second: {told(more)}" if lost or more else "the same words")
    return 1 if lost or more else 0


if __name__ == "__main__":
    sys.exit(main())
