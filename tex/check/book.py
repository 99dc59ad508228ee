"""Writes a book of about so many pages, with chapters, sections, notes and figures."""

import random

NOUNS = "galley page column line measure margin paragraph note plate table heading letter word sheet compositor printer".split()
KINDS = "long short narrow wide even patient careful forgotten plain heavy light early late honest second final".split()
DOES = "divides carries follows fills measures keeps repeats leaves meets moves holds avoids considers spoils".split()
FORMS = (
    "The {kind} {noun} {does} the {noun} of every {noun}.",
    "No {noun} {does} a {kind} {noun}, and the {noun} {does} it.",
    "When the {noun} {does} its {noun}, the {kind} {noun} {does} what the {noun} left.",
    "A {noun} without a {noun} is like a {noun} without its {noun}---{kind}, {kind}, and {kind}.",
    "Who {does} the {kind} {noun} that the {noun} {does}?",
    "From the first {noun} to the last, each {noun} {does} the one before.",
)
WORDS = {"noun": NOUNS, "kind": KINDS, "does": DOES}
HEAD = r"""%% A book of about %d pages, made by a script: chapters on right pages, sections, notes, figures.
%%%% rounds: 6
\documentclass{book}
\usepackage{pg}
\begin{document}
\tableofcontents
"""


def sentence(chance):
    """A sentence by chance."""
    words = chance.choice(FORMS).replace("{", "\n{").replace("}", "}\n").split("\n")
    return "".join(chance.choice(WORDS[word[1:-1]]) if word[:1] == "{" else word for word in words)


def paragraph(chance, note):
    """A paragraph of three to nine sentences, with a note or without."""
    said = [sentence(chance) for _ in range(chance.randint(3, 9))]
    if note:
        said[1] += "\\footnote{" + " ".join(sentence(chance) for _ in range(chance.randint(1, 3))) + "}"
    return " ".join(said)


def book(pages, seed=1):
    """The text of the document: six paragraphs are about a page, a note every fifth paragraph, a figure every twenty-fifth."""
    chance, out = random.Random(seed), [HEAD % pages]
    for number in range(pages * 31 // 5):
        if number % 100 == 0:
            out.append(f"\\chapter{{On the {chance.choice(KINDS)} {chance.choice(NOUNS)}}}\\label{{chapter:{number // 100}}}")
        elif number % 12 == 0:
            out.append(f"\\section{{The {chance.choice(KINDS)} {chance.choice(NOUNS)}}}")
        said = paragraph(chance, number % 5 == 3)
        if number % 25 == 11:
            height = 50 + chance.randint(0, 100) + number / 100000
            said = (
                f"\\begin{{figure}}\\centering\\rule{{50mm}}{{{height}pt}}\\caption{{Figure of paragraph {number}.}}"
                f"\\label{{figure:{number}}}\\end{{figure}}\n{said} "
                f"See figure~\\ref{{figure:{number}}} on page~\\pageref{{figure:{number}}}."
            )
        out.append(said + "\n")
    return "\n".join(out) + "\\end{document}\n"
