#!/usr/bin/env python3
"""The running heads of a finished PDF beside those that `pg heads` tells.

    pgtex --keep paper; pdflatex paper; python3 heads.py paper [PROGRAM]

For a document on two sides without \\clearpage in its text, with \\pagestyle{headings}: paper.pgg and paper.toml are what pg
read. LaTeX's head has the first part of the last mark on a left page, and the second part of the first mark on a right one;
it has to stand in the first line of the page. It needs pdftotext. PROGRAM is `pg` in the path, or what the variable PG names,
if left out. It ends with 1 where a head differs, and with 2 where there is nothing to compare."""

import os
import re
import subprocess
import sys


def stop(why):
    print(f"heads: {why}", file=sys.stderr)
    sys.exit(2)


if not 2 <= len(sys.argv) <= 3:
    stop("usage: heads.py NAME [PROGRAM]")
name, program = sys.argv[1], (sys.argv[2:] or [os.environ.get("PG") or "pg"])[0]
for ending, what in (("pgg", f"run pgtex --keep {name}"), ("toml", "run LaTeX"), ("pdf", "run LaTeX")):
    if not os.path.isfile(f"{name}.{ending}"):
        stop(f"there is no {name}.{ending}: {what}")


def output(missing, *words):
    try:
        ran = subprocess.run(words, capture_output=True, check=False)
    except OSError:
        stop(f"{words[0]} is not found: {missing}")
    if ran.returncode:
        stop((ran.stderr or ran.stdout).decode("utf-8", "replace").strip() or f"{words[0]} ended with {ran.returncode}")
    return ran.stdout.decode("utf-8", "replace")


def words(text):
    """The letters and digits of a text, in small letters."""
    text = re.sub(r"\\hskip [\d.]+ *[a-z]+", " ", text)
    text = re.sub(r"\\[A-Za-z]+ ?", " ", text)
    return re.findall(r"[a-z0-9]+", text.lower())


def parts(mark):
    """The two parts of a mark of LaTeX, {left}{right}."""
    depth, out = 0, [""]
    for letter in mark:
        depth += (letter == "{") - (letter == "}")
        if depth == 0:
            out.append("")
        elif not (letter == "{" and depth == 1):
            out[-1] += letter
    return (out + ["", ""])[:2]


pages = output("install poppler-utils", "pdftotext", "-layout", f"{name}.pdf", "-").split("\f")[:-1]
bad = looked = 0
told = output("put pg into the path, or name it by PG", program, "heads", f"{name}.toml", f"{name}.pgg")
for line in told.splitlines():
    found = re.fullmatch(r"page (\d+) top \{(.*)\} first \{(.*)\} bottom \{(.*)\}", line)
    if not found:
        continue
    number = int(found[1])
    if number > len(pages):
        stop(f"{name}.pdf has no page {number}: run LaTeX again")
    page = pages[number - 1].strip("\n").split("\n")[0]
    head = words(parts(found[3])[1] if number % 2 else parts(found[4])[0])
    if not head:
        continue
    looked += 1
    if " ".join(head) not in " ".join(words(page)):
        bad += 1
        print(f"page {number}: pg says {' '.join(head)!r}, the page has {page.strip()!r}")
if not looked:
    stop("no page has a head: the document wants two sides and \\pagestyle{headings}")
print(f"{looked} heads compared, {bad} differ")
sys.exit(1 if bad else 0)
