#!/usr/bin/env python3
"""Does pgtex count the pieces of a galley as TeX makes them?

    tex/check/pieces.py [COUNT [SEED]]

COUNT galleys (1000 if left out) of boxes, rules, glue, kerns, penalties, inserts, marks and whatsits are made by chance. TeX's
`\\vsplit` takes each apart, one run of etex for all: first at the penalties that force a page, as it is no higher than 2000pt,
then, to a height far below nothing, at each break. The function `count_pieces` of
tex/pgtex.lua says how many pieces lead to each break: up to there the pieces of TeX have to hold the boxes and rules that the
galley has in front of it, and of the whole galley there have to be as many. Another run first takes what stands in 40pt at
once, and its pieces after that, where the last of them has a width, as tex/pg-core.tex does: the pieces have to be the same.
It ends with 1 where a galley differs."""

import os
import random
import re
import subprocess
import sys
import tempfile

PGTEX = os.path.join(os.path.dirname(os.path.abspath(__file__)), "..", "pgtex.lua")
KINDS = ["box"] * 6 + ["rule"] + ["glue"] * 4 + ["kern"] * 2 + ["penalty"] * 3 + ["special", "mark", "insert", "write"]
HEAD = r"""\catcode`@=11 \batchmode \hbadness=10000 \vbadness=10000 \vfuzz=\maxdimen \hfuzz=\maxdimen
\showboxbreadth=10000 \showboxdepth=1 \tracingonline=0 \newbox\galley \newbox\piece
\savingvdiscards=1 \splitmaxdepth=\maxdimen \splittopskip=-\maxdimen
\newbox\chunk \newbox\behind
\def\cut{\ifvoid\chunk\else \setbox\piece\vsplit\chunk to-8000pt \showbox\piece \expandafter\cut\fi}
\def\most{\setbox\piece\vsplit\chunk to40pt \setbox\behind\vbox{\splitdiscards}%
  \setbox2\copy\piece \passover
  \ifdim\wd0=0pt \setbox\chunk\vbox{\unvbox\piece\unvbox\behind\unvbox\chunk}\else \setbox2\box\piece \showall \fi}
\def\passover{\ifvoid2 \else \setbox0\vsplit2 to-8000pt \expandafter\passover\fi}
\def\showall{\ifvoid2 \else \setbox\piece\vsplit2 to-8000pt \showbox\piece \expandafter\showall\fi}
\def\chunks{\ifvoid\galley\else \setbox\chunk\vsplit\galley to2000pt \ifnum\lot=1 \most\fi \cut \expandafter\chunks\fi}
\def\apart#1{\immediate\write-1{case #1}%
  \setbox\galley\vbox{\hbox{}\penalty-10000 \unvbox\galley}\setbox\piece\vsplit\galley to-8000pt \chunks}
"""


def item(chance):
    """An item by chance: its kind, a penalty's number, and how TeX makes it."""
    kind = chance.choice(KINDS)
    height = chance.randint(0, 20)
    if kind == "box":
        return "box", 0, rf"\nointerlineskip\hbox{{\vrule height{height}pt depth{chance.randint(0, 4)}pt width1pt}}"
    if kind == "rule":
        return "box", 0, rf"\hrule height{height}pt"
    if kind == "glue":
        return "glue", 0, rf"\vskip{chance.randint(-3, 12)}pt plus{chance.choice(['0pt', '1pt', '1fil'])}"
    if kind == "kern":
        return "kern", 0, rf"\kern{chance.randint(-3, 9)}pt"
    if kind == "penalty":
        number = chance.choice([0, 50, -50, 10000, 10000, -10000, -300, 9999])
        return "penalty", number, rf"\penalty{number} "
    if kind == "insert":
        return "insert", 0, r"\insert100{\hbox{x}}"
    return "carry", 0, {"special": r"\special{x}", "mark": r"\mark{x}", "write": r"\write-1{x}"}[kind]


def tex_text(galleys, lot):
    out = [HEAD, f"\\newcount\\lot \\lot={lot} "]
    for number, items in enumerate(galleys):
        made = "%\n".join(made for _, _, made in items)
        out.append(f"\\setbox\\galley=\\vbox{{\\offinterlineskip {made}%\n}}\\apart{{{number}}}\n")
    return "".join(out) + "\\end\n"


def pieces_of_tex(folder, galleys, lot):
    """Of each galley the pieces that TeX makes, each as the number of its boxes and rules; where lot is 1, many at once first."""
    with open(os.path.join(folder, "pieces.tex"), "w", encoding="ascii") as file:
        file.write(tex_text(galleys, lot))
    environment = {**os.environ, "max_print_line": "100000"}
    words = ["etex", "-interaction=batchmode", "pieces"]
    subprocess.run(words, cwd=folder, env=environment, capture_output=True, check=False)
    pieces = {}
    with open(os.path.join(folder, "pieces.log"), encoding="latin-1") as file:
        for line in file:
            found = re.match(r"case (\d+)", line)
            if found:
                case = pieces.setdefault(int(found[1]), [])
            elif line.startswith("> \\box"):
                case.append(0)
            elif re.match(r"\.\\(hbox|rule)\(", line) and case:
                case[-1] += 1
    return pieces


def counted(folder, galleys):
    """Of each galley the counts of pgtex: break and pieces up to it."""
    with open(PGTEX, encoding="utf-8") as file:
        source = file.read()
    function = re.search(r"^local function count_pieces\(flat\).*?^end$", source, re.MULTILINE | re.DOTALL)[0]
    helper = re.search(r"^local function is_discardable\(.*?end$", source, re.MULTILINE)[0]
    out = [helper, function]
    for items in galleys:
        table = ",".join(f"{{kind={kind!r},penalty={number}}}" for kind, number, _ in items)
        loop = f"for k,v in pairs((count_pieces({{{table}}}))) do t[#t+1]=k..':'..v end"
        out.append(f"do local t={{}} {loop} print(table.concat(t,' ')) end")
    with open(os.path.join(folder, "pieces.lua"), "w", encoding="ascii") as file:
        file.write("\n".join(out))
    end = subprocess.run(["texlua", "pieces.lua"], cwd=folder, capture_output=True, text=True, check=True)
    return [{int(k): int(v) for k, v in (word.split(":") for word in line.split())} for line in end.stdout.splitlines()]


def difference(items, counts, pieces):
    """Where the counts of a galley are not TeX's: a break, or nothing."""
    for place, count in sorted(counts.items()):
        before = sum(kind == "box" for kind, _, _ in items[:place])
        if sum(pieces[:count]) != before or place == len(items) and count != len(pieces):
            return f"break {place}: {count} of {len(pieces)} pieces, with {sum(pieces[:count])} boxes of {before}"
    return None


def main():
    count = int(sys.argv[1]) if len(sys.argv) > 1 else 1000
    seed = int(sys.argv[2]) if len(sys.argv) > 2 else 1
    chance = random.Random(seed)
    galleys = [[item(chance) for _ in range(chance.randint(1, 40))] for _ in range(count)]
    with tempfile.TemporaryDirectory() as folder:
        made, counts = [pieces_of_tex(folder, galleys, lot) for lot in (0, 1)], counted(folder, galleys)
    bad = 0
    for number, items in enumerate(galleys):
        differs = next(filter(None, (difference(items, counts[number], pieces[number]) for pieces in made)), None)
        bad += differs is not None
        if differs and bad < 4:
            print(f"galley {number}: {differs}: {[kind + (str(by) if kind == 'penalty' else '') for kind, by, _ in items]}")
    print(f"{count} galleys, {sum(map(len, made[0].values()))} pieces of TeX, {bad} differ")
    return 1 if bad else 0


if __name__ == "__main__":
    sys.exit(main())
