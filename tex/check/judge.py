"""Judges a document: LaTeX alone beside LaTeX with pgtex, and the page text beside what was shipped out."""

import os
import re
import shutil

import book
import galley
import runs
import shipped
import words

POINTS_TO_BIG = 72 / 72.27
TOLD = ("columns", "items", "glue", "bodies", "notes", "floats", "gaps", "moved", "blank")
HEAD = f"{'':20} {'':8} LaTeX  pg  runs cols  items   glue bodies notes flts gaps mvd blk off"


class Document:
    """A document, with what its head announces."""

    def __init__(self, name, text):
        self.name, self.text = name, text
        heads = dict(re.findall(r"^%% (\w+)(?:: (.*))?$", self.text, re.MULTILINE))
        self.warning, self.error = heads.get("warning"), heads.get("error")
        self.may_differ = heads.get("words", "").split()
        self.in_order = heads.get("order", "").split()
        self.in_place = heads.get("stand", "").split()
        self.lengths = int(heads["lengths"]) if "lengths" in heads else None
        self.rounds = int(heads.get("rounds", 4))
        self.foot = float(heads.get("foot", 0))
        self.is_off = "off" in heads
        self.is_plain = "plain" in heads
        options = runs.LOAD.search(self.text)
        self.by_lengths, self.is_ragged = (bool(options and word in (options[1] or "")) for word in ("lengths", "ragged"))


def test_document(name):
    """A document of tex/tests; `book-of-N-pages` is made here."""
    made = re.fullmatch(r"book-of-(\d+)-pages", name)
    return Document(name, book.book(int(made[1])) if made else runs.read(runs.TESTS, f"{name}.tex"))


class Row:
    """What is told of a document with an engine."""

    def __init__(self, document, engine):
        self.document, self.engine = document, engine
        self.numbers, self.faults, self.own_errors = {}, [], []


def pages_of(folder, name):
    """The number of pages that TeX says it wrote."""
    found = re.findall(r"Output written on .*?\((\d+) pages?", (runs.read(folder, f"{name}.log") or "").replace("\n", ""))
    return int(found[-1]) if found else 0


def frame_of(folder, name, more=0):
    """Where the text stands between head and foot, in big points from the top of the page; pages may be longer by so much."""
    found = re.search(r"^text frame ([\d.]+)pt ([\d.]+)pt", runs.read(folder, f"{name}.log") or "", re.MULTILINE)
    if not found:
        return None
    top, height = float(found[1]) * POINTS_TO_BIG, float(found[2]) * POINTS_TO_BIG
    return top, top + height + 6 + more


def said(text, kind):
    """What the package said of one kind, Warning or Error, each on one line."""
    found = re.findall(rf"Package pg {kind}: (.*(?:\n\(pg\).*)*)", text)
    return [re.sub(r"\s*\n\(pg\)\s*", " ", one) for one in found]


def errors(text):
    """TeX's own errors."""
    return [line for line in text.split("\n") if line.startswith("! ")]


def check_said(row, log, said_in_all):
    """Compares what was said with what the document announces."""
    document = row.document
    warnings, found = said(log, "Warning"), said(said_in_all, "Warning")
    if document.warning and not any(document.warning in one for one in found):
        row.faults.append(f"no warning names {document.warning}")
    for one in warnings:
        if not document.warning or document.warning not in one:
            row.faults.append(f"warning: {one[:160]}")
    row.faults += [f"TeX: {one}" for one in errors(log) if one not in row.own_errors][:3]
    for one in sorted(set(re.findall(r"^pgtex: .*", said_in_all, re.MULTILINE))):
        if "warning" in one or "stands between two breaks" in one:
            row.faults.append(one[:160])


def check_order(row, aux):
    """Do the labels that the document announces in order stand on pages in order?"""
    pages = {label: int(page) for label, page in re.findall(r"\\newlabel\{([^{}]*)\}\{\{[^{}]*\}\{(\d+)\}", aux)}
    names = row.document.in_order
    for one, next_one in zip(names, names[1:]):
        if not pages.get(one, 0) <= pages.get(next_one, 0):
            row.faults.append(f"{one} stands on page {pages.get(one)}, and {next_one} on page {pages.get(next_one)}")


def check_references(row, folder, log):
    """Are the references settled, and do labels name the page on which their words stand?"""
    name = row.document.name
    for line in log.split("\n"):
        if re.search(r"LaTeX Warning: .*(undefined|multiply|may have changed)|Rerun to get", line):
            row.faults.append(line.strip())
    pages = words.page_words(os.path.join(folder, f"{name}.pdf"))
    if any("??" in word for page in pages for word in page):
        row.faults.append("?? stands in the PDF")
    labels = dict(re.findall(r"\\newlabel\{place:(\w+)\}\{\{[^{}]*\}\{(\w+)\}", runs.read(folder, f"{name}.aux") or ""))
    check_order(row, runs.read(folder, f"{name}.aux") or "")
    for label, number in labels.items():
        here = [number for page in pages if f"{label}place." in page and number in page]
        if len(here) != 1:
            row.faults.append(f"{label} is not on page {number}")


def check_shipped(row, folder):
    """Compares what was shipped out with what pg wrote of each part, and that with the galley in the log."""
    texts = runs.texts_of_parts(folder, row.document.name)
    log, style = (os.path.join(folder, row.document.name + ending) for ending in (".log", ".toml"))
    counts, off, faults = shipped.compare(texts, log, style, row.document.by_lengths, row.document.is_ragged)
    row.numbers.update(counts, off=off)
    if not row.document.by_lengths:
        faults += galley.compare(texts, log)
    row.faults += faults[:4] + ([f"and {len(faults) - 4} more"] if len(faults) > 4 else [])
    if not counts["columns"]:
        row.faults.append("no column was found")


def check_words(row, alone, paged):
    """Compares the words of the two PDFs."""
    name = row.document.name
    pdfs = [os.path.join(folder, f"{name}.pdf") for folder in (alone, paged)]
    lost, more = words.differences(*pdfs, frame_of(alone, name, row.document.foot), row.document.may_differ)
    if lost or more:
        row.faults.append(f"words: only LaTeX alone has {words.told(lost) or 'none'}; only pg has {words.told(more) or 'none'}")


def check_places(row, alone, paged):
    """Do the words that the document announces stand on the page, and at the height, where LaTeX alone has them?"""
    name = row.document.name
    places = [words.page_heights(os.path.join(folder, f"{name}.pdf")) for folder in (alone, paged)]
    for word in row.document.in_place:
        here, there = (found.get(word) for found in places)
        if not here or not there or here[0] != there[0] or abs(here[1] - there[1]) > 0.1:
            told = [f"page {found[0]} at {found[1] / POINTS_TO_BIG:.1f}pt" if found else "nowhere" for found in (here, there)]
            row.faults.append(f"{word} stands on {told[0]} by LaTeX alone, and on {told[1]} by pg")


def check_lengths(row, folder):
    """Has pg set as many paragraphs in other lengths as the document announces?"""
    number = len(re.findall(r"^\\pg@length", runs.read(folder, f"{row.document.name}.pgx") or "", re.MULTILINE))
    if row.document.lengths not in (None, number):
        row.faults.append(f"{number} paragraphs have other lengths, and not {row.document.lengths}")


def same_pdf(one, other):
    """Whether two PDFs are the same but for what names their time and place."""
    def plain(path):
        with open(path, "rb") as file:
            return re.sub(rb"/ID ?\[.*?\]|/(?:Creation|Mod)Date ?\(.*?\)", b"", file.read(), flags=re.DOTALL)

    return plain(one) == plain(other)


def judge(document, engine, tools, top, prepare=lambda folder: None):
    """Runs a document by an engine, in folders that may be prepared; gives its row."""
    row, name = Row(document, runs.PLAIN_ENGINES[engine] if document.is_plain else engine), document.name
    alone, paged = (os.path.join(top, f"{name}-{engine}", kind) for kind in ("alone", "pg"))
    shutil.rmtree(paged, ignore_errors=True)
    runs.write(paged, f"{name}.tex", runs.with_trace(document.text))
    prepare(paged)
    if document.error:
        return judge_refused(row, tools, paged)
    if document.is_off:
        return judge_off(row, tools, alone, paged)
    is_settled = set_alone(row, tools, alone, prepare)
    return row if row.faults else judge_paged(row, tools, alone, paged, is_settled)


def set_alone(row, tools, folder, prepare):
    """LaTeX's own pages, which may be there from a run before; whether they settled."""
    document, text = row.document, runs.without_pg(row.document.text)
    pdf = os.path.join(folder, f"{document.name}.pdf")
    if os.path.exists(pdf) and runs.read(folder, "settled.tex") == text:
        is_settled = True
    else:
        shutil.rmtree(folder, ignore_errors=True)
        runs.write(folder, f"{document.name}.tex", text)
        prepare(folder)
        last, is_settled = runs.settle(tools, folder, row.engine, document.name)
        if not os.path.exists(pdf):
            row.faults.append(f"LaTeX alone makes no PDF: {last.text.strip()[-200:]}")
        elif is_settled:
            runs.write(folder, "settled.tex", text)
    row.numbers["alone"] = pages_of(folder, document.name)
    row.own_errors = errors(runs.read(folder, f"{document.name}.log") or "")
    return is_settled


def judge_paged(row, tools, alone, paged, is_settled):
    """A document with pages of pg beside those of LaTeX alone."""
    name = row.document.name
    done = runs.paginate(tools, paged, row.engine, name, row.document.rounds)
    row.numbers.update(pg=pages_of(paged, name), latex=done.latex_runs, pgtex=done.pgtex_runs)
    log = runs.read(paged, f"{name}.log") or ""
    if done.refused or not os.path.exists(os.path.join(paged, f"{name}.pdf")):
        row.faults += errors(done.said)[:2] + [f"refused: {(done.refused or done.last.text)[-200:]}"]
        return row
    if is_settled and not done.is_settled:
        row.faults.append(f"not settled after {done.pgtex_runs} rounds")
    if done.last.status and not row.own_errors:
        row.faults.append(f"LaTeX ended with {done.last.status}")
    check_said(row, log, done.said)
    if not row.faults:  # draft pages are none of pg's
        check_references(row, paged, log)
        check_shipped(row, paged)
        check_words(row, alone, paged)
        check_places(row, alone, paged)
        check_lengths(row, paged)
    return row


def judge_off(row, tools, alone, paged):
    """A document whose package does nothing."""
    name = row.document.name
    for folder, text in ((alone, runs.without_pg(row.document.text)), (paged, row.document.text)):
        runs.write(folder, f"{name}.tex", text.replace(runs.FRAME, ""))
        runs.settle(tools, folder, row.engine, name)
    row.numbers.update(alone=pages_of(alone, name), pg=pages_of(paged, name))
    if not same_pdf(*(os.path.join(folder, f"{name}.pdf") for folder in (alone, paged))):
        row.faults.append("the PDF is not that of LaTeX alone")
    return row


def judge_refused(row, tools, folder):
    """A document that the package does not take: its error has to name why."""
    document = row.document
    done = runs.latex(tools, folder, row.engine, document.name)
    found = said(done.text, "Error")
    if not any(document.error in one for one in found):
        row.faults.append(f"no error names {document.error}: {found or errors(done.text)[:2]}")
    row.numbers["refused"] = document.error
    return row


def tell(row):
    """Prints a row."""
    numbers = row.numbers
    if "refused" in numbers:
        what = f"refused: {numbers['refused']}"
    else:
        what = f"{numbers.get('alone', 0):4} {numbers.get('pg', 0):4}  {numbers.get('latex', '-')}+{numbers.get('pgtex', '-')} "
        what += " ".join(f"{numbers.get(name, 0):{width}}" for name, width in zip(TOLD, (4, 6, 6, 6, 4, 4, 4, 4, 3)))
        what += f" {numbers.get('off', 0):3}"
    print(f"{row.document.name:20} {row.engine:8} {what:73} {'ok' if not row.faults else 'FAILS'}", flush=True)
    for fault in row.faults:
        print(f"    {fault}", flush=True)
