"""Runs a document through LaTeX alone, and through LaTeX, pgtex and LaTeX."""

import os
import re
import resource
import signal
import subprocess
import time

TEX_FOLDER = os.path.abspath(os.path.join(os.path.dirname(os.path.abspath(__file__)), ".."))
TESTS = os.path.join(TEX_FOLDER, "tests")
TELLER = os.path.join(TEX_FOLDER, "..", "crates", "pg_tell_main", "out", "pg_tell_main")
LOAD = re.compile(r"\\usepackage(?:\[([^\]]*)\])?\{pg\}")
LOAD_PLAIN = re.compile(r"\\input pg-plain\b")
PLAIN_ENGINES = {"pdflatex": "pdftex", "lualatex": "luatex", "xelatex": "xetex"}
# the frame of the text, from the top of the page, and what TeX ships out, in the log
FRAME = (
    r"\AddToHook{begindocument/end}{\immediate\write-1{text frame "
    r"\the\dimexpr1in+\voffset+\topmargin+\headheight+\headsep\relax\space\the\textheight}}"
)
TRACE = r"\AddToHook{begindocument/before}{\tracingoutput=1 \showboxbreadth=1000000 \showboxdepth=1000000 }"
PLAIN_FRAME = r"\immediate\write-1{text frame 72.27pt \the\vsize}"
PLAIN_TRACE = r"\global\tracingoutput=1 \global\showboxbreadth=1000000 \global\showboxdepth=1000000 "
# what LaTeX reads again in its next run
READ_AGAIN = (".aux", ".toc", ".lof", ".lot", ".lop", ".out")


class Tools:
    """The programs: pg, pg_tell where it is built, the folder of the macros with pgtex.lua, and how long a run may take."""

    def __init__(self, program, macros, limit=300):
        self.program, self.macros, self.limit = os.path.abspath(program), os.path.abspath(macros), limit
        self.teller = TELLER if os.path.exists(TELLER) else None

    def environment(self):
        out = dict(os.environ)
        out.update(
            TEXINPUTS=f".:{TESTS}:{self.macros}:", LUAINPUTS=f".:{self.macros}:", PG=self.program, max_print_line="1000000",
            SOURCE_DATE_EPOCH="1000000000", FORCE_SOURCE_DATE="1",
        )
        return out


class Done:
    """How a command ended: its status, what it wrote, and the seconds of the clock and of the processor."""

    def __init__(self, status, text, clock, processor):
        self.status, self.text, self.clock, self.processor = status, text, clock, processor


def run(tools, folder, words):
    """Runs a command in a folder; one that takes too long is ended with all that it started, and has the status 124."""
    started, before = time.monotonic(), resource.getrusage(resource.RUSAGE_CHILDREN)
    process = subprocess.Popen(
        words, cwd=folder, env=tools.environment(), stdin=subprocess.DEVNULL, stdout=subprocess.PIPE,
        stderr=subprocess.STDOUT, start_new_session=True,
    )
    try:
        text, status = process.communicate(timeout=tools.limit)[0], process.returncode
    except subprocess.TimeoutExpired:
        os.killpg(process.pid, signal.SIGKILL)
        text, status = process.communicate()[0] + b"\nran too long", 124
    after = resource.getrusage(resource.RUSAGE_CHILDREN)
    used = after.ru_utime + after.ru_stime - before.ru_utime - before.ru_stime
    return Done(status, text.decode("latin-1"), time.monotonic() - started, used)


def latex(tools, folder, engine, name, words=()):
    return run(tools, folder, [engine, *words, "-interaction=nonstopmode", name])


def pgtex(tools, folder, name):
    return run(tools, folder, ["texlua", os.path.join(tools.macros, "pgtex.lua"), "--keep", name])


def read(folder, name):
    path = os.path.join(folder, name)
    if not os.path.exists(path):
        return None
    with open(path, encoding="latin-1", newline="\n") as file:
        return file.read()


def write(folder, name, text):
    """Writes a text as `read` gave it, byte for byte."""
    os.makedirs(folder, exist_ok=True)
    with open(os.path.join(folder, name), "w", encoding="latin-1", newline="\n") as file:
        file.write(text)


def without_pg(text):
    """The document without the package."""
    return LOAD_PLAIN.sub(lambda _: PLAIN_FRAME, LOAD.sub(lambda _: FRAME, text, count=1), count=1)


def with_trace(text, options="full"):
    """The document with bodies in its galley, and with what is shipped out in its log."""
    def load(found):
        return f"\\usepackage[{','.join(filter(None, (options, found[1])))}]{{pg}}{FRAME}{TRACE}"

    text = LOAD_PLAIN.sub(lambda found: f"\\def\\pgoptions{{{options}}}{found[0]} {PLAIN_FRAME}{PLAIN_TRACE}", text, count=1)
    return LOAD.sub(load, text, count=1)


def texts_of_parts(folder, name):
    """The files of page texts that pgtex kept of a document, in order."""
    paths, number = [], 1
    while os.path.exists(os.path.join(folder, f"{name}-{number}.pages")):
        paths.append(os.path.join(folder, f"{name}-{number}.pages"))
        number += 1
    return paths


def state(folder, name):
    """What the next run of LaTeX reads."""
    endings = READ_AGAIN + (".pgx",)
    names = [file for file in sorted(os.listdir(folder)) if os.path.splitext(file)[1] in endings]
    return {file: read(folder, file) for file in names}


def settle(tools, folder, engine, name, rounds=6):
    """Runs LaTeX alone until nothing changes that it reads again; gives the last run, and whether it settled."""
    done = None
    for _ in range(rounds):
        before = state(folder, name)
        done = latex(tools, folder, engine, name)
        if state(folder, name) == before:
            return done, True
    return done, False


class Paged:
    """What came of a document with pg: the last run of LaTeX, all that was said, and how often both ran until nothing changed."""

    def __init__(self):
        self.said, self.latex_runs, self.pgtex_runs, self.is_settled, self.refused = "", 0, 0, False, None
        self.last = None


def paginate(tools, folder, engine, name, rounds):
    """LaTeX and pgtex by turns, until LaTeX writes what it read, and pgtex the pages that LaTeX had. Then the pages are those of
    the galley in the log."""
    out = Paged()
    for _ in range(rounds + 1):
        before = state(folder, name)
        out.last = latex(tools, folder, engine, name)
        out.latex_runs += 1
        out.said += out.last.text
        after = state(folder, name)
        ran = pgtex(tools, folder, name)
        out.pgtex_runs += 1
        out.said += ran.text
        if ran.status:
            out.refused = ran.text.strip() or f"pgtex ended with {ran.status}"
            return out
        if before == after == state(folder, name):
            out.is_settled = True
            return out
    return out
