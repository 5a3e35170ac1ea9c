"""Compares what the built program precopy-view writes with a plain model, and with what precopy writes.

    checks/run view [--seed N] [PRECOPY_VIEW [PRECOPY]]

The traces are examples/*.pcwt, and some that are made. Each JSON document must have the facts of the text of `precopy
report` or `precopy sweep`, under the names of that text; both must be what a model makes of the trace
(checks/lib/migration_model.py), and keep its schema in docs/. Tables for a terminal must have the same numbers, in
lines that are no wider than asked, and colors where the words and the terminal have it so; runs of hot pages fill up to
eight such lines, and only then some may be left out. A picture must have its bars and texts inside, and no text over
another, also with 1, 30 and 10,000 windows; 200 random pictures of reports and starts are read back, each mark to the
numbers that it may stand for. Random questions in time and bytes are asked of `json report`, `when`, `json when`,
`advise` and `json sweep`, half of those about starts by a hypervisor's looks; of each answer there are a number, and at
most a fifth is refused, in the words of the model. Words of limits are tried at the ends of their ranges, and with
misspellings, and those of Clark's rounds without --clark; times, rates and sizes as words are those of
checks/view/quantities.tsv and random decimals, for the program and for the tools.
"""

import collections
import contextlib
import itertools
import os
import pty
import re
import subprocess
import tempfile
import xml.etree.ElementTree

from checks.lib.harness import expect, run_main
from checks.lib.migration_model import report_of, sweep_of
from checks.lib.tally import Failure
from checks.lib.traces import EXAMPLES, Trace, made
from checks.lib.view_texts import document_of, report_facts, sweep_facts, told
from checks.view.advice_cases import advice_tries
from checks.view.limit_cases import SEEN, report_tries, start_tries, word_tries
from checks.view.nearest_cases import nearest_tries
from checks.view.picture_cases import picture_tries
from checks.view.plan_cases import plan_tries
from checks.view.quantity_cases import quantity_tries
from precopy_dev.files import write_file
from precopy_dev.models import redrawn

SVG = "{http://www.w3.org/2000/svg}"
# The most lines of runs of hot pages.
MOST_LINES = 8
SETTINGS = [
    [],
    ["--min=2", "--max=4", "--inc=1", "--threshold=1", "--rounds=8"],
    ["--min=500", "--max=4000", "--threshold=10", "--window=1200", "--hot=3", "--skip"],
    ["--window=7", "--hot=1", "--start=40", "--threshold=1", "--workers=4"],
    ["--min=500", "--max=4000", "--threshold=6", "--base=1480", "--start=1500"],
    ["--base=0", "--threshold=1"],
]
DEFAULTS = {"min": 1000, "max": 5000, "inc": 500, "threshold": 64, "rounds": 30, "start": 0, "window": 1000, "hot": 2}
CASES = [
    ["2,4,1,1,8,0", "2,2,1,1,8,0", "2,4,1,3,8,0"],
    ["500,4000,500,10,30,0", "500,4000,500,10,30,1", "--start=3", "--workers=3"],
    ["1000,5000,500,64,30,1"],
    ["--base=1200", "500,4000,500,10,30,0", "500,4000,500,10,30,1", "--start=1500"],
    ["--base=0", "1000,5000,500,64,30,0"],
]


def asked_by(words):
    """The settings that options of precopy ask for, the length of a window, and how many make a page hot."""
    given = dict(word[2:].split("=") for word in words if "=" in word)
    numbers = {name: int(given.get(name, default)) for name, default in DEFAULTS.items()}
    base = int(given["base"]) if "base" in given else None
    window, hot = numbers.pop("window"), numbers.pop("hot")
    return redrawn.Settings(*numbers.values(), "--skip" in words, base), window, hot


def case_asked(word, words):
    *numbers, skip = map(int, word.split(","))
    shared, _, _ = asked_by(words)
    return redrawn.Settings(*numbers, shared.start, bool(skip), shared.base)


def check_document(view, precopy, name, words, trace):
    """A document and a text of the same facts, which are those of the model."""
    if name == "report":
        wanted, text_facts = report_of(trace, *asked_by(words)), report_facts
    else:
        cases = [case_asked(word, [it for it in words if it[:2] == "--"]) for word in words if word[:2] != "--"]
        wanted, text_facts = sweep_of(trace, cases), sweep_facts
    found = text_facts(told(precopy, [name, *words], trace.path))
    expect(found == wanted, f"the text {found} in place of {wanted}")
    document = document_of(name, told(view, ["json", name, *words], trace.path))
    expect(document == wanted, f"{document} in place of {wanted}")


# ---- Tables for a terminal.


def rows_below(lines, name):
    """Returns the numbers of the rows of a table whose first column has this name."""
    head = next(number for number, line in enumerate(lines) if line.split()[:1] == [name])
    columns = lines[head].split()
    rows = itertools.takewhile(str.strip, lines[head + 1 :])
    return [dict(zip(columns, map(int, row.split()[: len(columns)]))) for row in rows]


def hot_lines(hot, width):
    """The runs of hot pages, in lines that are as full as the width allows, and of how many pages no run is listed."""
    gaps = itertools.groupby(enumerate(hot), lambda it: it[1] - it[0])
    runs = [[page for _, page in group] for _, group in gaps]
    lines, shown = [""], 0
    for number, run in enumerate(runs, 1):
        words = " " + "-".join(map(str, sorted({run[0], run[-1]}))) + ("," if number < len(runs) else "")
        if len(lines[-1] + words) > width:
            if len(lines) == MOST_LINES:
                return [*lines, f" and {len(hot) - shown} more"]
            lines.append("")
        lines[-1] += words
        shown += len(run)
    return lines


def check_hot(lines, width, pages, hot):
    """The lines of hot pages are those of the model, and the strip shows in which cells there are any."""
    head = next(number for number, line in enumerate(lines) if line.startswith("hot pages, in "))
    below = list(itertools.takewhile(str.strip, lines[head + 1 :]))
    wanted = hot_lines(hot, width) if hot else []
    if not lines[head].endswith(f": {len(hot)}") or below[:-1] != wanted:
        raise Failure(f"hot pages {lines[head]!r} {below[:-1]} in place of {wanted}")
    if hot:
        cells = min(width - 3, pages)
        marked = {page * cells // pages for page in hot}
        if [cell != " " for cell in below[-1][2:-1]] != [cell in marked for cell in range(cells)]:
            raise Failure(f"the strip {below[-1]!r} of {hot}")


def check_screen(view, _, words, trace):
    wanted = report_of(trace, *asked_by(words))
    for width in 72, 80, 200:
        text = told(view, ["show", f"--width={width}", *words], trace.path)
        colored = told(view, ["show", f"--width={width}", "--color", *words], trace.path)
        if colored == text or re.sub("\x1b\\[[0-9]+m", "", colored) != text:
            raise Failure("there are no colors, or they change the text")
        lines = text.splitlines()
        if max(map(len, lines)) > width or rows_below(lines, "round") != wanted["rounds"]:
            raise Failure(f"lines of {max(map(len, lines))} characters, or other rounds")
        if wanted["windows"] != rows_below(lines, "window"):
            raise Failure("other windows")
        check_hot(lines, width, wanted["trace"]["pages"], wanted["hot"]["pages"])
        numbers = [int(number) for line in lines[-4:] for number in re.findall("[0-9]+", line)]
        if numbers != [wanted["stop"][name] for name in ("at", "pages", "down", "total")]:
            raise Failure(f"{numbers} at the stop")


# Words for colors, and whether bars have some on a terminal and elsewhere.
COLORS = {"": (False, False), "--color": (True, True), "--color=always": (True, True)}
COLORS |= {"--color=never": (False, False), "--color=auto": (True, False)}


def written_on_terminal(command, source):
    """What a command writes to a terminal of its own."""
    here, terminal = pty.openpty()
    with subprocess.Popen(command, stdin=source, stdout=terminal) as run:
        os.close(terminal)
        pieces = []
        # Where nobody has the terminal open any more, a read of it fails.
        with contextlib.suppress(OSError):
            while piece := os.read(here, 1 << 16):
                pieces.append(piece)
        os.close(here)
    expect(run.returncode == 0, f"{command}: status {run.returncode}")
    return b"".join(pieces).decode()


def check_colors(view, _, word, trace):
    words = ["show", "--threshold=1", *filter(None, [word])]
    with open(trace.path, "rb") as source:
        shown = written_on_terminal([view, *words], source)
    found = ["\x1b[" in text for text in (shown, told(view, words, trace.path))]
    expect(found == list(COLORS[word]), f"colors on a terminal and elsewhere: {found}")
    expect("windows of 1000 ticks" in shown, "the terminal shows no windows")


# ---- Pictures.


def check_picture(view, _, words, trace):
    wanted = report_of(trace, *asked_by(words))
    root = xml.etree.ElementTree.fromstring(told(view, ["chart", *words], trace.path))
    _, _, width, height = map(int, root.get("viewBox").split())
    bars = {}
    for rect in root.iter(SVG + "rect"):
        x, y, wide, high = [int(rect.get(name, 0)) for name in ("x", "y", "width", "height")]
        bars.setdefault(rect.get("class"), []).append((x, y, wide, high))
        if x + wide > width or y + high > height:
            raise Failure(f"a bar {rect.attrib} outside of the picture")
    if len(bars["rate"]) != len(wanted["rounds"]):
        raise Failure(f"{len(bars['rate'])} rates of rounds")
    boxes = []
    for text in root.iter(SVG + "text"):
        wide = len(text.text) * 7.6
        x = int(text.get("x")) - {"end": wide, "middle": wide / 2}.get(text.get("class"), 0)
        y = int(text.get("y"))
        if x < 0 or x + wide > width or y > height:
            raise Failure(f"the text {text.text!r} is not all inside of the picture")
        for left, right, at in boxes:
            if abs(at - y) < 13 and left < x + wide and x < right:
                raise Failure(f"the text {text.text!r} over another")
        boxes.append((x, x + wide, y))


def windows_trace(folder, windows, step):
    """Writes a trace whose writes fall into a number of windows, of pages that come again and of new ones."""
    path = os.path.join(folder, f"{windows}-{step}.pcwt")
    writes = [(j * step, (j * j + k * 7) % (j % 40 + 3)) for j in range(windows) for k in range(3)]
    write_file(made(64, writes), path)
    return Trace.at(path)


def hot_trace(folder, pages):
    """Writes a trace that writes runs of one page and of two in two windows."""
    path = os.path.join(folder, f"hot-{pages}.pcwt")
    runs = [page for page in range(pages) if page % 5 in (0, 2, 3)]
    write_file(made(pages, [(tick, page) for tick in (0, 1000) for page in runs]), path)
    return Trace.at(path)


def tries_of(folder):
    examples = [Trace.at(path) for path in EXAMPLES]
    windows = [windows_trace(folder, *some) for some in ((1, 1000), (30, 1000), (10_000, 1000), (30, 10**10))]
    known, gzip = examples + windows[:3], next(it for it in examples if f"{it}" == "gzip.pcwt")
    for trace in examples:
        yield from ((check_document, "report", words, trace) for words in SETTINGS)
        yield from ((check_document, "sweep", words, trace) for words in CASES)
        yield from ((check_screen, words, trace) for words in SETTINGS)
    yield from ((check_screen, [], hot_trace(folder, pages)) for pages in (10, 80, 300, 1_000))
    yield from ((check_picture, words, trace) for trace in examples + windows for words in SETTINGS)
    for tries in (report_tries, start_tries):
        yield from tries(known)
    yield from advice_tries(examples, known, folder)
    for tries in (word_tries, plan_tries, nearest_tries, quantity_tries):
        yield from tries(gzip)
    yield from picture_tries(folder)
    # A program behind another one, as checks/wrongs tries it, has no terminal: these come last.
    yield from ((check_colors, word, gzip) for word in COLORS)


# How often each must come of the random questions, at least; and at most a fifth of each kind is refused.
LEAST = {"report": {"yes": 50, "no": 10, "unknown": 15, "refused": 1}}
LEAST |= {f"when by {plan}": {"yes": 10, "no": 3, "unknown": 10, "refused": 1} for plan in ("looks", "rounds")}
LEAST |= {"advise": {"fits": 25, "another": 5, "unlikely": 1, "unknown": 3, "refused": 1}}


def expect_each():
    for name, least in LEAST.items():
        found = {kind: count for (asked, kind), count in SEEN.items() if asked == name}
        few = [kind for kind, count in least.items() if found.get(kind, 0) < count]
        expect(not few, f"{name}: {few} are seldom: {found}")
        expect(5 * found["refused"] <= sum(found.values()), f"{name}: more than a fifth is refused: {found}")
        print(f"{name}: {found}")


def check(tally, given):
    counts = collections.Counter()
    with tempfile.TemporaryDirectory() as folder:
        for act, *words in tries_of(folder):
            tally.tries(f"{act.__name__} {words}", act, given.precopy_view, given.precopy, *words)
            counts[act.__name__] += 1
    tally.tries("what came of the questions", expect_each)
    print(", ".join(f"{name} {count}" for name, count in counts.items()))


if __name__ == "__main__":
    run_main(check, __doc__, "precopy_view", "precopy")
