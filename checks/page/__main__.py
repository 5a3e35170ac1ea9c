"""Tests the planner's page in a headless Chromium, and what users do with it in Firefox too.

    checks/run page [--seed N] [--only PART] [--without PART] [--pictures FOLDER] [--module MODULE] [PRECOPY]

MODULE is the WebAssembly module, by default out/browser_planner.wasm, which `make page` builds; if it is missing,
dev/page-module builds it. The page is joined from web/. Numbers that it shows for 440 random settings over 20 traces
must be those of `precopy report`, which are a model's, and of `precopy sweep`, and by looks those of a model; the words
that it gives for `precopy-view predict` and `when` ask for the same; each verdict is as sure as that tells it; what a
click takes as enough for the limit keeps it. Each damage of the table in docs/FORMATS.md is refused by its name; a
trace of `2^28` bytes is planned, or refused in a sentence. Fifty traces of all shapes plan at once. No task of the
page's own thread works for more than 50 ms, however large the trace. The page opens no connection, fits widths from 360
to 1,920 pixels in each state, has contrasts of 4.5 for text and 3 for marks in light and in dark, and a name of its own
for each control, with the words that are seen of it. In tables points are below each other, and no plan has a gap
beside it, on paper neither. If Node is there, web/engine/planner.js plans the same in it, and the tests of
checks/page/modules pass; and the package for Node is made and installed, answers what models say, and refuses what they
do (checks/page/package.py). Without Chromium all but sizes and Node are left out.

With --pictures only looks are tried, and FOLDER gets them for a reader's eye: in Chromium a PNG of each state of the
page at each width, in light and in dark, PDFs of what is printed, and the files that the page saves; in Firefox too the
scenes of checks/page/pictures.py, in light, in dark, on a phone, at 200 per cent, and on paper. With --only one
part is tried: `node`, `package`, `firefox`, or in Chromium `numbers`, `starts`, `damages`, `addresses`, `uses`,
`states`, `looks`, `loads` or `silence`; or one trial of these by the name of its function, as `check_told`. With
--without a part is not tried.
"""

import html
import json
import os
import re
import subprocess
import tempfile
import time
from dataclasses import replace

from checks.lib.harness import drawn, run_main
from checks.lib.tally import drawn_from, has, left_out
from checks.lib.traces import Trace
from checks.lib.view_texts import Failure
from checks.lib.worked import damaged
from checks.page import addresses, cases, enough, forecasts, loads
from checks.page import looks as page_looks
from checks.page import package, pictures, records, states, sure, uses, worker
from checks.page.browser import Browser
from checks.page.firefox import Firefox
from checks.page.node import node_command, put_web, run_tests
from checks.page.shown import COLLECTOR, Page, tried
from checks.page.starts import VIEW, check_looked_starts, check_starts, has_view
from checks.view.quantity_cases import amounts, quantities, texts_of
from precopy_dev import join_page
from precopy_dev.files import write_file
from precopy_dev.packaging import notices
from precopy_dev.tree import TOP
from precopy_tools.refusals import Refused

MOST_MODULE, MOST_PAGE = 65_536, 400_000
IN_CHROMIUM = ["numbers", "starts", "damages", "addresses", "uses", "states", "looks", "loads", "silence"]
PARTS = ["node", "package", "firefox", *IN_CHROMIUM]
# The trials of a page that need nothing else, by their functions' names.
TRIALS = {
    act.__name__: (words, act)
    for words, act in [*uses.USES.items(), *records.RECORDS.items(), *page_looks.LOOKS.items()]
}
# For how many of the random settings it must be compared what is enough for the limit.
LEAST_COMPARED = 60
STARTS_OF, STARTS_TIMES = ["gzip.pcwt", "guests/sqlite.light.pcwt"], 4


# ---- Sizes, and the module in Node.


def built_page(folder, module):
    if not module:
        module = os.path.join(TOP, "out", "browser_planner.wasm")
        if not os.path.exists(module):
            subprocess.run([os.path.join(TOP, "dev", "page-module"), module], check=True)
    page = os.path.join(folder, "precopy.html")
    for path in (os.path.join(folder, "again.html"), page):
        subprocess.run([os.path.join(TOP, "dev", "join-page"), module, path], check=True)
    return os.path.abspath(module), page


def check_sizes(tally, folder, module, page):
    sizes = {path: os.path.getsize(path) for path in (module, page)}
    print(f"the module has {sizes[module]:,} bytes, and the page {sizes[page]:,}")
    tally.add(sizes[module] < MOST_MODULE, f"the module has {sizes[module]} bytes")
    tally.add(sizes[page] < MOST_PAGE, f"the page has {sizes[page]} bytes")
    with open(page, "rb") as file, open(os.path.join(folder, "again.html"), "rb") as again:
        text = file.read()
        tally.add(text == again.read(), "the same sources give two pages")
    told = re.search('<pre id="notices">(.*?)</pre>', text.decode(), re.DOTALL)
    wanted = notices.notices(notices.PLANNER)
    tally.add(told and html.unescape(told[1]) == wanted, "the page has not the notices of its libraries")


def check_tabs(tally):
    """A line of the page's script is as deep as it was, and no literal is changed."""
    rows = [
        ("  a\n    b\nc  d\n", "\ta\n\t\tb\nc  d\n"),
        ("   a;\n\n  \n", "\t a;\n\n\t\n"),
        ("  a(`b`);\n  `c${`d`}`", "\ta(`b`);\n\t`c${`d`}`"),
    ]
    for text, wanted in rows:
        found = join_page.tabbed("a.js", text)
        tally.add(found == wanted, f"{text!r} is joined as {found!r}, not {wanted!r}")
    for text in ("a = `b\n  c`;", "a(`b`, `c\n  ${d}`)"):
        try:
            tally.add(False, f"{text!r} is joined as {join_page.tabbed('a.js', text)!r}")
        except Refused as error:
            tally.add("web/a.js has a template literal of several lines" in str(error), f"{text!r}: {error}")


def node_settings(asked):
    names = ("min", "max", "increment", "threshold", "rounds", "start", "skip", "base")
    return {**dict(zip(names, asked.settings())), "window": asked.window}


def node_facts(asked, report):
    """What the module has to answer, by the lines of a report."""
    figures, stop = cases.figures(asked, report), report["stop"]
    left = stop["pages"] if cases.is_stopped(asked, stop) else 0
    return {
        "windows": [list(row.values()) for row in report["windows"]],
        "rounds": [list(row.values())[1:] for row in report["rounds"]],
        "stop": list(stop.values()),
        "settings": list(asked.settings()[:4]),
        "map": [[row["pages"], row["sent"], row["dirtied"]] for row in report["rounds"]] + [[left, left, 0]],
        "isSame": True,
        "answer": [str(figures[name]) for name in ("time", "sent", "down", "recorded", "kept", "converges")],
    }


def check_quantities(tally, command, web):
    """Reads in Node what the other doors make of times and rates. The page takes what a number of JavaScript holds. It
    writes times and sizes as they do."""
    rows = [row for row in quantities() if row[0] != "size"]
    words = [*command, "--no-warnings", os.path.join(web, "words.mjs")]
    ran = subprocess.run(words, input=json.dumps([row[:2] for row in rows]).encode(), capture_output=True, check=False)
    if not tally.add(ran.returncode == 0, f"Node: {ran.stderr.decode()[:300]}"):
        return
    for (_, word, amount), found in zip(rows, json.loads(ran.stdout), strict=True):
        is_held = amount is not None and amount < 1 << 53
        tally.add(found == ([amount] * 2 if is_held else None), f"the page takes {word!r} as {found}, not {amount}")
    words, some = [*command, "--no-warnings", os.path.join(web, "texts.mjs")], list(amounts())
    ran = subprocess.run(words, input=json.dumps(list(map(str, some))).encode(), capture_output=True, check=False)
    if tally.add(ran.returncode == 0, f"Node: {ran.stderr.decode()[:300]}"):
        for amount, found in zip(some, json.loads(ran.stdout), strict=True):
            tally.add(found == texts_of(amount), f"the page writes {amount} as {found}, not {texts_of(amount)}")


def check_node(tally, folder, module, precopy):
    """Plans in Node what `precopy report` plans."""
    command = node_command()
    if not command:
        left_out("the module in Node", "there is no node with 64-bit memory")
        return
    run_tests(tally, command, os.path.join(TOP, "checks", "page", "modules"), "the modules")
    web = put_web(folder, "plans.mjs", "words.mjs", "texts.mjs")
    check_quantities(tally, command, web)
    for known, some in cases.tries(folder):
        fitting = [asked for asked in some if not asked.refusal()]
        questions = [{"settings": node_settings(asked), "question": vars(asked.question())} for asked in fitting]
        words = [*command, "--no-warnings", os.path.join(web, "plans.mjs"), module, known.path]
        ran = subprocess.run(words, input=json.dumps(questions).encode(), capture_output=True, check=False)
        if not tally.add(ran.returncode == 0, f"Node: {ran.stderr.decode()[:300]}"):
            continue
        for asked, found in zip(fitting, json.loads(ran.stdout), strict=True):
            with drawn_from(asked.draw), tally.case(f"in Node {known}, {asked.fragment()}") as case:
                compare_in_node(case, precopy, asked, found)


def check_package(tally, folder, module):
    """The package for Node with this module."""
    if command := node_command():
        package.check(tally, command, folder, module)
    else:
        left_out("the package for Node", "there is no node with 64-bit memory")


def compare_in_node(case, precopy, asked, found):
    """What the module answers beside the lines of a report; of a small sample also its errors, how sure that is, and
    what is enough."""
    report = cases.reported(precopy, asked)
    errors, remedies, forecast, verdicts = (found.pop(name) for name in ("errors", "remedies", "forecast", "sure"))
    case.add(found == node_facts(asked, report), f"{found['stop']}")
    if asked.known.pages <= cases.SMALL:
        wanted = cases.drawn_errors(asked)
        case.add(errors == (wanted and list(wanted)), f"{errors}, {wanted}")
        wanted = sure.modelled(asked.known.guest, asked.question().trial())
        case.add(verdicts == json.loads(json.dumps(wanted)), f"{verdicts}, {wanted}")
        wanted = forecasts.line_of(replace(asked.question(), clark=True), Trace.at(asked.known.path))
        case.add((forecast or "") == wanted, f"{forecast!r}, {wanted!r}")
        first, increment = (asked.limits()[1], asked.settings().increment) if asked.clark else (None, None)
        wanted = enough.remedies_of(asked, first, increment)
        amounts = (*wanted[1:4], *wanted.ending[1:])
        amounts = [None if amount is None else str(amount) for amount in amounts]
        wanted = [wanted.is_kept, wanted.ending.ends, *amounts]
        case.add(remedies == wanted, f"{remedies}, {wanted}")


# ---- Numbers.


def check_numbers(tally, page, precopy, folder):
    for known, some in cases.tries(folder):
        page.load(known.path)
        page.browser.value("document.getElementById('windows-details').open = true")
        for asked in some:
            with drawn_from(asked.draw):
                tried(tally, f"{known}, {asked.fragment()}", check_one, page, precopy, asked)
    told = f"what is enough was compared for {len(enough.COMPARED)} settings, of {LEAST_COMPARED} at least"
    tally.add(len(enough.COMPARED) >= LEAST_COMPARED, told)
    sure.check_compared(tally)


def check_one(page, precopy, asked):
    found = page.ask(asked.fragment())
    document = cases.predicted(VIEW, asked, found) if not asked.refusal() and has_view() else None
    verdicts = None if asked.refusal() else sure.sure_of(asked, document)
    cases.check_facts(precopy, asked, found, document, verdicts)
    if not asked.refusal():
        enough.check_enough(asked, page, found, document, verdicts)
        cases.check_forecast(forecasts.told(page), document)
        enough.check_taken(asked, page, precopy, VIEW if has_view() else None)


# ---- Refusals and long traces.


def check_damages(tally, page, folder):
    """A file that is refused is named, and leaves the trace that is open, with its plan."""
    path = os.path.join(folder, "damaged.pcwt")
    page.load(cases.example("guests/mid.light.pcwt"))
    before = page.shown()
    for text, name in damaged():
        write_file(text, path)
        said = page.load(path)
        sentence = said.partition(f"damaged.pcwt is refused: {name} ")[2]
        tally.add(
            len(sentence) > 10 and "mid.light.pcwt is still open." in said and page.shown() == before,
            f"{name}: {said!r}",
        )


def check_no_memory(page):
    """No memory to lend, and a file that cannot be read, are refused in a sentence."""
    codes = [
        ("E16", "WebAssembly.Memory.prototype.grow = () => { throw new RangeError('no'); };"),
        ("E16", "WebAssembly.instantiate = async () => { throw new RangeError('no'); };"),
        ("E17", "Blob.prototype.stream = () => { throw new Error('gone'); };"),
    ]
    for name, code in codes:
        page.open_planned()
        # The next worker begins with this.
        page.browser.value(
            f"""(() => {{
          const Made = Blob;
          Blob = function (parts, kind) {{
            return new Made(kind?.type === "text/javascript" ? [{json.dumps(code)}, ...parts] : parts, kind);
          }};
        }})()"""
        )
        worker.end_worker(page)
        said = page.load(cases.example("guests/mid.light.pcwt"))
        if f"is refused: {name} " not in said:
            raise Failure(f"{said!r} in place of {name}, by {code}")


# ---- All of it.


def timed(name, act, *words):
    """Does a part, and says how long it took."""
    begun = time.monotonic()
    act(*words)
    print(f"  {name}: {time.monotonic() - begun:.0f} s", flush=True)


def in_chromium(act, tally, path, *words):
    with Browser("chromium") as browser:
        browser.begin_with(COLLECTOR)
        browser.dress(1400, 900)
        act(tally, Page(browser, path), *words)


def all_starts(tally, page, precopy):
    for name in STARTS_OF:
        for draw in drawn(f"starts of {name}", range(STARTS_TIMES)):
            tried(tally, str(draw), check_starts, page, precopy, name, draw)
        for draw in drawn(f"starts by looks of {name}", range(STARTS_TIMES)):
            tried(tally, str(draw), check_looked_starts, page, name, draw)


def all_damages(tally, page, folder):
    check_damages(tally, page, folder)
    tried(tally, "no memory", check_no_memory, page)


def all_uses(tally, page, folder, precopy, only):
    parts = {
        "numbers": lambda: check_numbers(tally, page, precopy, folder),
        "starts": lambda: all_starts(tally, page, precopy),
        "damages": lambda: all_damages(tally, page, folder),
        "addresses": lambda: addresses.check_addresses(tally, page, tried),
        "uses": lambda: uses.check_uses(tally, page),
        "states": lambda: looks(tally, page),
        "looks": lambda: page_looks.check_looks(tally, page, tried),
        "loads": lambda: loads.check_loads(tally, page, folder),
        "silence": lambda: page_looks.check_silence(tally, page),
    }
    page.open_planned()
    for name, act in parts.items():
        if not only or name in only:
            timed(name, act)
    for words, act in (TRIALS[name] for name in only or () if name in TRIALS):
        tried(tally, words, act, page)


def looks(tally, page, pictures=None):
    states.check_states(tally, page, tried, pictures)
    tried(tally, "traces of other shapes", page_looks.check_shapes, page, pictures)


def in_firefox(tally, path):
    """What users do with the page, in the other kind of browser."""
    with Firefox() as browser:
        browser.begin_with(COLLECTOR)
        uses.check_uses(tally, Page(browser, path))


def check_pictures(tally, path, folder):
    os.makedirs(folder, exist_ok=True)
    if has("chromium", "chromium", "the page in a browser"):
        tried(tally, "pictures in Chromium", pictures.in_chromium, path, folder)
        tried(tally, "the browser", in_chromium, looks, tally, path, folder)
    if has("firefox-esr", "firefox-esr", "pictures in Firefox"):
        tried(tally, "pictures in Firefox", pictures.in_firefox, path, folder)


def check_all(tally, folder, module, path, precopy, only):
    check_sizes(tally, folder, module, path)
    check_tabs(tally)
    if not only or "node" in only:
        timed("node", check_node, tally, folder, module, precopy)
    if not only or "package" in only:
        timed("package", check_package, tally, folder, module)
    is_in_chromium = not only or not set(only).isdisjoint({*IN_CHROMIUM, *TRIALS})
    if is_in_chromium and has("chromium", "chromium", "the page in a browser"):
        tried(tally, "the browser", in_chromium, all_uses, tally, path, folder, precopy, only)
    if (not only or "firefox" in only) and has("firefox-esr", "firefox-esr", "what users do, in Firefox"):
        timed("firefox", tried, tally, "Firefox", in_firefox, tally, path)


def check(tally, given):
    if unknown := {*(given.only or ()), *given.without} - {*PARTS, *TRIALS}:
        tally.add(False, f"there is no part {sorted(unknown)}")
        return
    only = given.only or (given.without and [part for part in PARTS if part not in given.without])
    with tempfile.TemporaryDirectory() as folder:
        module, path = built_page(folder, given.module)
        if given.pictures:
            check_pictures(tally, path, given.pictures)
        else:
            check_all(tally, folder, module, path, given.precopy, only)


def more(parser):
    parser.add_argument("--pictures", metavar="FOLDER")
    parser.add_argument("--module", type=os.path.abspath)
    parser.add_argument("--without", action="append", default=[], metavar="PART")


if __name__ == "__main__":
    run_main(check, __doc__, "precopy", more=more)
