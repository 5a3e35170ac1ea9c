"""How the planner's page looks in each state that a user comes to, at several widths, in light and in dark; on paper,
and in the files that it saves."""

import base64
import collections
import json
import os
import re

from checks.lib.tally import expect
from checks.page import shapes
from checks.page.acts import example_named, guest_with_record, plan_starts, typed
from checks.page.looks import (
    ALL_MARKS,
    GAPS,
    HEIGHT,
    MARKS,
    STARTS_MARKS,
    check_labels,
    check_look,
    check_names,
    read_nodes,
)
from checks.page.saves import saved_files
from checks.page.worker import end_worker
from precopy_dev.files import write_file

WIDTHS = [390, 900, 1400]
FULL_WIDTHS = [360, *WIDTHS, 480, 600, 800, 1024, 1920]
LEAST_MARK_CONTRAST = 3
# What the PDF has of a map with its rounds: their pixels, in the width of the map on paper. As strokes they would lie
# elsewhere than the map.
ROUNDS_ON_PAPER = b"/Width 1006"
# The pixels of the name of a kept plan.
ROOM_OF_NAME = 80
# What can be saved with three kept plans and starts: PNG, SVG and CSV of eight pictures, and the prediction's CSV.
SAVED = 8 * 3 + 1


# ---- The states.


def no_trace(page):
    """An address that was sent, without its trace."""
    page.open("#link=1Gbit&downtime=300ms&of=0123456789ab")


def first_look(page):
    """The page with nothing said to it. What is enough for the limit can be taken."""
    page.open_planned("")
    found = page.enough(), page.browser.value("document.querySelectorAll('[data-takes]').length")
    expect(found[1] == 2, f"{found[0]} with {found[1]} to take")


def with_starts(page):
    page.open_planned("#trace=sqlite")
    plan_starts(page)
    expect(len(page.enough()) > 1, f"enough: {page.enough()}")


def kept_plans(page):
    """All that the page has: kept plans beside another, the curves, the tables."""
    page.open_planned("#trace=sqlite&link=64MiB&first=50&window=500&start=1000&rounds=12")
    page.after("document.getElementById('keep').click(); document.getElementById('control-skip').click()")
    page.after(
        "document.getElementById('keep').click(); document.getElementById('control-rounds').value = '2';"
        "document.getElementById('control-rounds').dispatchEvent(new Event('input'))"
    )
    page.browser.value("document.getElementById('windows-details').open = true")
    plan_starts(page)


def many_kept(page):
    """As many kept plans as there may be: one that is like this, a faster one, and one that ends after the trace."""
    page.open_planned("#trace=sqlite&link=64MiB&first=50&window=500&start=1000")
    page.clicked("keep")
    typed(page, "link", "640")
    page.clicked("keep")
    typed(page, "start", "37")
    typed(page, "link", "24")
    page.clicked("keep")
    typed(page, "start", "20")
    typed(page, "link", "128")


def second_trace(page):
    """A plan over another trace than the one that is open, kept to compare."""
    page.open_planned("#trace=sqlite&link=64MiB&first=50&window=500&start=1000")
    page.clicked("keep")
    page.drop(example_named("a-trace-with-a-rather-long-name.light.pcwt", "guests/mid.light.pcwt"))


def own_record(page):
    """A trace of one's own, with the record beside it: standard errors of this plan and of a kept one."""
    page.open_planned("")
    page.drop(*guest_with_record("store"))
    page.clicked("keep")
    typed(page, "rounds", "2")
    expect(page.enough(), "nothing is said of what is enough")


def refused_control(page):
    page.open_planned("#trace=sqlite")
    plan_starts(page)
    expect(typed(page, "downtime", "90000000")["stale"], "a plan of 90,000 seconds of downtime")


def refused_files(page):
    """A file that is no trace, a second trace, and an address of another trace than the open one."""
    page.open_planned("#trace=gzip")
    page.browser.value("history.replaceState(null, '', '#link=8MiB&downtime=4ms&of=0123456789ab')")
    page.browser.value("dispatchEvent(new PopStateEvent('popstate'))")
    page.drop(("notes.txt", b"no trace"), ("second.pcwt", b"another"))


def refused_first(page):
    """A file that is no trace, before there is one."""
    no_trace(page)
    page.drop(("notes.txt", b"no trace"))


def missed_limit(page):
    """A guest that writes faster than the link sends, a number that is none, and a record of another trace."""
    page.open_planned("#trace=sqlite")
    page.drop(
        ("heavy.pcwt", shapes.trace(12, 9_000, [(at // 20, at * 7 % 9_000, 1) for at in range(20_000)])),
        ("other.json", b"{}"),
    )
    typed(page, "downtime", "2")
    plan_starts(page)
    expect(typed(page, "reserve", "2x")["stale"], "a plan of no number")


def what_is_enough(page):
    """A limit that is missed: what would keep it, a slower guest too."""
    page.open_planned("#trace=gzip&link=2MB&downtime=4ms&first=40&increase=25&start=400")
    expect(len(page.enough()) == 4, f"enough: {page.enough()}")


def uncertain(page):
    """A limit that is kept in each redraw and from each start, but not with two standard errors."""
    page.open_planned("#trace=sqlite&link=64MiB&first=50&downtime=150ms&start=1000")
    page.clicked("keep")
    expect(typed(page, "downtime", "10")["mark"] == ["mark", "Uncertain"], "a verdict near its limit is sure")


def warm_start(page):
    """A warm start, nearer, with ticks, after a click that has moved the start."""
    page.open_planned("#trace=sqlite&start=20000&base=15000&ticks=1&skip=1")
    page.click("zoom-plan")
    page.press_in("windows-plot", "Home", "ArrowRight", "Enter")


def nothing_fits(page):
    """A short trace: each plan ends after it."""
    page.open_planned("#trace=sqlite")
    page.drop(("short.pcwt", shapes.trace(12, 5_000, [(tick, tick % 50, 1) for tick in range(60)])))
    page.with_unit("link", "Mbit")
    typed(page, "link", "4")
    plan_starts(page)


def old_starts(page):
    """Curves of settings that were changed since."""
    with_starts(page)
    typed(page, "downtime", "400")


def ended_worker(page):
    """A planner that ends again and again. The last plan stays."""
    page.open_planned("#trace=sqlite")
    page.browser.value("window.isDeadly = true; 0")
    end_worker(page)
    found = typed(page, "rounds", "7")
    expect("the planner ended" in found["verdict"] and found["stale"], found["verdict"])


def looked_at(page):
    """A round that the keyboard has come to, and beside it a window that is pointed at."""
    page.open_planned("#trace=sqlite&link=64MiB&first=50&window=500&start=1000")
    plan_starts(page)


STATES = {
    "no-trace": no_trace,
    "first-look": first_look,
    "starts": with_starts,
    "old-starts": old_starts,
    "kept": kept_plans,
    "many-kept": many_kept,
    "second-trace": second_trace,
    "own-record": own_record,
    "refused-control": refused_control,
    "refused-files": refused_files,
    "refused-first": refused_first,
    "missed": missed_limit,
    "enough": what_is_enough,
    "uncertain": uncertain,
    "warm": warm_start,
    "short": nothing_fits,
    "ended": ended_worker,
    "looked-at": looked_at,
}

# The marks of a state whose contrast is tested, with what they lie on.
MARKED = {"kept": ALL_MARKS, "old-starts": STARTS_MARKS}

# What is done in a state each time that the page is drawn anew.
ACTS = {
    "looked-at": """(() => {
  const rounds = document.getElementById("rounds-plot-this");
  rounds.focus({ focusVisible: true });
  rounds.dispatchEvent(new KeyboardEvent("keydown", { key: "Home", bubbles: true }));
  for (const [name, share] of [["windows-plot", 0.3], ["starts-plot", 0.8]]) {
    const plot = document.getElementById(name);
    const { left, top, width } = plot.getBoundingClientRect();
    plot.dispatchEvent(new PointerEvent("pointermove", { pointerType: "mouse", bubbles: true,
      clientX: left + width * share, clientY: top + 60 }));
  }
})()"""
}


# ---- Looking.


def put(folder, name, data):
    """Writes a file to a folder, if there is one."""
    if folder:
        write_file(data, folder, name)


def check_state(page, name, folder):
    browser = page.browser
    browser.dress(1400, HEIGHT)
    STATES[name](page)
    is_full = name == "kept"
    for is_dark in (False, True):
        for width in FULL_WIDTHS if is_full or name == "many-kept" else WIDTHS:
            browser.dress(width, HEIGHT, is_dark)
            # In the dark all is unfolded.
            browser.value("unfold()" if is_dark else "0")
            page.rest()
            browser.value(ACTS.get(name, "0"))
            look = f"{name}-{width}-{'dark' if is_dark else 'light'}"
            check_look(page, look)
            faults = browser.value("faults")
            expect(not faults, f"{look}: the page's code fails: {faults}")
            if folder:
                browser.value("scrollTo(0, 0)")
                page.rest()
                browser.picture(os.path.join(folder, f"{look}.png"))
        asked = MARKS.replace("PAIRS", json.dumps(MARKED.get(name, []))).replace("BOUND", str(LEAST_MARK_CONTRAST))
        marks = browser.value(asked) if name in MARKED else []
        expect(not marks, f"marks of {name}, dark {is_dark}: {marks}")
    browser.dress(1400, HEIGHT)
    check_labels(page, name)
    if is_full:
        check_names(page)


def check_stacked(page):
    """On a phone the plans of a comparison stand below each other, in lines that begin alike, and are still a table."""
    page.browser.dress(390, HEIGHT)
    many_kept(page)
    page.browser.value("unfold()")
    page.rest()
    places = page.browser.value(
        """[...document.querySelectorAll("#comparison tbody tr")].map((row) =>
      [...row.querySelectorAll("td b")].map((number) => {
        const { left, top, right } = number.getBoundingClientRect();
        return [Math.round(left - row.getBoundingClientRect().left), Math.round(top), right <= innerWidth];
      }))"""
    )
    numbers = [number for row in places for number in row]
    expect(len(places) == 6 and all(len(row) == 4 for row in places), f"{places} are not six rows of four plans")
    expect(len({left for left, _, _ in numbers}) == 1 and all(is_seen for _, _, is_seen in numbers), f"{places}")
    expect(numbers[0][0] > ROOM_OF_NAME, f"{places}: numbers over the names of their plans")
    tops = [top for _, top, _ in numbers]
    expect(tops == sorted(set(tops)), f"{places} are not below each other")
    names = page.browser.value(
        "[...document.querySelectorAll('#comparison tbody tr:first-child td')]"
        ".map((cell) => getComputedStyle(cell, '::before').content)"
    )
    expect(names == ['"This plan"', '"Kept plan 1"', '"Kept plan 2"', '"Kept plan 3"'], f"the plans' names: {names}")
    roles = collections.Counter(node["role"]["value"] for node in read_nodes(page))
    expect(roles["cell"] >= 24 and roles["rowheader"] >= 6, f"a screen reader is told {roles}")
    page.browser.dress(1400, HEIGHT)


def check_paper(page, folder):
    """On paper the page is one: settings, prediction and pictures. With starts or kept plans it may be two, and no
    picture is left out. No row has a gap."""
    browser = page.browser
    for name in ("starts", "kept", "many-kept", "refused-control", "enough"):
        browser.dress(1400, HEIGHT, is_dark=True)
        STATES[name](page)
        page.rest()
        browser.call("Emulation.setEmulatedMedia", media="print")
        browser.value("dispatchEvent(new Event('beforeprint'))")
        gaps = browser.value(GAPS.replace("PLACES", ".pair, #results"))
        browser.value("dispatchEvent(new Event('afterprint'))")
        browser.call("Emulation.setEmulatedMedia", media="")
        expect(not gaps, f"{name} on paper: {gaps}")
        printed = base64.b64decode(browser.printed())
        put(folder, f"paper-{name}.pdf", printed)
        count = len(re.findall(rb"/Type\s*/Page\b", printed))
        expect(ROUNDS_ON_PAPER in printed, f"{name}: the map lacks its rounds on paper")
        expect(count <= (1 if name == "enough" else 2), f"{name} takes {count} pages of paper")
    browser.dress(1400, HEIGHT)


def check_files(page, folder):
    """The files that the page saves, in both themes. As a document of its own a picture is as it is in the page."""
    for is_dark in (False, True):
        theme = "dark" if is_dark else "light"
        page.browser.dress(1400, HEIGHT, is_dark)
        many_kept(page)
        plan_starts(page)
        page.rest()
        files = saved_files(page, SAVED)
        expect(len(files) == SAVED, f"files: {sorted(files)}")
        for name, data in files.items():
            put(folder, f"saved-{theme}-{name}", data)
    page.browser.dress(1400, HEIGHT)


def check_states(tally, page, tried, folder):
    if folder:
        os.makedirs(folder, exist_ok=True)
    for name in STATES:
        tried(tally, f"the look of {name}", check_state, page, name, folder)
    tried(tally, "a comparison on a phone", check_stacked, page)
    tried(tally, "the look on paper", check_paper, page, folder)
    tried(tally, "the look of files", check_files, page, folder)
