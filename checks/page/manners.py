"""The planner's page by a hypervisor's looks and by Clark's rounds: what it asks for, shows and gives for each."""

import csv
import io

from checks.lib.tally import expect
from checks.lib.traces import Trace
from checks.page.cases import example
from checks.page.kept import DIFFERENCES
from checks.page.saves import saved_files
from checks.page.tables import ROWS_SHOWN
from precopy_dev.models import courses, looks, redrawn, remedies

# The example of gzip over a slow link: a link in bytes a second, a limit in microseconds, and a start.
LINK, DOWNTIME, START = 2_000_000, 4_000, 400
ASKED = f"trace=gzip&link=2MB&downtime=4ms&start={START}&reserve=0ms&base=none&tick=1ms&sample=all&window=40"
OF_ROUNDS = ("first", "increase", "rounds", "skip")
# Which controls of rounds are seen, whether the switch is on, the title, the words for other programs, and whether
# those for a live run are seen.
SHOWN = f"""[{list(OF_ROUNDS)}.filter((name) => document.getElementById(`control-${{name}}`).checkVisibility()),
  document.getElementById("control-clark").checked, textOf("rounds-title"), textOf("command-predict"),
  textOf("command-when"), document.getElementById("command-live").checkVisibility(), textOf("unsent-key")]"""
FLIP = "document.getElementById('control-clark').click()"
LEGEND = "[...document.querySelectorAll('#map-legend li')].map((item) => item.textContent)"


def check_switch(page):
    """The page goes by looks, unless the switch or the address says otherwise. What only rounds have is seen, asked for
    and told only with them."""
    page.open_planned(f"#{ASKED}")
    page.browser.value("unfold()")
    for is_on in (False, True, False):
        seen, is_checked, title, predict, when, has_live, unsent = page.browser.value(SHOWN)
        expect(seen == list(OF_ROUNDS) * is_on and is_checked == is_on, f"{seen} are seen, checked: {is_checked}")
        expect(title == ("Rounds" if is_on else "Looks"), title)
        expect(unsent == ("skipped" if is_on else "unsent"), unsent)
        for words in (predict, when):
            found = [word in words.split() for word in ("--clark", "--rounds")]
            expect(found == [is_on, is_on], f"{words!r} with the switch {is_on}")
        expect(has_live == is_on, f"a live run is told: {has_live}, with the switch {is_on}")
        page.browser.wait(f"location.hash.includes('clark={int(is_on)}')", 5)
        page.after(FLIP)
    for fragment, wanted in (("&rounds=30", True), ("&first=100", True), ("&skip=0&clark=0", False), ("", False)):
        page.ask(ASKED + fragment)
        is_checked = page.browser.value("document.getElementById('control-clark').checked")
        expect(is_checked == wanted, f"{fragment or 'plain'}: the switch is {is_checked}")


def check_kept_manners(page):
    """A plan by rounds that is kept beside one by looks: they differ by that, and both are told in full."""
    page.ask(f"{ASKED}&clark=1")
    by_rounds = page.shown()["comparison"]
    page.clicked("keep")
    by_looks = page.after(FLIP)["comparison"]
    said = page.browser.value("textOf('comparison')")
    expect("Kept plan 1 differs: Clark's rounds." in said, said)
    expect(by_looks["rounds"] != by_rounds["rounds"] and "Rounds or looks" in said, f"{by_looks} beside {by_rounds}")
    differing = page.browser.value(DIFFERENCES)
    expect("rounds" not in differing and "time" in differing, f"of rounds and looks are compared {differing}")
    kept = page.browser.value(
        "[...document.querySelectorAll('[data-plan=\"Kept plan 1\"] b')].map((b) => b.textContent)"
    )
    expect(kept == [words for words, _ in by_rounds.values()], f"{kept} in place of {by_rounds}")
    page.after("document.querySelector('[data-drops]').click()")


def lists_of(trace):
    """The lists of the plan of the example by the model."""
    scale = redrawn.Scale(1_000, trace.size, trace.pages, trace.pages)
    trial = remedies.Trial(scale, remedies.Limits(LINK, DOWNTIME), remedies.Others(start=START), courses.Manner.LOOKS)
    settings = courses.look_settings(remedies.settings(trial), scale, trace.last)
    return looks.plan(trace.pages, trace.writes, settings)


def check_lists(page):
    """The lists in the table, in the file and on the map are those of a plain model; the legend of the map tells what
    lists do."""
    trace = Trace.at(example("gzip.pcwt"))
    plan = lists_of(trace)
    page.ask(ASKED)
    page.browser.value("document.getElementById('zoom-out').click(); unfold()")
    page.rest()
    files = saved_files(page, None)
    rows = [
        [
            number,
            it.start,
            it.end,
            len(it.pages),
            it.sent,
            len(looks.written(trace.writes, it.start, it.end)),
            len(it.left),
        ]
        for number, it in enumerate(plan.lists, 1)
    ]
    names = ("list", "from_tick", "to_tick", "pages", "sent_pages", "dirtied_pages", "left_pages")
    read = list(csv.DictReader(io.StringIO(files["rounds-this.csv"].decode())))
    expect([[int(row[name]) for name in names] for row in read] == rows, f"{read[:3]} in place of {rows[:3]}")
    shown = [[int(row[0]), *map(int, row[4:])] for row in page.shown()["rounds"]]
    expect(shown == [[row[0], *row[3:]] for row in rows[:ROWS_SHOWN]], f"{shown[:3]} in place of {rows[:3]}")
    sums = {}
    for row in csv.DictReader(io.StringIO(files["map.csv"].decode())):
        counts = [int(row[name]) for name in ("pages", "sent_pages", "unsent_pages", "dirtied_pages")]
        sums[row["list"]] = [total + count for total, count in zip(sums.get(row["list"], [0] * 4), counts)]
    is_stopped = plan.reason == "few"
    wanted = {str(row[0]): [row[3], row[4], row[3] - row[4], row[5]] for row in rows if row[3] + row[5]}
    left = len(plan.last)
    wanted |= {"stop": [left, left, 0, 0]} if is_stopped and left else {}
    expect(sums == wanted, f"the map has {sums}, and the model {wanted}")
    legend = page.browser.value(LEGEND)
    expect({"lists:", "a list begins"} <= set(legend) and "skipped" not in legend, f"the legend says {legend}")
    expect(page.browser.value("textOf('map-summary')") == "Table of lists by pages", "the table of the map")


MANNERS = {
    "looks and rounds": check_switch,
    "a plan of rounds beside one of looks": check_kept_manners,
    "the lists of a hypervisor": check_lists,
}
