"""The curves of the planner's page over slower and faster links: what they cost, and where that is drawn."""

import math
import re

from checks.lib.amount_texts import time_text
from checks.lib.tally import expect
from checks.page import saves
from checks.page.acts import spelled, typed
from checks.view.limit_cases import RATES, TIMES

# How far from its place a point may be drawn, in pixels.
NEAR = 1.2
# Settings with links over which the migration ends after the trace, a limit far below some downtimes, and curves that
# do not begin at 0.
DRAWN = [
    "trace=sqlite&first=50&downtime=300ms&start=1000&link=64MiB",
    "trace=sqlite&first=100&downtime=50ms&start=9000&link=1Gbit",
    "trace=gzip&first=25&downtime=4ms&start=400&link=8MiB",
]

# The curves as they are drawn: of each its title, what is at the top and at the bottom of its panel and where that is,
# the points of its lines, and the line of the limit; and the links of the axis with their places.
CURVES = """(() => {
  const panels = [];
  const links = [];
  const at = (part, name) => Number(part.getAttribute(name));
  const said = (part) => Number(part.textContent.replaceAll(",", ""));
  for (const part of document.querySelectorAll("#links-plot svg > *")) {
    const kind = part.getAttribute("class");
    const panel = panels.at(-1);
    if (kind === "title") { panels.push({ title: part.textContent, ends: [], points: [], limit: null }); }
    if (kind === "end" && at(part, "x") < 68) { panel.ends.push([said(part), at(part, "y") - 4.5]); }
    if (kind === "known") {
      panel.points.push(...part.getAttribute("points").split(" ").map((point) => point.split(",").map(Number)));
    }
    if (kind === "knownkey") { panel.points.push([at(part, "x") + 2.5, at(part, "y") + 2.5]); }
    if (kind === "limit") { panel.limit = at(part, "y") + 1; }
    if (kind === "middle") { links.push([at(part, "x"), said(part)]); }
    if (kind === "middle title") { links.push(part.textContent); }
  }
  return [panels, links];
})()"""


def rows_saved(page):
    """The links of the file, each with what the migration costs over it."""
    head, *lines = saves.saved_files(page, None)["links.csv"].decode().splitlines()
    return [dict(zip(head.split(","), line.split(","))) for line in lines]


def check_links(page):
    """The curves over slower and faster links have the plans of these links, and a click takes one."""
    fragment = "trace=sqlite&first=50&downtime=300ms&start=1000&link="
    page.ask(f"{fragment}64MiB")
    page.rest()
    marks = page.browser.value(
        "['known', 'limit', 'stop', 'late'].map((name) => document.querySelectorAll("
        "`#links-plot svg .${name}`).length)"
    )
    expect(min(marks) > 0, f"curves, limit, this plan, and what is unknown: {marks}")
    rows = rows_saved(page)
    links = [int(row["link_bytes_per_second"]) for row in rows]
    expect(len(rows) == 41 and 7.9 < links[20] / links[0] < 8.1 and links[40] == 8 * links[20], f"links: {links}")
    for row in rows[::8]:
        found = page.ask(fragment + spelled(int(row["link_bytes_per_second"]), "KB"))
        if row["kept"] == "unknown":
            expect("Unknown" in found["verdict"], f"{row}: {found['verdict']}")
            continue
        for name, key in (("downtime", "downtime_us"), ("time", "time_us")):
            expect(found["comparison"][name][0] == time_text(int(row[key])), f"{row}: {found['comparison'][name]}")
    page.ask(f"{fragment}64MiB")
    page.rest()
    found = page.press_in("links-plot", "End", "Enter")
    expect("--link 512MiB" in found["predict"], f"the last link is not taken: {found['predict']}")
    page.rest()
    typed(page, "reserve", "5 s")
    found = page.press_in("links-plot", "Home", "Enter")
    reserve = page.browser.value("document.getElementById('control-reserve').value")
    expect(found["refused"] == "reserve" and reserve == "5", f"a link of the last plan brings back {reserve} ms")


def place_of_links(labels):
    """Where a link is on the axis, which equal ratios part equally, by two of its labels."""
    *marks, title = labels
    unit = RATES[re.fullmatch(r"link, (\w+)(?:/s)?", title)[1]]
    (left, slow), (right, fast) = marks[0], marks[-1]
    width = (right - left) / math.log(fast / slow)
    for place, link in marks:
        expect(abs(left + width * math.log(link / slow) - place) < NEAR, f"labels of links: {labels}")
    return lambda link: left + width * math.log(link / unit / slow)


def level_of(panel):
    """Where a number of a panel is drawn: what is above its top is at its top."""
    (most, top), (least, bottom) = panel["ends"]
    unit = TIMES[re.fullmatch(r".*, in (\w+)", panel["title"])[1]]
    height = (bottom - top) / (most - least)
    # The labels have three digits.
    far = NEAR + 0.005 * height * most
    return lambda number: (max(top, bottom - height * (number / unit - least)), far)


def require_drawn(panel, place, numbers, words):
    """Requires that a panel has a point for each of some numbers, by their links."""
    level, points = level_of(panel), panel["points"]
    expect(len(points) == len(numbers) > 3, f"{words}: {len(points)} points for {len(numbers)} links")
    for (x, y), (link, number) in zip(points, numbers):
        wanted, far = level(number)
        is_there = abs(x - place(link)) < NEAR and abs(y - wanted) < far
        expect(is_there, f"{words}: {number} us over {link} bytes/s is drawn at {x}, {y}, not {place(link)}, {wanted}")


def check_curves(page):
    """Each curve is drawn where the numbers of its links are on its axes, and the limit where that is."""
    for fragment in DRAWN:
        page.ask(fragment)
        page.rest()
        rows = [row for row in rows_saved(page) if row["kept"] != "unknown"]
        panels, labels = page.browser.value(CURVES)
        place = place_of_links(labels)
        expect([panel["title"].split(" by ")[0] for panel in panels] == ["Downtime", "Total time"], f"{panels}")
        for panel, name in zip(panels, ("downtime_us", "time_us")):
            numbers = [(int(row["link_bytes_per_second"]), int(row[name])) for row in rows]
            require_drawn(panel, place, numbers, f"{fragment}: {panel['title']}")
        limit = int(re.search(r"downtime=(\d+)ms", fragment)[1]) * TIMES["ms"]
        wanted, far = level_of(panels[0])(limit)
        expect(abs(panels[0]["limit"] - wanted) < far, f"{fragment}: the limit at {panels[0]['limit']}, not {wanted}")
