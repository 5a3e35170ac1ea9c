"""The map of pages over time of the planner's page, beside the writes of the trace and the rounds of its plan."""

import bisect
import json
import re
import xml.etree.ElementTree
from typing import NamedTuple

from checks.lib.tally import expect
from checks.lib.traces import Trace
from checks.page import shapes
from checks.page.acts import guest_with_record
from checks.page.cases import example
from checks.page.round_pages import Asked, RoundPages, map_rows, rounds_by_page
from checks.page.saves import saved_files

PAGES, ROWS, LAST = 4_154, 256, 37_500
PLAIN = {"trace": "sqlite", "link": "64MiB", "first": "50", "downtime": "300ms", "start": "1000", "window": "500"}
# Plans whose rounds are looked at: plain, with skipping, and a warm start with skipping.
PLANS = [
    PLAIN,
    {**PLAIN, "skip": "1", "link": "40MiB", "first": "100"},
    {**PLAIN, "skip": "1", "base": "500", "start": "9000", "link": "12MiB", "rounds": "4"},
]
# Places of the map, as shares of its width and its height.
POINTS = ((0.1, 0.05), (0.35, 0.055), (0.5, 0.93), (0.9, 0.5), (0.001, 0.999), (0.5, 0.5001))

# Points at shares of the map's width and height, and tells what is said of it, and where the moment is marked.
POINT = """(([across, down]) => {
  const plot = document.getElementById("map-plot");
  const { left, top, width } = plot.querySelector("canvas").getBoundingClientRect();
  plot.dispatchEvent(new PointerEvent("pointermove", { pointerType: "mouse", bubbles: true,
    clientX: left + width * across, clientY: top + 256 * down }));
  return [textOf("map-readout"), Boolean(document.querySelector("#windows-plot .moment"))];
})"""

# Of a canvas of the map: how many pixels have a colour, by their colours, and its size.
PAINTED = """((name) => {
  const canvas = document.querySelector(name);
  const copy = new OffscreenCanvas(canvas.width, canvas.height).getContext("2d", { willReadFrequently: true });
  copy.drawImage(canvas, 0, 0);
  const { data } = copy.getImageData(0, 0, canvas.width, canvas.height);
  const colours = {};
  for (let at = 0; at < data.length; at += 4) {
    const colour = data.slice(at, at + 3).join(" ");
    if (data[at + 3] === 255) { colours[colour] = (colours[colour] ?? 0) + 1; }
  }
  return [JSON.stringify(colours), canvas.width, canvas.height];
})"""
WRITES, TURNS = "canvas.map:not(.turns)", "canvas.turns"

# The colours of turns, as their keys in the legend have them.
KEYS = """["sent", "dirtied", "skipped"].map((name) =>
  getComputedStyle(document.querySelector(`#map-legend .turn.${name}`)).backgroundColor.match(/\\d+/g).join(" "))"""

# Points at the middle of the working set, and tells where in the map the moment is marked, as a share of its width.
MARKED = """(() => {
  const plot = document.getElementById("windows-plot");
  const { left, top, width } = plot.getBoundingClientRect();
  plot.dispatchEvent(new PointerEvent("pointermove", { pointerType: "mouse", bubbles: true,
    clientX: left + 68 + (width - 80) / 2, clientY: top + 60 }));
  const mark = document.querySelector("#map-plot .moment");
  return mark && (Number(mark.getAttribute("x")) + 0.5 - 68) / document.querySelector("canvas.map").clientWidth;
})()"""

PRESS = """((keys) => {
  const plot = document.getElementById("map-plot");
  plot.focus();
  plot.dispatchEvent(new PointerEvent("pointerleave"));
  keys.forEach((key) => plot.dispatchEvent(new KeyboardEvent("keydown", { key, bubbles: true, cancelable: true })));
  return textOf("map-readout");
})"""


def counted(writes, first, last, pages):
    begin, end = (bisect.bisect_left(writes, (tick, 0)) for tick in (first, last))
    return sum(page in pages for _, page in writes[begin:end])


def ticks_in(said):
    """The stretch of time that is said, in ticks of a millisecond."""
    return [round(float(text) * 1_000) for text in re.findall(r"([\d.]+) s", said)[:2]]


def number_in(text):
    return int(text.replace(",", ""))


PLACE = re.compile(r"Windows? (\d+)(?: to (\d+))?, .* s, pages? ([\d,]+)(?: to ([\d,]+))?: ([\d,]+) writes?\b")


def check_counts(page, writes):
    """What is said at a place: its windows, its pages, and how many writes these have."""
    for across, down in POINTS:
        said, is_marked = page.browser.value(f"{POINT}({json.dumps([across, down])})")
        found = PLACE.match(said)
        expect(found and is_marked, f"{said!r}, marked in the working set: {is_marked}")
        *windows, begin, end, count = (number_in(text) if text else None for text in found.groups())
        pages = range(begin, (begin if end is None else end) + 1)
        expect({number * ROWS // PAGES for number in pages} == {int(down * ROWS)}, f"{said!r} at {down}")
        first, last = ticks_in(said)
        wanted = counted(writes, first, last, pages)
        expect(count == wanted, f"{said!r} in place of {wanted}")
        known = sorted({first // 500, (last - 1) // 500})
        expect([some for some in windows if some is not None] == known, f"{said!r}: windows {known}")


# ---- The rounds.


def fragment_of(asked):
    return "&".join(f"{name}={word}" for name, word in asked.items())


class Seen(NamedTuple):
    """A plan that the page shows, with its rounds by a plain model, and what the page saves."""

    fragment: str
    rounds: list[tuple[int, int, int]]
    found: list[RoundPages]
    files: dict[str, bytes]
    shown: dict

    def expect(self, holds, words):
        expect(holds, f"{self.fragment}: {words}")


def rounds_in(files):
    """The rounds of the plan as the page saves them: the first tick, the end and the rate of each."""
    head, *lines = files["rounds-this.csv"].decode().splitlines()
    places = [head.split(",").index(name) for name in ("from_tick", "to_tick", "rate_pages_per_1000_ticks")]
    return [tuple(int(line.split(",")[place]) for place in places) for line in lines]


# How many layers that were painted for a file lie over the map, and differ from what is below them.
OLD_LAYERS = """[...document.querySelectorAll("#map-plot image")].filter((image, place) => image.hasAttribute("href")
  && image.getAttribute("href") !== document.querySelectorAll("#map-plot canvas")[place].toDataURL()).length"""


def seen_plan(page, guest, asked):
    page.ask(fragment_of(asked))
    page.browser.value("unfold()")
    page.rest()
    count = page.browser.value(OLD_LAYERS)
    expect(count == 0, f"{fragment_of(asked)}: {count} layers of the map that was saved before lie over this one")
    files, shown = saved_files(page, None), page.shown()
    rounds, base = rounds_in(files), asked.get("base")
    greatest = int(re.search(r"--max (\d+)", shown["commands"]["live"])[1])
    found = rounds_by_page(guest, Asked(greatest, "skip" in asked, base and int(base)), rounds)
    return Seen(fragment_of(asked), rounds, found, files, shown)


def check_file(seen):
    """The file has what rounds do with the pages of each row, and its sums are the numbers of the planner."""
    lines, wanted = seen.files["map.csv"].decode().splitlines()[1:], map_rows(seen.found, PAGES, ROWS)
    differing = [pair for pair in zip(lines, wanted) if pair[0] != pair[1]]
    seen.expect(len(lines) == len(wanted) and not differing, f"{len(lines)} lines, {differing[:2]}")
    sums = [[0, 0, 0] for _ in seen.found]
    for cells in (line.split(",") for line in lines):
        place = len(seen.rounds) if cells[0] == "stop" else int(cells[0])
        sums[place] = [total + int(cells[at]) for total, at in zip(sums[place], (3, 4, 7))]
    left = number_in(seen.shown["comparison"]["left"][0].split()[0])
    planned = [[number_in(cell) for cell in row[4:]] for row in seen.shown["rounds"]] + [[left, left, 0]]
    seen.expect(sums == planned, f"the map has {sums}, and the plan {planned}")


def check_table(page, seen):
    """The table has how many pages a round sends, how many of them are dirtied, and how many it skips."""
    wanted = []
    for name, turns, dirtied in seen.found:
        sent = [turn.page for turn in turns if turn.is_sent]
        again = sum(number in dirtied for number in sent)
        wanted.append([name, *(f"{count:,}" for count in (len(sent), again, len(turns) - len(sent), len(dirtied)))])
    table = [row[:5] for row in page.browser.value("rowsOf('map-table')")]
    seen.expect(table == wanted, f"the table has {table} in place of {wanted}")


def check_colours(page, seen):
    """The picture has a colour for each kind of turn that there is, also in its file."""
    kinds = {(turn.is_sent, turn.page in dirtied) for _, turns, dirtied in seen.found for turn in turns}
    colours = json.loads(page.browser.value(f"{PAINTED}({json.dumps(TURNS)})")[0])
    for kind, colour in zip(((True, False), (True, True), (False, True)), page.browser.value(KEYS)):
        is_there = colours.get(colour, 0) > 3
        seen.expect(is_there == (kind in kinds), f"sent and dirtied {kind}: {colour}, of {colours}")
    root = xml.etree.ElementTree.fromstring(seen.files["map.svg"])
    images = [part for part in root.iter() if part.tag.endswith("image") and len(part.get("href", "")) > 1_000]
    seen.expect(len(images) == 2, f"the picture that is saved has {len(images)} of 2 layers")


def words_of(found, row):
    """What is said of a round and of the pages of a row."""
    name, turns, dirtied = found
    mine = [turn for turn in turns if turn.page * ROWS // PAGES == row]
    sent, written = sum(turn.is_sent for turn in mine), sum(number * ROWS // PAGES == row for number in dirtied)
    words = f"round {name}: no page to send"
    if mine:
        moment, noun = f"{mine[0].tick // 1_000}.{mine[0].tick % 1_000:03} s", "page" if len(mine) == 1 else "pages"
        words = f"round {name}, from {moment} on: {sent} of {len(mine)} {noun} sent"
    more = [(len(mine) - sent, "skipped"), (written, "dirtied")]
    return words + "".join(f", {count} {what}" for count, what in more if count)


def check_said(page, seen):
    """What is said in the middle of a round, at rows of each kind, is what the round does with the pages of the row."""
    heard = set()
    for number, (first, end, _) in enumerate(seen.rounds):
        for row in (0, 14, 15, 127, 128, 240, ROWS - 1):
            place = [(first + end) / 2 / LAST, (row + 0.5) / ROWS]
            said, _ = page.browser.value(f"{POINT}({json.dumps(place)})")
            begin, last = ticks_in(said)
            if first <= begin and last <= end:
                words = words_of(seen.found[number], row)
                seen.expect(said.endswith(f"; {words}"), f"{said!r} in place of {words!r}")
                heard.add(re.sub("[0-9]+", "", words))
    seen.expect(len(heard) > 2, f"too little is said of rounds: {heard}")


# ---- The trials.


def check_map(page):
    """The map has a colour for each cell with a write, and says how many writes there are at each place; a stretch that
    is taken nearer is counted anew; keys go through pages and time."""
    writes = Trace.at(example("guests/sqlite.light.pcwt")).writes
    page.ask(fragment_of(PLAIN))
    page.click("zoom-out")
    page.rest()
    check_counts(page, writes)
    colours, columns, rows = page.browser.value(f"{PAINTED}({json.dumps(WRITES)})")
    colours = json.loads(colours)
    wanted = {(tick * columns // LAST, number * ROWS // PAGES) for tick, number in writes}
    cells = sum(colours.values())
    expect((cells, rows) == (len(wanted), ROWS) and len(colours) == 5, f"{cells} cells in {colours}: {len(wanted)}")
    words, mark = page.browser.value(f"[textOf('map-most'), {MARKED}]")
    expect(f"The {len(writes):,} writes that are shown are densest in " in words, words)
    expect(mark and abs(mark - 0.5) < 0.01, f"a moment of the working set is marked at {mark} of the map")
    page.click("zoom-plan")
    page.browser.wait("!textOf('map-most').includes('16,294')", 5)
    page.rest()
    check_counts(page, writes)
    said = page.browser.value(f"{PRESS}(['Home', 'ArrowDown', 'ArrowDown', 'ArrowRight'])")
    expect(", pages 17 to 32: " in said, f"down to the second row: {said!r}")
    said = page.browser.value(f"{PRESS}(['End', 'ArrowDown', 'ArrowUp', 'ArrowUp'])")
    expect(", all pages: " in said, f"above the first row: {said!r}")
    page.browser.value(f"{PRESS}(['0'])")
    page.browser.wait("textOf('map-most').includes('16,294')", 5)
    page.drop(("one.pcwt", shapes.trace(12, 1, [(5, 0, 1)])))
    page.becomes("textOf('map-most')", "The write that is shown goes to page 0.", "of one write")


def check_map_scale(page):
    """The map says that it is of a sample as soon as a record says so, though its ticks stay as long as they were."""
    page.open_planned("#trace=gzip")
    for files, wanted in zip(guest_with_record("a"), ("Where in memory, MiB", "Where in the sample, MiB")):
        page.drop(files)
        page.rest()
        page.becomes("document.querySelector('#map-plot text.title').textContent", wanted, f"after {files[0]}")


def check_map_rounds(page):
    """What the rounds of the plan do with which pages is on the map, in its file and in its table."""
    guest = Trace.at(example("guests/sqlite.light.pcwt")).guest
    page.ask(fragment_of(PLAIN))
    page.click("zoom-out")
    for asked in PLANS:
        seen = seen_plan(page, guest, asked)
        check_file(seen)
        check_table(page, seen)
        check_colours(page, seen)
        check_said(page, seen)


# Draws over a field of the map, from shares of its width and height to others.
DRAW = """(([left, top, right, bottom]) => {
  const plot = document.getElementById("map-plot");
  const box = plot.querySelector("canvas").getBoundingClientRect();
  const send = (to, kind, across, down) => to.dispatchEvent(new PointerEvent(kind, { pointerType: "mouse",
    bubbles: true, clientX: box.left + box.width * across, clientY: box.top + 256 * down }));
  send(plot, "pointerdown", left, top);
  send(window, "pointermove", right, bottom);
  send(window, "pointerup", right, bottom);
})"""


def require_pages(page, first, last):
    """Requires that these pages are shown, and that the table of rounds is of them."""
    page.rest()
    said = [page.browser.value(f"{POINT}([0.5, {down}])")[0] for down in (0.0001, 0.9999)]
    found = [
        number_in(number) for text in said for number in re.findall(r"pages? ([\d,]+)|to ([\d,]+):", text)[0] if number
    ]
    expect(found[0] == first and f" {last:,}: " in said[1], f"{said} in place of pages {first} to {last}")
    caption = page.browser.value("document.querySelector('#map-table caption').textContent")
    is_all = (first, last) == (0, PAGES - 1)
    expect((f"Of pages {first:,} to {last:,} " in caption) != is_all, f"{caption!r}: pages {first} to {last}")
    sent = sum(number_in(row[1]) for row in page.browser.value("rowsOf('map-table')")[:1])
    expect(sent == last + 1 - first, f"the first round sends {sent} of pages {first} to {last}")


def check_map_pages(page):
    """Pages are taken nearer by the mouse and by keys, down to single ones, and all are shown again."""
    page.ask(fragment_of(PLAIN))
    page.browser.value("document.getElementById('zoom-out').click(); unfold()")
    require_pages(page, 0, PAGES - 1)
    page.browser.value(f"{DRAW}([0.2, 0.5, 0.2, 0.75])")
    require_pages(page, 2_077, 3_115)
    expect(page.browser.value("document.getElementById('zoom-out').disabled"), "time is taken nearer with the pages")
    page.browser.value(f"{DRAW}([0.2, 0.25, 0.4, 0.5])")
    require_pages(page, 2_337, 2_596)
    expect(not page.browser.value("document.getElementById('zoom-out').disabled"), "time stays")
    said = page.browser.value(f"{PRESS}(['End', 'ArrowDown', 'ArrowDown'])")
    expect(", page 2,339: " in said, f"the second row: {said!r}")
    page.browser.value(f"{PRESS}(['ArrowDown', 'ArrowDown', '*'])")
    require_pages(page, 2_274, 2_403)
    page.click("all-pages")
    require_pages(page, 0, PAGES - 1)
    expect(page.browser.value("document.getElementById('all-pages').disabled"), "all pages are shown, and offered")
    page.click("zoom-out")
