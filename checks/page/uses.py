"""What users do with the planner's page, in Chromium and in Firefox: traces of all shapes and their records, settings
that make no plan, units, going back, files that are refused, and a worker that ends."""

import base64
import json
import math
import re
import tempfile
from fractions import Fraction

from checks.lib.harness import drawn
from checks.lib.tally import expect
from checks.page import (
    another,
    focus,
    forecasts,
    kept,
    late,
    limits,
    links,
    looking,
    map,
    records,
    saves,
    shapes,
    sure,
    told,
    worker,
)
from checks.page.acts import asked, guest_with_record, spelled, typed
from checks.page.cases import example
from checks.page.manners import MANNERS
from checks.page.shown import tried
from checks.view.limit_cases import RATES, TIMES
from precopy_dev.files import read_bytes, write_file

DROPPED = 50


def word_of(page, name):
    """What the address says of a setting, once the page has settled."""
    page.browser.wait("location.hash.slice(1) === textOf('address').slice(1)", 5)
    return re.search(rf"[#&]{name}=([^&]*)", page.browser.value("location.hash"))[1]


def settled(page):
    """Waits until the page has told its last change in the address."""
    page.browser.value("new Promise((resume) => setTimeout(resume, 600))")


# ---- Traces.


def check_shape(page, number, text):
    page.open_planned()
    said = page.drop((f"shape-{number}.pcwt", text))
    found = page.shown()
    expect(f"shape-{number}.pcwt: " in said, said)
    expect(found["refused"] is None and not found["stale"] and found["rounds"], f"{said}: {found['refused']}")
    read_out = page.browser.value("textOf('windows-readout')")
    expect((" 0 writes " in said) == read_out.startswith("The trace writes no page"), f"{said}: {read_out!r}")


def check_refused_below(page):
    """A file that is refused while the section of the trace is out of sight is refused in sight."""
    page.open_planned("#trace=gzip")
    page.browser.value("scrollTo(0, document.body.scrollHeight)")
    page.browser.wait("document.getElementById('trace').getBoundingClientRect().bottom < 0", 5)
    page.browser.value("new Promise((resume) => setTimeout(resume, 200))")
    page.drop(("bad.txt", b"no trace"))
    seen = page.browser.value(
        """[...document.querySelectorAll(".refusal")].filter((part) => {
      const { top, bottom, height } = part.getBoundingClientRect();
      return height > 0 && top >= 0 && bottom <= innerHeight;
    }).map((part) => part.textContent)"""
    )
    expect(len(seen) == 1 and seen[0].startswith("bad.txt is refused: E1 "), f"in sight: {seen}")
    page.click("close-notice")
    page.becomes("document.getElementById('notice').hidden", True, "a notice that was closed")


def check_names(page):
    """The names of files stand apart from the words round them, in whatever direction they are written."""
    page.open_planned("#trace=gzip")
    trace, record = (text for _, text in guest_with_record("a"))
    page.drop(("\u05d0-1.pcwt", trace), ("\u05d0-1.json", record), ("\u05d0-2.pcwt", trace))
    page.drop(("\u05d0-3.txt", b"text"))
    named = page.browser.value("[...document.querySelectorAll('#trace bdi')].map((name) => name.textContent)")
    expect(named == ["\u05d0-1.pcwt", "\u05d0-1.json", "\u05d0-3.txt", "\u05d0-1.pcwt"], f"names apart: {named}")


def check_files(page):
    """Of two traces the second is named; a bad file leaves the good one, and its plan."""
    good = read_bytes(example("guests/mid.light.pcwt"))
    page.open_planned()
    said = page.drop(("one.pcwt", good), ("two.pcwt", good), ("a.txt", b"text"))
    expect("Not opened: two.pcwt, a.txt." in said and "one.pcwt: " in said, said)
    first = page.browser.value("document.getElementById('control-first').value")
    expect(first == "100", f"the example's first round of {first} % stays over another trace")
    before = page.shown()
    said = page.drop(("bad.pcwt", good[:-1]))
    expect("bad.pcwt is refused: E8 record" in said and "one.pcwt is still open." in said, said)
    expect(page.shown() == before, "a bad file has changed the plan")
    expect(page.browser.value("textOf('trace-state')").startswith("one.pcwt: 26,715 pages"), said)
    expect(not typed(page, "rounds", "7")["refused"], "no plan after a bad file")
    said = page.drop(("bad.pcwt", good[:-1]), ("good.pcwt", read_bytes(example("gzip.pcwt"))), ("more.pcwt", good))
    expect("bad.pcwt is refused: E8 record" in said and "good.pcwt: 25 pages" in said, said)
    expect("Not opened: more.pcwt." in said and "still open" not in said, said)
    page.drop(("one.pcwt", good))
    # One after another, without waiting: the worker and the page have the same trace open then.
    before = page.browser.value("opened")
    for name, text in (("three.pcwt", read_bytes(example("gzip.pcwt"))), ("bad.pcwt", good[:-1])):
        page.browser.value(f"drop([[{json.dumps(name)}, {json.dumps(base64.b64encode(text).decode())}]])")
    page.browser.wait(f"opened === {before + 2} && isDrawn()")
    said = page.browser.value("textOf('trace-notes') + ' | ' + textOf('trace-state')")
    expect("three.pcwt is still open." in said and "three.pcwt: 25 pages" in said, said)
    expect(page.shown()["rounds"][0][4] == "25", f"rounds of another trace: {page.shown()['rounds'][0]}")
    with tempfile.TemporaryDirectory() as folder:
        path = write_file(good, folder, "chosen.pcwt")
        said = page.load(path, example("guests/sqlite.light.json"))
    expect("chosen.pcwt: " in said and "sqlite.light.json is not used: " in said, said)


# Drags over a field, and drops there, a file and words: whether the page takes them from the field, and marks its line.
DRAGGED = """["a file", "words"].map((what) => {
  const holder = new DataTransfer();
  if (what === "a file") {
    holder.items.add(new File(["no trace"], "a.txt"));
  } else {
    holder.setData("text/plain", "7");
  }
  const field = document.getElementById("control-link");
  const [over, marked, dropped] = ["dragover", null, "drop"].map((kind) => kind === null
    ? document.getElementById("trace").classList.contains("over")
    : !field.dispatchEvent(new DragEvent(kind, { dataTransfer: holder, bubbles: true, cancelable: true })));
  return [over, marked, dropped];
})"""


def check_dragged(page):
    """Files are taken wherever they are dropped. Words that are dragged into a field are the field's."""
    page.open_planned("#trace=gzip")
    found = page.browser.value(DRAGGED)
    expect(found == [[True] * 3, [False] * 3], f"of a file and of words the page takes {found}")
    page.browser.wait("textOf('trace-notes').startsWith('a.txt is refused: ')", 5)
    page.rest()


# ---- Settings that make no plan.

# What is typed into a control, its unit, and by how much what is taken then is further from what was typed than the
# nearest that plans. A control whose unit is `ticks` shows seconds; a tick is a millisecond.
REFUSED = [
    ("link", "0.1", "Kbit", 1),
    ("link", "900000", "Gbit", 1),
    ("downtime", "90000", "s", 1),
    ("reserve", "5", "s", 1),
    ("rounds", "0", None, 1),
    ("rounds", "99", None, 1),
    ("window", "0", "ticks", 1),
    ("window", "2199023255.552", "ticks", 1),
    ("base", "999.999", "ticks", 1),
    ("tick", "0", "ms", 1),
    ("tick", "5", "s", 1),
    ("start", "2199023255.552", "ticks", 1),
    ("first", "0", None, None),
    ("sample", "99999999", None, None),
    ("sample", "0.5", None, None),
]


def amount_in(word):
    """A word of the address as a number: a count, or an amount in bytes a second or microseconds."""
    count, unit = re.fullmatch(r"([\d.]+)([A-Za-z]*)", word.partition("/")[2] or word).groups()
    return math.floor(Fraction(count) * {**RATES, **TIMES, "": 1}[unit])


def check_said(text, unit, fault):
    """A refusal says what was typed, in the unit of its control. Rates are whole bytes a second."""
    if unit == "ticks":
        expect(f"{float(text):.3f}\u00a0s" in fault, f"{text} s: {fault!r}")
    elif unit:
        word = unit + "/s" * (unit in RATES)
        said = re.search(rf"(\d[\d.]*)\u00a0{word}(?!\w)", fault)
        expect(said and amount_in(said[1] + unit) == amount_in(text + unit), f"{text} {unit}: {fault!r}")
    else:
        expect(re.search(rf"(?<![\d.]){text}(?![\d.])", fault), f"{text}: {fault!r}")


# Where the fault of a control is seen, and the top and the bottom of what of it could be seen.
FAULT_BOX = """(() => {
  const { top, bottom } = document.getElementById("control-NAME-fault").getBoundingClientRect();
  const panel = document.getElementById("controls").getBoundingClientRect();
  return { top, bottom, least: Math.max(0, panel.top), most: Math.min(innerHeight, panel.bottom) };
})()"""


def check_refused(page, name, text, unit, grain):
    asked(page, **({"base": "500"} if name == "base" else {}))
    before = page.shown()
    page.browser.value("unfold()")
    if unit not in (None, "ticks"):
        page.with_unit(name, unit)
    page.browser.value(f"document.getElementById('control-{name}').focus()")
    found = typed(page, name, text)
    expect(found["refused"] == name and found["stale"], f"{name} {text} {unit}: {found['refused']}, {found['fault']}")
    box = page.browser.value(FAULT_BOX.replace("NAME", name))
    expect(box["least"] <= box["top"] and box["bottom"] <= box["most"], f"{name}: the fault is cut: {box}")
    expect(found["rounds"] == before["rounds"], "the last plan does not stay")
    enabled = page.browser.value(
        "['#keep', '#ask', '[data-copies=command-predict]', '#zoom-plan',"
        "'#outcome .saves button', '#plan-this .saves button']"
        ".filter((each) => !document.querySelector(each).disabled)"
    )
    expect(not page.enough(), f"enough without a plan: {page.enough()}")
    expect(not enabled, f"enabled without a plan: {enabled}")
    label = page.browser.value(f"document.querySelector('label[for=control-{name}]').textContent")
    expect(label in found["verdict"] and "Take " in found["fault"], f"{found['verdict']}, {found['fault']}")
    if name != "sample":
        check_said(text, unit, found["fault"])
    wrong = int(Fraction(text) * 1_000) if unit == "ticks" else amount_in(f"{text}{unit or ''}")
    taken = page.after(f"document.querySelector('#control-{name}-fault button').click()")
    expect(taken["refused"] is None and not taken["stale"], f"{name}: {taken['refused']}, {taken['fault']}")
    settled(page)
    if grain:
        value = amount_in(word_of(page, name))
        step = grain if value < wrong else -grain
        nearer = asked(page, **{name: spelled(value + step, unit)})
        expect(nearer["refused"], f"{name}: {value + step} plans too, and is nearer to {wrong} than {value}")


def check_unread(page):
    """What is no number is said at its field, and does not change the settings."""
    page.ask("trace=sqlite&link=1Gbit&downtime=300ms")
    for text in ("", "-1", "1e3", "12x", "1.2.3"):
        found = typed(page, "downtime", text)
        expect(found["refused"] == "downtime" and found["stale"], f"{text!r}: {found['refused']}")
        found = page.after("document.querySelector('#control-downtime-fault button').click()")
        value = page.browser.value("document.getElementById('control-downtime').value")
        expect(not found["refused"] and value == "300", f"after {text!r}: {found['refused']}, {value}")


# What a person types, and what it is in the control that it is typed into.
TYPED = [
    ("link", "1,000", "1000", "Mbit"),
    ("link", " 64", "64", "Mbit"),
    ("link", "1 Gbit/s", "1", "Gbit"),
    ("link", "10 gbps", "10", "Gbit"),
    ("link", "64MiB/s", "64", "MiB"),
    ("link", "25 Gb/s", "25", "Gbit"),
    ("downtime", "300ms", "300", "ms"),
    ("downtime", ".5 s", "0.5", "s"),
    ("downtime", "2 min", "120", "s"),
    ("downtime", "1 minute", "60", "s"),
    ("downtime", "250 milliseconds", "250", "ms"),
    ("downtime", "900 \u00b5s", "900", "us"),
    ("rounds", " 12 ", "12", None),
    ("start", "1,000 ticks", "1", None),
    ("start", "1500ms", "1.5", None),
    ("start", "3", "3", None),
    ("first", "25 %", "25", None),
    ("sample", ".5e", None, None),
    ("link", "1,00", None, None),
    ("link", "8 mb", None, None),
]


def check_typed(page):
    """What a person types is taken, with or without a unit; a unit that is typed is the control's from then on."""
    for name, text, value, unit in TYPED:
        page.ask("trace=sqlite&link=100Mbit&downtime=300ms&start=2000&tick=1ms")
        found = typed(page, name, text)
        if value is None:
            expect(found["refused"] == name, f"{text!r} is taken as {name}")
            continue
        expect(found["refused"] is None, f"{name} {text!r}: {found['fault']}")
        page.browser.value(f"document.getElementById('control-{name}').dispatchEvent(new Event('change'))")
        shown = page.browser.value(
            f"[document.getElementById('control-{name}').value, "
            f"document.querySelector('[data-control={name}] select')?.value ?? null]"
        )
        expect(shown == [value, unit], f"{name} {text!r} is shown as {shown}")


# ---- Units.


def without_units(found):
    """What the page shows but for rates and words in the unit of a control."""
    return {**found, "rounds": [row[:3] + row[4:] for row in found["rounds"]], "predict": None, "notes": None}


def check_same_amounts(page, draw):
    for name, units, some in (
        ("link", RATES, "64MiB"),
        ("downtime", TIMES, "300ms"),
        ("reserve", TIMES, "1500us"),
        ("link", RATES, "10Gbit"),
        ("tick", TIMES, "1ms"),
    ):
        page.ask(f"trace=sqlite&{name}={some}")
        before = without_units(page.shown())
        for _ in range(5):
            unit = draw.choice(sorted(units))
            found = without_units(page.with_unit(name, unit))
            differing = [key for key in found if found[key] != before[key]]
            expect(not differing, f"{name} {some} in {unit}: other {differing}")
        settled(page)
        expect(amount_in(word_of(page, name)) == amount_in(some), word_of(page, name))


def check_units(page):
    """Another unit of a control is the same amount; a decimal is the amount that it says."""
    for draw in drawn("units", range(1)):
        check_same_amounts(page, draw)
    page.ask("trace=sqlite&link=1Gbit&downtime=300ms&clark=1")
    expect("--link 1.5Gbit" in typed(page, "link", "1.5")["predict"], "1.5 Gbit/s")
    expect("--downtime 0.5ms" in typed(page, "downtime", "0.5")["predict"], "0.5 ms")
    expect("--first 187500Kbit" in typed(page, "first", "12.5")["predict"], "12.5 %")


# ---- Back, and away from a start.


def check_back(page):
    """Back and forward go through settings; a click on the working set has a way back."""
    page.browser.forget_pages()
    page.open_planned("#trace=sqlite&link=1Gbit&rounds=30")
    page.browser.wait("location.hash.includes('window=')", 5)
    for rounds in ("7", "8"):
        typed(page, "rounds", rounds)
        page.browser.wait(f"location.hash.includes('rounds={rounds}&')", 5)
    value = "document.getElementById('control-rounds').value"
    for act, wanted in (("back", "7"), ("back", "30"), ("forward", "7"), ("forward", "8")):
        page.browser.value(f"history.{act}()")
        page.browser.wait(f"{value} === '{wanted}' && location.hash.includes('rounds={wanted}&')", 5)
    start = page.browser.value("ticksOf('start')")
    page.after(
        """
      const plot = document.getElementById("windows-plot");
      const box = plot.getBoundingClientRect();
      const place = { clientX: box.left + box.width / 2, clientY: box.top + 50, bubbles: true };
      plot.dispatchEvent(new PointerEvent("click", { ...place, pointerType: "mouse" }));
    """
    )
    moved = page.browser.value("ticksOf('start')")
    expect(moved != start and "The start is moved" in page.browser.value("textOf('moved')"), f"{start}, {moved}")
    page.clicked("undo-start")
    expect(page.browser.value("ticksOf('start')") == start, "Undo keeps the start")
    page.browser.value(
        """(() => {
      const plot = document.getElementById("windows-plot");
      const box = plot.getBoundingClientRect();
      const place = { clientX: box.left + box.width / 2, clientY: box.top + 50, bubbles: true };
      plot.dispatchEvent(new PointerEvent("click", { ...place, pointerType: "touch" }));
    })()"""
    )
    expect(page.browser.value("ticksOf('start')") == start, "a finger takes a start")
    page.clicked("windows-take")
    expect(page.browser.value("ticksOf('start')") != start, "a finger cannot take one")


def check_warm(page):
    """A copy is from before the start, and the best start is not the tick of the copy."""
    for start in ("0", "1000", "20000"):
        page.ask(f"trace=sqlite&link=1Gbit&start={start}&base=none")
        found = page.clicked("control-warm")
        base, at = page.browser.value("['base', 'start'].map(ticksOf)")
        expect(base < at and found["rounds"][0][4] != "0", f"start {start}: copy {base}, start {at}")
    page.click("ask")
    page.browser.wait(
        "document.querySelector('#starts-choice p') !== null && !document.getElementById("
        "'starts-answer').hidden && document.getElementById('starts-progress').hidden"
    )
    page.clicked("take-best")
    best = page.browser.value("ticksOf('start')")
    expect(best > base, f"the best start is {best}, the copy {base}")
    found = page.ask(f"trace=sqlite&link=1Gbit&start={base}&base={base}")
    expect(
        "Nothing to send" in found["verdict"]
        and not page.browser.value("document.querySelector('#verdict .good') !== null"),
        found["verdict"],
    )


def check_uses(tally, page):
    corners = shapes.corners()
    for draw in drawn("shapes on a fresh page", range(DROPPED)):
        text = corners[draw.number] if draw.number < len(corners) else shapes.random_shape(draw)
        tried(tally, str(draw), check_shape, page, draw.number, text)
    records.check_all(tally, page)
    page.open_planned("#trace=sqlite")
    for case in REFUSED:
        tried(tally, f"refused: {case}", check_refused, page, *case)
    for words, check in USES.items():
        tried(tally, words, check, page)


USES = {
    "files": check_files,
    "what is dragged": check_dragged,
    "what is no number": check_unread,
    "what is typed": check_typed,
    "units": check_units,
    "warm starts": check_warm,
    "back": check_back,
    "limits": limits.check_limits,
    "ways out": limits.check_ways,
    "a start after the trace": limits.check_late_start,
    "like QEMU": forecasts.check_forecasts,
    "links": links.check_links,
    "curves of links": links.check_curves,
    "the best start": limits.check_saving,
    "a doubtful start": limits.check_doubtful,
    "kept plans": kept.check_comparison,
    "shared axes": kept.check_axes,
    "the same settings": kept.check_same,
    "a second trace": kept.check_second_trace,
    "a trace that is undone": kept.check_undone_trace,
    "a trace after another": another.check_another,
    "hypervisors": kept.check_hosts,
    "commands that are copied": kept.check_copied,
    "saved files": saves.check_files_saved,
    "a refusal out of sight": check_refused_below,
    "names": check_names,
    "looking": looking.check_looking,
    "looking together": looking.check_together,
    "what a finger is offered": looking.check_offers,
    "what a screen reader is told": looking.check_spelled,
    "a mouse that is taken over": looking.check_taken_over,
    "the link past the settings": focus.check_link_past,
    "the map": map.check_map,
    "the map of a sample": map.check_map_scale,
    "the rounds on the map": map.check_map_rounds,
    "pages of the map": map.check_map_pages,
    "what is announced": told.check_told,
    **MANNERS,
    **sure.SURE,
    **late.LATE,
    "the worker": worker.check_worker,
    "a worker that fails": worker.check_failed,
    "a worker that ends over another trace": worker.check_ended_over,
    "a second worker that ends": worker.check_ended_aside,
    "an ended worker": worker.check_ended,
}
