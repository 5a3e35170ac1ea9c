"""Looking at the pictures of the planner's page with a mouse or a finger, at one and at all together."""

from checks.lib.tally import expect
from checks.page.acts import asked, plan_starts


def check_looking(page):
    """The item at the cursor is told beside it. A stretch that is drawn over is taken nearer, and takes no start."""
    asked(page)
    start = page.browser.value("ticksOf('start')")
    tip = page.browser.value(
        """(() => {
      const plot = document.getElementById("windows-plot");
      const box = plot.getBoundingClientRect();
      const send = (to, kind, share) => to.dispatchEvent(new PointerEvent(kind, { pointerType: "mouse", bubbles: true,
        clientX: box.left + 68 + (box.width - 80) * share, clientY: box.top + 60 }));
      send(plot, "pointermove", 0.25);
      const tip = plot.querySelector(".tip").textContent;
      send(plot, "pointerdown", 0.25);
      send(window, "pointermove", 0.5);
      send(window, "pointerup", 0.5);
      send(plot, "click", 0.5);
      return tip;
    })()"""
    )
    expect(tip.startswith("Window 18, 9.000 s to 9.500 s: "), f"at a quarter of 37.5 s: {tip}")
    labels = page.browser.value(
        "[...document.querySelectorAll('#windows-plot text.middle:not(.title)')]"
        ".map((text) => parseFloat(text.textContent))"
    )
    expect(len(labels) > 3 and 9 <= min(labels) and max(labels) <= 19, f"of 9.4 to 18.8 s: {labels}")
    expect(page.browser.value("ticksOf('start')") == start, "the brush takes a start")
    page.browser.value(
        """(() => {
      const plot = document.getElementById("rounds-plot-this");
      const box = plot.getBoundingClientRect();
      plot.dispatchEvent(new PointerEvent("click", { pointerType: "touch", bubbles: true, clientX: box.left + 70,
        clientY: box.top + 60 }));
    })()"""
    )
    said = page.browser.value("textOf('plan-this')")
    expect("Round 0, 0.000 s to " in said, f"a finger on a round reads nothing: {said}")
    page.click("zoom-out")


# What a screen reader is told of the working set, and what is told below it; of no item an item's name is not told.
SPELLED = """[document.getElementById("windows-plot").getAttribute("aria-valuetext"), textOf("windows-readout")]
  .map((words) => words.startsWith("Window ") ? words : "none")"""


def check_spelled(page):
    """A screen reader is told the item that is looked at, and none once that is not drawn any more."""
    page.ask("trace=sqlite&link=64MiB&first=50&downtime=300ms&start=1000&window=500")
    page.click("zoom-out")
    page.rest()
    end = "new KeyboardEvent('keydown', { key: 'End', bubbles: true })"
    page.browser.value(f"document.getElementById('windows-plot').dispatchEvent({end})")
    said, told = page.browser.value(SPELLED)
    expect(said == told and said.startswith("Window 74, "), f"at the last window {said!r} is said, and {told!r} told")
    page.click("zoom-plan")
    page.rest()
    found = page.browser.value(SPELLED)
    expect(found == ["none", "none"], f"of a window that is not drawn is said and told {found}")
    page.click("zoom-out")


# Begins to draw over the working set. The browser takes the mouse over then, and the user comes back without a button.
TAKEN_OVER = """(() => {
  const plot = document.getElementById("windows-plot");
  const { left, top, width } = plot.getBoundingClientRect();
  const send = (to, kind, share) => to.dispatchEvent(new PointerEvent(kind, { pointerType: "mouse", bubbles: true,
    clientX: left + share * width, clientY: top + 60 }));
  send(plot, "pointerdown", 0.3);
  send(window, "pointermove", 0.4);
  send(window, "pointercancel", 0.4);
  send(window, "pointermove", 0.6);
  const isDrawn = plot.querySelector(".brush") !== null;
  send(window, "pointerup", 0.6);
  return isDrawn;
})()"""


def check_taken_over(page):
    """A mouse that the browser takes over while it draws over a picture draws and takes nothing more."""
    asked(page)
    page.click("zoom-out")
    page.rest()
    is_drawn = page.browser.value(TAKEN_OVER)
    page.rest()
    is_whole = page.browser.value("document.getElementById('zoom-out').disabled")
    expect(not is_drawn and is_whole, f"it goes on to draw: {is_drawn}; it takes nothing: {is_whole}")


# Taps a picture at a share of its width, and tells what is offered then.
TAPPED = """((name, share) => {
  const plot = document.getElementById(`${name}-plot`);
  const { left, top, width } = plot.getBoundingClientRect();
  plot.dispatchEvent(new PointerEvent("click", { pointerType: "touch", bubbles: true, clientX: left + share * width,
    clientY: top + 60 }));
  return textOf(`${name}-take`);
})"""
ZOOM = "document.getElementById('zoom-plan').click()"
# Takes a slower link, and waits until its plan is drawn: a page that has not begun to draw is taken to be at rest.
SLOWER = """after(() => {
  const field = document.getElementById("control-link");
  field.value = "32";
  field.dispatchEvent(new Event("input"));
}).then(() => null)"""


def check_offers(page):
    """What a button offers to a finger is of the picture that is seen: another picture has other items."""
    for name, act in (("windows", ZOOM), ("starts", ZOOM), ("links", SLOWER)):
        page.ask("trace=sqlite&link=64MiB&first=50&downtime=300ms&start=1000&window=500")
        page.click("zoom-out")
        plan_starts(page)
        page.rest()
        offered = page.browser.value(f"{TAPPED}('{name}', 0.8)")
        page.browser.value(act)
        page.rest()
        is_hidden = page.browser.value(f"document.getElementById('{name}-take').hidden")
        if not is_hidden:
            page.click(f"{name}-take")
            page.rest()
        taken = page.browser.value("['start', 'link'].map((name) => document.getElementById(`control-${name}`).value)")
        expect(is_hidden, f"{name}: {offered!r} is still offered, and takes the start and the link {taken}")
    page.click("zoom-out")


# Sends what a mouse does at a share of a plot's width, and tells where the moment is marked in the others, in seconds.
POINTED = """((id, share, kinds) => {
  const plot = document.getElementById(id);
  const box = plot.getBoundingClientRect();
  for (const [kind, at] of kinds.map((kind, place) => [kind, place === 0 ? share : share + 0.2])) {
    (kind === "pointermove" || kind === "pointerdown" ? plot : window).dispatchEvent(new PointerEvent(kind, {
      pointerType: "mouse", bubbles: true, clientX: box.left + 68 + (box.width - 80) * at, clientY: box.top + 60 }));
  }
  return Object.fromEntries(["rounds-plot-this", "windows-plot", "starts-plot"].map((name) => {
    const mark = document.querySelector(`#${name} .moment`);
    return [name, mark && (Number(mark.getAttribute("x")) + 0.5 - 68) / (mark.ownerSVGElement.clientWidth - 80)];
  }));
})"""
LABELS = """((id) => [...document.querySelectorAll(`#${id} text.middle:not(.title)`)].map((text) =>
  parseFloat(text.textContent)))"""


def check_together(page):
    """A moment that is pointed at in a picture is marked in the others; a stretch taken nearer in one is in all."""
    page.ask("trace=sqlite&link=64MiB&first=50&downtime=300ms&start=1000&window=500")
    page.browser.value("document.getElementById('zoom-out').click(); document.getElementById('ask').click()")
    page.browser.wait(
        "document.querySelector('#starts-plot svg') !== null && document.getElementById('starts-progress').hidden",
        20,
    )
    page.rest()
    # The plan takes 19.297 s from 1 s on, and the windows end at 37.5 s.
    found = page.browser.value(f"{POINTED}('rounds-plot-this', 0.5, ['pointermove'])")
    second = 1 + 0.5 * 19.297
    expect(found["rounds-plot-this"] is None, "the moment is marked where it is pointed at")
    for name in ("windows-plot", "starts-plot"):
        expect(found[name] and abs(found[name] * 37.5 - second) < 0.2, f"{name}: {found[name]}, {second} s")
    halo = page.browser.value("getComputedStyle(document.querySelector('.moment')).stroke")
    expect(halo == "rgb(255, 255, 255)", f"the mark of a moment has {halo!r} round it, on bars as blue as it is")
    found = page.browser.value(f"{POINTED}('windows-plot', 0.9, ['pointermove'])")
    expect(found["rounds-plot-this"] is None and found["starts-plot"] is not None, f"after the plan: {found}")
    page.browser.value(f"{POINTED}('rounds-plot-this', 0.4, ['pointerdown', 'pointermove', 'pointerup'])")
    page.rest()
    begin, end = 0.4 * 19.297, 0.6 * 19.297
    for name, first, last in (
        ("rounds-plot-this", begin, end),
        ("windows-plot", begin + 1, end + 1),
        ("starts-plot", begin + 1, end + 1),
    ):
        labels = page.browser.value(f"{LABELS}('{name}')")
        expect(
            len(labels) > 2 and min(labels) >= first - 0.1 and max(labels) <= last + 0.1,
            f"{name} shows {labels} in place of {first:.1f} to {last:.1f} s",
        )
    page.browser.value(
        "document.getElementById('rounds-plot-this').dispatchEvent(new KeyboardEvent('keydown', "
        "{ key: '0', bubbles: true }))"
    )
    expect(page.browser.value("document.getElementById('zoom-out').disabled"), "0 does not show the whole trace")
