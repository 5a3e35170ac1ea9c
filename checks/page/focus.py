"""What the planner's page does with the focus and with keys, with a finger, and with forced colours."""

import json

from checks.lib.tally import expect
from checks.page.acts import asked, typed

LEAST_PRESSED = 24
FOCUSED = """(() => {
  const { activeElement: at } = document;
  return [at.id || at.dataset.takes || at.dataset.suggested || at.getAttribute("aria-label") || at.tagName,
    at.isConnected && at.offsetParent !== null];
})()"""

# What is pressed and is smaller than a finger can tell.
SMALL = """[...document.querySelectorAll("button, .button, a, select, summary, input")].flatMap((each) => {
  const { width, height } = each.getBoundingClientRect();
  const isHidden = !each.offsetParent || each.matches(".skip, [type=file]");
  return isHidden || Math.min(width, height) >= BOUND ? []
    : [`${each.id || each.textContent.trim() || each.type}: ${Math.round(width)} by ${Math.round(height)}`];
})"""

# The colours of the keys of a legend, as they are painted.
KEYS = "[...document.querySelectorAll('#rounds .key')].map((key) => getComputedStyle(key).backgroundColor)"


# What a finger does at the middle of a picture.
TAP = """(() => {
  const plot = document.getElementById("ID");
  const { left, top, width } = plot.getBoundingClientRect();
  plot.dispatchEvent(new PointerEvent("click", { pointerType: "touch", bubbles: true, clientX: left + 0.6 * width,
    clientY: top + 60 }));
})()"""
# Buttons that go, or can do nothing more, once they are pressed; the picture that has the focus then; and what comes
# before.
WAYS_BACK = [
    ("zoom-out", "windows-plot", "document.getElementById('zoom-plan').click()"),
    (
        "all-pages",
        "map-plot",
        "document.getElementById('map-plot').dispatchEvent(new KeyboardEvent('keydown', { key: '*', bubbles: true }))",
    ),
    ("windows-take", "windows-plot", TAP.replace("ID", "windows-plot")),
    ("links-take", "links-plot", TAP.replace("ID", "links-plot")),
]


def require_focus(page, wanted, what):
    """Waits until nothing is still to come, and tests where the focus is."""
    page.rest()
    found, is_seen = page.browser.value(FOCUSED)
    expect(found == wanted and is_seen, f"after {what} the focus is on {found!r}, seen: {is_seen}")


def pressed(page, selector):
    page.after(f"const button = document.querySelector({json.dumps(selector)}); button.focus(); button.click()")


def check_focus(page):
    """What is pressed keeps the focus, or what took its place gets it."""
    # Of the verdict on the second that is taken it is not sure that it keeps the limit, so nothing more is offered.
    for taken, wanted in (("link", "link"), ("downtime", "outcome")):
        asked(page, link="1Gbit", first="50", downtime="300ms")
        page.browser.value("unfold()")
        page.enough()
        pressed(page, f"[data-takes={taken}]")
        require_focus(page, wanted, f"Take it, of the {taken}")
    asked(page, link="64MiB", first="50", downtime="300ms")
    page.clicked("keep")
    pressed(page, "[data-drops='0']")
    require_focus(page, "keep", "the drop of the only kept plan")
    typed(page, "rounds", "99")
    pressed(page, "#fit")
    require_focus(page, "outcome", "Fit all")
    page.press_in("windows-plot", "End", "Enter")
    pressed(page, "#undo-start")
    require_focus(page, "windows-plot", "Undo")
    for button, plot, act in WAYS_BACK:
        page.browser.value(act)
        page.rest()
        page.browser.value(f"['focus', 'click'].forEach((name) => document.getElementById('{button}')[name]())")
        require_focus(page, plot, f"#{button}")
    page.browser.value("scrollTo(0, document.body.scrollHeight)")
    page.browser.wait("document.getElementById('trace').getBoundingClientRect().bottom < 0", 5)
    page.drop(("bad.txt", b"no trace"))
    page.browser.value("['focus', 'click'].forEach((name) => document.getElementById('close-notice')[name]())")
    expect(page.browser.value("document.activeElement.id") == "file", "a notice that is closed takes the focus along")


def check_link_past(page):
    """The link past the settings leads to the prediction, and leaves the settings and the address as they are."""
    before = asked(page, link="64MiB", first="50")
    address = page.browser.value("location.hash")
    page.click("past-settings")
    page.becomes("document.activeElement.id", "outcome", "after the link past the settings")
    page.browser.value("new Promise((resume) => setTimeout(resume, 600))")
    page.rest()
    found = page.browser.value("location.hash")
    expect(found == address, f"the link past the settings leads to {found}, away from {address}")
    expect(page.shown() == before, "the link past the settings changes the plan")


def check_commands(page):
    """A key with Ctrl is the browser's: it zooms the page, and no picture with it."""
    asked(page)
    page.click("zoom-out")
    page.rest()
    sent = page.browser.value(
        """["rounds-plot-this", "windows-plot", "map-plot", "links-plot"].flatMap((id) =>
      ["ctrlKey", "metaKey", "altKey"].flatMap((other) =>
        ["+", "-", "*", "/", "ArrowLeft", "ArrowDown", "0"].filter((key) =>
          !document.getElementById(id).dispatchEvent(new KeyboardEvent("keydown",
            { key, bubbles: true, cancelable: true, [other]: true }))).map((key) => `${other} ${key} in ${id}`)))"""
    )
    expect(not sent, f"keys that the page takes from the browser: {sent}")
    page.rest()
    still = "['zoom-out', 'all-pages'].every((id) => document.getElementById(id).disabled)"
    expect(page.browser.value(still), "a picture was zoomed with the page")


def check_fingers(page):
    """On a phone nothing that is pressed is too small for a finger."""
    page.browser.dress(390, 900)
    page.open_planned("#trace=sqlite&link=64MiB&first=50&window=500&start=1000")
    page.browser.value("unfold()")
    page.clicked("keep")
    page.enough()
    small = page.browser.value(SMALL.replace("BOUND", str(LEAST_PRESSED)))
    page.browser.dress(1400, 900)
    expect(not small, f"too small: {small}")


def check_forced_colours(page):
    """Where the user's system sets the colours, the keys of legends keep theirs, and differ."""
    asked(page)
    before = page.browser.value(KEYS)
    page.browser.call("Emulation.setEmulatedMedia", features=[{"name": "forced-colors", "value": "active"}])
    found = page.browser.value(KEYS)
    page.browser.dress(1400, 900)
    expect(found == before and len(set(found)) > 4, f"keys are {found} in place of {before}")
