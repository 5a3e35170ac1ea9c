"""Pictures of the planner's page for a reader's eye, in Chromium and in Firefox: its answer, the map of pages, pictures
that are looked at together, the curves over links, and plans over two traces; in light, in dark, on a phone, at 200 per
cent, and on paper."""

import base64
import os

from checks.lib.tally import expect
from checks.page.acts import example_named, guest_with_record
from checks.page.browser import Browser
from checks.page.firefox import Firefox
from checks.page.shown import COLLECTOR, Page
from precopy_dev.files import write_file

# A look: the width and the height of the page in its own pixels, how many of the screen each has, and what the user
# prefers and points with.
LOOKS = {
    "light": {"width": 1280, "height": 900},
    "dark": {"width": 1280, "height": 900, "is_dark": True},
    "phone": {"width": 390, "height": 844},
    "phone-dark": {"width": 390, "height": 844, "is_dark": True},
    "200": {"width": 640, "height": 450, "ratio": 2},
}
PLAIN = "#trace=sqlite&link=64MiB&first=50&downtime=300ms&start=1000&window=500"
# Firefox has to know before it starts whether its user prefers the dark, and points with a finger.
DARK = {"layout.css.prefers-color-scheme.content-override": 0}
LIGHT = {"layout.css.prefers-color-scheme.content-override": 1}
FINGER = {"ui.primaryPointerCapabilities": 1, "ui.allPointerCapabilities": 1}

# Points at shares of the width and the height of a picture.
POINT = """((id, across, down) => {
  const plot = document.getElementById(id);
  plot.scrollIntoView({ block: "center" });
  const { left, top, width, height } = plot.getBoundingClientRect();
  plot.dispatchEvent(new PointerEvent("pointermove", { pointerType: "mouse", bubbles: true,
    clientX: left + width * across, clientY: top + height * down }));
})"""


# ---- The scenes, each with the parts of the page that are looked at.


def point(page, name, across, down):
    page.browser.value(f"{POINT}('{name}', {across}, {down})")


def open_with(page, fragment=PLAIN):
    page.open_planned(fragment)
    page.rest()


def answer(page):
    """What is seen first of a trace of one's own, with its record."""
    open_with(page, "")
    page.drop(*guest_with_record("store"))


def unfolded(page):
    """The answer with all of its words and numbers, of a limit that is missed."""
    open_with(page, "#trace=sqlite&link=40MiB&first=50&downtime=100ms&start=9000&window=500&skip=1")
    page.browser.value("unfold()")


def map_of_pages(page):
    """The map, nearer, with a place on it that is pointed at."""
    open_with(page, PLAIN + "&skip=1")
    page.browser.value("unfold(); document.getElementById('zoom-plan').click()")
    page.rest()
    point(page, "map-plot", 0.4, 0.3)


def together(page):
    """A stretch of the rounds, the working set and the starts, with a moment in one that is marked in the others."""
    open_with(page)
    page.click("ask")
    page.browser.wait("!document.getElementById('starts-answer').hidden && isTold('starts-choice')")
    page.click("zoom-plan")
    page.rest()
    point(page, "windows-plot", 0.6, 0.3)


def links(page):
    """The curves over links, one of which is pointed at."""
    open_with(page)
    point(page, "links-plot", 0.6, 0.3)


def two_traces(page):
    """A plan beside those that were kept over another trace."""
    open_with(page)
    page.clicked("keep")
    page.drop(example_named("a-trace-with-a-rather-long-name.light.pcwt", "guests/mid.light.pcwt"))
    page.after(
        "document.getElementById('keep').click(); document.getElementById('control-rounds').value = '3';"
        "document.getElementById('control-rounds').dispatchEvent(new Event('input'))"
    )
    page.browser.value("unfold()")


SCENES = {
    "answer": (answer, ["window"]),
    "unfolded": (unfolded, ["#outcome", "#controls"]),
    "map": (map_of_pages, ["#map"]),
    "together": (together, ["#outcome", "#windows", "#starts"]),
    "links": (links, ["#links"]),
    "two-traces": (two_traces, ["#outcome"]),
}
ON_PAPER = ["answer", "unfolded", "together", "two-traces"]


# ---- Taking pictures.


def take(page, part, path):
    """Takes a picture of what the window shows, or of a part of the page."""
    if part == "window":
        page.browser.value("scrollTo(0, 0)")
        page.browser.picture(path, is_whole=False)
        return
    box = page.browser.value(
        f"""(() => {{
      const {{ left, top, width, height }} = document.querySelector("{part}").getBoundingClientRect();
      return [left + scrollX, top + scrollY, width, height];
    }})()"""
    )
    expect(min(box[2:]) > 100, f"{part} is seen in {box}")
    # What stands at the window's bottom would be in the midst of the part.
    page.browser.value("document.getElementById('summary').style.setProperty('visibility', 'hidden')")
    page.browser.picture_of(path, *box)


def take_scenes(page, folder, kind, names):
    """Takes pictures of each scene in some looks."""
    for name in names:
        page.browser.dress(**LOOKS[name])
        for scene, (act, parts) in SCENES.items():
            act(page)
            page.rest()
            for part in parts:
                take(page, part, os.path.join(folder, f"{scene}-{part.lstrip('#')}-{name}-{kind}.png"))


def print_scenes(page, folder, kind):
    page.browser.dress(**LOOKS["light"])
    for scene in ON_PAPER:
        SCENES[scene][0](page)
        page.rest()
        write_file(base64.b64decode(page.browser.printed()), folder, f"{scene}-paper-{kind}.pdf")


def in_chromium(path, folder):
    with Browser("chromium") as browser:
        browser.begin_with(COLLECTOR)
        page = Page(browser, path)
        take_scenes(page, folder, "chromium", LOOKS)
        print_scenes(page, folder, "chromium")


def in_firefox(path, folder):
    for preferences, names in (
        (LIGHT, ["light", "200"]),
        (DARK, ["dark"]),
        ({**LIGHT, **FINGER}, ["phone"]),
        ({**DARK, **FINGER}, ["phone-dark"]),
    ):
        with Firefox(preferences=preferences) as browser:
            browser.begin_with(COLLECTOR)
            page = Page(browser, path)
            take_scenes(page, folder, "firefox", names)
            if "200" in names:
                print_scenes(page, folder, "firefox")
