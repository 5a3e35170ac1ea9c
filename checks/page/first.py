"""What the planner's page shows first: an answer in few words, with a picture, and the way back."""

import re

from checks.lib.tally import expect
from checks.page.acts import guest_with_record, typed

MOST_WORDS, FIRST_PICTURE, LEAST_LINE = 120, 500, 24

# The words that are seen of the page as it is, without scrolling: whatever has a letter.
WORDS = r"""(() => {
  const walk = document.createTreeWalker(document.body, NodeFilter.SHOW_TEXT);
  const words = [];
  const isSeen = (element) => element.checkVisibility({ visibilityProperty: true })
    && !element.closest("script, style, option, .hidden");
  while (walk.nextNode()) {
    const { parentElement, data } = walk.currentNode;
    const range = document.createRange();
    range.selectNodeContents(walk.currentNode);
    const { top, bottom } = range.getBoundingClientRect();
    if (isSeen(parentElement) && top < innerHeight && bottom > 0) { words.push(...data.split(/\s+/)); }
  }
  const units = [...document.querySelectorAll("select")].filter((choice) => isSeen(choice)
    && choice.getBoundingClientRect().top < innerHeight).map((choice) => choice.selectedOptions[0].textContent);
  return [...words, ...units].filter((word) => /\p{L}/u.test(word));
})()"""

# Where the first picture with an axis begins, the size of the first line's letters, and whether all of it is seen.
FIRST = """(() => {
  const picture = document.querySelector("#rounds-plot-this svg").getBoundingClientRect();
  const line = document.querySelector(".headline");
  return [picture.top, picture.bottom <= innerHeight, parseFloat(getComputedStyle(line).fontSize),
    line.textContent.replaceAll("\\u00a0", " ")];
})()"""


def check_own_trace(page):
    """A trace of one's own is answered in few words, too."""
    page.browser.dress(1280, 900)
    page.open_planned()
    page.drop(*guest_with_record("own"))
    page.rest()
    words = page.browser.value(WORDS)
    page.browser.dress(1400, 900)
    expect(len(words) <= MOST_WORDS, f"{len(words)} words above the fold: {' '.join(words)}")


# Settings whose limit is missed, or may be, or of which nothing is known; with what is said to be enough.
MISSED = [
    ("trace=sqlite&link=64MiB&first=50&downtime=150ms&start=1000", None),
    ("trace=sqlite&link=64MiB&downtime=10ms&start=1000&clark=1", r"link \S+ MiB/s or limit \S+ ms"),
    ("trace=gzip&link=2MB&downtime=4ms&first=40&increase=25&start=400", r"link \S+ MB/s or limit \S+ ms"),
    ("trace=sqlite&link=40MiB&first=50&downtime=100ms&start=9000&skip=1", r"link \S+ MiB/s or limit \S+ s"),
]


def check_missed(page):
    """A plan that misses its limit, or may, or ends after its trace, is answered in few words, with what is enough."""
    for fragment, enough in MISSED:
        page.browser.dress(1280, 900)
        page.open_planned(f"#{fragment}")
        page.rest()
        words, (top, _, _, line) = page.browser.value(WORDS), page.browser.value(FIRST)
        page.browser.dress(1400, 900)
        expect(len(words) <= MOST_WORDS, f"{len(words)} words above the fold: {' '.join(words)}")
        said = page.browser.value("textOf('enough-words')").replace("\u00a0", " ")
        wanted = f"Enough by the plan: {enough}" if enough else "What is enough"
        expect(top < FIRST_PICTURE and re.fullmatch(wanted, said), f"{fragment}: {line}, {said!r}")
        marks = page.browser.value("textOf('rounds-plot-this').includes('trace ends here')")
        expect(marks == ("Unknown" in line), f"{fragment}: {line}, the end of the trace is marked: {marks}")


def check_first_look(page):
    """Above the fold stand the trace, one large line with the verdict, the bar of the limit with the error, and the
    rounds; in few words."""
    page.browser.dress(1280, 900)
    page.open_planned()
    page.rest()
    words, (top, is_whole, size, line) = page.browser.value(WORDS), page.browser.value(FIRST)
    bar = page.browser.value(
        "[...document.querySelectorAll('#limit-bar text')].map((text) => text.textContent"
        ".replaceAll('\\u00a0', ' '))"
    )
    state = page.browser.value("document.getElementById('trace-state').getClientRects()[0].height")
    page.browser.dress(1400, 900)
    expect(len(words) <= MOST_WORDS, f"{len(words)} words above the fold: {' '.join(words)}")
    expect(top < FIRST_PICTURE and is_whole, f"the first picture begins at {top}, seen whole: {is_whole}")
    expect(size >= LEAST_LINE and line == "Pause 260 ms of 300, 8.86 s, 566 MiB: Keeps the limit", f"{size}: {line!r}")
    expect(bar == ["limit 300 ms", "260 ms \u00b1 16 ms"], f"the bar of the limit says {bar}")
    expect(state < 40, f"the trace is told in {state} pixels")


def check_past(page):
    """Undo and redo are buttons, over all that the user has changed."""
    page.browser.forget_pages()
    page.open_planned("#trace=sqlite&link=1Gbit&rounds=30")
    page.browser.wait("location.hash.includes('window=')", 5)
    states = "['undo', 'redo'].map((id) => document.getElementById(id).getAttribute('aria-disabled'))"
    expect(page.browser.value(states) == ["true", "true"], f"at first {page.browser.value(states)}")
    for rounds in ("7", "8"):
        typed(page, "rounds", rounds)
        page.browser.wait(f"location.hash.includes('rounds={rounds}&')", 5)
    value = "document.getElementById('control-rounds').value"
    for button, wanted, disabled in (
        ("undo", "7", ["false", "false"]),
        ("undo", "30", ["true", "false"]),
        ("redo", "7", ["false", "false"]),
        ("redo", "8", ["false", "true"]),
    ):
        page.after(f"document.getElementById('{button}').focus(); document.getElementById('{button}').click()")
        expect(page.browser.value(value) == wanted, f"{button}: {page.browser.value(value)} in place of {wanted}")
        expect(page.browser.value(states) == disabled, f"after {button}: {page.browser.value(states)}")
        expect(page.browser.value("document.activeElement.id") == button, f"{button} has lost the focus")
    typed(page, "rounds", "9")
    page.clicked("undo")
    expect(page.browser.value(value) == "8", "a change that was not settled yet cannot be undone")
    page.after("location.hash = location.hash.replace('rounds=8&', 'rounds=12&')")
    page.clicked("undo")
    expect(page.browser.value(value) == "8", "an address that the user wrote cannot be undone")
