"""What checks/page tests of the page besides its numbers: looks, the keyboard, the address, and that it is silent."""

import collections
import hashlib
import http.server
import os
import threading

from checks.lib.harness import drawn
from checks.lib.tally import expect
from checks.page import first, focus, shapes
from checks.page.acts import typed
from checks.page.browser import WIDER_THAN_PHONES
from checks.page.cases import example
from precopy_dev.files import read_bytes, read_text, write_file
from precopy_dev.packaging import notices

WIDTHS = [360, 800, 1400, 1920]
LEAST_CONTRAST = 4.5
HEIGHT, SHAPES = 900, 24

# Each text of the page with a contrast below a bound: the ratio of WCAG 2, section 1.4.3. Opacity counts.
CONTRAST = """
(() => {
  const canvas = new OffscreenCanvas(1, 1).getContext("2d", { willReadFrequently: true });
  const known = new Map();
  const colour = (words) => {
    if (!known.has(words)) {
      canvas.clearRect(0, 0, 1, 1); canvas.fillStyle = words; canvas.fillRect(0, 0, 1, 1);
      known.set(words, [...canvas.getImageData(0, 0, 1, 1).data]);
    }
    return known.get(words);
  };
  const light = ([r, g, b]) => {
    const part = (value) => (value / 255 <= 0.04045 ? value / 255 / 12.92 : ((value / 255 + 0.055) / 1.055) ** 2.4);
    return 0.2126 * part(r) + 0.7152 * part(g) + 0.0722 * part(b);
  };
  const ground = (element) => {
    for (let at = element; at; at = at.parentElement) {
      const found = colour(getComputedStyle(at).backgroundColor);
      if (!(at instanceof SVGElement) && found[3] === 255) { return found; }
    }
    return [255, 255, 255, 255];
  };
  const poor = [];
  const walk = document.createTreeWalker(document.body, NodeFilter.SHOW_TEXT);
  while (walk.nextNode()) {
    const element = walk.currentNode.parentElement;
    const box = element.getBoundingClientRect();
    const style = getComputedStyle(element);
    const isShown = walk.currentNode.textContent.trim() && box.width >= 2;
    if (!isShown || element.closest("script, style, option, .hidden")) { continue; }
    const ink = colour(element instanceof SVGElement ? style.fill : style.color);
    let opacity = 1;
    for (let at = element; at; at = at.parentElement) { opacity *= Number(getComputedStyle(at).opacity); }
    const paper = ground(element);
    const seen = ink.map((part, place) => part * opacity + paper[place] * (1 - opacity));
    const [high, low] = [light(seen), light(paper)].sort((one, other) => other - one);
    const ratio = (high + 0.05) / (low + 0.05);
    if (ratio < BOUND) { poor.push(`${walk.currentNode.textContent.trim().slice(0, 40)}: ${ratio.toFixed(2)}`); }
  }
  return [...new Set(poor)];
})()
"""

# Texts of pictures that are outside of their picture, or over another text.
OVERLAPS = """
[...document.querySelectorAll("svg")].flatMap((picture) => {
  const whole = picture.getBoundingClientRect();
  const boxes = [...picture.querySelectorAll("text")].map((text) => [text.textContent, text.getBoundingClientRect()]);
  const outside = boxes.filter(([, box]) => box.left < whole.left - 1 || box.right > whole.right + 1
    || box.bottom > whole.bottom + 1).map(([words]) => `outside: ${words}`);
  const over = boxes.flatMap(([words, box], at) => boxes.slice(at + 1).filter(([, other]) => box.left < other.right - 1
    && other.left < box.right - 1 && box.top < other.bottom - 3 && other.top < box.bottom - 3)
    .map(([others]) => `${words} over ${others}`));
  return [...outside, ...over];
})
"""

# Columns of tables whose points, or ends of whole numbers, are not below each other.
RAGGED = """
[...document.querySelectorAll(".numbers")].filter((table) => table.offsetParent).flatMap((table) => {
  const placeIn = ({ firstChild: text }) => {
    const range = document.createRange();
    const at = text.data.includes(".") ? text.data.indexOf(".") : text.data.length;
    range.setStart(text, at - 1);
    range.setEnd(text, at);
    return range.getBoundingClientRect().right;
  };
  const columns = [...table.querySelectorAll("thead th")].map((head, column) => [head.textContent,
    [...table.querySelectorAll("tbody tr")].map((row) => placeIn(row.children[column]))]);
  return columns.filter(([, places]) => Math.max(...places) - Math.min(...places) > 0.6)
    .map(([name, places]) => `${name}: ${places.slice(0, 5)}`);
})
"""

# Places that have a part with nothing beside it at its left or at its right, though there is room.
GAPS = """
[...document.querySelectorAll("PLACES")].filter((place) => place.offsetParent).flatMap((place) => {
  const boxes = [...place.children].filter((part) => part.offsetParent).map((part) => part.getBoundingClientRect());
  const whole = place.getBoundingClientRect();
  const rows = boxes.map(({ top }) => boxes.filter((box) => box.top <= top + 1 && top + 1 < box.bottom));
  const isFull = (row) => Math.min(...row.map(({ left }) => left)) < whole.left + 2
    && Math.max(...row.map(({ right }) => right)) > whole.right - 2;
  return rows.filter((row) => !isFull(row)).map((row) => `${place.id}: ${row.length} of ${boxes.length} in a row`);
})
"""


# Marks of pictures with a contrast below a bound to what they lie on: the paper, a halo of its colour, or another mark.
# Opacity counts. PAIRS are names of marks, each with that of the mark below it, or null.
MARKS = """
(() => {
  const pairs = PAIRS;
  const canvas = new OffscreenCanvas(1, 1).getContext("2d", { willReadFrequently: true });
  const paint = (words, opacity) => {
    canvas.globalAlpha = opacity;
    canvas.fillStyle = words;
    canvas.fillRect(0, 0, 1, 1);
  };
  const ground = getComputedStyle(document.getElementById("rounds")).backgroundColor;
  const light = (words, opacity) => {
    paint(ground, 1);
    paint(words, opacity);
    const part = (value) => (value / 255 <= 0.04045 ? value / 255 / 12.92 : ((value / 255 + 0.055) / 1.055) ** 2.4);
    const [r, g, b] = canvas.getImageData(0, 0, 1, 1).data;
    return 0.2126 * part(r) + 0.7152 * part(g) + 0.0722 * part(b);
  };
  const paper = light(ground, 1);
  const inkOf = (name) => {
    const mark = document.querySelector(`svg .${name}`);
    const style = mark && getComputedStyle(mark);
    return style && light(style.fill === "none" ? style.stroke : style.fill, Number(style.opacity));
  };
  return pairs.flatMap(([name, below]) => {
    const [ink, under] = [inkOf(name), below ? inkOf(below) : paper];
    if (ink === null || under === null) { return [`${name} on ${below}: not seen`]; }
    const [high, low] = [ink, under].sort((one, other) => other - one);
    const ratio = (high + 0.05) / (low + 0.05);
    const isRight = name === "halo" ? ratio < 1.01 : ratio >= BOUND;
    return isRight ? [] : [`${name} on ${below ?? "paper"}: ${ratio.toFixed(2)}`];
  });
})()
"""
STARTS_MARKS = [[name, None] for name in ("known", "limit", "best", "worst")]
PLAIN_MARKS = "sent skipped dirtied rate link stop down again earlier fresh span.top late halo"
ALL_MARKS = [[name, None] for name in PLAIN_MARKS.split()]
ALL_MARKS += [*STARTS_MARKS, ["dirtied", "sent"], ["again", "earlier"], ["earlier", "fresh"], ["link", "rate"]]


# Rows of buttons, and pictures with a title, that touch what is above them.
TOUCHING = """
[...document.querySelectorAll(".actions, #rounds")].filter((part) => part.offsetParent).flatMap((part) => {
  const { top, left, right } = part.getBoundingClientRect();
  const parts = [...part.parentElement.children];
  const above = parts.slice(0, parts.indexOf(part)).filter((other) => other.offsetParent)
    .map((other) => [other, other.getBoundingClientRect()])
    .filter(([, box]) => box.height > 0 && box.left < right && left < box.right && box.bottom > top - 2);
  return above.map(([other]) => `${part.id || part.className} and ${other.id || other.className}`);
})"""


# Whether the page takes its user for one with a finger, and what it then says of a pointer or of keys.
TOUCHED = """[matchMedia("(pointer: coarse)").matches, [...document.querySelectorAll(".readout")]
  .filter((readout) => readout.dataset.touch && readout.textContent === readout.dataset.hint).length > 0]"""


def check_look(page, name, is_long=False):
    """A look at a page. Where times are very long a table may be wider than a phone: it is drawn aside."""
    browser = page.browser
    width = browser.value("innerWidth")
    is_phone = width < WIDER_THAN_PHONES
    is_touched, is_pointed = browser.value(TOUCHED)
    expect(is_touched == is_phone and not (is_phone and is_pointed), f"{name}: touched {is_touched}, {is_pointed}")
    wide = browser.value("document.documentElement.scrollWidth")
    expect(wide <= width, f"{wide} pixels in a width of {width}, {name}")
    poor = browser.value(CONTRAST.replace("BOUND", str(LEAST_CONTRAST)))
    expect(not poor, f"contrast, {name}: {poor}")
    over = browser.value(OVERLAPS)
    expect(not over, f"texts, {name}: {over}")
    ragged = browser.value(RAGGED)
    expect(not ragged, f"columns, {name}: {ragged}")
    gaps = browser.value(GAPS.replace("PLACES", ".pair"))
    expect(not gaps, f"gaps, {name}: {gaps}")
    touching = browser.value(TOUCHING)
    expect(not touching, f"touching, {name}: {touching}")
    parts = "#comparison, #controls, pre" + ", .scrolls" * (not is_long)
    cut = browser.value(
        f"[...document.querySelectorAll('{parts}')]"
        ".filter((part) => part.scrollWidth > part.clientWidth).map((part) => part.id)"
    )
    expect(not cut, f"wider than their places, {name}: {cut}")


def check_shapes(page, folder):
    """The same for pictures of traces of other shapes, with and without a plan, with starts, and taken nearer."""
    browser = page.browser
    page.open_planned("#trace=sqlite")
    corners = shapes.corners()
    for draw in drawn("looks of a shape", range(SHAPES)):
        number = draw.number
        text = corners[number] if number < len(corners) else shapes.random_shape(draw)
        width, is_dark = WIDTHS[number % len(WIDTHS)], number % 2 == 1
        browser.dress(width, HEIGHT, is_dark)
        page.drop((f"shape-{number}.pcwt", text))
        browser.value("document.getElementById('ask').click()")
        browser.wait("!document.getElementById('starts-answer').hidden")
        if number % 3 == 0:
            browser.value("document.getElementById('zoom-plan').click()")
        if number % 4 == 0:
            typed(page, "downtime", "90000000")
        page.rest()
        check_look(page, f"shape {number} at {width}", is_long=True)
        if folder:
            os.makedirs(folder, exist_ok=True)
            browser.picture(os.path.join(folder, f"shape-{number}-{width}.png"))
    browser.dress(1400, HEIGHT)


def read_nodes(page):
    """What a screen reader is told of the page."""
    page.browser.call("Accessibility.enable")
    nodes = page.browser.call("Accessibility.getFullAXTree")["nodes"]
    return [node for node in nodes if "role" in node and not node["ignored"]]


ROLES = {"button", "slider", "textbox", "combobox", "checkbox", "progressbar", "DisclosureTriangle", "link"}


def check_names(page):
    """Each control has a name of its own for a screen reader, each picture that can be looked at a value, and whatever
    describes an element is there. A link leads past the settings."""
    found = [node for node in read_nodes(page) if node["role"]["value"] in ROLES]
    nameless = [node["role"]["value"] for node in found if not node.get("name", {}).get("value")]
    expect(len(found) > 40 and not nameless, f"{len(found)} controls; without a name: {nameless}")
    names = collections.Counter((node["role"]["value"], node["name"]["value"]) for node in found)
    twice = [name for name, count in names.items() if count > 1]
    expect(not twice, f"names of two controls: {twice}")
    dangling = page.browser.value(
        """
      [...document.querySelectorAll("[aria-describedby], [aria-labelledby], label[for]")].flatMap((element) =>
        ["aria-describedby", "aria-labelledby", "for"].flatMap((name) => (element.getAttribute(name) ?? "").split(" ")))
        .filter((id) => id && !document.getElementById(id))"""
    )
    expect(not dangling, f"there is no {dangling}")
    page.browser.value("document.body.focus(); document.getElementById('past-settings').focus()")
    page.browser.press("Enter", 13)
    page.browser.wait("document.activeElement.id === 'outcome'", 5)


# The words that are seen of a control: its own, or those of its label. A picture has none.
SEEN_WORDS = """function () {
  const label = this.closest(".control")?.querySelector("label");
  const places = this.matches("input, select") ? [...(this.labels ?? []), ...(label ? [label] : [])] : [this];
  return this.matches(".plot") ? [] : places.map((place) => place.innerText.trim()).filter(Boolean);
}"""


def check_labels(page, look):
    """The name of each button, link and field has the words that are seen of it: WCAG 2, section 2.5.3."""
    browser, count = page.browser, 0
    for node in read_nodes(page):
        if node["role"]["value"] in ROLES:
            place = browser.call("DOM.resolveNode", backendNodeId=node["backendDOMNodeId"])["object"]["objectId"]
            asked = {"objectId": place, "functionDeclaration": SEEN_WORDS, "returnByValue": True}
            name = " ".join(node["name"]["value"].lower().split())
            for words in browser.call("Runtime.callFunctionOn", **asked)["result"]["value"]:
                expect(" ".join(words.lower().split()) in name, f"{look}: {words!r} is seen, and the name is {name!r}")
                count += 1
    expect(count > 4, f"{look}: {count} controls have words")


def check_keyboard(page):
    """Sliders, fields and pictures work by the keyboard."""
    browser = page.browser
    page.open_planned("#trace=sqlite&clark=1")
    browser.value("unfold()")
    for name, number in (("rounds", "value"), ("start", "dataset.ticks")):
        selector = f"#control-{name}"
        before = browser.value(f"Number(document.querySelector('{selector}').{number})")
        browser.value(f"document.querySelector('{selector}').closest('.control').querySelector('[type=range]').focus()")
        browser.press("ArrowRight", 39)
        browser.wait(f"Number(document.querySelector('{selector}').{number}) === {before + 1}", 5)
        expect(browser.value(f"location.hash.includes('{name}=')"), f"{name} is not in the address")
    for selector in ("#control-link", "#control-downtime", "#control-tick"):
        browser.value(f"document.querySelector('{selector}').closest('.control').querySelector('[type=range]').focus()")
        before = browser.value("Number(document.activeElement.value)")
        for _ in range(10):
            browser.press("ArrowRight", 39)
        page.becomes("Number(document.activeElement.value)", before + 10, f"ten steps of {selector} from {before}")
    page.open_planned("#trace=sqlite")
    browser.value("document.getElementById('windows-plot').focus()")
    browser.press("End", 35)
    page.becomes("textOf('windows-readout').slice(0, 19)", "Window 74, 37.000 s", "the last window")
    browser.press("Enter", 13)
    browser.wait("ticksOf('start') === 37000", 5)
    browser.press("Home", 36)
    browser.press(" ", 32)
    browser.wait("ticksOf('start') === 0", 5)
    browser.press("+", 187)
    browser.wait("!document.getElementById('zoom-out').disabled", 5)
    lost = browser.value(
        "[...document.querySelectorAll('input, select, button, summary, .plot')]"
        ".filter((element) => element.tabIndex < 0).map((element) => element.id)"
    )
    expect(not lost, f"not reached by the keyboard: {lost}")


# The limits that an address says, and how many columns the comparison has.
ADDRESSED = """[...["link", "downtime"].map((name) => document.getElementById(`control-${name}`).value),
  document.querySelector("#comparison thead tr").children.length]"""


def check_address(page):
    """The address holds the settings, the kept plans and a fingerprint of the trace, and nothing of the trace."""
    browser = page.browser
    page.open_planned("#trace=sqlite&link=64MiB&first=50&rounds=7&start=1234&skip=1&base=1000")
    page.after("document.getElementById('keep').click(); document.getElementById('control-skip').click()")
    browser.wait("location.hash.includes('kept=') && location.hash.includes('skip=0')", 5)
    page.rest()
    said = "document.getElementById('results').innerText + textOf('comparison')"
    address, wanted = browser.value("location.hash"), browser.value(said)
    page.open_planned(address)
    browser.wait("document.querySelectorAll('#rounds-table-kept-1 tbody tr').length > 0", 20)
    page.becomes(said, wanted, f"another page by its address {address}")
    path = example("guests/mid.light.pcwt")
    page.load(path)
    browser.wait("!location.hash.includes('trace=')", 5)
    address = browser.value("location.hash")
    print_of = hashlib.sha256(read_bytes(path)).hexdigest()[:12]
    expect("mid" not in address and f"of={print_of}" in address, address)
    page.open(address)
    page.load(path)
    page.becomes("document.getElementById('trace-other').hidden", True, "the address is said to be another's")
    page.open(address)
    page.load(example("gzip.pcwt"))
    page.becomes(f"textOf('trace-other').includes('{print_of}')", True, "the trace of the address is not named")
    for kept in (["kept=link%3D66Mbit"], []):
        page.open("&".join(["#link=77Mbit&downtime=70ms", *kept, f"of={print_of}"]))
        for file in (example("gzip.pcwt"), path):
            page.load(file)
            found = page.browser.value(ADDRESSED)
            expect(found == ["77", "70", 2 + len(kept)], f"an address over {os.path.basename(file)}: {found}")
        page.becomes("document.getElementById('trace-other').hidden", True, "the address is of the trace at last")


def check_old_browser(page):
    """If memory of 64-bit addresses is missing, the page says so in a sentence."""
    script = page.browser.call("Page.addScriptToEvaluateOnNewDocument", source="WebAssembly.validate = () => false;")
    page.open()
    page.becomes("textOf('trace-state').includes('64-bit')", True, "an old browser is not told")
    said = page.browser.value("textOf('trace-state')")
    page.browser.call("Page.removeScriptToEvaluateOnNewDocument", identifier=script["identifier"])
    expect(said.endswith("."), said)


def check_stillness(page):
    """Nothing moves by itself if the user wants it so."""
    browser = page.browser
    for is_still in (True, False):
        browser.dress(1400, HEIGHT, is_still=is_still)
        seconds = browser.value("parseFloat(getComputedStyle(document.getElementById('keep')).transitionDuration)")
        expect((seconds == 0) == is_still, f"{seconds} s of a transition, still {is_still}")


def check_licences(page):
    """The notices of the libraries whose code the page holds are at its foot: closed until they are asked for, and not
    on paper."""
    browser = page.browser
    page.open_planned("#trace=sqlite")
    seen = "document.getElementById('notices').checkVisibility({ visibilityProperty: true })"
    expect(not browser.value(seen), "the notices are shown before they are asked for")
    foot = "document.querySelector('footer').lastElementChild.id"
    expect(browser.value(foot) == "licences", f"the last part of the foot is {browser.value(foot)!r}")
    browser.value("document.querySelector('#licences summary').click()")
    expect(browser.value(seen), "the notices are not shown where they are asked for")
    said, wanted = browser.value("textOf('notices')"), notices.notices(notices.PLANNER).strip()
    expect(said == wanted, f"the notices are {said[:300]!r} in place of {wanted[:300]!r}")
    browser.call("Emulation.setEmulatedMedia", media="print")
    is_printed = browser.value(seen)
    browser.call("Emulation.setEmulatedMedia", media="")
    expect(not is_printed, "the notices are printed")


LOOKS = {
    "stillness": check_stillness,
    "the first look": first.check_first_look,
    "the first look at a limit that is missed": first.check_missed,
    "undo and redo": first.check_past,
    "the first look at a trace of one's own": first.check_own_trace,
    "keyboard": check_keyboard,
    "address": check_address,
    "focus": focus.check_focus,
    "keys of the browser": focus.check_commands,
    "fingers": focus.check_fingers,
    "forced colours": focus.check_forced_colours,
    "old browser": check_old_browser,
    "licences": check_licences,
}


def check_looks(tally, page, tried):
    for words, check in LOOKS.items():
        tried(tally, words, check, page)


# ---- Silence.


class Listener(http.server.BaseHTTPRequestHandler):
    """Answers whatever is asked, and keeps it."""

    heard = []

    def do_GET(self):
        Listener.heard.append(self.path)
        self.send_response(204)
        self.end_headers()

    do_POST = do_GET

    def log_message(self, *_):
        pass


# Ways to send something, each as an expression that ends when it was tried.
ATTEMPTS = {
    "fetch": "fetch('URL', { mode: 'no-cors' })",
    "beacon": "Promise.resolve(navigator.sendBeacon('URL', 'trace'))",
    "socket": "new Promise((end) => { new WebSocket('URL'.replace('http', 'ws')).onerror = end; })",
    "image": """new Promise((end) => {
        const image = new Image(); image.onerror = end; image.onload = end; image.src = 'URL'; })""",
    "frame": """new Promise((end) => {
        const frame = document.createElement('iframe'); frame.onload = end; frame.src = 'URL';
        document.body.append(frame); setTimeout(end, 300); })""",
    "form": """new Promise((end) => {
        const form = document.createElement('form'); form.action = 'URL'; form.target = 'other';
        document.body.append(form); form.submit(); setTimeout(end, 300); })""",
    "worker": """new Promise((end) => {
        const code = new Blob([`fetch('URL', { mode: 'no-cors' }).then(() => postMessage(1), () => postMessage(0))`]);
        const worker = new Worker(URL.createObjectURL(code)); worker.onmessage = end; worker.onerror = end; })""",
}


def heard_of(page, url):
    """Tries all ways to send something, and returns those that came through."""
    Listener.heard.clear()
    for name, code in ATTEMPTS.items():
        act = code.replace("'URL", f"'{url}/{name}")
        page.browser.value(
            f"Promise.race([(async () => {act})().catch(() => 0),"
            " new Promise((end) => setTimeout(end, 1000))]).then(() => 0, () => 0)"
        )
    return sorted({path.strip("/") for path in Listener.heard})


def without_policy(path):
    """Writes the same page without its policy, and returns its path."""
    text = read_text(path)
    other = write_file(
        text.replace('http-equiv="Content-Security-Policy"', 'name="policy"'), path.replace(".html", "-open.html")
    )
    return other


def check_silence(tally, page):
    """No request has left the page and none can, and the console is empty."""
    browser = page.browser
    page.open()
    lines = browser.take_lines()
    tally.add(not lines, f"lines of the console: {lines[:3]}")
    asked = [
        event["params"]["request"]["url"] for event in browser.events if event["method"] == "Network.requestWillBeSent"
    ]
    loud = [url for url in asked if not url.startswith(("file:", "blob:", "data:", "about:"))]
    tally.add(asked and not loud, f"requests: {loud}")
    with http.server.ThreadingHTTPServer(("127.0.0.1", 0), Listener) as server:
        threading.Thread(target=server.serve_forever, daemon=True).start()
        url = f"http://127.0.0.1:{server.server_address[1]}"
        heard = heard_of(page, url)
        tally.add(not heard, f"sent from the page: {heard}")
        browser.open_page(f"file://{without_policy(page.path)}")
        browser.wait("document.readyState === 'complete'")
        heard = heard_of(page, url)
        tally.add(len(heard) >= 5, f"without the page's policy only {heard} were sent, so the trial says little")
        server.shutdown()
