"""What the planner's page shows, in a browser that a check drives."""

import base64
import json
import time

from checks.lib.tally import Failure, Late
from checks.page.browser import NoAnswer

SECONDS_TO_BECOME = 10

# Collects what the page shows, after the next time that it draws.
COLLECTOR = r"""
window.times = [];
window.plans = [];
window.begun = -1;
window.opened = 0;
window.openedAt = -2;
new PerformanceObserver((list) => {
  for (const { name, duration, startTime } of list.getEntries()) {
    if (name === "replan") { times.push(duration); window.begun = startTime; }
    if (name === "plan") { plans.push(duration); }
    if (name === "refused") { window.opened += 1; }
    if (name === "opened") { window.opened += 1; window.openedAt = startTime + duration; }
  }
}).observe({ type: "measure" });
// What the page's own code did not expect.
window.faults = [];
addEventListener("error", ({ message }) => faults.push(message));
addEventListener("unhandledrejection", ({ reason }) => faults.push(String(reason)));
// Whether nothing that is shown is still to come: standard errors, and what is enough for the limit.
window.isTold = (...ids) => ids.every((id) => document.getElementById(id).getAttribute("aria-busy") !== "true");
window.isDrawn = () => begun >= openedAt && isTold("comparison");
// The planner's workers, and that of what takes long; and how long each message to a worker is on its way, in
// milliseconds. They stay in their order.
window.workers = [];
window.delay = 0;
if (typeof Worker === "function") {
  window.Worker = class extends Worker {
    constructor(...words) {
      super(...words);
      if (words[1]?.name === "planner") { workers.push(this); } else { window.aside = this; }
      if (window.isDeadly) { setTimeout(() => { this.terminate(); this.onerror(); }); }
    }
    postMessage(message) {
      if (!this.way && !window.delay) { super.postMessage(message); return; }
      this.way = (this.way ?? Promise.resolve()).then(() => new Promise((resume) => setTimeout(resume, window.delay)))
        .then(() => super.postMessage(message));
    }
  };
}
window.rowsOf = (id) => [...document.querySelectorAll(`#${id} tbody tr`)].map((row) =>
  [...row.children].map((cell) => cell.textContent));
window.notesOf = () => [...document.querySelectorAll("[data-note]")].map((note) => [note.dataset.note,
  note.hidden ? "" : note.textContent]);
window.textOf = (id) => document.getElementById(id).textContent.trim();
window.verdictText = () => `${textOf("verdict")} ${textOf("reason-words")}`;
// How many ticks a control says that shows them as a time.
window.ticksOf = (name) => Number(document.getElementById(`control-${name}`).dataset.ticks);
window.unfold = () => document.querySelectorAll("details").forEach((part) => { part.open = true; });
window.shown = () => {
  const refused = document.querySelector("#verdict .refusal")?.dataset.control ?? null;
  return {
    refused,
    fault: refused && textOf(`control-${refused}-fault`),
    verdict: verdictText().replaceAll("\u00a0", " "),
    mark: (({ className, textContent } = {}) => [className ?? "", textContent ?? ""])(
      document.querySelector("#headline .mark") ?? undefined),
    sure: document.querySelector("#headline .sure")?.textContent ?? "",
    warnings: document.querySelectorAll("#reasons .warnings li").length,
    stale: document.getElementById("rounds").classList.contains("stale") || document.getElementById("rounds").hidden,
    rounds: rowsOf("rounds-table-this"),
    windows: rowsOf("windows-table"),
    comparison: Object.fromEntries([...document.querySelectorAll("#comparison tr")].slice(1).map((row) => {
      const cell = row.children[1];
      return [cell.dataset.name, [cell.querySelector("b").textContent, cell.querySelector("small").textContent]];
    })),
    commands: Object.fromEntries(["live", "qemu", "libvirt"].map((name) => [name, textOf(`command-${name}`)])),
    notes: Object.fromEntries(notesOf()),
    predict: textOf("command-predict"),
  };
};
window.after = async (act) => {
  const since = performance.now();
  await act();
  for (let count = 0; begun < since || !isTold("comparison"); count += 1) {
    if (count > 3000) { throw new Error("nothing was drawn"); }
    await new Promise((resume) => setTimeout(resume, 5));
  }
  return shown();
};
// Whether each picture that is seen is as wide as its place, and whether nothing is drawn anew any more.
window.isFitted = () => [...document.querySelectorAll(".plot")].every((plot) => {
  const picture = plot.querySelector("svg");
  return !picture || !plot.offsetParent || Math.abs(Number(picture.getAttribute("width")) - plot.clientWidth) < 1;
});
window.atRest = async () => {
  const isAtRest = () => isFitted() && isTold("comparison", "like-qemu", "limits-answer", "links", "map");
  for (let count = 0, since = null; since !== begun || !isAtRest(); count += 1) {
    if (count > 200) { throw new Error("the page does not come to rest"); }
    since = begun;
    await new Promise((resume) => setTimeout(resume, 150));
    await new Promise(requestAnimationFrame);
  }
};
window.afterAsking = (hash) => after(() => {
  history.replaceState(null, "", location.pathname + "#");
  location.hash = hash;
});
window.drop = (files) => {
  const holder = new DataTransfer();
  for (const [name, text] of files) {
    const bytes = Uint8Array.from(atob(text), (letter) => letter.charCodeAt(0));
    holder.items.add(new File([bytes], name));
  }
  document.body.dispatchEvent(new DragEvent("drop", { dataTransfer: holder, bubbles: true, cancelable: true }));
};
"""


class Page:
    """The page in a browser, and what it shows."""

    def __init__(self, browser, path):
        self.browser, self.path = browser, path

    def open(self, fragment=""):
        """Opens the page anew, and waits for the trace of the address, if there is one."""
        self.browser.open_page(f"file://{self.path}{fragment}")
        self.browser.wait("document.readyState === 'complete' && typeof times === 'object'")

    def wait_for_plan(self):
        """Waits for the plan over the trace that the page opens by itself."""
        self.browser.wait(
            "document.querySelectorAll('#rounds-table-this tbody tr').length > 0 && opened > 0 && isDrawn()", 20
        )

    def wait_for_answer(self):
        """Waits for the plan over the trace that is open, or for its refusal."""
        self.browser.wait("opened > 0 && isDrawn() && textOf('verdict') !== ''", 20)

    def open_planned(self, fragment=""):
        """Opens the page anew, and waits for the plan over the trace that it opens by itself."""
        self.open(fragment)
        self.wait_for_plan()

    def load(self, *paths):
        """Chooses files, and returns what is said of them, once the page has drawn them if they were taken."""
        before = self.browser.value("opened")
        self.browser.choose("#file", paths)
        self.browser.wait(f"opened > {before} && isDrawn()", 120)
        return self.browser.value("textOf('trace-notes') + ' | ' + textOf('trace-state')")

    def let_fall(self, *files):
        """Drops files, given by name and bytes, and waits for nothing."""
        texts = json.dumps([[name, base64.b64encode(text).decode()] for name, text in files])
        self.browser.value(f"drop({texts})")

    def drop(self, *files):
        """Drops files, given by name and bytes, and returns what is said of them."""
        before = self.browser.value("opened")
        self.let_fall(*files)
        self.browser.wait(f"opened > {before} && isDrawn()", 20)
        return self.browser.value("textOf('trace-notes') + ' | ' + textOf('trace-state')")

    def ask(self, fragment):
        """Asks for settings by the address, and returns what the page shows then."""
        return self.browser.value(f"afterAsking({json.dumps(f'#{fragment}')})")

    def after(self, act):
        """Does something in the page, and returns what it shows once it has drawn that."""
        return self.browser.value(f"after(() => {{ {act} }})")

    def click(self, name):
        """Presses a button by its id, and waits for nothing."""
        self.browser.value(f"document.getElementById('{name}').click()")

    def clicked(self, name):
        """Presses a button by its id, and returns what the page shows once it has drawn that."""
        return self.after(f"document.getElementById('{name}').click()")

    def press_in(self, plot, *keys):
        """Presses keys in a picture by its id, and returns what the page shows once it has drawn that."""
        return self.after(
            f"const plot = document.getElementById('{plot}'); plot.focus();"
            f"for (const key of {json.dumps(keys)}) {{"
            "plot.dispatchEvent(new KeyboardEvent('keydown', { key, bubbles: true })); }"
        )

    def with_unit(self, name, unit):
        """Chooses another unit of a control, and returns what the page shows once it has drawn that."""
        return self.after(
            f"const unit = document.querySelector('[data-control={name}] select');"
            f"unit.value = '{unit}'; unit.dispatchEvent(new Event('change'))"
        )

    def shown(self):
        return self.browser.value("shown()")

    def enough(self):
        """What is said to be enough for the limit, a line each, once it is there."""
        self.browser.wait('isTold("limits-answer")', 60)
        return self.browser.value(
            "[...document.querySelectorAll('#limits-answer p, #limits-answer li')]"
            ".map((line) => line.textContent.replace(/ Take it$/, ''))"
        )

    def exact_enough(self):
        """The same with all digits, which the title of a rounded amount has."""
        return self.browser.value(
            """[...document.querySelectorAll("#limits-answer :is(p, li)")].map((line) => {
          const copy = line.cloneNode(true);
          copy.querySelectorAll("b[title]").forEach((amount) => {
            amount.textContent = amount.title.replace("The search found ", "");
          });
          return copy.textContent.replace(/ Take it$/, "");
        })"""
        )

    def rest(self):
        """Waits until the page draws nothing anew, and its pictures are as wide as their places."""
        self.browser.value("atRest()")

    def becomes(self, expression, wanted, told, seconds=SECONDS_TO_BECOME):
        """Waits until an expression has a value. If it has another all that time, that is a failure."""
        until = time.monotonic() + seconds
        while (found := self.browser.value(expression)) != wanted:
            if time.monotonic() > until:
                raise Late(f"{told}: {found!r} in place of {wanted!r}")
            time.sleep(0.05)


def require_silent(words):
    """Fails if the console of the page that a trial is about has got a line."""
    lines = [line for page in words if isinstance(page, Page) for line in page.browser.take_lines()]
    if lines:
        raise Failure(f"{len(lines)} lines of the console: {lines[:3]}")


def tried(tally, told_of, act, *words):
    """A case that fails by an exception, or by a line of the console. If the browser does not answer, it is begun once
    more, and that is told."""
    with tally.case(told_of) as case:
        try:
            act(*words)
        except NoAnswer as error:
            act(*words)
            tally.flaky.append(told_of)
            print(f"  FLAKY {told_of}: {error}; it was begun once more, and passed", flush=True)
        require_silent(words)
        case.add(True, told_of)
