"""The workers of the planner's page, which may end."""

from checks.lib.tally import expect
from checks.page.acts import example_named, typed

# A worker that ends is heard of at once; the next one takes a second, and more on a busy machine.
SECONDS_OF_END = 5


def end_worker(page):
    """Ends the page's worker, and has the page hear of it."""
    page.browser.value("workers.at(-1).terminate(); workers.at(-1).onerror(); 0")


# Takes a stretch of time nearer, which no planner counts any more, and looks at the map that is left.
LOOKED = """(async () => {
  const press = (id, key) => document.getElementById(id).dispatchEvent(
    new KeyboardEvent("keydown", { key, bubbles: true }));
  press("windows-plot", "+");
  await atRest();
  press("map-plot", "Home");
  return textOf("map-readout");
})()"""


def check_worker(page):
    """A worker that ends is started again, whether the page hears of it or not; starts can be cancelled."""
    page.open_planned("#trace=sqlite&link=1Gbit&rounds=30")
    before = page.shown()
    end_worker(page)
    expect(typed(page, "rounds", "7")["refused"] is None, "no plan by another worker")
    expect(typed(page, "rounds", "30") == before, "another plan by another worker")
    page.browser.wait("textOf('trace-state').startsWith('sqlite.light.pcwt: ')", 5)
    page.browser.value("window.isDeadly = true; 0")
    end_worker(page)
    found = typed(page, "rounds", "7")
    expect("the planner ended" in found["verdict"] and found["stale"], f"after three ends: {found['verdict']}")
    said = page.browser.value(LOOKED)
    faults = page.browser.value("faults")
    expect(said.startswith("Window") and not faults, f"after three ends the map says {said!r}: {faults}")
    page.browser.value("window.isDeadly = false; document.getElementById('zoom-out').click()")
    found = page.clicked("try-again")
    expect(found["refused"] is None and not found["stale"], f"tried again: {found['verdict']}")
    expect(typed(page, "rounds", "30") == before, "no plan after three ends")
    page.click("ask")
    expect(page.browser.value("textOf('ask')") == "Cancel", page.browser.value("textOf('ask')"))
    page.click("ask")
    page.browser.wait("textOf('ask').startsWith('Plan ')", 5)
    expect(page.browser.value("document.getElementById('starts-answer').hidden"), "an answer that was cancelled")
    expect(typed(page, "rounds", "30") == before, "no plan after a cancel")


# Has the worker answer the next plan by an error that it does not expect.
FAILS = """(() => {
  const worker = workers.at(-1);
  worker.postMessage = (message) => {
    if (message.name === "predict") {
      delete worker.postMessage;
      setTimeout(() => worker.onmessage({ data: { number: message.number, failed: "Error: no list" } }));
    } else {
      Object.getPrototypeOf(worker).postMessage.call(worker, message);
    }
  };
})()"""


def check_failed(page):
    """An error that the worker does not expect leaves the last plan, grey, says what it was, and can be tried again."""
    page.open_planned("#trace=sqlite&link=1Gbit&rounds=30")
    before = page.shown()
    page.browser.value(FAILS)
    found = typed(page, "rounds", "7")
    said = "No plan: the planner failed. It has a defect: Error: no list"
    expect(said in found["verdict"] and found["stale"], f"after an error: {found['verdict']}")
    page.becomes("textOf('told')", said, "what is announced of an error")
    found = page.clicked("try-again")
    expect(found["refused"] is None and not found["stale"], f"tried again: {found['verdict']}")
    expect(typed(page, "rounds", "30") == before, "no plan after an error")


# Has each worker end from the time on when it has opened another trace; and what is drawn over time then.
ENDS_ONCE_OPEN = """(() => {
  const worker = workers.at(-1);
  const hear = worker.onmessage;
  worker.onmessage = (event) => {
    hear(event);
    if (event.data.value?.digest) { window.isDeadly = true; worker.terminate(); worker.onerror(); }
  };
})()"""
DRAWN = """["windows-plot", "map-plot"].filter((id) => document.querySelector(`#${id} svg`))
  .concat(textOf("map-most") || [], textOf("windows-table") || [])"""


def check_ended_over(page):
    """Over a trace whose planner ends again and again nothing is drawn of the one before; a new try draws this one."""
    page.open_planned("#trace=gzip&link=8MiB&downtime=4ms")
    page.browser.value("document.getElementById('windows-details').open = true")
    page.rest()
    page.browser.value(ENDS_ONCE_OPEN)
    page.drop(example_named("sqlite.pcwt", "guests/sqlite.light.pcwt"))
    page.becomes("textOf('headline').startsWith('No plan: the planner ended.')", True, "after three ends")
    page.rest()
    drawn = page.browser.value(DRAWN)
    expect(not drawn, f"of the trace before are seen {drawn}")
    page.browser.value("window.isDeadly = false")
    page.clicked("try-again")
    page.rest()
    drawn = page.browser.value(DRAWN)
    expect(len(drawn) == 4 and "of 16,294" in f"of {drawn[2].partition('The ')[2]}", f"tried again: {drawn}")


def check_ended_aside(page):
    """What the second worker gave no answer to is not told as if there were none, and is asked with the next plan."""
    page.open_planned("#trace=sqlite&link=64MiB&start=1000")
    page.rest()
    page.browser.value("window.isDeadly = true; aside.terminate(); aside.onerror(); 0")
    typed(page, "link", "100")
    page.rest()
    found = page.browser.value("[textOf('links-readout'), document.getElementById('links').className]")
    sure = page.shown()["sure"]
    expect("No link" not in found[0] and found[1] == "old", f"curves without an answer: {found}")
    expect(sure == "By the plan alone", f"without an answer: {sure!r}")
    page.browser.value("window.isDeadly = false")
    typed(page, "link", "101")
    page.rest()
    found, sure = page.browser.value("document.getElementById('links').className"), page.shown()["sure"]
    expect(found == "" and sure.startswith("Kept: "), f"with a new plan: {found!r}, {sure!r}")


# Has the next workers end themselves when they are told so.
MORTAL = """(() => {
  const Made = Blob;
  const code = "addEventListener('message', (event) => { if (event.data.name === 'end') { close(); } });";
  Blob = function (parts, kind) {
    return new Made(kind?.type === "text/javascript" ? [code, ...parts] : parts, kind);
  };
})()"""
ENDS = {"ends itself": "workers.at(-1).postMessage({ name: 'end' })", "is ended": "workers.at(-1).terminate()"}


def check_ended(page):
    """A worker that ends without a word is replaced at once, also while nothing is asked of it."""
    page.open_planned("#trace=sqlite&link=1Gbit&rounds=30")
    page.browser.value(MORTAL)
    end_worker(page)
    page.browser.wait("workers.length === 2", SECONDS_OF_END)
    before = typed(page, "rounds", "29")
    for number, (words, end) in enumerate(ENDS.items()):
        page.browser.value(end)
        page.browser.value(
            """(() => {
          const field = document.getElementById("control-rounds");
          field.value = "9";
          window.sinceEnd = performance.now();
          field.dispatchEvent(new Event("input"));
        })()"""
        )
        # A clock that ticks in whole milliseconds may say the same of both.
        page.browser.wait("begun >= sinceEnd", SECONDS_OF_END)
        expect(not page.shown()["refused"], f"no plan after a worker {words}")
        expect(page.browser.value("workers.length") == 3 + number, f"no other worker after one {words}")
        expect(typed(page, "rounds", "29") == before, f"another plan after a worker {words}")
