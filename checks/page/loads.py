"""The planner's page over traces as large as may be: how long a change takes, whether its own thread stays free, and
how much memory it has."""

import os
import random
import statistics
import time

from checks.lib.tally import Failure, Late
from checks.lib.traces import MOST_BYTES, header, record
from checks.page.acts import plan_starts, typed
from checks.page.shown import tried

# A change takes 20 ms on a quiet machine, and twice that on a busy one; with plans over the trace's bytes it was 137.
MOST_MILLIS, MOST_TASK_MILLIS, MOST_CANCEL_SECONDS = 60, 50, 1
# With 2,000 looks, which are more than any plan that converges has, the page's thread has 2,000 lists to draw.
MOST_MANY_MILLIS = 300
# A zoom of the map takes 100 ms on a quiet machine, and it is there no later after a plan.
MOST_MAP_MILLIS = 300
# A loop of the page's thread that takes less of a processor's time than these milliseconds on the machine that the
# limits above are for. On a slower one they are as much longer, but no more than so many times.
LOOP_MILLIS, MOST_SLOWER = 250, 3
LOOP = """(() => {
  let at = 1;
  for (let number = 0; number < 2e7; number += 1) at = (at * 16807) % 2147483647;
  return at;
})()"""
# By how many times a plan may take longer if each write has more bytes, and the bytes of each.
MOST_TIMES, LENGTHS = 2, (1, 236)
# What a trace that is read may add to the memory of the browser.
MOST_MEMORY = 160 << 20
# How long the browser may take to give back what it does not use any more.
SECONDS_TO_COLLECT = 20

# Moves the slider of the link, so many times, each time after the page has drawn.
CHANGES = """
(async () => {
  times.length = 0;
  plans.length = 0;
  const slider = document.getElementById("control-link").closest(".control").querySelector("[type=range]");
  for (let number = 0; number < COUNT; number += 1) {
    const before = times.length;
    slider.value = Number(slider.value) + (number % 3 === 0 ? -1 : 1);
    slider.dispatchEvent(new Event("input"));
    while (times.length === before) { await new Promise((resume) => setTimeout(resume, 5)); }
  }
})()
"""
# Settings by rounds, by looks, and such that a hypervisor looks as often as it may.
SETTINGS = "link=10Gbit&first=50&downtime=50ms&window=500"
LOOKED = "link=10Gbit&downtime=50ms&window=500&clark=0"
MANY_LOOKS = "link=10Gbit&downtime=1us&window=500&clark=0"

# Changes the most rounds, and tells after how many milliseconds the plan is drawn, the errors and how sure the
# verdict is, and what is enough for the limit; and whether the errors were still to come when the plan was drawn.
LATE = """
(async () => {
  const since = performance.now();
  const field = document.getElementById("control-rounds");
  field.value = "29";
  field.dispatchEvent(new Event("input"));
  const until = async (holds) => {
    while (!holds()) { await new Promise((resume) => setTimeout(resume, 1)); }
    return performance.now() - since;
  };
  const planned = await until(() => begun >= since);
  const isBefore = !isTold("comparison");
  return [planned, await until(() => isTold("comparison")), await until(() => isTold("limits-answer")), isBefore];
})()
"""


# ---- Traces that are made.


def write_long(path):
    """A trace of exactly `2^28` bytes: writes of whole pages."""
    pages, length = 65_536, 4096
    count = (MOST_BYTES - 16) // (16 + length)
    rest = MOST_BYTES - 16 - count * (16 + length) - 16
    with open(path, "wb") as file:
        file.write(header(pages, count + 1, 12))
        for number in range(count):
            file.write(record(2 * number, number * 7919 % pages, 0, bytes(length)))
        file.write(record(2 * count, 0, 0, bytes(rest)))


def write_full(path, in_a_tick, length):
    """A trace with as many writes as there may be: a hot set and a rest, over all pages."""
    draw, count = random.Random(20), 1 << 20
    data = bytes(length)
    with open(path, "wb") as file:
        file.write(header(65_536, count, 12))
        for number in range(count):
            page = draw.randrange(2_000) if number % 5 else draw.randrange(65_536)
            file.write(record(number // in_a_tick, page, 0, data))


# ---- What a thread does, and what a browser holds.


def processor_millis(page):
    """How long the page's thread has worked, by a clock that stops while others have the processor."""
    metrics = page.browser.call("Performance.getMetrics")["metrics"]
    return 1_000 * next(metric["value"] for metric in metrics if metric["name"] == "TaskDuration")


def slower(page):
    """How many times longer this machine may take than the limits say."""
    if not hasattr(page, "slower"):
        page.browser.call("Performance.enable", timeDomain="threadTicks")
        took = []
        for _ in range(3):
            before = processor_millis(page)
            page.browser.value(LOOP)
            took.append(processor_millis(page) - before)
        page.slower = min(max(1.0, min(took) / LOOP_MILLIS), MOST_SLOWER)
        print(f"  a loop takes {min(took):.0f} ms, so that the limits are {page.slower:.1f} times as long")
    return page.slower


def require_free(page, words, act):
    """Does something, and fails if one task of the page's own thread works long meanwhile. On a busy machine the same
    work takes more of a processor's time, so what was long is done up to twice more."""
    longest, most = page.browser.longest_task(act), MOST_TASK_MILLIS * slower(page)
    for _ in range(2):
        if longest > most:
            longest = min(longest, page.browser.longest_task(act))
    print(f"  {words}: the longest task of the page's thread works for {longest:.0f} ms")
    if longest > most:
        raise Late(f"{words}: a task works for {longest:.0f} ms")


def cancel_starts(page):
    """Begins to plan starts, and cancels that. Returns in how many seconds the page can be asked again."""
    return page.browser.value(
        """(async () => {
      const button = document.getElementById("ask");
      button.click();
      const progress = document.getElementById("starts-progress");
      while (!progress.value) { await new Promise((resume) => setTimeout(resume, 5)); }
      const since = performance.now();
      button.click();
      document.getElementById("control-rounds").value = "7";
      document.getElementById("control-rounds").dispatchEvent(new Event("input"));
      while (begun < since) { await new Promise((resume) => setTimeout(resume, 5)); }
      return (performance.now() - since) / 1000;
    })()"""
    )


# ---- The trials.


def opened(page, path):
    """Opens a trace, and returns what is said of it and how many bytes of memory the browser has more, once it is
    used."""
    said, before = [], page.browser.memory()
    require_free(page, "reading", lambda: said.append(page.load(path)))
    return said[0], lambda: memory_since(page, before)


def memory_since(page, before):
    """How many bytes the browser has more than before, once it has had time to collect its garbage if they are many."""
    until = time.monotonic() + SECONDS_TO_COLLECT
    while (more := page.browser.memory() - before) > MOST_MEMORY and time.monotonic() < until:
        time.sleep(0.5)
    return more


def check_speed(page, folder):
    """Changes, starts and a cancel over as many writes as there may be; with more bytes in each they take no longer."""
    require_free(page, "opening, with the first example", lambda: (page.open(), page.wait_for_plan()))
    middles = [speed_over(page, folder, length) for length in LENGTHS]
    if middles[1] > MOST_TIMES * middles[0]:
        raise Late(f"a plan takes {middles[0]:.1f} ms, and over more bytes {middles[1]:.1f}")


def speed_over(page, folder, length):
    """The time of a plan over 2^20 writes of some length, in milliseconds. On a busy machine the page's thread waits
    for a processor, so its own time is taken too."""
    path = os.path.join(folder, "full.pcwt")
    write_full(path, 32, length)
    print(f"2^20 writes in {os.path.getsize(path) / 1e6:.0f} MB:")
    page.open_planned()
    said, more_memory = opened(page, path)
    if "1,048,576 writes" not in said:
        raise Failure(said)
    page.browser.call("Performance.enable", timeDomain="threadTicks")
    plan_over(page, "with many looks", MANY_LOOKS, MOST_MANY_MILLIS, count=9)
    for words, settings in (("by looks", LOOKED), ("by rounds", SETTINGS)):
        plan = plan_over(page, words, settings, MOST_MILLIS)
    check_map(page)
    seconds = cancel_starts(page)
    print(f"  after a cancel the next plan takes {seconds:.2f} s")
    if seconds > MOST_CANCEL_SECONDS * slower(page):
        raise Late(f"after a cancel the next plan takes {seconds:.2f} s")
    tell_starts(page, more_memory)
    return plan


def changes(page, count):
    return page.browser.value(CHANGES.replace("COUNT", str(count)))


def plan_over(page, words, settings, most, count=60):
    """The time of a plan of some settings over the trace that is open, in milliseconds, of which a change takes so many
    at most."""
    page.ask(settings)
    before = processor_millis(page)
    require_free(page, f"{count} changes {words}", lambda: changes(page, count))
    times, plans = page.browser.value("times"), page.browser.value("plans")
    each = (processor_millis(page) - before) / len(times)
    middle, plan = statistics.median(times), statistics.median(plans)
    print(
        f"  a change {words} takes {middle:.1f} ms in the middle, {plan:.1f} of it for the plan, {max(times):.1f} at "
        f"most, and {each:.1f} ms of the page's thread"
    )
    if min(middle, each) > most * slower(page):
        raise Late(f"a change {words} takes {middle:.1f} ms, and {each:.1f} ms of a processor")
    return plan


def check_late(page, folder):
    """Plans of a sample as large as may be do not wait for what takes long: that comes later, for the last of them."""
    path = os.path.join(folder, "full.pcwt")
    write_full(path, 32, 1)
    page.open_planned()
    _, more_memory = opened(page, path)
    page.ask(f"{SETTINGS}&sample=65536/1000000")
    require_free(page, "60 changes over a sample", lambda: changes(page, 60))
    middle = statistics.median(page.browser.value("times"))
    page.rest()
    planned, errors, enough, is_before = page.browser.value(LATE)
    print(
        f"  a change takes {middle:.1f} ms in the middle; after one the plan is drawn in {planned:.0f} ms, its "
        f"errors and how sure it is in {errors:.0f} ms, and what is enough in {enough:.0f} ms; "
        f"{more_memory() / 1e6:.0f} MB"
    )
    if not is_before or "\u00b1 " not in page.shown()["comparison"]["time"][1]:
        raise Failure("the plan waits for its errors, or has none")
    if more_memory() > MOST_MEMORY:
        raise Failure(f"{more_memory():,} bytes more than without the trace")


# Has the map of pages drawn anew, with the rounds on it, by pressing a button or by another plan, and tells after how
# many milliseconds it is there.
ZOOM = """(async () => {
  const plot = document.getElementById("map-plot");
  const since = performance.now();
  const before = plot.querySelector("svg");
  document.getElementById("NAME").click();
  while (plot.querySelector("svg") === before || !isTold("map")) {
    await new Promise((resume) => setTimeout(resume, 1));
  }
  return performance.now() - since;
})()"""
PLAN = """(async () => {
  const field = document.getElementById("control-rounds");
  const since = performance.now();
  const before = document.querySelector("#map-plot .edge");
  field.value = "NUMBER";
  field.dispatchEvent(new Event("input"));
  while (begun < since || !isTold("map") || document.querySelector("#map-plot .edge") === before) {
    await new Promise((resume) => setTimeout(resume, 1));
  }
  const [{ startTime, duration }] = performance.getEntriesByName("plan");
  return performance.now() - (startTime + duration);
})()"""


def check_map(page):
    """The map of pages is there soon after a zoom and after a plan, with the rounds on it; no task of the page's own
    thread takes long."""
    page.rest()
    zooms, plans = [], []
    for name in ("zoom-plan", "zoom-out") * 3:
        require_free(page, f"the map by {name}", lambda: zooms.append(page.browser.value(ZOOM.replace("NAME", name))))
    for number in (9, 8, 7, 6, 5):
        script = PLAN.replace("NUMBER", str(number))
        require_free(page, "the map after a plan", lambda: plans.append(page.browser.value(script)))
        page.rest()
    for words, times in (("a zoom", zooms), ("a plan", plans)):
        print(f"  the map is there {statistics.median(times):.0f} ms after {words}, {max(times):.0f} at most")
        # On a busy machine most of them wait for a processor.
        if min(times) > MOST_MAP_MILLIS * slower(page):
            raise Late(f"after {words} the map is there in {times} ms")


def tell_starts(page, more_memory):
    begun = page.browser.value("performance.now()")
    require_free(page, "all starts", lambda: plan_starts(page, 120))
    seconds, memory = (page.browser.value("performance.now()") - begun) / 1_000, more_memory()
    print(f"  all starts take {seconds:.1f} s; the browser has {memory / 1e6:.0f} MB more than before")
    if memory > MOST_MEMORY:
        raise Failure(f"{memory:,} bytes more than without the trace")


def check_long(page, folder):
    """A trace as long as may be is planned or refused; one byte more is refused."""
    path = os.path.join(folder, "long.pcwt")
    write_long(path)
    page.open("#link=64MiB&first=100&downtime=300ms&window=1000")
    said, more_memory = opened(page, path)
    print(f"a trace of 2^28 bytes: {said}")
    if page.browser.value("document.body.classList.contains('loaded')"):
        if "65,280 writes" not in said and "65,281 writes" not in said:
            raise Failure(said)
        page.wait_for_plan()
        require_free(page, "60 changes", lambda: changes(page, 60))
        print(f"  a plan takes {statistics.median(page.browser.value('plans')):.1f} ms in the middle")
        tell_starts(page, more_memory)
    elif "E16" not in said:
        raise Failure(said)
    with open(path, "ab") as file:
        file.write(b"\0")
    said = page.load(path)
    os.unlink(path)
    if "is refused: E15 " not in said:
        raise Failure(said)


def check_many_windows(page, folder):
    """A window for each of 2^20 writes: the picture has a bar for each pixel, and the file a line for each window."""
    path = os.path.join(folder, "apart.pcwt")
    write_full(path, 1, 1)
    page.open_planned()
    page.load(path)
    require_free(page, "2^20 windows", lambda: (typed(page, "window", "2 ticks"), typed(page, "window", "1 tick")))
    bars, room = page.browser.value(
        """(() => {
      const lefts = [...document.querySelectorAll("#windows-plot path")].flatMap((path) =>
        [...path.getAttribute("d").matchAll(/M([\\d.]+) /g)].map(([, left]) => Math.floor(left)));
      return [new Set(lefts).size, document.querySelector("#windows-plot svg").clientWidth - 80];
    })()"""
    )
    if not 0.9 * room < bars <= room + 1:
        raise Failure(f"{bars} bars in {room} pixels for 2^20 windows")
    require_free(
        page,
        "their table",
        lambda: page.browser.value(
            "document.getElementById('windows-details').open = true; new Promise((resume) => setTimeout(resume, 300))"
        ),
    )
    require_free(
        page,
        "2^20 windows and their table",
        lambda: (typed(page, "window", "2 ticks"), typed(page, "window", "1 tick")),
    )
    page.browser.value("document.getElementById('windows-details').open = false")
    require_free(page, "2^20 windows, taken nearer", lambda: page.click("zoom-plan"))
    require_free(
        page,
        "2^20 windows as CSV",
        lambda: page.browser.value(
            """(async () => {
      const made = URL.createObjectURL;
      HTMLAnchorElement.prototype.click = () => {};
      const saved = new Promise((resolve) => {
        URL.createObjectURL = (blob) => { resolve(blob); return made.call(URL, blob); };
      });
      [...document.querySelectorAll("#windows .saves button")].at(-1).click();
      window.saved = await saved;
    })()"""
        ),
    )
    lines = page.browser.value("saved.text().then((text) => text.split('\\n').length)")
    if lines != (1 << 20) + 2:
        raise Failure(f"the file of 2^20 windows has {lines:,} lines")


def check_loads(tally, page, folder):
    for words, check in (
        ("2^20 writes", check_speed),
        ("what takes long", check_late),
        ("2^20 windows", check_many_windows),
        ("a trace of 2^28 bytes", check_long),
    ):
        tried(tally, words, check, page, folder)
