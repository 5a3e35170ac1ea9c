"""What the planner's page shows of a trace that was open before another one: nothing that seems to be of this."""

from checks.lib.tally import expect

BEFORE = "#trace=sqlite&link=64MiB&first=50&downtime=300ms&start=1000&window=500"
# The example of gzip with settings that make no plan, by the control that is refused.
REFUSED = {"reserve": "downtime=4ms&reserve=5s", "window": "downtime=4ms&window=0"}
# What is of a plan: the bar of its limit, the curves over links, and the commands; and the last label of the axes of
# the working set and of the map, in seconds.
SEEN = """(() => {
  const isBelow = (text) => Number(text.getAttribute("x")) >= 68 && Number(text.getAttribute("y")) > 180;
  const lastOf = (id) => Math.max(...[...document.querySelectorAll(`#${id} text.middle:not(.title), #${id} text.end`)]
    .filter(isBelow).map((text) => parseFloat(text.textContent)));
  const unitOf = (id) => document.querySelector(`#${id} text.middle.title`).textContent.split(", ")[1];
  return {
    bar: document.getElementById("limit-bar").checkVisibility(),
    links: document.querySelectorAll("#links-plot svg").length,
    commands: [...document.querySelectorAll(".command pre:not(#address)")].filter((each) => each.textContent)
      .map(({ id }) => id),
    axes: ["windows-plot", "map-plot"].map((id) => lastOf(id) / (unitOf(id) === "ms" ? 1_000 : 1)),
  };
})()"""
# How long the trace of gzip is, in seconds.
LENGTH = 2.4


def check_another(page):
    """Over a trace whose settings make no plan nothing is seen of the plan over the trace before, and its pictures are
    of its own time."""
    for control, settings in REFUSED.items():
        page.open_planned(BEFORE)
        page.rest()
        before = page.browser.value(SEEN)
        expect(before["bar"] and before["links"] and before["commands"] and min(before["axes"]) > 30, f"{before}")
        found = page.ask(f"trace=gzip&link=8MiB&first=100&start=400&{settings}")
        page.rest()
        expect(found["refused"] == control, f"{settings}: {found['refused']} is refused")
        seen = page.browser.value(SEEN)
        left = [name for name in ("bar", "links", "commands") if seen[name]]
        expect(not left, f"{settings}: of the plan over the trace before are left {left}: {seen}")
        expect(max(seen["axes"]) <= LENGTH, f"{settings}: pictures of {LENGTH} s reach {seen['axes']} s")
        found = page.ask("trace=gzip&link=8MiB&downtime=4ms&first=100&start=400")
        page.rest()
        seen = page.browser.value(SEEN)
        expect(not found["stale"] and seen["bar"] and seen["links"] and seen["commands"], f"a plan again: {seen}")
