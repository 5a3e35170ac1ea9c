"""The best and the worst start that the planner's page shows, beside what the programs tell of them."""

import copy
import functools
import json
import os
import re

from checks.lib.amount_texts import error_text, moment_text, size_text, time_text
from checks.lib.tally import left_out
from checks.lib.view_texts import Failure, ran, sweep_facts, told
from checks.page import cases
from checks.page.acts import plan_starts
from checks.view.limit_cases import Known
from precopy_dev.tree import TOP

VIEW = os.path.join(TOP, "crates", "precopy_view", "out", "precopy_view")
WHEN = "textOf('command-when')"
# The standard error of a start's downtime.
ERROR = re.compile(" \u00b1 ([^,]+)")
# What is said of the best start and of the worst.
CHOSEN = """[...document.querySelectorAll("#starts-choice p:not(#saving, .hint)")]
  .map((line) => line.textContent.replaceAll("\\u00a0", " "))"""


@functools.cache
def has_view():
    is_built = os.access(VIEW, os.X_OK)
    if not is_built:
        left_out("the page's words for precopy-view", f"{VIEW} is not built")
    return is_built


def start_prices(asked, line, start):
    """What a migration from a start costs: its price with its standard errors, that without, and what it comes to. The
    errors of a large sample are unknown here."""
    time, down, sent = cases.price(asked, start, line)
    place = copy.copy(asked)
    place.start = start
    drawn = cases.drawn_errors(place) if asked.known.pages <= cases.SMALL else None
    likely = down + (2 * drawn[2] if drawn else 0)
    prices = [(some if some > asked.downtime else 0, sent, time) for some in (likely, down)]
    return *prices, (time, sent, down, down <= asked.downtime)


def start_ticks(asked, last):
    """The starts that the page plans: from tick 0 on, or from a step after the copy."""
    first = 0 if asked.base is None else asked.base + max(1, -(-(max(asked.base, last) - asked.base) // 200))
    every = max(1, -(-(max(first, last) - first) // 200))
    return range(first, max(first, last) + 1, every)


def check_looked_starts(page, name, draw):
    """Compares the best and the worst start by looks with those of `precopy-view when`."""
    if not has_view():
        return
    known = Known(cases.example(name))
    made = iter(lambda: cases.Asked(draw, known), None)
    asked = next(some for some in made if not (some.clark or some.refusal()))
    page.load(known.path)
    page.ask(asked.fragment())
    plan_starts(page)
    page.browser.wait("isTold('starts-choice')")
    found, document = page.browser.value(CHOSEN), told_when(page, known.path)
    if len(document["starts"]) != len(start_ticks(asked, known.last)):
        raise Failure(f"{page.browser.value(WHEN)}: {len(document['starts'])} starts")
    chosen = [document[which] for which in ("best", "worst") if which in document]
    wanted = [f"{title} start: {looked_start(asked, at)}" for title, at in zip(("Best", "Worst"), chosen)]
    if len({at["start"] for at in chosen}) == 1:
        wanted = [f"Each start whose migration ends within the trace: {looked_start(asked, chosen[0]).split(': ')[1]}"]
    if [ERROR.sub("", line) for line in found] != (wanted or ["No migration ends within the trace: record longer."]):
        raise Failure(f"{found} in place of {wanted}")


def looked_start(asked, at):
    """A start of a document of `json when`, and what the migration costs from there."""
    time, down = (time_text(cases.micros(at[name])) for name in ("time_seconds", "down_seconds"))
    kept = "kept" if at["kept"] == "yes" else "not kept"
    place = moment_text(at["start"] * asked.tick) + (f", tick {at['start']:,}" if asked.ticks else "")
    return f"{place}: time {time}, sent {size_text(at['sent_bytes'])}, downtime {down}, {kept}"


def check_starts(page, precopy, name, draw):
    """Compares the best and the worst start with those of the lines of `precopy sweep`, and of `precopy-view when`."""
    known = Known(cases.example(name))
    made = iter(lambda: cases.Asked(draw, known), None)
    asked = next(some for some in made if some.clark and not some.refusal())
    page.load(known.path)
    page.ask(asked.fragment())
    ticks = start_ticks(asked, known.last)
    words = page.browser.value("textOf('ask')")
    plan_starts(page)
    page.browser.wait("isTold('starts-choice')")
    found = page.browser.value(CHOSEN)
    costs = []
    for start in ticks:
        base = [] if asked.base is None else [f"--base={asked.base}"]
        line = sweep_facts(told(precopy, ["sweep", f"--start={start}", *base, asked.case()], known.path))["cases"][0]
        if line["at"] <= known.last:
            costs.append((*start_prices(asked, line, start), start))
    wanted, chosen = [], []
    best, worst = (lambda cost: cost[0]), (lambda cost: cost[1])
    if costs and 2 <= asked.sampled < asked.guest and known.pages > cases.SMALL:
        # No model counts the errors of a large sample: the program tells which start is the best with them.
        first = told_when(page, known.path)["best"]["start"]
        best = lambda cost: cost[3] != first  # noqa: E731
    for title, choice, price in (("Best", min, best), ("Worst", max, worst)) if costs else ():
        _, _, (time, sent, down, is_kept), start = choice(costs, key=price)
        chosen.append(start)
        cost = (
            f"time {time_text(time)}, sent {size_text(sent)}, "
            f"downtime {time_text(down)}, {'kept' if is_kept else 'not kept'}"
        )
        place = moment_text(start * asked.tick) + (f", tick {start:,}" if asked.ticks else "")
        wanted.append(f"{title} start: {place}: {cost}")
    if len(set(chosen)) == 1:
        wanted = [f"Each start whose migration ends within the trace: {cost}"]
    if [ERROR.sub("", line) for line in found] != (wanted or ["No migration ends within the trace: record longer."]):
        raise Failure(f"{found} in place of {wanted}")
    check_errors(asked, known, found, chosen)
    if words != f"Plan {cases.plural(len(ticks), 'start')}":
        raise Failure(f"{words!r} for {len(ticks)} starts")
    if has_view():
        check_when(page, known.path, len(ticks), chosen)


def told_when(page, path):
    """The document of `json when` by the words that the page gives for `precopy-view when`."""
    words = page.browser.value(WHEN)
    _, text, faults = ran(VIEW, ["json", *words.removesuffix(" < TRACE").split()[1:]], path)
    if faults:
        raise Failure(f"{words}: {faults}")
    return json.loads(text)


def check_errors(asked, known, found, chosen):
    """The best and the worst start of a small sample have the standard errors of their downtimes."""
    if known.pages > cases.SMALL:
        return
    for line, start in zip(found, chosen):
        place = copy.copy(asked)
        place.start = start
        drawn, said = cases.drawn_errors(place), ERROR.search(line)
        if (said and said[1]) != (drawn and error_text(drawn[2])):
            raise Failure(f"{line}: the errors are {drawn}")


def check_when(page, path, count, chosen):
    """The words that the page gives for `precopy-view when` ask for the same starts."""
    found = told_when(page, path)
    starts = [found[name]["start"] for name in ("best", "worst") if name in found]
    if (len(found["starts"]), starts) != (count, chosen):
        words = page.browser.value(WHEN)
        raise Failure(f"{words}: {len(found['starts'])} starts, {starts} in place of {count}, {chosen}")
