"""What the planner's page says to be enough for a limit: the amounts that the search found, in few digits, and what a
click takes of them."""

import dataclasses
import math
import re
from fractions import Fraction
from typing import NamedTuple

from checks.lib.amount_texts import moment_text
from checks.lib.view_texts import Failure, parsed, ran, sweep_facts, told
from checks.page.cases import SMALL, micros
from checks.page.sure import UNSURE
from checks.view.limit_cases import RATES, TIMES
from precopy_dev.models.remedies import Ending, Remedies, remedies

UNKNOWN = "Enough for the limit: unknown, since the trace ends before the migration does."
# The page takes smaller amounts than this.
MOST_OF_PAGE = 1 << 53


class Shown(NamedTuple):
    """What the page shows: whether the limit is kept, the amounts that keep it, and whether the migration ends within
    the trace."""

    is_kept: bool
    link: int | None
    downtime: int | None
    speed: int | None
    ends: bool


def remedies_of(asked, first, increment):
    """What keeps the limit by the model, links in bytes a second. `first` and `increment` may be None."""
    trial = dataclasses.replace(asked.question(), first=first, increment=increment).trial()
    found = remedies(asked.known.guest, trial)
    ending = found.ending._replace(link=found.ending.link and found.ending.link * 125)
    return found._replace(link=found.link and found.link * 125, ending=ending)


def amount_in(lines, words, units):
    """The amount of the line that begins with these words, in bytes a second or microseconds."""
    line = next((line for line in lines if line.startswith(words)), None)
    if line is None:
        return None
    count, unit = re.match(r"([\d.]+) (\S+?)(?:/s)?(?:,|$)", line.removeprefix(words)).groups()
    return math.floor(Fraction(count) * units[unit])


def enough_in(lines):
    """What lines of the page say of what is enough for the limit."""
    slowed = [re.fullmatch(r"the guest slowed to (\d+) % of its speed, by a throttle of \d+ %", line) for line in lines]
    speeds = [int(found[1]) for found in slowed if found]
    is_kept = lines[0].startswith("Enough for the limit: these settings.")
    return Shown(
        is_kept,
        amount_in(lines, "link rate ", RATES),
        amount_in(lines, "downtime limit ", TIMES),
        speeds[0] if speeds else None,
        not lines[0].startswith(UNKNOWN),
    )


def enough_of(document):
    """The same by a document of `json predict`, if it has that."""
    told = document and document.get("enough")
    if not told:
        return None
    down = told.get("down_seconds")
    return Remedies(
        told["answer"] == "asked",
        told.get("link_bytes"),
        down if down is None else micros(down),
        told.get("guest_percent"),
        Ending(told["answer"] != "unknown", told.get("ending_link_bytes"), told.get("ending_start")),
    )


def shown_of(found):
    """What the page has to show of what is enough for the limit."""
    return Shown(*found[:4], found.ending.ends)


def check_shown(asked, lines, found):
    """An amount is shown with few digits: it is the next of these above the last that was tried before the one that was
    found, which is told in full. What is less than the link or the downtime that is set is shown to be less."""
    shown, (link, _, downtime, _) = enough_in(lines), asked.limits()
    for some, exact, set_one, grain in (
        (shown.link, found.link, link, RATES["Kbit"]),
        (shown.downtime, found.downtime, downtime, 1),
    ):
        if (
            exact is not None
            and some != exact
            and not (exact - grain < some <= exact + max(1, exact // 100) and (some < set_one) == (exact < set_one))
        ):
            raise Failure(f"{some} is shown for {exact}, where {set_one} is set: {lines}")


# What is enough for those settings of which it was compared.
COMPARED = []


def check_enough(asked, page, found, document, verdicts):
    """Tests what is enough for the limit: beside the model if the trace is small, and beside the program. Where the
    plan keeps the limit, and that is not sure, nothing is."""
    lines, exact = page.enough(), page.exact_enough()
    if lines == [UNSURE]:
        if verdicts.is_good() or (document and document["enough"] != {"answer": "uncertain"}):
            raise Failure(f"enough: {lines} of {verdicts}")
        return
    if document and document["enough"]["answer"] == "uncertain":
        raise Failure(f"enough: {lines} of {verdicts}")
    # What the page shows of the migration was compared with the program's report.
    is_late = found["comparison"]["downtime"][0] == "unknown"
    if lines[0].startswith(UNKNOWN) != is_late:
        raise Failure(f"enough: {lines} of a migration that ends {'late' if is_late else 'within the trace'}")
    shown, wanted = enough_in(exact), [enough_of(document)]
    if asked.known.pages <= SMALL:
        wanted.append(remedies_of(asked, *asked.amounts()))
    wanted = list(filter(None, wanted))
    if any(max(some.link or 0, some.downtime or 0) >= MOST_OF_PAGE for some in wanted or [shown]):
        return
    COMPARED.extend(wanted[:1])
    check_shown(asked, lines, shown)
    for some in wanted:
        if shown != shown_of(some):
            raise Failure(f"enough: {exact} in place of {some}")
        check_ways(asked, lines, some)


# The least link that ends a migration within the trace is shown with few digits, as one that keeps the limit is.
WAY = re.compile(
    r"(with a link of|from a start at) (.*) it ends within the trace, "
    r"and by its plan alone the limit is (not kept|kept)"
)


def ways_in(lines):
    """The link in bytes a second and the start as a text that the page shows to end a migration within the trace, with
    whether the limit is kept then."""
    return {found[1]: (found[2], found[3]) for found in map(WAY.fullmatch, lines) if found}


def check_ways(asked, lines, found):
    """A way out of a migration that ends after the trace is shown if one is found. A link is, unless it keeps the
    limit, as the one that is shown for that does; and a start that is not before the trace was recorded."""
    ways, ending = ways_in(lines), found.ending
    link, start = ways.get("with a link of"), ways.get("from a start at")
    if link:
        shown = amount_in([f"x{link[0]}"], "x", RATES)
        if ending.link is None or not ending.link - RATES["Kbit"] < shown <= ending.link + max(1, ending.link // 100):
            raise Failure(f"{link[0]} is shown for {ending.link} bytes a second: {lines}")
    elif ending.link is not None and found.link is None:
        raise Failure(f"the link of {ending.link} bytes a second is not shown: {lines}")
    if (start and start[0]) != (None if ending.start is None else moment_text(ending.start * asked.tick)):
        raise Failure(f"{start} is shown for the start at tick {ending.start}: {lines}")


# What can be taken, and what the controls say of it: the line of each, and the amount of its control.
OFFERED = """[...document.querySelectorAll("[data-takes]")].map((button) =>
  [button.dataset.takes, button.closest("li").querySelector("b").textContent])"""
CONTROL = """(() => {
  const field = document.getElementById("control-NAME");
  return `${field.value} ${document.querySelector("[data-control=NAME] select").selectedOptions[0].textContent.trim()}`;
})()"""


def planned(asked, precopy, view, found):
    """The stop of the plan that the page's words ask for, and whether that ends with few pages within the trace; None
    if there is no program that tells it."""
    words = found["commands"]["live"].split()
    if not words:
        ran_words = found["predict"].removesuffix(" < TRACE").split()[1:]
        plan = view and parsed("predict", ran(view, ["json", *ran_words], asked.known.path)[1]).get("migration")
        return plan and (plan["why"] == "few", micros(plan["down_seconds"]))
    case = [words[words.index(f"--{option}") + 1] for option in ("min", "max", "inc", "threshold", "rounds")]
    case.append(str(int("--skip" in words)))
    plan = sweep_facts(told(precopy, ["sweep", *asked.place(), ",".join(case)], asked.known.path))["cases"][0]
    return plan["stop"] == "few" and plan["at"] <= asked.known.last, plan["down"] * asked.tick + asked.reserve


def check_taken(asked, page, precopy, view):
    """What a click takes is what is shown, and keeps the limit: so does a plan of the program, and the page says no
    more than that it is uncertain. `view` is the program precopy-view, if it is built."""
    offers = [some for some in page.browser.value(OFFERED) if some[0] in ("link", "downtime")]
    if not offers:
        return
    name, said = offers[asked.start % len(offers)]
    found = page.after(f"document.querySelector('[data-takes={name}]').click()")
    taken, verdict = page.browser.value(CONTROL.replace("NAME", name)), found["verdict"]
    if taken != said or "It does not converge" in verdict or " is not kept" in verdict:
        raise Failure(f"{taken} is taken for the {name} that is shown as {said}: {verdict}")
    limit = amount_in([said], "", TIMES) if name == "downtime" else asked.downtime
    plan = planned(asked, precopy, view, found)
    if view is None and not asked.clark:
        return
    if plan is None or not plan[0] or plan[1] > limit:
        raise Failure(f"{name} {said} is taken, and the plan is {plan}")
