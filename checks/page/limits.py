"""What the planner's page offers besides a plan: what is enough for its limit, ways out of a plan that ends after its
trace, and starts."""

import re
from fractions import Fraction

from checks.lib.tally import expect
from checks.page.acts import asked, typed
from checks.page.sure import UNSURE
from checks.view.limit_cases import TIMES

# Settings whose limit is kept, missed, missed by a first round and an increment of their own, missed whatever the link
# and the downtime, and of which nothing is known; with the head of what is enough, and what can be taken.
OTHER = "Enough for the limit: by its plan alone, one of these, changed alone:"
ALSO = "Enough for the limit: these settings. By its plan alone, so is each of these, changed alone:"
LATE = "Enough for the limit: unknown, since the trace ends before the migration does."
ENOUGH = [
    ("trace=sqlite&link=1Gbit&downtime=300ms", ALSO, ["link", "downtime"]),
    ("trace=sqlite&link=64MiB&downtime=10ms&start=1000", ALSO, ["link", "downtime"]),
    ("trace=sqlite&link=64MiB&downtime=10ms&start=1000&clark=1", OTHER, ["link", "downtime"]),
    ("trace=gzip&link=8MiB&downtime=4ms&first=25&start=400", ALSO, ["link", "downtime"]),
    ("trace=gzip&link=2MB&downtime=4ms&first=40&start=400", OTHER, ["link", "downtime"]),
    ("trace=gzip&link=2MB&downtime=4ms&first=40&increase=25&start=400", OTHER, ["link", "downtime"]),
    ("trace=gzip&link=600KB&downtime=1ms&first=40&increase=25&start=400", OTHER, []),
]


def check_limits(page):
    """What is enough for the limit keeps it by its plan, and a click takes it."""
    for fragment, head, names in ENOUGH:
        page.ask(fragment)
        said = page.enough()
        expect(said[0] == head, f"{fragment}: {said}")
        offered = page.browser.value("[...document.querySelectorAll('[data-takes]')].map((each) => each.dataset.takes)")
        expect(offered == names, f"{fragment}: {said} can be taken by {offered}")
        for name in names:
            page.ask(fragment)
            said, before = page.enough(), page.shown()
            found = page.after(f"document.querySelector('[data-takes={name}]').click()")
            is_sure = found["mark"][1] == "Keeps the limit"
            expect((is_sure or found["mark"][1] == "Uncertain") and found != before, f"{said}, {name}: {found['mark']}")
            expect(page.enough()[0] == (ALSO if is_sure else UNSURE), f"{said}, {name}: {page.enough()}")


# Plans that end after their trace, and what leads to one that does not: what keeps the limit, and what ends it within
# the trace.
LATE_PLANS = [
    ("trace=sqlite&link=8Mbit&first=100&downtime=300ms&start=1000", ["link", "ending-link"]),
    ("trace=sqlite&link=64MiB&first=50&start=30000", ["ending-start"]),
    ("trace=gzip&link=8MiB&downtime=4ms&start=999999", ["ending-start"]),
    ("trace=gzip&link=40Kbit&first=100&downtime=4ms", ["ending-link"]),
    # Of the faster links many move more pages in the limit than there may be.
    ("trace=gzip&link=40Kbit&first=100&downtime=60s&reserve=59s", ["link"]),
]


def check_ways(page):
    """Of a plan that ends after the trace, what is offered leads to one that ends within it, of which is said whether
    it keeps its limit; a later start does not."""
    for fragment, names in LATE_PLANS:
        page.ask(fragment)
        said = page.enough()
        offered = page.browser.value("[...document.querySelectorAll('[data-takes]')].map((each) => each.dataset.takes)")
        expect(said[0].startswith(LATE) and offered == names, f"{fragment}: {said} can be taken by {offered}")
        for name in names:
            page.ask(fragment)
            button = f"document.querySelector('[data-takes={name}]')"
            page.enough()
            line = page.browser.value(f"{button}.closest('li').textContent.replace(/ Take it$/, '')")
            found = page.after(f"{button}.click()")
            expect("Unknown" not in found["verdict"] and found["refused"] is None, f"{line}: {found['verdict']}")
            contrary = " is kept, " if line.endswith("the limit is not kept") else " is not kept"
            expect(contrary not in found["verdict"], f"{line}: {found['verdict']}")
            if name == "ending-start":
                last = int(re.search(r"in ([\d.]+)", page.browser.value("textOf('trace-state')"))[1].replace(".", ""))
                start = page.browser.value("ticksOf('start')") + -(-last // 200)
                expect(
                    "Unknown" in typed(page, "start", f"{start} ticks")["verdict"], f"{line}: {start} ends in it too"
                )


def check_late_start(page):
    """Of a start after the last tick of the trace is said that the trace ends before it, and how long it is; a longer
    one is asked for where the trace has the start."""
    last = 2_399
    for start, said, line in (
        (last, "The trace ends before the migration does: record longer.", "The trace ends at the start"),
        (last + 1, "The trace has 2.399 s; it ends before the start.", "The trace ends before the start"),
        (999_999, "The trace has 2.399 s; it ends before the start.", "The trace ends before the start"),
    ):
        verdict = page.ask(f"trace=gzip&link=8MiB&downtime=4ms&start={start}&clark=1")["verdict"].replace("\u00a0", " ")
        expect(said in verdict and f"{line} Unknown" in verdict, f"start {start}: {verdict}")
        note = page.browser.value("textOf('rounds-note')")
        expect(note.startswith(f"{line}. "), f"start {start}: {note}")


def check_doubtful(page):
    """The best start is told with the standard error of its downtime, and that it may miss the limit if it may. Of a
    limit that some start is likely to keep, the best does."""
    for limit, is_doubtful in (("300ms", False), ("2s", False)):
        page.ask(f"trace=sqlite&link=64MiB&first=50&downtime={limit}&start=1000")
        page.click("ask")
        page.browser.wait(
            "!document.getElementById('starts-answer').hidden && "
            "document.getElementById('starts-progress').hidden && isTold('starts-choice')",
            20,
        )
        said = page.browser.value("textOf('starts-choice')").replace("\u00a0", " ")
        found = re.search(r"Best start: .*? downtime ([\d.]+ m?s) \u00b1 ([\d.]+ m?s), kept", said)
        expect(found, f"{limit}: {said}")
        least = micros_in(found[1]) + 2 * micros_in(found[2])
        expect((least > micros_in(limit.replace("ms", " ms") if "ms" in limit else "2 s")) == is_doubtful, said)
        expect(("it may well miss it" in said) == is_doubtful, f"{limit}: {said}")


def micros_in(text):
    """A time of the page as microseconds: with a sign, or `same`."""
    if text == "same":
        return 0
    found = re.fullmatch("([-\u2212+]?)([\\d.,]+) (s|ms|us)", text)
    expect(found, f"{text!r} is no time")
    sign, number, unit = found.groups()
    size = TIMES[unit]
    return round(Fraction(number.replace(",", "")) * size) * (1 if sign in ("", "+") else -1)


def check_saving(page):
    """What the best start saves is the difference of both plans, and a click takes it."""
    before = asked(page, start="20000", first="100")
    page.click("ask")
    page.browser.wait("document.getElementById('saving') !== null", 20)
    said = page.browser.value("textOf('saving')").replace("\u00a0", " ")
    after = page.clicked("take-best")
    for name in ("time", "downtime"):
        told = re.search(rf"(?<!\w){name} (same|\S+ \S?s)[,.]", said)
        expect(told, f"{said}: no {name}")
        wanted = micros_in(after["comparison"][name][0]) - micros_in(before["comparison"][name][0])
        expect(micros_in(told[1]) == wanted, f"{said}: {name} in place of {wanted} us")
    page.becomes("textOf('saving')", "This plan starts there.", "at the best start")
