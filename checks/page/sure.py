"""How sure the verdicts are that the planner's page shows: as `precopy-view predict` tells it, and in its words."""

from typing import NamedTuple

from checks.lib.amount_texts import time_text
from checks.lib.migration_model import STATUSES
from checks.lib.tally import expect
from checks.lib.view_texts import Failure
from precopy_dev.models import agreements


class Counts(NamedTuple):
    """How many redraws or starts there are, how many of them converge, and how many keep the limit."""

    whole: int
    converging: int
    kept: int


class Sure(NamedTuple):
    """Verdicts, and the counts that say how sure they are; of redraws only if pages were sampled."""

    converges: str
    kept: str
    redraws: Counts | None
    starts: Counts

    def is_good(self):
        return self.converges == self.kept == "yes"

    def words(self, name):
        """In how many redraws and from how many starts it converges, by `converging`, or is kept, by `kept`."""
        redraws = f"in {getattr(self.redraws, name)} of {self.redraws.whole} redraws and " if self.redraws else ""
        return f"{redraws}from {getattr(self.starts, name)} of {self.starts.whole} starts"

    def brief(self, name):
        redraws = f"{getattr(self.redraws, name)}/{self.redraws.whole} redraws, " if self.redraws else ""
        return f"{redraws}{getattr(self.starts, name)}/{self.starts.whole} starts"

    def answer(self, name):
        verdict = self.kept if name == "kept" else self.converges
        return f"{'kept' if name == 'kept' else 'converges'}: {verdict}, {self.words(name)}"


def modelled(guest, trial):
    """How sure verdicts are by the model."""
    found = agreements.agreement(guest, trial)
    redraws, starts = (each and Counts(each.whole, each.converging, each.kept) for each in found)
    return Sure(agreements.converges(guest, trial, found), agreements.kept(guest, trial, found), redraws, starts)


def sure_of(asked, document):
    """How sure the verdicts on settings are, by the program's document if there is one, else by the model."""
    if document is None:
        return modelled(asked.known.guest, asked.question().trial())
    redraws, starts = document.get("redraws"), document.get("starts", {"known": 0, "converging": 0, "kept": 0})
    drawn = redraws and Counts(redraws["count"], redraws["converging"], redraws["kept"])
    begun = Counts(starts["known"], starts["converging"], starts["kept"])
    return Sure(document["converges"], document["kept"], drawn, begun)


# The verdicts on those settings of which the page's were compared.
COMPARED = []
# How many of them there must be of each.
LEAST = {"yes": 60, "no": 3, "uncertain": 6, "unknown": 20}


def mark_of(sure, sends_some):
    """The class and the words of the verdict in the large line."""
    if sure.kept in ("unknown", "uncertain"):
        return ["mark", sure.kept.capitalize()]
    if not sends_some:
        return ["mark", "Nothing to send"]
    if sure.is_good():
        return ["mark good", "Keeps the limit"]
    if sure.kept == "yes" and sure.converges == "uncertain":
        return ["mark", "Kept, perhaps not bounded"]
    return ["mark bad", "Misses the limit" if sure.kept == "no" else "Kept, but not bounded"]


def line_of(sure, is_beyond):
    """The line below it. The limit is missed with two standard errors of the downtime if that is beyond it then."""
    if sure.kept == "unknown":
        return ""
    errors = ", but not with 2 standard errors" * is_beyond
    is_half = sure.converges == "uncertain" != sure.kept
    return f"Kept: {sure.brief('kept')}{errors}{'; converges: ' + sure.brief('converging') if is_half else ''}"


def ending_of(sure, reason):
    counts = sure.words("converging")
    return {
        "yes": f"It converges, {counts}: {reason}.",
        "no": f"It does not converge (it does {counts}): {reason}.",
        "uncertain": f"It is uncertain whether it converges (it does {counts}): by the plan {reason}.",
    }[sure.converges]


def pause_of(sure, down, likely, limit, is_stopped=True):
    """The sentence on the downtime; `likely` is that with two standard errors, if it is beyond a limit that the plan
    keeps."""
    counts, most = sure.words("kept"), f"the limit of {time_text(limit)}"
    stands = "stands still for" if is_stopped else "is not stopped, and what is left would take"
    pause = f"he guest {stands} {time_text(down)}"
    if sure.kept == "yes":
        return f"T{pause}; {most} is kept, {counts}."
    if sure.kept == "no":
        return f"T{pause}; {most} is not kept (it is {counts})."
    errors = f" With two standard errors the downtime is {time_text(likely)}, and the limit is missed." * bool(likely)
    return f"By the plan t{pause}; it is uncertain whether {most} is kept (it is {counts}).{errors}"


def likely_beyond(asked, found, errors):
    """The downtime with two standard errors, if a limit is kept by the plan, and not with these; else 0. A hypervisor
    stops the guest only when what is left fits the limit."""
    likely = found["down"] + 2 * (errors or (0, 0, 0))[2]
    return likely if asked.clark and found["kept"] == "yes" and likely > asked.downtime else 0


def check_shown(asked, shown, figures, report, sure, errors, reason):
    """What the page shows of the verdicts on settings whose plan ends within the trace, or after it."""
    likely = likely_beyond(asked, figures, errors)
    mark, line = mark_of(sure, report["stop"]["total"] > 0), line_of(sure, likely > 0)
    if shown["mark"] != mark or shown["sure"] != line:
        raise Failure(f"the verdict is {shown['mark']}, {shown['sure']!r} in place of {mark}, {line!r}")
    if sure.kept != "unknown":
        is_stopped = bool(asked.clark) or report["stop"]["why"] == "few"
        words = f"{ending_of(sure, reason)} {pause_of(sure, figures['down'], likely, asked.downtime, is_stopped)}"
        if words not in shown["verdict"]:
            raise Failure(f"{shown['verdict']!r} in place of {words!r}")
    COMPARED.append(sure.kept)


def check_compared(tally):
    found = {verdict: COMPARED.count(verdict) for verdict in STATUSES}
    told = f"verdicts were compared: {found}, of {LEAST} at least"
    print(told)
    tally.add(all(found[verdict] >= count for verdict, count in LEAST.items()), told)


# ---- Verdicts of the examples.

UNSURE = "Enough for the limit: uncertain; give more of the link, or a longer downtime."
OVER_SQLITE = "trace=sqlite&link=64MiB&first=50&start=1000"
# Settings with the verdict, how sure that is, and what is said to be enough first. The second keeps its limit by its
# plan, in each redraw and from each start, but not with two standard errors of the downtime.
VERDICTS = [
    (
        f"{OVER_SQLITE}&downtime=300ms",
        ["mark good", "Keeps the limit"],
        "Kept: 20/20 redraws, 10/10 starts",
        "these settings.",
    ),
    (
        f"{OVER_SQLITE}&downtime=150ms",
        ["mark", "Uncertain"],
        "Kept: 20/20 redraws, 10/10 starts, but not with 2 standard errors",
        "uncertain; ",
    ),
    (
        f"{OVER_SQLITE}&downtime=10ms",
        ["mark", "Uncertain"],
        "Kept: 12/20 redraws, 3/9 starts",
        "by its plan alone, ",
    ),
    (
        "trace=gzip&link=2MB&downtime=4ms&first=40&start=400",
        ["mark bad", "Misses the limit"],
        "Kept: 0/13 starts",
        "by its plan alone, ",
    ),
]
BAR = "document.querySelector('#limit-bar rect:nth-of-type(2)').getAttribute('class')"
BARS = {"mark good": "kept", "mark bad": "missed", "mark": "unsure"}


def check_sure(page):
    """A verdict is sure only if nearly all redraws and starts have it, and a limit that is kept is with two standard
    errors too: in the large line, in the bar, in the reasons, in what is announced, and in what is enough. Until that
    is known it is told as that of the plan."""
    for fragment, mark, line, enough in VERDICTS:
        page.browser.value("document.getElementById('told').textContent = ''; 0")
        found = page.ask(fragment)
        page.rest()
        expect((found["mark"], found["sure"]) == (mark, line), f"{fragment}: {found['mark']}, {found['sure']!r}")
        expect(page.browser.value(BAR) == BARS[mark[0]], f"{fragment}: the bar is {page.browser.value(BAR)}")
        is_unsure = mark[1] == "Uncertain"
        for words in (found["comparison"]["downtime"][1], found["verdict"], page.browser.value("textOf('told')")):
            expect(("uncertain" in words.lower()) == is_unsure, f"{fragment}: {words!r}")
        said = page.enough()
        expect(said[0].startswith(f"Enough for the limit: {enough}"), f"{fragment}: {said}")
        expect((len(said) == 1) == (said[0] == UNSURE), f"{fragment}: {said}")


# Changes the most rounds, and tells what the verdict is until it is sure.
UNTIL_SURE = """(async () => {
  const said = new Set();
  const look = () => said.add([...document.querySelectorAll("#headline .mark, #headline .sure")]
    .flatMap(({ className, textContent }) => [className, textContent]).join("|"));
  const observer = new MutationObserver(look);
  observer.observe(document.getElementById("headline"), { childList: true, characterData: true, subtree: true,
    attributes: true });
  await after(() => {
    const field = document.getElementById("control-rounds");
    field.value = "29";
    field.dispatchEvent(new Event("input"));
  });
  observer.disconnect();
  return [...said];
})()"""


def check_until_sure(page):
    """Before it is known how sure a verdict is, it is told as that of the plan alone, and is neither good nor bad."""
    page.ask(f"{OVER_SQLITE}&downtime=300ms")
    page.rest()
    said = page.browser.value(UNTIL_SURE)
    wanted = [
        "mark|Keeps the limit\u00a0\u2026|sure|By the plan alone\u00a0\u2026",
        "mark good|Keeps the limit|sure|Kept: 20/20 redraws, 10/10 starts",
    ]
    expect(said == wanted, f"until a verdict is sure the page says {said}")


SURE = {"how sure verdicts are": check_sure, "a verdict until it is sure": check_until_sure}
