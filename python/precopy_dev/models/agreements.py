"""How sure an answer is, as `specs/Agreements.antt` of `predictions` defines it, by plans page by page.

It shares no code with the crate. The numbers in the crate's tests come from here.
"""

from typing import NamedTuple

from precopy_dev.models.courses import Course, Manner, Record, errors
from precopy_dev.models.redrawn import Settings
from precopy_dev.models.remedies import Trial, course, downtime, is_kept, settings


class Counts(NamedTuple):
    """Of some migrations: how many there are, how many end within the trace, converge, and keep their limit."""

    whole: int
    known: int
    converging: int
    kept: int


class Agreement(NamedTuple):
    """The counts of the draws, if pages were sampled, and of the starts that the record allows."""

    draws: Counts | None
    starts: Counts


def counts(record: Record, trial: Trial, plans: list[Course]) -> Counts:
    known = [plan for plan in plans if plan.stop <= record.last]
    converging = [plan for plan in known if plan.ending == "few"]
    kept = [plan for plan in known if is_kept(trial, plan)]
    return Counts(len(plans), len(known), len(converging), len(kept))


def is_sampled(trial: Trial) -> bool:
    return 2 <= trial.scale.sampled < trial.scale.guest and trial.scale.sampled <= 65_536


def with_less_link(asked: Settings) -> Settings:
    """The settings with a tenth less of the link."""
    most = max(1, asked.greatest * 9 // 10)
    least, threshold = min(asked.least, most), max(1, asked.threshold * most // asked.greatest)
    return asked._replace(least=least, greatest=most, threshold=threshold)


def draw_counts(record: Record, trial: Trial) -> Counts | None:
    """A hypervisor's yes has to hold in draws with a tenth less of the link."""
    if not is_sampled(trial):
        return None
    asked = settings(trial)
    if trial.manner is Manner.LOOKS and record.course(asked, trial.scale, trial.manner).ending == "few":
        asked = with_less_link(asked)
    return counts(record, trial, record.redrawn(asked, trial.scale, trial.manner))


def start_counts(record: Record, trial: Trial) -> Counts:
    """From the copy at the destination, or else tick 0, on: each twentieth of what is left of the trace, rounded up."""
    made, first = settings(trial), trial.others.base or 0
    every = max(1, -(-(record.last - first) // 20))
    starts = range(first, max(first, record.last) + 1, every)
    plans = [record.course(made._replace(start=start), trial.scale, trial.manner) for start in starts]
    found = counts(record, trial, plans)
    return found._replace(whole=found.known)


def agreement(guest: list[list[int]], trial: Trial) -> Agreement:
    record = Record(guest)
    return Agreement(draw_counts(record, trial), start_counts(record, trial))


def agrees(found: Agreement, name: str, answer: str) -> bool:
    """Whether 19 of 20 draws, and 19 in 20 of the starts, have an answer to a question: `converging` or `kept`."""
    for each in (found.draws, found.starts):
        if each is not None:
            same = getattr(each, name) if answer == "yes" else each.known - getattr(each, name)
            if 20 * same < 19 * each.whole:
                return False
    return True


def sure(found: Agreement, name: str, answer: str) -> str:
    return answer if answer == "unknown" or agrees(found, name, answer) else "uncertain"


def converges(guest: list[list[int]], trial: Trial, found: Agreement) -> str:
    record = Record(guest)
    return sure(found, "converging", record.verdict(course(record, trial)))


def kept(guest: list[list[int]], trial: Trial, found: Agreement) -> str:
    """A limit is kept for sure with two standard errors of the downtime, if the plan goes by rounds. A hypervisor stops
    the guest only when what is left fits the limit."""
    record = Record(guest)
    plan = course(record, trial)
    if plan.stop > record.last:
        return "unknown"
    if not is_kept(trial, plan):
        return sure(found, "kept", "no")
    if trial.manner is Manner.ROUNDS and is_sampled(trial):
        error = errors(guest, settings(trial), trial.scale, trial.manner)[2]
        if downtime(trial, plan) + 2 * error > trial.limits.downtime:
            return "uncertain"
    return sure(found, "kept", "yes")
